"""How a hall is called: by names and addresses, encrypted by itself, or with nginx in front by the lines that
docs/HALL.md shows. nginx is installed where that may be done."""
import contextlib
import http.client
import pathlib
import re
import signal
import socket
import ssl
import subprocess
from collections.abc import Iterator

from office.called import Called, called_by
from office.messages import Request
from office.serving import token_of
from outside.hall.browser import Browser, Driver
from outside.hall.opened import Hall, until_there
from outside.hall.pages import Page, complaints
from outside.hall.refusing import raw, request, status
from outside.measure import papers
from outside.trying import EXAMPLES, ROOT, Tally, installed, run

NAME, MACHINE, SILENT = 'hall.example', '127.0.0.3', 30
STRICT = 'max-age=86400'


def certificate(folder: pathlib.Path) -> tuple[pathlib.Path, pathlib.Path]:
    """A certificate for the hall's name and for this machine, and its key."""
    made, key = folder / 'hall.crt', folder / 'hall.key'
    subprocess.run(['openssl', 'req', '-x509', '-newkey', 'ec', '-pkeyopt', 'ec_paramgen_curve:prime256v1', '-nodes',
                    '-days', '2', '-subj', f'/CN={NAME}', '-addext', f'subjectAltName=DNS:{NAME},IP:127.0.0.1',
                    '-out', made, '-keyout', key], check=True, capture_output=True)
    return made, key


def free_port() -> int:
    with socket.create_server(('127.0.0.1', 0)) as made:
        return made.getsockname()[1]


class Secure:
    """A candidate without a browser who asks over TLS, and knows the certificate."""

    def __init__(self, port: int, known: pathlib.Path, name: str, machine: str = '127.0.0.1'):
        self.port, self.name, self.machine = port, name, machine
        self.context = ssl.create_default_context(cafile=str(known))

    def ask(self, method: str, path: str, body: str | None = None, **headers: str) -> http.client.HTTPResponse:
        made = socket.create_connection(('127.0.0.1', self.port), timeout=30, source_address=(self.machine, 0))
        asked = http.client.HTTPSConnection(self.name, self.port, context=self.context)
        asked.sock = self.context.wrap_socket(made, server_hostname=self.name)
        asked.request(method, path, body, headers)
        return asked.getresponse()


def enters(tally: Tally, hall: Hall, asks: Secure, port: int) -> None:
    """A ticket, the cookie that comes back, and a move with it."""
    reply = asks.ask('POST', '/enter', f'ticket={hall.tickets["anna"]}')
    cookie = f'__Host-ticket-{port}={hall.tickets["anna"]}'
    tally.check('the cookie', reply.status == 303 and reply.headers['Set-Cookie'] ==
                f'{cookie}; HttpOnly; SameSite=Strict; Path=/; Secure', reply.headers.items())
    tally.check('nothing but encrypted', reply.headers['Strict-Transport-Security'] == STRICT, reply.headers.items())
    origin = f'https://{asks.name}:{port}' if port != 443 else f'https://{asks.name}'
    told = {'Cookie': cookie, 'Sitting': token_of(hall.tickets['anna']), 'Origin': origin}
    tally.check('a move', asks.ask('POST', '/move', 'put 3 at 0', **told).status == 200)
    for bad in (origin.replace('https', 'http'), 'https://desk.example'):
        tally.check(f'not from {bad}', asks.ask('POST', '/move', 'put 4 at 1', **{**told, 'Origin': bad}).status == 421)
    tally.check('one move', hall.moves('anna') == ['put 3'], hall.moves('anna'))


def sat(tally: Tally, driver: Driver, hall: Hall, step: str, gaps: list[int]) -> None:
    """A sitting in a browser, from the ticket to handing in."""
    seen = Browser(driver, 1200, 800, '--ignore-certificate-errors', f'--host-resolver-rules=MAP {NAME} 127.0.0.1')
    page = Page(tally, seen, hall, 'bert')
    page.enter()
    page.shows(f'{step}: nothing put')
    for gap in gaps:
        page.turn(gap)
    page.take_back()
    seen.click('#hand')
    seen.click('#yes')
    page.handed_in = 'Handed in. '
    page.shows(f'{step}: handed in', f'Handed in: a barrier in gap {gaps[0]}.')
    tally.check(f'{step}: no cookie for scripts', seen.script('return document.cookie') == '')
    told = complaints(seen)
    tally.check(f'{step}: no complaint', told == [], told)


def by_itself(tally: Tally, driver: Driver, folder: pathlib.Path) -> None:
    """TLS in the process; who does not speak it, or says nothing, holds nobody up."""
    known, key = certificate(folder)
    hall = Hall(folder / 'tls', papers.text('mixed'), ['anna', 'bert'],
                more=['--certificate', str(known), '--key', str(key), '--name', NAME]).start()
    tally.check('the address', hall.address == f'https://{NAME}:{hall.port}/', hall.address)
    silent = [socket.create_connection(('127.0.0.1', hall.port)) for _ in range(SILENT)]
    plain = raw(hall.port, request(hall, 'GET', '/sitting'))
    tally.check('not in plain words', b'HTTP' not in plain, plain)
    asks = Secure(hall.port, known, '127.0.0.1')
    enters(tally, hall, asks, hall.port)
    reply = asks.ask('POST', '/move', 'put ' + '9' * 2_000)
    tally.check('refused, in words', reply.status == 413 and b'role="alert"' in reply.read())
    cookie = {'Cookie': f'__Host-ticket-{hall.port}={hall.tickets["anna"]}'}
    page = asks.ask('GET', '/', **cookie)
    tally.check('a full-size page', page.status == 200 and page.read().endswith(b'</html>\n'))
    sat(tally, driver, hall, 'TLS', [128, 255])
    tally.check('Ctrl-C', hall.end(signal.SIGINT) == 0)
    tally.check('nothing to complain about', hall.complaints() == '', hall.complaints())
    for made in silent:
        made.close()


@contextlib.contextmanager
def nginx(folder: pathlib.Path, port: int, hall: int) -> Iterator[None]:
    """nginx by the lines of docs/HALL.md, at a port, before a hall at another; with the files of a test."""
    lines = re.search(r'```nginx\n(.*?)```', (ROOT / 'docs' / 'HALL.md').read_text(), re.S)[1]
    for told, here in (('listen 443 ssl', f'listen 127.0.0.1:{port} ssl'), ('127.0.0.1:8000', f'127.0.0.1:{hall}'),
                       ('/etc/ssl/', f'{folder}/')):
        assert told in lines
        lines = lines.replace(told, here)
    file = folder / 'nginx.conf'
    kinds = ('client_body', 'proxy', 'fastcgi', 'uwsgi', 'scgi')
    places = ''.join(f'{kind}_temp_path {folder}/{kind};\n' for kind in kinds)
    file.write_text(f'daemon off;\npid {folder}/nginx.pid;\nerror_log {folder}/nginx.log;\nevents {{}}\n'
                    f'http {{\naccess_log off;\n{places}{lines}}}\n')
    process = subprocess.Popen(['nginx', '-p', folder, '-c', file, '-e', folder / 'nginx.log'])
    try:
        assert until_there(lambda: not socket.socket().connect_ex(('127.0.0.1', port)))
        yield
    finally:
        process.terminate()
        process.wait()


def in_front(tally: Tally, driver: Driver, folder: pathlib.Path) -> None:
    """nginx in front: the hall is called by its address, hears from which machine, and is called no other way."""
    if not installed(['nginx'], ['nginx']):
        print('nginx in front of a hall was not tried: it is not here, nor could it be installed')
        return
    known, _ = certificate(folder)
    port, own = free_port(), free_port()
    hall = Hall(folder / 'front', EXAMPLES['p'], ['anna', 'bert'], more=['--address', f'https://{NAME}:{port}'],
                port=own).start()
    tally.check('the address', hall.address == f'https://{NAME}:{port}/', hall.address)
    with nginx(folder, port, own):
        enters(tally, hall, Secure(port, known, NAME, MACHINE), port)
        entered = [line.split('\t')[3] for line in hall.log.read_text().splitlines() if '\tenter\t' in line]
        tally.check('from which machine', entered == [MACHINE], entered)
        sat(tally, driver, hall, 'nginx', [5, 11])
    reply = raw(own, request(hall, 'GET', '/', Host=f'127.0.0.1:{own}'))
    tally.check('not without it', status(reply) == 421 and hall.address.encode() in reply, reply)
    tally.check('nothing to complain about', hall.complaints() == '', hall.complaints())
    hall.end()


def over_ipv6(tally: Tally, folder: pathlib.Path) -> None:
    """A hall at an address of IPv6, if the machine has any."""
    try:
        socket.create_server(('::1', 0), family=socket.AF_INET6).close()
    except OSError:
        print('IPv6 was not tried: this machine has none')
        return
    hall = Hall(folder / 'six', EXAMPLES['p'], ['anna'], more=['--bind', '::1']).start()
    tally.check('the address of IPv6', hall.address == f'http://[::1]:{hall.port}/', hall.address)
    asked = http.client.HTTPConnection('::1', hall.port, timeout=30)
    asked.request('GET', '/sitting', headers=hall.whose('anna'))
    reply = asked.getresponse()
    tally.check('answered over IPv6', reply.status == 200 and b'"gaps":[]' in reply.read())
    hall.end()


def from_where(tally: Tally, _: pathlib.Path) -> None:
    """The machine that something in front tells of counts only where there is such a thing, on this machine."""
    here, front = Called('http', ('localhost',), 80), called_by(f'https://{NAME}')
    for called, address, told, wanted in (
            (here, '127.0.0.1', MACHINE, '127.0.0.1'), (front, '192.168.1.5', MACHINE, '192.168.1.5'),
            (front, '127.0.0.1', f'192.168.1.5, {MACHINE}', MACHINE), (front, '::1', '2001:DB8::1', '2001:db8::1'),
            (front, '127.0.0.1', 'desk', '127.0.0.1'), (front, '127.0.0.1', '', '127.0.0.1')):
        found = called.machine(address, Request('GET', '', '/', {'x-forwarded-for': [told]}, '', False))
        tally.check(f'{told} by {address}', found == wanted, found)


def wrong(tally: Tally, folder: pathlib.Path) -> None:
    """What cannot be an address, a name or a certificate is told at the start, and nothing is left behind."""
    known, key = certificate(folder)
    locked, other = folder / 'locked.key', folder / 'other'
    other.mkdir()
    _, another = certificate(other)
    subprocess.run(['openssl', 'ec', '-in', key, '-out', locked, '-aes256', '-passout', 'pass:desk'], check=True,
                   capture_output=True)
    hall = Hall(folder / 'wrong', EXAMPLES['p'], ['anna'])
    both = ['--certificate', str(known), '--key']
    cases = [*((['--name', name], 'is no name') for name in ('', 'a b<c>', 'hall.example.', '1.2.3', 'hölle')),
             *((['--address', address], 'is no address') for address in (
                 '', NAME, 'ftp://a', 'https://a/b', 'https://a:0', 'https://a:70000')),
             *((['--address', address], 'is no name') for address in ('https://', 'https://a@b'))]
    for more, word in [*cases, (['--certificate', str(known)], 'go together'), (['--key', str(key)], 'go together'),
                       ([*both, str(folder / 'none')], 'No such file'), ([*both, str(known)], 'cannot encrypt'),
                       ([*both, str(another)], 'cannot encrypt'), ([*both, str(locked)], 'cannot encrypt'),
                       ([*both, str(key), '--address', f'http://{NAME}'], '--address says http'),
                       (['--address', f'https://{NAME}', '--name', NAME], 'has no place'),
                       (['--bind', '0.0.0.0'], 'say by --name'), (['--bind', '::'], 'say by --name'),
                       (['--port', '70000'], 'cannot listen'), (['--port', 'x'], 'invalid int'),
                       (['--bind', '203.0.113.1'], 'cannot listen')]:
        seen = run(*hall.command, *more)
        tally.check(' '.join(more), seen.failed(word), seen)
    tally.check('nothing is left behind', not hall.answers.exists())
    with socket.create_server(('127.0.0.1', 0)) as taken:
        seen = run(*hall.command, '--port', str(taken.getsockname()[1]))
    tally.check('a port in use', seen.failed('cannot listen') and not hall.answers.exists(), seen)
    seen = run(*hall.command, shell='"$@" >/dev/full')
    tally.check('nobody to tell', seen.failed('not written') and not hall.answers.exists(), seen)
