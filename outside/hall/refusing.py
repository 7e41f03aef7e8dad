"""Requests that a hall must refuse: by the wrong name, without a ticket, too long, off the routes, or of no sense."""
import pathlib
import random
import signal
import socket
import threading
import time

from outside.hall.opened import Candidate, Hall, until_there
from outside.trying import EXAMPLES, Tally

RANDOM, GONE = 10_000, 20


def raw(port: int, data: bytes, wait: bool = True, ends: bool = True) -> bytes:
    """All that comes back for some bytes, after which nothing is said, or perhaps something."""
    with socket.create_connection(('127.0.0.1', port), timeout=30) as made:
        got = b''
        try:
            made.sendall(data)
            if wait:
                if ends:
                    made.shutdown(socket.SHUT_WR)
                while some := made.recv(1 << 16):
                    got += some
        except ConnectionError:
            pass  # refused while we were still talking
        return got


def request(hall: Hall, method: str, path: str, body: bytes = b'', **told: str) -> bytes:
    """A request in order, but for what is told; an empty header is left out."""
    headers = {'Host': f'127.0.0.1:{hall.port}', **hall.whose('anna'), 'Content_Length': str(len(body)), **told}
    lines = [f'{method} {path} HTTP/1.1', *(f'{name.replace("_", "-")}: {value}' for name, value in headers.items()
                                            if value), 'Connection: close', '', '']
    return '\r\n'.join(lines).encode('latin-1') + body


def status(reply: bytes) -> int:
    return int(reply[9:12]) if reply.startswith(b'HTTP/1.1 ') else 0


Case = tuple[int, str, str, str, bytes, dict[str, str]]
MOVE = ('POST', '/move', b'put 5 at 1')


def wrongly_called(hall: Hall) -> list[Case]:
    """By a name that is not the hall's, or from a page that is not."""
    here = f'127.0.0.1:{hall.port}'
    return [(421, 'another name', *MOVE, {'Host': f'desk.example:{hall.port}'}),
            (421, 'no port', *MOVE, {'Host': '127.0.0.1'}), (421, 'no name', *MOVE, {'Host': ''}),
            (421, 'two names', *MOVE, {'host': here}),
            *((421, f'from {origin}', *MOVE, {'Origin': origin}) for origin in (
                'http://desk.example', f'http://127.0.0.1:{hall.port + 1}', f'http://localhost:{hall.port}',
                f'https://{here}', 'null')),
            *((421, f'whole, of {address}', 'GET', f'{address}/sitting', b'', {}) for address in (
                'http://desk.example', 'http://127.0.0.1', f'https://{here}'))]


def without_ticket(hall: Hall) -> list[Case]:
    """Without a ticket, or with the page of one and the ticket of another."""
    cookie, (own, other) = f'ticket-{hall.port}', (hall.whose(name) for name in ('anna', 'bert'))
    return [(403, 'no cookie', *MOVE, {'Cookie': ''}), (403, 'a cookie of nobody', *MOVE, {'Cookie': f'{cookie}=a'}),
            (403, 'the cookie of another hall', *MOVE, {'Cookie': own['Cookie'].replace(cookie, 'ticket-1')}),
            (403, 'two cookies', *MOVE, {'Cookie': f'{own["Cookie"]}; {other["Cookie"]}'}),
            (403, 'no cookie, what is', 'GET', '/sitting', b'', {'Cookie': ''}),
            (403, 'no cookie, the page', 'GET', '/', b'', {'Cookie': ''}),
            (403, 'no cookie, handing in', 'POST', '/hand-in', b'hand in at 0', {'Cookie': ''}),
            *((403, f'{name}, {path}', method, path, body, told) for method, path, body in (
                MOVE, ('GET', '/sitting', b''), ('POST', '/hand-in', b'hand in 2 at 1'), ('POST', '/hand-in', b''))
              for name, told in (('the page of another', {'Sitting': other['Sitting']}), ('no page', {'Sitting': ''}),
                                 ('two pages', {'sitting': own['Sitting']}),
                                 ('the cookie of another', {'Cookie': other['Cookie']}))),
            (403, 'no such ticket', 'POST', '/enter', b'ticket=aaaa-aaaa-aaaa-aaaa', {'Cookie': ''}),
            (403, 'no ticket', 'POST', '/enter', b'', {}),
            (403, 'two tickets', 'POST', '/enter', b'ticket=a&ticket=a', {})]


def of_no_sense() -> list[Case]:
    """Too long, of no length, or no act; or an act on another sitting than the one that is there."""
    acts = ('', 'put', 'put 5', 'put 5 at', 'put 5 at -1', 'at 1', 'put -1 at 1', 'put 1000 at 1', 'put 05 at 1',
            'put 5 at 1\n', 'PUT 5 at 1', 'put 5 6 at 1', 'plan at 1', 'key at 1', 'write at 1', 'hand in 2 at 1')
    ends = ('', 'hand in', 'hand in 2', 'hand in at -1', 'hand in 02 at 1', 'hand in 2, 3 at 1', 'put 5 at 1')
    return [(409, 'another sitting', 'POST', '/hand-in', b'hand in 2 at 999', {}),
            (409, 'another placement', 'POST', '/hand-in', b'hand in 3 at 1', {}),
            (409, 'a page that is behind', 'POST', '/move', b'put 5 at 0', {}),
            (409, 'a page that is ahead', 'POST', '/move', b'take back at 2', {}),
            (413, 'a long body', 'POST', '/move', b'put 5 at 1' + b' ' * 1020, {}),
            (413, 'a long ticket', 'POST', '/enter', b'ticket=' + b'a' * 1020, {}),
            (413, 'a body that is never sent', *MOVE, {'Content_Length': '999999999'}),
            (413, 'a length that is none', *MOVE, {'Content_Length': '-5'}),
            (411, 'no length', *MOVE, {'Content_Length': ''}), (411, 'two lengths', *MOVE, {'content-length': '10'}),
            (411, 'in chunks', *MOVE, {'Transfer-Encoding': 'chunked'}),
            (400, 'a body cut off', *MOVE, {'Content_Length': '11'}),
            (400, 'no ASCII', 'POST', '/move', b'put \xb2 at 1', {}),
            (431, 'many headers', *MOVE, {f'X{i}': 'y' for i in range(200)}),
            (414, 'a long path', 'GET', '/' + 'a' * 70_000, b'', {}),
            *((400, word, 'POST', '/move', word.encode(), {}) for word in acts),
            *((400, word, 'POST', '/hand-in', word.encode(), {}) for word in ends)]


def off_the_routes(hall: Hall) -> list[Case]:
    """No page, no file, and no other method."""
    paths = ('/answers', '/tickets.csv', '/sitting.log', '/anna.hex', '/key', '/../desk', '/%2e%2e/desk', '/..%2fdesk',
             '/hall.css/../sitting.log', '/served/sitting.html', '/sitting?', '/sitting/', '/?x',
             '/?', '/?loop=2', '/?loop=', '/?loop=01', '/?loop=+1', '/?loop=1&', '/?loop=1&unfold=', '/?unfold',
             '/?loop=1&unfold&unfold', '/?unfold&loop=1', '/?loop=256', '/?loop=1000', '/?loop=%31', '/?loop=1&x',
             '//?loop=1', '/listing?', '/listing?loop=1',
             f'http://127.0.0.1:{hall.port}/desk', '/\\..\\desk', '*')
    others = [('GET', '/move'), ('HEAD', '/hand-in'), *(
        ('POST', path) for path in ('/', '/?loop=1', '/listing', '/print', '/sitting')), *(
        (method, '/sitting') for method in ('PUT', 'DELETE', 'OPTIONS', 'TRACE', 'CONNECT', 'PATCH'))]
    return [*((404, path, 'GET', path, b'', {}) for path in paths),
            *((404, path, 'POST', path, b'put 5 at 1', {}) for path in ('/move/', '/../move')),
            *((405, f'{method} {path}', method, path, b'', {}) for method, path in others),
            *((501, method, method, '/sitting', b'', {}) for method in ('get', 'PROPFIND', 'BREW'))]


def bad_requests(tally: Tally, hall: Hall) -> None:
    """Each is refused, with its status, and nothing is moved. Where a person could see it, in words with a way back."""
    here = f'127.0.0.1:{hall.port}'
    cases = [*wrongly_called(hall), *without_ticket(hall), *of_no_sense(), *off_the_routes(hall)]
    for wanted, name, method, path, body, told in cases:
        reply = raw(hall.port, request(hall, method, path, body, **told))
        holds = status(reply) == wanted and (b'"gaps"' not in reply or wanted == 409)
        tally.check(f'{name}: {wanted}', holds and b'Set-Cookie' not in reply, reply)
        if wanted in (404, 405, 413, 421) and method != 'HEAD':
            way = f'href="{f"http://{here}/" if wanted == 421 else "/"}"'
            tally.check(f'{name}: in words', b'<p role="alert">' in reply and way.encode() in reply, reply)
            tally.check(f'{name}: what can be asked', (b'\r\nAllow: ' in reply) == (wanted == 405), reply)
    for ticket, name in (('anna', 'bert'), ('bert', 'anna')):
        told, wanted = Candidate(hall, ticket).ask('/sitting')[1], {'anna': [2], 'bert': [3, 7]}[ticket]
        tally.check(f'{ticket} does not see what {name} has', told['gaps'] == wanted, told)


def odd_requests(tally: Tally, hall: Hall) -> None:
    """Requests that are not as the standard has them: each is refused once, and the connection ends."""
    whole, port = request(hall, 'POST', '/move', b'put 5 at 0'), hall.port
    head, _, body = whole.partition(b'\r\n\r\n')

    def more(*lines: bytes) -> bytes:
        return b'\r\n'.join([head, *lines, b'', body])

    def instead(old: bytes, new: bytes) -> bytes:
        assert whole.count(old) == 1
        return whole.replace(old, new)

    length, name = b'Content-Length: 10', b'Host: 127.0.0.1:%d' % port
    cases = [(400, 'HTTP/0.9', b'GET /sitting\r\n'), (400, 'HTTP/0.9, with headers', instead(b' HTTP/1.1', b'')),
             *((505, version, instead(b'HTTP/1.1', version)) for version in (b'HTTP/2.0', b'HTTP/1.2', b'HTTP/0.9')),
             *((400, version, instead(b'HTTP/1.1', version)) for version in (
                 b'HTTP/9', b'HTTP/1.1.1', b'HTTP/11', b'http/1.1', b'HTTP/1.1 ', b'HTTP/1.x', b'HTTPS/1.1')),
             (400, 'two spaces', instead(b'POST ', b'POST  ')), (400, 'a tab', instead(b'POST ', b'POST\t')),
             (400, 'a space first', b' ' + whole), (400, 'two lines first', b'\r\n\r\n' + whole),
             (400, 'a method that is none', instead(b'POST', b'PO(ST')), (501, 'no method', instead(b'POST', b'POSTS')),
             (400, 'a NUL in the path', instead(b'/move', b'/mo\0ve')), (400, 'no path', instead(b'/move ', b'')),
             (400, 'a letter that is none', instead(b'/move', b'/mov\xe9')),
             (400, 'a space before the colon', instead(b'Host:', b'Host :')),
             (400, 'a space before the name', instead(b'Host:', b' Host:')),
             (400, 'a tab before the colon', instead(length, length.replace(b':', b'\t:'))),
             (400, 'a folded line', instead(b'Cookie: ', b'Cookie:\r\n ')),
             (400, 'a folded line, at the end', more(b'\tchunked')),
             (400, 'a bare LF', instead(b'\r\nCookie', b'\nCookie')), (400, 'all bare', whole.replace(b'\r\n', b'\n')),
             (400, 'a bare LF in a value', instead(length, length + b'\nX: y')),
             (400, 'a bare CR', instead(b'\r\nCookie', b'\rCookie')), (400, 'a CR at the end', more(b'X: y\r')),
             (400, 'a NUL in a value', more(b'X: \0')), (400, 'a NUL in a name', more(b'X\0: y')),
             (400, 'a control in a value', more(b'X: \x7f')), (400, 'no colon', more(b'X')),
             (400, 'no name', more(b': y')), (400, 'cut off in the head', head[:-3]), (400, 'a line alone', b'\r\n'),
             (417, 'is it expected?', more(b'Expect: 100-continue')), (417, 'what is expected?', more(b'expect: tea')),
             *((411, coding, more(b'Transfer-Encoding: ' + coding)) for coding in (b'chunked', b'identity', b'')),
             (411, 'in chunks, no length', instead(length, b'transfer-encoding: chunked')),
             (411, 'the same length twice', more(length)), (411, 'two lengths', more(b'content-length: 6')),
             *((413, value, instead(length, b'Content-Length:' + value)) for value in (
                 b'', b'+5', b'5, 5', b'5 5', b'0x5', b'5.0', b'\xd9\xa5', b'5;', b'00000000005', b'1025')),
             (421, 'the same name twice', more(name)), (421, 'a dot behind the name', instead(name, name[:5] + b'.')),
             (421, 'a path in the name', instead(name, name + b'/')), (421, 'an empty name', instead(name, b'Host:')),
             (421, 'two origins', more(*[b'Origin: http://127.0.0.1:%d' % port] * 2)),
             (403, 'two lines of cookies', more(b'Cookie: ' + hall.whose('anna')['Cookie'].encode())),
             (431, 'a long header', more(b'X: ' + b'y' * 20_000)), (431, 'a long name', more(b'X' * 20_000)),
             (431, 'no end', whole[:40] + b'X: y\r\n' * 9_000)]
    for wanted, name, data in cases:
        reply = raw(port, data)
        once = reply.count(b'HTTP/1.1 ') == 1 and b'\r\nConnection: close\r\n' in reply
        tally.check(f'{name}: {wanted}', status(reply) == wanted and once and b'"gaps"' not in reply, reply)
        if wanted not in (400, 403):
            tally.check(f'{name}: at once', status(raw(port, data, ends=False)) == wanted)


def good_requests(tally: Tally, hall: Hall) -> None:
    """Requests that are unusual and right."""
    here = f'127.0.0.1:{hall.port}'
    whole = request(hall, 'GET', '/sitting')
    asked = raw(hall.port, whole)
    for name, data in (('whole', request(hall, 'GET', f'http://{here}/sitting')), ('a line first', b'\r\n' + whole),
                       ('in capitals', request(hall, 'GET', f'HTTP://{here}/sitting', Host=here)),
                       ('from its own page', request(hall, 'GET', '/sitting', Origin=f'http://{here}')),
                       ('by the other name', request(hall, 'GET', '/sitting', Host=f'LocalHost:{hall.port}'))):
        reply = raw(hall.port, data)
        tally.check(name, status(reply) == 200 and reply.endswith(asked.partition(b'\r\n\r\n')[2]), reply)
    head = raw(hall.port, request(hall, 'HEAD', '/sitting'))
    length = b'Content-Length: %d\r\n' % len(asked.partition(b'\r\n\r\n')[2])
    tally.check('the head alone', status(head) == 200 and head.endswith(b'\r\n\r\n') and length in head, head)
    for header in (b'Cross-Origin-Opener-Policy: same-origin', b'Cache-Control: no-store', b'nosniff'):
        tally.check(f'{header.decode()} is told', header in asked, asked)


def random_requests(tally: Tally, hall: Hall) -> None:
    """Bytes of any sort, and requests put together at random or with a byte changed, all without a ticket."""
    rng = random.Random(1)
    words = ['GET', 'POST', '/', '/move', '/sitting', '/hand-in', '/enter', 'HTTP/1.1', 'HTTP/1.0', 'HTTP/9', 'Host:',
             f'127.0.0.1:{hall.port}', 'Cookie:', 'ticket=', 'ticket=aaaa', 'Content-Length:', '5', '-1', '64', '99999',
             'put 5 at 1', 'take back at 1', 'Sitting:', '\r\n', '\r\n\r\n', ' ', '\0', 'é', '..', '%00',
             'Expect: 100-continue', 'x' * 300]
    whole = request(hall, 'POST', '/move', b'put 5 at 1', Cookie=f'ticket-{hall.port}=aaaa-aaaa-aaaa-aaaa')

    def one() -> bytes:
        sort = rng.randrange(3)
        if sort == 0:
            return rng.randbytes(rng.randrange(1, 200))
        if sort == 1:
            return ' '.join(rng.choices(words, k=rng.randrange(1, 16))).encode()
        at, much = rng.randrange(len(whole)), rng.randrange(3)
        return whole[:at] + rng.randbytes(rng.randrange(3)) + whole[at + much:]

    wrong: list[bytes] = []
    lock = threading.Lock()

    def some(many: int) -> None:
        for _ in range(many):
            with lock:
                data = one()
            reply = raw(hall.port, data)
            if reply and status(reply) < 400 or b'"gaps"' in reply or b'Set-Cookie' in reply:
                wrong.append(data)

    threads = [threading.Thread(target=some, args=[RANDOM // 4]) for _ in range(4)]
    begun = time.monotonic()
    for thread in threads:
        thread.start()
    for thread in threads:
        thread.join()
    print(f'{RANDOM:,} random requests: {time.monotonic() - begun:.0f} s')
    tally.check('nothing but refusals', not wrong, wrong[:3])


def rude(tally: Tally, hall: Hall) -> None:
    """Candidates who go away before they are answered, and connections on which nothing is said."""
    silent = [socket.create_connection(('127.0.0.1', hall.port)) for _ in range(GONE)]
    for turn in range(GONE):
        move = f'{("lift", "put")[turn % 2]} 2 at {turn + 1}'
        raw(hall.port, request(hall, 'POST', '/move', move.encode()), wait=False)
    for made in silent:
        made.close()
    candidate = Candidate(hall, 'anna')
    tally.check('the hall lives', until_there(lambda: candidate.ask('/sitting')[1]['moves'] == GONE + 1))


def unmoved(tally: Tally, folder: pathlib.Path) -> None:
    """All that is bad, one after the other, in a hall with two candidates."""
    hall = Hall(folder / 'bad', EXAMPLES['p'], ['anna', 'bert']).start()
    for name, gap in (('anna', 2), ('bert', 3), ('bert', 7)):
        Candidate(hall, name).move(f'put {gap}')
    log = (hall.answers / 'sitting.log').read_bytes()
    bad_requests(tally, hall)
    odd_requests(tally, hall)
    good_requests(tally, hall)
    random_requests(tally, hall)
    tally.check('the log is as it was', (hall.answers / 'sitting.log').read_bytes() == log)
    tally.check('nothing was handed in', not [*hall.answers.glob('*.hex')])
    rude(tally, hall)
    tally.check('nothing to complain about', hall.complaints() == '', hall.complaints())
    modes = {file.stat().st_mode & 0o077 for file in hall.answers.iterdir()}
    tally.check('nobody else reads what is kept', modes == {0}, modes)
    tally.check('Ctrl-C', hall.end(signal.SIGINT) == 0)
