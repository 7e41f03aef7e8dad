"""Connections of every sort with a hall: requests that come at once or byte by byte, readers that are slow, silent
ones, too many; moves that cannot be kept among many others; a fault of the hall's own."""
import contextlib
import json
import os
import pathlib
import signal
import socket
import time

from outside.hall.opened import Candidate, Hall, hands_in
from outside.hall.refusing import raw, request, status
from outside.trying import EXAMPLES, Tally

PIPELINED, MANY, MOST, IDLE, FLOOD, GROWTH = 60, 40, 20, 3, 64 << 20, 16 << 20
# The disk has a fault while a file is there, and is slow while another is.
DISK = """
import time
whole = os.fsync
def fsync(file):
    if os.path.exists({0!r} + '/is broken'):
        raise OSError(5, 'Input/output error')
    if os.path.exists({0!r} + '/is slow'):
        time.sleep(0.3)
    whole(file)
os.fsync = fsync
"""
# The sitting of a candidate cannot be told while a file is there.
FAULT = """
import office.told
told = office.told.sitting_told
def fails(sitting, *more):
    if sitting.candidate == 'anna' and os.path.exists({0!r} + '/is at fault'):
        raise ZeroDivisionError('at fault')
    return told(sitting, *more)
office.told.sitting_told = fails
"""
LIMIT = """
import office.room
office.room.{} = {}
"""
# How long a test waits for what must come.
PATIENCE = 30


class Line:
    """A connection that is spoken to by hand."""

    def __init__(self, hall: Hall, name: str = 'anna'):
        self.hall, self.name = hall, name
        self.made = socket.create_connection(('127.0.0.1', hall.port), timeout=30)
        self.made.setsockopt(socket.IPPROTO_TCP, socket.TCP_NODELAY, 1)
        self.got, self.moves, self.gaps = b'', 0, []
        self.whose = ''.join(f'{header}: {value}\r\n' for header, value in hall.whose(name).items())

    def spelled(self, method: str, path: str, body: str = '') -> bytes:
        return (f'{method} {path} HTTP/1.1\r\nHost: 127.0.0.1:{self.hall.port}\r\nContent-Length: {len(body)}\r\n'
                f'{self.whose}\r\n{body}').encode()

    def spelled_move(self, move: str, at: int) -> bytes:
        return self.spelled('POST', '/move', f'{move} at {at}')

    def click(self, move: str) -> None:
        """Asks for a move, by the sitting that was last told."""
        self.made.sendall(self.spelled_move(move, self.moves))

    def hand_in(self) -> None:
        self.made.sendall(self.spelled('POST', '/hand-in', hands_in(self.gaps, self.moves)))

    def reply(self) -> tuple[int, dict]:
        """The next reply: its status, and what is told."""
        while b'\r\n\r\n' not in self.got:
            self.more()
        head, _, self.got = self.got.partition(b'\r\n\r\n')
        length = int(head.partition(b'Content-Length: ')[2].split()[0])
        while len(self.got) < length:
            self.more()
        body, self.got = self.got[:length], self.got[length:]
        told = json.loads(body) if body.startswith(b'{') else {}
        self.moves, self.gaps = told.get('moves', self.moves), told.get('gaps', self.gaps)
        return int(head[9:12]), told

    def more(self) -> None:
        some = self.made.recv(1 << 16)
        if not some:
            raise ConnectionError
        self.got += some

    def ended(self, seconds: float) -> bool:
        """Whether the hall ends the connection within so many seconds."""
        self.made.settimeout(seconds)
        try:
            while self.made.recv(1 << 16):
                pass
        except TimeoutError:
            return False
        except ConnectionError:
            pass
        return True


def in_order(tally: Tally, folder: pathlib.Path) -> None:
    """Requests that come at once are answered one after the other, also when some are for the same sitting; so is a
    request that comes byte by byte."""
    hall = Hall(folder / 'order', EXAMPLES['p'], ['anna', 'bert']).start()
    line, *others = Line(hall), Line(hall, 'bert'), Line(hall, 'bert')
    moves = [f'{word} {gap % 13 + 1}' for gap in range(PIPELINED // 2) for word in ('put', 'lift')]
    for some in (line, *others):
        some.made.sendall(b''.join(some.spelled_move(move, at) for at, move in enumerate(moves)))
    line.made.sendall(line.spelled('GET', '/sitting'))
    replies = [line.reply() for _ in moves]
    seen = [(status, told['moves'], told['gaps'], f'gap {move.split()[1]} ' in told['said'].replace('.', ' '))
            for (status, told), move in zip(replies, moves)]
    wanted = [(200, number, [int(move.split()[1])] * (number % 2), True) for number, move in enumerate(moves, 1)]
    tally.check('one after the other', seen == wanted, seen)
    tally.check('and a look at the end', line.reply()[1]['moves'] == len(moves))
    tally.check('all are kept, in order', hall.moves('anna') == moves, hall.moves('anna'))
    both = [some.reply() for some in others for _ in moves]
    made = sorted(told['moves'] for status, told in both if status == 200)
    tally.check('two lines of one candidate', made == [*range(1, len(made) + 1)] and
                len(hall.moves('bert')) == len(made) == PIPELINED, made)
    anna = Line(hall)
    anna.made.sendall(b'nonsense\r\n\r\n'.join(anna.spelled_move(move, PIPELINED) for move in ('put 5', 'put 6')))
    tally.check('done before nonsense', anna.reply()[1]['gaps'] == [5])
    tally.check('nonsense', anna.reply()[0] == 400 and anna.ended(PATIENCE))
    tally.check('nothing behind nonsense', Candidate(hall, 'anna').ask('/sitting')[1]['gaps'] == [5])
    slow = Line(hall)
    for byte in slow.spelled_move('lift 5', PIPELINED + 1) + slow.spelled('GET', '/sitting'):
        slow.made.sendall(bytes([byte]))
        time.sleep(0.0005)
    tally.check('byte by byte', slow.reply()[1]['said'] == 'The barrier in gap 5 is lifted.' and slow.reply()[0] == 200)
    old = raw(hall.port, request(hall, 'GET', '/sitting').replace(b'HTTP/1.1', b'HTTP/1.0').replace(
        b'Connection: close\r\n', b''), ends=False)
    tally.check('HTTP/1.0 is answered once', status(old) == 200 and b'"gaps":[]' in old, old)
    tally.check('nothing to complain about', hall.complaints() == '', hall.complaints())
    hall.end()


def not_kept(tally: Tally, folder: pathlib.Path) -> None:
    """Many moves in one moment that cannot be kept: none of them is made, kept, shown, or told as made."""
    names = [f'candidate-{number}' for number in range(MANY)]
    hall = Hall(folder / 'unkept', EXAMPLES['p'], names).altered(DISK.format(str(folder / 'unkept'))).start()
    broken, slow, log = hall.folder / 'is broken', hall.folder / 'is slow', hall.answers / 'sitting.log'
    lines = [Line(hall, name) for name in names]
    for number, line in enumerate(lines):
        line.click(f'put {1 + number % 13}')
    tally.check('all are kept', all(line.reply()[0] == 200 for line in lines))
    whole, first, other = log.read_bytes(), lines[0], Line(hall, names[1])
    slow.touch()
    first.click('put 13')
    time.sleep(0.1)  # the disk has it in hand; what comes now goes in one batch
    broken.touch()
    for line in lines[1:-1]:
        line.click('take back')
    lines[-1].hand_in()
    time.sleep(0.05)
    other.made.sendall(other.spelled('GET', '/sitting'))
    tally.check('before the fault', first.reply()[1]['gaps'] == [1, 13])
    wrong = []
    for number, line in [*enumerate(lines)][1:]:
        status, told = line.reply()
        if (status, told['gaps'], told['moves'], told['handed_in'], told['said'][:17]) != (
                409, [1 + number % 13], 1, False, 'It is not known w'):
            wrong.append((status, told))
    tally.check('none is made', not wrong, wrong)
    tally.check('none is shown', other.reply()[1]['gaps'] == [2])
    kept = log.read_bytes()
    tally.check('none is kept', kept.startswith(whole) and kept.count(b'\n') == whole.count(b'\n') + 1, kept)
    tally.check('no file', not [*hall.answers.glob('*.hex')])
    tally.check('one batch', hall.complaints().count('cannot keep') == 1 == hall.complaints().count('\n'),
                hall.complaints())
    broken.unlink()
    slow.unlink()
    for line in lines[1:-1]:
        line.click('take back')
    lines[-1].hand_in()
    told = [line.reply()[1] for line in lines[1:]]
    tally.check('all go on', all((some['gaps'], some['moves']) == ([], 2) for some in told[:-1]), told)
    tally.check('and hand in', told[-1]['handed_in'] and hall.moves(names[-1])[-1] == 'hand in', told[-1])
    hall.end()


def own_fault(tally: Tally, folder: pathlib.Path) -> None:
    """A fault of the hall's own is told to the person in charge, if that can be done, ends one connection, and nothing
    else."""
    deaf = Hall(folder / 'deaf', EXAMPLES['p'], ['anna']).altered(FAULT.format(str(folder / 'deaf')))
    deaf.start('exec 2>&-;')
    (deaf.folder / 'is at fault').touch()
    tally.check('nobody can be told', raw(deaf.port, request(deaf, 'GET', '/sitting')) == b'' and deaf.lives())
    deaf.end()
    hall = Hall(folder / 'fault', EXAMPLES['p'], ['anna', 'bert', 'cleo']).altered(
        (DISK + FAULT).format(str(folder / 'fault'))).start()
    fault, slow = hall.folder / 'is at fault', hall.folder / 'is slow'
    anna, bert, cleo = (Line(hall, name) for name in hall.names)
    fault.touch()
    slow.touch()
    cleo.click('put 1')
    time.sleep(0.1)
    for line in (anna, bert):
        line.click('put 5')
    tally.check('the others are answered', cleo.reply()[0] == 200 == bert.reply()[0])
    tally.check('the connection ends', anna.ended(PATIENCE))
    slow.unlink()
    tally.check('again', raw(hall.port, request(hall, 'GET', '/sitting')) == b'')
    told = hall.complaints()
    tally.check('it is told', told.count('ZeroDivisionError: at fault') == 2 == told.count('Traceback'), told)
    fault.unlink()
    tally.check('the hall goes on', Candidate(hall, 'anna').move('put 6')[1]['gaps'] == [5, 6] and hall.lives())
    hall.end()


def ended(tally: Tally, folder: pathlib.Path) -> None:
    """Ctrl-C, a signal to end or a terminal that is closed, while the disk is at work: what was asked for before is
    kept, told, and has its file. Ctrl-C also where a script in the background started the hall."""
    for by, before in ((signal.SIGINT, "trap '' INT;"), (signal.SIGTERM, ''), (signal.SIGHUP, '')):
        name = by.name
        hall = Hall(folder / f'ended {name}', EXAMPLES['p'], ['anna', 'bert', 'cleo']).altered(
            DISK.format(str(folder / f'ended {name}'))).start(before)
        anna, bert, cleo = (Line(hall, candidate) for candidate in hall.names)
        anna.click('put 5')
        tally.check(f'{name}: put', anna.reply()[0] == 200)
        (hall.folder / 'is slow').touch()
        bert.click('put 6')
        time.sleep(0.1)
        anna.hand_in()
        cleo.click('put 7')
        time.sleep(0.3)
        tally.check(f'{name}: ends well', hall.end(by) == 0)
        tally.check(f'{name}: told', [line.reply()[1]['gaps'] for line in (anna, bert, cleo)] == [[5], [6], [7]])
        kept = [hall.moves(candidate) for candidate in hall.names]
        tally.check(f'{name}: kept', kept == [['put 5', 'hand in'], ['put 6'], ['put 7']], kept)
        tally.check(f'{name}: the file', (hall.answers / 'anna.hex').read_bytes() == b'2105\n')
        tally.check(f'{name}: nothing to complain about', hall.complaints() == '', hall.complaints())
    hall = Hall(folder / 'nohup', EXAMPLES['p'], ['anna']).start("trap '' HUP;")
    hall.process.send_signal(signal.SIGHUP)
    tally.check('under nohup a closed terminal does nothing', Candidate(hall, 'anna').move('put 5')[0] == 200)
    tally.check('it is ended by a signal', hall.end(signal.SIGTERM) == 0)


def memory(hall: Hall) -> int:
    """The bytes of memory that the hall's process has."""
    return int(pathlib.Path(f'/proc/{hall.process.pid}/statm').read_text().split()[1]) * os.sysconf('SC_PAGE_SIZE')


def flooded(line: Line, data: bytes) -> int:
    """How many bytes the hall takes from somebody who reads nothing."""
    sent, last = 0, time.monotonic()
    line.made.setblocking(False)
    while sent < FLOOD and time.monotonic() - last < 0.5:
        try:
            sent += line.made.send(data)
            last = time.monotonic()
        except BlockingIOError:
            time.sleep(0.001)
        except ConnectionError:
            break
    return sent


def slow_readers(tally: Tally, folder: pathlib.Path) -> None:
    """Who asks and asks and takes no reply is not read on, and nobody else waits for that."""
    hall = Hall(folder / 'slow', EXAMPLES['p'], ['anna', 'bert']).start()
    bert, lines = Candidate(hall, 'bert'), [Line(hall) for _ in range(4)]
    bert.move('put 5')
    before = memory(hall)
    sent = [flooded(line, line.spelled('GET', path) * 400) for line, path in zip(
        lines, ('/', '/sitting', '/hall.css', '/nowhere'))]
    grown = memory(hall) - before
    print(f'who takes no reply: at most {max(sent[:3]) / 1e6:.1f} MB were read from one, {grown / 1e6:.1f} MB are kept')
    tally.check('not read on', max(sent[:3]) < FLOOD, sent)
    tally.check('little is kept', grown < GROWTH, grown)
    tally.check('nobody else waits', bert.move('lift 5')[0] == 200)
    tally.check('nothing to complain about', hall.complaints() == '', hall.complaints())
    hall.end()


def too_many(tally: Tally, folder: pathlib.Path) -> None:
    """Where there are too many connections, those go that were silent longest."""
    hall = Hall(folder / 'many', EXAMPLES['p'], ['anna', 'bert']).altered(LIMIT.format('MOST', MOST)).start()
    silent = [Line(hall) for _ in range(MOST)]
    used = silent[0]
    used.click('put 5')
    tally.check('all have room', used.reply()[0] == 200 and not any(line.ended(0.01) for line in silent))
    silent += [Line(hall) for _ in range(MOST - 1)]
    used.made.settimeout(30)
    tally.check('the longest silent go', all(line.ended(PATIENCE) for line in silent[1:MOST]))
    used.click('lift 5')
    tally.check('one that is used later goes later', used.reply()[0] == 200)
    opened = len([*pathlib.Path(f'/proc/{hall.process.pid}/fd').iterdir()])
    tally.check('not more than there is room for', opened < MOST + 15, opened)
    tally.check('others are let in', Candidate(hall, 'bert').ask('/sitting')[0] == 200)
    tally.check('nothing to complain about', hall.complaints() == '', hall.complaints())
    hall.end()


def silent(tally: Tally, folder: pathlib.Path) -> None:
    """A connection on which nothing is said, no whole request comes, or no reply is taken, ends after some time; one
    that is used does not."""
    hall = Hall(folder / 'silent', EXAMPLES['p'], ['anna', 'bert']).altered(LIMIT.format('IDLE', IDLE)).start()
    full = Line(hall)
    flooded(full, full.spelled('GET', '/') * 400)
    used, nothing, cut, another, drip = (Line(hall) for _ in range(5))
    cut.made.sendall(cut.spelled('GET', '/sitting')[:-7])
    another.made.sendall(another.spelled('GET', '/sitting') + b'GET')
    dripped, number, begun = drip.spelled_move('put 9', 0), 0, time.monotonic()
    left = {'nothing is said': nothing, 'cut off': cut, 'the next cut off': another, 'in drops': drip}
    while left and time.monotonic() - begun < PATIENCE:
        used.click(f'{("put", "lift")[number % 2]} 5')
        tally.check('one that is used', used.reply()[0] == 200)
        with contextlib.suppress(ConnectionError):
            drip.made.sendall(dripped[number:number + 1])
        left = {name: line for name, line in left.items() if not line.ended(0.05)}
        number += 1
    tally.check('ended', not left, [*left])
    tally.check('no reply is taken', full.ended(0.5))
    told = Candidate(hall, 'anna').ask('/sitting')[1]
    tally.check('the hall lives', hall.lives() and told['gaps'] == [5] * (number % 2), told)
    tally.check('nothing to complain about', hall.complaints() == '', hall.complaints())
    hall.end()


def connected(tally: Tally, folder: pathlib.Path) -> None:
    for some in (in_order, not_kept, own_fault, ended, slow_readers, too_many, silent):
        some(tally, folder)
