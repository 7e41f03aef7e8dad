"""A hundred candidates at once: whatever they ask for in one moment is kept by one write, told when it is kept, and
nothing of it is lost. How long it takes is measured by outside/measure/crowd.py.
"""
import pathlib
import random
import selectors
import signal
import socket
import time

from outside.hall.opened import Hall, hands_in, until_there
from outside.trying import EXAMPLES, Tally

MANY, BESIDE, ROUNDS = 100, 20, 20
# A disk that can be held for as long as a file is there. Each write and each wait for the disk leaves a mark.
HELD = """
import time
whole, written = os.fsync, os.pwrite
def marked(name):
    with open({0!r} + '/' + name, 'ab') as opened:
        opened.write(b'.')
def pwrite(*words):
    marked('writes')
    return written(*words)
def fsync(file):
    marked('waits')
    while os.path.exists({0!r} + '/is held'):
        time.sleep(0.001)
    whole(file)
os.fsync, os.pwrite = fsync, pwrite
"""


class Crowd:
    """Candidates with a connection each. Each puts and lifts in turn, so that every click is a move."""

    def __init__(self, hall: Hall):
        self.hall, self.clicks = hall, [0] * len(hall.names)
        self.waiting: dict[int, float] = {}
        self.got = [b''] * len(hall.names)
        self.took: list[tuple[int, float]] = []
        self.select, self.lines = selectors.DefaultSelector(), []
        for number, name in enumerate(hall.names):
            line = socket.create_connection(('127.0.0.1', hall.port))
            line.setsockopt(socket.IPPROTO_TCP, socket.TCP_NODELAY, 1)
            self.select.register(line, selectors.EVENT_READ, number)
            whose = ''.join(f'{header}: {value}\r\n' for header, value in hall.whose(name).items())
            self.lines.append((line, f'HTTP/1.1\r\nHost: 127.0.0.1:{hall.port}\r\n{whose}'))

    def ask(self, number: int, path: str, body: str) -> None:
        line, head = self.lines[number]
        self.waiting[number] = time.perf_counter()
        line.sendall(f'POST {path} {head}Content-Length: {len(body)}\r\n\r\n{body}'.encode())

    @staticmethod
    def nth(click: int) -> str:
        """The move that a candidate's click is, counted from 0."""
        return f'{("put", "lift")[click % 2]} {1 + click // 2 % 13}'

    @staticmethod
    def gaps(clicks: int) -> list[int]:
        """The gaps that have a barrier after some clicks."""
        return [1 + clicks // 2 % 13] * (clicks % 2)

    def click(self, number: int) -> None:
        self.ask(number, '/move', f'{self.nth(self.clicks[number])} at {self.clicks[number]}')
        self.clicks[number] += 1

    def came(self, number: int, status: int, body: bytes) -> None:
        """A reply."""
        if status != 200:
            raise RuntimeError(body)

    def look(self, wait: float | None = None) -> None:
        """Takes what has come."""
        for key, _ in self.select.select(wait):
            number = key.data
            self.got[number] += key.fileobj.recv(1 << 16)
            head, end, body = self.got[number].partition(b'\r\n\r\n')
            if end and len(body) == int(head.partition(b'Content-Length: ')[2].split()[0]):
                self.came(number, int(head[9:12]), body)
                self.took.append((number, time.perf_counter() - self.waiting.pop(number)))
                self.got[number] = b''

    def wait(self) -> None:
        """Takes every reply that is due."""
        while self.waiting:
            self.look()

    def together(self, rounds: int) -> list[float]:
        """All click in the same moment, again and again; how long each waited, rising."""
        self.took = []
        for _ in range(rounds):
            for number in range(len(self.lines)):
                self.click(number)
            self.wait()
        return rising(self.took)

    def as_people_do(self, seconds: float, each: int) -> list[float]:
        """Each clicks some times, whenever it likes."""
        self.took, rng = [], random.Random(1)
        due = sorted((rng.random() * seconds, number) for number in range(len(self.lines)) for _ in range(each))
        begun = time.perf_counter()
        while due or self.waiting:
            now = time.perf_counter() - begun
            while due and due[0][0] <= now:
                number = due.pop(0)[1]
                if number not in self.waiting:
                    self.click(number)
            self.look(max(due[0][0] - now, 0) if due else None)
        return rising(self.took)

    def handing_in(self, beside: int) -> tuple[list[float], list[float]]:
        """All hand in at one moment but some, who click all the time meanwhile; how long these and those waited."""
        self.took, those = [], range(beside, len(self.lines))
        for number in those:
            self.ask(number, '/hand-in', hands_in(self.gaps(self.clicks[number]), self.clicks[number]))
        while self.waiting.keys() & those:
            for number in range(beside):
                if number not in self.waiting:
                    self.click(number)
            self.look()
        self.wait()
        return tuple(rising([(number, took) for number, took in self.took if (number < beside) == clicks])
                     for clicks in (True, False))


def rising(took: list[tuple[int, float]]) -> list[float]:
    return sorted(seconds for _, seconds in took)


def marks(hall: Hall, name: str) -> int:
    """How often the hall has written, or waited for the disk."""
    file = hall.folder / name
    return file.stat().st_size if file.exists() else 0


def crowd(tally: Tally, folder: pathlib.Path) -> None:
    """A click alone is a write to the log, one to its copy, and one wait for the disk. A hundred in one moment are two
    of each: the first goes at once, and what comes while the disk has it goes together."""
    hall = Hall(folder / 'crowd', EXAMPLES['p'], [f'candidate-{number:03}' for number in range(MANY)])
    people = Crowd(hall.altered(HELD.format(str(hall.folder))).start())
    people.click(0)
    people.wait()
    before = {name: marks(hall, name) for name in ('writes', 'waits')}
    people.click(0)
    people.wait()
    once = {name: marks(hall, name) - many for name, many in before.items()}
    tally.check('a click is one write and one wait', once == {'writes': 2, 'waits': 1}, once)
    (hall.folder / 'is held').touch()
    before = {name: marks(hall, name) for name in ('writes', 'waits')}
    people.click(0)
    tally.check('the disk has the first', until_there(lambda: marks(hall, 'waits') > before['waits']))
    for number in range(1, MANY):
        people.click(number)
    people.look(0.05)
    tally.check('nobody is told before it is kept', len(people.waiting) == MANY, len(people.waiting))
    (hall.folder / 'is held').unlink()
    people.wait()
    together = {name: marks(hall, name) - many for name, many in before.items()}
    tally.check('a hundred in one moment are two writes', together == {'writes': 4, 'waits': 2}, together)
    people.together(ROUNDS)
    for name, clicks in zip(hall.names, people.clicks):
        tally.check(f'{name}: every click is kept, in order', hall.moves(name) == [*map(people.nth, range(clicks))])
    hall.end()


def rush(tally: Tally, folder: pathlib.Path) -> None:
    """A hundred hand in at one moment, and others click meanwhile: each has a file, and no click is lost."""
    hall = Hall(folder / 'rush', EXAMPLES['p'], [f'candidate-{number:03}' for number in range(MANY + BESIDE)]).start()
    people = Crowd(hall)
    people.together(1)
    people.handing_in(BESIDE)
    kept = [len(hall.moves(name)) for name in hall.names[:BESIDE]]
    tally.check('every click is kept', kept == people.clicks[:BESIDE] and min(kept) > 1, kept)
    handed_in = [hall.moves(name) for name in hall.names[BESIDE:]]
    tally.check('all are handed in', handed_in == [['put 1', 'hand in']] * MANY, handed_in)
    hall.end(signal.SIGINT)
    files = {file.stem: file.read_bytes() for file in hall.answers.glob('*.hex')}
    tally.check('all have a file', files == dict.fromkeys(hall.names[BESIDE:], b'2101\n'), files)
