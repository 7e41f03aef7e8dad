"""A hall for tests: ./desk sit on a paper, as a process that may be killed and started again, and its candidates.

The process must never plan: in it every call that needs a key, or gives a placement away, ends it at once.
"""
import atexit
import csv
import functools
import http.client
import json
import os
import pathlib
import re
import shlex
import signal
import subprocess
import sys
import time
from collections.abc import Callable
from dataclasses import dataclass, field

from office.serving import token_of
from outside.trying import DESK, ROOT

FORBIDDEN = ['plan', 'key', 'mark', 'count', 'textbook', 'examiner_slip']
GUARD = f"""
import os, sys
sys.path.insert(0, {str(ROOT)!r})
from office.library import Desk
def forbidden(*_):
    os.write(2, b'a desk of the hall was asked for a key')
    os._exit(86)
for call in {FORBIDDEN}:
    assert hasattr(Desk, call)
    setattr(Desk, call, forbidden)
"""


@dataclass
class Hall:
    """A hall in a folder of its own: the paper, the names, the answers."""
    folder: pathlib.Path
    paper: bytes
    names: list[str]
    file: str = 'paper.hex'
    more: list[str] = field(default_factory=list)
    listed: str = ''
    environment: dict[str, str] = field(default_factory=dict)
    process: subprocess.Popen | None = None
    port: int = 0
    said: str = ''
    address: str = ''
    secret: str = ''

    def __post_init__(self) -> None:
        self.folder.mkdir(exist_ok=True)
        self.answers = self.folder / 'answers'
        (self.folder / self.file).write_bytes(self.paper)
        (self.folder / 'names.txt').write_text(self.listed or ''.join(f'{name}\n' for name in self.names))
        # ./desk begins without modules of the site, and so without this one: Python is asked to have them.
        (self.folder / 'sitecustomize.py').write_text(GUARD)
        self.desk = self.folder / 'desk'
        self.desk.write_text(f'#!/bin/sh\nexec {shlex.join([sys.executable, str(DESK)])} "$@"\n')
        self.desk.chmod(0o755)

    def altered(self, lines: str) -> 'Hall':
        """Has the process begin with some lines of Python."""
        with open(self.folder / 'sitecustomize.py', 'a') as opened:
            opened.write(lines)
        return self

    @property
    def command(self) -> list[str]:
        return [str(self.desk), 'sit', str(self.folder / self.file), '--candidates', str(self.folder / 'names.txt'),
                '--answers', str(self.answers), '--port', str(self.port), *self.more]

    def start(self, limit: str = '') -> 'Hall':
        """Opens the hall; at the same port as before, if it was open."""
        with open(self.folder / 'said', 'ab') as said:
            self.process = subprocess.Popen(
                ['bash', '-c', f'{limit} exec "$@"', 'bash', *self.command], stdout=subprocess.PIPE, stderr=said,
                env={**os.environ, 'PYTHONPATH': str(self.folder), **self.environment}, text=True,
                preexec_fn=functools.partial(signal.signal, signal.SIGHUP, signal.SIG_DFL))  # also under nohup
        atexit.register(self.process.kill)
        self.said = ''.join(self.process.stdout.readline() for _ in range(3))
        opened = re.match(r'(https?://[^/]*?(?::(\d+))?/) is open .*\n.*\nin charge: \1charge with (\S+)\n', self.said)
        if not opened:
            raise RuntimeError(f'the hall did not open: {self.complaints()}')
        self.address, self.port, self.secret = opened[1], self.port or int(opened[2]), opened[3]
        return self

    def end(self, by: int = signal.SIGKILL) -> int:
        """Ends the hall by a signal; gives the status."""
        self.process.send_signal(by)
        self.process.stdout.close()
        return self.process.wait(60)

    def complaints(self) -> str:
        """What it wrote to standard error."""
        return (self.folder / 'said').read_text()

    def lives(self) -> bool:
        return self.process.poll() is None

    @property
    def tickets(self) -> dict[str, str]:
        with open(self.answers / 'tickets.csv', newline='') as opened:
            return {row['candidate']: row['ticket'] for row in csv.DictReader(opened)}

    def whose(self, name: str) -> dict[str, str]:
        """What the page of a candidate sends along: the ticket, and whose page it is."""
        return self.with_ticket(self.tickets[name])

    def with_ticket(self, ticket: str) -> dict[str, str]:
        return {'Cookie': f'ticket-{self.port}={ticket}', 'Sitting': token_of(ticket)}

    @property
    def log(self) -> pathlib.Path:
        return self.answers / 'sitting.log'

    def moves(self, name: str) -> list[str]:
        """The moves that the log has of a candidate, and the hand-in without its hash."""
        acts = [line.split('\t')[4] for line in self.log.read_text().splitlines()[1:] if line.split('\t')[2] == name]
        return ['hand in' if act.startswith('hand in') else act for act in acts if act not in ('enter', 'leave')]


def until_there(seen: Callable[[], bool], patience: float = 30) -> bool:
    """Whether something is seen, waited for with much patience."""
    begun = time.monotonic()
    while not (there := seen()) and time.monotonic() - begun < patience:
        time.sleep(0.001)
    return there


class Candidate:
    """A candidate without a browser: asks over one connection, as the page would, by the sitting that was last told."""

    def __init__(self, hall: Hall, name: str, machine: str = '127.0.0.1'):
        self.hall, self.headers, self.machine = hall, hall.whose(name), machine
        self.name, self.connection, self.told = name, None, {}

    def ask(self, path: str, body: str | None = None) -> tuple[int, dict]:
        """The status and what is told. An OSError says that no whole answer came."""
        try:
            if self.connection is None:
                self.connection = http.client.HTTPConnection('127.0.0.1', self.hall.port, timeout=30,
                                                             source_address=(self.machine, 0))
            self.connection.request('GET' if body is None else 'POST', path, body, self.headers)
            reply = self.connection.getresponse()
            told = json.loads(reply.read())
            self.told = self.told | told if path == '/clock' else told
            return reply.status, told
        except (http.client.HTTPException, ValueError) as fault:
            self.leave()
            raise ConnectionError from fault
        except OSError:
            self.leave()
            raise

    def enter(self) -> int:
        """Enters by the form; the status."""
        made = http.client.HTTPConnection('127.0.0.1', self.hall.port, timeout=30, source_address=(self.machine, 0))
        made.request('POST', '/enter', f'ticket={self.hall.tickets[self.name]}')
        reply = made.getresponse()
        self.page = reply.read().decode()
        made.close()
        return reply.status

    def move(self, move: str) -> tuple[int, dict]:
        if not self.told:
            self.ask('/sitting')
        return self.ask('/move', f'{move} at {self.told["moves"]}')

    def hand_in(self) -> tuple[int, dict]:
        if not self.told:
            self.ask('/sitting')
        return self.ask('/hand-in', hands_in(self.told['gaps'], self.told['moves']))

    def leave(self) -> None:
        if self.connection is not None:
            self.connection.close()
        self.connection = None


def hands_in(gaps: list[int], moves: int) -> str:
    """What a page asks for after the question about these gaps, after so many moves."""
    return ' '.join(['hand in', *map(str, gaps), 'at', str(moves)])
