"""Many connections of one machine or one candidate beside others: nobody else is kept out, or waits for all of them."""
import asyncio
import pathlib
import subprocess
import sys
import threading
import time

from office.room import OUT, OWN, SHARE
from office.turns import Turns
from outside.hall.connections import PATIENCE, Line
from outside.hall.opened import Candidate, Hall, until_there
from outside.measure import papers
from outside.trying import EXAMPLES, Tally

FILES, STORM, CLICKS, LOOKS, PAGES = 96, 3_000, 60, 20, 8
ELSEWHERE = '127.0.0.2'
# The system lets nobody in while a file is there.
CLOSED = """
import socket
whole = socket.socket.accept
def accept(self):
    if os.path.exists({0!r} + '/is closed'):
        raise OSError(24, 'Too many open files')
    return whole(self)
socket.socket.accept = accept
"""
# Opens connections as fast as it can, and leaves each without a word, or with a request.
OPENS = """
import socket, sys
port, many, said = int(sys.argv[1]), int(sys.argv[2]), sys.argv[3].encode()
kept = []
for number in range(many):
    try:
        made = socket.create_connection(('127.0.0.1', port), timeout=10)
        made.sendall(said)
        kept.append(made)
    except OSError:
        pass
    if len(kept) > 500:
        kept.pop(0).close()
"""


def in_turn(tally: Tally, _: pathlib.Path) -> None:
    """Of those who wait one piece each is done in turn, also of one who comes later, and after a fault."""
    loop, done = asyncio.new_event_loop(), []
    loop.set_exception_handler(lambda _, fault: done.append(repr(fault['exception'])))
    turns = Turns(loop)

    def piece(name: str) -> bool:
        done.append(name)
        if name == 'bert':
            turns.add('cleo', lambda: piece('cleo'))
        if name == 'dora':
            raise ZeroDivisionError
        return name == 'anna 1'

    for name in ('anna 0', 'anna 1', 'anna 2', 'anna 3', 'bert', 'dora'):
        turns.add(name[:4], lambda name=name: piece(name))
    loop.run_until_complete(asyncio.sleep(0.01))
    tally.check('in turn', done == ['anna 0', 'bert', 'dora', 'ZeroDivisionError()', 'anna 1', 'cleo', 'anna 2',
                                    'anna 3'], done)
    loop.close()


def files(tally: Tally, folder: pathlib.Path) -> None:
    """The soft limit of files is raised; where the hard one is low, there are as many connections as have room."""
    hall = Hall(folder / 'soft', EXAMPLES['p'], ['anna']).start(f'ulimit -Sn {FILES};')
    silent = [Line(hall) for _ in range(2 * FILES)]
    tally.check('as many as the system lets', Candidate(hall, 'anna').ask('/sitting')[0] == 200 and not any(
        line.ended(0.001) for line in silent))
    hall.end()
    hall = Hall(folder / 'hard', EXAMPLES['p'], ['anna']).start(f'ulimit -n {FILES};')
    silent = [Line(hall) for _ in range(2 * FILES)]
    tally.check('others are let in', Candidate(hall, 'anna').ask('/sitting')[0] == 200)
    tally.check('the longest silent go', all(line.ended(PATIENCE) for line in silent[:FILES + OWN + OUT]))
    open_now = len([*pathlib.Path(f'/proc/{hall.process.pid}/fd').iterdir()])
    tally.check('not more than there is room for', open_now <= FILES, open_now)
    tally.check('nothing to complain about', hall.complaints() == '', hall.complaints())
    hall.end()


def closed(tally: Tally, folder: pathlib.Path) -> None:
    """Where the system lets nobody in, that is told once, and tried again."""
    hall = Hall(folder / 'closed', EXAMPLES['p'], ['anna']).altered(CLOSED.format(str(folder / 'closed'))).start()
    within = Candidate(hall, 'anna')
    within.ask('/sitting')
    (hall.folder / 'is closed').touch()
    outside = [Line(hall) for _ in range(LOOKS)]
    tally.check('it is told', until_there(lambda: 'cannot let anybody in: Too many open files' in hall.complaints()))
    tally.check('who is in goes on', within.move('put 5')[0] == 200)
    time.sleep(0.5)  # some more tries
    tally.check('once', hall.complaints().count('\n') == 1, hall.complaints())
    (hall.folder / 'is closed').unlink()
    outside[-1].made.sendall(outside[-1].spelled('GET', '/sitting'))
    tally.check('then they are let in', outside[-1].reply()[1]['gaps'] == [5])
    hall.end()


def storm(tally: Tally, folder: pathlib.Path) -> None:
    """Connections from one machine as fast as it can, silent ones and ones that ask, beside a candidate at another who
    opens a new one for each click: every click is done."""
    for name, said, files in (('silent', '', FILES), ('asking', 'GET / HTTP/1.1\r\nHost: a\r\n\r\n', 2_000)):
        hall = Hall(folder / f'storm {name}', EXAMPLES['p'], ['anna']).start(f'ulimit -n {files};')
        storms = [subprocess.Popen([sys.executable, '-c', OPENS, str(hall.port), str(STORM), said]) for _ in range(2)]
        anna, replies = Candidate(hall, 'anna', ELSEWHERE), []
        for click in range(CLICKS):
            replies.append(anna.move(f'{("put", "lift")[click % 2]} 5'))
            anna.leave()
        beside = any(storm.poll() is None for storm in storms)
        for storm in storms:
            storm.wait()
        tally.check(f'{name}: every click is done', [status for status, _ in replies] == [200] * CLICKS, replies)
        tally.check(f'{name}: and kept', len(hall.moves('anna')) == CLICKS)
        print(f'{2 * STORM:,} {name} connections: {"still" if beside else "no longer"} coming after the last click')
        tally.check(f'{name}: nothing to complain about', hall.complaints() == '', hall.complaints())
        hall.end()


def one_candidate(tally: Tally, folder: pathlib.Path) -> None:
    """A candidate has a share of connections. Who asks for a full-size page again and again by all of them has one
    answered in turn with each click of another."""
    hall = Hall(folder / 'share', papers.text('mixed'), ['anna', 'bert']).start()
    lines = [Line(hall) for _ in range(LOOKS)]
    for line in lines:
        line.made.sendall(line.spelled('GET', '/sitting'))
    tally.check('those used longest ago go', all(line.ended(PATIENCE) for line in lines[:LOOKS - SHARE]))
    lines, got = lines[LOOKS - SHARE:], []
    tally.check('the share stays', all(line.reply()[0] == 200 for line in lines))
    bert = Candidate(hall, 'bert')
    bert.ask('/sitting')
    for line in lines:
        line.made.sendall(line.spelled('GET', '/') * PAGES)
    readers = [threading.Thread(target=lambda line=line: got.extend(line.reply()[0] for _ in range(PAGES)))
               for line in lines]
    for reader in readers:
        reader.start()
    clicks, seen = 0, []
    while any(reader.is_alive() for reader in readers):
        tally.check('a click beside them', bert.move(f'{("put", "lift")[clicks % 2]} 5')[0] == 200)
        clicks += 1
        seen.append(len(got))
    print(f'{clicks} clicks of one candidate beside {len(got)} pages of another')
    tally.check('in turn', clicks > 1 and seen[0] < len(got) == SHARE * PAGES, (clicks, seen[:5], len(got)))
    tally.check('nothing to complain about', hall.complaints() == '', hall.complaints())
    hall.end()


def shares(tally: Tally, folder: pathlib.Path) -> None:
    for some in (in_turn, files, closed, storm, one_candidate):
        some(tally, folder)
