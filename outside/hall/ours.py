"""The log stays the hall's own while it is open: whatever an editor, a sync client or a slip of the hand does to the
file, no move is lost that was answered."""
import os
import pathlib
import signal
from collections.abc import Callable

from outside.hall.opened import Candidate, Hall, until_there
from outside.trying import EXAMPLES, Tally, run

SAVES = 5


def saved_over(log: pathlib.Path, data: bytes) -> None:
    """As most editors save: a file beside, renamed over."""
    beside = log.with_name('saved')
    beside.write_bytes(data)
    os.replace(beside, log)


def saved_into(log: pathlib.Path, data: bytes) -> None:
    """As some editors save: into the same file, which is emptied first."""
    log.write_bytes(data)


def appended(log: pathlib.Path, _: bytes) -> None:
    with open(log, 'ab') as opened:
        opened.write(b'remark of the person in charge\n')


def one_byte(log: pathlib.Path, _: bytes) -> None:
    with open(log, 'r+b') as opened:
        opened.seek(-70, os.SEEK_END)
        opened.write(b'X')


def removed(log: pathlib.Path, _: bytes) -> None:
    log.unlink()


def by_a_folder(log: pathlib.Path, _: bytes) -> None:
    log.unlink()
    log.mkdir()


def by_a_link(log: pathlib.Path, data: bytes) -> None:
    elsewhere = log.with_name('elsewhere')
    elsewhere.write_bytes(data)
    log.unlink()
    log.symlink_to(elsewhere)


Way = Callable[[pathlib.Path, bytes], None]
WAYS: list[Way] = [saved_over, saved_into, appended, one_byte, removed, by_a_folder, by_a_link]


def changed(tally: Tally, folder: pathlib.Path, way: Way) -> None:
    """An editor reads the log, moves are made, the editor saves; again and again. Then a kill, and a start."""
    name = way.__name__
    hall = Hall(folder / name, EXAMPLES['p'], ['anna']).start()
    anna = Candidate(hall, 'anna')
    for turn in range(1, SAVES + 1):
        read = hall.log.read_bytes()
        tally.check(f'{name}: a move', anna.move(f'put {turn}')[0] == 200)
        way(hall.log, read)
        tally.check(f'{name}: a move behind it', anna.move(f'lift {turn}')[0] == 200)
        told = hall.complaints().count('the log is put back as it was')
        tally.check(f'{name}: the person in charge hears of it', told == turn, hall.complaints())
    moves = [f'{word} {turn}' for turn in range(1, SAVES + 1) for word in ('put', 'lift')]
    tally.check(f'{name}: every move is in its place', hall.moves('anna') == moves, hall.moves('anna'))
    others = sorted(path.name for path in hall.answers.glob('sitting.log.other*'))
    tally.check(f'{name}: what was there is kept', len(others) == (0 if way is removed else SAVES), others)
    hall.end()
    anna.leave()
    hall.start()
    told = anna.ask('/sitting')[1]
    tally.check(f'{name}: a start has them all', (told['moves'], told['gaps']) == (len(moves), []), told)
    hall.end()


def nobody_clicks(tally: Tally, folder: pathlib.Path) -> None:
    """The log is looked at every second, and when the hall ends."""
    hall = Hall(folder / 'quiet', EXAMPLES['p'], ['anna']).start()
    anna = Candidate(hall, 'anna')
    anna.move('put 5')
    whole = hall.log.read_bytes()
    hall.log.unlink()
    tally.check('removed while nobody clicks', until_there(hall.log.exists) and hall.log.read_bytes() == whole)
    saved_over(hall.log, whole[:-20])
    tally.check('replaced while nobody clicks', until_there(lambda: hall.log.read_bytes() == whole))
    saved_into(hall.log, b'')
    hall.end(signal.SIGINT)
    anna.leave()
    tally.check('replaced just before the end', hall.log.read_bytes() == whole)
    tally.check('what was there', (hall.answers / 'sitting.log.other').read_bytes() == whole[:-20])
    hall.start()
    told, inode = hall.complaints(), hall.log.stat().st_ino
    os.utime(hall.log)
    tally.check('only its time has changed', anna.move('lift 5')[0] == 200 and hall.complaints() == told and
                hall.log.stat().st_ino == inode, hall.complaints())
    hall.end()


def second_start(tally: Tally, folder: pathlib.Path) -> None:
    """No second hall opens the folder, not even where the log was taken away."""
    hall = Hall(folder / 'second', EXAMPLES['p'], ['anna']).start()
    port, hall.port = hall.port, 0
    tally.check('in use', run(*hall.command).failed('another ./desk sit serves'), run(*hall.command))
    hall.log.unlink()
    seen = run(*hall.command)
    tally.check('in use, the log removed', seen.failed('another ./desk sit serves'), seen)
    hall.port = port
    tally.check('the first goes on', Candidate(hall, 'anna').move('put 5')[0] == 200)
    tally.check('and keeps it', hall.moves('anna') == ['put 5'])
    hall.end()


def stays_ours(tally: Tally, folder: pathlib.Path) -> None:
    for way in WAYS:
        changed(tally, folder, way)
    nobody_clicks(tally, folder)
    second_start(tally, folder)
