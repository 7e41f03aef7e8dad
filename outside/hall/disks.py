"""A hall on a disk that is full or broken: what is told as done is there after a kill, what is told as not done is not,
and of what is not known that is said."""
import contextlib
import os
import pathlib
import signal
import subprocess
import time

from outside.hall.opened import Candidate, Hall, until_there
from outside.trying import EXAMPLES, ROOT, Tally, run

NOT_DONE, NOT_KNOWN = 'This was not done', 'It is not known whether this was kept'


class Disk:
    """A hall whose disk has the faults that are switched on."""

    def __init__(self, folder: pathlib.Path, library: pathlib.Path):
        folder.mkdir()
        self.faults = folder / 'faults'
        self.faults.mkdir()
        self.hall = Hall(folder, EXAMPLES['p'], ['anna', 'bert'], environment={
            'LD_PRELOAD': str(library), 'DISK_FAULTS': str(self.faults)}).start()
        self.anna = Candidate(self.hall, 'anna')

    def has(self, *faults: str) -> None:
        """Has these faults from now on, and no other."""
        for file in self.faults.iterdir():
            file.unlink()
        for fault in faults:
            (self.faults / fault).touch()

    def restarted(self) -> dict:
        """What the sitting is after a kill and a start on a good disk."""
        self.hall.end()
        self.anna.leave()
        self.has()
        self.hall.start()
        return self.anna.ask('/sitting')[1]


def library_in(folder: pathlib.Path) -> pathlib.Path:
    made = folder / 'disk.so'
    subprocess.run(['gcc', '-shared', '-fPIC', '-O1', '-o', made, ROOT / 'outside' / 'hall' / 'disk.c'], check=True)
    return made


def declined(tally: Tally, disk: Disk, fault: str, words: list[str]) -> None:
    """Three acts on a bad disk: none is made or shown, and each is told in its words."""
    for act, said in zip(('put 6', 'take back', 'hand in'), words):
        status, told = disk.anna.hand_in() if act == 'hand in' else disk.anna.move(act)
        tally.check(f'{fault}: {act}', status == 409 and told['said'].startswith(said) and (
            told['gaps'], told['moves'], told['handed_in']) == ([5], 1, False), told)


def not_done(tally: Tally, folder: pathlib.Path, library: pathlib.Path) -> None:
    """The disk does not take it, and can be put as it was: nothing is kept, and a kill changes nothing."""
    for fault in ('full', 'nothing', 'once'):
        disk = Disk(folder / fault, library)
        tally.check(f'{fault}: a good disk', disk.anna.move('put 5')[0] == 200)
        whole = disk.hall.log.read_bytes()
        disk.has(fault)
        declined(tally, disk, fault, [NOT_DONE] * (1 if fault == 'once' else 3))
        tally.check(f'{fault}: nothing is there', disk.hall.log.read_bytes() == whole and not [
            *disk.hall.answers.glob('*.hex')])
        tally.check(f'{fault}: the person in charge hears of it', 'cannot keep' in disk.hall.complaints())
        told = disk.restarted()
        tally.check(f'{fault}: after a kill', (told['gaps'], told['moves']) == ([5], 1), told)
        tally.check(f'{fault}: it goes on', disk.anna.move('put 7')[1]['gaps'] == [5, 7])
        disk.hall.end()


def not_known(tally: Tally, folder: pathlib.Path, library: pathlib.Path) -> None:
    """The disk does not take it, and cannot be put as it was: that is said, and nothing more is taken until it can."""
    for faults in (['fsync'], ['fsync', 'ftruncate'], ['once', 'ftruncate'], ['once', 'folder']):
        fault = ' and '.join(faults)
        disk = Disk(folder / fault.replace(' ', '-'), library)
        disk.anna.move('put 5')
        disk.has(*faults)
        declined(tally, disk, fault, [NOT_KNOWN, NOT_DONE, NOT_DONE])
        disk.has()
        tally.check(f'{fault}: mended', disk.anna.move('put 7')[1]['gaps'] == [5, 7])
        tally.check(f'{fault}: what was not known is gone', disk.hall.moves('anna') == ['put 5', 'put 7'])
        told = disk.restarted()
        tally.check(f'{fault}: after a kill', (told['gaps'], told['moves']) == ([5, 7], 2), told)
        disk.has(*faults)
        tally.check(f'{fault}: again', disk.anna.move('put 6')[1]['said'].startswith(NOT_KNOWN))
        told = disk.restarted()
        tally.check(f'{fault}: a kill before it is mended', told['gaps'] in ([5, 7], [5, 6, 7]), told)
        tally.check(f'{fault}: it goes on', disk.anna.move('lift 7')[0] == 200)
        told = disk.hall.complaints()
        tally.check(f'{fault}: no storm', told.count('cannot keep') < 6, told)
        disk.hall.end()


def mended_by_itself(tally: Tally, folder: pathlib.Path, library: pathlib.Path) -> None:
    """An unclean end is cut off as soon as the disk can, though nobody clicks."""
    disk = Disk(folder / 'itself', library)
    disk.anna.move('put 5')
    whole = disk.hall.log.read_bytes()
    disk.has('fsync', 'ftruncate')
    disk.anna.move('put 6')
    tally.check('unclean', disk.hall.log.read_bytes() != whole)
    disk.has()
    tally.check('cut off', until_there(lambda: disk.hall.log.read_bytes() == whole))
    disk.hall.end()


def short_writes(tally: Tally, folder: pathlib.Path, library: pathlib.Path) -> None:
    disk = Disk(folder / 'short', library)
    disk.has('short')
    replies = [disk.anna.move(f'{word} {gap}')[0] for gap in range(1, 14) for word in ('put', 'lift')]
    tally.check('short writes', set(replies) == {200} and disk.restarted()['moves'] == len(replies), replies)
    disk.hall.end()


def replaced_on_a_full_disk(tally: Tally, folder: pathlib.Path, library: pathlib.Path) -> None:
    """The log is gone, and cannot be put back yet: nothing is taken, and nothing is lost."""
    disk = Disk(folder / 'gone', library)
    disk.anna.move('put 5')
    disk.has('full')
    disk.hall.log.unlink()
    declined(tally, disk, 'gone', [NOT_DONE] * 3)
    disk.has()
    tally.check('back', disk.anna.move('put 6')[1]['gaps'] == [5, 6] and disk.restarted()['gaps'] == [5, 6])
    disk.hall.end()


def no_start(tally: Tally, folder: pathlib.Path, library: pathlib.Path) -> None:
    """A first start on a bad disk fails and leaves nothing behind; a later one leaves all as it was."""
    disk = Disk(folder / 'start', library)
    disk.anna.move('put 5')
    disk.hall.end()
    hall, new = disk.hall, Hall(folder / 'new', EXAMPLES['p'], ['anna', 'bert'])
    kept = {path: path.read_bytes() for path in hall.answers.iterdir()}
    for fault in ('full', 'nothing', 'fsync', 'folder'):
        disk.has(fault)
        seen = run(*new.command, **hall.environment)
        tally.check(f'{fault}: no first start', seen.failed('cannot'), seen)
        tally.check(f'{fault}: nothing is left', not new.answers.exists())
        seen = run(*hall.command, **hall.environment)
        tally.check(f'{fault}: no start', seen.out == b'' and seen.status == 2 and 'cannot keep' in seen.err, seen)
        left = {path: path.read_bytes() for path in hall.answers.iterdir()}
        tally.check(f'{fault}: all is as it was', left == kept, left)


def full_disk(tally: Tally, folder: pathlib.Path) -> None:
    """A file that may not grow: what cannot be kept is not done and is told, the rest is there at the next start."""
    hall = Hall(folder / 'full-file', EXAMPLES['p'], ['anna', 'bert']).start('ulimit -f 4;')
    anna = Candidate(hall, 'anna')
    replies = [anna.move(f'{word} {gap}') for gap in range(1, 14) for word in ('put', 'lift')]
    good = [told for status, told in replies if status == 200]
    bad = [told for status, told in replies if status == 409 and told['said'].startswith(NOT_DONE)]
    now = anna.ask('/sitting')[1]
    tally.check('a full disk', 10 < len(good) < 26 and bool(bad) and now['gaps'] == good[-1]['gaps'], now)
    tally.check('the person in charge hears of it', 'cannot keep' in hall.complaints(), hall.complaints())
    status, told = anna.hand_in()
    tally.check('not handed in', status == 409 and not told['handed_in'] and not [*hall.answers.glob('*.hex')], told)
    hall.end()
    anna.leave()
    hall.start()
    tally.check('the next start', anna.ask('/sitting')[1]['gaps'] == good[-1]['gaps'])
    (hall.answers / 'anna.hex').mkdir()
    status, told = anna.hand_in()
    tally.check('no file yet', status == 200 and told['handed_in'] and told['said'].startswith('Handed in'), told)
    tally.check('of which is told', until_there(lambda: 'anna has handed in' in hall.complaints()), hall.complaints())
    (hall.answers / 'anna.hex').rmdir()
    text = b''.join(b'21%02x\n' % gap for gap in good[-1]['gaps'])
    answer = hall.answers / 'anna.hex'
    tally.check('a file later', until_there(lambda: answer.exists() and answer.read_bytes() == text))
    answer.unlink()
    hall.end()
    anna.leave()
    hall.start()
    tally.check('a file at the next start', answer.read_bytes() == text)
    tally.check('handed in', anna.ask('/sitting')[1]['handed_in'] and '2 candidates, 1 answer handed in' in hall.said,
                hall.said)
    hall.end()


def nobody_listens(tally: Tally, folder: pathlib.Path) -> None:
    """Standard error that is full, or that nobody reads, stops no candidate."""
    pipe = folder / 'pipe'
    os.mkfifo(pipe)
    end = os.open(pipe, os.O_RDWR | os.O_NONBLOCK)
    with contextlib.suppress(BlockingIOError):
        while os.write(end, bytes(4096)):
            pass
    for name, where in (('full', '/dev/full'), ('unread', pipe), ('closed', '&-')):
        hall = Hall(folder / f'error-{name}', EXAMPLES['p'], ['anna', 'bert']).start(f'exec 2>{where};')
        (hall.answers / 'anna.hex').mkdir()
        anna, bert = Candidate(hall, 'anna'), Candidate(hall, 'bert')
        tally.check(f'{name}: handed in', anna.hand_in()[1]['handed_in'])
        time.sleep(1.2)
        hall.log.unlink()
        tally.check(f'{name}: the next request', anna.ask('/sitting')[0] == 200)
        tally.check(f'{name}: others go on', bert.move('put 5')[0] == 200 and hall.moves('bert') == ['put 5'])
        tally.check(f'{name}: Ctrl-C', hall.end(signal.SIGINT) == 0)
    os.close(end)


def on_bad_disks(tally: Tally, folder: pathlib.Path) -> None:
    library = library_in(folder)
    for some in (not_done, not_known, mended_by_itself, short_writes, replaced_on_a_full_disk, no_start):
        some(tally, folder, library)
    full_disk(tally, folder)
    nobody_listens(tally, folder)
