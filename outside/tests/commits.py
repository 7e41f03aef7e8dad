"""Marks kept while the disk fails: every call that the database makes of it fails once, for ever, for want of room, or
is the last that the desk makes. What was said of the marks is then held against the file.

  outside/tests/book.py preloads failing.c and runs it; the last line is 'N passed, M failed'.
"""
import ctypes
import io
import os
import pathlib
import shutil
import sys
import tempfile
import unittest.mock

from office import register as registers
from office.audit import Audit, planned
from office.command import Fault
from office.keeping import Answer, Marker, PaperText, finding_of, keep
from office.marks import sha256_of
from outside.tests.workday import text_of
from outside.trying import EXAMPLES, Tally

DISK = ctypes.CDLL(None)
HOWS = {'once': 1, 'always': 2, 'full': 3, 'killed': 4}
KEPT, NOT_KEPT, NOT_KNOWN = 'all the same what was added is there', 'was not kept', 'it is not known whether'
PAPER = PaperText(sha256_of(EXAMPLES['p']), 'p', EXAMPLES['p'])
BY = Marker('nobody', '0', '0' * 64)
# Where waiting for the disk takes no time.
MEMORY = '/dev/shm'
FIRST, MORE = {'anna': [5, 11]}, {f'c{i:03}': [i % 13 + 1] for i in range(30)}


def add(file: pathlib.Path, answers: dict[str, list[int]]) -> str:
    """Adds marks to a register; gives what was said, nothing where all went well."""
    desk, said = planned(EXAMPLES['p']), io.StringIO()
    some = [Answer(name, text_of(gaps), finding_of(desk, text_of(gaps))) for name, gaps in answers.items()]
    with unittest.mock.patch.object(registers, 'tell', lambda _, message: said.write(message)):
        try:
            with registers.opened(str(file), writing=True) as register:
                keep(register, PAPER, some, BY)
        except Fault as fault:
            return str(fault)
    return said.getvalue()


def many_in(tally: Tally, name: str, file: pathlib.Path) -> int:
    """How many marks a register has, which must be as it was made."""
    with registers.opened(str(file)) as register:
        audit = Audit(register, register.end())
        audit.look(None)
        tally.check(f'{name}: audited', audit.faults == [], audit.faults)
        return register.end()[0]


def failing(tally: Tally, folder: pathlib.Path, base: pathlib.Path, how: str) -> list[str]:
    """Every call fails in turn; gives what was said."""
    said: list[str] = []
    for number in range(1, 1000):
        place = folder / f'{how}-{number}'
        place.mkdir()
        file = place / 'register.db'
        shutil.copy(base, file)
        name = f'{how}, call {number}'
        if how == 'killed':
            child = os.fork()
            if child == 0:
                DISK.armed(os.fsencode(place), number, HOWS[how])
                os._exit(0 if add(file, MORE) == '' else 1)
            ended = os.waitpid(child, 0)[1] == 0
            told = '' if ended else 'killed'
        else:
            DISK.armed(os.fsencode(place), number, HOWS[how])
            told = add(file, MORE)
            ended = DISK.counted() < number
            DISK.armed(b'', 0, 0)
        many = many_in(tally, name, file)
        wanted = {len(FIRST)} if NOT_KEPT in told else {len(FIRST) + len(MORE)}
        if NOT_KNOWN in told or told == 'killed':
            wanted |= {len(FIRST)}
        tally.check(f'{name}: what is said is true', many in wanted, (told, many))
        goes_on = add(file, MORE) == '' and many_in(tally, name, file) == len(FIRST) + len(MORE)
        tally.check(f'{name}: it goes on', goes_on)
        said.append(told)
        shutil.rmtree(place)
        if ended:
            tally.check(f'{how}: all went well in the end', told == '' and number > 5, (told, number))
            return said
    return said


def read_only(tally: Tally, file: pathlib.Path) -> None:
    """Who may read a register and not write it is told so, and can audit it."""
    os.chmod(file, 0o444)
    child = os.fork()
    if child == 0:
        if os.getuid() == 0:
            os.setuid(65534)
        os._exit(0 if NOT_KEPT in add(file, {'bert': [4]}) and many_in(Tally(), 'read-only', file) == 1 else 1)
    tally.check('read-only', os.waitpid(child, 0)[1] == 0)


def main() -> None:
    tally = Tally()
    with tempfile.TemporaryDirectory(dir=MEMORY if os.path.isdir(MEMORY) else None) as name:
        folder = pathlib.Path(name)
        os.chmod(folder, 0o755)
        base = folder / 'register.db'
        registers.made(str(base)).connection.close()
        add(base, FIRST)
        said = {how: failing(tally, folder, base, how) for how in HOWS}
        seen = ' '.join(word for words in said.values() for word in words)
        for word in (KEPT, NOT_KEPT, NOT_KNOWN, 'killed'):
            tally.check(f'some were told: {word}', word in seen)
        read_only(tally, base)
    tally.close()


if __name__ == '__main__':
    sys.exit(main())
