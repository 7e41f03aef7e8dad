"""A large register: how long it takes to add marks, one more, to show all and to audit all, and how large it is.

  python3 -m outside.measure.registers [MARKS]
"""
import pathlib
import random
import resource
import subprocess
import sys
import tempfile
import time
from collections.abc import Callable

from office import register as registers
from office.audit import planned
from office.keeping import EVERY, Answer, PaperText, finding_of, keep, marker
from office.marks import sha256_of
from outside.measure import papers
from outside.tests.workday import text_of
from outside.trying import DESK

MANY = 100_000


def took(what: str, act: Callable[[], object]) -> None:
    """Prints the seconds that something takes, of the clock and of the processor, in this process and its children."""
    def busy() -> float:
        used = [resource.getrusage(who) for who in (resource.RUSAGE_SELF, resource.RUSAGE_CHILDREN)]
        return sum(one.ru_utime + one.ru_stime for one in used)

    begun, before = time.monotonic(), busy()
    act()
    print(f'{what}: {time.monotonic() - begun:.2f} s, {busy() - before:.2f} s of the processor')


def filled(file: str, many: int) -> None:
    """A register with the marks of so many candidates on a full-size paper."""
    rng, text = random.Random(1), papers.text('deep')
    paper, desk = PaperText(sha256_of(text), 'deep', text), planned(text)
    assert desk is not None
    with registers.made(file) as register:
        for first in range(0, many, EVERY):
            texts = {f'c{i:06}': text_of(sorted(rng.sample(range(1, 256), 40)))
                     for i in range(first, min(first + EVERY, many))}
            keep(register, paper, [Answer(name, one, finding_of(desk, one)) for name, one in texts.items()], marker())


def main(many: int) -> None:
    with tempfile.TemporaryDirectory() as name:
        folder = pathlib.Path(name)
        register, paper, answer = folder / 'register.db', folder / 'deep.hex', folder / 'anna.hex'
        paper.write_bytes(papers.text('deep'))
        answer.write_bytes(text_of([5]))

        def desk(*words: object) -> Callable[[], object]:
            return lambda: subprocess.run([DESK, *map(str, words)], check=True, stdout=subprocess.DEVNULL)

        took(f'{many:,} marks made and added', lambda: filled(str(register), many))
        took('one more by ./desk mark', desk('mark', paper, answer, '--register', register))
        took('./desk register --csv', desk('register', register, '--csv'))
        took('./desk audit', desk('audit', register))
        print(f'{register.stat().st_size:,} bytes')


if __name__ == '__main__':
    main(int(sys.argv[1]) if sys.argv[1:] else MANY)
