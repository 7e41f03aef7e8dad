"""Ten thousand answers on a full-size paper, marked with both slips of each and a register: the seconds it takes.

  python3 -m outside.measure.marking
"""
import pathlib
import resource
import subprocess
import tempfile
import time

from outside.tests.workday import MANY, crowd_of_answers
from outside.trying import DESK


def main() -> None:
    with tempfile.TemporaryDirectory() as name:
        words = crowd_of_answers(pathlib.Path(name))
        before, begun = resource.getrusage(resource.RUSAGE_CHILDREN), time.monotonic()
        subprocess.run([DESK, *map(str, words)], check=True, stdout=subprocess.DEVNULL)
        after, took = resource.getrusage(resource.RUSAGE_CHILDREN), time.monotonic() - begun
    busy = after.ru_utime + after.ru_stime - before.ru_utime - before.ru_stime
    print(f'{MANY:,} answers with slips: {took:.1f} s, {busy:.1f} s of the processor')


if __name__ == '__main__':
    main()
