"""A whole day: six papers, three thousand candidates, six desks at a time, killed again and again, then audited.

  python3 -m outside.measure.whole_day [CANDIDATES]    the seconds it takes, and the size of the register

Every mark is held against an own reading of the rules, that of outside/tests/workday.py. The last line is 'N passed,
M failed'.
"""
import contextlib
import hashlib
import pathlib
import random
import sqlite3
import subprocess
import sys
import tempfile
import time

from outside.measure import papers
from outside.tests.workday import rows_of, text_of, verdict
from outside.trying import DESK, EXAMPLES, Tally, run

MANY, ROUNDS = 3000, 3
PAPERS = EXAMPLES | {kind: papers.text(kind, 64) for kind in ('deep', 'many', 'mixed')}


def answers_in(folder: pathlib.Path, many: int) -> dict[tuple[str, str], list[str]]:
    """Answers of all candidates on all papers, some of them wrong and some missing; gives the rows they must get."""
    rng, wanted = random.Random(1), {}
    for name, text in PAPERS.items():
        (folder / f'{name}.hex').write_bytes(text)
        (folder / name).mkdir()
        written = run(DESK, 'key', folder / f'{name}.hex').out.decode().split()
        key = [int(line[2:], 16) for line in written if line.startswith('21')]
        gaps = [*range(1, sum(line in (b'01', b'02', b'03') for line in text.split()))]
        paper = hashlib.sha256(text).hexdigest()
        for i in range(many):
            candidate, chance = f'c{i:04}', rng.random()
            near = {*key, *rng.sample(gaps, rng.randrange(4))}
            chosen = sorted(near if chance < 0.6 else rng.sample(gaps, len(gaps) // 2))
            if chance < 0.97:
                answer = text_of(chosen) if chance < 0.95 else b'21\n'
                cells = verdict(text, chosen, key) if chance < 0.95 else ['Refused', '', '', '', '', '2', '1', 'no']
                (folder / name / f'{candidate}.hex').write_bytes(answer)
                own = hashlib.sha256(answer).hexdigest()
            else:
                cells, own = ['Absent', '', '', '', '', '', '', 'no'], ''
            wanted[candidate, paper] = [candidate, *cells, paper, own]
    (folder / 'names.txt').write_text('\n'.join(f'c{i:04}' for i in range(many)))
    return wanted


def marked(folder: pathlib.Path, until: int) -> None:
    """Six desks mark a paper each, in one register. If there are ever so many marks, they are killed."""
    register, listed = folder / 'register.db', folder / 'names.txt'
    desks = [subprocess.Popen([DESK, 'mark', folder / f'{name}.hex', *(folder / name).iterdir(), '--candidates', listed,
                               '--register', register], stdout=subprocess.DEVNULL, stderr=subprocess.DEVNULL)
             for name in PAPERS]
    while any(desk.poll() is None for desk in desks) and marks_in(register) < until:
        time.sleep(0.01)
    for desk in desks:
        desk.kill()
        desk.wait()


def marks_in(register: pathlib.Path) -> int:
    with contextlib.closing(sqlite3.connect(register, timeout=60)) as opened:
        return int(opened.execute('SELECT count(*) FROM mark').fetchone()[0])


def day(tally: Tally, folder: pathlib.Path, many: int) -> None:
    """The day, killed in each round but the last; every round is audited."""
    wanted, register = answers_in(folder, many), folder / 'register.db'
    first = min((folder / 'p').iterdir())
    head = run(DESK, 'mark', folder / 'p.hex', first, '--register', register, '--new').out.split()[-1].decode()
    begun, kept = time.monotonic(), []
    for turn in range(ROUNDS + 1):
        marked(folder, 6 * many * (turn + 1) // (ROUNDS + 1) if turn < ROUNDS else 6 * many + 1)
        took = time.monotonic()
        seen = run(DESK, 'audit', register, '--head', head)
        tally.check(f'round {turn}: audited', seen.status == 0 and b'all as it was made' in seen.out, seen)
        head, told = seen.out.split()[-1].decode(), time.monotonic() - took
        kept.append(len(rows_of(run(DESK, 'register', register, '--csv').out)))
    rows = rows_of(run(DESK, 'register', register, '--csv').out)
    wrong = [row for about, row in wanted.items() if rows.get(about) != row]
    tally.check('every mark by the rules', rows == wanted, wrong[:2])
    tally.check('nothing is lost between', kept == sorted(kept) and kept[-1] == 6 * many, kept)
    all_in_all, size = time.monotonic() - begun, register.stat().st_size
    print(f'{6 * many:,} marks of six desks at a time, after rounds {kept}: {all_in_all:.1f} s with audits; the last '
          f'audit {told:.1f} s; {size:,} bytes')


def main(many: int) -> None:
    tally = Tally()
    for _ in range(2):
        with tempfile.TemporaryDirectory() as name:
            day(tally, pathlib.Path(name), many)
    tally.close()


if __name__ == '__main__':
    main(int(sys.argv[1]) if sys.argv[1:] else MANY)
