"""A day in the office, from nothing to the register: what is typed, what is seen, and what is there afterwards.

Three papers are set as listings, checked and planned; forty answers of every sort, and three that cannot be read, are
marked as they come in, and who has none is absent; the same day in another order gives the same marks and slips; then
ten thousand answers at once. Needs the library's archive (rt lib in crates/host). The last line is 'N passed, M failed'.
"""
import csv
import hashlib
import itertools
import pathlib
import random
import tempfile

from outside.measure import papers
from outside.trying import DESK, EXAMPLES, ROOT, Tally, run

COLUMNS = 'candidate,verdict,uncut,loop,theirs,ours,number,line,certificate,paper_sha256,answer_sha256'
LISTINGS = {'p': """
DO nest
  DO left
    a
    b
    c
    d
  ENDDO
  DO right
    e
    f
    g
    h
  ENDDO
ENDDO
a -> d
c -> b round left
e -> h
g -> f round right
g -> a round nest
c -> f
""", 'q': None, 'r': None}
KEYS = {'p': [5, 11], 'q': [2, 6], 'r': [1, 4]}
# Texts that are no placements of P, with the number and the line of the refusal.
WRONG = {'capital': (b'210B\n', 1, 1), 'carriage': (b'2105\r\n', 1, 1), 'open': (b'2105', 1, 1), 'blank': (b'\n', 1, 1),
         'kind': (b'2105\n2205\n', 2, 2), 'short': (b'21\n', 2, 1), 'falling': (b'210b\n2105\n', 8, 2),
         'twice': (b'2105\n2105\n', 8, 2), 'zero': (b'2100\n', 8, 1), 'high': (b'210e\n', 8, 1)}
MANY = 10_000


def text_of(gaps) -> bytes:
    return b''.join(b'21%02x\n' % gap for gap in gaps)


def verdict(paper: bytes, gaps, key) -> list[str]:
    """The cells from verdict to certificate, by an own reading of the rules."""
    frames = [list(bytes.fromhex(line)) for line in paper.decode().split()]
    points, end, opened, owner = [f[0] for f in frames if f[0] < 0x10], {}, [], {}
    for point, kind in enumerate(points):
        owner[point] = opened[-1] if opened else None
        if kind == 1:
            opened.append(point)
        elif kind == 2:
            end[opened.pop()] = point
    for number, (kind, *ends) in enumerate(f for f in frames if f[0] > 0x10):
        s, t = ends[-2:]
        cut = range(s + 1, t + 1) if kind == 0x11 else [*range(ends[0] + 1, t + 1), *range(s + 1, end[ends[0]] + 1)]
        if not set(cut) & set(gaps):
            return ['Uncut', str(number), '', '', '', '', '', 'no']
    for d in sorted(end, key=end.get):
        theirs, ours = (sum(owner[gap] == d for gap in some) for some in (gaps, key))
        if theirs != ours:
            return ['Dearer', '', str(d), str(theirs), str(ours), '', '', 'no']
    return ['Best', '', '', '', '', '', '', 'yes']


def rows_of(data: bytes) -> dict[tuple[str, str], list[str]]:
    """The rows of a table by candidate and paper, in its first columns, if these are right and it is sorted."""
    wanted = COLUMNS.split(',')
    head, *rows = [row[:len(wanted)] for row in csv.reader(data.decode().splitlines())]
    about = [(row[0], row[9]) for row in rows]
    return dict(zip(about, rows)) if head == wanted and about == sorted(set(about)) else {}


def answers_in(folder: pathlib.Path) -> dict[str, dict[str, tuple[bytes | None, list[str]]]]:
    """Forty answers: by paper and candidate the bytes, None for what cannot be read, and the cells they must get."""
    made = {}
    for paper in EXAMPLES:
        key, gaps = KEYS[paper], range(1, EXAMPLES[paper].split(b'11')[0].count(b'\n'))
        some = [[], key, [*gaps], *itertools.islice(itertools.combinations(gaps, 2), 5, 12)]
        made[paper] = {f'{paper}{i}': (text_of(one), verdict(EXAMPLES[paper], one, key)) for i, one in enumerate(some)}
    made['p'] |= {name: (text, ['Refused', '', '', '', '', str(number), str(line), 'no'])
                  for name, (text, number, line) in WRONG.items()}
    for paper, answers in made.items():
        (folder / paper).mkdir(parents=True)
        for name, (text, _) in answers.items():
            (folder / paper / f'{name}.hex').write_bytes(text)
    nothing = [''] * 6
    (folder / 'q' / 'folder.hex').mkdir()
    (folder / 'q' / 'broken.hex').symlink_to('/proc/self/mem')
    made['q'] |= {name: (None, ['Not read', *nothing, 'no']) for name in ('folder', 'broken', 'missing')}
    made['r'] |= {'nobody': (None, ['Absent', *nothing, 'no'])}
    return made


def slip_of(slips: pathlib.Path, candidate: str, paper: str, reader: str) -> pathlib.Path:
    """The file of a slip."""
    return slips / reader / f'{candidate}.{paper}-{hashlib.sha256(EXAMPLES[paper]).hexdigest()[:8]}.{reader}.hex'


def a_day(tally: Tally, folder: pathlib.Path, backwards: bool) -> dict[str, bytes]:
    """The day in a folder; gives the bytes of all files that it made, and the rows of the register."""
    answers, register, slips = answers_in(folder / 'answers'), folder / 'register.db', folder / 'slips'
    for paper, listing in LISTINGS.items():
        typed, text = folder / f'{paper}.txt', folder / f'{paper}.hex'
        shown = run(DESK, 'show', ROOT / 'examples' / f'{paper}.hex').out
        typed.write_bytes(listing.encode() if listing else shown)
        text.write_bytes(run(DESK, 'spell', typed).out)
        tally.check(f'{paper} spelled', text.read_bytes() == EXAMPLES[paper], text.read_bytes())
        tally.check(f'{paper} shown', run(DESK, 'show', text).out == shown and shown != b'', shown)
        tally.check(f'{paper} checked', run(DESK, 'check', text).out.startswith(b'accepted: '))
        tally.check(f'{paper} planned', run(DESK, 'key', text).out.startswith(text_of(KEYS[paper]) + b'22'))
    statuses = {'p': 1, 'q': 2, 'r': 0}
    for paper in sorted(LISTINGS, reverse=backwards):
        names, listed = sorted(answers[paper], reverse=backwards), folder / 'names.txt'
        files = [folder / 'answers' / paper / f'{name}.hex' for name in names if name != 'nobody']
        half = len(names) // 2
        for some in (names[:half], names[half:]):
            listed.write_text('\n'.join(some))
            new = [] if register.exists() else ['--new']
            seen = run(DESK, 'mark', folder / f'{paper}.hex', *(file for file in files if file.stem in some),
                       '--slips', slips, '--register', register, *new, '--candidates', listed)
            told = f'{len(some) - ("nobody" in some)} answers: '
            tally.check(f'{paper} marked', seen.out.decode().startswith(told), seen)
        listed.write_text('\n'.join(names))
        seen = run(DESK, 'mark', folder / f'{paper}.hex', *files, '--candidates', listed)
        tally.check(f'{paper}: status', seen.status == statuses[paper] and seen.err.count('\n') == sum(
            cells[0] in ('Refused', 'Not read') for _, cells in answers[paper].values()), seen)
        tally.check(f'{paper}: rows to standard output', len(rows_of(seen.out)) == len(answers[paper]), seen)
    table = run(DESK, 'register', register, '--csv').out
    rows = rows_of(table)
    tally.check('forty rows, three and one', len(rows) == 44, len(rows))
    tally.check('audited', run(DESK, 'audit', register).status == 0)
    for paper, some in answers.items():
        sha = hashlib.sha256(EXAMPLES[paper]).hexdigest()
        for name, (text, cells) in some.items():
            own = '' if text is None else hashlib.sha256(text).hexdigest()
            tally.check(f'the row of {name}', rows.get((name, sha)) == [name, *cells, sha, own], rows.get((name, sha)))
            there = [slip_of(slips, name, paper, reader).exists() for reader in ('candidate', 'examiner')]
            tally.check(f'the slips of {name}', there == [cells[0] in ('Uncut', 'Dearer', 'Best')] * 2, there)
    slip = b'230004\n220000\n220101\n220701\n'
    (folder / 'late.hex').write_bytes(text_of([3, 9]))
    run(DESK, 'mark', folder / 'p.hex', folder / 'late.hex', '--slips', slips)
    tally.check("the candidate's slip", slip_of(slips, 'late', 'p', 'candidate').read_bytes() == slip)
    examiner = slip + b'2400000000\n2503\n2503\n2509\n2509\n2500\n2509\n'
    tally.check("the examiner's slip", slip_of(slips, 'late', 'p', 'examiner').read_bytes() == examiner)
    (folder / 'late.hex').write_bytes(b'21\n')
    run(DESK, 'mark', folder / 'p.hex', folder / 'late.hex', '--slips', slips)
    tally.check('no slip of an answer that is refused now', not [*slips.glob('*/late.*')])
    made = [*slips.glob('*/*'), *folder.glob('*.hex')]
    tally.check('nothing is left beside', not [*folder.glob('**/*.new')])
    return {file.name: file.read_bytes() for file in made} | {'rows': repr(rows).encode()}


def crowd_of_answers(folder: pathlib.Path) -> list[object]:
    """Ten thousand answers on a full-size paper; gives the words that mark them, with slips and register."""
    rng, paper, crowd = random.Random(1), folder / 'full.hex', folder / 'crowd'
    paper.write_bytes(papers.text('deep'))
    crowd.mkdir()
    for i in range(MANY):
        (crowd / f'{i:05}.hex').write_bytes(text_of(sorted(rng.sample(range(1, 256), rng.randrange(256)))))
    return ['mark', paper, '--slips', folder / 'handed', '--register', folder / 'full.db', '--new', *crowd.iterdir()]


def many(tally: Tally, folder: pathlib.Path) -> None:
    """A large paper and many answers: each has its row and both slips."""
    seen = run(DESK, *crowd_of_answers(folder))
    tally.check('ten thousand', seen.out.startswith(b'10,000 answers: ') and seen.status == 0, seen)
    names = sorted(name for name, _ in rows_of(run(DESK, 'register', folder / 'full.db', '--csv').out))
    tally.check('a row each', names == [f'{i:05}' for i in range(MANY)], len(names))
    tally.check('two slips each', len([*(folder / 'handed').glob('*/*')]) == 2 * MANY)


def main() -> None:
    tally = Tally()
    with tempfile.TemporaryDirectory() as name:
        folder = pathlib.Path(name)
        (folder / 'first').mkdir()
        (folder / 'second').mkdir()
        first = a_day(tally, folder / 'first', backwards=False)
        second = a_day(tally, folder / 'second', backwards=True)
        tally.check('the same day gives the same marks and slips', first == second and len(first) > 60, len(first))
        many(tally, folder)
    tally.close()


if __name__ == '__main__':
    main()
