"""The checker of arguments, outside/argument.py: what holds, what does not, and that nothing false holds.

The last line is 'N passed, M failed'. Nothing need be built.
"""
import itertools
import pathlib
import random
import sys

from outside import argument
from outside.measure import papers
from outside.tests.arguer import Arguer, Head, Step, lines
from outside.trying import EXAMPLES, ROOT, Tally, run

CHECKER = ROOT / 'outside' / 'argument.py'
ARGUMENTS = {name: (ROOT / 'examples' / 'arguments' / f'{name}.hex').read_bytes() for name in 'pqr'}
KEYS = {'p': [5, 11], 'q': [2, 6], 'r': [1, 4]}

# A paper, a placement, an argument as lines, and the line that does not hold.
WRONG = [
    ('p', [3, 9], ARGUMENTS['p'], 0, 'is not correct'), ('p', [3, 9, 13], ARGUMENTS['p'], 5, 'loop 0 has no claim'),
    ('p', [5, 10, 11], ARGUMENTS['p'], 3, '1 sets, no gap in more than 1, are not enough'),
    ('q', [4, 7], ARGUMENTS['q'], 8, 'what is left is not of loop 0: [7]'),
    ('p', [5, 11], b'', 1, 'loop 1 has no claim'), ('p', [5, 11], b'31020000\n330000\n', 1, '2 is no loop'),
    ('p', [5, 11], b'31010000\n330006\n', 2, 'no such set'), ('p', [5, 11], b'31010000\n34\n', 2, 'no such set'),
    ('p', [5, 11], b'31010300\n35\n', 2, 'no such set'),
    ('p', [5, 11], b'31010000\n330004\n', 2, 'what is left is not of loop 1'),
    ('p', [5, 11], b'31010000\n320000\n330000\n', 3, 'claim 0 does not lead here'),
    ('q', [2, 6], ARGUMENTS['q'].replace(b'320001', b'320000'), 8, 'claim 0 does not lead here'),
    ('q', [2, 6], ARGUMENTS['q'].replace(b'320001\n', b''), 7, 'what is left is not of loop 0: [6]'),
    ('q', [2, 6], ARGUMENTS['q'].replace(b'330002\n330000\n', b'330002\n330001\n330000\n'), 9, 'not of loop 0'),
    ('r', [1, 4], ARGUMENTS['r'].replace(b'330000\n', b''), 1, '2 sets, no gap in more than 2, are not enough')]

# Arguments that cannot be read.
UNREAD = [b'31000000', b'3100000\n', b'310000A0\n', b'\n', b'330000\n', b'320000\n', b'34\n', b'31000000\n3300\n',
          b'31000000\n320000\n', b'31000000\n320000\n320000\n330000\n', b'31000000\n320000\n31000000\n330000\n',
          b'310000\n', b'36\n', b'2105\n', b'31000000\n' * 4097, b'31000000\n' + b'330000\n' * 1025]

# Papers on which a rule that forgets one condition would take a placement for a key that is none, by the condition: the
# points and the dependences from s to t, or from s to t round d; the placement; its claims and their steps.
Claims = list[tuple[Head, list[Step]]]
INNER, LOW, HALF = '01 01 03 02 02', ((1, 0, 0), [(2, 0)]), ((1, 3, 2), [(2, 0), (0, 0)])
OTHER = ((1, 3, 2), [(2, 0), (1, 0)])
NEEDED: list[tuple[str, str, list[int], Claims]] = [
    ('correct', '01 03 02 110001', [], []), ('a low claim for each loop', '01 03 02 110001', [1, 2], []),
    ('the set is there', '01 03 02 110001', [1, 2], [((0, 0, 0), [(0, 0), (0, 0)])]),
    ('in the range', '01 01 02 02 110103', [2], [LOW]),
    ('own gaps', '01 01 02 02 110102', [1, 2], [LOW, ((0, 0, 0), [(2, 0)])]),
    ('facts are forgotten', INNER + ' 110102 110204', [1, 2, 4], [LOW, HALF, ((0, 0, 0), [(3, 2), (2, 0), (2, 0)])]),
    ('a leading step does not count', INNER + ' 110203', [1, 3], [LOW, OTHER, ((0, 0, 0), [(2, 2)])]),
    ('from on', INNER + ' 110102', [1, 2], [LOW, HALF, ((0, 0, 0), [(2, 2), (2, 0)])]),
    ('in the loop that leads', INNER + ' 110102 110204', [1, 2, 4],
     [LOW, HALF, ((0, 0, 0), [(3, 0), (3, 2), (2, 0)])]),
    ('the end of a low claim', '01 03 02 110001', [1, 2], [((0, 0, 0), [(2, 0)])]),
    ('the end of one for more', INNER + ' 110103', [1, 2],
     [LOW, ((1, 0, 2), [(2, 0)]), ((1, 3, 0), [(2, 0)]), ((0, 0, 0), [(2, 0)])]),
    ('the most times', '01 03 02 110001', [1, 2], [((0, 0, 0), [(2, 0), (2, 0)])]),
    ('exact', '01 01 03 03 03 02 02 110103 110204 12010302 110406', [2, 3, 6],
     [((1, 0, 0), [(2, 0), (3, 0), (4, 0)]), ((0, 0, 0), [(5, 0)])]),
    ('the own gaps of its loop', '01 01 03 01 03 02 02 02 110102 110305 110407', [2, 4, 7],
     [((3, 0, 0), [(3, 0)]), LOW, ((0, 0, 0), [(4, 0)])]),
    ('a fact of its loop', INNER + ' 110002 110203', [1, 3, 4],
     [((1, 0, 0), [(3, 0)]), ((1, 3, 2), [(3, 0), (1, 0)]), ((0, 0, 0), [(2, 0), (3, 2), (2, 0)])]),
    ('a fact up to', INNER + ' 110203', [1, 3], [LOW, OTHER, ((0, 0, 0), [(2, 2), (2, 0)])]),
    ('a claim of its loop', INNER + ' 110004', [1, 4],
     [((1, 0, 2), [(1, 0)]), ((1, 3, 0), [(0, 0)]), ((0, 0, 0), [(2, 0), (2, 0)])]),
    ('none from on', INNER + ' 110102', [1, 2], [LOW, HALF, ((0, 0, 0), [(2, 0)])]),
    ('none up to', INNER + ' 110203', [1, 3], [LOW, OTHER, ((0, 0, 0), [(2, 0)])])]


def placement(gaps: list[int]) -> bytes:
    return b''.join(b'21%02x\n' % gap for gap in gaps)


def reads(paper: bytes, gaps: list[int], lines: bytes) -> tuple[int, str] | None:
    """What the checker says; None where it cannot read the argument."""
    try:
        return argument.weighed(paper, placement(gaps), lines)
    except ValueError:
        return None


def known_papers(tally: Tally) -> None:
    """The arguments of P, Q and R hold, every line of them is needed, and none holds of what is dearer."""
    for name, lines in ARGUMENTS.items():
        tally.check(f'{name} holds', reads(EXAMPLES[name], KEYS[name], lines) == (0, ''))
        rows = lines.splitlines(keepends=True)
        for i, row in enumerate(rows):
            said = reads(EXAMPLES[name], KEYS[name], b''.join(rows[:i] + rows[i + 1:]))
            tally.check(f'{name} without line {i + 1}', said is None or said[1] != '', said)
    for name, gaps, lines, line, why in WRONG:
        said = reads(EXAMPLES[name], gaps, lines)
        tally.check(f'{name} {gaps} {lines!r}', said is not None and said[0] == line and why in said[1], said)
    for lines in UNREAD:
        tally.check(f'{lines[:40]!r} is not read', reads(EXAMPLES['p'], KEYS['p'], lines) is None)


def needed(tally: Tally) -> None:
    """Every condition counts: without it an argument for a placement that is no key would hold."""
    for name, paper, gaps, claims in NEEDED:
        said = reads(paper.replace(' ', '\n').encode() + b'\n', gaps, lines(claims))
        tally.check(f'{name}: {said}', said is not None and said[1] != '')


def typed(tally: Tally, folder: pathlib.Path) -> None:
    """As a candidate calls it: three files; what is printed, and the status."""
    examples = ROOT / 'examples'
    for name, (gaps, status, word) in {'key': ([5, 11], 0, 'holds\n'), 'dearer': ([3, 9, 13], 1, 'line 5'),
                                       'uncut': ([3], 1, 'not correct')}.items():
        (folder / name).write_bytes(placement(gaps))
        seen = run(sys.executable, CHECKER, examples / 'p.hex', folder / name, examples / 'arguments' / 'p.hex')
        tally.check(f'P, {name}', seen.status == status and word in seen.out.decode() and seen.err == '', seen)
    seen = run(sys.executable, CHECKER, examples / 'p.hex', folder / 'key', folder / 'key')
    tally.check('no argument', seen.failed('the argument: line 1 has no place'), seen)
    (folder / 'led').write_bytes(b'31010000\n330000\n320000\n')
    seen = run(sys.executable, CHECKER, examples / 'p.hex', folder / 'key', folder / 'led')
    tally.check('a claim that leads nothing', seen.failed('the argument: line 3 has no place'), seen)
    seen = run(sys.executable, CHECKER, examples / 'p.hex', examples / 'p.hex', examples / 'arguments' / 'p.hex')
    tally.check('no placement', seen.failed('the placement: line 1 has no place'), seen)
    (folder / 'capital').write_bytes(EXAMPLES['p'].replace(b'0b', b'0B'))
    seen = run(sys.executable, CHECKER, folder / 'capital', folder / 'key', examples / 'arguments' / 'p.hex')
    tally.check('a paper with a capital digit', seen.failed('the paper: line 17 has no place'), seen)
    seen = run(sys.executable, CHECKER, examples / 'p.hex', folder / 'key', folder / 'none')
    tally.check('no file', seen.failed('none'), seen)
    seen = run(sys.executable, CHECKER, examples / 'p.hex')
    tally.check('two too few', seen.failed('PAPER PLACEMENT ARGUMENT'), seen)


class Small:
    """A small random paper with its correct placements, all tried."""

    def __init__(self, rng: random.Random) -> None:
        points, depth = [1], 1
        while depth and len(points) < 10:
            kind = rng.choice([1, 2, 3, 3] if depth < 3 else [2, 3, 3])
            kind = 2 if len(points) + depth >= 9 else kind
            points.append(kind)
            depth += {1: 1, 2: -1, 3: 0}[kind]
        self.size, open_, self.end = len(points), [], {}
        self.owner = [0] * self.size
        for i, kind in enumerate(points):
            self.owner[i] = open_[-1] if open_ else -1
            if kind == 1:
                open_.append(i)
            elif kind == 2:
                self.end[open_.pop()] = i
        lines, self.cuts = ['%02x' % kind for kind in points], []
        for _ in range(rng.randrange(1, 6)):
            s = rng.choice([i for i, kind in enumerate(points) if kind != 2])
            t = rng.choice([i for i, kind in enumerate(points) if kind != 1])
            round_ = [d for d, e in self.end.items() if d < s < e and d < t < e]
            if round_ and rng.random() < .5:
                d = rng.choice(round_)
                lines.append('12%02x%02x%02x' % (d, s, t))
                self.cuts.append({*range(d + 1, t + 1), *range(s + 1, self.end[d] + 1)})
            elif s < t:
                lines.append('11%02x%02x' % (s, t))
                self.cuts.append({*range(s + 1, t + 1)})
        barred: set[int] = set()
        if len(self.end) == 1 and rng.random() < .3:
            barred = {rng.randrange(1, self.size)}
            lines += ['13%02x' % gap for gap in barred]
        self.text = ''.join(line + '\n' for line in lines).encode()
        self.correct = [{*gaps} for k in range(self.size) for gaps in itertools.combinations(range(1, self.size), k)
                        if not barred & {*gaps} and all(cut & {*gaps} for cut in self.cuts)]

    def counts(self, gaps: set[int]) -> dict[int, int]:
        return {d: sum(self.owner[gap] == d for gap in gaps) for d in self.end}

    def as_good(self, one: set[int], other: set[int]) -> bool:
        """Loop by loop: where all loops inside agree, the first has no more."""
        a, b = self.counts(one), self.counts(other)
        return all(a[d] <= b[d] for d, e in self.end.items() if all(a[m] == b[m] for m in self.end if d < m < e))

    def is_key(self, gaps: set[int]) -> bool:
        return all(self.as_good(gaps, other) for other in self.correct)

    def claims(self, rng: random.Random) -> bytes:
        """Claims at random, from the loops inside to the outermost, with steps that might help."""
        lines: list[str] = []
        known: list[tuple[int, int, int]] = []
        for d in sorted(self.end, reverse=True):
            for low in range(rng.randrange(1, 4)):
                a, b = (rng.choice([0, rng.randrange(d + 1, self.end[d] + 1)]) for _ in 'ab') if low else (0, 0)
                lines.append('31%02x%02x%02x' % (d, a, b))
                fit = ['33%04x' % i for i, cut in enumerate(self.cuts) if min(cut) > d and max(cut) <= self.end[d]]
                fit += ['34'] * 2 * (a > 0) + ['35'] * 2 * (b > 0)
                for step in rng.sample(fit, min(len(fit), rng.randrange(1, 5))):
                    leads = [i for i, (m, x, y) in enumerate(known) if d < m < self.end[d] and x and y]
                    if leads and rng.random() < .6:
                        lines.append('32%04x' % rng.choice(leads))
                    lines.append(step)
                known.append((d, a, b))
        return ''.join(line + '\n' for line in lines).encode()


def sound(tally: Tally, papers: int) -> None:
    """On small papers, all correct placements tried: whatever random argument holds, its placement is a key."""
    rng, held, refused = random.Random('arguments'), 0, 0
    for _ in range(papers):
        small = Small(rng)
        if not small.correct:
            continue
        keys = [gaps for gaps in small.correct if small.is_key(gaps)]
        for _ in range(30):
            lines = small.claims(rng)
            for gaps in (rng.choice(small.correct), rng.choice(keys)):
                said = reads(small.text, sorted(gaps), lines)
                if said == (0, ''):
                    held += 1
                    tally.check(f'{small.text!r} {sorted(gaps)} {lines!r} holds', gaps in keys)
                else:
                    refused += 1
    tally.check('arguments at random that hold', held > papers // 4, held)
    tally.check('and that do not', refused > papers, refused)


def argued(tally: Tally, many: int) -> None:
    """Small papers: the argument of the key holds, and no damage makes one hold of a placement that is no key."""
    rng, damaged = random.Random('argued'), 0
    for _ in range(many):
        small = Small(rng)
        if b'\n13' in small.text:
            continue
        made = Arguer(small.text)
        said = reads(small.text, made.key, lines(made.claims))
        tally.check(f'{small.text!r} {made.key}: {said}', said == (0, '') and small.is_key({*made.key}))
        for _ in range(20):
            rows = lines(made.claims).split()
            for _ in range(rng.randrange(1, 4)):
                if rows:
                    at = rng.randrange(len(rows))
                    row = bytearray.fromhex(rows[at].decode())
                    row[rng.randrange(len(row))] = rng.randrange(small.size)
                    rows[at:at + 1] = rng.choice([[], [rows[at]] * 2, [row.hex().encode()]])
            gaps = rng.choice(small.correct)
            if reads(small.text, sorted(gaps), b''.join(row + b'\n' for row in rows)) == (0, ''):
                damaged += 1
                tally.check(f'{small.text!r} {sorted(gaps)} {rows} holds', small.is_key(gaps))
    tally.check('damaged arguments that hold', damaged > many // 2, damaged)


def full_size(tally: Tally) -> None:
    """Papers of 256 points: the argument of the key holds, not of one barrier more or less, and not cut short."""
    for kind in papers.KINDS + papers.FOUND:
        text = papers.text(kind)
        made = Arguer(text)
        rows = lines(made.claims)
        said = reads(text, made.key, rows)
        tally.check(f'{kind}: {said}', said == (0, '') and len(made.claims) <= argument.CLAIMS)
        more = next(gap for gap in range(1, made.size) if gap not in made.key)
        for gaps in (sorted([*made.key, more]), made.key[1:]):
            said = reads(text, gaps, rows)
            tally.check(f'{kind}, {len(gaps)} barriers', said is not None and said[1] != '', said)
        short = rows[:rows.rindex(b'31000000')] if made.cost[0] else b''
        said = reads(text, made.key, short)
        tally.check(f'{kind}, cut short', said is not None and said[1] != '', said)


def main() -> None:
    folder = ROOT / 'target' / 'arguments'
    folder.mkdir(parents=True, exist_ok=True)
    tally = Tally()
    known_papers(tally)
    needed(tally)
    typed(tally, folder)
    sound(tally, 300)
    argued(tally, 600)
    full_size(tally)
    tally.close()


if __name__ == '__main__':
    main()
