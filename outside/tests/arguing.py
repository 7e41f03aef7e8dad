"""The arguments that the desk gives and those that the office makes of them, held against outside/argument.py, which
shares nothing with them: of all examples, of random papers and of full-size ones, and the same damaged; and what
./desk why tells of them. What the desk gives is that of arguer.py, byte by byte, where nothing is barred. The last line
is 'N passed, M failed'.

Needs the library's archive (rt lib in crates/host).
"""
import base64
import hashlib
import json
import pathlib
import random
import re
import sys
import tempfile

from office import argued
from office.claim_words import NONE_FOUND, claims_told
from office.claims import Claim, Ground, argument_text, claims_in
from office.library import Desk, refusal_of
from office.listing import spelled
from office.paper import Paper, Placed, paper_on, placed
from office.refusal import Refusal, Refused
from office.shorter import shortened
from outside import argument
from outside.measure import papers
from outside.tests.arguer import Arguer, lines
from outside.trying import DESK, EXAMPLES, ROOT, Seen, Tally, run

# A random paper has so many barred gaps; so many sets a barrier are enough, in the mean of all.
BARRED, REASONS = 3, 1.15
# The number of an argument that does not hold.
UNHELD = 21


# Q's argument as it is told.
OF_Q = """the key: gaps 2, 6

loop 0: 1
└ loop 2: 0
  └ loop 3: 1

Why no placement is better: each claim is about every correct placement that has the key's counts in
all loops inside the claim's loop.

1. Loop 3 needs a barrier of its own.
   - dependence 1 needs one at 4 or 6
   With just one, it stands there.
2. Loop 3 with one of its own: if a barrier stands in its range from 5 on, none stands up to 4.
   Suppose both:
   - the one from 5 on stands at 5 or 6
   - the one up to 4 stands at 4
   No gap is named twice: that would be two barriers of its own, and there is only one.
3. Loop 0 needs a barrier of its own.
   - dependence 2 needs one in loop 3 at 6 (not 5: by 1; not 7: loop 2 has none of its own); then
     loop 3 has none up to 4, by 2
   - dependence 0 needs one at 2 (not 3: loop 2 has none of its own; not 4: just said; not 5: by 1)

So at every loop inside which it has the key's counts, a correct placement has at least as many
barriers of its own as the key: none is better. The desk has weighed this argument, 3 claims with 5
sets, and it holds.
"""
# Arguments by what they are told with: the paper, the argument, and words.
INNER, RING = '01 01 03 03 02 03 02 110103 110204 110305', '01 01 03 03 03 02 02 110103 110203 110405 110305 110002'
LINES = ('01 03 03 03 03 03 03 03 03 03 03 03 01 01 03 02 02 02 110307 11080f 12000104 120c0e0f 12000901 12000807 '
         '1200020a 11060b 12000e04 110c11 110c11 12000b05 12000502')
TOLD = [
    (EXAMPLES['p'], '31010000 330000 31070000 330002', ['dependence 0 needs one at 3 to 5']),
    (EXAMPLES['r'], '31000000 330001 330002 330000', [
        'Loop 0 needs two barriers of its own.', 'dependence 2 needs one at 1, 2, 6 or 7',
        'No gap is in more than two of these three: two barriers at least.']),
    (EXAMPLES['q'], '31030000 330001 31030505 34 330001 35 31020005 320001 330002 35 31000000 330000', [
        'No gap is in more than two of these three: that would be two barriers of its own, and there is only one.',
        'Loop 2 with none of its own: no barrier stands in its range up to 5. Suppose one does:',
        'the one up to 5 stands at 3 (not 4, 5: just said)',
        'That would be a barrier of its own, and there is none.', 'dependence 0 needs one at 2 (not 3: loop 2']),
    ((ROOT / 'examples' / 'foundation.hex').read_bytes(), '31000000 330001 330000 330002', ['(not 1, 2, 4: barred)']),
    (INNER, '31010000 330000 330001 31000000 330002', [
        'With just one, it stands at 3, named two times.', 'dependence 2 needs one at 5 (not 4: by 1)']),
    (RING, '31010000 330000 330001 330002 330003 31000000 330004', [
        'No gap is in more than two of these four: two barriers at least. With just two, they stand at 3 or 5, named '
        'two times.', 'dependence 4 needs one at 1 (not 2: by 1)']),
    (RING, '31010000 330001 330002 31000000 330004', ['No gap is named twice: two barriers at least. With just two, '
                                                      'they stand there.']),
    (LINES, '310c0000 330003 310c100d 34 35 31000000 330007 320001 330008 330001 330000', [
        'dependence 8 needs one at 1 to 4 or 17, or else in loop 12 at 16 (not 15: loop 13 has none of its own), and '
        'then loop 12 has none up to 13, by 2',
        'No gap is named more than two times, and three lines count: two barriers at least.']),
    ('01 01 03 03 02 03 02 110102 110305', '31010000 330000 31010300 34 330000 31000000 330001', [
        'Loop 1 with one of its own: no barrier stands in its range from 3 on. Suppose one does:',
        'the one from 3 on stands at 3 or 4'])]


class Found:
    """A paper with its key, the claims that are found and those that are left of them."""

    def __init__(self, text: bytes) -> None:
        self.desk = desk = Desk()
        desk.load(text)
        desk.plan()
        self.text, self.key_text = text, desk.key()
        self.paper: Paper = paper_on(desk)
        self.key: Placed = placed(desk, self.key_text)
        self.ground = Ground(self.paper, self.key.counts)
        self.plain: list[Claim] = claims_in(desk.argue())
        self.short: list[Claim] = shortened(self.ground, self.plain)
        self.sets = sum(len(claim.steps) for claim in self.short)

    def said(self, lines: bytes, gaps: list[int] | None = None) -> tuple[int, str] | None:
        """What the checker says of an argument for some gaps, for the key's if none are named; None if it is not
        read."""
        placement = self.key_text if gaps is None else b''.join(b'21%02x\n' % gap for gap in gaps)
        try:
            return argument.weighed(self.text, placement, lines)
        except ValueError:
            return None

    def agree(self, lines: bytes, gaps: list[int]) -> bool:
        """Whether the desk says the same as the checker of an argument for some gaps, which are correct: that it holds,
        the line that does not, or that it is not read."""
        said, placement = self.said(lines, gaps), b''.join(b'21%02x\n' % gap for gap in gaps)
        refusal = refusal_of(lambda text: self.desk.weigh_placement(placement, text), lines)
        if refusal is None or refusal.number == UNHELD:
            return said == (0, '') if refusal is None else said is not None and said[0] == refusal.line
        return said is None

    def holds(self, tally: Tally, name: str) -> None:
        """Both lists hold, the shorter is no longer, and each is its text; the shorter is what the office tells."""
        if not self.paper.barred:
            given = lines(Arguer(self.text).claims)
            tally.check(f'{name} is given', self.desk.argue() == given, given)
        told = argued.argument_of(self.desk, self.paper, self.key.counts, self.desk.weigh)
        tally.check(f'{name} is told', told == argument_text(self.short), told)
        for claims in (self.plain, self.short):
            said = self.said(argument_text(claims))
            tally.check(f'{name}: {said}', said == (0, ''), argument_text(claims))
            tally.check(f'{name} read again', claims_in(argument_text(claims)) == claims)
            steps = max((len(claim.steps) for claim in claims), default=0)
            tally.check(f'{name}: {len(claims)} claims, {steps} steps', len(claims) <= argument.CLAIMS and
                        steps <= argument.STEPS)
            tally.check(f'{name}: what is struck', self.struck_well(claims), argument_text(claims))
        plain = sum(len(claim.steps) for claim in self.plain)
        tally.check(f'{name}: {self.sets} of {plain} sets', self.sets <= plain)

    def struck_well(self, claims: list[Claim]) -> bool:
        """Of each set all gaps are told once: own gaps, gaps of the loop that leads from its gap on, or struck ones."""
        known = self.ground.follow(claims)
        for one in known:
            for taken in one.steps:
                struck = [gap for reason in taken.struck for gap in reason.gaps]
                leads = None if taken.step.led is None else claims[taken.step.led]
                inner = [] if leads is None else range(leads.start, self.paper.end[leads.loop] + 1)
                if not {*taken.inner} <= {*inner} or sorted(taken.own + taken.inner + struck) != sorted(
                        self.ground.named(one.claim, taken.step)):
                    return False
        return True

    def fails(self, tally: Tally, name: str, rng: random.Random, many: int) -> None:
        """None of one barrier more; not without its last claim; damaged, not of one barrier more either."""
        rows = argument_text(self.short).splitlines(keepends=True)
        free = [gap for gap in self.paper.owner if gap not in self.key.gaps and gap not in self.paper.barred]
        if rows:
            last = max(i for i, row in enumerate(rows) if row.startswith(b'31'))
            said = self.said(b''.join(rows[:last]))
            tally.check(f'{name} without its last claim: {said}', said is not None and said[1] != '')
        for _ in range(many if free else 0):
            more = sorted([*self.key.gaps, rng.choice(free)])
            for lines in (b''.join(rows), damaged(rows, rng)):
                said = self.said(lines, more)
                tally.check(f'{name}, {more}: {lines!r}', said is None or said[1] != '', said)
                tally.check(f'{name}, {more}: {lines!r} by the desk', self.agree(lines, more))
                tally.check(f'{name}, the key: {lines!r} by the desk', self.agree(lines, self.key.gaps))


def damaged(rows: list[bytes], rng: random.Random) -> bytes:
    """Lines with some bytes changed, lines twice and lines left out."""
    some = [*rows]
    for _ in range(rng.randrange(1, 4)):
        if not some:
            break
        at = rng.randrange(len(some))
        row = bytearray.fromhex(some[at].decode())
        row[rng.randrange(len(row))] = rng.randrange(64)
        some[at:at + 1] = rng.choice([[], [some[at]] * 2, [row.hex().encode() + b'\n']])
    return b''.join(some)


def examples(tally: Tally, rng: random.Random) -> None:
    """The papers and listings of examples/. Of P, Q and R what is found are the arguments that are kept there."""
    texts = {path.name: path.read_bytes() for path in sorted((ROOT / 'examples').glob('*.hex'))}
    for path in sorted((ROOT / 'examples' / 'programs').glob('*.txt')):
        texts[path.name] = spelled(path.read_bytes(), path.name)
    for name, text in texts.items():
        found = Found(text)
        found.holds(tally, name)
        found.fails(tally, name, rng, 20)
    for name, text in EXAMPLES.items():
        kept = (ROOT / 'examples' / 'arguments' / f'{name}.hex').read_bytes()
        tally.check(f'the argument of {name}', argument_text(Found(text).short) == kept)


def random_text(rng: random.Random) -> bytes:
    """A random tree of loops with dependences of both kinds; one loop may have barred gaps."""
    size = rng.randrange(4, 60)
    points = papers.points(rng.choice(['mixed', 'mixed', 'many', 'one']), size, rng)
    end = papers.ends(points)
    lines = ['%02x' % kind for kind in points]
    for _ in range(rng.randrange(1, 2 * size)):
        s = rng.choice([i for i, kind in enumerate(points) if kind != papers.END])
        near = rng.random() < .6
        t = rng.choice([i for i, kind in enumerate(points) if kind != papers.DO and (not near or s < i < s + 12)])
        around = [d for d, e in end.items() if d < s < e and d < t < e]
        if around and not near:
            lines.append('12%02x%02x%02x' % (rng.choice(around), s, t))
        elif s < t:
            lines.append('11%02x%02x' % (s, t))
    if len(end) == 1:
        lines += ['13%02x' % gap for gap in sorted(rng.sample(range(1, size), min(BARRED, size - 1)))]
    return ''.join(line + '\n' for line in lines).encode()


def drawn(tally: Tally, rng: random.Random, many: int) -> None:
    """Random papers, and how many sets are named a barrier."""
    sets = barriers = barred = 0
    for _ in range(many):
        text = random_text(rng)
        try:
            found = Found(text)
        except Refused:
            continue  # a dependence has barred gaps alone
        found.holds(tally, repr(text))
        found.fails(tally, repr(text), rng, 3)
        sets, barriers, barred = sets + found.sets, barriers + len(found.key.gaps), barred + bool(found.paper.barred)
    tally.check('barred papers', barred > many // 20, barred)
    tally.check('sets a barrier', sets <= REASONS * barriers, (sets, barriers))


def full_size(tally: Tally, rng: random.Random) -> None:
    """Papers of 256 points."""
    for kind in (*papers.KINDS, 'barred', *papers.FOUND):
        found = Found(papers.text(kind))
        found.holds(tally, kind)
        found.fails(tally, kind, rng, 5)
        tally.check(f'{kind}: {found.sets} sets', found.sets <= REASONS * len(found.key.gaps), found.key.gaps)


def in_words(tally: Tally) -> None:
    """Arguments that hold, each with the words that it is told with."""
    for text, lines, words in TOLD:
        paper = text if isinstance(text, bytes) else text.replace(' ', '\n').encode() + b'\n'
        found, rows = Found(paper), lines.replace(' ', '\n').encode() + b'\n'
        tally.check(f'{lines} holds', found.said(rows) == (0, ''), found.said(rows))
        known = Ground(found.paper, found.key.counts).follow(claims_in(rows))
        told = [line for one in claims_told(found.paper, found.key.counts, known)
                for line in (one.says, *one.sets, one.follows)]
        for word in words:
            tally.check(f'{lines} is told by {word}', any(word in line for line in told), told)


def typed(tally: Tally, folder: pathlib.Path) -> None:
    """./desk why without a placement, and behind one that lost; long ones; names; what is asked wrongly; the text."""
    q, p = (ROOT / 'examples' / f'{name}.hex' for name in 'qp')
    tally.check('why Q', run(DESK, 'why', q) == Seen(OF_Q.encode(), '', 0), run(DESK, 'why', q))
    beside = run(DESK, 'why', q, '4,7').out.decode()
    tally.check('behind a placement', beside.endswith(OF_Q.partition('\n\n')[2].partition('\n\n')[2]) and
                'So the key is better.' in beside, beside)
    for other in ('2,6', ''):
        run(DESK, 'why', q, '4,7', other, '--html', folder / 'two.html')
        told = run(DESK, 'why', q, '4,7', other).out.decode() + (folder / 'two.html').read_text()
        tally.check(f'not behind two, {other}', 'no placement is better' not in told and 'argument' not in told, told)
    none, long = folder / 'none.hex', folder / 'long.hex'
    none.write_bytes(b'01\n03\n02\n')
    seen = run(DESK, 'why', none)
    tally.check('no barrier', seen.out.endswith(b'No placement is better: the key has no barrier.\n'), seen)
    long.write_bytes(papers.text('pairs'))
    told = [' '.join(run(DESK, 'why', long, *more).out.decode().split()) for more in ([], ['--argument'])]
    tally.check('a long one', told[0].endswith('takes 7 claims with 124 sets. The desk has weighed them, and they '
                                               'hold; --argument has them all.'), told[0])
    tally.check('all of it', '7. Loop 0 needs' in told[1] and '7 claims with 124 sets, and it holds.' in told[1])
    names = folder / 'named.txt'
    names.write_text('DO\nrent\nbread\nENDDO\nrent -> bread\n')
    run(DESK, 'spell', names, '-o', folder / 'named.hex')
    seen = run(DESK, 'why', folder / 'named.hex')
    tally.check('by names', b'- dependence 0 (rent to bread) needs one at 2\n' in seen.out, seen)
    for asked, word in [(['--turns', '3'], 'name its gaps'), (['-o', none], '--text asks for it'),
                        (['4', '--text'], 'with nothing beside it'), (['--json', '--text'], 'with nothing beside it'),
                        (['4', '2,6', '--argument'], 'name one placement')]:
        seen = run(DESK, 'why', q, *asked)
        tally.check(f'why {asked}', seen.failed(word), seen)
    texts(tally, folder, q, p)


def texts(tally: Tally, folder: pathlib.Path, q: pathlib.Path, p: pathlib.Path) -> None:
    """The text as a file, as the checker takes it, and for programs."""
    out, key = folder / 'q.argument', folder / 'q.key'
    seen = run(DESK, 'why', q, '--text', '-o', out)
    tally.check('a file', seen == Seen(b'', '', 0) and out.read_bytes() == run(DESK, 'why', q, '--text').out, seen)
    key.write_bytes(b''.join(line for line in run(DESK, 'key', q).out.splitlines(True) if line.startswith(b'21')))
    seen = run(sys.executable, ROOT / 'outside' / 'argument.py', q, key, out)
    tally.check('the checker', seen == Seen(b'holds\n', '', 0), seen)
    seen = run(DESK, 'why', p, '--text', '-o', out)
    tally.check('another there', seen.failed('another argument: --over lets this one take its place'), seen)
    tally.check('over it', run(DESK, 'why', p, '--text', '-o', out, '--over') == Seen(b'', '', 0))
    tally.check('not over a key', run(DESK, 'why', p, '--text', '-o', key, '--over').failed('is no argument'))
    one, behind = (json.loads(run(DESK, 'why', q, *more, '--json').out) for more in ([], ['4,7']))
    tally.check('for programs', one['gaps'] == [2, 6] and one['argument'] == behind['argument'], one)
    told = one['argument']
    tally.check('its text and hash', told['text'] == (ROOT / 'examples' / 'arguments' / 'q.hex').read_text() and
                told['sha256'] == hashlib.sha256(told['text'].encode()).hexdigest(), told)
    tally.check('its claims', [(one['loop'], one['from'], one['upto'], one['counted'], one['most'])
                               for one in told['claims']] == [(3, None, None, 1, 1), (3, 5, 4, 2, 1),
                                                              (0, None, None, 1, 1)], told)
    tally.check('a set', told['claims'][2]['sets'][0] == {
        'dependence': 2, 'supposed': None, 'led_by': 1, 'own': [], 'inside': [6], 'struck': [
            {'gaps': [5], 'why': 'claim', 'number': 0}, {'gaps': [7], 'why': 'none of its own', 'number': 2}]}, told)


def page(tally: Tally, folder: pathlib.Path) -> None:
    """The page: each claim with a figure, its gaps lit and struck."""
    q, made = ROOT / 'examples' / 'q.hex', folder / 'q.html'
    run(DESK, 'why', q, '--html', made)
    html = made.read_text()
    drawn = [base64.b64decode(data).decode() for data in re.findall(r'base64,([A-Za-z0-9+/=]+)"', html)]
    tally.check('the key and three claims', len(drawn) == 4 and 'Claim 3' in html, len(drawn))
    tally.check('no network, no script', not re.search(r'https?:|<script|<link|@import', html))
    for number, named, struck, shown in [(1, [4, 6], [], [1]), (2, [4, 5, 6], [], []),
                                         (3, [2, 6], [3, 4, 5, 7], [0, 2])]:
        lit = {kind: [int(gap) for gap in re.findall(rf'<g class="gap[^"]* {kind}">.*?<text[^>]*>(\d+)</text>',
                                                     drawn[number], re.S)] for kind in ('named', 'struck')}
        tally.check(f'claim {number}', lit == {'named': named, 'struck': struck}, lit)
        badges = sorted({int(one) for one in re.findall(r'class="n"[^>]*>(\d+)<', drawn[number])})
        tally.check(f'dependences of claim {number}', badges == shown, badges)
    text = (ROOT / 'examples' / 'arguments' / 'q.hex').read_bytes()
    tally.check('the hash', hashlib.sha256(text).hexdigest() in html)
    long = folder / 'long.hex'
    run(DESK, 'why', long, '--html', made)
    tally.check('a long one', 'Claim 1' not in made.read_text() and '--argument has them all' in made.read_text())
    run(DESK, 'why', long, '--argument', '--html', made)
    tally.check('all of it', 'Claim 7' in made.read_text())


def not_found(tally: Tally) -> None:
    """Where the desk finds that nothing holds, that is said; the claims that were found stand in for shorter ones."""
    class Deaf(Desk):
        """A desk that takes an argument at its so manieth call."""
        calls = 0

        def weigh(self, text: bytes) -> None:
            self.calls -= 1
            if self.calls:
                raise Refused(Refusal(UNHELD, 1))

    desk = Deaf()
    desk.load(EXAMPLES['q'])
    desk.plan()
    paper, counts, found = paper_on(desk), placed(desk, desk.key()).counts, Found(EXAMPLES['q'])
    tally.check('nothing holds', argued.argument_of(desk, paper, counts, desk.weigh) is None)
    tally.check('that is said', argued.argument_lines(None, True)[0].split() == NONE_FOUND.split())
    for calls, claims in ((1, found.short), (2, found.plain)):
        desk.calls = calls
        tally.check(f'at call {calls}', argued.argument_of(desk, paper, counts, desk.weigh) == argument_text(claims))


def main() -> None:
    tally, rng = Tally(), random.Random('arguing')
    examples(tally, rng)
    drawn(tally, rng, 400)
    full_size(tally, rng)
    in_words(tally)
    not_found(tally)
    with tempfile.TemporaryDirectory() as name:
        typed(tally, pathlib.Path(name))
        page(tally, pathlib.Path(name))
    tally.close()


if __name__ == '__main__':
    main()
