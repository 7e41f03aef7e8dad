"""The one cause of a refusal, with its place and a cure. A number gathers several causes; which of them it is follows
from the line as it was typed and from what the desk says of parts of the text, or of another line in its place.

No rule is read here a second time: whether a text is accepted, and by which number it is refused, is asked.
"""
from collections.abc import Callable

from office.frames import (BARRED, BARRIER, BARS, CARRIED, COUNT, DEEP, DEPENDENCES, DO, ENDDO, FLAGGED, INDEPENDENT,
                           POINTS, STATEMENT, frames_of, text_of)
from office.records import dataclass
from office.refusal import Refusal
from office.taken import decimal_in, instead_of_paper, instead_of_placement
from office.words import counted, joined

# What the desk says of a text: its refusal, or None where it is read.
Ask = Callable[[bytes], Refusal | None]
# The numbers that gather several causes.
DIGITS, KIND, EARLY, OPEN, MANY, NAMES, ORDER, GAP, SEVERAL, BARRED_GAP = 1, 2, 3, 4, 5, 6, 7, 8, 14, 16
# The program refuses a longer text whatever it says (docs/RULES.md, "The program").
LONGEST = 8192
SORTS = {DO: 'a DO', FLAGGED: 'a DO', ENDDO: 'an ENDDO', STATEMENT: 'a statement'}
FORMS = {DO: '01', ENDDO: '02', STATEMENT: '03', FLAGGED: '04', INDEPENDENT: '11 s t', CARRIED: '12 d s t',
         BARRED: '13 g', BARRIER: '21 g'}
PAPERS = 'a paper has points (01 to 04), dependences (11, 12) and barred gaps (13)'
PLACEMENTS = 'a placement text has lines 21 and a gap alone'
ENDS = {'s': 'a dependence begins at a statement or a DO', 't': 'a dependence ends at a statement or an ENDDO'}


class Naming:
    """What the points of a text are called in a sentence, and what would have to be typed."""
    carrying = 'd is the DO of a loop'

    def point(self, point: int) -> str:
        return f'point {point}'

    def loop(self, d: int) -> str:
        return f'loop {d}'

    def line(self, point: int) -> int:
        """The line of a point."""
        return point + 1

    def end(self, part: str, point: int, kind: int) -> str:
        """A point as an end or as the loop of a dependence."""
        return f'{part}, {self.point(point)}, {SORTS[kind]},'

    def typed(self, frame: list[int]) -> str:
        """A line as it would be typed."""
        return text_of([frame]).decode().strip()

    def no_gap(self, gap: int, points: int) -> str:
        return no_gap(gap, points)

    def code(self, kind: int) -> str:
        return f' ({kind:02x})'


@dataclass(frozen=True)
class Faulty:
    """A refused paper: the frames before the one that is refused, and that one, None where it is the end."""
    before: list[list[int]]
    frame: list[int] | None
    ask: Ask
    naming: Naming

    @property
    def points(self) -> list[int]:
        """The kinds of the points before it."""
        return [frame[0] for frame in self.before if frame[0] in SORTS]

    @property
    def loops(self) -> list[int]:
        return [point for point, kind in enumerate(self.points) if kind in (DO, FLAGGED)]

    def number(self, *frames: list[int], points: list[int] | None = None) -> int:
        """The number by which points with frames behind them are refused; 0 where they are accepted."""
        said = self.ask(text_of([*([kind] for kind in (self.points if points is None else points)), *frames]))
        return said.number if said else 0

    # ---- The causes, by number

    def of_kind(self) -> str:
        """2: a kind that a paper has none of, or another length than its kind has."""
        kind, *rest = self.frame or [0]
        for length in range(4):
            said = self.ask(text_of([*self.before, [kind, *[0] * length]]))
            if said is None or said.number != KIND or said.line <= len(self.before):
                return lengths(kind, length, len(rest))
        return f'no line of a paper begins with {kind:02x}: {PAPERS}'

    def early(self) -> str:
        """3: a point behind what is none."""
        first = next(at for at, frame in enumerate(self.before, 1) if frame[0] not in SORTS)
        return f'a point stands behind line {first}, which is none: all points come first'

    def open(self) -> str:
        """4: a point outside the outermost loop, or something else while a loop is open."""
        if self.frame and self.frame[0] in SORTS:
            if not self.before:
                begins = f'the DO{self.naming.code(DO)} of its outermost loop'
                return f'it stands before any DO: a paper begins with {begins}'
            closes = self.naming.line(len(self.points) - 1)
            return f'it stands behind line {closes}, which closes the outermost loop: all points stand in that loop'
        if not self.before:
            return 'no point stands before it: points come first, then dependences and barred gaps'
        left = self.left_open()
        ended, lines = f'ENDDO{self.naming.code(ENDDO)}', [str(self.naming.line(d)) for d in left]
        if len(left) > 1:
            return f'the loops opened on lines {joined(lines)} are not closed: {len(left)} times {ended} is missing'
        named = f'{self.naming.loop(left[0])}, opened on line {lines[0]},' if left else 'a loop'
        return f'{named} is not closed: an {ended} is missing'

    def left_open(self) -> list[int]:
        """The DOs of the loops that are open, the outermost first. So many ENDDOs behind the points as loops are open
        make a paper; one less does where the innermost of them is not yet opened."""
        points, found = self.points, list[int]()
        many = next((many for many in range(1, DEEP + 1)
                     if not self.number(points=points + [ENDDO] * many)), 0)
        for closed in reversed(range(many)):
            d = next(k for k in reversed(range(len(points))) if not self.number(points=points[:k] + [ENDDO] * closed))
            points, found = points[:d], [d, *found]
        return found

    def many(self) -> str:
        """5: more than a paper may have."""
        kind = self.frame[0] if self.frame else 0
        if kind in (INDEPENDENT, CARRIED):
            return f'it is one dependence too many: a paper has at most {DEPENDENCES}'
        if kind == BARRED:
            return f'it is one barred gap too many: a paper has at most {BARS}, those that stand twice counted twice'
        if len(self.before) >= POINTS:
            return f'it is one point too many: a paper has at most {POINTS}'
        return f'it opens a loop {DEEP + 1} deep: loops are at most {DEEP} deep'

    def names(self) -> str:
        """6: an end or a loop that names no point, or one of another sort. Each is tried beside ends that would do."""
        part, point = self.misnamed()
        last = len(self.points) - 1
        if point > last:
            return (f'{part} is {point}, and there is no such point: the points of this paper are 0 to {last}, in '
                    f'texts 00 to {last:02x}{in_decimal(point, range(last + 1))}')
        wanted, none = (self.naming.carrying, 'is none') if part == 'd' else (ENDS[part], 'is neither')
        return f'{wanted}, and {self.naming.end(part, point, self.points[point])} {none}'

    def misnamed(self) -> tuple[str, int]:
        """Which part of a dependence names no point, or one of another sort: s, t or d, and the point."""
        last, (kind, *ends) = len(self.points) - 1, self.frame or [0]
        loop, (s, t) = ends[:-2], ends[-2:]
        if kind == CARRIED and self.number([CARRIED, *loop, 0, last]) == NAMES:
            return 'd', loop[0]
        return ('s', s) if self.number([INDEPENDENT, s, last]) == NAMES else ('t', t)

    def order(self) -> str:
        """7: an independent dependence that leads back, or a carried one with an end outside its loop."""
        _, *ends = self.frame or [0]
        s, t = ends[-2:]
        carrying = [[CARRIED, d, s, t] for d in reversed(self.loops) if not self.number([CARRIED, d, s, t])]
        meant = f'; did you mean {" or ".join(map(self.naming.typed, carrying))}?' if carrying else ''
        if len(ends) == 2:
            first, second = map(self.naming.point, (s, t))
            leads = f'it leads from {first} {"to itself" if s == t else f"back to {second}"}'
            return f'{leads}, which only a dependence that a loop carries does' + (
                meant or ', and no loop has both inside')
        outside = [self.naming.point(point) for point in dict.fromkeys((s, t)) if not self.inside(ends[0], point)]
        loop, verb = self.naming.loop(ends[0]), 'is' if len(outside) == 1 else 'are'
        return f'{joined(outside)} {verb} not inside {loop}, which carries only what begins and ends inside it{meant}'

    def inside(self, d: int, point: int) -> bool:
        """Whether a loop can carry something from a point or to it."""
        return any(not self.number([CARRIED, d, *ends])
                   for other in range(len(self.points)) for ends in ((point, other), (other, point)))

    def gap(self) -> str:
        """8: a barred gap that is none."""
        return self.naming.no_gap(self.frame[1] if self.frame else 0, len(self.points))

    def several(self) -> str:
        """14: a barred gap in a paper of several loops."""
        return f'only a paper of one loop has barred gaps, and this one has {counted(len(self.loops), "loop")}'


CAUSES: dict[int, Callable[[Faulty], str]] = {
    KIND: Faulty.of_kind, EARLY: Faulty.early, OPEN: Faulty.open, MANY: Faulty.many, NAMES: Faulty.names,
    ORDER: Faulty.order, GAP: Faulty.gap, SEVERAL: Faulty.several}


def faulty(refusal: Refusal, text: bytes, ask: Ask, naming: Naming) -> Faulty:
    """A text at the line that is refused. What comes before it can be read."""
    lines = text.split(b'\n')[:-1]
    at = refusal.line - 1
    frame = frames_of(lines[at])[0] if at < len(lines) else None
    return Faulty(frames_of(b'\n'.join(lines[:at])), frame, ask, naming)


def paper_cause(refusal: Refusal, text: bytes, ask: Ask) -> str:
    """Why a paper is refused; nothing where its rule says it."""
    instead = instead_of_paper(text) if refusal.number in (DIGITS, KIND) else ''
    if instead:
        return instead
    if refusal.line == 0:
        many = f'the text has {len(text):,} bytes, and no paper has more than {LONGEST:,}'
        return many if refusal.number == MANY and len(text) > LONGEST else ''
    if refusal.number not in CAUSES:
        return ''
    return CAUSES[refusal.number](faulty(refusal, text, ask, Naming()))


def placement_cause(refusal: Refusal, text: bytes, ask: Ask, points: int) -> str:
    """Why a placement text is refused on a paper of so many points; nothing where its rule says it."""
    instead = instead_of_placement(text) if refusal.number in (DIGITS, KIND) else ''
    if instead:
        return instead
    if refusal.number in (DIGITS, KIND) and decimal_in(text):
        return decimal_cause(decimal_in(text), ask, points)
    if refusal.number not in (KIND, GAP, BARRED_GAP):
        return ''
    lines = text.split(b'\n')[:-1]
    before, (kind, *rest) = frames_of(b'\n'.join(lines[:refusal.line - 1])), frames_of(lines[refusal.line - 1])[0]
    if refusal.number == KIND:
        counts = 'the counts of a key are no part of it; ' if kind == COUNT else ''
        return lengths(kind, 1, len(rest)) if kind == BARRIER else (
            f'no line of a placement text begins with {kind:02x}: {counts}{PLACEMENTS}')
    gap = rest[0]
    if refusal.number == BARRED_GAP:
        return f'gap {gap} is barred: no barrier may stand there'
    alone = ask(text_of([[BARRIER, gap]]))
    if alone and alone.number == GAP:
        return no_gap(gap, points)
    last = before[-1][1]
    return f'gap {gap} stands ' + ('twice: each gap stands once' if last == gap else f'after gap {last}: gaps rise')


def decimal_cause(gaps: list[int], ask: Ask, points: int) -> str:
    """That gaps are written in decimal, and how they are written in a text, if the paper has them."""
    frames = [[BARRIER, gap] for gap in sorted(set(gaps)) if gap < 256]
    if len(frames) < len(gaps) or ask(text_of(frames)) is not None:
        return f'these are numbers in decimal, and {PLACEMENTS}; {gaps_told(points)}'
    lines = joined([text_of([frame]).decode().strip() for frame in frames])
    return f'these are gaps in decimal: a placement text has {lines} for them, a line each; {gaps_told(points)}'


# ---- Words

def lengths(kind: int, wanted: int, there: int) -> str:
    """That a line is longer or shorter than its kind has it."""
    return f'a line {FORMS[kind]} has {counted(2 + 2 * wanted, "digit")}, and this one has {2 + 2 * there}'


def no_gap(gap: int, points: int, texts: bool = True) -> str:
    """That a gap is none of a paper, and which it has: where a text is at fault, in both writings."""
    typed = in_decimal(gap, range(1, points)) if texts else ''
    return f'gap {gap} is none of this paper: {gaps_told(points, texts)}{typed}'


def gaps_told(points: int, texts: bool = True) -> str:
    """Which gaps a paper has, and how texts write them."""
    if points == 2:
        return f'its only gap is 1{", in texts 01" if texts else ""}'
    to, last = 'and' if points == 3 else 'to', points - 1
    return f'its gaps are 1 {to} {last}' + (f', in texts 01 {to} {last:02x}' if texts else '')


def in_decimal(number: int, may: range) -> str:
    """What to type, where the digits would be right in decimal."""
    digits = f'{number:02x}'
    if digits.isdecimal() and int(digits) in may:
        return f'; {int(digits)} in decimal is typed {int(digits):02x}'
    return ''
