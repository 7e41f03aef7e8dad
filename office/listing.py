"""A listing, as ./desk show writes it and setters type it, read into the text of a paper.

Names are turned into points here and nothing else is looked at: whether the paper is in order the desk says, and what
it refuses is told at its line and column of the listing.
"""
import itertools
import unicodedata

from office.causes import CAUSES, OPEN, NAMES, Faulty, Naming
from office.command import REFUSED, Fault, nearest, printable
from office.frames import BARRED, CARRIED, DO, ENDDO, FLAGGED, INDEPENDENT, STATEMENT, text_of
from office.library import Desk, refusal_of
from office.records import dataclass, field
from office.refusal import Refusal
from office.taken import PAPER, SAVED, in_one_form, is_utf16

ARROWS = ('->', '→')
LETTERS = 'a name has letters of any script, digits and _, and begins with a letter'
FORMS = 'a line is DO or ENDDO with a name, the name of a statement alone, or a dependence A -> B or A -> B round LOOP'
DEPENDENCE, ARROW = 'a dependence is A -> B or A -> B round LOOP', 'an arrow is typed ->'
# Signs that arrows are made of, beside dashes and what Unicode calls one; what begins a remark elsewhere.
SHAFTS, REMARKS = '<=>~\u2212', '!%*/;'
WIDE, BEFORE = 100, 60


@dataclass(frozen=True)
class Word:
    """A name, a number or a sign of a line, and the column where it begins, from 0."""
    text: str
    column: int

    @property
    def end(self) -> int:
        return self.column + len(self.text)

    @property
    def is_name(self) -> bool:
        return self.text[0] == '_' or unicodedata.category(self.text[0])[0] == 'L'

    def means(self, *keywords: str) -> bool:
        return self.text.upper() in keywords


class Unread(Exception):
    """A line of a listing that means nothing: where, why, and what to do."""

    def __init__(self, why: str, cure: str, first: Word, last: Word | None = None):
        super().__init__(why)
        self.why, self.cure, self.column = why, cure, first.column
        self.width = (last or first).end - first.column


@dataclass(frozen=True)
class Named:
    """A statement or a loop: its point, its line, and whether it is a loop with bounds, which may share its name."""
    point: int
    line: int
    bounds: bool = False


@dataclass(frozen=True)
class Arrow:
    """A dependence by name: the ends, each with DO or ENDDO before it or nothing, and the loop that carries it."""
    line: int
    ends: tuple[tuple[str, Word], tuple[str, Word]]
    loop: Word | None

    @property
    def words(self) -> dict[str, Word]:
        named = {'s': self.ends[0][1], 't': self.ends[1][1]}
        return named if self.loop is None else named | {'d': self.loop}


@dataclass
class Listing:
    """What was read so far: the points with their lines and words, dependences still by name, barred gaps; the points
    of each name, of loops both; the loops that are open."""
    points: list[tuple[int, int, Word]] = field(default_factory=list)
    arrows: list[Arrow] = field(default_factory=list)
    barred: list[tuple[int, int, Word]] = field(default_factory=list)
    named: dict[str, list[Named]] = field(default_factory=dict)
    closed: dict[int, int] = field(default_factory=dict)
    opened: list[tuple[str, int]] = field(default_factory=list)

    def read(self, number: int, words: list[Word]) -> None:
        """One line, its remark taken off."""
        bar = next((at for at, word in enumerate(words) if word.text == '|'), None)
        column, words = ([], words) if bar is None else (words[:bar], words[bar + 1:])
        strange = [word for word in column if not word.text.isdecimal() and not word.means('BARRED')]
        if strange:
            cure = 'did you mean barred?' if nearest(strange[0].text.lower(), ['barred']) else ''
            raise Unread('left of a bar stands the number of a gap, and barred where it is', cure, strange[0])
        bars = [word for word in column if word.means('BARRED')]
        if bars:
            self.barred.append((number, len(self.points), bars[0]))
        if len(words) > 1 and words[0].text.isdecimal() and words[1].text == ':':
            words = words[2:]
        if not words:
            if bars:
                raise Unread('a gap lies before a point, and there is none on this line', '', bars[0])
            return
        if any(word.text in ARROWS for word in words):
            if bars:
                raise Unread('a gap lies before a point, not before a dependence', '', bars[0])
            self.arrow(number, words)
        elif words[0].means('DO'):
            self.open(number, words)
        elif words[0].means('ENDDO') or words[0].means('END') and words[1:] and words[1].means('DO'):
            self.close(number, words)
        else:
            self.statement(number, words)

    def open(self, number: int, words: list[Word]) -> None:
        """DO NAME, with bounds or without, may not run."""
        do, *rest = words
        flagged = [word.text.lower() for word in rest[-3:]] == ['may', 'not', 'run']
        rest = rest[:-3] if flagged else rest
        bounds = len(rest) > 1 and rest[1].text == '='
        if rest and not rest[0].is_name:
            raise Unread(f'{rest[0].text} is no name of a loop', LETTERS, rest[0])
        if len(rest) > 1 and not bounds:
            raise Unread('behind the name of a loop may stand = and its bounds, or may not run', '', rest[1], rest[-1])
        name = rest[0].text if rest else ''
        if rest:
            self.name(rest[0], Named(len(self.points), number, bounds))
        self.opened.append((name, len(self.points)))
        self.points.append((number, FLAGGED if flagged else DO, do))

    def close(self, number: int, words: list[Word]) -> None:
        """ENDDO NAME. One that is named must be the loop that is open; where none is open the desk says so."""
        named = words[2:] if words[0].means('END') else words[1:]
        if len(named) > 1 or named and not named[0].is_name:
            raise Unread('behind ENDDO stands the name of its loop alone', LETTERS, named[0], named[-1])
        loop, d = self.opened.pop() if self.opened else ('', None)
        if named and named[0].text != loop:
            called = f'loop {loop}' if loop else 'the loop'
            there = 'no loop is open' if d is None else f'{called} of line {self.points[d][0]} is open'
            cure = f'did you mean ENDDO {loop}?' if loop else ''
            raise Unread(f'ENDDO {named[0].text} stands where {there}', cure, named[0])
        if d is not None:
            self.closed[d] = len(self.points)
        self.points.append((number, ENDDO, words[0]))

    def statement(self, number: int, words: list[Word]) -> None:
        """A name alone."""
        first, *rest = words
        if not first.is_name:
            cure = 'a remark begins with #' if first.text in REMARKS else FORMS
            raise Unread(f'{first.text} begins no line of a listing', LETTERS if first.text.isalnum() else cure, first)
        if rest:
            raise Unread('a statement is a name alone', *instead_of_name(first, rest))
        self.name(first, Named(len(self.points), number))
        self.points.append((number, STATEMENT, first))

    def name(self, word: Word, named: Named) -> None:
        """Gives the next point a name. Loops with bounds may share theirs, as they do in programs."""
        there = self.named.setdefault(word.text, [])
        if there and not (named.bounds and there[-1].bounds):
            raise Unread(f'{word.text} stands on line {there[-1].line} already',
                         'give each statement and each loop a name of its own', word)
        there.append(named)

    def arrow(self, number: int, words: list[Word]) -> None:
        """A -> B, or A -> B round LOOP."""
        at = next(at for at, word in enumerate(words) if word.text in ARROWS)
        rounds = next((k for k in range(at + 1, len(words)) if words[k].means('ROUND') and len(words) > at + 2),
                      len(words))
        first, second = (self.end(some, words[at], where) for some, where in (
            (words[:at], 'before'), (words[at + 1:rounds], 'behind')))
        loop = words[rounds + 1:]
        if rounds < len(words) and (len(loop) != 1 or not loop[0].is_name):
            raise Unread('behind round stands the name of a loop alone', '', loop[0] if loop else words[rounds])
        self.arrows.append(Arrow(number, (first, second), loop[0] if loop else None))

    def end(self, words: list[Word], arrow: Word, where: str) -> tuple[str, Word]:
        """An end of a dependence."""
        apart = len(words) > 2 and words[0].means('END') and words[1].means('DO')
        kind = words[0].text.upper() if len(words) > 1 and words[0].means('DO', 'ENDDO') else 'ENDDO' * apart
        named = words[1 + apart:] if kind else words
        if not named:
            raise Unread(f'{where} the arrow a name is missing', DEPENDENCE, arrow)
        if len(named) > 1 or not named[0].is_name:
            wrong = named[1] if named[0].is_name else named[0]
            cure = instead_of_end(named[0], wrong, arrow)
            raise Unread(f'{where} the arrow stands one name, and {wrong.text} is no part of it', cure, wrong)
        return kind, named[0]

    # ---- Names into points

    def point(self, kind: str, word: Word, target: bool) -> int:
        """The point that an end of a dependence names."""
        named = self.named.get(word.text, [])
        if not named:
            meant = nearest(word.text, self.named)
            raise Unread(f'nothing is called {word.text}', f'did you mean {meant}?' if meant else '', word)
        if len(named) > 1:
            lines = ' and '.join(str(one.line) for one in named[:2])
            raise Unread(f'{word.text} is the name of several loops, on lines {lines}',
                         'give those that are named in dependences names of their own', word)
        point = named[0].point
        closing = target if not kind else kind == 'ENDDO'
        if kind and self.points[point][1] == STATEMENT:
            raise Unread(f'{word.text} is a statement, and no loop', f'leave {kind} out', word)
        return self.closed.get(point, point) if closing else point

    def dependence(self, arrow: Arrow) -> list[int]:
        """The frame of a dependence."""
        ends = [self.point(*end, target) for end, target in zip(arrow.ends, (False, True))]
        return [INDEPENDENT, *ends] if arrow.loop is None else [CARRIED, self.point('', arrow.loop, False), *ends]


class Called(Naming):
    """What the points of a listing are called."""
    carrying = 'behind round stands the name of a loop'

    def __init__(self, listing: Listing):
        self.listing = listing
        self.names = {one.point: name for name, those in listing.named.items() for one in those}
        self.own = {those[0].point for those in listing.named.values() if len(those) == 1}
        self.opens = {end: d for d, end in listing.closed.items()}

    def point(self, point: int) -> str:
        if point in self.opens:
            return f'ENDDO {self.names.get(self.opens[point], "")}'.strip()
        name = self.names.get(point, '')
        return name if self.listing.points[point][1] == STATEMENT else f'DO {name}'.strip()

    def loop(self, d: int) -> str:
        return f'loop {self.names[d]}' if d in self.names else 'the loop'

    def line(self, point: int) -> int:
        return self.listing.points[point][0]

    def end(self, part: str, point: int, kind: int) -> str:
        return self.point(point)

    def typed(self, frame: list[int]) -> str:
        _, d, *ends = frame
        s, t = map(self.point, ends)
        loop = self.names[d] if d in self.own else f'NAME, with DO NAME on line {self.line(d)}'
        return f'{s} -> {t} round {loop}'

    def no_gap(self, gap: int, points: int) -> str:
        return 'no gap lies before the DO of the outermost loop'

    def code(self, kind: int) -> str:
        return ''


def instead_of_name(first: Word, rest: list[Word]) -> tuple[str, Word, Word]:
    """What was meant by more than a name, and where it begins and ends."""
    signs = [*itertools.takewhile(lambda word: not word.is_name, rest)]
    behind = rest[len(signs):]
    if behind and is_arrow(''.join(word.text for word in signs)) and (behind[1:] == [] or behind[1].means('ROUND')):
        return ARROW, signs[0], signs[-1]
    if first.means('BARRED'):
        return f'did you mean barred | {" ".join(word.text for word in rest)}?', first, first
    meant = 'DO' if first.means('FOR', 'WHILE', 'LOOP', 'PARDO') else nearest(first.text.upper(), ['ENDDO', 'DO'])
    if meant:
        return f'did you mean {meant}?', first, first
    if rest[0].column == first.end and not rest[0].text.isspace():
        return LETTERS, rest[0], rest[0]
    return 'what it does can stand behind a #', rest[0], rest[-1]


def instead_of_end(name: Word, wrong: Word, arrow: Word) -> str:
    """What was meant by a word that is no part of an end of a dependence."""
    if nearest(wrong.text.lower(), ['round']):
        return 'did you mean round?'
    if wrong.text not in ARROWS and is_arrow(wrong.text) and (wrong.end == arrow.column or wrong.column == arrow.end):
        return ARROW
    return LETTERS if wrong is name or wrong.column == name.end and wrong.text not in ',;' else DEPENDENCE


def is_arrow(signs: str) -> bool:
    """Whether signs look like an arrow, as some type it."""
    return signs not in ('', '=') and all(sign in SHAFTS or unicodedata.category(sign) == 'Pd'
                                          or 'ARROW' in unicodedata.name(sign, '') for sign in signs)


def words_of(line: str) -> list[Word]:
    """The words of a line: names, numbers, arrows and other signs."""
    words, at = list[Word](), 0
    while at < len(line):
        begin = at
        if line.startswith(ARROWS, at):
            at += 2 if line[at] == '-' else 1
        else:
            while at < len(line) and (line[at] in '_\u200c\u200d' or unicodedata.category(line[at])[0] in 'LMN'):
                at += 1
            at += at == begin
        if not line[begin].isspace():
            words.append(Word(line[begin:at], begin))
    return words


# ---- What is wrong, at its place

def columns(text: str) -> int:
    """How wide a text is at a terminal."""
    wide = {'W': 2, 'F': 2}
    return sum(0 if unicodedata.category(c) in ('Mn', 'Me') else wide.get(unicodedata.east_asian_width(c), 1)
               for c in text)


def marked(line: str, column: int, width: int) -> list[str]:
    """A line with a mark below a place in it; of a long one the part around it."""
    line = printable(line.replace('\t', ' ').rstrip())
    cut = max(0, column - BEFORE) if columns(line) > WIDE else 0
    shown = line[cut:cut + WIDE]
    before, at = shown[:column - cut], shown[column - cut:column - cut + width]
    return [f'    {shown}', f'    {" " * columns(before)}{"^" * max(1, columns(at))}']


@dataclass(frozen=True)
class Typed:
    """The lines of a listing, and its file."""
    file: str
    lines: list[str]

    def fault(self, line: int, column: int, width: int, why: str, cure: str = '', number: int | None = None) -> Fault:
        """A fault of the listing, with its line and a mark below its place; by the desk, with the number."""
        where = f'{self.file}: line {line}, column {column + 1} of the listing is refused'
        shown = marked(self.lines[line - 1], column, width)
        return Fault('\n'.join([f'{where}: {why}', *shown, *[cure] * bool(cure)]), REFUSED, number, line)

    def refused(self, listing: Listing, frames: list[list[int]], refusal: Refusal) -> Fault:
        """What the desk refuses, told at its place in the listing."""
        at, points = refusal.line - 1, len(listing.points)
        frame = frames[at] if at < len(frames) else None
        naming, cure = Called(listing), ''
        faulty = Faulty(frames[:at], frame, lambda text: refusal_of(Desk().load, text), naming)
        cause = CAUSES[refusal.number](faulty) if refusal.number in CAUSES else refusal.rule
        why = f'number {refusal.number}: {cause}'
        if refusal.number == OPEN and at >= points:
            left = faulty.left_open()
            line, _, word = listing.points[left[-1] if left else 0]
            ends = [name for name in listing.named if nearest(name.upper(), ['ENDDO'])]
            cures = [f'{end} on line {listing.named[end][0].line} is a statement: did you mean ENDDO?' for end in ends]
            words, cure = [word], ''.join(cures[:1])
        elif at < points:
            line, _, word = listing.points[at]
            words = [word]
        elif at < points + len(listing.arrows):
            arrow = listing.arrows[at - points]
            line = arrow.line
            words = [arrow.words[faulty.misnamed()[0]]] if refusal.number == NAMES else [*arrow.words.values()]
        else:
            line, _, word = listing.barred[at - points - len(listing.arrows)]
            words = [word]
        first, last = min(words, key=lambda word: word.column), max(words, key=lambda word: word.column)
        return self.fault(line, first.column, last.end - first.column, why, cure, refusal.number)


def spelled(text: bytes, file: str) -> bytes:
    """The text of a listing, which the desk accepts."""
    return spelled_with_names(text, file)[0]


def spelled_with_names(text: bytes, file: str) -> tuple[bytes, dict[int, str]]:
    """The text of a listing, which the desk accepts, and the names of its points, but for those that loops share."""
    if is_utf16(text):
        raise Fault(f'{printable(file)}: {SAVED}', REFUSED)
    if PAPER.fullmatch(text):
        raise Fault(f'{printable(file)}: this is the text of a paper: ./desk show makes a listing of it', REFUSED)
    typed = Typed(printable(file), in_one_form(text.decode('utf-8-sig', 'replace')).split('\n'))
    listing, number = Listing(), 0
    try:
        for number, line in enumerate(typed.lines, 1):
            listing.read(number, words_of(line.partition('#')[0]))
        arrows = []
        for arrow in listing.arrows:
            number = arrow.line
            arrows.append(listing.dependence(arrow))
    except Unread as unread:
        raise typed.fault(number, unread.column, unread.width, unread.why, unread.cure) from unread
    if not listing.points:
        raise Fault(f'{printable(file)}: the listing has no point', REFUSED)
    frames = [*([kind] for _, kind, _ in listing.points), *arrows, *([BARRED, gap] for _, gap, _ in listing.barred)]
    result = text_of(frames)
    refusal = refusal_of(Desk().load, result)
    if refusal is not None:
        raise typed.refused(listing, frames, refusal)
    return result, {those[0].point: name for name, those in listing.named.items() if len(those) == 1}
