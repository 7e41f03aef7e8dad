"""A view of a paper as SVG: a row a point, in the boxes of its loops; gaps between rows; at the right the dependences.

With room for arrows a dependence runs down its lane from s to t; one that is carried runs on to the loop's ENDDO, round
to its DO and down to t. With less room it is a bar over its gaps, a carried one two of them. Its number stands on the
lane, and below the drawing it is told in words. A barred gap has a band, and the box of a loop that may not run is
dashed. Where there are too many for lanes, each loop has a strip, as wide at a gap as many of its own have it.
"""
import html
import textwrap
from collections.abc import Collection

from office.colours import SERVED, in_light
from office.frames import ENDDO, STATEMENT
from office.paper import Dependence, Paper, Placed
from office.sight import LEFT, STRIP, WHOLE, WIDE_ROOM, Bar, Drawn, Layout, View
from office.words import in_number, ranges

# The width of a letter, and of the count at the end of a row.
LETTER, COUNT = 7.6, 56
NARROWEST, CAPTION, TITLE, EDGE = 560, 460, 1000, 20
# A plate for a number: its height, and how it is moved where others stand in its way.
PLATE, MOVES = 13, (0, -7, 7, -14, 14)
# The column of tallies, and the part of it that bars have; from a label of a strip to the next.
TALLY, TALLY_BAR, LABELS = 58, 32, 620
UNCUT = ' u'
GAP_SIGN = 'Small numbers are gaps, in the column of the loop they belong to.'
BAR_SIGN = 'A black bar is a barrier; a dot marks each dependence that it cuts. A hollow number: uncut.'
PLAIN_SIGN = 'A black bar is a barrier.'
LANE_SIGN = ('A bar at the right is a dependence, over all its gaps; blue: independent, brown: carried, its two parts '
             'joined by a thin line. Its block is that of the outermost loop that has one of its gaps.')
THICK_SIGN = 'Thick: uncut.'
SHARED_SIGN = '\u00d78: eight that have the same gaps of this loop.'
FOLD_SIGN = 'A dashed row with a \u25b8 is a loop that is folded; a dependence that ends inside it ends there.'
STRIP_SIGN = 'A strip at the right is a loop, as wide at each gap as many of its dependences have it.'
TURN_SIGN = 'A dashed line goes round to the next turn of the loop.'
BARRED_SIGN = 'A red band of strokes is a barred gap: no barrier may stand there.'
FLAGGED_SIGN = 'A dashed box is a loop that may not run.'
STYLE = (SERVED / 'drawing.css').read_text().partition('\n')[2]


class Picture(Layout):
    """Drawn piece by piece into a list of elements. Unless it is known which dependences are cut, nothing tells it."""
    style = STYLE

    def __init__(self, paper: Paper, placed: Placed, name: str, missing: tuple[int, ...] = (), view: View = WHOLE,
                 room: int = WIDE_ROOM, only: Collection[int] | None = None, known: bool = True):
        super().__init__(paper, view, room, only)
        self.barriers, self.counts, self.missing, self.known = placed.gaps, placed.counts, missing, known
        self.bar_sign = BAR_SIGN if known else PLAIN_SIGN
        self.out: list[str] = []
        parts = [name, *[f'loop {view.loop}'] * (view.loop is not None),
                 *[f'{in_number("dependence", only or [])} {ranges(sorted(only or []))}'] * (only is not None)]
        self.title = f'{", ".join(parts)}, {in_number("barrier", placed.gaps)} {ranges(placed.gaps) or "none"}'
        tally = TALLY * (self.drawn is Drawn.STRIPS)
        self.width = max(self.nest_width + tally + self.lanes_width, NARROWEST)
        self.ends: dict[tuple[int, int], list[Bar]] = {}
        for bar in sorted(self.bars, key=lambda bar: bar.lane):
            for end, row in ((1, bar.s), (2, bar.t)):
                self.ends.setdefault((end, row), []).append(bar)

    # ---- Elements

    def add(self, tag: str, text: object = None, **attributes: object) -> None:
        names = {'cls': 'class'}
        listed = ''.join(f' {names.get(k, k)}="{v:g}"' if isinstance(v, float) else f' {names.get(k, k)}="{v}"'
                         for k, v in attributes.items())
        self.out.append(f'<{tag}{listed}/>' if text is None else f'<{tag}{listed}>{html.escape(str(text))}</{tag}>')

    def label(self, x: float, y: float, text: object, cls: str = '', size: int = 13, **more: object) -> None:
        self.add('text', text, **({'cls': cls} if cls else {}), x=float(x), y=y + size * 0.35, **more)

    def wrapped(self, x: float, y: float, text: str, width: float, cls: str, size: int) -> float:
        """Words in lines of a width; gives the height below them."""
        for line in textwrap.wrap(text, max(int(width / (size * 0.5)), 20)):
            self.label(x, y, line, cls, size)
            y += size + 4
        return y

    def taken(self) -> list[str]:
        """What was drawn since this was asked before."""
        out, self.out = self.out, []
        return out

    # ---- The nest

    def nest(self) -> None:
        self.loops()
        self.rows()
        for gap in self.gaps:
            self.gap(gap)

    def loops(self) -> None:
        pad = self.box / 2 + 3
        for d in self.points:
            if d in self.paper.end and d not in self.folds:
                left, right = self.edges(d)
                self.add('rect', cls=self.boxed(d), x=left, y=self.y(d) - pad, width=right - left,
                         height=self.y(self.paper.end[d]) - self.y(d) + 2 * pad, rx=6)
                self.count(d, right - 8)

    def boxed(self, d: int) -> str:
        """The kind of a loop's box."""
        return f'box d{self.paper.depth[d] + 1}{" flagged" * (d in self.paper.flagged)}'

    def count(self, d: int, x: float) -> None:
        self.label(x, self.y(d), f'count {self.counts[d]}', 'word end', 12)

    def rows(self) -> None:
        self.label(LEFT - 10, self.y(self.points[0]) - 20, 'point', 'pale end', 11)
        for point in self.points:
            y, (left, right) = self.y(point), self.edges(point)
            self.label(LEFT - 10, y, point, 'pale end', 11)
            if point in self.folds:
                self.add('rect', cls=f'{self.boxed(point)} fold', x=left, y=y - self.box / 2 - 2, width=right - left,
                         height=self.box + 4, rx=5)
                self.inside(point, right - 8)
            elif self.paper.points[point] == STATEMENT:
                self.add('rect', cls='box white', x=left, y=y - self.box / 2, width=right - left, height=self.box, rx=3)
            self.named(point, left + 10, y)

    def inside(self, d: int, x: float) -> None:
        """How many barriers a folded loop has inside."""
        many = sum(self.counts[k] for k in [d, *self.paper.inside(d)])
        self.label(x, self.y(d), f'{many} inside' if many else '', 'word end', 12)

    def named(self, point: int, x: float, y: float) -> None:
        self.label(x, y, self.shortened(point), '' if self.paper.points[point] == STATEMENT else 'bold')

    def shortened(self, point: int) -> str:
        """A point in as many words as its row has room for."""
        left, right = self.edges(point)
        words, most = self.called(point), int((right - left - 20 - COUNT * (point in self.paper.end)) / LETTER)
        words = words if point not in self.paper.names or len(words) <= most else f'{words[:most - 1]}\u2026'
        return f'\u25b8 {words}' if point in self.folds else words

    def called(self, point: int) -> str:
        """A point in words."""
        name = self.paper.names.get(point, '')
        if self.paper.points[point] == STATEMENT:
            return name or f'statement {point}'
        if self.paper.points[point] == ENDDO:
            return f'ENDDO loop {self.paper.owner[point]}'
        skipped = ', may not run' * (point in self.paper.flagged)
        if point in self.folds:
            return f'loop {point}{f" {name}" if name else ""}, {point} to {self.paper.end[point]}{skipped}'
        return f'DO loop {point}{f" {name}" if name else ""}{skipped}'

    def gap(self, gap: int) -> None:
        """A gap; with a barrier, if one stands there."""
        left, right = self.edges(self.paper.owner[gap])
        y, middle = self.gap_y(gap), left + self.indent / 2
        self.open_gap(gap, f'gap{" barred" * (gap in self.paper.barred)}{" filled" * (gap in self.barriers)}')
        self.add('path', d=f'M{left + self.indent:g} {y:g}H{right - 6:g}')
        self.add('rect', x=middle - 14, y=y - 9, width=28, height=18, rx=9)
        self.label(middle, y, gap, '', 11)
        self.out.append('</g>')

    def open_gap(self, _: int, cls: str) -> None:
        self.out.append(f'<g class="{cls}">')

    # ---- The dependences

    def lanes_drawn(self) -> None:
        """The blocks, the dependences, and where barriers cut them."""
        if self.drawn is Drawn.STRIPS:
            for d in sorted(self.blocks):
                self.strip(d)
            return
        if self.view.loop is None and len(self.blocks) > 1:
            for d, (first, last) in sorted(self.blocks.items()):
                self.block(d, first, last)
        for bar in self.bars:
            self.open_bar(bar)
            (self.arrow if self.drawn is Drawn.ARROWS else self.plain)(bar)
            self.out.append('</g>')
        if self.drawn is Drawn.ARROWS:
            for bar in self.bars:
                self.badges(bar.members[0], [(self.x(bar, end == 2), self.level(bar, end)) for end in (1, 2)])
        elif self.drawn is Drawn.NUMBERED:
            self.plates()

    def block(self, d: int, first: int, last: int) -> None:
        """The block of a loop, pale behind its lanes."""
        self.add('rect', cls=f'block d{self.paper.depth[d] + 1}', x=EDGE + self.step * first - min(self.step / 2, 10.0),
                 y=self.y(d) - 14, width=float(self.step * (last - first)),
                 height=self.y(self.paper.end[d]) - self.y(d) + 28, rx=4)

    def kind(self, bar: Bar) -> str:
        """Independent or carried; uncut, if no barrier cuts one of its members."""
        return ('c' if bar.turn else 'i') + ('' if all(map(self.is_cut, bar.members)) else UNCUT)

    def is_cut(self, number: int) -> bool:
        """Whether a dependence is cut, or it is not known."""
        return not self.known or bool(self.cutting(self.paper.dependences[number]))

    def open_bar(self, bar: Bar) -> None:
        self.out.append(f'<g class="{self.kind(bar)}">')

    def level(self, bar: Bar, end: int) -> float:
        """Where a dependence leaves its s (end 1, below the middle) or arrives at its t (end 2, above the middle).
        Those of one row are spread, the outer lanes towards the middle, so that they do not cross."""
        row = bar.s if end == 1 else bar.t
        group, half = self.ends[end, row], self.box / 2
        away = half - (half - 2) * (group.index(bar) + 0.5) / len(group)
        return round(self.row_y(row) + (away if end == 1 else -away), 1)

    def arrow(self, bar: Bar) -> None:
        x, down, leave, arrive = self.x(bar), self.x(bar, True), self.level(bar, 1), self.level(bar, 2)
        start, tip = (self.edges(self.points[row])[1] - self.nest_width for row in (bar.s, bar.t))
        tip += 2
        out, into = f'M{start:g} {leave:g}H{x - 6:g}q6 0 6 6', f'V{arrive - 6:g}q0 6 -6 6H{tip + 6:g}'
        heads = f'M{tip:g} {arrive:g}l8-4v8z'
        if bar.turn is None:
            self.add('path', cls='l', d=out + into)
        else:
            top, bottom = self.row_y(bar.turn[0]) + 10, self.row_y(bar.turn[1]) - 10
            back = x + self.step * 0.4
            there, here = (back - x) / 2, (down - back) / 2
            self.add('path', cls='l', d=f'{out}V{bottom:g}M{down:g} {top:g}{into}')
            turn = f'M{x:g} {bottom:g}q0 8 {there:g} 8t{there:g}-8V{top:g}q0-8 {here:g}-8t{here:g} 8'
            self.add('path', cls='r', d=turn)
            heads += f'M{back - 4:g} {(top + bottom) / 2 + 4:g}l4-8l4 8z'
        self.add('path', cls='h', d=heads)
        self.add('circle', cx=start, cy=leave, r=3)

    def plain(self, bar: Bar) -> None:
        """A bar over its gaps, with a head if there is room; the two parts of a carried one are joined by a line."""
        x = self.x(bar)
        if bar.turn and bar.t < bar.s and self.thick > 2:
            self.add('path', cls='r', d=f'M{x:g} {self.row_y(bar.t) - 2:g}V{self.row_y(bar.s) + 2:g}')
        self.add('path', cls='l', d=''.join(f'M{x:g} {self.row_y(first) + 2:g}V{self.row_y(last) - 2:g}'
                                            for first, last in bar.stretches))
        if self.drawn is Drawn.NUMBERED:
            self.add('path', cls='h', d=f'M{x:g} {self.row_y(bar.t) - 1:g}l-4-7h8z')

    def plates(self) -> None:
        """The numbers of bars: at s, for carried ones at t too. None lies over another, where there is room."""
        there: list[tuple[float, float, float]] = []
        for bar in sorted(self.bars, key=lambda bar: bar.lane):
            x, words = self.x(bar), str(bar.members[0]) if len(bar.members) == 1 else f'\u00d7{len(bar.members)}'
            wide = 6 + 6.6 * len(words)
            rows = [(bar.s, 0), *[(bar.t, -5)] * (bar.turn is not None and bar.s != bar.t)]
            self.open_numbers(bar.members, self.kind(bar))
            for row, moved in rows:
                places = (self.row_y(row) + moved + move for move in MOVES)
                y = next((y for y in places if all(abs(x - other) > (wide + broad) / 2 or abs(y - at) > PLATE
                                                   for other, at, broad in there)), self.row_y(row) + moved)
                there.append((x, y, wide))
                self.add('rect', cls='b', x=round(x - wide / 2, 1), y=y - PLATE / 2, width=round(wide, 1), height=PLATE,
                         rx=6.5)
                self.label(x, y, words, 'n', 11)
            self.out.append('</g>')

    def badges(self, number: int, places: list[tuple[float, float]]) -> None:
        """A dependence's number in some places; hollow if no barrier cuts it."""
        kind = 'i' if self.paper.dependences[number].d is None else 'c'
        self.open_numbers([number], kind + ('' if self.is_cut(number) else UNCUT))
        wide = max(18, 6 + 6.6 * len(str(number)))
        for x, y in places:
            self.add('rect', cls='b', x=round(x - wide / 2, 1), y=y - 9, width=float(wide), height=18, rx=9)
            self.label(x, y, number, 'n', 11)
        self.out.append('</g>')

    def open_numbers(self, _: list[int], cls: str) -> None:
        self.out.append(f'<g class="{cls}">')

    def strip(self, d: int) -> None:
        """The strip of a loop, in the column of its depth."""
        mine, inside = set(self.paper.at_home[d]), range(d + 1, self.paper.end[d] + 1)
        x, top, bottom = self.strip_x(d), self.y(d) - 11, self.y(self.paper.end[d]) + 11
        many = [sum(number in mine for number in self.paper.having[gap]) for gap in inside]
        area = ''.join(f'H{x + n / max(many) * (STRIP - 8):.0f}V{self.y(gap):g}' for gap, n in zip(inside, many))
        self.add('rect', cls=f'strip d{self.paper.depth[d] + 1}', x=x, y=top, width=STRIP - 6, height=bottom - top,
                 rx=4)
        self.add('path', cls='area', d=f'M{x} {self.y(d):g}{area}H{x}Z')
        lines = [f'loop {d}', str(len(mine))] if bottom - top > 44 else [f'{d}: {len(mine)}']
        for at in range(int(top) + 10, int(bottom), LABELS):
            for k, words in enumerate(lines):
                self.label(x + 4, at + 14 * k, words, 'word', 12)

    def strip_x(self, d: int) -> int:
        return 8 + self.paper.depth[d] * STRIP

    def tallies(self) -> None:
        """How many dependences of the view have each gap."""
        shown = set(self.shown)
        many = {gap: len(shown.intersection(self.paper.having[gap])) for gap in self.gaps}
        for gap, n in many.items():
            if n:
                wide = max(TALLY_BAR * n / max(many.values()), 1.0)
                self.add('rect', x=0, y=self.gap_y(gap) - 5, width=round(wide, 1), height=10)
                self.label(round(wide + 3, 1), self.gap_y(gap), n, 'pale', 11)

    def crossings(self) -> None:
        """A line from each barrier to the last dependence that it cuts, and a dot on each."""
        for gap in (gap for gap in self.gaps if gap in self.barriers):
            y = self.gap_y(gap)
            cut = [] if self.drawn is Drawn.STRIPS else sorted({
                self.x(bar, gap <= self.paper.dependences[bar.members[0]].s) for bar in self.bars
                if any(gap in self.paper.dependences[number].gaps for number in bar.members)})
            self.add('path', cls='across', d=f'M-{self.nest_width - self.edges(self.paper.owner[gap])[1]:g} {y:g}'
                     f'H{max(cut, default=self.lanes_width if self.drawn is Drawn.STRIPS else 0.0):g}')
            if cut and self.known:
                self.dots(cut, y)

    def dots(self, places: list[float], y: float) -> None:
        """A dot at each place: a line of dots where one stands in each lane."""
        drawn, begin = [], 0
        for i, x in enumerate(places):
            if i + 1 == len(places) or places[i + 1] != x + self.step:
                drawn.append(f'M{places[begin]:g} {y:g}H{x + 0.1:g}')
                begin = i + 1
        self.add('path', **{'cls': 'dots', 'stroke-dasharray': f'.1 {self.step - 0.1:g}'}, d=''.join(drawn))

    # ---- Words

    def words(self, y: float) -> float:
        """The dependences in words, in as many columns as have room, and the signs; gives the height below them."""
        columns = max(int(self.width - 32) // CAPTION, 1)
        wide = (self.width - 32) / columns
        for first in range(0, len(self.shown), columns):
            below = [self.caption(EDGE + 11 + wide * k, y, number, wide)
                     for k, number in enumerate(self.shown[first:first + columns])]
            y = max(below) + 10
        for line in self.signs():
            y = self.wrapped(EDGE, y, line, self.width - 40, 'pale', 11)
        return y

    def signs(self) -> list[str]:
        """What the signs mean that the picture has, and the loops that need a barrier for their missing run."""
        lines = [GAP_SIGN, self.bar_sign, *self.lane_signs(), *[FOLD_SIGN] * bool(self.folds),
                 *[BARRED_SIGN] * bool(self.paper.barred), *[FLAGGED_SIGN] * bool(self.paper.flagged)]
        if self.missing:
            many = len(self.missing) > 1
            lines.append(f'{"Loops" if many else "Loop"} {ranges(list(self.missing))} '
                         f'{"need a barrier for their" if many else "needs a barrier for its"} missing run.')
        return lines

    def lane_signs(self) -> list[str]:
        if self.drawn is Drawn.ARROWS:
            return [TURN_SIGN]
        if self.drawn is Drawn.STRIPS:
            return [STRIP_SIGN]
        return [LANE_SIGN, *[SHARED_SIGN] * any(len(bar.members) > 1 for bar in self.bars)]

    def cutting(self, dependence: Dependence) -> list[int]:
        """The barriers that cut a dependence."""
        return [gap for gap in self.barriers if gap in dependence.gaps]

    def caption(self, x: float, y: float, number: int, wide: float) -> float:
        dependence = self.paper.dependences[number]
        cutting = ranges(self.cutting(dependence))
        self.badges(number, [(x, y)])
        words = self.paper.told(dependence)
        if self.known:
            words += f'; cut by {cutting}' if cutting else '; UNCUT'
        return max(self.wrapped(x + 21, y, words, wide - 40, 'word', 12), y + 18)

    # ---- The whole

    def svg(self, style: bool = True) -> str:
        """The picture, with its style unless it stands where that is."""
        top = self.wrapped(EDGE, 18, self.title, min(self.width - 40, TITLE), 'title', 15)
        title = self.taken()
        self.nest()
        nest = self.taken()
        if self.drawn is Drawn.STRIPS:
            self.tallies()
        tally = self.taken()
        self.lanes_drawn()
        self.crossings()
        lanes, beside = self.taken(), self.nest_width + TALLY * (self.drawn is Drawn.STRIPS)
        height = self.words(top + self.height + 8)
        size = f'width="{self.width:g}" height="{height:g}" viewBox="0 0 {self.width:g} {height:g}"'
        kind = f'{self.lanes_kind()}{" known" * self.known}'
        return '\n'.join([
            f'<svg xmlns="http://www.w3.org/2000/svg" {size} role="img" font-family="Helvetica, Arial, sans-serif">',
            f'<title>{html.escape(self.title)}</title>', *[f'<style>\n{in_light(self.style)}</style>'] * style,
            *['<rect width="100%" height="100%" fill="white"/>'] * style, *title,
            f'<g transform="translate(0 {top:g})">', *nest,
            *[f'<g class="tally" transform="translate({self.nest_width:g} 0)">', *tally, '</g>'] * bool(tally),
            f'<g class="{kind}" transform="translate({beside:g} 0)">', *lanes, '</g>', '</g>',
            *self.taken(), '</svg>', ''])

    def lanes_kind(self) -> str:
        return f'lanes {self.drawn.value} w{self.thick}'
