"""A view of a paper for the page of a sitting: drawn as ./desk draw draws it, with every gap a button, the lanes beside
the nest, a map, the loops as links and the dependences in words.

The page fills gaps as the desk tells, and the counts. Which dependences are cut is shown for practice only: without it
nothing of the board tells it, neither dots nor numbers.
"""
import html
from collections.abc import Iterator

from office.paper import Paper, Placed
from office.picture import BAR_SIGN, PLAIN_SIGN, TALLY, Picture
from office.sight import ROOM, WHOLE, Bar, Drawn, View
from office.words import counted

# From so many rows on there is a map; its width in its own units.
MAPPED, MAP = 31, 60


def address(view: View) -> str:
    """Where a view is served."""
    if view.loop is None:
        return '/'
    return f'/?loop={view.loop}{"&amp;unfold" * view.unfold}'


def link(view: View, words: str) -> str:
    return f'<a href="{address(view)}">{html.escape(words)}</a>'


class Board(Picture):
    """A picture for a page. Whatever changes with the sitting carries the gap, the dependence or the loop it is of."""

    def __init__(self, paper: Paper, empty: Placed, name: str, practice: bool, view: View = WHOLE):
        super().__init__(paper, empty, name, view=view, room=ROOM, known=False)
        self.practice = practice
        self.bar_sign = BAR_SIGN if practice else PLAIN_SIGN
        self.links: list[tuple[int, float, float, str]] = []

    # ---- What changes with the sitting

    def count(self, d: int, x: float) -> None:
        self.label(x, self.y(d), f'count {self.counts[d]}', 'word end', 12, **{'data-count': d})

    def inside(self, d: int, x: float) -> None:
        self.label(x, self.y(d), '', 'word end', 12, **{'data-inside': d, 'data-last': self.paper.end[d]})

    def open_gap(self, gap: int, cls: str) -> None:
        self.out.append(f'<g class="{cls}" data-barrier="{gap}">')

    def open_bar(self, bar: Bar) -> None:
        members = ' '.join(map(str, bar.members))
        self.out.append(f'<g class="{self.kind(bar)}" data-bar="{members}" data-x="{self.x(bar):g}">')

    def open_numbers(self, members: list[int], cls: str) -> None:
        self.out.append(f'<g class="{cls}" data-number="{" ".join(map(str, members))}">')

    def named(self, point: int, x: float, y: float) -> None:
        """The name of a loop leads to its view."""
        if point not in self.paper.end or point == self.view.loop or len(self.paper.end) == 1:
            super().named(point, x, y)
        else:
            self.links.append((point, x, y, self.shortened(point)))

    def strip(self, d: int) -> None:
        self.out.append(f'<a href="{address(View(d))}" tabindex="-1" data-strip="{d}" data-x="{self.strip_x(d)}">')
        super().strip(d)
        self.out.append('</a>')

    # ---- The pieces of the page

    def told_gap(self, gap: int) -> str:
        """A gap in words, for who does not see where it lies."""
        barred, having = ', barred' * (gap in self.paper.barred), self.paper.having[gap]
        many = counted(len(having), 'dependence')
        if self.view.loop is not None:
            here = sum(self.paper.home[number] == self.view.loop for number in having)
            many = f'{counted(here, "dependence")} of this loop, {len(having)} in all'
        return f'gap {gap} of loop {self.paper.owner[gap]}, before {self.called(gap)}{barred}, {many}'

    def buttons(self) -> Iterator[str]:
        """A button over each gap, as wide as its loop and as high as a row."""
        for gap in self.gaps:
            left, right = self.edges(self.paper.owner[gap])
            y = self.gap_y(gap)
            place = f'x="{left:g}" y="{y - self.tall / 2:g}" width="{right - left:g}" height="{self.tall}"'
            yield (f'<foreignObject {place}><button type="button" data-gap="{gap}" data-loop="{self.paper.owner[gap]}" '
                   f'data-y="{y:g}" data-all="{len(self.paper.having[gap])}" '
                   f'aria-label="{html.escape(self.told_gap(gap))}"></button></foreignObject>')

    def svg_of(self, cls: str, width: float, pieces: list[str]) -> str:
        """A column of the board. Bands light a gap, and one that is pinned."""
        bands = ''.join(f'<rect class="{band}" y="-9999" width="{width:g}" height="{self.tall}"/>'
                        for band in ('band', 'band pinned'))
        return '\n'.join([f'<svg class="{cls}" {self.size(width)} aria-hidden="true">', bands, *pieces, '</svg>'])

    def size(self, width: float) -> str:
        """The size of a column, which print may change."""
        return f'width="{width:g}" height="{self.height}" viewBox="0 0 {width:g} {self.height}"'

    def nest_svg(self) -> str:
        """The nest, over it the buttons, and over these the names of loops."""
        self.nest()
        drawn = self.svg_of('', self.nest_width, self.taken())
        names = ''.join(f'<a href="{address(View(d))}" tabindex="-1"><text class="bold" x="{x:g}" y="{y + 4.55:g}">'
                        f'{html.escape(words)}</text></a>\n' for d, x, y, words in self.links)
        return '\n'.join([f'<svg class="nest" {self.size(self.nest_width)} role="toolbar" '
                          'aria-orientation="vertical" aria-label="gaps">', drawn,
                          *self.buttons(), f'<g aria-hidden="true">{names}</g>', '</svg>'])

    def lanes_svg(self) -> str:
        """The dependences: tallies and strips, or lanes, with what the page draws over them."""
        self.tallies()
        tally = self.svg_of('tally', TALLY, self.taken()) if self.drawn is Drawn.STRIPS else ''
        self.out = []
        self.lanes_drawn()
        over = ['<path class="across"/>', *['<path class="dots"/>'] * self.practice, '<path class="lone"/>',
                '<g class="tag"><rect y="-8" height="16" rx="8"/><text y="4"></text></g>']
        return tally + self.svg_of(self.lanes_kind(), self.lanes_width, self.taken() + over)

    def drawing(self) -> str:
        return f'{self.nest_svg()}\n{self.lanes_svg()}'

    def map(self) -> str:
        """The nest of the whole paper in the height of the window, for views that are longer or have a part of it."""
        if len(self.points) < MAPPED and self.view.loop is None:
            return ''
        shown = [] if self.view.loop is None else [self.view.loop]
        boxes = [(f'd{self.paper.depth[d] + 1}', self.paper.depth[d] * 5, d) for d in sorted(self.paper.end)]
        tall = {d: self.paper.end[d] - d + 1 for d in self.paper.end}
        drawn = ''.join(f'<rect class="{cls}" x="{x}" y="{d}" width="{MAP - x}" height="{tall[d]}"/>'
                        for cls, x, d in [*boxes, *[('here', 0, d) for d in shown]])
        return (f'<svg class="map" viewBox="0 0 {MAP} {len(self.paper.points)}" preserveAspectRatio="none" '
                f'aria-hidden="true">{drawn}<path class="ticks"/><path class="of"/>'
                f'<rect class="seen" width="{MAP}" height="0"/></svg>')

    def where(self) -> str:
        """Which view this is, and the ways to others."""
        loop = self.view.loop
        if loop is None:
            return '<h2>The whole paper</h2>'
        state = '' if not self.paper.inside(loop) else ', unfolded' if self.view.unfold else ', loops inside folded'
        links = [link(WHOLE, 'Whole paper')]
        if loop in self.paper.owner:
            around = self.paper.owner[loop]
            links.append(link(View(around), f'Out to loop {around}'))
        if state:
            links.append(link(View(loop, not self.view.unfold), 'Fold' if self.view.unfold else 'Unfold'))
        return f'<h2>Loop {loop}{state}</h2> {" ".join(links)}'

    def loops_told(self) -> str:
        """The loops, each a link in the list of the one around it, with its barriers and the dependences at home in
        it."""
        items: list[str] = []
        deep = 0
        for d in sorted(self.paper.end):
            current = ' aria-current="page"' if d == self.view.loop else ''
            lists = '<ul>' if self.paper.depth[d] > deep else '</li></ul>' * (deep - self.paper.depth[d]) + '</li>'
            deep = self.paper.depth[d]
            items.append(f'{lists * bool(items)}<li><a href="{address(View(d))}"{current}>loop {d}</a> '
                         f'<span data-tree="{d}">barriers 0, at home {len(self.paper.at_home[d])}</span>')
        return '\n'.join([*items, '</li></ul>' * deep + '</li>' * bool(items)])

    def told(self) -> str:
        """The dependences of the view in words, as items of a list; for practice the page adds what cuts each."""
        items = []
        for number in self.shown:
            x = self.paper.dependences[number]
            items.append(f'<li class="{"i" if x.d is None else "c"}" data-d="{number}" data-gaps="{runs(x.gaps)}">'
                         f'<b>{number}</b> {html.escape(self.paper.told(x))}</li>')
        return '\n'.join(items)

    @property
    def homes(self) -> str:
        """The home of each dependence of the paper, by its number."""
        return ' '.join(map(str, self.paper.home))


def runs(gaps: list[int]) -> str:
    """Gaps as runs, for the script: 2-3 5-6."""
    starts = [gap for gap in gaps if gap - 1 not in gaps]
    ends = [gap for gap in gaps if gap + 1 not in gaps]
    return ' '.join(f'{first}-{last}' for first, last in zip(starts, ends))
