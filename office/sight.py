"""A view of a paper, and where everything in it stands: rows of points at the left, lanes of dependences at the right.

The loop is the unit. A view shows the whole paper, or one loop with the dependences that are at home in it alone, and
the loops inside it folded to a row each, or unfolded. Lanes come in blocks, a loop each: the block of a loop lies right
of those of all loops inside it, and loops side by side share columns. How a dependence is drawn follows from the room
that there is: with arrows, as a bar with its number, as a bar alone; where even that is too much, a loop has a strip.
"""
from collections.abc import Callable, Collection
from enum import Enum

from office.frames import DO
from office.lanes import block
from office.paper import Paper
from office.records import dataclass

# Pixels for the lanes on a page of usual width, of a picture, and beside a list in print.
ROOM, WIDE_ROOM, PRINT_ROOM = 640, 1100, 500
# From a row to the next, and the height of a box: to so many rows.
ROWS = ((16, 44, 24), (44, 34, 20), (256, 28, 17))
# From a lane to the next, in the order of liking; and the least for arrows, for numbers, for a picture without strips.
STEPS = (34, 24, 16, 12, 9, 7, 5, 4, 3)
FOR_ARROWS, FOR_NUMBERS, FOR_LANES = 24, 12, 4
# Beside the lanes; ends of arrows that one side of a row has room for; the column of a strip.
SIDES, ENDS, STRIP = 40, 4, 62
LEFT, TOP, BESIDE = 40, 30, 14


@dataclass(frozen=True)
class View:
    """What is shown: the whole paper, or the loop with this DO, the loops inside it folded or not."""
    loop: int | None = None
    unfold: bool = False


WHOLE = View()


class Drawn(Enum):
    """How dependences are drawn."""
    ARROWS = 'arrows'
    NUMBERED = 'numbered'
    PLAIN = 'plain'
    STRIPS = 'strips'


@dataclass
class Bar:
    """Dependences that look the same in a view, with the rows of s and t, and those of the loop that carries them."""
    members: list[int]
    home: int
    s: int
    t: int
    turn: tuple[int, int] | None
    lane: int = 0

    @property
    def stretches(self) -> list[tuple[int, int]]:
        """The rows from which and to which it runs: its gaps lie there, and no others of the view."""
        return [(self.s, self.t)] if self.turn is None else [(self.s, self.turn[1]), (self.turn[0], self.t)]


class Layout:
    """Where the rows, gaps, bars and blocks of a view stand, in pixels. Lanes are measured from the nest's edge."""

    def __init__(self, paper: Paper, view: View = WHOLE, room: int = ROOM, only: Collection[int] | None = None):
        self.paper, self.view, self.room = paper, view, room
        self.points = self.seen_points()
        self.folds = {d for d in self.points if paper.points[d] == DO and self.is_folded(d)}
        self.row: dict[int, int] = {}
        for row, point in enumerate(self.points):
            last = paper.end[point] if point in self.folds else point
            self.row.update((inner, row) for inner in range(point, last + 1))
        own = {gap for gap, d in paper.owner.items() if gap in self.row and not self.is_folded(d)}
        self.gaps = sorted(own - {self.points[0]})
        shown = range(len(paper.dependences)) if view.loop is None else paper.at_home[view.loop]
        self.shown = [number for number in shown if only is None or number in only]
        self.sizes()
        self.choose()

    # ---- What is there

    def seen_points(self) -> list[int]:
        """The points that have a row."""
        loop, seen = self.view.loop, []
        point, last = (0, len(self.paper.points) - 1) if loop is None else (loop, self.paper.end[loop])
        while point <= last:
            seen.append(point)
            point = self.paper.end[point] + 1 if self.is_folded(point) else point + 1
        return seen

    def is_folded(self, d: int) -> bool:
        """Whether a point is the DO of a loop that the view does not show from inside."""
        return self.view.loop not in (None, d) and not self.view.unfold and d in self.paper.end

    def sizes(self) -> None:
        """Rows, boxes and margins, as large as their number allows."""
        self.tall, self.box = next((tall, box) for most, tall, box in ROWS if len(self.points) <= most)
        self.base = 0 if self.view.loop is None else self.paper.depth[self.view.loop]
        deepest = max(self.paper.depth[d] for d in self.points if d in self.paper.end) - self.base
        self.indent, self.margin, label = (30, 10, 172) if deepest <= 3 else (24, 5, 150)
        self.right = LEFT + (deepest + 1) * (self.indent + self.margin) + label
        self.nest_width = self.right + BESIDE
        self.height = TOP + self.tall * (len(self.points) - 1) + SIDES

    # ---- Bars and lanes

    def choose(self) -> None:
        """The style, the first that there is room for."""
        self.share(lambda number: (self.paper.dependences[number].d, self.paper.dependences[number].s,
                                   self.paper.dependences[number].t))
        if self.folded and self.takes(FOR_ARROWS) > self.room:
            self.share(self.alike)
        fitting = next((step for step in STEPS if self.takes(step) <= self.room), STEPS[-1])
        if self.view.loop is None and len(self.paper.end) > 1 and self.takes(FOR_LANES) > self.room:
            self.drawn = Drawn.STRIPS
        elif fitting >= FOR_ARROWS and self.have_room_for_arrows():
            self.drawn = Drawn.ARROWS
        else:
            self.drawn = Drawn.NUMBERED if fitting >= FOR_NUMBERS else Drawn.PLAIN
        self.step = fitting if self.drawn is Drawn.ARROWS else min(fitting, FOR_ARROWS)
        self.thick = 2 if self.step <= 4 else 3 if self.step <= 7 else 4
        deep = max(self.paper.depth[d] for d in self.paper.end) + 1
        self.lanes_width = STRIP * deep + 8 if self.drawn is Drawn.STRIPS else self.step * self.lanes + SIDES - 10

    @property
    def folded(self) -> bool:
        return self.view.loop is not None and not self.view.unfold

    def takes(self, step: int) -> int:
        """The width of all lanes."""
        return step * max(self.lanes, 1) + SIDES

    def have_room_for_arrows(self) -> bool:
        """Whether no bar is shared, rows are not too close, and no side of a row has too many ends."""
        ends = [(side, row) for bar in self.bars for side, row in enumerate((bar.s, bar.t))]
        return (self.tall >= 34 and all(len(bar.members) == 1 for bar in self.bars)
                and all(ends.count(end) <= ENDS for end in set(ends)))

    def alike(self, number: int) -> object:
        """By this dependences look the same in a folded view: kind, rows, and the gaps that the view has."""
        x, here = self.paper.dependences[number], set(self.gaps)
        return x.d, self.row[x.s], self.row[x.t], tuple(gap for gap in x.gaps if gap in here)

    def share(self, kind: Callable[[int], object]) -> None:
        """A bar for all dependences of one kind, and a lane for each bar."""
        same: dict[object, list[int]] = {}
        for number in self.shown:
            same.setdefault(kind(number), []).append(number)
        self.bars = [self.bar(members) for members in same.values()]
        self.lay()

    def bar(self, members: list[int]) -> Bar:
        x = self.paper.dependences[members[0]]
        turn = None if x.d is None else (self.row[x.d], self.row[self.paper.end[x.d]])
        return Bar(members, self.paper.home[members[0]], self.row[x.s], self.row[x.t], turn)

    def lay(self) -> None:
        """A lane for each bar, block by block from the inside; of each loop the lanes where its block begins and
        ends."""
        self.blocks: dict[int, tuple[int, int]] = {}
        ends: dict[int, int] = {}
        loops = sorted({bar.home for bar in self.bars}, key=lambda d: -self.paper.depth[d])
        for d in loops:
            mine = [bar for bar in self.bars if bar.home == d]
            passing, turning = [bar for bar in mine if not bar.turn], [bar for bar in mine if bar.turn]
            start = max((ends[k] for k in ends if d < k < self.paper.end[d]), default=0)
            lanes = block([(bar.s, bar.t) for bar in passing], [(bar.s, bar.t) for bar in turning])
            for bar, lane in zip(passing + turning, lanes[0] + lanes[1]):
                bar.lane = start + lane
            ends[d] = max(bar.lane for bar in mine) + 1
            self.blocks[d] = start, ends[d]
        self.lanes = max(ends.values(), default=0)

    # ---- Places

    def row_y(self, row: int) -> float:
        return TOP + self.tall * row

    def y(self, point: int) -> float:
        return self.row_y(self.row[point])

    def gap_y(self, gap: int) -> float:
        return self.y(gap) - self.tall / 2

    def x(self, bar: Bar, again: bool = False) -> float:
        """Where a bar runs down, from the nest's edge; again for what comes after the turn. Where s lies before t the
        two stretches of an arrow lie side by side."""
        beside = again and bar.turn and bar.s < bar.t and self.drawn is Drawn.ARROWS
        return SIDES / 2 + self.step * bar.lane + (6 if beside else 0)

    def edges(self, point: int) -> tuple[float, float]:
        """Left and right edge of a statement, or of the box of a DO's loop."""
        deep = self.paper.depth[point] - self.base
        return LEFT + deep * self.indent, self.right - deep * self.margin
