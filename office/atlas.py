"""Figures of a paper for print, each on one sheet: the whole paper if it fits, else a loop each, from the inside out.

A figure is not made so small that its smallest type would be under 7 points. The dependences of a loop stand in words
beside its figure, where there is room, else below it; what the signs mean is told once for all figures.
"""
from collections.abc import Iterable

from office.paper import Paper, Placed
from office.picture import EDGE, Picture
from office.sight import PRINT_ROOM, WHOLE, Drawn, View

# What a sheet of A4 has room for, in pixels of a figure that is made smaller by a seventh: 11 px are then 7 points.
WIDE, HIGH = 800, 1100
# The least width for words beside a figure, and of a column of them below it; from the words of one to the next.
BESIDE, COLUMN, APART = 300, 370, 4


class Figure(Picture):
    """The figure of a loop."""

    def __init__(self, paper: Paper, placed: Placed, name: str, loop: int, known: bool):
        super().__init__(paper, placed, name, view=View(loop), room=PRINT_ROOM, known=known)
        self.width = max(WIDE, self.nest_width + self.lanes_width)

    def words(self, y: float) -> float:
        """The dependences in words; gives the height below them."""
        beside = self.nest_width + self.lanes_width + EDGE
        if self.width - beside >= BESIDE:
            return max(y, self.column(beside, y - self.height, self.width - beside, self.shown))
        columns = int(self.width - EDGE) // COLUMN
        wide, many = (self.width - EDGE) / columns, -(-len(self.shown) // columns)
        return max(self.column(EDGE + wide * k, y, wide, self.shown[many * k:many * (k + 1)]) for k in range(columns))

    def column(self, x: float, y: float, wide: float, numbers: list[int]) -> float:
        """Some dependences in words, one below the other."""
        for number in numbers:
            y = self.caption(x + 11, y, number, wide) + APART
        return y


def has_room(picture: Picture) -> bool:
    return picture.width <= WIDE and picture.height <= HIGH and picture.drawn is not Drawn.STRIPS


def atlas(paper: Paper, placed: Placed, name: str, loops: Iterable[int], known: bool = True) -> list[Picture]:
    """The whole paper, or those of these loops in which a dependence is at home. Known says whether it is told which
    dependences are cut."""
    whole = Picture(paper, placed, name, known=known)
    if has_room(whole):
        return [whole]
    chosen = sorted((d for d in loops if paper.at_home[d]), key=lambda d: (-paper.depth[d], d))
    return [Figure(paper, placed, name, d, known) for d in chosen]


def is_whole(figures: list[Picture]) -> bool:
    return [figure.view for figure in figures] == [WHOLE]


def signs_of(figures: list[Picture]) -> str:
    """What the signs of figures mean that do not say it themselves, each told once."""
    return '' if is_whole(figures) else ' '.join(dict.fromkeys(sign for figure in figures for sign in figure.signs()))
