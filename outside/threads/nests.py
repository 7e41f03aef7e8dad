"""Papers to try on threads: all small nests, with every dependence that a text may have, and random ones."""
import random
from collections.abc import Iterator
from dataclasses import dataclass, field

from office.frames import BARRED, CARRIED, DO, ENDDO, FLAGGED, INDEPENDENT, STATEMENT, text_of

DEPTH = 8


@dataclass(frozen=True)
class Nest:
    """Kinds of points, frames of dependences, barred gaps, and the DOs of loops that may not run."""
    points: list[int]
    dependences: list[tuple[int, ...]]
    barred: list[int] = field(default_factory=list)
    flagged: list[int] = field(default_factory=list)

    @property
    def frames(self) -> list[tuple[int, ...]]:
        kinds = [(FLAGGED if p in self.flagged else kind,) for p, kind in enumerate(self.points)]
        return [*kinds, *self.dependences, *((BARRED, gap) for gap in self.barred)]

    @property
    def text(self) -> bytes:
        return text_of(self.frames)

    @property
    def ends(self) -> dict[int, int]:
        """The ENDDO of each loop by its DO, rising."""
        opened, found = [], {}
        for p, kind in enumerate(self.points):
            if kind == DO:
                opened.append(p)
            elif kind == ENDDO:
                found[opened.pop()] = p
        return dict(sorted(found.items()))


def shapes(many: int) -> Iterator[list[int]]:
    """All rows of so many points that are nests."""
    def go_on(row: list[int], opened: int) -> Iterator[list[int]]:
        left = many - len(row)
        if left == 0:
            yield row
        if opened + 1 < left and opened < DEPTH:
            yield from go_on([*row, DO], opened + 1)
        if opened < left:
            yield from go_on([*row, STATEMENT], opened)
        if opened > 1 or left == opened == 1:
            yield from go_on([*row, ENDDO], opened - 1)
    return go_on([DO], 1)


def legal(points: list[int]) -> list[tuple[int, ...]]:
    """All dependences that a text with these points may have."""
    sources = [p for p, kind in enumerate(points) if kind != ENDDO]
    targets = [p for p, kind in enumerate(points) if kind != DO]
    independent = [(INDEPENDENT, s, t) for s in sources for t in targets if s < t]
    carried = [(CARRIED, d, s, t) for d, e in Nest(points, []).ends.items()
               for s in sources for t in targets if d < s < e and d < t < e]
    return independent + carried


def random_points(rng: random.Random, most: int) -> list[int]:
    """A nest of some points."""
    row, opened = [DO], 1
    while opened:
        kind = rng.choice([DO, ENDDO, STATEMENT, STATEMENT]) if len(row) + opened < most and opened < DEPTH else ENDDO
        if kind == ENDDO and opened == 1 and len(row) + opened < most and rng.random() < 0.8:
            kind = STATEMENT
        opened += {DO: 1, ENDDO: -1}.get(kind, 0)
        row.append(kind)
    return row


def random_nest(rng: random.Random, most: int, dependences: int) -> Nest:
    """A nest with some of the dependences that it may have; of one loop with some barred gaps, of several with some
    loops that may not run."""
    points = random_points(rng, most)
    all_legal = legal(points)
    chosen = rng.sample(all_legal, min(len(all_legal), rng.randrange(1, dependences + 1)))
    loops = [p for p, kind in enumerate(points) if kind == DO]
    if len(loops) == 1:
        return Nest(points, chosen, barred=[gap for gap in range(1, len(points)) if rng.random() < 0.2])
    return Nest(points, chosen, flagged=[d for d in loops if d and rng.random() < 0.4])
