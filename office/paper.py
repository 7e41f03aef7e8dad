"""A paper as the calls tell of it: its loops, the loop of each gap, the gaps of each dependence; placements on it."""
from functools import cached_property

from office.frames import INDEPENDENT, NONE, frames_of
from office.library import Desk
from office.records import dataclass, field
from office.words import ranges, stretches


@dataclass(frozen=True)
class Dependence:
    """From s to t; carried by the loop whose DO is d, or independent where d is None. The gaps that cut it, rising."""
    d: int | None
    s: int
    t: int
    gaps: list[int]


@dataclass(frozen=True)
class Paper:
    """Kinds of the points, the ENDDO of each DO, how many loops each point is in, the loop of each gap; the gaps where
    no barrier may stand, and the DOs of loops that may not run; names of statements and DOs, if they are known."""
    points: list[int]
    end: dict[int, int]
    depth: list[int]
    owner: dict[int, int]
    dependences: list[Dependence]
    barred: set[int]
    flagged: set[int]
    names: dict[int, str] = field(default_factory=dict)

    def inside(self, d: int) -> list[int]:
        """The loops inside a loop."""
        return [k for k in self.end if d < k < self.end[d]]

    @cached_property
    def home(self) -> list[int]:
        """Where each dependence is at home: the outermost of the loops that its gaps belong to. All its gaps lie in
        it, and it is the loop that carries it, if one does."""
        return [min((self.owner[gap] for gap in x.gaps), key=lambda d: self.depth[d]) for x in self.dependences]

    @cached_property
    def at_home(self) -> dict[int, list[int]]:
        """The dependences that are at home in each loop."""
        return {d: [number for number, home in enumerate(self.home) if home == d] for d in self.end}

    @cached_property
    def having(self) -> dict[int, list[int]]:
        """The dependences that have each gap."""
        return {gap: [number for number, x in enumerate(self.dependences) if gap in x.gaps] for gap in self.owner}

    def told(self, x: Dependence) -> str:
        """A dependence in words: its kind, its gaps, and which of them are barred."""
        kind = 'independent' if x.d is None else f'carried by loop {x.d}'
        s, t = (f'{self.names[point]} {point}' if point in self.names else str(point) for point in (x.s, x.t))
        barred = ranges([gap for gap in x.gaps if gap in self.barred])
        return f'{kind}, {s} to {t}: {stretches(x.gaps)}{f"; barred {barred}" if barred else ""}'


@dataclass(frozen=True)
class Placed:
    """A placement: its gaps, rising, how many of them each loop has, by its DO, and the first dependence left uncut."""
    gaps: list[int]
    counts: dict[int, int]
    uncut: int | None


def loops_told(counts: dict[int, int]) -> list[dict[str, int]]:
    """How many barriers each loop has of its own, for programs."""
    return [{'loop': d, 'count': count} for d, count in counts.items()]


def placed(desk: Desk, text: bytes) -> Placed:
    """What the candidate's slip tells of a placement text."""
    (_, high, low), *counts = frames_of(desk.candidate_slip(text))
    first = 256 * high + low
    gaps = [gap for _, gap in frames_of(text)]
    return Placed(gaps, {d: count for _, d, count in counts}, None if first == NONE else first)


def paper_on(desk: Desk, names: dict[int, str] | None = None) -> Paper:
    """The paper of the nest on a desk, with the names of its points, if they are known."""
    nest, shape = desk.nest, desk.shape()
    dependences = [Dependence(None if kind == INDEPENDENT else d, s, t, desk.gaps(number))
                   for number, (kind, d, s, t) in enumerate(nest.dependences)]
    return Paper(nest.points, shape.end, shape.depth, shape.owner, dependences, set(nest.barred), set(nest.flagged),
                 names or {})
