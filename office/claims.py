"""Arguments: claims and their steps as a text has them, and what each step strikes and leaves on a paper.

Whether an argument holds the desk says (Desk.weigh). Here one is taken apart, for words and pictures.
"""
from collections import Counter
from collections.abc import Iterable, Sequence
from enum import Enum

from office.frames import CLAIM, CUTS, FROM, LED, frames_of, text_of
from office.paper import Paper
from office.records import dataclass


@dataclass(frozen=True)
class Step:
    """A set of gaps of which one has a barrier: those of a dependence, by its number, or those that its claim supposes,
    from one on or up to one; and the number of the claim that leads it, if one does."""
    kind: int
    number: int = 0
    led: int | None = None


@dataclass(frozen=True)
class Claim:
    """About a loop. Low, if both gaps are 0; else a barrier is supposed from the one on, up to the other, or both."""
    loop: int
    start: int
    upto: int
    steps: tuple[Step, ...] = ()

    @property
    def is_low(self) -> bool:
        return self.start == self.upto == 0


def argument_text(claims: Iterable[Claim]) -> bytes:
    """Claims as a text."""
    frames: list[list[int]] = []
    for claim in claims:
        frames.append([CLAIM, claim.loop, claim.start, claim.upto])
        for step in claim.steps:
            frames += [] if step.led is None else [[LED, *divmod(step.led, 256)]]
            frames.append([step.kind, *divmod(step.number, 256)] if step.kind == CUTS else [step.kind])
    return text_of(frames)


def claims_in(text: bytes) -> list[Claim]:
    """The claims of a text that the desk reads."""
    heads: list[list[int]] = []
    steps: list[list[Step]] = []
    led = None
    for kind, *rest in frames_of(text):
        number = int.from_bytes(bytes(rest), 'big')
        if kind == CLAIM:
            heads.append(rest)
            steps.append([])
        elif kind == LED:
            led = number
        else:
            steps[-1].append(Step(kind, number, led))
            led = None
    return [Claim(loop, start, upto, tuple(some)) for (loop, start, upto), some in zip(heads, steps)]


class Why(Enum):
    """Why no barrier stands in a gap: it is barred, its loop has none of its own, an earlier step has led to it, or an
    earlier claim says so."""
    BARRED = 'barred'
    NONE = 'none of its own'
    SAID = 'just said'
    CLAIM = 'claim'


@dataclass(frozen=True)
class Struck:
    """Gaps that are struck out of a set for one reason; the loop, or the claim by its number."""
    gaps: list[int]
    why: Why
    number: int | None = None


@dataclass(frozen=True)
class Taken:
    """A step that was taken: what is left of its set, own gaps of the claim's loop and gaps of the loop that leads, and
    what was struck."""
    step: Step
    own: list[int]
    inner: list[int]
    struck: list[Struck]


@dataclass(frozen=True)
class Followed:
    """A claim and its steps; how many sets it counts, how often each own gap of its loop is named, and the gaps that it
    excludes, where the loop has the key's count."""
    claim: Claim
    steps: list[Taken]
    sets: int
    times: Counter[int]
    excludes: set[int]

    @property
    def most(self) -> int:
        """The greatest number of times that a gap is named."""
        return max(self.times.values(), default=1)


class Ground:
    """A paper and the counts of a placement, on which arguments stand."""

    def __init__(self, paper: Paper, counts: dict[int, int]):
        self.paper, self.counts = paper, counts
        self.own = {d: {gap for gap, loop in paper.owner.items() if loop == d and gap not in paper.barred}
                    for d in paper.end}

    def within(self, d: int, first: int = 0, last: int = 256) -> set[int]:
        """The gaps of a loop and of those inside it, from one to another."""
        return {*range(max(first, d + 1), min(last, self.paper.end[d]) + 1)}

    def named(self, claim: Claim, step: Step) -> set[int]:
        """The set of a step."""
        if step.kind == CUTS:
            return {*self.paper.dependences[step.number].gaps}
        return self.within(claim.loop, first=claim.start) if step.kind == FROM else self.within(
            claim.loop, last=claim.upto)

    def plain(self, gap: int) -> Struck | None:
        """Why no barrier stands in a gap of a loop inside the claim's, or in one that is barred, by no claim."""
        if gap in self.paper.barred:
            return Struck([gap], Why.BARRED)
        loop = self.paper.owner[gap]
        return None if self.counts[loop] else Struck([gap], Why.NONE, loop)

    def excludes(self, claim: Claim, sets: int, times: Counter[int]) -> set[int]:
        """The gaps that have no barrier by a claim, where the loop and those inside it have the key's counts."""
        if not claim.is_low:
            return set() if claim.start and claim.upto else self.within(
                claim.loop, first=claim.start, last=claim.upto or 256)
        most = max(times.values(), default=1)
        exact = sets == self.counts[claim.loop] * most
        return {gap for gap in self.own[claim.loop] if times[gap] != most} if exact else set()

    def struck(self, claim: Claim, named: set[int], said: set[int], known: Sequence[Followed]) -> list[Struck]:
        """The gaps of a set that are struck, with as few claims for reasons as are found one by one."""
        rest, reasons = set(), []
        for gap in sorted(named):
            reason = self.plain(gap) if gap not in self.own[claim.loop] else None
            if reason is None and gap in said:
                reason = Struck([gap], Why.SAID)
            if reason is None:
                rest.add(gap)
            else:
                reasons.append(reason)
        inside = [(number, one.excludes) for number, one in enumerate(known)
                  if claim.loop < one.claim.loop < self.paper.end[claim.loop]]
        while True:
            number, most = max(inside, key=lambda one: len(one[1] & rest), default=(0, set()))
            if not most & rest:
                return merged(reasons)
            reasons += [Struck([gap], Why.CLAIM, number) for gap in most & rest]
            rest -= most

    def follow(self, claims: Sequence[Claim]) -> list[Followed]:
        """The claims one after the other."""
        known: list[Followed] = []
        for claim in claims:
            said: set[int] = set()
            sets, times, steps = 0, Counter[int](), []
            for step in claim.steps:
                named = self.named(claim, step)
                struck = self.struck(claim, named, said, known)
                left = named.difference(*(one.gaps for one in struck))
                own = left & self.own[claim.loop]
                times.update(own)
                if step.led is None:
                    sets, said = sets + 1, set()
                else:
                    leads = known[step.led].claim
                    said = said | self.within(leads.loop, last=leads.upto)
                steps.append(Taken(step, sorted(own), sorted(left - own), struck))
            known.append(Followed(claim, steps, sets, times, self.excludes(claim, sets, times)))
        return known


def merged(reasons: list[Struck]) -> list[Struck]:
    """Gaps with one reason together, in the order of their first."""
    together: dict[tuple[Why, int | None], list[int]] = {}
    for one in sorted(reasons, key=lambda one: one.gaps):
        together.setdefault((one.why, one.number), []).extend(one.gaps)
    return [Struck(gaps, why, number) for (why, number), gaps in together.items()]
