"""A slip read and told in words. The numbers are the slip's; where a paper is there, its words stand beside them."""
import re

from office.frames import COUNT, CUT, FIRST_UNCUT, NONE, VERDICT
from office.marks import Finding
from office.paper import Paper
from office.records import dataclass
from office.trees import drawn
from office.words import DEARER, UNCUT, VERDICTS

LINE = re.compile(rb'(?:[0-9a-f]{2})+\n')
LENGTHS = {FIRST_UNCUT: 3, COUNT: 3, VERDICT: 5, CUT: 2}
# Which lines may follow which; 0 stands for the beginning.
AFTER = {0: [FIRST_UNCUT], FIRST_UNCUT: [COUNT], COUNT: [COUNT, VERDICT], VERDICT: [CUT], CUT: [CUT]}
CANDIDATE, EXAMINER = 'candidate', 'examiner'


@dataclass(frozen=True)
class Slip:
    """What a slip says: the first dependence left uncut, and how many barriers each loop has of its own, by its DO; the
    examiner's also what the desk says of it, and the lowest gap that cuts each dependence, None where none does."""
    uncut: int | None
    counts: dict[int, int]
    finding: Finding | None
    cuts: list[int | None]

    @property
    def reader(self) -> str:
        return CANDIDATE if self.finding is None else EXAMINER

    @property
    def agrees(self) -> bool:
        """Whether its lines can stand on one slip."""
        if list(self.counts) != sorted(self.counts):
            return False
        first = self.cuts.index(None) if None in self.cuts else None
        return self.finding is None or first == self.uncut == self.finding.uncut

    def is_of(self, paper: Paper) -> bool:
        """Whether it can be a slip of a paper, by its loops and dependences."""
        many = len(paper.dependences)
        return [*self.counts] == [*paper.end] and (self.uncut or 0) < max(many, 1) and (
            self.finding is None or len(self.cuts) == many)


def slip_in(text: bytes) -> Slip:
    """The slip that a text is. A ValueError says why it is none."""
    (_, high, low), *rest = frames_in(text)
    first = 256 * high + low
    lines: dict[int, list[list[int]]] = {kind: [told for of, *told in rest if of == kind] for kind in LENGTHS}
    finding = next((finding_in(told, first) for told in lines[VERDICT]), None)
    slip = Slip(None if first == NONE else first, {d: count for d, count in lines[COUNT]}, finding,
                [gap or None for gap, in lines[CUT]])
    if not slip.agrees or len(slip.counts) < len(lines[COUNT]):
        raise ValueError('its lines contradict one another')
    return slip


def frames_in(text: bytes) -> list[list[int]]:
    """The lines of a slip, in the order in which a slip has them."""
    frames: list[list[int]] = []
    for number, line in enumerate(text.splitlines(keepends=True), 1):
        frame = list(bytes.fromhex(line[:-1].decode())) if LINE.fullmatch(line) else [0]
        if frame[0] not in AFTER[frames[-1][0] if frames else 0] or len(frame) != LENGTHS[frame[0]]:
            raise ValueError(f'line {number} is not what a slip has there')
        frames.append(frame)
    if len(frames) < 2:
        raise ValueError('its end is missing')
    return frames


def finding_in(told: list[int], first: int) -> Finding:
    """What the line with the verdict says."""
    word, *numbers = told
    if word not in VERDICTS:
        raise ValueError('there is no such verdict')
    if VERDICTS[word] == DEARER:
        return Finding(DEARER, None, *numbers)
    return Finding(VERDICTS[word], first if VERDICTS[word] == UNCUT else None)


# ---- In words

def uncut_told(slip: Slip, paper: Paper | None = None) -> str:
    """Whether all is cut, and what is not."""
    if slip.uncut is None:
        return 'Every dependence is cut.'
    more = '' if paper is None else f': {paper.told(paper.dependences[slip.uncut])}'
    return f'The first dependence that no barrier cuts is dependence {slip.uncut}{more}.'


def counts_told(slip: Slip, paper: Paper | None = None) -> list[str]:
    """How many barriers each loop has of its own, a loop a line; with a paper each under the one around it."""
    if paper is None:
        return [f'loop {d}: {count}' for d, count in slip.counts.items()]
    return drawn(paper, slip.counts)


def cuts_told(slip: Slip) -> list[str]:
    """Where each dependence is cut first, a dependence a line."""
    return [f'dependence {number}: {"not cut" if gap is None else f"gap {gap}"}'
            for number, gap in enumerate(slip.cuts)]
