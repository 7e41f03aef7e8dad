"""The proved library, and a desk with its calls. In a clone it is built where it is not of the sources that are there.

Nothing is worked out here. A call takes bytes and numbers and gives what the library replied.
"""
import ctypes
import functools
import sys
from collections.abc import Callable

from office.command import CLONE, Fault
from office.frames import DO
from office.header import DECLARED
from office.places import SHARED
from office.records import dataclass
from office.refusal import Refusal, Refused

TEXT, SLIP = DECLARED.numbers['DESK_TEXT'], DECLARED.numbers['DESK_SLIP']
# The number of a buffer that is too short.
SHORT = 9
UNCUT, DEARER, BEST = (DECLARED.numbers[f'DESK_{verdict}'] for verdict in ('UNCUT', 'DEARER', 'BEST'))


@dataclass(frozen=True)
class Nest:
    """The nest on a desk: kinds of points, dependences as kind, d, s and t, barred gaps and DOs of loops that may not
    run, each in the order of the text."""
    points: list[int]
    dependences: list[tuple[int, int, int, int]]
    barred: list[int]
    flagged: list[int]


@dataclass(frozen=True)
class Shape:
    """The shape of a nest: the loop of each gap by its DO, the ENDDO of each DO, how many loops a point is inside."""
    owner: dict[int, int]
    end: dict[int, int]
    depth: list[int]


@dataclass(frozen=True)
class Standing:
    """How a sitting stands: its gaps, rising, how many of them each loop has, by its DO, how many cut each dependence,
    and how many dependences none cuts."""
    gaps: list[int]
    counts: dict[int, int]
    cuts: bytes
    uncut: int


@dataclass(frozen=True)
class Improved:
    """Where tries lead: gaps, calls, how many tries were made, what ended them, and the floor of all calls."""
    gaps: list[int]
    calls: int
    tries: int
    ended: int
    floor: int


@dataclass(frozen=True)
class Compared:
    """Two placements: whether each is as good or better than the other, and the DOs of the loops that decide."""
    first: bool
    second: bool
    deciding: list[int]


@dataclass(frozen=True)
class Mark:
    """A verdict: of Uncut the first dependence that is, of Dearer a loop with their count and ours."""
    verdict: int
    uncut: int | None = None
    loop: int | None = None
    theirs: int | None = None
    ours: int | None = None


class Desk:
    """A desk, empty at first. A call that is refused raises Refused and leaves the desk as it was."""

    def __init__(self) -> None:
        self.held: ctypes.Structure = library().desk_new()

    def load(self, text: bytes) -> None:
        self.held = given(library().desk_load(self.held, text, len(text))).desk

    def plan(self) -> None:
        self.held = given(library().desk_plan(self.held)).desk

    def count(self, point: int) -> int:
        return int(given(library().desk_count(self.held, point)).value)

    def mark(self, text: bytes) -> Mark:
        mark = given(library().desk_mark(self.held, text, len(text)))
        if mark.verdict == UNCUT:
            return Mark(UNCUT, uncut=mark.a)
        if mark.verdict == DEARER:
            return Mark(DEARER, loop=mark.a, theirs=mark.b, ours=mark.c)
        return Mark(mark.verdict)

    def key(self) -> bytes:
        """The key as a placement text."""
        return self.written(library().desk_write, TEXT)

    def put(self, gap: int) -> int:
        """How many dependences remain uncut, as after the next two calls."""
        return self.moved(library().desk_put(self.held, gap))

    def lift(self, gap: int) -> int:
        return self.moved(library().desk_lift(self.held, gap))

    def take_back(self) -> int:
        return self.moved(library().desk_take_back(self.held))

    def sitting(self) -> bytes:
        """The barriers put, as a placement text."""
        return self.written(library().desk_sitting, TEXT)

    def standing(self) -> Standing:
        """All that a page shows of the sitting."""
        now, nest = given(library().desk_standing(self.held)), self.held.nest
        counts = {d: now.counts[d] for d, kind in enumerate(bytes(nest.points)[:nest.count]) if kind == DO}
        return Standing(members(now.placement), counts, bytes(now.cuts)[:nest.many], now.uncut)

    def shape(self) -> Shape:
        shape, count = given(library().desk_shape(self.held)), self.held.nest.count
        return Shape(dict(enumerate(shape.owners[1:count], 1)), {d: end for d, end in enumerate(shape.ends) if end},
                     shape.depths[:count])

    def gaps(self, dependence: int) -> list[int]:
        """The gaps where a barrier cuts a dependence, which is named by its number; barred ones too."""
        return members(given(library().desk_gaps(self.held, dependence)).set)

    def textbook(self) -> list[int]:
        return members(given(library().desk_textbook(self.held)).set)

    def missing_runs(self) -> list[int]:
        """The DOs of the loops that need a barrier for their missing run."""
        return members(given(library().desk_missing_runs(self.held)).set)

    def relied_on(self, text: bytes, dependence: int) -> list[int]:
        """The DOs of the loops that may not run on which a placement text relies for a dependence: it is uncut where
        they are skipped."""
        return members(given(library().desk_relied_on(self.held, text, len(text), dependence)).set)

    def one_end(self, dependence: int) -> list[int]:
        """The DOs of the loops that may not run and have one end alone of a dependence that goes forward into the next
        turn; none of any other."""
        return members(given(library().desk_one_end(self.held, dependence)).set)

    def count_calls(self, turns: bytes) -> int:
        """The key's barrier calls, with a number of turns for each loop in order of its DO."""
        return int(given(library().desk_count_calls(self.held, turns, len(turns))).calls)

    def placement_calls(self, text: bytes, turns: bytes) -> int:
        """The barrier calls of a placement text, with a number of turns for each loop in order of its DO."""
        return int(given(library().desk_placement_calls(self.held, text, len(text), turns, len(turns))).calls)

    def improve(self, turns: bytes, budget: int) -> Improved:
        """Tries from the key, within a budget."""
        found = given(library().desk_improve(self.held, turns, len(turns), budget))
        return Improved(members(found.placement), found.calls, found.tries, found.ended, found.floor)

    def compare(self, first: bytes, second: bytes) -> Compared:
        """Two placement texts beside each other."""
        told = given(library().desk_compare(self.held, first, len(first), second, len(second)))
        return Compared(told.first, told.second, members(told.deciding))

    def weigh(self, text: bytes) -> None:
        """An argument text beside the key: refused, unless it holds."""
        given(library().desk_weigh(self.held, text, len(text)))

    def weigh_placement(self, placement: bytes, text: bytes) -> None:
        """An argument text beside a placement text: refused, unless it holds."""
        given(library().desk_weigh_placement(self.held, placement, len(placement), text, len(text)))

    def argue(self) -> bytes:
        """The argument of the key as a text. A buffer that is too short is told how long it should be."""
        wanted = library().desk_argue(self.held, ctypes.create_string_buffer(1), 0)
        if wanted.number == SHORT:
            return self.written(library().desk_argue, wanted.value)
        given(wanted)
        return b''

    def candidate_slip(self, text: bytes) -> bytes:
        return self.written(library().desk_candidate_slip, SLIP, text, len(text))

    def examiner_slip(self, text: bytes) -> bytes:
        return self.written(library().desk_examiner_slip, SLIP, text, len(text))

    @property
    def nest(self) -> Nest:
        nest = self.held.nest
        dependences = [(e.kind, e.d, e.s, e.t) for e in nest.deps[:nest.many]]
        return Nest(list(nest.points[:nest.count]), dependences, list(nest.barred[:nest.bars]),
                    list(nest.flagged[:nest.flags]))

    def moved(self, reply: ctypes.Structure) -> int:
        self.held = given(reply).desk
        return int(reply.uncut)

    def written(self, call: Callable[..., ctypes.Structure], room: int, *told: object) -> bytes:
        out = ctypes.create_string_buffer(room)
        length = given(call(self.held, *told, out, room)).value
        return out.raw[:length]


def join(first: bytes, second: bytes) -> bytes:
    """The text of two papers joined."""
    room = DECLARED.numbers['DESK_JOINT']
    out = ctypes.create_string_buffer(room)
    length = given(library().desk_join(first, len(first), second, len(second), out, room)).value
    return out.raw[:length]


def run_ends(processors: int, phases: int, durations: list[int], waits: list[int]) -> tuple[int, int]:
    """When the run of a timing sheet ends: with its waits, and with all barriers kept."""
    slices = [(ctypes.c_uint16 * len(some))(*some) for some in (durations, waits)]
    told = [part for some in slices for part in (some, len(some))]
    ends = given(library().desk_sheet(processors, phases, *told))
    return ends.waiting, ends.barriers


def given(reply: ctypes.Structure) -> ctypes.Structure:
    """The reply of a call that is not refused."""
    if reply.number != 0:
        raise Refused(Refusal(reply.number, reply.line, getattr(reply, 'text', 0)))
    return reply


def refusal_of(call: Callable[[bytes], object], text: bytes) -> Refusal | None:
    """Why a call refuses a text; None where it does not."""
    try:
        call(text)
    except Refused as refused:
        return refused.refusal
    return None


def members(chosen: ctypes.Structure) -> list[int]:
    """The gaps of a set of them, or the DOs of its loops, rising."""
    bits = f'{int.from_bytes(bytes(chosen), sys.byteorder):b}'
    return [place for place, bit in enumerate(reversed(bits)) if bit == '1']


@functools.cache
def library() -> ctypes.CDLL:
    """The library with what desk.h declares of each function."""
    if CLONE:
        from office.built import build_library
        build_library()
    try:
        found = ctypes.CDLL(SHARED)
    except OSError as fault:
        raise Fault(f'the library cannot be loaded: {fault}; it is for Linux on x86-64') from fault
    for name, (gives, takes) in DECLARED.functions.items():
        function = getattr(found, name)
        function.restype, function.argtypes = gives, takes
    told, wanted = found.desk_version(), [DECLARED.numbers[f'DESK_{part}'] for part in ('MAJOR', 'MINOR', 'PATCH')]
    if [told.major, told.minor, told.patch] != wanted:
        raise Fault(f'the library is version {told.major}.{told.minor}.{told.patch}, and desk.h is of '
                    f'{".".join(map(str, wanted))}: they are of two releases')
    return found
