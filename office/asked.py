"""What the arguments of a command name: a paper, a placement, turns. What is wrong with one is a fault in words, whose
module is imported where something is."""
import os
import re
from collections.abc import Callable

from office.command import REFUSED, Fault, printable, read_in, tell
from office.frames import DO, placement_text
from office.library import Desk, Nest, refusal_of
from office.refusal import Refusal, Refused
from office.taken import decimal_in, is_listing
from office.words import RULES, counted, gaps_named, spoken

TYPE_CHECKING = False
if TYPE_CHECKING:
    from typing import TypeVar

    from office.causes import Ask
    Given = TypeVar('Given')

LONG = 9
TURNS, TURNS_HELP = 16, 'the turns of the loops in the order of their DOs, with commas between, or one number for all'
GAPS_HELP = "gaps in decimal with commas between, '' for none, or a file with these or with a placement text"
PAPER_HELP = 'a file with a nest text or a listing; - for standard input'
BLANK_HELP = 'lets an empty text be the paper, which is the blank one'
# The names in listings that were taken as papers, by the file.
LISTED: dict[str, dict[int, str]] = {}


def said_of(text: bytes) -> Refusal | None:
    """Why the desk refuses a text as a paper."""
    return refusal_of(Desk().load, text)


def refused(file: str, refusal: Refused, text: bytes, cause: str = '') -> Fault:
    """The refusal of a file's text in words, with its cause where it is known."""
    where, *rules = refusal.refusal.words(text, cause)
    return Fault('\n'.join([f'{printable(file)}: {where}', *rules]), REFUSED, refusal.refusal.number,
                 refusal.refusal.line)


def refused_paper(file: str, refusal: Refused, text: bytes, desk: Desk | None = None) -> Fault:
    """The refusal of a paper; of one that is on a desk, by Plan."""
    from office.causes import paper_cause
    cause = paper_cause(refusal.refusal, text, said_of) if desk is None else blocked_cause(desk)
    return refused(file, refusal, text, cause)


def refused_placement(file: str, refusal: Refused, text: bytes, desk: Desk) -> Fault:
    """The refusal of a placement text on the paper of a desk."""
    return refused(file, refusal, text, answer_cause(refusal.refusal, text, desk))


def answer_cause(refusal: Refusal, text: bytes, desk: Desk) -> str:
    """Why a placement text is refused on the paper of a desk."""
    from office.causes import placement_cause
    return placement_cause(refusal, text, lambda some: refusal_of(desk.candidate_slip, some), len(desk.nest.points))


def blocked_cause(desk: Desk) -> str:
    """Why a paper has no key: a dependence that has barred gaps alone."""
    barred = set(desk.nest.barred)
    for number in range(len(desk.nest.dependences)):
        gaps = desk.gaps(number)
        if barred.issuperset(gaps):
            barred_gaps = f'{spoken("gap", gaps)} alone, which {"is" if len(gaps) == 1 else "are"} barred'
            return f'dependence {number} has {barred_gaps}: no placement cuts it, so there is no key'
    return ''


def is_paper(text: bytes) -> bool:
    """Whether the desk accepts a text as a paper."""
    return said_of(text) is None


def is_placement(text: bytes, desk: Desk) -> bool:
    """Whether the desk reads a text as a placement on its paper."""
    return refusal_of(desk.candidate_slip, text) is None


def paper_in(file: str) -> bytes:
    """The text of a paper, which may be given as a listing."""
    text = read_in(file)
    if not is_listing(text):
        return text
    from office.listing import spelled_with_names  # which takes long to load, and a text does not need it
    text, LISTED[file] = spelled_with_names(text, file)
    tell('desk', f'{printable(file)} is a listing: it is taken as the text that ./desk spell writes of it')
    return text


def paper_text(file: str, blank: bool = True) -> bytes:
    """The text of a paper. An empty one is what a command that failed may have left: it is never taken silently, and
    where answers are to be marked by it, only if that is asked for."""
    text = paper_in(file)
    if not text and not blank:
        raise Fault(f'{printable(file)} is empty, which is the blank paper: --blank says that it is meant')
    if not text:
        tell('desk', f'{printable(file)} is empty: it is taken as the blank paper')
    return text


def loaded(file: str, blank: bool = True) -> tuple[Desk, bytes]:
    """A desk with the paper of a file, and the text."""
    text, desk = paper_text(file, blank), Desk()
    try:
        desk.load(text)
    except Refused as refusal:
        raise refused_paper(file, refusal, text) from refusal
    return desk, text


def planned(file: str, blank: bool = True) -> tuple[Desk, bytes]:
    """A desk with the paper of a file and its key, and the text."""
    desk, text = loaded(file, blank)
    try:
        desk.plan()
    except Refused as refusal:
        raise refused_paper(file, refusal, text, desk) from refusal
    return desk, text


def is_file(argument: str) -> bool:
    """Whether an argument for a placement names a file: it is no list of gaps."""
    return not re.fullmatch('[0-9, ]*', argument)


def placement_asked(argument: str, desk: Desk) -> bytes:
    """The placement text that an argument names: a list of gaps in decimal, or a file with such a list or a text."""
    if not is_file(argument):
        words = re.findall('[0-9]+', argument)
        if any(len(word) > LONG for word in words):
            from office.causes import gaps_told
            there = gaps_told(len(desk.nest.points), texts=False)
            raise Fault(f'a number of more than {LONG} digits is no gap: {there}')
        return placement_of([*map(int, words)], desk)
    if re.match('-?[0-9]', argument) and not os.path.lexists(argument):
        raise Fault(f'{printable(argument)} is no file, and no list of gaps: they are decimal, with commas between')
    text = read_in(argument)
    gaps = decimal_in(text)
    if gaps:
        text = placement_of(gaps, desk, f'{printable(argument)}: ')
        tell('desk', f'{printable(argument)} has numbers in decimal: it is taken as {gaps_named(sorted({*gaps}))}')
        return text
    try:
        desk.candidate_slip(text)
    except Refused as refusal:
        raise refused_placement(argument, refusal, text, desk) from refusal
    return text


def placement_of(gaps: list[int], desk: Desk, where: str = '') -> bytes:
    """The placement text of gaps in decimal, in any order; what is wrong with them is told with where they stand."""
    points = len(desk.nest.points)
    for gap in gaps:
        if gap not in range(1, points):
            from office.causes import no_gap
            raise Fault(where + no_gap(gap, points, texts=False))
    text = placement_text(sorted({*gaps}))
    refusal = refusal_of(desk.candidate_slip, text)
    if refusal is not None:
        raise Fault(where + answer_cause(refusal, text, desk))
    return text


def turns_asked(argument: str, loops: int) -> bytes:
    """The turns that an argument names, in order of the loops' DOs; one number stands for all of them. The desk says
    whether they fit."""
    words = [word for word in re.split('[, ]+', argument) if word]
    if not all(re.fullmatch('[0-9]{1,3}', word) and int(word) < 256 for word in words):
        raise Fault(f'turns are numbers up to {TURNS} with commas between: {argument}')
    return bytes(map(int, words * loops if len(words) == 1 else words))


def turned(desk: Desk, argument: str, call: 'Callable[[Desk, bytes], Given]',
           tried: Callable[[Desk, bytes], object] | None = None) -> 'Given':
    """What a call gives under the turns that an argument names. By another call, which costs less, it may be tried
    which turns would do."""
    turns = turns_asked(argument, desk.nest.points.count(DO))
    try:
        return call(desk, turns)
    except Refused as refusal:
        cause = turns_cause(desk.nest, turns, lambda some: refusal_of(lambda told: (tried or call)(desk, told), some))
        raise Fault(f'turns {argument} are refused for this paper\nnumber {refusal.refusal.number}: {cause}', REFUSED,
                    refusal.refusal.number, 0) from refusal


def turns_cause(nest: Nest, turns: bytes, ask: 'Ask') -> str:
    """Why no calls are counted under turns: the paper, how many they are, or one of them, tried beside others."""
    loops = [d for d, kind in enumerate(nest.points) if kind == DO]
    if nest.barred or nest.flagged:
        return f'on a paper with {"barred gaps" if nest.barred else "loops that may not run"} no calls are counted'
    if len(turns) != len(loops):
        return (f'this paper has {counted(len(loops), "loop")}, and {counted(len(turns), "number")} of turns '
                f'{"is" if len(turns) == 1 else "are"} given: give one for each loop, or one for all')
    base = next(bytes([many] * len(loops)) for many in range(256) if ask(bytes([many] * len(loops))) is None)
    for at, d in enumerate(loops):
        fits = [many for many in range(256) if ask(base[:at] + bytes([many]) + base[at + 1:]) is None]
        if turns[at] not in fits:
            verb = 'is' if turns[at] == 1 else 'are'
            return f'loop {d} may have {fits[0]} to {fits[-1]} turns, and {turns[at]} {verb} given'
    return RULES[17]
