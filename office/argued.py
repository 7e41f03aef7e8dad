"""The argument of a paper's key as commands tell it: whole in words if it is not long, or if that is asked for; for
programs; by its hash."""
import textwrap
from collections.abc import Callable

from office.claim_words import ABOUT, NONE_FOUND, NOTHING, Told, claims_told, closing, long
from office.claims import Followed, Ground, Taken, argument_text, claims_in
from office.frames import CUTS, FROM
from office.library import Desk, refusal_of
from office.paper import Paper
from office.records import dataclass
from office.shorter import shortened

# So many sets are printed unasked, in lines so wide.
UNASKED, WIDE = 40, 100


@dataclass(frozen=True)
class Argued:
    """An argument that holds: its text, its claims, and these in words."""
    text: bytes
    known: list[Followed]
    told: list[Told]

    @property
    def is_long(self) -> bool:
        return sum(len(claim.steps) for claim in self.known) > UNASKED

    @property
    def sha256(self) -> str:
        import hashlib  # which takes long to load
        return hashlib.sha256(self.text).hexdigest()

    def fields(self) -> dict[str, object]:
        """For programs."""
        claims = [{'loop': one.claim.loop, 'from': one.claim.start or None, 'upto': one.claim.upto or None,
                   'sets': [*map(set_fields, one.steps)], 'counted': one.sets, 'most': one.most} for one in self.known]
        words = [line for told in self.told for line in (told.says, *told.sets, *[told.follows] * bool(told.follows))]
        return {'text': self.text.decode(), 'sha256': self.sha256, 'claims': claims, 'words': words}


def argument_of(desk: Desk, paper: Paper, counts: dict[int, int], weigh: Callable[[bytes], object]) -> bytes | None:
    """The text of an argument that a call finds to hold of a key, or of a placement with the key's counts: the one that
    the desk gives made shorter, or in its stead that one itself; None if neither holds."""
    plain = desk.argue()
    for text in (argument_text(shortened(Ground(paper, counts), claims_in(plain))), plain):
        if refusal_of(weigh, text) is None:
            return text
    return None


def argued(desk: Desk, paper: Paper, counts: dict[int, int]) -> Argued | None:
    """The argument of the key on a desk, whose counts are given; None if none is found."""
    text = argument_of(desk, paper, counts, desk.weigh)
    if text is None:
        return None
    known = Ground(paper, counts).follow(claims_in(text))
    return Argued(text, known, claims_told(paper, counts, known))


def set_fields(taken: Taken) -> dict[str, object]:
    """A step for programs."""
    kind = taken.step.kind
    return {'dependence': taken.step.number if kind == CUTS else None,
            'supposed': None if kind == CUTS else 'from' if kind == FROM else 'upto', 'led_by': taken.step.led,
            'own': taken.own, 'inside': taken.inner,
            'struck': [{'gaps': one.gaps, 'why': one.why.value, 'number': one.number} for one in taken.struck]}


def before(found: Argued | None, whole: bool) -> str:
    """What is said before the claims, or in their stead."""
    if found is None:
        return NONE_FOUND
    if not found.known:
        return NOTHING
    if found.is_long and not whole:
        return (f'Why no placement is better takes {long(found.known)}. The desk has weighed them, and they hold; '
                '--argument has them all.')
    return ABOUT


def shown(found: Argued | None, whole: bool) -> list[Told]:
    """The claims that are told."""
    return [] if found is None or found.is_long and not whole else found.told


def behind(found: Argued | None, whole: bool) -> str:
    """What is said behind the claims."""
    return closing(found.known) if found and shown(found, whole) else ''


def argument_lines(found: Argued | None, whole: bool) -> list[str]:
    """The argument in lines, paragraphs apart; the whole of a long one if that is asked for."""
    claims = []
    for number, told in enumerate(shown(found, whole), 1):
        lead = f'{number}. '
        deep = ' ' * len(lead)
        claims += textwrap.wrap(told.says, WIDE, initial_indent=lead, subsequent_indent=deep)
        for line in told.sets:
            claims += textwrap.wrap(line, WIDE, initial_indent=f'{deep}- ', subsequent_indent=f'{deep}  ')
        claims += textwrap.wrap(told.follows, WIDE, initial_indent=deep, subsequent_indent=deep)
    parts = ['\n'.join(textwrap.wrap(before(found, whole), WIDE)), '\n'.join(claims),
             '\n'.join(textwrap.wrap(behind(found, whole), WIDE))]
    return [part for part in parts if part]
