"""An argument on a page to print: each claim in words, and a figure in which its gaps are lit and those struck are
crossed out."""
import html

from office.argued import Argued, before, behind, shown
from office.atlas import has_room
from office.claims import Followed
from office.frames import CUTS
from office.page import figure
from office.paper import Paper, Placed
from office.picture import STYLE, Picture
from office.printed import paragraphs
from office.sight import PRINT_ROOM, WHOLE, WIDE_ROOM, View
from office.words import spoken

NAMED_SIGN = 'A gap in a yellow field is left for a barrier of one of the sets; one crossed out is struck.'
LIT = """
.named rect { fill: var(--lit); stroke: var(--blue); stroke-width: 2 }
.filled.named text { fill: var(--ink) }
.struck text { text-decoration: line-through }
"""


class Lit(Picture):
    """A claim on a paper: the dependences of its sets, the gaps that these are left with, and those that are struck."""
    style = STYLE + LIT

    def __init__(self, paper: Paper, placed: Placed, name: str, claim: Followed, view: View):
        sets = sorted({taken.step.number for taken in claim.steps if taken.step.kind == CUTS})
        super().__init__(paper, placed, name, view=view, room=WIDE_ROOM if view == WHOLE else PRINT_ROOM, only=sets)
        self.named_gaps = {gap for taken in claim.steps for gap in taken.own + taken.inner}
        self.struck_gaps = {gap for taken in claim.steps for one in taken.struck for gap in one.gaps} - self.named_gaps
        self.title = f'{name}, a claim about loop {claim.claim.loop}' + (
            f', {spoken("dependence", sets)}' if sets else '')

    def open_gap(self, gap: int, cls: str) -> None:
        super().open_gap(gap, f'{cls}{" named" * (gap in self.named_gaps)}{" struck" * (gap in self.struck_gaps)}')

    def signs(self) -> list[str]:
        return [NAMED_SIGN, *super().signs()]


def lit(paper: Paper, placed: Placed, name: str, claim: Followed) -> Picture:
    """The figure of a claim: on the whole paper, or on its loop with the loops inside, or with these folded, whichever
    is the first that has room on a sheet."""
    views = [WHOLE, View(claim.claim.loop, unfold=True), View(claim.claim.loop)]
    drawings = [Lit(paper, placed, name, claim, view) for view in views]
    return next((one for one in drawings if has_room(one)), drawings[-1])


def argument_markup(found: Argued | None, whole: bool, paper: Paper, placed: Placed, name: str) -> str:
    """The part of a page that has the argument."""
    parts = ['<h2>The argument</h2>\n', paragraphs([before(found, whole)])]
    for number, told in enumerate(shown(found, whole), 1):
        sets = ''.join(f'<li>{html.escape(line)}</li>\n' for line in told.sets)
        parts += [f'<p>{number}. {html.escape(told.says)}</p>\n<ul>\n{sets}</ul>\n',
                  paragraphs([told.follows] * bool(told.follows)),
                  figure(lit(paper, placed, name, found.known[number - 1]), f'Claim {number}') if found else '']
    return ''.join([*parts, paragraphs([behind(found, whole)] * bool(behind(found, whole)))])
