"""Pages in words beside the slips. The candidate's says what the candidate's slip says and nothing of the key, nor of
the verdict; a refused answer has a note with its line and the cause."""
import html

from office.asked import answer_cause
from office.frames import frames_of
from office.marks import Mark
from office.printed import begins, document, facts, paragraphs
from office.refusal import Refusal
from office.slip_words import EXAMINER, Slip, counts_told, cuts_told, uncut_told
from office.stored import OnDesk
from office.view import verdict
from office.words import gaps_named

KIND = 'slip'
BEGINS = begins(KIND)
STYLE = """
h2 { font-size: 12pt; margin: 6mm 0 2mm 0 }
.cuts { columns: 3 }
.digits { columns: 8 }
"""
COUNTS, CUTS = 'Barriers of its own in each loop', 'The lowest gap that cuts each dependence'
SIGN = ('Each loop stands under the one around it, by the point of its DO. Gap g lies just before point g. Numbers are '
        'decimal on this page, hexadecimal in texts.')


def when(at: str) -> str:
    """A time of the register as people read it."""
    return f'{at[:16].replace("T", " ")} UTC'


def of_whom(called: str, mark: Mark) -> str:
    """A candidate by name and identity."""
    return called if called == mark.candidate else f'{called} ({mark.candidate})'


def about(called: str, on: OnDesk, mark: Mark) -> dict[str, str]:
    """What every page begins with."""
    return {'Candidate': of_whom(called, mark), 'Paper': on.text.name, 'SHA-256 of the paper': mark.paper,
            'SHA-256 of the answer': mark.answer or '', 'Marked': when(mark.at)}


def made_by(mark: Mark) -> dict[str, str]:
    """What the examiner has to know of a mark."""
    return {'Mark': str(mark.seq), 'Hash of the mark': mark.own, 'Marked by': mark.who, 'Desk': mark.desk,
            'SHA-256 of the library': mark.library}


def preformed(lines: list[str], kind: str = '') -> str:
    named = f' class="{kind}"' if kind else ''
    return f'<pre{named}>{html.escape(chr(10).join(lines))}</pre>\n'


def slip_page(called: str, on: OnDesk, mark: Mark, answer: bytes, slip: Slip, text: bytes) -> bytes:
    """The page of a slip, which stands on it as well. What only the examiner may read is on no other slip."""
    title = f"The {slip.reader}'s slip"
    told = about(called, on, mark) | {'Barriers': gaps_named([gap for _, gap in frames_of(answer)])}
    body = [f'<h1>{title}</h1>\n']
    if slip.finding is not None:
        told |= made_by(mark) | {'The desk says': verdict(slip.finding)}
    body += [facts(told), paragraphs([uncut_told(slip, on.paper)]), f'<h2>{COUNTS}</h2>\n',
             preformed(counts_told(slip, on.paper))]
    if slip.finding is not None:
        body += [f'<h2>{CUTS}</h2>\n', preformed(cuts_told(slip), 'cuts')]
    body += [paragraphs([SIGN], small=True), '<h2>The slip</h2>\n', preformed(text.decode().split(), 'digits')]
    return document(KIND, f'{title}: {of_whom(called, mark)}, {on.text.name}', STYLE, ''.join(body))


def note_page(called: str, on: OnDesk, mark: Mark, answer: bytes, reader: str) -> bytes:
    """The note about an answer that was refused."""
    title = 'An answer that was refused'
    told = about(called, on, mark) | (made_by(mark) if reader == EXAMINER else {})
    refusal = Refusal(mark.number or 0, mark.line or 0)
    words = refusal.words(answer, answer_cause(refusal, answer, on.desk))
    body = [f'<h1>{title}</h1>\n', facts(told), paragraphs([f'{sentence[0].upper()}{sentence[1:]}.'
                                                           for sentence in words])]
    return document(KIND, f'{title}: {of_whom(called, mark)}, {on.text.name}', STYLE, ''.join(body))
