"""Marks as rows of a table: CSV for spreadsheets, JSON for programs."""
import csv
import functools
import io
from collections.abc import Iterable

from office.asked import answer_cause
from office.library import Desk, refusal_of
from office.marks import Finding, Mark
from office.refusal import Refusal
from office.words import BEST, REFUSED

TYPE_CHECKING = False
if TYPE_CHECKING:
    from office.register import Register

YES, NO = 'yes', 'no'
FIRST = ['candidate', 'verdict', 'uncut', 'loop', 'theirs', 'ours', 'number', 'line', 'certificate', 'paper_sha256',
         'answer_sha256']
# What the register knows besides.
OF_MARK = ['seq', 'at', 'who', 'desk', 'library', 'replaces', 'reason', 'sitting', 'own']
ALL = [*FIRST, 'name', 'paper', 'words', *OF_MARK]
# A spreadsheet takes what begins so for a formula.
FORMULA = ('=', '+', '-', '@', '\t', '\r', '\n')
BYTE_ORDER = '\ufeff'
Cell = str | int | None


def first_cells(candidate: str, finding: Finding, paper: str, answer: str | None) -> dict[str, Cell]:
    """The columns that every table of marks begins with."""
    certificate = YES if finding.verdict == BEST else NO
    cells = [candidate, *vars(finding).values(), certificate, paper, answer]
    return dict(zip(FIRST, cells, strict=True))


def cells_of(register: 'Register', mark: Mark) -> dict[str, Cell]:
    """All columns of a mark in the register."""
    paper = register.paper(mark.paper)
    told = first_cells(mark.candidate, mark.finding, mark.paper, mark.answer)
    named = {'name': register.name(mark.candidate), 'paper': paper[0] if paper else None}
    return told | named | {'words': words(register, mark)} | {name: getattr(mark, name) for name in OF_MARK}


def words(register: 'Register', mark: Mark) -> str | None:
    """Why an answer was refused, with the line as it was typed."""
    text = register.answer(mark.answer) if mark.answer and mark.verdict == REFUSED else None
    if text is None or mark.number is None or mark.line is None:
        return None
    refusal, desk = Refusal(mark.number, mark.line), on_desk((register.paper(mark.paper) or ('', b''))[1])
    where, *rules = refusal.words(text, '' if desk is None else answer_cause(refusal, text, desk))
    return f'{where}: {"; ".join(rules)}'


@functools.lru_cache(8)
def on_desk(text: bytes) -> Desk | None:
    """A desk with a paper; None where the desk refuses it."""
    desk = Desk()
    return desk if refusal_of(desk.load, text) is None else None


def guarded(cell: Cell) -> Cell:
    """A cell that no spreadsheet takes for a formula."""
    return f"'{cell}" if isinstance(cell, str) and cell.startswith(FORMULA) else cell


def as_csv(columns: list[str], rows: Iterable[dict[str, Cell]], excel: bool = False) -> bytes:
    """The rows under the names of their columns; what does not apply is empty."""
    out = io.StringIO(newline='')
    out.write(BYTE_ORDER if excel else '')
    writer = csv.writer(out, lineterminator='\n')
    writer.writerow(columns)
    writer.writerows([guarded(row[name]) for name in columns] for row in rows)
    return out.getvalue().encode()


def as_json(rows: Iterable[dict[str, Cell]]) -> bytes:
    """The rows as a list of objects, a line each."""
    import json
    lines = ',\n'.join(json.dumps(row, ensure_ascii=False) for row in rows)
    return f'[\n{lines}\n]\n'.encode() if lines else b'[]\n'
