"""Who sits: the candidates of a list, each with an identity and a name, and a ticket for each, kept beside the answers.

An identity names files and rows. A name is what people are called, in any script. A list is a line a candidate, or CSV
as a spreadsheet saves it.
"""
import contextlib
import csv
import hashlib
import io
import os
import re
import unicodedata
from collections.abc import Collection, Iterator

from office.command import LISTS, Fault, printable, read_in, write_over
from office.records import dataclass

IDENTITY = re.compile('[A-Za-z0-9][A-Za-z0-9._-]{0,63}')
IDENTITY_FORM = 'an id has at most 64 letters a-z, digits and . - _, and begins with a letter or a digit'
WITH_IDS = 'for a name of another form give CSV, with the columns id and name'
# What a name has beside letters, marks and digits; the last two stand inside words of some scripts.
SIGNS, LONGEST = set(" .,'’`´·/()&_-‐‑–\u200c\u200d"), 100
NAME_FORM = f"a name has at most {LONGEST} letters, marks, digits, spaces and . , ' - / ( ) &, and begins with a letter"
MINUTES = re.compile('[1-9][0-9]{0,3}')
COLUMNS = ['id', 'name', 'minutes', 'paper']
SEPARATORS = ',;\t'


@dataclass(frozen=True)
class Candidate:
    """Who sits: the identity, the name, and, where the list says so, for how many minutes and over which paper."""
    identity: str
    name: str
    minutes: int | None = None
    paper: str = ''


def folded(identity: str) -> str:
    """Identities are the same whose letters differ in case alone."""
    return identity.lower()


def is_name(name: str) -> bool:
    """Whether a name can be one: letters of any script with their marks, and what stands between them."""
    kinds = [unicodedata.category(c)[0] for c in name]
    return kinds[:1] == ['L'] and len(name) <= LONGEST and all(
        kind in 'LMN' or c in SIGNS for kind, c in zip(kinds, name))


def identity_of(called: str, candidates: list[Candidate]) -> str:
    """The identity of somebody who is called by it, or by a name that no other has."""
    named = [candidate.identity for candidate in candidates if candidate.name == called]
    known = any(folded(candidate.identity) == folded(called) for candidate in candidates)
    return named[0] if len(named) == 1 and not known else called


# ---- The list

def text_of(file: str) -> str:
    """The text of a list or of tickets, whoever saved it."""
    try:
        return unicodedata.normalize('NFC', read_in(file, LISTS).decode('utf-8-sig'))
    except UnicodeDecodeError as fault:
        raise Fault(f'{printable(file)} is not UTF-8: save it as CSV UTF-8') from fault


def separator_in(top: str, column: str) -> str | None:
    """What separates the columns, if a top line has the column."""
    for separator in SEPARATORS:
        if column in [cell.strip().strip('"').lower() for cell in top.split(separator)]:
            return separator
    return None


def rows_of(file: str, text: str, separator: str) -> Iterator[tuple[int, list[str]]]:
    """The rows of CSV that have something in them, each with its line."""
    reader = csv.reader(text.splitlines(), delimiter=separator)
    try:
        for row in reader:
            cells = [' '.join(cell.split()) for cell in row]
            if any(cells) and not cells[0].startswith('#'):
                yield reader.line_num, cells
    except csv.Error as fault:
        raise Fault(f'{printable(file)}: line {reader.line_num} cannot be read: {fault}') from fault


def listed(file: str) -> Iterator[tuple[int, dict[str, str]]]:
    """The lines of a list that name somebody, with the cells of each by column."""
    text = text_of(file)
    lines = [(number, line.strip()) for number, line in enumerate(text.splitlines(), 1)]
    lines = [(number, line) for number, line in lines if line and not line.startswith('#')]
    separator = separator_in(lines[0][1], 'id') if lines else None
    if separator is None:
        for number, name in lines:
            if not IDENTITY.fullmatch(name):
                raise Fault(f'{printable(file)}: line {number} is no id: "{printable(name)}"; {IDENTITY_FORM}; '
                            f'{WITH_IDS}')
            yield number, {'id': name}
        return
    (top, columns), *rows = rows_of(file, text, separator)
    columns = [column.lower() for column in columns]
    if sorted(columns) != sorted({*columns} & {*COLUMNS}):
        raise Fault(f'{printable(file)}: line {top} has the columns {", ".join(columns)}: there may be '
                    f'{", ".join(COLUMNS)}, each once')
    for number, cells in rows:
        if any(cells[len(columns):]):
            raise Fault(f'{printable(file)}: line {number} has more cells than line {top} has columns')
        yield number, dict(zip(columns, cells))


def candidates_in(file: str, papers: Collection[str] | None = None) -> list[Candidate]:
    """The candidates of a list, who sit over papers of these names, or of any."""
    found: dict[str, Candidate] = {}
    for number, cells in listed(file):
        identity, name, minutes, paper = (cells.get(column, '') for column in COLUMNS)
        where, name = f'{printable(file)}: line {number}', name or identity
        if not IDENTITY.fullmatch(identity):
            raise Fault(f'{where} has no id: "{printable(identity)}"; {IDENTITY_FORM}')
        if folded(identity) in found:
            raise Fault(f'{where} has {identity} a second time')
        if not is_name(name) and name != identity:
            raise Fault(f'{where} has no name: "{printable(name)}"; {NAME_FORM}')
        if minutes and not MINUTES.fullmatch(minutes):
            raise Fault(f'{where} has no number of minutes: "{printable(minutes)}"')
        if paper and papers is not None and paper.removesuffix('.hex') not in papers:
            raise Fault(f'{where} has a paper that is not served: "{printable(paper)}"')
        if not paper and papers is not None and len(papers) > 1:
            raise Fault(f'{where} has no paper, and several are served: {printable(", ".join(papers))}')
        found[folded(identity)] = Candidate(identity, name, int(minutes) if minutes else None,
                                            paper.removesuffix('.hex'))
    if not found:
        raise Fault(f'{printable(file)} names no candidate')
    return [*found.values()]


# ---- Tickets

WHO, TICKET = 'candidate', 'ticket'
TICKET_COLUMNS = [WHO, 'name', TICKET]
MEND = ('write it as it was handed out; or take the row out, and what was handed out stays good; or clear the ticket, '
        'and {} gets a new one')
# Letters that nobody takes for one another. Sixteen of them are too many to be guessed.
LETTERS, GROUPS, GROUP = 'abcdefghjkmnpqrstuvwxyz23456789', 4, 4
SIXTEEN = re.compile(f'[{LETTERS}]{{{GROUPS * GROUP}}}')
BETWEEN = re.compile(r'[\s‐‑‒–—−-]+')


def new_ticket() -> str:
    import secrets  # which takes long to load
    return spelled(''.join(secrets.choice(LETTERS) for _ in range(GROUPS * GROUP)))


def spelled(letters: str) -> str:
    """Letters in groups, as people read them out."""
    return '-'.join(letters[at:at + GROUP] for at in range(0, len(letters), GROUP))


def ticket_in(typed: str) -> str | None:
    """What somebody typed, as the ticket that it can be: in any case, with or without dashes and spaces."""
    letters = BETWEEN.sub('', typed).lower()
    return spelled(letters) if SIXTEEN.fullmatch(letters) else None


def hash_of(ticket: str) -> str:
    """What the log has of a ticket, and by which it is looked up."""
    return hashlib.sha256(ticket.encode()).hexdigest()


class Tickets:
    """The file of tickets, from which they are handed out: a row for each candidate, read in whatever form a
    spreadsheet has saved it. Which tickets are good is in the log."""

    def __init__(self, file: str, candidates: list[Candidate]):
        self.file, self.columns, self.changed = file, [*TICKET_COLUMNS], False
        self.candidates = candidates
        self.rows: dict[str, dict[str, str]] = {}
        self.new = not os.path.exists(file)
        if not self.new:
            self.read()

    def read(self) -> None:
        text = text_of(self.file)
        if not text.strip():
            return
        separator = separator_in(text.lstrip().splitlines()[0], TICKET)
        (top, columns), *rows = rows_of(self.file, text, separator or SEPARATORS[0])
        self.columns = [WHO if column.lower() == 'id' else column.lower() for column in columns]
        if separator is None or WHO not in self.columns:
            raise Fault(f'{printable(self.file)}: line {top} has not the columns {WHO} and {TICKET}: name them there')
        for number, cells in rows:
            self.take(number, dict(zip(self.columns, cells)))

    def take(self, number: int, row: dict[str, str]) -> None:
        """Takes a row of the file."""
        where, who, typed = f'{printable(self.file)}: line {number}', row.get(WHO, ''), row.get(TICKET, '')
        who = identity_of(who, self.candidates)
        if not IDENTITY.fullmatch(who):
            raise Fault(f'{where} has no candidate: "{printable(who)}"; {IDENTITY_FORM}')
        if folded(who) in self.rows:
            raise Fault(f'{where} has {who} a second time')
        ticket = ticket_in(typed) or ''
        if typed and not ticket:
            raise Fault(f'{where} has no ticket: "{printable(typed)}"; {MEND.format(who)}')
        if ticket and ticket in [other[TICKET] for other in self.rows.values()]:
            raise Fault(f'{where} has a ticket that stands above it too; {MEND.format(who)}')
        self.rows[folded(who)] = row | {WHO: who, TICKET: ticket}

    def given(self, who: str, name: str, kept: str, dead: Collection[str] = ()) -> str:
        """The ticket that a candidate gets now, made where none is in the file; '' where the one whose hash is kept
        stays good. A row with one of before, whose hash is dead, was not written in time, and goes."""
        row = self.rows.get(folded(who))
        if row and row[TICKET] and hash_of(row[TICKET]) in dead:
            del self.rows[folded(who)]
            row, self.changed = None, True
        if row and row[TICKET] and kept not in ('', hash_of(row[TICKET])):
            raise Fault(f'{printable(self.file)}: the ticket of {who} is not the one handed out; {MEND.format(who)}')
        if kept and (row is None or row[TICKET]):
            return ''
        if row is None or not row[TICKET]:
            self.hand_out(who, name, new_ticket())
        return self.rows[folded(who)][TICKET]

    def hand_out(self, who: str, name: str, ticket: str) -> None:
        """Has a ticket in the row of a candidate, in the place of one of before."""
        self.rows[folded(who)] = {**self.rows.get(folded(who), {}), WHO: who, 'name': name, TICKET: ticket}
        self.changed = True

    def text(self) -> bytes:
        out = io.StringIO(newline='')
        writer = csv.DictWriter(out, [*dict.fromkeys([*self.columns, *TICKET_COLUMNS])], lineterminator='\n')
        writer.writeheader()
        writer.writerows(self.rows.values())
        return out.getvalue().encode()

    def write(self) -> None:
        """Writes the file, if there is something new in it."""
        if self.changed:
            write_over(self.file, self.text(), lasting=True)

    def give_up(self) -> None:
        """Takes away a file that was just made: the start has failed."""
        if self.new:
            with contextlib.suppress(OSError):
                os.unlink(self.file)
