"""./desk take-in: a register of CSV, as desks had it before, marked again and taken into a register of today."""
import argparse
import csv
import os
import pathlib
import re
from collections import defaultdict
from collections.abc import Iterator

from office.audit import planned
from office.candidates import IDENTITY, IDENTITY_FORM, candidates_in, folded
from office.command import REFUSED, Fault, printable, read_plain, tell, write_json, write_out
from office.keeping import EVERY, Answer, Marker, PaperText, finding_of, keep, marker, telling
from office.library import Desk
from office.mark import paper_name
from office.marks import Finding, sha256_of
from office.records import dataclass
from office.register import Register, to_write
from office.rows import FIRST, first_cells
from office.words import UNREAD, counted

MORE = """Papers and answers are found by their hashes, whatever their files are called; a folder stands for the files
in it. A row that does not come out as it says, or whose paper or answer is not there, is told and not taken in; the
status is then 1.

  ./desk take-in register.db old.csv papers answers --new
"""


@dataclass(frozen=True)
class Text:
    """A file that may be a paper or an answer."""
    name: str
    text: bytes


def rows_in(file: str) -> list[dict[str, str]]:
    """The rows of an old register."""
    try:
        with open(file, encoding='utf-8', errors='replace', newline='') as opened:
            columns, *rows = [*csv.reader(opened, strict=True)] or [[]]
    except OSError as fault:
        raise Fault(f'cannot read {printable(file)}: {fault.strerror}') from fault
    except csv.Error as fault:
        raise Fault(f'{printable(file)} is no register of CSV: {fault}') from fault
    if columns != FIRST or any(len(row) != len(FIRST) for row in rows):
        saved = 'was it saved by a spreadsheet? ' if re.search('[\ufeff;]', ''.join(columns)) else ''
        raise Fault(f'{printable(file)} is no register of CSV: {saved}its columns should be {", ".join(FIRST)}')
    return [dict(zip(FIRST, row)) for row in rows]


def texts_in(places: list[str]) -> dict[str, Text]:
    """All files by their hashes. What cannot be read is told."""
    found: dict[str, Text] = {}
    for file in files_in(places):
        try:
            text = read_plain(file)
        except Fault as fault:
            tell('desk', str(fault))
            continue
        found[sha256_of(text)] = Text(paper_name(file), text)
    return found


def files_in(places: list[str]) -> Iterator[str]:
    """Files, and those of folders."""
    for place in places:
        if os.path.isdir(place):
            yield from sorted(str(file) for file in pathlib.Path(place).rglob('*') if file.is_file())
        else:
            yield place


def difference(row: dict[str, str], found: Finding) -> str:
    """Where a row does not say what the desk says today."""
    wanted = first_cells(row['candidate'], found, row['paper_sha256'], row['answer_sha256'])
    told = {name: '' if cell is None else str(cell) for name, cell in wanted.items()}
    return '; '.join(f'{name} is {row[name] or "empty"}, and {told[name] or "empty"} comes out'
                     for name in FIRST if row[name] != told[name])


@dataclass
class Taking:
    """An old register on its way into a new one."""
    register: Register
    texts: dict[str, Text]
    identities: dict[str, str]
    by: Marker
    listed: int = 0

    def paper(self, sha256: str, rows: list[dict[str, str]]) -> None:
        """Takes in the rows of a paper."""
        text = self.texts.get(sha256)
        desk = None if text is None else planned(text.text)
        if text is None or desk is None:
            why = 'its paper is not among the files' if text is None else 'its paper has no key'
            for row in rows:
                self.say(row, why)
            return
        answers = [answer for row in rows if (answer := self.answer(desk, row)) is not None]
        for first in range(0, len(answers), EVERY):
            some = answers[first:first + EVERY]
            for outcome in keep(self.register, PaperText(sha256, text.name, text.text), some, self.by):
                if outcome.why:
                    self.say({'candidate': outcome.answer.candidate, 'paper_sha256': sha256}, outcome.why)

    def answer(self, desk: Desk, row: dict[str, str]) -> Answer | None:
        """The answer of a row, if all comes out as it says."""
        candidate = self.identities.get(row['candidate'], row['candidate'])
        text = self.texts.get(row['answer_sha256'])
        found = Finding(UNREAD) if text is None else finding_of(desk, text.text)
        if not IDENTITY.fullmatch(candidate):
            why = f'{IDENTITY_FORM}; --candidates gives names an id'
        elif text is None and row['answer_sha256']:
            why = 'its answer is not among the files'
        else:
            why = difference(row, found)
        if why:
            self.say(row, why)
            return None
        return Answer(folded(candidate), None if text is None else text.text, found)

    def say(self, row: dict[str, str], why: str) -> None:
        """Says why a row is not taken in."""
        tell('desk', f'{printable(row["candidate"])}, paper {row["paper_sha256"][:8]}: {why}')
        self.listed += 1


def arguments(parser: argparse.ArgumentParser) -> None:
    parser.add_argument('register', metavar='REGISTER', help='the file of the register')
    parser.add_argument('old', metavar='CSV', help='the old register')
    parser.add_argument('texts', metavar='FILE', nargs='+', help='papers and answers, or folders of them')
    parser.add_argument('--new', action='store_true', help='makes the register, where no file is yet')
    parser.add_argument('--candidates', metavar='FILE', help='CSV with id and name, where old rows go by names')
    parser.add_argument('--json', action='store_true', help='an object, for programs')


def main(asked: argparse.Namespace) -> None:
    rows, texts = rows_in(asked.old), texts_in(asked.texts)
    listed = [] if asked.candidates is None else candidates_in(asked.candidates)
    identities = {one.name: one.identity for one in listed}
    papers: dict[str, list[dict[str, str]]] = defaultdict(list)
    for row in rows:
        papers[row['paper_sha256']].append(row)
    with to_write(asked.register, asked.new) as register:
        taking = Taking(register, texts, identities, marker())
        with telling(register, len(rows)):
            for sha256, some in papers.items():
                taking.paper(sha256, some)
        if asked.json:
            write_json({'rows': len(rows), 'not_taken_in': taking.listed, 'added': register.kept,
                        'head': register.head()})
        else:
            taken = f'{counted(register.kept, "mark")} added, head {register.head()}'
            write_out(f'{counted(len(rows), "row")}, {taking.listed:,} not taken in: {taken}\n'.encode())
    if taking.listed:
        raise Fault('', REFUSED)
