"""./desk export: what the register has for people. For each answer the law's slips, and a page in words beside each."""
import argparse

from office.command import FAILED, Fault, done, printable, tell, write_json, write_out
from office.marks import Mark
from office.progress import Progress
from office.records import dataclass, field
from office.register import Register, opened, readable
from office.slip_files import PAGE, READERS, SLIP, Made, Slips, slips_of
from office.slip_pages import note_page, slip_page
from office.slip_words import slip_in
from office.stored import Stored
from office.words import REFUSED, counted

MORE = """DIR/candidate has what candidates get: nothing there tells the key or a verdict. DIR/examiner has what the
examiner reads, and nobody else may. A refused answer has a note. Only marks that hold today are told of: what others
took the place of is written over, or taken away. A file that is none of the desk's is left alone.

  ./desk export register.db --slips slips
  ./desk export register.db --slips slips --candidate anna
"""


@dataclass
class Export:
    """A register on its way to people: how many slips and notes were written, and the faults there were."""
    stored: Stored
    slips: Slips
    written: int = 0
    notes: int = 0
    faults: list[str] = field(default_factory=list)

    def hand_out(self, mark: Mark) -> None:
        """Writes what there is about a mark, for each reader."""
        try:
            on, made = self.stored.paper(mark), {} if mark.answer is None else self.made(mark)
            faults = self.slips.hand_out(mark.candidate, on.text, made)
        except Fault as fault:
            faults = [str(fault)]
        for why in faults:
            tell('desk', why)
        self.faults += faults
        if mark.answer is not None and not faults:
            self.notes += mark.verdict == REFUSED
            self.written += mark.verdict != REFUSED
        done(f'{counted(self.written, "answer")} with slips and {counted(self.notes, "note")} written; the same '
             'command goes on')

    def made(self, mark: Mark) -> Made:
        """The slips of an answer with their pages, or the notes of one that was refused."""
        on, answer, called = self.stored.paper(mark), self.stored.answer(mark), self.stored.called(mark)
        if mark.verdict == REFUSED:
            return {(reader, PAGE): note_page(called, on, mark, answer, reader) for reader in READERS}
        slips = slips_of(on.desk, answer)
        pages = {(reader, PAGE): slip_page(called, on, mark, answer, slip_in(text), text)
                 for (reader, _), text in slips.items()}
        return slips | pages


def arguments(parser: argparse.ArgumentParser) -> None:
    parser.add_argument('register', metavar='REGISTER', help='the file of the register')
    parser.add_argument('--slips', metavar='DIR', required=True, help='the folder to write to')
    parser.add_argument('--candidate', metavar='ID', help='what there is about one candidate alone')
    parser.add_argument('--json', action='store_true', help='an object, for programs')


def chosen(register: Register, candidate: str | None, after: int) -> list[Mark]:
    """The marks that hold today and were made after one."""
    if candidate is None:
        return register.marks('register WHERE seq > ? ORDER BY seq', after)
    return register.marks('register WHERE seq > ? AND candidate = ? ORDER BY seq', after, candidate.lower())


def main(asked: argparse.Namespace) -> None:
    slips, last = Slips(asked.slips), 0
    with opened(asked.register) as register, readable(asked.register):
        export = Export(Stored(register), slips)
        slips.make()
        while marks := chosen(register, asked.candidate, last):  # once more, if desks have marked meanwhile
            for mark in Progress('writing', len(marks)).over(marks):
                export.hand_out(mark)
            last = marks[-1].seq
    if not last:
        raise Fault('there is no mark to tell of')
    if asked.json:
        write_json({'answers': export.written, 'notes': export.notes, 'faults': export.faults})
    else:
        told = [f'{counted(export.written, "answer")} with slips', counted(export.notes, 'note')]
        write_out(f'{printable(asked.slips)}: {", ".join(told)}\n'.encode())
    if export.faults:
        raise Fault('', FAILED)
