"""./desk collect: a sitting that has ended is taken into the register, with its log and a mark for each candidate."""
import argparse
import contextlib
import fcntl
import os
import pathlib
from collections import Counter
from collections.abc import Iterator

from office import oldlog
from office.audit import planned
from office.candidates import folded
from office.command import FAILED, REFUSED, Fault, printable, read_plain, tell, write_json, write_out
from office.keeping import EVERY, Answer, Marker, PaperText, finding_of, keep, marker, telling
from office.logbook import LOG
from office.mark import paper_name, summary
from office.marks import Finding
from office.names import SUFFIX, bound_to, names_in
from office.played import Played
from office.records import dataclass
from office.register import Register, to_write
from office.sittings import Sittings
from office.words import ABSENT, counted

MORE = """Every line of the log is held against its chain, and every move is made once more by the library. Who never
entered is marked Absent. Who entered and has neither handed in nor been collected is told and not marked, and the
status is then 1: the same command takes them in when the log has their end.

  ./desk collect answers --register register.db --paper p
  ./desk collect answers --register register.db --new
"""


@dataclass(frozen=True)
class Ended:
    """A sitting that has ended: its log, the bytes of it, what it is called, and its papers."""
    log: Played
    data: bytes
    name: str
    papers: list[PaperText]

    def answers(self, paper: PaperText) -> list[Answer]:
        """What came over a paper from each candidate whose sitting is over, marked. Who never entered has no answer."""
        desk, of = planned(paper.text), self.log.papers()
        if desk is None:
            raise Fault(f'the paper {paper.name} of this sitting has no key: nothing can be marked')
        return [Answer(who, text, Finding(ABSENT) if text is None else finding_of(desk, text))
                for who, text in self.log.ends().items() if of[who] == paper.sha256]

    def add_to(self, register: Register) -> None:
        """Adds the sitting, if it is not there yet, and the names of its candidates."""
        log = self.log
        with register.adding():
            for paper in self.papers:
                paper.add_to(register)
            for sitting in log.room.by_identity.values():
                register.add_name(folded(sitting.candidate), sitting.name)
            if not register.asked('SELECT 1 FROM sitting WHERE head = ?', log.head):
                register.add('sitting', head=log.head, paper=log.room.paper, name=self.name, opened=log.opened,
                             closed=log.closed, log=self.data)


@contextlib.contextmanager
def at_rest(folder: str) -> Iterator[None]:
    """Holds the folder of a sitting, which no desk may serve meanwhile."""
    try:
        held = os.open(folder, os.O_RDONLY | os.O_DIRECTORY)
    except OSError as fault:
        raise Fault(f'cannot read {printable(folder)}: {fault.strerror}') from fault
    try:
        try:
            fcntl.flock(held, fcntl.LOCK_EX | fcntl.LOCK_NB)
        except BlockingIOError as fault:
            raise Fault(f'{printable(folder)} is in use: the sitting has not ended yet') from fault
        yield
    finally:
        os.close(held)


def ended_in(folder: str, name: str | None) -> Ended:
    """The sitting in a folder."""
    file = os.path.join(folder, LOG)
    if oldlog.is_old(file):
        raise Fault(f'{printable(file)} is of an older form: ./desk sit takes it down anew')
    try:
        with open(file, 'rb') as opened:
            log = Played(file, opened).to_the_end()
            opened.seek(0)
            data = opened.read(log.read.length)
    except OSError as fault:
        raise Fault(f'cannot read {printable(file)}: {fault.strerror}') from fault
    if not log.opened:
        raise Fault(f'{printable(file)} is of a sitting that never began')
    names = names_of_sitting(folder, log.room)
    papers = [PaperText(paper, log.room.titles.get(paper) or paper_name(name or '-'), text, names.get(paper, b''))
              for paper, text in log.room.texts.items()]
    return Ended(log, data, printable(pathlib.Path(os.path.abspath(folder)).name), papers)


def names_of_sitting(folder: str, room: Sittings) -> dict[str, bytes]:
    """The files of names that a hall has left in its folder, by its papers."""
    found: dict[str, bytes] = {}
    for file in sorted(map(str, pathlib.Path(folder).glob(f'*{SUFFIX}'))):
        data = read_plain(file)
        paper = bound_to(data)
        if paper in room.blank:
            try:
                names_in(data, room.blank[paper].nest.points)
            except ValueError as fault:
                raise Fault(f'{printable(file)}: {fault}; move it away', REFUSED) from fault
            found[paper] = data
    return found


def keep_all(register: Register, ended: Ended, papers: list[PaperText], by: Marker) -> tuple[list[Answer], list[str]]:
    """Keeps the sitting and its marks over some papers as it goes; the answers that were taken, and why others were
    not."""
    answers = [(paper, answer) for paper in papers for answer in ended.answers(paper)]
    taken, wrong = [], []
    with telling(register, len(answers)):
        ended.add_to(register)
        for paper in papers:
            some = [answer for of, answer in answers if of is paper]
            for first in range(0, len(some), EVERY):
                for outcome in keep(register, paper, some[first:first + EVERY], by):
                    if not outcome.why:
                        taken.append(outcome.answer)
                    elif outcome.answer.text is not None:  # who is absent here has an answer from elsewhere
                        wrong.append(f'{outcome.answer.candidate}: {outcome.why}')
    return taken, wrong


def arguments(parser: argparse.ArgumentParser) -> None:
    parser.add_argument('answers', metavar='DIR', help='the folder of the answers, with the log')
    parser.add_argument('--register', metavar='FILE', required=True, help='the file of the register')
    parser.add_argument('--new', action='store_true', help='makes the register, where no file is yet')
    parser.add_argument('--paper', metavar='NAME', help='what the paper is called, where it is new in the register')
    parser.add_argument('--replace', metavar='REASON', help='puts answers in the place of others that were marked')
    parser.add_argument('--json', action='store_true', help='an object, for programs')


def main(asked: argparse.Namespace) -> None:
    look_at(asked)
    with at_rest(asked.answers):
        ended = ended_in(asked.answers, asked.paper)
    if asked.paper is not None and len(ended.papers) > 1:
        raise Fault('this sitting is over several papers, and its log names them: leave --paper out')
    take(ended, ended.papers, asked)


def look_at(asked: argparse.Namespace) -> None:
    """Refuses what has no sense, before anything is read."""
    if asked.replace is not None and not asked.replace.strip():
        raise Fault('--replace wants the reason')


def take(ended: Ended, papers: list[PaperText], asked: argparse.Namespace) -> None:
    """Takes a sitting into the register that is asked for, with the marks over some of its papers."""
    under_way = ended.log.under_way([paper.sha256 for paper in papers])
    with to_write(asked.register, asked.new) as register:
        by = marker(asked.replace and printable(asked.replace), ended.log.head)
        taken, wrong = keep_all(register, ended, papers, by)
        if asked.json:
            write_json({'verdicts': Counter(one.finding.verdict for one in taken), 'added': register.kept,
                        'head': register.head(), 'under_way': under_way})
        else:
            added = f'{counted(register.kept, "mark")} added, head {register.head()}'
            write_out(f'{summary(taken)}\n{printable(asked.register)}: {added}\n'.encode())
    for who in under_way:
        tell('desk', f'{who} entered and has neither handed in nor been collected, and is not marked')
    for why in wrong:
        tell('desk', why)
    if wrong or under_way:
        raise Fault('', FAILED if wrong else REFUSED)
