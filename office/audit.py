"""./desk audit: whether a register is as it was made. Its file, its rules, its chain and every hash are looked at, and
every mark is made again by the proved calls from the bytes that it has; of every paper an argument for its key is
weighed."""
import argparse
import contextlib
import io
import re
import sqlite3
from collections import Counter
from collections.abc import Callable, Iterable

from office.argued import argument_of
from office.claims import claims_in
from office.command import REFUSED, Fault, write_json, write_out
from office.keeping import finding_of
from office.library import Desk
from office.marks import HEAD, NO_MARK, Finding, Mark, sha256_of
from office.names import names_bound
from office.paper import paper_on, placed
from office.played import Played
from office.progress import Progress
from office.records import dataclass, field
from office.refusal import Refused
from office.register import Register, opened
from office.schema import SCHEMAS
from office.view import verdict
from office.words import ABSENT, UNREAD, counted

MORE = """Each fault is told at its row, and the status is then 1. The chain of hashes shows an edit; that the end was
cut off, or all written anew, only a head can show that was noted elsewhere. Every ./desk mark tells it. Of each paper
it is told that an argument holds by which no placement is better than its key; ./desk why prints it.

  ./desk audit register.db
  ./desk audit register.db --head 7634cff2bb080a8f
"""
EVERY = 1000
FORM = "SELECT type || ' ' || name, sql FROM sqlite_schema WHERE sql IS NOT NULL"


@dataclass
class Audit:
    """A register that is looked at, with what was found so far. Desks may add to it meanwhile, so the end is fixed."""
    register: Register
    end: tuple[int, str]
    faults: list[str] = field(default_factory=list)
    papers: dict[str, tuple[str, Desk | None]] = field(default_factory=dict)
    # The argument for the key of each paper that has one, by the paper's hash.
    arguments: dict[str, bytes] = field(default_factory=dict)
    answers: dict[str, bytes] = field(default_factory=dict)
    made_by: Counter[tuple[str, str]] = field(default_factory=Counter)
    # The mark that holds for each candidate and paper, and which mark took the place of which.
    current: dict[tuple[str, str], int] = field(default_factory=dict)
    later: dict[int, Mark] = field(default_factory=dict)

    def look(self, head: str | None) -> None:
        """Looks at everything."""
        for part in (self.file, self.form, self.texts, self.marks, self.certificates, self.sittings):
            self.note('the file', part)
        if head is not None and not self.has(head):
            self.faults.append(f'no mark has the head {head}: marks were cut off, or written anew')

    def has(self, head: str) -> bool:
        """Whether a head is that of a mark, or of the register when it had none."""
        found = self.register.asked('SELECT 1 FROM mark WHERE substr(own, 1, ?) = ?', len(head), head)
        return bool(found) or NO_MARK.startswith(head)

    def note(self, where: str, look: Callable[[], Iterable[str]]) -> None:
        """Notes the faults of a place. What cannot be read, or is of another kind than it should be, is one."""
        try:
            self.faults += [f'{where}: {fault}' for fault in look()]
        except Fault as fault:
            self.faults.append(f'{where}: {fault}')
        except (TypeError, ValueError):
            self.faults.append(f'{where}: what stands there cannot be read')

    def file(self) -> list[str]:
        """The file by SQLite's own reading of it."""
        found = [told for told, in self.register.asked('PRAGMA integrity_check') if told != 'ok']
        return found + [f'what {table} {row} names in {parent} is not there'
                        for table, row, parent, _ in self.register.asked('PRAGMA foreign_key_check')]

    def form(self) -> list[str]:
        """Tables and rules, beside those of a new register of the same form."""
        with contextlib.closing(sqlite3.connect(':memory:')) as fresh:
            fresh.executescript(SCHEMAS[self.register.form])
            wanted = dict(fresh.execute(FORM).fetchall())
        there = dict(self.register.asked(FORM))
        return [f'{name} is not as a register has it' for name in sorted(wanted.keys() | there.keys())
                if wanted.get(name) != there.get(name)]

    def texts(self) -> list[str]:
        """Papers and answers by their hashes; papers get their key, and an argument for it is weighed."""
        for sha256, name, text in self.register.asked('SELECT sha256, name, text FROM paper'):
            self.note(f'paper {name}', lambda: hashed_otherwise(sha256, text))
            desk = planned(text) if isinstance(text, bytes) else None
            self.papers[sha256] = name, desk
            self.note(f'paper {name}', lambda: [*self.names(sha256), *self.argument(sha256, desk)])
        for sha256, text in self.register.asked('SELECT sha256, text FROM answer'):
            self.note(f'answer {sha256}', lambda: hashed_otherwise(sha256, text))
            self.answers[sha256] = text
        return []

    def names(self, sha256: str) -> list[str]:
        """The names of a paper's statements."""
        names, (_, desk) = self.register.names(sha256), self.papers[sha256]
        try:
            if names is not None and desk is not None:
                names_bound(names, sha256, desk.nest.points)
        except ValueError as fault:
            return [f'its names are not as they were taken in: {fault}']
        return []

    def argument(self, sha256: str, desk: Desk | None) -> list[str]:
        """The argument for the key of a paper, weighed."""
        if desk is None:
            return []
        text = argument_of(desk, paper_on(desk), placed(desk, desk.key()).counts, desk.weigh)
        if text is None:
            return ['no argument for its key was found that holds']
        self.arguments[sha256] = text
        return []

    def marks(self) -> list[str]:
        """Every mark, in the order in which they were made."""
        end, _ = self.end
        seq, before, bar = 1, NO_MARK, Progress('auditing', end)
        for first in range(1, end + 1, EVERY):
            last = min(first + EVERY - 1, end)
            some = self.register.marks('mark WHERE seq BETWEEN ? AND ? ORDER BY seq', first, last)
            for mark in bar.over(some):
                name, _ = self.papers.get(mark.paper, (mark.paper, None))
                self.note(f'mark {mark.seq}, {mark.candidate} on {name}', lambda: [
                    *self.chain(mark, seq, before), *self.place(mark), *self.again(mark)])
                seq, before = mark.seq + 1, mark.own
                self.made_by[mark.desk, mark.library] += 1
        return []

    def chain(self, mark: Mark, seq: int, before: str) -> list[str]:
        """A mark beside the one before it."""
        faults = []
        if mark.seq != seq:
            faults.append(f'{counted(mark.seq - seq, "mark is", "marks are")} missing before it')
        if mark.before != before:
            faults.append('it does not hold the hash of the mark before it')
        if mark.own != mark.hashed():
            faults.append('its hash is not that of its fields: one was changed')
        return faults

    def place(self, mark: Mark) -> list[str]:
        """A mark takes the place of the one that its candidate has on its paper."""
        about = mark.candidate, mark.paper
        there = self.current.get(about)
        self.current[about] = mark.seq
        if mark.replaces is not None:
            self.later[mark.replaces] = mark
        if mark.replaces == there:
            return []
        return [f'it takes the place of mark {mark.replaces or "none"}, and not of {there or "none"}']

    def again(self, mark: Mark) -> list[str]:
        """A mark beside what the calls say today."""
        if mark.answer is None:
            wanted = [Finding(UNREAD), Finding(ABSENT)]
            return [] if mark.finding in wanted else [f'{verdict(mark)} without an answer']
        _, desk = self.papers.get(mark.paper, ('', None))
        text = self.answers.get(mark.answer)
        if desk is None or text is None:
            return ['it cannot be made again, as its paper or its answer is not there, or has no key']
        found = finding_of(desk, text)
        return [] if found == mark.finding else [f'{verdict(mark.finding)} is kept, and {verdict(found)} comes out']

    def certificates(self) -> list[str]:
        """Every certificate beside its mark."""
        given = self.register.asked('SELECT number, mark, at FROM certificate ORDER BY mark')
        for number, seq, at in given:
            self.note(f'certificate {number}', lambda: self.certificate(number, seq, at))
        return []

    def certificate(self, number: str, seq: int, at: str) -> list[str]:
        mark, later = next(iter(self.register.marks('mark WHERE seq = ?', seq)), None), self.later.get(seq)
        if mark is None or not mark.certified or mark.certificate() != number:
            return [f'mark {seq} has no such certificate']
        if at < mark.at or later is not None and at > later.at:
            return [f'it was not made while mark {seq} held']
        return []

    def sittings(self) -> list[str]:
        """Every log of a sitting, and the marks that are from it."""
        for head, name in self.register.asked('SELECT head, name FROM sitting'):
            self.note(f'sitting {name}', lambda: self.sitting(head))
        return []

    def sitting(self, head: str) -> list[str]:
        (data, *told), = self.register.asked('SELECT log, paper, opened, closed FROM sitting WHERE head = ?', head)
        try:
            played = Played('its log', io.BytesIO(data)).to_the_end()
        except Fault as fault:
            return [str(fault).partition(';')[0]]
        if [played.room.paper, played.opened, played.closed] != told or (played.head, played.read.length) != (
                head, len(data)):
            return ['its log has another head, another end, another paper or other times']
        ends = {who: text if text is None else sha256_of(text) for who, text in played.ends().items()}
        papers = played.papers()
        return [f'its log does not have what mark {mark.seq}, {mark.candidate}, is of'
                for mark in self.register.marks('mark WHERE sitting = ? AND seq <= ?', head, self.end[0])
                if mark.paper != papers.get(mark.candidate) or ends.get(mark.candidate, '') != mark.answer]

    def report(self, head: str | None) -> list[str]:
        """What was found, a line each."""
        end, own = self.end
        many = [counted(end, 'mark'), counted(len(self.papers), 'paper'), counted(len(self.answers), 'answer')]
        by = [f'{counted(some, "mark")} by desk {desk}, library {str(library)[:HEAD]}'
              for (desk, library), some in self.made_by.items()]
        held = [f'paper {self.papers[sha256][0]}: its argument holds, {counted(len(claims_in(text)), "claim")}, '
                f'SHA-256 {sha256_of(text)}' for sha256, text in self.arguments.items()]
        well = counted(len(self.faults), 'fault') if self.faults else 'all as it was made'
        known = f'; the head {head} is among them' if head is not None and not self.faults else ''
        return [*self.faults, *by, *held, f'{", ".join(many)}: {well}{known}; head {own[:HEAD]}']


def hashed_otherwise(sha256: str, text: bytes) -> list[str]:
    return [] if sha256_of(text) == sha256 else [f'its text has another hash than {sha256}']


def planned(text: bytes) -> Desk | None:
    """A desk with a paper and its key; None for a paper that has none."""
    desk = Desk()
    try:
        desk.load(text)
        desk.plan()
    except Refused:
        return None
    return desk


def arguments(parser: argparse.ArgumentParser) -> None:
    parser.add_argument('register', metavar='REGISTER', help='the file of the register')
    parser.add_argument('--head', metavar='HEAD', help='a head that was noted before: it must be that of a mark')
    parser.add_argument('--json', action='store_true', help='an object, for programs')


def main(asked: argparse.Namespace) -> None:
    head = None if asked.head is None else asked.head.lower()
    if head is not None and not re.fullmatch(f'[0-9a-f]{{{HEAD},64}}', head):
        raise Fault(f'a head has {HEAD} digits 0-9 a-f: {asked.head}')
    with opened(asked.register) as register:
        audit = Audit(register, register.end())
        audit.look(head)
        if asked.json:
            write_json({'marks': audit.end[0], 'papers': len(audit.papers), 'answers': len(audit.answers),
                        'faults': audit.faults, 'head': audit.end[1],
                        'arguments': [{'paper_sha256': paper, 'argument_sha256': sha256_of(text)}
                                      for paper, text in audit.arguments.items()]})
        else:
            write_out('\n'.join([*audit.report(head), '']).encode())
    if audit.faults:
        raise Fault('', REFUSED)
