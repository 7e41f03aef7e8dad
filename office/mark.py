"""./desk mark: answers marked beside the key of a paper, with slips for two readers and a mark each in the register."""
import argparse
import contextlib
import os
from collections import Counter

from office.asked import BLANK_HELP, PAPER_HELP, answer_cause, planned
from office.candidates import IDENTITY, IDENTITY_FORM, Candidate, candidates_in, folded
from office.command import (FAILED, LISTS, REFUSED, Fault, done, files_in, printable, read_in, read_plain, tell,
                            write_json, write_out)
from office.keeping import EVERY, Answer, Marker, PaperText, finding_of, keep, marker, telling
from office.library import Desk
from office.marks import Finding, sha256_of
from office.names import names_to_keep
from office.progress import Progress
from office.records import dataclass, field, replace
from office.refusal import Refusal
from office.rows import FIRST, as_csv, first_cells
from office.slip_files import Slips, slips_of
from office.taken import SAVED, is_utf16
from office.words import ABSENT, UNREAD, VERDICTS, counted
from office.words import REFUSED as REFUSED_WORD

TYPE_CHECKING = False
if TYPE_CHECKING:
    from office.register import Register

MORE = """A candidate is called as the file of the answer, without .hex. An answer that is refused has a mark too; a
line on standard error says why, and the others are marked. A file that cannot be read is marked Not read, and takes no
mark away that is there. The status is then 1, or 2 where something was not read, not kept or not written.

  ./desk mark paper.hex answers
  ./desk mark paper.hex answers/*.hex --register register.db --new
  ./desk mark paper.hex answers/*.hex --register register.db --candidates names.csv --slips slips
  ./desk mark paper.hex late/anna.hex --register register.db --replace "handed in again, with leave"
  ./desk mark paper.hex --sitting answers --register register.db
"""


@dataclass
class Marking:
    """A paper with its key on a desk, where its marks and slips go, and what there is to say while marking."""
    desk: Desk
    paper: PaperText
    register: 'Register | None'
    by: Marker | None
    slips: Slips | None
    bar: Progress
    done: list[Answer] = field(default_factory=list)
    status: int = 0

    def answer(self, candidate: str, file: str | None) -> Answer:
        """An answer and what became of it. Who has no file is absent."""
        if file is None:
            return Answer(candidate, None, Finding(ABSENT))
        try:
            text = read_plain(file)
        except Fault as fault:
            self.say(str(fault), FAILED)
            return Answer(candidate, None, Finding(UNREAD))
        finding = finding_of(self.desk, text)
        if finding.number is not None and finding.line is not None:
            refusal = Refusal(finding.number, finding.line)
            where, *rules = refusal.words(text, answer_cause(refusal, text, self.desk))
            self.say(f'{printable(file)}: {where}: {"; ".join(rules)}', REFUSED)
        return Answer(candidate, text, finding)

    def keep(self, answers: list[Answer]) -> None:
        """Keeps the marks of answers, and then writes their slips."""
        for answer, why in self.kept(answers):
            if why and answer.finding.verdict == ABSENT:
                continue  # there is an answer from before
            if why:
                self.say(f'{answer.candidate}: {why}', FAILED)
            elif self.slips is not None and answer.text is not None:
                self.hand_out(self.slips, answer, answer.text)
            self.done.append(answer)
            if self.register is None:
                slips = '' if self.slips is None else ', with their slips'
                done(f'{counted(len(self.done), "answer")} marked{slips}; no row was written')

    def kept(self, answers: list[Answer]) -> list[tuple[Answer, str]]:
        """Answers, each with why the register did not take it, or nothing."""
        if self.register is None or self.by is None:
            return [(answer, '') for answer in answers]
        return [(outcome.answer, outcome.why) for outcome in keep(self.register, self.paper, answers, self.by)]

    def hand_out(self, slips: Slips, answer: Answer, text: bytes) -> None:
        """Writes both slips of an answer. One that was refused has none, and loses those of a time before; so does
        every answer its pages, which ./desk export makes."""
        made = {} if answer.finding.verdict == REFUSED_WORD else slips_of(self.desk, text)
        for fault in slips.hand_out(answer.candidate, self.paper, made):
            self.say(fault, FAILED)

    def say(self, why: str, status: int) -> None:
        """Says why something was not done; the marking goes on."""
        self.bar.hide()
        tell('desk', why)
        self.status = max(self.status, status)


def name_of(file: str) -> str:
    """What a file is called, without its ending."""
    return os.path.basename(file).removesuffix('.hex')


def candidate_of(file: str) -> str | None:
    """Whose answer a file is, by its name; None where that is no identity."""
    return folded(name_of(file)) if IDENTITY.fullmatch(name_of(file)) else None


def paper_name(file: str) -> str:
    """What a paper is called in the register and in the names of slips."""
    return 'paper' if file == '-' else printable(name_of(file)) or 'paper'


def why_nobody(file: str, listed: dict[str, Candidate] | None) -> str:
    """Why a file is no candidate's answer; nothing where it is one."""
    identity = candidate_of(file)
    if identity is None:
        return f'no answer of a candidate, as {IDENTITY_FORM}'
    if listed is None:
        return '' if os.path.isfile(file) else 'it is no plain file'
    return '' if identity in listed else f'{identity} is not on the list of candidates'


def listed_in(file: str, paper: str) -> dict[str, Candidate]:
    """Who should have an answer on a paper, by identity. A list may be of several papers."""
    return {folded(one.identity): one for one in candidates_in(file) if one.paper in ('', paper)}


def named_in(file: str) -> list[str]:
    """The files that a list names, a line each."""
    text = read_in(file, LISTS)
    if is_utf16(text):
        raise Fault(f'{printable(file)}: {SAVED}')
    named = [line for line in text.decode('utf-8-sig', 'surrogateescape').splitlines() if line.strip()]
    if not named:
        raise Fault(f'{printable(file)} names no answer')
    return named


def answers_in(places: list[str]) -> list[str]:
    """The files of answers: themselves, those in a folder, those that a list names, a line each. A folder that is
    called as an answer came by a pattern, and is none."""
    files: list[str] = []
    for place in places:
        if place.startswith('@'):
            files += answers_in([f'./{line}' if line.startswith('@') else line for line in named_in(place[1:])])
        else:
            files += files_in(place) if os.path.isdir(place) and not place.endswith('.hex') else [place]
    return files


def files_of(files: list[str], listed: dict[str, Candidate] | None) -> tuple[dict[str, str], list[str]]:
    """The file of each candidate, and what is wrong with files that are nobody's. A file that is not there is a slip of
    the hand where no list says who should have one."""
    named: dict[str, str] = {}
    wrong: list[str] = []
    for file in files:
        if file == '-':
            raise Fault('an answer is a file, as its candidate is called after it; - can be the paper alone')
        if listed is None and not os.path.lexists(file):
            raise Fault(f'there is no file {printable(file)}')
        why = why_nobody(file, listed)
        if why:
            wrong.append(f'{printable(file)} is not marked: {why}')
            continue
        name = candidate_of(file) or ''
        if name in named:
            raise Fault(f'two answers of candidate {name}: {printable(named[name])}, {printable(file)}')
        named[name] = file
    return named, wrong


def summary(answers: list[Answer]) -> str:
    """How many answers there are of each verdict."""
    many = Counter(answer.finding.verdict for answer in answers)
    told = [f'{many[word]:,} {word}' for word in [*reversed(VERDICTS.values()), REFUSED_WORD, UNREAD] if many[word]]
    absent = f'; {many[ABSENT]:,} Absent' if many[ABSENT] else ''
    return ': '.join([counted(len(answers) - many[ABSENT], 'answer'), *filter(None, [', '.join(told)])]) + absent


def register_asked(asked: argparse.Namespace) -> contextlib.AbstractContextManager['Register | None']:
    """The register that is asked for, which is told from any other file before anything is marked."""
    if asked.register is None:
        if asked.new or asked.replace is not None:
            raise Fault('--new and --replace are about a register: --register FILE names it')
        return contextlib.nullcontext()
    if asked.replace is not None and not asked.replace.strip():
        raise Fault('--replace wants the reason')
    from office.register import to_write  # which loads SQLite, and not every mark is kept
    return to_write(asked.register, asked.new)


def arguments(parser: argparse.ArgumentParser) -> None:
    parser.add_argument('paper', metavar='PAPER', help=PAPER_HELP)
    parser.add_argument('answers', metavar='ANSWER', nargs='*',
                        help='a file with a placement text, a folder of these, or @FILE, a list of files, a line each')
    parser.add_argument('--sitting', metavar='DIR', help='marks a sitting at the screen that has ended, from its log, '
                        'as ./desk collect does, if it is over this paper')
    parser.add_argument('--register', metavar='FILE',
                        help='keeps the marks in a register, and writes how many there are to standard output instead')
    parser.add_argument('--new', action='store_true', help='makes the register, where no file is yet')
    parser.add_argument('--replace', metavar='REASON', help='puts answers in the place of others that were marked')
    parser.add_argument('--candidates', metavar='FILE',
                        help='who should have an answer: a list, or CSV with id and name; the others are Absent')
    parser.add_argument('--slips', metavar='DIR', help='writes both slips of each answer, each reader\'s in a folder')
    parser.add_argument('--blank', action='store_true', help=BLANK_HELP)
    parser.add_argument('--json', action='store_true',
                        help='rows as a list of objects; with a register, how many there are of each verdict')


def mark_sitting(asked: argparse.Namespace) -> None:
    """Takes a sitting over the paper into the register."""
    from office.collect import at_rest, ended_in, look_at, take  # which marks as this does
    if asked.answers or asked.candidates is not None or asked.slips is not None:
        raise Fault('--sitting has answers and candidates of its own, and ./desk export writes slips: leave those out')
    if asked.register is None:
        raise Fault('a sitting is marked in a register: --register FILE names it')
    look_at(asked)
    desk, text = planned(asked.paper, asked.blank)
    with at_rest(asked.sitting):
        ended = ended_in(asked.sitting, asked.paper)
    names = names_to_keep(desk, asked.paper, text)
    papers = [replace(paper, names=names or paper.names) for paper in ended.papers if paper.sha256 == sha256_of(text)]
    if not papers:
        raise Fault(f'{printable(asked.sitting)} is a sitting over another paper than {printable(asked.paper)}')
    take(ended, papers, asked)


def main(asked: argparse.Namespace) -> None:
    if asked.sitting is not None:
        mark_sitting(asked)
        return
    if not asked.answers:
        raise Fault('name the answers, or a sitting at the screen by --sitting DIR')
    listed = None if asked.candidates is None else listed_in(asked.candidates, paper_name(asked.paper))
    files, wrong = files_of(answers_in(asked.answers), listed)
    desk, text = planned(asked.paper, asked.blank)
    names = b'' if asked.register is None else names_to_keep(desk, asked.paper, text)
    paper = PaperText(sha256_of(text), paper_name(asked.paper), text, names)
    slips = None if asked.slips is None else Slips(asked.slips)
    if slips is not None:
        slips.make()
    with register_asked(asked) as register:
        everyone: list[tuple[str, str | None]] = [*files.items(), *((name, None) for name in listed or {}
                                                                    if name not in files)]
        bar = Progress('marking', len(everyone))
        by = None if register is None else marker(asked.replace and printable(asked.replace))
        marking = Marking(desk, paper, register, by, slips, bar)
        for why in wrong:
            marking.say(why, FAILED)
        with telling(register, len(everyone)):
            mark_all(marking, everyone, listed)
        if register is None:
            rows = [first_cells(one.candidate, one.finding, paper.sha256, one.sha256) for one in marking.done]
            rows.sort(key=lambda row: str(row['candidate']))
            if asked.json:
                write_json(rows)
            else:
                write_out(as_csv(FIRST, rows))
        elif asked.json:
            write_json({'verdicts': Counter(one.finding.verdict for one in marking.done), 'added': register.kept,
                        'head': register.head()})
        else:
            added = f'{counted(register.kept, "mark")} added, head {register.head()}'
            write_out(f'{summary(marking.done)}\n{printable(asked.register)}: {added}\n'.encode())
    if marking.status:
        raise Fault('', marking.status)


def mark_all(marking: Marking, everyone: list[tuple[str, str | None]], listed: dict[str, Candidate] | None) -> None:
    """Marks all, and keeps the marks as it goes."""
    if marking.register is not None and listed is not None:
        with marking.register.adding():
            for one in listed.values():
                marking.register.add_name(folded(one.identity), one.name)
    for first in range(0, len(everyone), EVERY):
        some = marking.bar.over(everyone[first:first + EVERY])
        marking.keep([marking.answer(*one) for one in some])
