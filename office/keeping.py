"""Answers marked by the proved calls, and which of their marks the register takes."""
import contextlib
import os
import pwd
from collections.abc import Iterator

from office.command import INTERRUPTED, Fault
from office.library import Desk
from office.marks import NO_MARK, Finding, Mark, sha256_of
from office.records import dataclass
from office.refusal import Refused
from office.version import desk_version, library_sha256
from office.words import REFUSED, VERDICTS, counted

TYPE_CHECKING = False
if TYPE_CHECKING:
    from office.register import Register

# How many answers are marked before their marks are kept.
EVERY = 300


@dataclass(frozen=True)
class PaperText:
    """A paper as the register has it: the hash and the name that it goes by, its text, and a file with the names of its
    statements, if there are any."""
    sha256: str
    name: str
    text: bytes
    names: bytes = b''

    def add_to(self, register: 'Register') -> None:
        """Adds what is not there yet, inside adding()."""
        register.add_paper(self.sha256, self.name, self.text)
        if self.names:
            register.add_names(self.sha256, self.names)


@dataclass(frozen=True)
class Answer:
    """What came from a candidate: the bytes, None where there are none, and what became of them."""
    candidate: str
    text: bytes | None
    finding: Finding

    @property
    def sha256(self) -> str | None:
        return None if self.text is None else sha256_of(self.text)


@dataclass(frozen=True)
class Marker:
    """Who marks and with which desk; the reason for which marks may be replaced, and the sitting that answers are
    from, where there is one."""
    who: str
    desk: str
    library: str
    reason: str | None = None
    sitting: str | None = None


@dataclass(frozen=True)
class Outcome:
    """What the register did with an answer: the mark that holds now, and why it is not the answer's, or nothing."""
    answer: Answer
    mark: Mark
    why: str = ''


def finding_of(desk: Desk, text: bytes) -> Finding:
    """What the desk says of an answer."""
    try:
        mark = desk.mark(text)
    except Refused as refused:
        return Finding(REFUSED, number=refused.refusal.number, line=refused.refusal.line)
    return Finding(VERDICTS[mark.verdict], mark.uncut, mark.loop, mark.theirs, mark.ours)


def marker(reason: str | None = None, sitting: str | None = None) -> Marker:
    """Whoever runs this desk, by the name of the login."""
    try:
        who = pwd.getpwuid(os.getuid()).pw_name
    except KeyError:
        who = str(os.getuid())
    return Marker(who, desk_version(), library_sha256(), reason, sitting)


def keep(register: 'Register', paper: PaperText, answers: list[Answer], by: Marker) -> list[Outcome]:
    """Adds the marks of answers, all of them or, where a fault says so, none. The same answer marked again adds
    nothing; another one takes the place of the first only for a reason, and none at all never does."""
    outcomes: list[Outcome] = []
    with register.adding():
        paper.add_to(register)
        for answer in answers:
            there = register.current(answer.candidate, paper.sha256)
            why = '' if there is None else kept_from(answer, there, by.reason)
            if there is not None and (why or same(answer, there)):
                outcomes.append(Outcome(answer, there, why))
                continue
            if answer.text is not None:
                register.add_answer(sha256_of(answer.text), answer.text)
            mark = new_mark(register, paper, answer, by, there)
            register.add_mark(mark)
            outcomes.append(Outcome(answer, mark))
    return outcomes


@contextlib.contextmanager
def telling(register: 'Register | None', many: int) -> Iterator[None]:
    """Whoever ends a marking into a register, or whatever does, the marks that were kept are told."""
    try:
        yield
    except (KeyboardInterrupt, Fault) as fault:
        if register is None:
            raise
        kept = f'{counted(register.kept, "mark")} of {counted(many, "answer")} kept; the same command goes on'
        if isinstance(fault, KeyboardInterrupt):
            raise Fault(f'ended: {kept}', INTERRUPTED) from fault
        raise Fault(f'{fault}\n{kept}', fault.status) from fault


def same(answer: Answer, there: Mark) -> bool:
    """Whether a mark is that of the answer, or neither has one."""
    if answer.text is None:
        return there.answer is None
    return (there.answer, there.finding) == (answer.sha256, answer.finding)


def kept_from(answer: Answer, there: Mark, reason: str | None) -> str:
    """Why an answer may not take the place of a mark; nothing where it may, or is the same."""
    if same(answer, there):
        return ''
    if answer.text is None:
        return f'{answer.finding.verdict}, so the mark stays that is there: {there.verdict}'
    if there.answer is None or reason is not None:
        return ''
    if there.answer == answer.sha256:
        return f'the register says {there.verdict} of this very answer, and now it is {answer.finding.verdict}'
    return f'another answer is in the register, {there.verdict}; --replace "reason" puts this one in its place'


def new_mark(register: 'Register', paper: PaperText, answer: Answer, by: Marker, there: Mark | None) -> Mark:
    """The next mark of the chain."""
    from office.chain import now
    seq, before = register.end()
    replaces, reason = (None, None) if there is None else (there.seq, by.reason or f'{there.verdict} before')
    return Mark(seq + 1, now(), answer.candidate, paper.sha256, answer.sha256, **vars(answer.finding), desk=by.desk,
                library=by.library, who=by.who, replaces=replaces, reason=reason, sitting=by.sitting, before=NO_MARK,
                own=NO_MARK).chained(before)
