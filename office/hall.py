"""A hall: what candidates do is made by the library and kept in the log, and answers are handed in.

What candidates ask for in one moment is made at once and kept together. What is not kept is not made: as desks are
values, that of before is put back. The log is the sitting; the files of answers are written from it, afterwards.
"""
import contextlib
import enum
import os
import pathlib
import re
from collections.abc import Mapping
from typing import Self

from office import oldlog
from office.candidates import Candidate, Tickets, folded, identity_of
from office.candidates import hash_of as ticket_hash
from office.chain import OFFICE, Event
from office.clock import AHEAD, BEHIND, SECOND, Wanted, of_day, spelled, time_in, told
from office.command import Fault, mention, printable, read_in, take_away, write_over
from office.logbook import LOG, Logbook, NotKnown
from office.names import BEGINS, SUFFIX
from office.refusal import Refused
from office.sittings import (COLLECTED, ENTER, HAND_IN, LEAVE, Sitting, Sittings, State, hash_of, made, told_gaps,
                             why_not)
from office.tickets_page import tickets_page

TICKETS, TO_PRINT, ANSWER = 'tickets.csv', 'tickets.html', '.hex'
MACHINE = re.compile('[!-~]{1,64}')
# Seconds without a line before a start that are told where a clock runs.
LONG = 10
OVER = 'You have handed in. Nothing can be changed any more.'
TAKEN = 'What stood here was collected at the end. Nothing can be changed any more.'
CLOSED = 'The sitting is closed. Nothing can be changed any more.'
TIME_OVER = 'Your time is over. What stands here is collected.'
TOO_LATE = 'The time of this sitting is over. Ask the person in charge.'
MOVED_ON = 'Not handed in: the sitting was changed in another window. Look at it as it is now, and hand in again.'


class Kept(enum.Enum):
    """Whether the disk has what candidates asked for, and what is said to them if not."""
    DONE = ''
    NOT_DONE = 'This was not done: it could not be kept. Tell the person in charge.'
    NOT_KNOWN = 'It is not known whether this was kept. Tell the person in charge.'

    @property
    def words(self) -> str:
        return self.value


class Declined(Exception):
    """What a candidate asked for is not done; why, in words."""


class Hall:
    """The sittings over one paper or several, one log and one folder of answers. It is read and looked over when it is
    made, and writes nothing before it is opened."""

    def __init__(self, text: bytes, candidates: list[Candidate], answers: str, time: Wanted = Wanted(), name: str = '',
                 others: Mapping[str, bytes] | None = None):
        self.answers, self.paper, self.address = answers, hash_of(text), ''
        self.texts = {name: text, **(others or {})}
        self.papers = {called: hash_of(text) for called, text in self.texts.items()}
        self.unkept: list[tuple[Sitting, State]] = []
        self.unwritten: dict[str, bytes | None] = {}
        self.tickets_unwritten: dict[str, bytes] = {}
        self.names: dict[str, bytes] = {}
        self.told: set[str] = set()
        self.broken = self.uncollected = False
        self.room = Sittings(self.paper)
        self.log = Logbook(answers)
        self.last, self.opened = '', self.now
        try:
            self.read(candidates)
            self.tickets = Tickets(os.path.join(answers, TICKETS), candidates)
            self.seat(candidates)
            self.set_clock(time)
            self.new_tickets = self.tickets_given()
            self.look_at_answers()
        except BaseException:
            self.log.close()
            raise

    def __enter__(self) -> Self:
        return self

    def __exit__(self, *_: object) -> None:
        self.close()

    @property
    def sittings(self) -> dict[str, Sitting]:
        return self.room.by_identity

    @property
    def handed_in(self) -> int:
        return sum(sitting.handed_in for sitting in self.sittings.values())

    def sitting_with(self, ticket: str) -> Sitting | None:
        """The sitting that a ticket opens. It is looked up by a hash, so that the time it takes tells nothing."""
        return self.room.by_ticket.get(ticket_hash(ticket))

    def is_dead(self, ticket: str) -> bool:
        """Whether a ticket was good once, and another took its place."""
        return self.sitting_with(ticket) is None and any(
            ticket_hash(ticket) in sitting.dead for sitting in self.sittings.values())

    # ---- A start

    def read(self, candidates: list[Candidate]) -> None:
        """Makes all of a time before once more, or begins with nothing."""
        if self.log.is_there() and not oldlog.is_old(self.log.file):
            for event in self.log.events(self.paper):
                self.replay(event, event.seq + 1)
                self.last = max(self.last, event.at)
            self.lay_out()
            return
        self.log.top(self.paper)
        self.lay_out()
        if self.log.is_there():
            self.migrate(candidates)
        else:
            left = [file for file in os.listdir(self.answers) if file == TICKETS or file.endswith(ANSWER)]
            if left:
                raise Fault(f'{printable(self.answers)} has {printable(min(left))} and no {LOG}: put the log back, or '
                            'give another folder for a new sitting')

    def lay_out(self) -> None:
        """Takes down the papers that are new, and where there are several what they are called."""
        for called, text in self.texts.items():
            paper = self.papers[called]
            if paper not in self.room.texts:
                self.note(f'paper {" ".join(text.decode("ascii").split())}'.rstrip())
            if len(self.papers) > 1 and self.room.titles.get(paper) != called:
                self.note(f'title {paper} {called}')
        missing = self.room.texts.keys() - self.papers.values()
        if missing:
            names = ', '.join(self.room.titles.get(paper, paper) for paper in sorted(missing))
            raise Fault(f'{printable(self.log.file)} has further papers: name them too: {printable(names)}')

    def paper_of(self, candidate: Candidate) -> str:
        """The paper of a candidate of the list."""
        return self.papers.get(candidate.paper, self.paper)

    def replay(self, event: Event, line: int) -> None:
        try:
            self.room.make(event)
        except (LookupError, ValueError, Refused) as fault:
            raise Fault(f'{printable(self.log.file)}: line {line} is no act that can be made: {printable(event.act)}; '
                        'put back a copy of the log that is whole, or start with the desk that wrote it') from fault

    def migrate(self, candidates: list[Candidate]) -> None:
        """Takes a log of the older form down anew."""
        self.seat(candidates)
        for number, at, name, act in oldlog.lines_of(self.log.file, self.paper):
            who = identity_of(name, candidates)
            if who not in self.sittings:
                raise Fault(f'{printable(self.log.file)}: line {number} is of {printable(name)}, who is not among the '
                            'candidates: add the name, with an id')
            if act == HAND_IN:
                act = f'{HAND_IN} {hash_of(self.sittings[who].desk.sitting())}'
            self.replay(self.log.add(who, OFFICE, act, at), number)

    def note(self, act: str) -> None:
        """Takes down what the desk itself does."""
        self.room.make(self.log.add(OFFICE, OFFICE, act))

    def seat(self, candidates: list[Candidate]) -> None:
        """Takes down who is new on the list, or has another name there."""
        known = {folded(identity): sitting for identity, sitting in self.sittings.items()}
        for candidate in candidates:
            sitting, paper = known.get(folded(candidate.identity)), self.paper_of(candidate)
            if sitting and sitting.begun and sitting.paper != paper:
                raise Fault(f'{candidate.identity} has begun over another paper than the list has now: '
                            f'{printable(candidate.paper)}')
            if sitting is None or (sitting.name, sitting.minutes, sitting.paper) != (
                    candidate.name, candidate.minutes, paper):
                identity = sitting.candidate if sitting else candidate.identity
                self.note(self.seated(identity, candidate.minutes, paper, candidate.name))

    def seated(self, identity: str, minutes: int | None, paper: str, name: str) -> str:
        """The act by which a candidate is on the list."""
        return f'candidate {identity} {minutes or OFFICE} {OFFICE if paper == self.paper else paper} {name}'

    def title(self, sitting: Sitting) -> str:
        """What the paper of a sitting is called."""
        return next(called for called, paper in self.papers.items() if paper == sitting.paper)

    @property
    def now(self) -> int:
        return self.log.clock.now()

    @property
    def timed(self) -> bool:
        """Whether there is a clock for anybody."""
        return any(sitting.timed for sitting in self.sittings.values())

    @property
    def under_way(self) -> bool:
        """Whether somebody's time runs."""
        return any(sitting.timed and sitting.begun and not sitting.ended for sitting in self.sittings.values())

    def set_clock(self, time: Wanted) -> None:
        """Takes down how long all have, where it is new. As long as nobody has begun, a time of day is the next one; a
        clock that stands before the log's last line would give everybody time, and one that is far ahead takes it."""
        allowed, begun = self.room.allowed, any(sitting.begun for sitting in self.sittings.values())
        if time.minutes and time.minutes != allowed.minutes:
            self.note(f'minutes {time.minutes}')
        if time.until and not (allowed.until and begun and time.is_at(allowed.until)):
            until = time.next(self.now)
            if until != allowed.until:
                self.note(f'until {spelled(until)}')
        last = time_in(self.last) if self.last else 0
        says = (f"this machine's clock says {told(self.now)}, and the last line of {printable(self.log.file)} is of "
                f'{told(last)}')
        if self.timed and self.now < last - BEHIND:
            raise Fault(f'{says}: set the clock right, and start again')
        if self.under_way and self.now > last + AHEAD and not time.go_on:
            raise Fault(f'{says}: what is under way would be collected. Set the clock right, and start again; if it is '
                        'right, --go-on says so')
        if self.timed:
            self.log.clock.go_on_from(last)

    @property
    def away(self) -> str:
        """How long nothing was kept before this start, for sittings under way that have a clock."""
        last = time_in(self.last) if self.last else self.opened
        seconds = (self.opened - last) // SECOND
        if not self.under_way or seconds < LONG:
            return ''
        return f'before this start nothing was kept since {of_day(last)}, for {seconds // 60} min {seconds % 60} s'

    def tickets_given(self) -> dict[str, str]:
        """The tickets that candidates get now."""
        given = {}
        for sitting in self.sittings.values():
            who = sitting.candidate
            ticket = self.tickets.given(who, sitting.name, sitting.ticket, sitting.dead)
            if ticket and ticket_hash(ticket) in self.room.by_ticket:
                raise Fault(f'{printable(self.tickets.file)}: {who} has the ticket of another candidate: clear it, and '
                            f'{who} gets a new one')
            if ticket:
                given[who] = ticket
        return given

    def look_at_answers(self) -> None:
        """Of what was handed in and of nothing else there may be a file. What is missing is to be written, and what was
        handed in before a sitting was reopened goes."""
        files = {folded(file.stem): str(file) for file in pathlib.Path(self.answers).glob(f'*{ANSWER}')}
        for sitting in self.sittings.values():
            who = sitting.candidate
            file = files.pop(folded(who), None)
            there = hash_of(read_in(file)) if file else ''
            if file and there not in sitting.given:
                raise Fault(f'{printable(file)} is there, and {who} did not hand it in: move it away')
            if sitting.handed_in and there != hash_of(sitting.desk.sitting()):
                self.write_soon(sitting)
            if file and not sitting.handed_in:
                self.write_soon(sitting)
        for file in files.values():
            raise Fault(f'{printable(file)} is there, and no candidate has this id: move it away')

    def open(self) -> None:
        """Begins: writes what a start has to write. One that fails leaves nothing behind."""
        try:
            self.log.begin()
            self.tickets.write()
            write_over(os.path.join(self.answers, TO_PRINT), self.printed(), lasting=True)
            for identity, ticket in self.new_tickets.items():
                self.note(f'ticket {identity} {ticket_hash(ticket)}')
            self.opened = self.now
            self.note('opened')
            self.log.keep()
        except (OSError, Fault) as fault:
            self.give_up()
            raise self.log.unable(fault) if isinstance(fault, OSError) else fault
        if self.log.old:
            mention(f'{printable(self.log.file)} was of an older form: it is taken down anew, and the old one kept as '
                    f'{printable(self.log.old)}')
        self.write_names()
        self.write_files()

    def give_up(self) -> None:
        """Takes away what a start has made, which has failed."""
        if self.tickets.new:
            with contextlib.suppress(OSError):
                os.unlink(os.path.join(self.answers, TO_PRINT))
        self.tickets.give_up()
        self.log.give_up()

    def close(self) -> None:
        """Ends, with the log in its place and the files of answers written."""
        if self.log.begun:
            self.write_files()
        self.log.close()

    # ---- What candidates do

    def enter(self, sitting: Sitting, machine: str) -> None:
        """Whose time was over before it began does not enter."""
        now = self.now
        if sitting.begun is None and sitting.is_over(now):
            raise Declined(TOO_LATE)
        sitting.make(self.take_down(sitting, ENTER, machine, now))

    def leave(self, sitting: Sitting, machine: str) -> None:
        sitting.make(self.take_down(sitting, LEAVE, machine, self.now))

    def move(self, sitting: Sitting, move: str, machine: str) -> str:
        """Makes a move, to be kept, and says what was done."""
        now = self.must_be_open(sitting)
        before = sitting.state
        try:
            said = made(sitting.desk, move)
        except Refused as refused:
            raise Declined(why_not(refused.refusal.number, move)) from refused
        sitting.moves += 1
        sitting.begin(self.take_down(sitting, move, machine, now, before))
        return said

    def hand_in(self, sitting: Sitting, moves: int, gaps: list[int], machine: str) -> str:
        """Hands in the sitting that the candidate saw, after so many moves and with these gaps, and says what was
        done."""
        now = self.must_be_open(sitting)
        if (moves, gaps) != (sitting.moves, sitting.gaps):
            raise Declined(MOVED_ON)
        sitting.make(self.take_down(sitting, f'{HAND_IN} {hash_of(sitting.desk.sitting())}', machine, now))
        return f'Handed in: {told_gaps(gaps)}.'

    def must_be_open(self, sitting: Sitting) -> int:
        """Declines where nothing more is taken; gives the time at which something is."""
        now = self.now
        if sitting.handed_in:
            raise Declined(TAKEN if sitting.collected else OVER)
        if sitting.is_over(now):
            raise Declined(CLOSED if sitting.closed else TIME_OVER)
        return now

    def take_down(self, sitting: Sitting, act: str, machine: str, now: int, before: State | None = None) -> Event:
        """Takes an act down, to be kept; the state before it comes back if it cannot be."""
        self.unkept.append((sitting, before or sitting.state))
        return self.log.add(sitting.candidate, machine if MACHINE.fullmatch(machine) else OFFICE, act, spelled(now))

    # ---- What the desk and the person in charge do

    def do(self, acts: list[str], machine: str = OFFICE, again: bool = False) -> Kept:
        """Keeps acts of the desk or of the person in charge, and then makes them. Nothing of candidates may be unkept
        by then."""
        events = [self.log.add(OFFICE, machine if MACHINE.fullmatch(machine) else OFFICE, act) for act in acts]
        kept = self.keep(again)
        if kept is Kept.DONE:
            for event in events:
                self.room.make(event)
        return kept

    def run_out(self) -> list[Sitting]:
        """The sittings whose time is over, and what stands there is not collected yet."""
        now = self.now
        return [sitting for sitting in self.sittings.values()
                if sitting.begun is not None and not sitting.ended and sitting.is_over(now)]

    def collect(self) -> None:
        """Collects what stands where the time is over. What cannot be kept is tried again; that is told once."""
        over = self.run_out()
        acts = [*map(collected, over)]
        self.uncollected = bool(acts) and self.do(acts, again=self.uncollected) is not Kept.DONE
        if not self.uncollected:
            for sitting in over:
                self.write_soon(sitting)

    def next_end(self) -> float:
        """Seconds until the next sitting is over."""
        now = self.now
        ends = [sitting.over - now for sitting in self.sittings.values() if sitting.over and not sitting.ended]
        return min((end for end in ends if end > 0), default=float('inf')) / SECOND

    # ---- What is kept

    def keep(self, again: bool = False) -> Kept:
        """Keeps all that was taken down. If that cannot be done, nothing of it was made, and the person in charge hears
        of it, unless it is tried again."""
        unkept, self.unkept = self.unkept, []
        try:
            self.log.keep()
        except OSError as fault:
            for sitting, before in reversed(unkept):
                sitting.go_back(before)
            if not again:
                mention(str(self.log.unable(fault)))
            self.broken = True
            return Kept.NOT_KNOWN if isinstance(fault, NotKnown) else Kept.NOT_DONE
        for sitting, (_, _, ended, _, _) in unkept:
            if sitting.handed_in and not ended:
                self.write_soon(sitting)
        return Kept.DONE

    def look(self) -> None:
        """Looks whether the log is still in its place and clean, to be done every second. A fault is told once."""
        try:
            self.log.mend()
            self.broken = False
        except OSError as fault:
            if not self.broken:
                mention(str(self.log.unable(fault)))
            self.broken = True

    @property
    def due(self) -> bool:
        """Whether files are to be written."""
        return bool(self.unwritten or self.tickets_unwritten)

    def write_soon(self, sitting: Sitting) -> None:
        """Has the file of an answer written; of a sitting that is not over, there is none."""
        self.unwritten[sitting.candidate] = sitting.desk.sitting() if sitting.handed_in else None

    def hand_out(self, sitting: Sitting, ticket: str) -> None:
        """Has a new ticket in the file of tickets."""
        self.tickets.hand_out(sitting.candidate, sitting.name, ticket)
        self.tickets_unwritten = {TICKETS: self.tickets.text(), TO_PRINT: self.printed()}

    def printed(self) -> bytes:
        """The tickets on paper, of all whose tickets are in the file."""
        rows = [(sitting, self.tickets.rows.get(folded(sitting.candidate), {})) for sitting in self.sittings.values()]
        return tickets_page(self.address, [(sitting, row['ticket']) for sitting, row in rows if row.get('ticket')])

    def write_names(self) -> None:
        """Leaves the names of statements in the folder, where ./desk collect finds them. The sitting needs no file."""
        for paper, names in self.names.items():
            try:
                write_over(os.path.join(self.answers, f'{paper}{SUFFIX}'), names, begins=BEGINS)
            except Fault as fault:
                mention(f'{fault}; the page has the names of statements all the same')

    def write_tickets(self) -> None:
        for file in [*self.tickets_unwritten]:
            text = self.tickets_unwritten.pop(file)
            try:
                write_over(os.path.join(self.answers, file), text, lasting=True)
            except Fault as fault:
                self.tickets_unwritten.setdefault(file, text)
                if file not in self.told:
                    mention(f'{fault}; the tickets are good, and the file will be written when it can be')
                self.told.add(file)

    def write_files(self) -> None:
        """Writes files of what was handed in and kept, and of tickets. One that cannot be written is told once, and
        stays to be written, unless there is a newer one by then."""
        self.write_tickets()
        for who in [*self.unwritten]:
            text = self.unwritten.pop(who)
            file = os.path.join(self.answers, f'{who}{ANSWER}')
            try:
                if text is None:
                    take_away(file)
                else:
                    write_over(file, text, lasting=True)
            except Fault as fault:
                self.unwritten.setdefault(who, text)
                if who not in self.told:
                    mention(f'{fault}; {who} has handed in, and the file will be written when it can be' if text is not
                            None else f'{fault}; {who} was reopened, and the file will be removed when it can be')
                self.told.add(who)


def collected(sitting: Sitting) -> str:
    """The act by which what stands in a sitting is collected."""
    return f'{COLLECTED} {sitting.candidate} {hash_of(sitting.desk.sitting())}'
