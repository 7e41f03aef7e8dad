"""The sittings of a hall, as the events of its log make them: a desk for each candidate, moves made by the library.

No desk here is ever planned: there is no key in the process that candidates talk to.
"""
import ctypes
import hashlib
import re
from dataclasses import dataclass, field

from office.chain import OFFICE, Event
from office.clock import MINUTE, Allowed, time_in
from office.library import Desk
from office.words import ranges

MOVE = re.compile('(put|lift) (0|[1-9][0-9]{0,2})|take back')
ENTER, LEAVE, HAND_IN, COLLECTED = 'enter', 'leave', 'hand in', 'collected'


def told_gaps(gaps: list[int]) -> str:
    if not gaps:
        return 'no barrier'
    return f'{"a barrier in gap" if len(gaps) == 1 else "barriers in gaps"} {ranges(gaps)}'


def hash_of(text: bytes) -> str:
    return hashlib.sha256(text).hexdigest()


def made(desk: Desk, move: str) -> str:
    """Makes a move and says so in words. One that means nothing is a ValueError."""
    asked = MOVE.fullmatch(move)
    if not asked:
        raise ValueError(move)
    if asked[1] == 'put':
        desk.put(int(asked[2]))
        return f'A barrier stands in gap {asked[2]}.'
    if asked[1] == 'lift':
        desk.lift(int(asked[2]))
        return f'The barrier in gap {asked[2]} is lifted.'
    desk.take_back()
    return 'The latest move is taken back.'


def why_not(number: int, move: str) -> str:
    """Why the desk refuses a move, by the number that it gives, in a candidate's words."""
    asked = MOVE.fullmatch(move)
    gap = asked[2] if asked else ''
    there = f'A barrier stands in gap {gap} already.' if move.startswith('put') else f'No barrier stands in gap {gap}.'
    words = {8: f'There is no gap {gap} in this paper.', 12: there,
             13: 'No move is left to take back. The latest 64 can be, one after the other.',
             16: f'Gap {gap} is barred: no barrier may stand there.'}
    return words.get(number, f'The desk refuses this, number {number}.')


State = tuple[ctypes.Structure, int, Event | None, str, int | None]


@dataclass
class Sitting:
    """A candidate's desk, the paper on it by its hash, how many moves were made on it, the event that ended it, the
    machine where it was entered and not left, and when it was first. The minutes that the list has for the candidate,
    those that all have, and those that were given since, each with its time; whether it was closed; what the person in
    charge said last. The hash of the ticket that opens it, those of tickets of before, and those of all texts that were
    handed in."""
    candidate: str
    name: str
    minutes: int | None
    desk: Desk
    paper: str = ''
    allowed: Allowed = field(default_factory=Allowed)
    moves: int = 0
    ended: Event | None = None
    machine: str = ''
    begun: int | None = None
    extra: list[tuple[int, int]] = field(default_factory=list)
    closed: bool = False
    message: Event | None = None
    ticket: str = ''
    dead: set[str] = field(default_factory=set)
    given: set[str] = field(default_factory=set)

    @property
    def handed_in(self) -> bool:
        return self.ended is not None

    @property
    def collected(self) -> bool:
        return self.ended is not None and self.ended.who == OFFICE

    @property
    def gaps(self) -> list[int]:
        return self.desk.standing().gaps

    @property
    def timed(self) -> bool:
        """Whether there is a clock for it."""
        return bool(self.minutes or self.allowed.minutes or self.allowed.until)

    @property
    def over(self) -> int | None:
        """When its time is over; none where there is no clock, or where it has not begun. More minutes count from
        there, or from when they were given, if it was over by then."""
        minutes = self.minutes or self.allowed.minutes
        end = self.allowed.until
        if minutes is not None:
            end = None if self.begun is None else self.begun + minutes * MINUTE
        if end is not None:
            for at, more in self.extra:
                end = max(end, at) + more * MINUTE
        return end

    def is_over(self, now: int) -> bool:
        """Whether nothing more is taken."""
        return self.closed or self.over is not None and self.over <= now

    @property
    def state(self) -> State:
        return self.desk.held, self.moves, self.ended, self.machine, self.begun

    def go_back(self, to: State) -> None:
        self.desk.held, self.moves, self.ended, self.machine, self.begun = to

    def begin(self, event: Event) -> None:
        """Its time begins with the first thing that the candidate does."""
        if self.begun is None:
            self.begun = time_in(event.at)

    def make(self, event: Event) -> None:
        """Makes what the candidate did. What cannot be made is a ValueError, or refused."""
        self.begin(event)
        if event.act == ENTER:
            self.machine = event.machine
        elif event.act == LEAVE:
            self.machine = ''
        elif self.ended:
            raise ValueError(event.act)
        elif event.act.startswith(HAND_IN):
            self.end(event, event.act.removeprefix(f'{HAND_IN} '))
        else:
            made(self.desk, event.act)
            self.moves += 1

    def end(self, event: Event, text: str) -> None:
        """Ends with the barriers that are there, whose text must have the hash."""
        if self.ended or hash_of(self.desk.sitting()) != text:
            raise ValueError(event.act)
        self.ended = event
        self.given.add(text)


class Sittings:
    """All sittings of a hall, by identity, and by the hash of the ticket; the papers by their hashes, with what they
    are called where there are several."""

    def __init__(self, paper: str):
        self.paper = paper
        self.texts: dict[str, bytes] = {}
        self.blank: dict[str, Desk] = {}
        self.titles: dict[str, str] = {}
        self.by_identity: dict[str, Sitting] = {}
        self.by_ticket: dict[str, Sitting] = {}
        self.allowed = Allowed()
        self.extra: list[tuple[int, int]] = []
        self.closed = False

    def make(self, event: Event) -> None:
        """Makes an event. What cannot be made is a LookupError or a ValueError, or refused."""
        if event.who != OFFICE:
            self.by_identity[event.who].make(event)
            return
        word, _, rest = event.act.partition(' ')
        ACTS[word](self, event, rest)

    def take_paper(self, event: Event, lines: str) -> None:
        """A paper: first that of the top line, then others."""
        text = ''.join(f'{line}\n' for line in lines.split()).encode()
        paper = hash_of(text)
        if paper in self.texts or not self.texts and paper != self.paper:
            raise ValueError(event.act)
        self.texts[paper], self.blank[paper] = text, Desk()
        self.blank[paper].load(text)

    def name_paper(self, event: Event, told: str) -> None:
        paper, title = told.split(' ', 1)
        if paper not in self.texts:
            raise ValueError(event.act)
        self.titles[paper] = title

    def seat(self, event: Event, told: str) -> None:
        """A candidate of the list, or another name for one; another paper, as long as nothing has begun."""
        identity, time, paper, name = told.split(' ', 3)
        minutes = None if time == OFFICE else int(time)
        paper = self.paper if paper == OFFICE else paper
        sitting = self.by_identity.get(identity)
        if sitting is None:
            extra = [*self.extra] if self.allowed.until and not minutes else []
            sitting = Sitting(identity, name, minutes, Desk(), allowed=self.allowed, extra=extra)
        if sitting.paper != paper:
            if sitting.begun is not None:
                raise ValueError(event.act)
            sitting.paper, sitting.desk.held = paper, self.blank[paper].held
        sitting.name, sitting.minutes = name, minutes
        self.by_identity[identity] = sitting

    def give_ticket(self, _: Event, told: str) -> None:
        identity, ticket = told.split(' ')
        sitting = self.by_identity[identity]
        if self.by_ticket.pop(sitting.ticket, None):
            sitting.dead.add(sitting.ticket)
        sitting.ticket = ticket
        self.by_ticket[ticket] = sitting

    def reopen(self, event: Event, identity: str) -> None:
        sitting = self.by_identity[identity]
        if not sitting.ended and not sitting.closed:
            raise ValueError(event.act)
        sitting.ended, sitting.closed = None, False

    def collect(self, event: Event, told: str) -> None:
        identity, text = told.split(' ')
        self.by_identity[identity].end(event, text)

    def close(self, _: Event, identity: str) -> None:
        one = self.of(identity)
        self.closed |= one is None
        for sitting in [one] if one else self.by_identity.values():
            sitting.closed = True

    def set_minutes(self, _: Event, minutes: str) -> None:
        self.allowed.minutes, self.allowed.until = int(minutes), None

    def set_until(self, _: Event, at: str) -> None:
        self.allowed.minutes, self.allowed.until = None, time_in(at)

    def give_time(self, event: Event, told: str) -> None:
        identity, minutes = told.split(' ')
        one, given = self.of(identity), (time_in(event.at), int(minutes))
        if one is None:
            self.extra.append(given)
        for sitting in [one] if one else self.by_identity.values():
            sitting.extra.append(given)

    def tell(self, event: Event, told: str) -> None:
        one = self.of(told.split(' ')[0])
        for sitting in [one] if one else self.by_identity.values():
            sitting.message = event

    def hear(self, event: Event, told: str) -> None:
        """What changes no sitting: a start, the person in charge at the page."""
        if told:
            raise ValueError(event.act)

    def of(self, identity: str) -> Sitting | None:
        """The sitting of a candidate; none where an act is for all."""
        return None if identity == OFFICE else self.by_identity[identity]


ACTS = {'paper': Sittings.take_paper, 'title': Sittings.name_paper, 'candidate': Sittings.seat,
        'ticket': Sittings.give_ticket, 'minutes': Sittings.set_minutes, 'until': Sittings.set_until,
        'extra': Sittings.give_time, 'reopen': Sittings.reopen, COLLECTED: Sittings.collect,
        'close': Sittings.close, 'opened': Sittings.hear, 'charge': Sittings.hear, 'message': Sittings.tell}
