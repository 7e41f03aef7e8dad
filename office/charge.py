"""The person in charge: what their page is told of the hall, and what they may do. Each act is a line of the log, kept
before it is told, and nobody's sitting stops for it. No placement is told, and no cut."""
import hmac
import json
import unicodedata
from collections.abc import Callable

from office.candidates import IDENTITY, IDENTITY_FORM, MINUTES, NAME_FORM, folded, hash_of, is_name, new_ticket
from office.chain import OFFICE
from office.clock import MINUTE, SECOND, of_day, time_in
from office.hall import Declined, Hall, Kept, collected
from office.sittings import Sitting
from office.words import counted

# How long after a page was heard of its candidate counts as present; the most letters of a message.
PRESENT, LONGEST = 30 * SECOND, 150
JOINERS = '\u200c\u200d'
NOT_KEPT = {Kept.NOT_DONE: 'This was not done: it could not be kept. Look at the disk of the hall.',
            Kept.NOT_KNOWN: 'It is not known whether this was kept. Look at the disk of the hall.'}


class Charge:
    """The acts of the person in charge, who has the secret, and when each candidate was last heard of."""

    def __init__(self, hall: Hall):
        self.hall, self.secret = hall, new_ticket()
        self.heard: dict[str, int] = {}

    def knows(self, secret: str) -> bool:
        return hmac.compare_digest(hash_of(secret), hash_of(self.secret))

    def hears(self, sitting: Sitting) -> None:
        self.heard[sitting.candidate] = self.hall.now

    def comes(self, machine: str) -> None:
        """The person in charge has come. If that cannot be kept, they are let in all the same: it is their disk."""
        self.hall.do(['charge'], machine)

    # ---- What the page is told

    def told(self, said: str) -> dict[str, object]:
        """The hall, candidate by candidate, and words for what was asked."""
        sittings = self.hall.sittings.values()
        here = sum(self.presence(sitting) == 'present' for sitting in sittings)
        ended = [sitting for sitting in sittings if sitting.handed_in]
        many = sum(sitting.collected for sitting in ended)
        return {'said': said, 'now': of_day(self.hall.now), 'papers': [*self.hall.papers], 'away': self.hall.away,
                'closed': self.hall.room.closed,
                'state': f'{counted(len(sittings), "candidate")}, {here} present, {len(ended) - many} handed in, '
                         f'{many} collected', 'candidates': [self.row(sitting) for sitting in sittings]}

    def row(self, sitting: Sitting) -> dict[str, object]:
        left = None if sitting.over is None or sitting.ended else max(sitting.over - self.hall.now, 0)
        how = 'collected' if sitting.collected else 'handed in'
        end = sitting.ended and f'{how} {of_day(time_in(sitting.ended.at))}'
        return {'id': sitting.candidate, 'name': sitting.name, 'paper': self.hall.title(sitting),
                'presence': self.presence(sitting), 'machine': sitting.machine, 'moves': sitting.moves, 'left': left,
                'ended': end or 'closed' * sitting.closed}

    def presence(self, sitting: Sitting) -> str:
        """Whether a candidate's page is heard of."""
        heard = self.heard.get(sitting.candidate)
        if sitting.begun is None:
            return 'not entered'
        if not sitting.machine:
            return 'has left'
        if heard is None:
            return 'not heard since the start'
        return 'present' if self.hall.now - heard < PRESENT else f'away since {of_day(heard)}'

    # ---- What is done

    def act(self, body: str, machine: str) -> str:
        """Does what the page asks for, and says what was done. What has no sense is a ValueError."""
        asked = json.loads(body)
        if not isinstance(asked, dict) or not all(isinstance(value, str) for value in asked.values()):
            raise ValueError(body)
        act, who = asked.pop('act', ''), asked.pop('who', '')
        if act not in ACTS or asked.keys() != FIELDS[act]:
            raise ValueError(body)
        acts, done = ACTS[act](self, who, **asked)
        kept = self.hall.do(acts, machine)
        if kept is not Kept.DONE:
            raise Declined(NOT_KEPT[kept])
        return done()

    def one(self, who: str) -> Sitting:
        if who not in self.hall.sittings:
            raise Declined('Say first for whom: one candidate of the table.')
        return self.hall.sittings[who]

    def some(self, who: str) -> list[Sitting]:
        return [*self.hall.sittings.values()] if who == OFFICE else [self.one(who)]

    def late(self, _: str, identity: str, name: str, minutes: str, paper: str) -> 'Act':
        """One more candidate."""
        name = ' '.join(unicodedata.normalize('NFC', name).split()) or identity
        if not IDENTITY.fullmatch(identity):
            raise Declined(f'No candidate was added: {IDENTITY_FORM}.')
        if folded(identity) in map(folded, self.hall.sittings):
            raise Declined(f'No candidate was added: {identity} is there already.')
        if not is_name(name) and name != identity:
            raise Declined(f'No candidate was added: {NAME_FORM}.')
        if minutes and not MINUTES.fullmatch(minutes):
            raise Declined('No candidate was added: minutes are a number from 1 to 9999.')
        papers = self.hall.papers
        if paper not in papers and (paper or len(papers) > 1):
            raise Declined('No candidate was added: say over which paper.')
        ticket = new_ticket()

        def done() -> str:
            self.hall.hand_out(self.hall.sittings[identity], ticket)
            return f'{identity} is on the list. The ticket: {ticket}'

        return [self.hall.seated(identity, int(minutes or 0) or None, papers.get(paper, self.hall.paper), name),
                f'ticket {identity} {hash_of(ticket)}'], done

    def ticket(self, who: str) -> 'Act':
        """A new ticket; the old one is dead at once."""
        sitting, ticket = self.one(who), new_ticket()

        def done() -> str:
            self.hall.hand_out(sitting, ticket)
            return f'The new ticket of {who}: {ticket}. The old one opens nothing any more.'

        return [f'ticket {who} {hash_of(ticket)}'], done

    def extra(self, who: str, minutes: str) -> 'Act':
        """More time, for one or for all. What was collected by the clock goes on."""
        sittings = self.some(who)
        if not MINUTES.fullmatch(minutes):
            raise Declined('No time was given: minutes are a number from 1 to 9999.')
        if not any(sitting.timed for sitting in sittings):
            raise Declined('No time was given: no clock runs.')
        if who != OFFICE and sittings[0].closed:
            raise Declined(f'No time was given: the hall is closed for {who}. Reopen first.')
        if who != OFFICE and sittings[0].ended and not sittings[0].collected:
            raise Declined(f'No time was given: {who} has handed in. Reopen first.')
        again = [sitting for sitting in sittings if sitting.collected and sitting.timed and not sitting.closed]

        def done() -> str:
            self.to_be_written(again)
            more = counted(int(minutes), 'more minute', 'more minutes')
            names = ', '.join(sitting.candidate for sitting in again)
            goes_on = f' What was collected goes on: {names}.' if again else ''
            return f'{"All have" if who == OFFICE else f"{who} has"} {more}.{goes_on}'

        return [f'extra {who} {minutes}',
                *(f'reopen {sitting.candidate}' for sitting in again)], done

    def reopen(self, who: str, minutes: str) -> 'Act':
        """A sitting that is over goes on."""
        sitting = self.one(who)
        if not sitting.ended and not sitting.closed:
            raise Declined(f'Nothing was reopened: {who} has not handed in.')
        if minutes and not MINUTES.fullmatch(minutes):
            raise Declined('Nothing was reopened: minutes are a number from 1 to 9999.')
        if not minutes and sitting.over is not None and sitting.over < self.hall.now + MINUTE:
            raise Declined(f'Nothing was reopened: the time of {who} is over, so say how many minutes there are.')

        def done() -> str:
            self.to_be_written([sitting])
            return f'{who} goes on.'

        return [f'reopen {who}', *[f'extra {who} {minutes}'] * bool(minutes)], done

    def message(self, who: str, text: str) -> 'Act':
        """Words for one or for all."""
        self.some(who)
        words = ' '.join(unicodedata.normalize('NFC', text).split())
        if not 0 < len(words) <= LONGEST or any(
                unicodedata.category(c)[0] == 'C' and c not in JOINERS for c in words):
            raise Declined(f'Nothing was said: a message has 1 to {LONGEST} letters.')
        return [f'message {who} {words}'], lambda: (
            f'{"All" if who == OFFICE else who} will read: {words}')

    def close(self, _: str) -> 'Act':
        """Closes the hall: what stands is collected."""
        if self.hall.room.closed:
            raise Declined('The hall is closed already.')
        over = [sitting for sitting in self.hall.sittings.values() if sitting.begun and not sitting.ended]

        def done() -> str:
            self.to_be_written(over)
            return f'The hall is closed. Collected: {len(over)}.'

        return [f'close {OFFICE}', *map(collected, over)], done

    def to_be_written(self, sittings: list[Sitting]) -> None:
        for sitting in sittings:
            self.hall.write_soon(sitting)


# The lines of the log, and what is done and said when they are kept.
Act = tuple[list[str], Callable[[], str]]
ACTS: dict[str, Callable[..., Act]] = {
    'late': Charge.late, 'ticket': Charge.ticket, 'extra': Charge.extra, 'reopen': Charge.reopen,
    'message': Charge.message, 'close': Charge.close}
FIELDS = {'late': {'identity', 'name', 'minutes', 'paper'}, 'ticket': set(), 'extra': {'minutes'},
          'reopen': {'minutes'}, 'message': {'text'}, 'close': set()}
