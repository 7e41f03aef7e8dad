"""A hundred candidates whose time is over in one moment, while all of them click: everything that was answered is kept,
what stands is collected, nobody is told anything that is not so. Then the same with kills among it."""
import json
import pathlib
import random
import time

from office.sittings import hash_of
from outside.hall.chains import read
from outside.hall.charged import Person
from outside.hall.clocks import OVER, Timed
from outside.hall.crowds import MANY, Crowd
from outside.hall.opened import Candidate, until_there
from outside.trying import EXAMPLES, Tally

KILLS, HOUR = 50, 60
TIME_OVER = 'Your time is over. What stands here is collected.'


class Ending(Crowd):
    """Candidates who click until they hear that their time is over, and then look until it is collected."""

    def __init__(self, hall: Timed):
        super().__init__(hall)
        self.kept, self.over, self.receipts = [0] * MANY, [False] * MANY, [''] * MANY
        self.wrong: list[object] = []

    def came(self, number: int, status: int, body: bytes) -> None:
        told = json.loads(body)
        if status == 200 and not told['handed_in']:
            self.kept[number] = told['moves']
        else:
            self.over[number], self.receipts[number] = True, told['receipt']
        said = told['said']
        holds = (told['moves'], told['gaps']) == (self.kept[number], self.gaps(self.kept[number])) and (
            status == 200 or said in (OVER, TIME_OVER)) and told['handed_in'] == bool(told['receipt'])
        if not holds:
            self.wrong.append((number, status, told))

    def go_on(self) -> None:
        """One more thing of each who waits for nothing."""
        for number in range(MANY):
            if number in self.waiting or self.receipts[number]:
                continue
            if self.over[number]:
                self.ask(number, '/hand-in', 'hand in at 9999')
            else:
                self.clicks[number] = self.kept[number]
                self.click(number)
        self.look(0.001)

    def until(self, end: float) -> bool:
        """Goes on for a while; whether the hall was there all the time."""
        try:
            while time.monotonic() < end:
                self.go_on()
        except (OSError, ValueError, IndexError):
            return False
        return True

    def to_the_end(self) -> bool:
        """Goes on until everybody has a receipt; whether that was so."""
        return until_there(lambda: self.go_on() or all(self.receipts), 60)


def opened(folder: pathlib.Path) -> Timed:
    """A hall of a hundred who have all entered."""
    hall = Timed(folder, EXAMPLES['p'], [f'candidate-{number:03}' for number in range(MANY)],
                 more=['--until', f'+{HOUR}']).begin()
    for name in hall.names:
        Candidate(hall, name).enter()
    return hall


def text_of(moves: int) -> bytes:
    return b''.join(b'21%02x\n' % gap for gap in Crowd.gaps(moves))


def at_once(tally: Tally, folder: pathlib.Path) -> None:
    hall = opened(folder / 'at once')
    people = Ending(hall)
    tally.check('they click', people.until(time.monotonic() + 1) and min(people.kept) > 0, people.kept)
    hall.later(HOUR)
    tally.check('all have a receipt', people.to_the_end(), people.receipts.count(''))
    tally.check('nobody is told wrongly', not people.wrong, people.wrong[:3])
    tally.check('all are collected, once', hall.collected() == hall.names)
    log = hall.log.read_text()
    for number, name in enumerate(hall.names):
        text = text_of(people.kept[number])
        held = len(hall.moves(name)) == people.kept[number] and f'collected {name} {hash_of(text)}\t' in log
        file = hall.answers / f'{name}.hex'
        tally.check(f'{name}: as it stood', held and until_there(file.exists) and file.read_bytes() == text)
    codes = {line.rpartition('\t')[2][:16] for line in log.splitlines() if '\tcollected ' in line}
    told = {receipt.split()[-1].rstrip('.').replace('-', '') for receipt in people.receipts}
    tally.check('the receipts', told == codes and len(codes) == MANY)
    tally.check('no complaint', hall.complaints() == '', hall.complaints())
    hall.end()


def with_kills(tally: Tally, folder: pathlib.Path) -> None:
    """Killed while the time runs out, again and again; each time it is given back, and all goes on."""
    hall, rng, begun = opened(folder / 'with kills'), random.Random(3), time.monotonic()
    kept, receipts, answered = [0] * MANY, [], 0
    for turn in range(1, KILLS + 1):
        people = Ending(hall)
        people.kept = [*kept]
        people.until(time.monotonic() + 0.1)
        hall.later(HOUR * turn)
        people.until(time.monotonic() + rng.random() * 1.2)
        hall.end()
        people.until(time.monotonic() + 0.1)
        receipts += [receipt.split()[-1].rstrip('.').replace('-', '') for receipt in people.receipts if receipt]
        hall.start()
        person = Person(hall)
        wanted = f'{MANY} candidates, 0 present, 0 handed in, {MANY} collected'
        there = until_there(lambda: person.now()['state'] == wanted)
        tally.check(f'kill {turn}: all are collected', there, person.told['state'])
        moves = [row['moves'] for row in person.told['candidates']]
        lost = [(had, has) for had, has in zip(people.kept, moves) if has not in (had, had + 1)]
        tally.check(f'kill {turn}: nothing is lost', not lost and not people.wrong, [lost, people.wrong[:3]])
        answered += sum(had - before for had, before in zip(people.kept, kept))
        kept = moves
        tally.check(f'kill {turn}: given back', person.act('extra', '-', minutes=str(HOUR))[0] == 200, person.told)
    hall.end()
    events = read(hall.log.read_bytes())
    own = {event.own[:16] for event in events or []}
    tally.check('the log is whole, and every receipt is in it', events is not None and own.issuperset(receipts))
    tally.check('clicks and receipts were told', answered > KILLS and len(receipts) > 0, (answered, len(receipts)))
    print(f'{KILLS} kills while the time of {MANY} ran out, {answered:,} clicks, {len(receipts):,} receipts: '
          f'{time.monotonic() - begun:.0f} s')


def run_out(tally: Tally, folder: pathlib.Path) -> None:
    at_once(tally, folder)
    with_kills(tally, folder)
