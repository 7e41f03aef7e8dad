"""The clock of a hall: how long each candidate has, what is collected at the end, and what a start, a changed clock or
a bad disk does to it. Time passes here as the test says."""
import os
import pathlib
import re
import time

from office.clock import of_day
from office.sittings import hash_of
from outside.hall.opened import Candidate, Hall, until_there
from outside.trying import DESK, EXAMPLES, Tally, run

# Clocks that stand still: how much later it is than at the beginning, by the one that nobody can set and by the
# system's, is in files.
LATER = """
import office.clock
def later(name, begun):
    def reading():
        with open({0!r} + '/' + name) as opened:
            return begun + int(opened.read())
    return reading
office.clock.steady, office.clock.system = later('passed', 0), later('set', {1})
"""
# A disk that takes nothing while a file is there.
BROKEN = """
written = os.pwrite
def pwrite(*words):
    if os.path.exists({0!r} + '/is full'):
        raise OSError(28, 'No space left on device')
    return written(*words)
os.pwrite = pwrite
"""
MINUTE = 60_000
OVER = 'What stood here was collected at the end. Nothing can be changed any more.'


class Timed(Hall):
    """A hall in which time passes as a test says. A word like +90 of its command is the time of day so many minutes
    later."""

    def begin(self) -> 'Timed':
        """Opens the hall, at the full minute that has begun."""
        self.begun = int(time.time()) // 60 * MINUTE
        self.altered(LATER.format(str(self.folder), self.begun))
        self.later(0)
        self.more = [of_day(self.begun + int(word[1:]) * MINUTE)[:5] if word.startswith('+') else word
                     for word in self.more]
        self.start()
        return self

    def set(self, name: str, later: int) -> None:
        beside = self.folder / f'{name}.new'
        beside.write_text(str(later))
        os.replace(beside, self.folder / name)

    def later(self, minutes: float) -> None:
        """So many minutes after the beginning."""
        for name in ('passed', 'set'):
            self.set(name, round(minutes * MINUTE))

    def acts(self) -> list[str]:
        """What the desk did, without hashes."""
        lines = [line.split('\t') for line in self.log.read_text().splitlines()[1:]]
        return [re.sub(' [0-9a-f]{64}', '', line[4]) for line in lines if line[2] == '-']

    def collected(self) -> list[str]:
        return sorted(act.split()[1] for act in self.acts() if act.startswith('collected'))


def minutes(told: dict) -> float:
    return round(told['left'] / MINUTE, 1)


def from_entering(tally: Tally, folder: pathlib.Path) -> None:
    """So many minutes from entering, for some more; then nothing is taken, and what stands is collected."""
    hall = Timed(folder / 'clock entering', EXAMPLES['p'], ['anna', 'bert', 'carl', 'dora'], more=['--minutes', '90'],
                 listed='id,minutes\nanna,\nbert,120\ncarl,\ndora,\n').begin()
    anna, bert, carl = (Candidate(hall, name) for name in ('anna', 'bert', 'carl'))
    tally.check('nothing is shown before one has entered', anna.ask('/sitting') == (403, {}) == anna.ask('/clock'))
    tally.check('entered', anna.enter() == 303 == bert.enter())
    tally.check('the time', (minutes(anna.ask('/sitting')[1]), minutes(bert.ask('/clock')[1])) == (90, 120))
    anna.move('put 5')
    hall.later(30)
    tally.check('a late one has all of it', carl.enter() == 303 and minutes(carl.ask('/clock')[1]) == 90)
    carl.move('put 3')
    hall.later(80)
    hall.end()
    hall.start()
    for one in (anna, bert, carl):
        one.leave()
    left = [minutes(one.ask('/clock')[1]) for one in (anna, bert, carl)]
    tally.check('a start keeps the times', left == [10, 40, 40], left)
    tally.check('to enter again does not begin it again', anna.enter() == 303 and minutes(anna.ask('/clock')[1]) == 10)
    hall.later(89.9)
    tally.check('in the last moment', anna.move('put 11')[0] == 200)
    hall.later(90.1)
    tally.check('collected', until_there(lambda: hall.collected() == ['anna']), hall.acts())
    status, told = anna.move('put 13')
    tally.check('nothing more', (status, told['said'], told['gaps'], told['left'], told['handed_in']) == (
        409, OVER, [5, 11], None, True), told)
    tally.check('it is told so', told['state'] == 'Collected. Barriers: 2. Dependences uncut: 0 of 6.' and bool(
        re.fullmatch(r'Collected \d{4}-\d\d-\d\d \d\d:\d\d:\d\d \(UTC[+-]\d\d:\d\d\): barriers in gaps 5, 11\. Receipt '
                     r'([0-9a-f]{4}-){3}[0-9a-f]{4}\.', told['receipt'])), told)
    tally.check('nor a hand-in', anna.hand_in()[1]['said'] == OVER)
    tally.check('the others go on', bert.move('put 1')[0] == 200 == carl.move('lift 3')[0])
    tally.check('the file', until_there((hall.answers / 'anna.hex').exists) and (
        hall.answers / 'anna.hex').read_bytes() == b'2105\n210b\n')
    hall.later(500)
    tally.check('all', until_there(lambda: hall.collected() == ['anna', 'bert', 'carl']), hall.acts())
    told = run(DESK, 'story', hall.answers, '--candidate', 'anna').out.decode()
    tally.check('the story', 'minutes for all: 90' in told and 'collected: barriers in gaps 5, 11; receipt ' in told and
                '2 moves, collected ' in told, told)
    hall.end()
    hall.start()
    tally.check('a start changes nothing', anna.leave() or anna.ask('/sitting')[1]['gaps'] == [5, 11])
    tally.check('collected once', hall.collected() == ['anna', 'bert', 'carl'])
    tally.check('no complaint', hall.complaints() == '', hall.complaints())
    hall.end()
    register = folder / 'clock.db'
    seen = run(DESK, 'collect', hall.answers, '--register', register, '--new')
    tally.check('everybody in the register', seen.status == 0 and seen.out.startswith(
        b'3 answers: 1 Best, 2 Uncut; 1 Absent\n'), seen)


def until(tally: Tally, folder: pathlib.Path) -> None:
    """Until a time of day, for all; a start behind it does not begin the next day."""
    hall = Timed(folder / 'clock until', EXAMPLES['p'], ['anna', 'bert', 'carl'], more=['--until', '+120'],
                 listed='id,minutes\nanna,\nbert,300\ncarl,\n').begin()
    anna, bert, carl = (Candidate(hall, name) for name in ('anna', 'bert', 'carl'))
    tally.check('entered', anna.enter() == 303 == bert.enter())
    left = minutes(anna.ask('/clock')[1])
    tally.check('until then', left == 120 and minutes(bert.ask('/clock')[1]) == 300, left)
    anna.move('put 5')
    hall.end()
    anna.leave()
    hall.later(60)
    hall.start()
    tally.check('a start keeps the time', minutes(anna.ask('/clock')[1]) == 60, anna.told)
    tally.check('the break is told', 'before this start nothing was kept since ' in hall.process.stdout.readline())
    hall.end()
    anna.leave()
    hall.later(121)
    hall.start()
    tally.check('it runs out while the hall is closed', until_there(lambda: hall.collected() == ['anna']), hall.acts())
    tally.check('who never entered does not', carl.enter() == 403 and 'The time of this sitting is over.' in carl.page)
    tally.check('one with minutes goes on', bert.leave() or bert.move('put 1')[0] == 200)
    hall.end()
    hall.more = ['--until', of_day(hall.begun + 180 * MINUTE)[:5]]
    hall.start()
    tally.check('another time is taken down', len([act for act in hall.acts() if act.startswith('until')]) == 2)
    tally.check('who never entered may now', carl.enter() == 303)
    hall.end()


def before_the_day(tally: Tally, folder: pathlib.Path) -> None:
    """A hall that was opened a day before, for its tickets, has its time on the day."""
    hall = Timed(folder / 'clock before', EXAMPLES['p'], ['anna'], more=['--until', '+60']).begin()
    hall.end()
    hall.later(24 * 60)
    hall.start()
    anna = Candidate(hall, 'anna')
    tally.check('the next day', anna.enter() == 303 and minutes(anna.ask('/clock')[1]) == 60, anna.told)
    hall.end()


def set_back(tally: Tally, folder: pathlib.Path) -> None:
    """Who sets the system's clock changes nobody's time; a start asks for a clock that is right."""
    hall = Timed(folder / 'clock set', EXAMPLES['p'], ['anna'], more=['--minutes', '60']).begin()
    anna = Candidate(hall, 'anna')
    anna.enter()
    for later in (-100, 100):
        hall.set('set', later * MINUTE)
        anna.move('put 5' if later < 0 else 'lift 5')
        tally.check('set while the hall is open', minutes(anna.told) == 60, anna.told)
    hall.end()
    anna.leave()
    hall.set('set', -3600 * 24 * 365 * 1000)
    kept = hall.log.read_bytes()
    port, hall.port = hall.port, 0
    seen = run(*hall.command, PYTHONPATH=str(hall.folder))
    tally.check('a start with a clock that is behind', seen.failed('set the clock right, and start again'), seen)
    tally.check('nothing is written', hall.log.read_bytes() == kept)
    hall.port = port
    hall.set('set', -30_000)
    hall.start()
    tally.check('a little behind', anna.move('put 5')[0] == 200 and minutes(anna.told) == 60, anna.told)
    times = [line.split('\t')[1] for line in hall.log.read_text().splitlines()[1:]]
    tally.check('no line is before another', times == sorted(times), times)
    hall.end()


def far_ahead(tally: Tally, folder: pathlib.Path) -> None:
    """A clock by which more than half a day has passed collects nobody at a start, unless somebody says that it is
    right."""
    hall = Timed(folder / 'clock ahead', EXAMPLES['p'], ['anna'], more=['--minutes', '60']).begin()
    anna = Candidate(hall, 'anna')
    anna.enter()
    anna.move('put 5')
    hall.end()
    anna.leave()
    kept, port = hall.log.read_bytes(), hall.port
    for later in (13 * 60, 365 * 24 * 60):
        hall.set('set', later * MINUTE)
        hall.port = 0
        seen = run(*hall.command, PYTHONPATH=str(hall.folder))
        tally.check('a start with a clock that is far ahead', seen.failed('if it is right, --go-on says so'), seen)
        tally.check('nothing is written', hall.log.read_bytes() == kept)
    hall.port = port
    hall.later(0)
    hall.start()
    tally.check('with the clock put right', anna.move('put 11')[0] == 200 and minutes(anna.told) == 60, anna.told)
    hall.end()
    hall.later(13 * 60)
    hall.more += ['--go-on']
    hall.start()
    until_there(lambda: hall.collected() == ['anna'])
    tally.check('and where it is right', hall.collected() == ['anna'], hall.acts())
    hall.end()


def full_disk(tally: Tally, folder: pathlib.Path) -> None:
    """What cannot be collected is so as soon as it can be, and nothing is taken meanwhile."""
    hall = Timed(folder / 'clock full', EXAMPLES['p'], ['anna', 'bert'], more=['--minutes', '60'])
    hall.altered(BROKEN.format(str(hall.folder))).begin()
    anna, bert = (Candidate(hall, name) for name in hall.names)
    for one, gap in ((anna, 5), (bert, 11)):
        one.enter()
        one.move(f'put {gap}')
    (hall.folder / 'is full').touch()
    hall.later(61)
    tally.check('the person in charge hears of it', until_there(lambda: 'cannot keep' in hall.complaints()))
    status, told = anna.move('put 6')
    tally.check('nothing is taken', (status, told['said'], told['handed_in'], told['left']) == (
        409, 'Your time is over. What stands here is collected.', False, 0), told)
    tally.check('nor handed in', bert.hand_in()[0] == 409)
    (hall.folder / 'is full').unlink()
    tally.check('then it is collected', until_there(lambda: hall.collected() == hall.names), hall.acts())
    tally.check('told once', hall.complaints().count('cannot keep') == 1, hall.complaints())
    tally.check('as it stood', anna.ask('/sitting')[1]['gaps'] == [5] and bert.ask('/sitting')[1]['gaps'] == [11])
    for name, gap in (('anna', 5), ('bert', 11)):
        text = f'21{gap:02x}\n'.encode()
        tally.check('the file', until_there((hall.answers / f'{name}.hex').exists) and f'collected {name} '
                    f'{hash_of(text)}' in hall.log.read_text() and (hall.answers / f'{name}.hex').read_bytes() == text)
    hall.end()


def wrong(tally: Tally, folder: pathlib.Path) -> None:
    """What cannot be a time is told."""
    hall = Hall(folder / 'clock wrong', EXAMPLES['p'], ['anna'])
    ahead = of_day(int(time.time()) * 1000 - 5 * MINUTE)[:5]
    for more, word in ((['--minutes', '0'], 'from 1 to 9999'), (['--minutes', 'x'], 'from 1 to 9999'),
                       (['--until', '25:00'], 'a time of day like 12:30'), (['--until', 'noon'], 'a time of day'),
                       (['--until', ahead], 'more than 12 hours ahead'),
                       (['--minutes', '5', '--until', '12:30'], 'do not go together')):
        tally.check(' '.join(more), run(*hall.command, *more).failed(word), run(*hall.command, *more))
    tally.check('nothing is left of it', not hall.answers.exists())


def by_the_clock(tally: Tally, folder: pathlib.Path) -> None:
    for some in (from_entering, until, before_the_day, set_back, far_ahead, full_disk, wrong):
        some(tally, folder)
