"""The time of a sitting: a clock that nobody can set while the hall is open, how long candidates have, and times in
words. Times are milliseconds since 1970, as lines of the log have them."""
import datetime
import re
import time
from dataclasses import dataclass

from office.command import Fault, printable

SECOND, MINUTE = 1000, 60_000
# A clock that goes on while the machine sleeps, where the system has one.
STEADY = getattr(time, 'CLOCK_BOOTTIME', time.CLOCK_MONOTONIC)
OF_DAY = re.compile('([01]?[0-9]|2[0-3])[:.]([0-5][0-9])')
# How far ahead a time of day may lie, or the system's clock be of a log's last line; and how far behind that.
AHEAD, BEHIND = 12 * 60 * MINUTE, MINUTE


class Clock:
    """The clock of a hall: the system's time at the start, and from then on as long as the hall is open. To set the
    system's clock meanwhile changes nobody's time."""

    def __init__(self) -> None:
        self.before = system() - steady()

    def now(self) -> int:
        return self.before + steady()

    def go_on_from(self, last: int) -> None:
        """Goes on from a line of the log: no line is earlier than the one before it."""
        self.before = max(self.before, last - steady())


def system() -> int:
    return int(time.time() * SECOND)


def steady() -> int:
    return int(time.clock_gettime(STEADY) * SECOND)


def spelled(at: int) -> str:
    """A time as a line of the log has it."""
    return datetime.datetime.fromtimestamp(at / SECOND, datetime.timezone.utc).isoformat(timespec='milliseconds')


def time_in(line: str) -> int:
    """The time that a line of the log has."""
    return round(datetime.datetime.fromisoformat(line).timestamp() * SECOND)


def local(at: int) -> datetime.datetime:
    return datetime.datetime.fromtimestamp(at // SECOND).astimezone()


def of_day(at: int) -> str:
    """The time of day where the hall is."""
    return f'{local(at):%H:%M:%S}'


def told(at: int) -> str:
    """Day and time where the hall is, and how far that is from UTC."""
    zone = f'{local(at):%z}'
    return f'{local(at):%Y-%m-%d %H:%M:%S} (UTC{zone[:3]}:{zone[3:5]})'


@dataclass
class Allowed:
    """How long a sitting takes: so many minutes from when a candidate enters, or until a time for all; or as long as
    it likes."""
    minutes: int | None = None
    until: int | None = None


@dataclass(frozen=True)
class Wanted:
    """What a start says about the time: minutes, or a time of day, or nothing; and that a clock is right by which a
    long time has passed."""
    minutes: int | None = None
    until: str | None = None
    go_on: bool = False

    def next(self, now: int) -> int:
        """When it is next the time of day that is wanted."""
        day = local(now)
        hour, minute = map(int, re.split('[:.]', self.until or ''))
        at = day.replace(hour=hour, minute=minute, second=0, microsecond=0)
        if at <= day:
            at += datetime.timedelta(days=1)
        found = round(at.replace(tzinfo=None).astimezone().timestamp() * SECOND)
        if found - now > AHEAD:
            raise Fault(f'--until {self.until}: it is {of_day(now)}, and that lies more than 12 hours ahead')
        return found

    def is_at(self, at: int) -> bool:
        """Whether a time is of the time of day that is wanted."""
        hour, minute = map(int, re.split('[:.]', self.until or ''))
        return (local(at).hour, local(at).minute) == (hour, minute)


def wanted(minutes: str | None, until: str | None, go_on: bool) -> Wanted:
    """What --minutes, --until and --go-on say."""
    if minutes is not None and until is not None:
        raise Fault('--minutes and --until do not go together: say one of the two')
    if minutes is not None and not re.fullmatch('[1-9][0-9]{0,3}', minutes):
        raise Fault(f'--minutes wants a number from 1 to 9999: {printable(minutes)}')
    if until is not None and not OF_DAY.fullmatch(until):
        raise Fault(f'--until wants a time of day like 12:30: {printable(until)}')
    return Wanted(int(minutes) if minutes else None, until, go_on)
