"""A hundred candidates at once: how long each waits for the reply to a click, and for the receipt when the time of all
is over.

  python3 -m outside.measure.crowd [KIND]    KIND: of a full-size paper, as papers.py here has it; P if none is named

Each way of clicking is tried some times, and the quietest try is told.
"""
import os
import pathlib
import sys
import tempfile
import time
from collections.abc import Callable, Iterable
from dataclasses import dataclass

from outside.hall.crowds import BESIDE, MANY, ROUNDS, Crowd
from outside.hall.opened import Candidate, Hall
from outside.hall.run_out import Ending
from outside.measure import papers
from outside.trying import EXAMPLES

TRIES, FEW, SECONDS = 5, 3, 2
# A disk that takes so long for each write, neither more nor less.
DISK = """
import time
os.fsync = lambda file: time.sleep({})
"""
WAITS = 0.004
# A time of day that is so many milliseconds after the start.
SOON = """
import office.clock
office.clock.Wanted.next = lambda self, now: now + {}
"""
ENDS = 15_000


def at(percent: int, times: list[float]) -> float:
    return times[(len(times) - 1) * percent // 100]


def had(process: int) -> float:
    """The seconds of the processor that a process has had."""
    fields = pathlib.Path(f'/proc/{process}/stat').read_text().rpartition(')')[2].split()
    return (int(fields[11]) + int(fields[12])) / os.sysconf('SC_CLK_TCK')


def had_by_all() -> float:
    """The seconds of the processors that were not idle."""
    user, nice, system, _, _, *more = map(int, pathlib.Path('/proc/stat').read_text().split()[1:9])
    return (user + nice + system + sum(more)) / os.sysconf('SC_CLK_TCK')


@dataclass(frozen=True)
class Trial:
    """How long each waited, rising; the seconds of a processor for a click; how many processors other work had."""
    times: list[float]
    each: float
    others: float


def tried(hall: Hall, act: Callable[[], list[float]]) -> Trial:
    here, begun, before = hall.process.pid, time.monotonic(), (had(hall.process.pid), had_by_all(), time.process_time())
    times = act()
    seconds = time.monotonic() - begun
    used, by_all, ours = (now - then for now, then in zip((had(here), had_by_all(), time.process_time()), before))
    return Trial(times, used / len(times), (by_all - used - ours) / seconds)


def quietest(name: str, trials: Iterable[Trial]) -> None:
    best = min(trials, key=lambda trial: at(99, trial.times))
    print(f'{name}: median {at(50, best.times) * 1000:.1f} ms, 99th percentile {at(99, best.times) * 1000:.1f} ms, '
          f'{best.each * 1000:.2f} ms of the processor each; processors with other work: {best.others:.1f}')


def crowded(folder: pathlib.Path, paper: bytes, many: int, waits: float) -> tuple[Hall, Crowd]:
    """A hall with candidates who have all clicked once."""
    hall = Hall(folder, paper, [f'candidate-{number:03}' for number in range(many)])
    people = Crowd(hall.altered(DISK.format(waits)).start() if waits else hall.start())
    people.together(1)
    return hall, people


def clicks(folder: pathlib.Path, paper: bytes, waits: float) -> None:
    """All in one moment, and as people do."""
    hall, people = crowded(folder / f'crowd {waits}', paper, MANY, waits)
    quietest(f'{MANY} clicks in one moment', (tried(hall, lambda: people.together(ROUNDS)) for _ in range(TRIES)))
    quietest(f'{MANY} candidates, a click a second each', (
        tried(hall, lambda: people.as_people_do(SECONDS, SECONDS)) for _ in range(FEW)))
    hall.end()


def rush(folder: pathlib.Path, paper: bytes, waits: float) -> None:
    """A hundred hand in at one moment, and others click meanwhile."""
    last = []

    def once(turn: int) -> Trial:
        hall, people = crowded(folder / f'rush {waits} {turn}', paper, MANY + BESIDE, waits)
        both: list[list[float]] = []
        trial = tried(hall, lambda: both.extend(people.handing_in(BESIDE)) or both[0])
        last.append(both[1][-1])
        hall.end()
        return trial

    quietest(f'{BESIDE} who click while {MANY} hand in', map(once, range(FEW)))
    print(f'{MANY} who hand in: the last had its reply after {min(last) * 1000:.0f} ms')


class Over(Ending):
    """Candidates who ask, once their time is over, until they have a receipt, and when that was."""

    def came(self, number: int, status: int, body: bytes) -> None:
        super().came(number, status, body)
        if self.receipts[number]:
            self.at.append(time.monotonic())

    def after(self, end: float) -> list[float]:
        """How long after the end each had the receipt, rising."""
        self.at, self.over = [], [True] * MANY
        time.sleep(max(end - time.monotonic(), 0))
        if not self.to_the_end():
            raise RuntimeError('not all were collected')
        return sorted(at - end for at in self.at)


def over(folder: pathlib.Path, paper: bytes, waits: float) -> None:
    """The time of a hundred is over in one millisecond."""
    def once(turn: int) -> Trial:
        hall = Hall(folder / f'over {waits} {turn}', paper, [f'candidate-{number:03}' for number in range(MANY)],
                    more=['--until', '12:00']).altered(SOON.format(ENDS))
        (hall.altered(DISK.format(waits)) if waits else hall).start()
        entered = [Candidate(hall, name).enter() for name in hall.names]
        if set(entered) != {303}:
            raise RuntimeError('not all could enter in time')
        people, first = Over(hall), Candidate(hall, hall.names[0])
        end = time.monotonic() + first.ask('/clock')[1]['left'] / 1000
        trial = tried(hall, lambda: people.after(end))
        hall.end()
        return trial

    best = min(map(once, range(FEW)), key=lambda trial: trial.times[-1])
    print(f'{MANY} whose time is over: the first had its receipt after {best.times[0] * 1000:.0f} ms, the last after '
          f'{best.times[-1] * 1000:.0f} ms; processors with other work: {best.others:.1f}')


def main() -> None:
    paper = papers.text(sys.argv[1]) if sys.argv[1:] else EXAMPLES['p']
    with tempfile.TemporaryDirectory() as name:
        for waits in (0, WAITS):
            print(f'a disk that takes {waits * 1000:.0f} ms for each write' if waits else 'the disk as it is')
            clicks(pathlib.Path(name), paper, waits)
            rush(pathlib.Path(name), paper, waits)
            over(pathlib.Path(name), paper, waits)


if __name__ == '__main__':
    main()
