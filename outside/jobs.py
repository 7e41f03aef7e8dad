"""Jobs that run side by side, each as soon as what it needs is there, the longest first."""
import io
import sys
import threading
import time
import traceback
from collections.abc import Callable, Iterable
from dataclasses import dataclass, field
from typing import TextIO


@dataclass(frozen=True, eq=False)
class Job:
    """A job: its name, under which several may be counted together; what it does, writing to a stream, by which it
    gives how much passed and failed; what it needs; about how many seconds it takes; how many places; its lane: of the
    jobs of one lane one runs at a time; whether what it writes is shown as it comes, or when it is done."""
    name: str
    do: Callable[[TextIO], tuple[int, int]]
    needs: frozenset[str] = frozenset()
    length: int = 0
    places: int = 1
    lane: str = ''
    live: bool = False


@dataclass
class Outcome:
    """What became of the jobs of one name: how much passed and failed, and the seconds that they took, added up."""
    passed: int = 0
    failed: int = 0
    seconds: float = 0


@dataclass
class Jobs:
    """Runs jobs in a number of places, and knows what is there that they need."""
    places: int
    there: set[str] = field(default_factory=set)
    done: dict[str, Outcome] = field(default_factory=dict)
    changed: threading.Condition = field(default_factory=threading.Condition)

    def reach(self, *things: str) -> None:
        """Notes that things are there that jobs may need."""
        with self.changed:
            self.there.update(things)
            self.changed.notify_all()

    def count(self, name: str, passed: int, failed: int, seconds: float) -> None:
        """Adds to what became of the jobs of a name."""
        with self.changed:
            outcome = self.done.setdefault(name, Outcome())
            outcome.passed += passed
            outcome.failed += failed
            outcome.seconds += seconds

    def run(self, jobs: Iterable[Job]) -> None:
        """Runs jobs until none is left, or none of those that are left can start: these have failed."""
        waiting, running = sorted(jobs, key=lambda job: -job.length), list[Job]()
        with self.changed:
            while waiting or running:
                job = self.next_of(waiting, running)
                if job:
                    waiting.remove(job)
                    running.append(job)
                    threading.Thread(target=self.carry_out, args=(job, running), daemon=True).start()
                elif running:
                    self.changed.wait()
                else:
                    break
        for job in waiting:
            print(f'== {job.name}: not tried, as {", ".join(sorted(job.needs - self.there))} is missing')
            self.count(job.name, 0, 1, 0)

    def next_of(self, waiting: list[Job], running: list[Job]) -> Job | None:
        """The first that can start now."""
        free, lanes = self.places - sum(job.places for job in running), {job.lane for job in running if job.lane}
        return next((job for job in waiting if job.needs <= self.there and job.lane not in lanes and
                     (job.places <= free or not running)), None)

    def carry_out(self, job: Job, running: list[Job]) -> None:
        """Does one job, in a thread of its own, and shows what it wrote."""
        begun, shown = time.monotonic(), sys.stdout if job.live else io.StringIO()
        try:
            passed, failed = job.do(shown)
        except Exception:  # whatever a job stumbles over is its failure, and the others go on
            traceback.print_exc(file=shown)
            passed, failed = 0, 1
        self.count(job.name, passed, failed, time.monotonic() - begun)
        with self.changed:
            if isinstance(shown, io.StringIO):
                print(shown.getvalue(), end='', flush=True)
            running.remove(job)
            self.changed.notify_all()
