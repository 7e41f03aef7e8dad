"""Papers run by the interpreter (interpreter.c): what is asked for, and what the threads did."""
import pathlib
import subprocess
from collections.abc import Callable, Iterable
from dataclasses import dataclass, field

from office.frames import BARRIER
from outside.threads.nests import Nest
from outside.trying import Tally

TURNS, ONLY, SUBSTITUTE = 0x31, 0x32, 0x33
TRIES, LONGEST = 5, 600


@dataclass(frozen=True)
class Run:
    """A run that is asked for: barriers, turns of loops where they are not 2, loops that run only in some turns of the
    loop around them (as bits), and loops with a barrier for their missing run."""
    gaps: Iterable[int]
    turns: dict[int, int] = field(default_factory=dict)
    only: dict[int, int] = field(default_factory=dict)
    substitutes: Iterable[int] = ()

    @property
    def line(self) -> str:
        frames = [*((BARRIER, gap) for gap in self.gaps), *((TURNS, *turns) for turns in self.turns.items()),
                  *((ONLY, *only) for only in self.only.items()), *((SUBSTITUTE, d) for d in self.substitutes)]
        return ' '.join(['r', *(bytes(frame).hex() for frame in frames)])


@dataclass(frozen=True)
class Ran:
    """What a run did: barrier calls of each thread; of each dependence how often it raced and how often it occurred."""
    calls: int
    raced: list[int]
    times: list[int]

    @property
    def racing(self) -> list[int]:
        return [k for k, many in enumerate(self.raced) if many]


# What a run did is looked at; False asks for the run again.
Look = Callable[[Ran], bool]


class Interpreter:
    """The interpreter with some threads. Papers and runs are written down first and then run together."""

    def __init__(self, start: list[str], program: pathlib.Path, threads: int) -> None:
        self.command = [*start, str(program), str(threads)]
        self.asked: list[tuple[Nest, Run, Look]] = []
        self.runs = 0

    def ask(self, nest: Nest, run: Run, look: Look) -> None:
        self.asked.append((nest, run, look))

    def play(self, tally: Tally, what: str) -> None:
        """Runs all that was asked for. ThreadSanitizer looks who touched a cell before it notes who does now, so of two
        threads that come in the very same moment neither may see the other, once in a hundred thousand times. What
        raced too little is therefore run again; only what does so each time has failed."""
        left, self.asked = self.asked, []
        for _ in range(TRIES):
            rans = self.played(tally, what, left)
            left = [one for one, ran in zip(left, rans) if not one[2](ran)]
            if not left:
                return
        for nest, run, _ in left:
            tally.check(f'{what}: a race is missing', False, (nest.text, run))

    def played(self, tally: Tally, what: str, asked: list[tuple[Nest, Run, Look]]) -> list[Ran]:
        lines, before = [], None
        for nest, run, _ in asked:
            if nest is not before:
                lines.append(' '.join(['p', *(bytes(frame).hex() for frame in nest.frames)]))
            lines.append(run.line)
            before = nest
        done = subprocess.run(self.command, input='\n'.join([*lines, '']), capture_output=True, text=True,
                              timeout=LONGEST, check=False)
        rans = [ran_in(line) for line in done.stdout.splitlines()]
        self.runs += len(rans)
        whole = done.returncode == 0 and done.stderr == '' and len(rans) == len(asked)
        tally.check(what, whole, (done.returncode, done.stderr[:300], len(rans), len(asked)))
        return rans


def ran_in(line: str) -> Ran:
    """What a line of the interpreter tells."""
    calls, *pairs = line.split()
    each = [pair.split('/') for pair in pairs]
    return Ran(int(calls), [int(raced) for raced, _ in each], [int(times) for _, times in each])
