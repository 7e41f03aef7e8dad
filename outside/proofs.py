"""The proofs of all crates, as `rt` makes them: the gate with every edit that must be refused, or what is not up to
date."""
import re
import subprocess
from typing import TextIO

from outside.checks.repository import crates
from outside.jobs import Job, Jobs
from outside.parts import CLOSING, FIRST, PROOFS
from outside.trying import ROOT

# The gate, and what a quick test proves by.
GATE, UPDATE = ['rt', 'ci'], ['rt', 'all', 'check']
# What the table calls rt's work.
PROVED = 'proofs, edits and programs, by rt'
# The gate's line where all is well, and how many edits it calls bad there: they show nothing, and it goes on.
WELL, BAD = re.compile(r'rt: ok\b'), re.compile(r', (\d+) bad\b')


def counted_gate(status: int, said: list[str]) -> tuple[int, int]:
    """How much passed and failed by what the gate said. It has failed where its status or its closing line says so,
    where it has no line that all is well, and for each edit that could not be tried."""
    closing = [found for found in map(CLOSING.match, said) if found]
    well = [line for line in said if WELL.match(line)]
    passed, failed = (int(closing[-1][1]), int(closing[-1][2])) if closing else (0, 1)
    bad = sum(int(number) for line in well for number in BAD.findall(line))
    return passed, failed + bad if status == 0 and well else max(failed + bad, 1)


def counted_update(status: int) -> tuple[int, int]:
    """The same of what is brought up to date, which goes by its status."""
    return (len(crates()), 0) if status == 0 else (0, 1)


def proofs(jobs: Jobs, command: list[str], processors: int) -> Job:
    """All crates, proved by rt, on all processors. Whatever else calls rt waits until it is done; where a crate is not
    proved, a build over it says so."""
    def do(shown: TextIO) -> tuple[int, int]:
        said = []
        try:
            with subprocess.Popen(command, cwd=ROOT, stdin=subprocess.DEVNULL, stdout=subprocess.PIPE,
                                  stderr=subprocess.STDOUT, text=True, errors='replace') as ran:
                for line in ran.stdout or ():
                    print(line, end='', file=shown, flush=True)
                    said.append(line)
        finally:
            jobs.reach(PROOFS)
        return counted_gate(ran.returncode, said) if command == GATE else counted_update(ran.returncode)
    return Job(PROVED, do, length=2 * FIRST, places=processors, live=True)
