"""usage: ./test [SECONDS]            everything from nothing, with every edit that must be refused
       ./test quick                every proof that is not up to date, the judge for some seconds, the documents
       ./test PART [PART...]       single parts, on what is built
       ./test edit CRATE [EDIT]    the edits of a crate that must be refused, or one of them

SECONDS: how long the program is compared with the judge, 60 if none is named.
Things run side by side, one more than there are processors, each as soon as what it needs is proved or built, and
nothing that calls rt beside the gate, `rt ci`; what a part prints is shown when it is done. At the end a table says how
long each took. The last line counts all, 'N passed, M failed', and the status is 0 only if nothing failed.

The parts:"""
import os
import sys
import time

from outside import single
from outside.jobs import Job, Jobs
from outside.parts import PROOFS, Part, builds, job_of, parts, quick
from outside.proofs import GATE, UPDATE, proofs

PROCESSORS = os.cpu_count() or 1


def chosen(words: list[str], jobs: Jobs) -> list[Job] | None:
    """What is asked for, as jobs; none where it cannot be read."""
    every = parts(programs=int(words[0])) if words and words[0].isdecimal() else parts()
    if not words or words[0].isdecimal() and len(words) == 1:
        return [proofs(jobs, GATE, PROCESSORS), *with_builds(jobs, every)]
    if words == ['quick']:
        return [proofs(jobs, UPDATE, PROCESSORS), *with_builds(jobs, quick())]
    if all(word in every for word in words):
        # What is not proved yet is proved when it is built.
        jobs.reach(PROOFS)
        return with_builds(jobs, {word: every[word] for word in words})
    return None


def with_builds(jobs: Jobs, some: dict[str, Part]) -> list[Job]:
    """Parts as jobs, and before them what they need built."""
    needed = frozenset[str]().union(*(part.needs for part in some.values()))
    return [job for job in builds(jobs) if job.name in needed] + [job_of(name, part) for name, part in some.items()]


def table(jobs: Jobs, took: float) -> str:
    """What was done, and the minutes that each took, while others ran beside it."""
    rows = [(name, f'{done.passed:,}', f'{done.seconds / 60:.1f}') for name, done in jobs.done.items()]
    width = max(len(name) for name, _, _ in rows)
    return '\n'.join([f'{"":{width}}      passed  minutes',
                      *(f'{name:{width}}  {passed:>10}  {minutes:>7}' for name, passed, minutes in rows),
                      f'{"all, side by side":{width}}  {"":>10}  {took / 60:>7.1f}'])


def main() -> None:
    words, begun = sys.argv[1:], time.monotonic()
    if words[:1] == ['edit'] and len(words) in (2, 3):
        single.main(words[1:])
    # One more at a time than there are processors: none then waits for the longer of two.
    jobs = Jobs(PROCESSORS + 1)
    asked = chosen(words, jobs)
    if asked is None:
        every, help_asked = parts(), words == ['--help']
        width = max(map(len, every))
        print(__doc__, *(f'  {name:{width}}  {part.about}' for name, part in every.items()), sep='\n',
              file=sys.stdout if help_asked else sys.stderr)
        sys.exit(0 if help_asked else 2)
    jobs.run(asked)
    passed, failed = (sum(column) for column in zip(*((done.passed, done.failed) for done in jobs.done.values())))
    print(table(jobs, time.monotonic() - begun))
    print(f'{passed} passed, {failed} failed')
    sys.exit(failed > 0)
