"""The parts of the test: what each is, its command, what it needs, and about how long it takes."""
import re
import subprocess
import sys
import time
from collections.abc import Callable
from dataclasses import dataclass
from typing import TextIO

from office import built
from office.command import Fault
from outside.jobs import Job, Jobs
from outside.trying import PROGRAM, ROOT

JUDGE, ARCHIVE = ROOT / 'target' / 'judge', ROOT / 'target' / 'staticlib' / 'libhost.a'
RUSTC = ['rustc', '-O', '--edition', '2021', 'outside/judge/main.rs', '-L', str(ARCHIVE.parent), '-l', 'static=host',
         '-o', str(JUDGE)]
CLOSING = re.compile(r'(\d+) passed, (\d+) failed')
# How long the judge plays scripts, and how long it does in a quick test; the same of the program beside it.
SCRIPTS, PROGRAMS, QUICK = 25, 60, 10
# What is longer than any part, so that it is started before them.
FIRST = 10_000
# What parts need: the proofs of all crates, by rt, and what is built of them.
PROOFS, LIBRARY, KEY, JUDGING = 'every proof', 'the library', 'the program', 'the judge'
NOTHING, DESK, ALL = frozenset[str](), frozenset([LIBRARY]), frozenset([LIBRARY, KEY])
# Of the jobs of a lane one runs at a time: the parts of the hall, which mostly wait, and all that calls rt, of which
# two would come into each other's way.
HALL, BY_RT = 'hall', 'rt'


@dataclass(frozen=True)
class Part:
    """A part of the test: what it is, its command, what it needs, about how many seconds it takes, whether it counts by
    a closing line, or else goes by its status, and its lane."""
    about: str
    command: list[str]
    needs: frozenset[str] = NOTHING
    length: int = 10
    counts: bool = True
    lane: str = ''


def module(about: str, name: str, needs: frozenset[str] = DESK, length: int = 10, lane: str = '') -> Part:
    return Part(about, [sys.executable, '-m', f'outside.{name}'], needs, length, lane=lane)


def parts(scripts: int = SCRIPTS, programs: int = PROGRAMS) -> dict[str, Part]:
    judge, judged, proved = str(JUDGE), frozenset([LIBRARY, JUDGING]), frozenset([PROOFS])
    return {
        'imports': module('no import that its file does not use', 'checks.imports', NOTHING),
        'types': module('the types of the office', 'checks.types', NOTHING, 60),
        'arguments': module('the checker of arguments', 'tests.arguments', NOTHING),
        'faults': Part('the faults that the judge must catch fit the code',
                       [sys.executable, '-m', 'outside.faults.faults', '--fit']),
        'gate': module("what is made of the gate's words", 'checks.gate', NOTHING),
        'no_division': module('no division in the planner and in the ring of moves', 'checks.no_division', proved,
                              lane=BY_RT),
        'edges': module('crates.txt lists what a crate uses', 'checks.edges', proved, 30, BY_RT),
        'hosts': module('the C boundary', 'tests.hosts'),
        'log': module('the hall: its log, disks, kills and starts', 'hall.log', length=150, lane=HALL),
        'server': module('the hall: its server', 'hall.server', length=40, lane=HALL),
        'sitting': module('the hall: its page in a browser', 'hall.sitting', length=240, lane=HALL),
        'reading': Part("the judge's check of itself", [judge, '--self-check'], judged),
        'scripts': Part('every call beside the judge', [judge, '--scripts', '1', str(scripts)], judged, scripts),
        'judge': Part('the program beside the judge', [judge, str(PROGRAM), '1', str(programs)], judged | {KEY},
                      programs),
        'arguing': module('the arguments that the desk gives, beside the checker', 'tests.arguing', length=30),
        'threads': module('what cut means, on real threads', 'threads.meaning', length=30),
        'program': module('./key under faults of input and output', 'tests.program', ALL),
        'views': module('views of papers of all kinds, and how large their pages are', 'tests.views'),
        'pictures': module('./draw', 'tests.pictures', ALL),
        'telling': module('./desk: what it tells', 'tests.telling', ALL, 20),
        'calling': module('./desk: the calls of the change requests', 'tests.calling'),
        'mistakes': module('./desk: what people get wrong, and what they are told', 'tests.mistakes', ALL, 20),
        'compiled': module('./desk program: compiled, and run with real threads', 'threads.compiled', length=30),
        'workday': module('./desk: a day in the office', 'tests.workday', length=20),
        'trouble': module('./desk: what can go wrong', 'tests.trouble', ALL, 20),
        'book': module('./desk: the register', 'tests.book', length=45),
        'slips': module('./desk: slips, notes and certificates for people', 'tests.slips', length=20),
        'collecting': module('./desk: sittings taken into the register', 'tests.collecting', length=20),
        'release': module('./release: unpacked and installed elsewhere', 'tests.release', ALL, 30),
        'documents': module('the documents beside the repository', 'checks.documents', ALL, 20),
    }


def quick() -> dict[str, Part]:
    """What a change is tried by before it is tried whole, beside the proofs that are not up to date."""
    some = parts(QUICK, QUICK)
    return {name: some[name] for name in ('imports', 'types', 'reading', 'scripts', 'judge', 'documents')}


def job_of(name: str, part: Part) -> Job:
    """A part of the test as a job."""
    def do(shown: TextIO) -> tuple[int, int]:
        begun = time.monotonic()
        print(f'== {name}: {part.about}', file=shown)
        counts = counted(part, shown)
        print(f'== {name}: {time.monotonic() - begun:.0f} s', file=shown)
        return counts
    return Job(name, do, part.needs, part.length, lane=part.lane)


def counted(part: Part, shown: TextIO) -> tuple[int, int]:
    """Runs a part and shows what it prints; how much passed and failed. A part that should count and has no closing
    line has failed, whatever its status."""
    ran = subprocess.run(part.command, cwd=ROOT, stdin=subprocess.DEVNULL, stdout=subprocess.PIPE,
                         stderr=subprocess.STDOUT, text=True, errors='replace', check=False)
    print(ran.stdout, end='', file=shown)
    well, closing = ran.returncode == 0, [found for found in map(CLOSING.match, ran.stdout.splitlines()) if found]
    if not part.counts:
        return int(well), int(not well)
    if not closing:
        return 0, 1
    passed, failed = int(closing[-1][1]), int(closing[-1][2])
    return passed, failed if well else max(failed, 1)


def builds(jobs: Jobs) -> list[Job]:
    """What the parts need built, where it is not up to date: the library, the program and the judge."""
    def made(what: str, make: Callable[[], None], need: str, lane: str) -> Job:
        def do(shown: TextIO) -> tuple[int, int]:
            try:
                make()
            except Fault as fault:
                print(f'{what}: {fault}', file=shown)
                return 0, 1
            jobs.reach(what)
            return 0, 0
        return Job(what, do, frozenset([need]), FIRST, lane=lane)
    return [made(LIBRARY, lambda: built.build_library('test'), PROOFS, BY_RT),
            made(KEY, lambda: built.build(built.KEY, 'test'), PROOFS, BY_RT),
            made(JUDGING, compile_judge, LIBRARY, '')]


def compile_judge() -> None:
    """Compiles the judge, with the library."""
    made = subprocess.run(RUSTC, cwd=ROOT, capture_output=True, text=True, check=False)
    if made.returncode:
        raise Fault(f'{" ".join(RUSTC[:3])} failed\n{made.stdout}{made.stderr}')
