"""What a command costs before it does anything: milliseconds of the processor, of user and system, with all processes
that it starts; the least and the median of some runs, after one that is not counted.

  python3 -m outside.measure.starting [RUNS] [DESK]    20 runs if no number is given; DESK: an installed one

The commands find as python3 the very Python that this runs on, so that no script stands between: who wants another
starts this with it. Python's bytecode is kept, unless a desk keeps none, and the sources are not touched meanwhile.
"""
import os
import resource
import statistics
import subprocess
import sys

from outside.trying import DESK, KEY, PROGRAM, ROOT

P = ROOT / 'examples' / 'p.hex'
ENVIRONMENT = {name: value for name, value in os.environ.items() if name != 'PYTHONDONTWRITEBYTECODE'} | {
    'PATH': f'{os.path.dirname(sys.executable)}:{os.environ["PATH"]}'}


def commands(desk: object) -> dict[str, list[object]]:
    """What is measured, by how it is called."""
    papers = ['check', 'key', 'show', 'missing', 'why', 'draw', 'program']
    return {'python3 -c pass': ['python3', '-c', 'pass'], 'python3 -S -c pass': ['python3', '-S', '-c', 'pass'],
            'the program': [PROGRAM], './key': [KEY, P], **{f'desk {name}': [desk, name, P] for name in papers},
            'desk why 3,9': [desk, 'why', P, '3,9'],
            'desk check, a listing': [desk, 'check', ROOT / 'examples' / 'programs' / 'jacobi.txt'],
            'desk mark': [desk, 'mark', P, ROOT / 'examples' / 'answers' / 'anna.hex'],
            'desk --version': [desk, '--version'], 'desk --help': [desk, '--help']}


def spent() -> float:
    used = resource.getrusage(resource.RUSAGE_CHILDREN)
    return 1000 * (used.ru_utime + used.ru_stime)


def cost(command: list[object]) -> float:
    """The processor's time of one run, in milliseconds."""
    before = spent()
    with P.open('rb') as paper:
        subprocess.run([*map(str, command)], stdin=paper, stdout=subprocess.DEVNULL, stderr=subprocess.DEVNULL,
                       check=True, env=ENVIRONMENT)
    return spent() - before


def main() -> None:
    words = sys.argv[1:]
    runs = int(words.pop(0)) if words and words[0].isdecimal() else 20
    desk = words[0] if words else DESK
    found = subprocess.run(['python3', '-c', 'import sys; print(sys.executable, sys.version.split()[0])'],
                           env=ENVIRONMENT, capture_output=True, text=True, check=True).stdout.strip()
    print(f'{desk}, python3 is {found}, {runs} runs, milliseconds of the processor: least, median')
    for name, command in commands(desk).items():
        cost(command)
        costs = [cost(command) for _ in range(runs)]
        print(f'{name:22} {min(costs):6.1f} {statistics.median(costs):6.1f}')


main()
