"""crates.txt lists what a crate uses. Of a crate that its files name the text decides; one that nothing names is listed
only where the prover refuses without it, since a value is reached whose type could not be named.

  python3 -m outside.checks.edges    the last line is 'N passed, M failed'

Needs every crate proved (rt check).
"""
import re
import subprocess

from outside.checks.repository import CRATES, PARTS, crates, edges
from outside.copies import copied
from outside.trying import Tally

# A crate, and one that it could list for nothing.
NEEDLESS = ('plan_exchange', 'paper_lines')


def named(crate: str) -> set[str]:
    """The crates that the files of a crate name."""
    found: set[str] = set()
    for path in (path for part in PARTS for path in (CRATES / crate / part).glob('**/*.antt')):
        found.update(re.findall(r'\bRattle\.(\w+)', path.read_text()))
    for path in (CRATES / crate).glob('src/*.rt'):
        code = re.sub(r'//.*', '', path.read_text())
        found.update(re.findall(r'\bRattle\.(\w+)', code), re.findall(r'(?<![\w:.])(\w+)::', code))
    return found


def is_needed(crate: str, edge: str) -> bool:
    """Whether the prover refuses a copy of the crate that does not list another; a check that came to no verdict shows
    nothing."""
    with copied(crate, without=edge) as copy:
        ran = subprocess.run(['rt', 'check'], cwd=copy / 'crates' / crate, stdin=subprocess.DEVNULL,
                             stdout=subprocess.DEVNULL, stderr=subprocess.DEVNULL, check=False)
    return ran.returncode == 1


def main() -> None:
    tally = Tally()
    order = crates()
    listed = [(crate, edge) for crate in order for edge in edges()[crate]]
    for crate, edge in listed:
        later = edge in order and order.index(edge) >= order.index(crate)
        tally.check(f'crates.txt: {crate} stands above {edge}', not later)
    for crate, edge in listed:
        if edge not in named(crate):
            tally.check(f'crates.txt: {crate} uses {edge}', is_needed(crate, edge), 'it is proved without it')
    for crate in order:
        lacking = sorted((named(crate) & {*order}) - {crate, *edges()[crate]})
        tally.check(f'crates.txt: {crate} lists what it names', not lacking, lacking)
    tally.check('an edge too many would be noticed', not is_needed(*NEEDLESS) and NEEDLESS[1] not in named(NEEDLESS[0]))
    tally.close()


if __name__ == '__main__':
    main()
