"""The edits of a crate that must be refused, tried alone: all, or one of them.

  ./test edit CRATE [EDIT]    the last line is 'N passed, M failed'

Each is tried over what a check of the crate proved. One is tried in a copy of the crates, in which it is the only one.
"""
import contextlib
import pathlib
import re
import subprocess
import sys

from outside.checks.repository import crates, edits_of
from outside.copies import copied
from outside.trying import ROOT

# What rt says of an edit, and that it is refused at a place.
SAID, REFUSED = re.compile(r'rt: must-fail (\w+)/(\S+)\.edit: (.*)'), 'refused, as it must be'


def tried(crate: str, place: pathlib.Path) -> tuple[int, int]:
    """Tries the edits of a crate in a place and shows what rt says; how many are refused, and how many are not."""
    ran = subprocess.run(['rt', 'must-fail', crate], cwd=place, stdin=subprocess.DEVNULL, stdout=subprocess.PIPE,
                         stderr=subprocess.STDOUT, text=True, errors='replace', check=False)
    said = [found for found in map(SAID.match, ran.stdout.splitlines()) if found]
    print(ran.stdout if ran.returncode or not said else '\n'.join(f'{one[1]}/{one[2]}: {one[3]}' for one in said))
    passed = sum(one[3].startswith(REFUSED) for one in said)
    failed = len(said) - passed
    return passed, failed if ran.returncode == 0 and said else max(failed, 1)


def main(words: list[str]) -> None:
    crate, *labels = words
    label = labels[0].removesuffix('.edit') if labels else ''
    if crate not in crates() or not edits_of(crate) or label and label not in edits_of(crate):
        sys.exit(f'there is no edit {" ".join(words)}')
    with copied(crate, label) if label else contextlib.nullcontext(ROOT) as place:
        passed, failed = tried(crate, place)
    print(f'{passed} passed, {failed} failed')
    sys.exit(failed > 0)
