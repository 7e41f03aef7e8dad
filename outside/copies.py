"""Copies of a crate and of those below it, with what is proved of them, in which something else is tried."""
import contextlib
import pathlib
import re
import shutil
import tempfile
from collections.abc import Iterator

from outside.checks.repository import CRATES, edges
from outside.trying import ROOT


def below(crate: str) -> list[str]:
    """A crate and all that it uses, by others too."""
    found = [crate]
    for name in found:
        found += [used for used in edges()[name] if used in edges() and used not in found]
    return found


@contextlib.contextmanager
def copied(crate: str, label: str = '', without: str = '') -> Iterator[pathlib.Path]:
    """A copy with no edit of the crate but one, or none, in which the crate does not list another."""
    with tempfile.TemporaryDirectory() as name:
        copy = pathlib.Path(name)
        (copy / '.git').mkdir()
        rows = [row for row in (ROOT / 'crates.txt').read_text().splitlines()
                if re.split(r'[\s:]', row)[0] in below(crate)]
        if without:
            rows = [re.sub(rf'(:.*) {without}(?= |$)', r'\1', row) if re.match(rf'{crate}\b', row) else row
                    for row in rows]
        (copy / 'crates.txt').write_text('\n'.join([*rows, '']))
        for one in below(crate):
            # Of those below, what is built is enough.
            left = ['must-fail'] if one == crate else ['must-fail', 'incremental']
            shutil.copytree(CRATES / one, copy / 'crates' / one, ignore=shutil.ignore_patterns(*left))
        if label:
            (copy / 'crates' / crate / 'must-fail').mkdir()
            shutil.copy2(CRATES / crate / 'must-fail' / f'{label}.edit', copy / 'crates' / crate / 'must-fail')
        yield copy
