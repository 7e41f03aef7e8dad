"""Which desk this is: the version, the commit that it was made from, and the hash of the proved library.

  python3 -m office.version NAME    says so under a name, for ./key
"""
import argparse
import functools
import hashlib
import os
import sys
from collections.abc import Sequence

from office.built import LIBRARY, wanting
from office.command import CLONE, ROOT, Fault, run, write_out
from office.places import SHARED

TYPE_CHECKING = False
if TYPE_CHECKING:
    from typing import Any

VERSION, COMMIT = f'{ROOT}/VERSION', f'{ROOT}/COMMIT'
UNKNOWN, SHORT = 'unknown', 12


def version() -> str:
    return written_in(VERSION)


@functools.cache
def commit() -> str:
    """The commit that the desk's files are from: as git tells it, or as the release has written it down."""
    import shutil  # which a release does not need
    import subprocess
    if os.path.exists(f'{ROOT}/.git') and shutil.which('git'):
        asked = subprocess.run(['git', 'rev-parse', 'HEAD'], cwd=ROOT, capture_output=True, text=True, check=False)
        return asked.stdout.strip()[:SHORT] or UNKNOWN
    return written_in(COMMIT)[:SHORT]


def written_in(file: str) -> str:
    """The one line of a file of the release."""
    try:
        with open(file) as opened:
            return opened.read().strip() or UNKNOWN
    except OSError:
        return UNKNOWN


@functools.cache
def library_sha256() -> str:
    """The hash of the library that calls go to."""
    try:
        with open(SHARED, 'rb') as opened:
            return hashlib.sha256(opened.read()).hexdigest()
    except OSError as fault:
        raise Fault(f'cannot read {os.path.basename(SHARED)}: {fault.strerror}') from fault


def desk_version() -> str:
    """What stands in a mark: version and commit."""
    return f'{version()}+{commit()}'


def told() -> str:
    """What --version says. The library is not built for it, and one of other sources is not this desk's."""
    reason = next(filter(None, map(wanting, LIBRARY)), '') if CLONE else ''
    return f'{version()}, commit {commit()}, ' + (f'its library {reason}' if reason else f'library {library_sha256()}')


class Told(argparse.Action):
    """The option that says it, and is asked for nothing before."""

    def __init__(self, option_strings: Sequence[str], dest: str, name: str):
        super().__init__(option_strings, dest, nargs=0, help='says which desk this is: version, commit and library')
        self.name = name

    def __call__(self, parser: argparse.ArgumentParser, namespace: argparse.Namespace,
                 values: 'str | Sequence[Any] | None', option_string: str | None = None) -> None:
        say_as([self.name])
        sys.exit(0)


def say_as(names: list[str]) -> None:
    write_out(f'{names[0]} {told()}\n'.encode())


if __name__ == '__main__':
    run(sys.argv[1], say_as)
