"""What a release has, and where it lies: a tree to be unpacked anywhere, or installed below /usr.

    bin              desk and key
    lib              the library, shared and as an archive; pkgconfig; the unit of a hall for systemd
    lib/marking-desk the office in Python, the proved program, and which release this is
    include          desk.h
    share            manual pages, words to complete, README, docs, examples and the checker of arguments
"""
import pathlib
import string
import subprocess
from dataclasses import dataclass

from office.command import ROOT
from office.places import ARCHIVE, HEADER, PROGRAM, SHARED
from releasing import manuals
from releasing.archives import PROGRAM as RUNS
from releasing.archives import File, Tree

CLONE = pathlib.Path(ROOT)
FILES = CLONE / 'releasing' / 'files'
HOME, DOC = 'lib/marking-desk', 'share/doc/marking-desk'


@dataclass(frozen=True)
class Release:
    """Which release it is: version, commit with its date and its time, the kit that proved it, the library's hash."""
    version: str
    commit: str
    date: str
    time: int
    kit: str
    library: str

    def told(self) -> str:
        """The file RELEASE."""
        return (f'marking-desk {self.version}\ncommit {self.commit}\ndate {self.date}\n'
                f'proved by {self.kit}\nlibdesk.so sha256 {self.library}\n')


def tree_of(release: Release) -> Tree:
    """All files of a release."""
    tree = {
        'bin/desk': File((FILES / 'desk').read_bytes(), RUNS),
        'bin/key': File((CLONE / 'key').read_bytes(), RUNS),
        'include/desk.h': File(pathlib.Path(HEADER).read_bytes()),
        'lib/libdesk.so': File(pathlib.Path(SHARED).read_bytes()),
        'lib/libdesk.a': File(pathlib.Path(ARCHIVE).read_bytes()),
        'lib/pkgconfig/marking-desk.pc': filled('marking-desk.pc', release),
        'lib/systemd/system/marking-desk@.service': filled('marking-desk@.service', release),
        f'{HOME}/key': File(pathlib.Path(PROGRAM).read_bytes(), RUNS),
        f'{HOME}/VERSION': File(f'{release.version}\n'.encode()),
        f'{HOME}/COMMIT': File(f'{release.commit}\n'.encode()),
        f'{DOC}/RELEASE': File(release.told().encode()),
    }
    for path in tracked('office'):
        tree[f'{HOME}/{path}'] = File((CLONE / path).read_bytes())
    for path in tracked('README.md', 'CHANGELOG.md', 'docs', 'examples', 'outside/argument.py'):
        tree[f'{DOC}/{path}'] = File((CLONE / path).read_bytes())
    asked = subprocess.run([str(CLONE / 'key'), '--help'], capture_output=True, text=True, check=True)
    return tree | manuals.manuals(asked.stdout) | manuals.completion()


def filled(name: str, release: Release) -> File:
    """A file with the release's version and commit put in."""
    text = string.Template((FILES / name).read_text())
    return File(text.safe_substitute(version=release.version, commit=release.commit, kit=release.kit).encode())


def tracked(*places: str) -> list[str]:
    """The files of the commit at some places."""
    listed = subprocess.run(['git', 'ls-files', '-z', '--', *places], cwd=ROOT, capture_output=True, text=True,
                            check=True)
    return [path for path in listed.stdout.split('\0') if path and (CLONE / path).is_file()]
