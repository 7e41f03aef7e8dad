"""What the tests share: a command run on some bytes, programs that are installed, and a tally of what was seen."""
import os
import pathlib
import shutil
import subprocess
import sys
from dataclasses import dataclass

ROOT = pathlib.Path(__file__).resolve().parent.parent
PROGRAM, KEY, DRAW, DESK = ROOT / 'target' / 'bin' / 'key', ROOT / 'key', ROOT / 'draw', ROOT / 'desk'
VERSION = (ROOT / 'VERSION').read_text().strip()
TIMEOUT, BASH = shutil.which('timeout'), shutil.which('bash')
# A line of shell that runs a command as one who owns nothing here, where that can be chosen.
NOBODY = 'setpriv --reuid=65534 --regid=65534 --clear-groups "$@"' if os.geteuid() == 0 else '"$@"'
EXAMPLES = {name: (ROOT / 'examples' / f'{name}.hex').read_bytes() for name in 'pqr'}


@dataclass(frozen=True)
class Seen:
    """What a command wrote, and its status."""
    out: bytes
    err: str
    status: int

    def failed(self, word: str, status: int = 2) -> bool:
        """Nothing on standard output, one line on standard error that has the word, and the status."""
        return self.out == b'' and self.err.count('\n') == 1 and word in self.err and self.status == status


def run(*command: object, given: bytes | None = b'', shell: str = '"$@"', **environment: str) -> Seen:
    """Runs a command by a line of shell, a minute at most, with bytes or, for None, nothing at all to read."""
    line = shell if given is not None else shell + ' <&-'
    done = subprocess.run([TIMEOUT, '60', BASH, '-c', line, 'bash', *map(str, command)], input=given,
                          capture_output=True, check=False, env={**os.environ, **environment})
    return Seen(done.stdout, done.stderr.decode('utf-8', 'replace'), done.returncode)


def python_for_all() -> str:
    """A python3 that nobody, too, can run, if there is one: root's own may lie where nobody else may look."""
    for python in ['/usr/bin/python3', '/usr/local/bin/python3']:
        if os.path.exists(python) and run(python, '-c', 'import sys; sys.exit(sys.version_info < (3, 10))',
                                          shell=NOBODY).status == 0:
            return python
    return sys.executable


def installed(programs: list[str], packages: list[str]) -> bool:
    """Whether programs are there, installed just now if need be, where that may be done: on Debian, by root."""
    if not all(map(shutil.which, programs)) and os.geteuid() == 0 and shutil.which('apt-get'):
        install = ['apt-get', 'install', '-y', '-q', '--no-install-recommends', *packages]
        for command in (install, ['apt-get', 'update', '-q'], install):
            done = subprocess.run(command, stdout=subprocess.DEVNULL, stderr=subprocess.DEVNULL, check=False,
                                  env={**os.environ, 'DEBIAN_FRONTEND': 'noninteractive'})
            if command is install and done.returncode == 0:
                break
    return all(map(shutil.which, programs))


class Tally:
    """Counts what holds and shows what does not."""

    def __init__(self) -> None:
        self.passed = self.failed = 0

    def check(self, name: str, holds: bool, seen: object = '') -> None:
        if holds:
            self.passed += 1
        else:
            self.failed += 1
            print(f'{name}: {str(seen)[:600]}')

    def close(self) -> None:
        print(f'{self.passed} passed, {self.failed} failed')
        sys.exit(self.failed > 0)
