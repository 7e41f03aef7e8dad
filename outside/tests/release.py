"""A release as its people meet it: unpacked or installed, for another user, where nothing can be written, on a machine
with neither prover nor compiler.

Two clones share what was proved and compiled; the second links its library anew. So it is shown here that linking and
packing give the same bytes in two places; that proving and compiling do was seen by hand (docs/CONTRIBUTING.md).
Needs git, rt and gcc for the making; dpkg and pkg-config where they are. The last line is 'N passed, M failed'.
"""
import os
import pathlib
import re
import shutil
import signal
import subprocess
import tarfile
import tempfile

from office.day import COMMANDS
from outside.checks.documents import blocks, timeless
from outside.hall.opened import Candidate, Hall
from outside.tests.workday import text_of
from outside.trying import EXAMPLES, NOBODY, ROOT, VERSION, Seen, Tally, python_for_all, run

NAME = f'marking-desk-{VERSION}'
BUILT = ['built', 'bin/key', 'staticlib/libhost.a', 'libdesk.so']
TOOLS = ['bash', 'cat', 'dirname', 'env', 'head', 'mkdir', 'mktemp', 'readlink', 'rm', 'tail', 'uname']
WHEN = {name: f'{who}@localhost' if 'EMAIL' in name else '2026-01-01T00:00:00Z' if 'DATE' in name else who
        for who in ['desk'] for name in [f'GIT_{part}_{what}' for part in ('AUTHOR', 'COMMITTER')
                                         for what in ('NAME', 'EMAIL', 'DATE')]}
# Runs a command where a folder is mounted so that nobody can write there, as one who owns nothing.
MOUNTED = 'mount --bind {0} {0} && mount -o remount,bind,ro {0} && exec ' + NOBODY
CHANGED = 'python3 -c "import os, runpy, sys; {}; runpy.run_path(\'{}\', run_name=\'__main__\')"'


def cloned(place: pathlib.Path) -> pathlib.Path:
    """A clone with what is built here. Files that are not committed yet are, in the same way each time."""
    subprocess.run(['git', 'clone', '-q', ROOT, place], check=True)
    listed = [path for words in (['diff', '--name-only', '-z', 'HEAD'], ['ls-files', '-z', '-o', '--exclude-standard'])
              for path in subprocess.run(['git', *words], cwd=ROOT, capture_output=True, text=True,
                                         check=True).stdout.split('\0') if path]
    for path in listed:
        if (ROOT / path).exists():
            (place / path).parent.mkdir(parents=True, exist_ok=True)
            shutil.copy2(ROOT / path, place / path)
        else:
            (place / path).unlink()
    if listed:
        subprocess.run(['git', 'add', '-A'], cwd=place, check=True)
        subprocess.run(['git', 'commit', '-q', '-m', 'as it is'], cwd=place, env={**os.environ, **WHEN}, check=True)
    for part in BUILT:
        (place / 'target' / part).parent.mkdir(parents=True, exist_ok=True)
        if (ROOT / 'target' / part).is_dir():
            shutil.copytree(ROOT / 'target' / part, place / 'target' / part)
        else:
            shutil.copy2(ROOT / 'target' / part, place / 'target' / part)
    return place


def made(tally: Tally, folder: pathlib.Path) -> dict[str, bytes]:
    """The packages of two clones: the same bytes, and their hashes printed."""
    packages: list[dict[str, bytes]] = []
    for name in ('one', 'other'):
        clone = cloned(folder / name)
        if packages:
            (clone / 'target' / 'libdesk.so').unlink()
            os.utime(clone / 'README.md')
        seen = run(clone / 'release', shell='umask 077; "$@"' if packages else '"$@"')
        packages.append({path.name: path.read_bytes() for path in sorted((clone / 'dist').glob('*'))})
        hashes = run('sha256sum', *[f'dist/{path}' for path in packages[-1]], shell=f'cd {clone} && "$@"').out
        tally.check('./release', seen == Seen(hashes, '', 0) and len(packages[-1]) == 2, seen)
    tally.check('two clones, the same bytes', packages[0] == packages[1], [*packages[1]])
    clone = folder / 'one'
    (clone / 'README.md').write_text('another\n')
    seen = run(clone / 'release')
    tally.check('not of a commit', seen.failed('files differ from it: README.md'), seen)
    return packages[0]


def unpacked(tally: Tally, folder: pathlib.Path, package: bytes) -> pathlib.Path:
    """The tarball, with nothing in it of who made it and when."""
    (folder / 'package.tar.gz').write_bytes(package)
    with tarfile.open(folder / 'package.tar.gz') as tar:
        members = tar.getmembers()
        tally.check('one folder', {member.name.split('/')[0] for member in members} == {NAME})
        tally.check("root's", {(member.uid, member.gid, member.uname) for member in members} == {(0, 0, 'root')})
        tally.check('one time', len({member.mtime for member in members}) == 1)
        tally.check('nobody else may write', not any(member.mode & 0o022 for member in members))
        tar.extractall(folder)
    top = folder / NAME
    told = (top / 'share/doc/marking-desk/RELEASE').read_text()
    kit = run('rt', 'version').out.decode().strip()
    tally.check('which kit proved it', f'proved by {kit}\n' in told and f'marking-desk {VERSION}\n' in told, told)
    return top


class Elsewhere:
    """A machine with a release and python3: another user, and no way to write beside it."""

    def __init__(self, folder: pathlib.Path, top: pathlib.Path):
        self.top, self.work, tools = top, folder / 'work', folder / 'tools'
        for place in (self.work, self.work / 'target', tools):
            place.mkdir()
            place.chmod(0o777)
        folder.chmod(0o755)
        shutil.copytree(ROOT / 'examples', self.work / 'examples')
        for tool in TOOLS:
            (tools / tool).symlink_to(shutil.which(tool))
        (tools / 'python3').symlink_to(python_for_all())
        self.path = f'{top}/bin:{tools}'
        for place in [top, *top.rglob('*')]:
            place.chmod(place.stat().st_mode & 0o555)
        mounts = os.geteuid() == 0 and run('unshare', '-m', 'true').status == 0
        self.shell = MOUNTED.format(top) if mounts else NOBODY
        self.alone = ['unshare', '-m'] if mounts else []

    def command(self, *words: object) -> list[str]:
        return [*self.alone, 'bash', '-c', self.shell, 'bash', 'env', f'PATH={self.path}', f'TMPDIR={self.work}',
                *map(str, words)]

    def run(self, line: str, given: bytes = b'') -> Seen:
        """A line of shell there."""
        return run(*self.command('bash', '-c', f'cd {self.work} && {line}'), given=given)

    def there(self) -> dict[str, int]:
        return {str(place): place.lstat().st_mtime_ns for place in [self.top, *self.top.rglob('*')]}


def day(tally: Tally, machine: Elsewhere) -> None:
    """All that README shows, as it is shown; what is asked wrongly is told by the names that are installed."""
    tally.check('no prover', machine.run('rt version').status == 127 and machine.run('gcc -v').status == 127)
    tally.check('nothing can be written', machine.run(f'echo > {machine.top}/lib/x').status != 0)
    for kind, block in blocks((ROOT / 'README.md').read_text()):
        for command, shown in re.findall(r'^\$ (.*)\n((?:(?!\$ ).*\n)*)', block, re.M) if kind == 'console' else []:
            if ' gcc ' in command:  # a program that is compiled wants a compiler
                command, shown = command.partition(' && ')[0], ''
            seen = machine.run(command.replace('./desk', 'desk').replace('./key', 'key'))
            tally.check(f'README: {command}', timeless(seen.out.decode()) == timeless(shown), seen)
    seen = machine.run('desk --version; key --version')
    told = re.fullmatch(r'desk (.*)\nkey (.*)\n', seen.out.decode())
    library = run('sha256sum', machine.top / 'lib/libdesk.so').out.decode().split()[0]
    commit = (machine.top / 'lib/marking-desk/COMMIT').read_text()[:12]
    wanted = f'{VERSION}, commit {commit}, library {library}'
    tally.check('--version', told is not None and told[1] == told[2] == wanted, seen)
    for line, word in [('desk mark --help', 'usage: desk mark '), ('key --help', 'usage: key PAPER')]:
        seen = machine.run(line)
        tally.check(line, seen.out.decode().startswith(word) and b'./' not in seen.out and seen.status == 0, seen)
    for line, word in [('desk marks', 'mean mark?; desk --help says'), ('desk audit none.db', ': desk mark with --new'),
                       ('key --words', 'no option --words: key --help')]:
        tally.check(line, machine.run(line).failed(word), machine.run(line))
    seen = machine.run('key', b'05\n')
    tally.check('a refusal in words', (seen.out, seen.status) == (b'2f020001\n', 1) and 'number 2' in seen.err, seen)


def sitting(tally: Tally, machine: Elsewhere) -> None:
    """A sitting, handed in and taken into a register."""
    class There(Hall):
        @property
        def command(self) -> list[str]:
            return machine.command('desk', *super().command[1:])

    hall = There(machine.work / 'hall', EXAMPLES['p'], ['anna', 'bert'])
    hall.folder.chmod(0o777)
    (hall.folder / 'sitecustomize.py').write_text('')
    hall.start()
    anna = Candidate(hall, 'anna')
    moves = [anna.move('put 5')[0], anna.move('put 11')[0], anna.hand_in()[0]]
    anna.leave()
    tally.check('moves', moves == [200, 200, 200], moves)
    tally.check('ended', hall.end(signal.SIGTERM) == 0, hall.complaints())
    handed = hall.answers / 'anna.hex'
    tally.check('handed in', handed.exists() and handed.read_bytes() == text_of([5, 11]), os.listdir(hall.answers))
    seen = machine.run('desk collect hall/answers --register hall/register.db --new && desk audit hall/register.db')
    tally.check('collected', b'1 Best; 1 Absent' in seen.out and seen.status == 0, seen)


def others(tally: Tally, machine: Elsewhere) -> None:
    """Another python, another machine: one sentence each."""
    for name, change, word in [
            ('an old python', 'sys.version_info = (3, 9, 2)', 'Python 3.10 or later is needed, and this is 3.9.2'),
            ('another machine', 'os.uname = lambda: (\'Linux\', 0, 0, 0, \'aarch64\')', 'this is Linux on aarch64'),
            ('another system', 'os.uname = lambda: (\'Darwin\', 0, 0, 0, \'x86_64\')', 'this is Darwin on x86_64')]:
        seen = machine.run(CHANGED.format(change, machine.top / 'bin' / 'desk'))
        tally.check(name, seen.failed(word), seen)


def told(tally: Tally, top: pathlib.Path) -> None:
    """A manual page for each command with its options, and words that bash completes."""
    for name in COMMANDS:
        page = (top / 'share/man/man1' / f'desk-{name}.1').read_text().replace('\\-', '-')
        options = set(re.findall(r'^ +(--[\w-]+)', run(ROOT / 'desk', name, '--help').out.decode(), re.M))
        tally.check(f'desk-{name}.1', all(option in page for option in options) and './desk' not in page, options)
    completion = top / 'share/bash-completion/completions/desk'
    for words, wanted in [('desk che', 'check'), ('desk mark --sl', '--slips'), ('desk', ' '.join(COMMANDS))]:
        typed = words.split() if words != 'desk' else ['desk', "''"]
        seen = run('bash', '-c', f'. {completion}; COMP_WORDS=({" ".join(typed)}) COMP_CWORD={len(typed) - 1}; _desk; '
                                 'echo "${COMPREPLY[@]}"')
        tally.check(f'completed: {words}', seen.out.decode().startswith(wanted), seen)


def compiled(tally: Tally, folder: pathlib.Path, top: pathlib.Path) -> None:
    """The example in C against what is installed."""
    if not shutil.which('pkg-config'):
        print('examples/desk.c was not compiled against a release: no pkg-config is here')
        return
    settings = {'PKG_CONFIG_PATH': f'{top}/lib/pkgconfig', 'LD_LIBRARY_PATH': f'{top}/lib'}
    seen = run('pkg-config', '--modversion', 'marking-desk', **settings)
    tally.check('its version', seen.out.decode().strip() == VERSION, seen)
    source = top / 'share/doc/marking-desk/examples/desk.c'
    for kind, libraries in [('shared', '$(pkg-config --libs marking-desk)'), ('archive', f'{top}/lib/libdesk.a')]:
        program = folder / f'desk-{kind}'
        seen = run(source, '-o', program, shell=f'gcc "$@" $(pkg-config --cflags marking-desk) {libraries}', **settings)
        tally.check(f'{kind}: compiled', seen == Seen(b'', '', 0), seen)
        seen = run(program, ROOT / 'examples' / 'p.hex', **settings)
        tally.check(kind, seen == Seen(b'2105\n210b\nUncut 4 0 0\ngap 5 put: 3 uncut\n', '', 0), seen)


def installed_by_dpkg(tally: Tally, folder: pathlib.Path, package: bytes) -> None:
    """The package in a root of its own: what dpkg knows of it, and that it works there."""
    if not shutil.which('dpkg') or os.geteuid() != 0:
        print('the Debian package was not installed: no dpkg is here, or not by root')
        return
    root, file = folder / 'root', folder / 'package.deb'
    file.write_bytes(package)
    for place in ['updates', 'info']:
        (root / 'var/lib/dpkg' / place).mkdir(parents=True)
    (root / 'var/lib/dpkg/status').touch()
    seen = run('dpkg', f'--root={root}', '--force-depends', '-i', file)
    tally.check('dpkg -i', seen.status == 0, seen)
    tally.check('as it was packed', run('dpkg', f'--root={root}', '-V', 'marking-desk') == Seen(b'', '', 0))
    seen = run('dpkg', f'--root={root}', '-s', 'marking-desk')
    tally.check('what it is', f'Version: {VERSION}\n' in seen.out.decode() and b'proved by ' in seen.out, seen)
    seen = run(root / 'usr/bin/key', ROOT / 'examples' / 'p.hex')
    tally.check('key', seen.out.startswith(b'2105\n210b\n') and seen.status == 0, seen)
    seen = run(root / 'usr/bin/desk', 'check', ROOT / 'examples' / 'p.hex')
    tally.check('desk', seen.out.startswith(b'accepted: 14 points') and seen.status == 0, seen)
    unit = (root / 'usr/lib/systemd/system/marking-desk@.service').read_text()
    tally.check('its unit', 'ExecStart=/usr/bin/desk sit ' in unit and 'ProtectSystem=strict' in unit, unit)
    seen = run('dpkg', f'--root={root}', '-r', 'marking-desk')
    tally.check('removed', seen.status == 0 and not (root / 'usr').exists(), [*root.rglob('usr/*')])


def main() -> None:
    tally = Tally()
    with tempfile.TemporaryDirectory() as name:
        folder = pathlib.Path(name)
        packages = made(tally, folder)
        tarball, package = (packages[file] for file in (f'{NAME}-x86_64.tar.gz', f'marking-desk_{VERSION}_amd64.deb'))
        top = unpacked(tally, folder, tarball)
        told(tally, top)
        compiled(tally, folder, top)
        machine = Elsewhere(folder, top)
        before = machine.there()
        day(tally, machine)
        sitting(tally, machine)
        others(tally, machine)
        tally.check('nothing was written beside it', machine.there() == before)
        installed_by_dpkg(tally, folder, package)
        for place in [top, *top.rglob('*')]:
            place.chmod(0o755)
    tally.close()


if __name__ == '__main__':
    main()
