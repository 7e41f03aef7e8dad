"""What is built in a clone: the library and the program, proved and built anew unless they are of the very sources that
are there.

  python3 -m office.built    builds the program, if need be, for ./key

A stamp in target/built has the SHA-256 of every file that a thing was made of, and of what was made. Times decide
nothing: a file whose size and time of change are as noted need not be hashed again, any other is. Beside the stamp lies
what a look found, when all was in order: as long as no file and no folder has changed since, that is enough, and
nothing is listed. What only a build needs is imported there, as every command looks here first.
"""
import contextlib
import os
import re
import time
from collections.abc import Callable, Collection, Iterator

from office.command import ROOT, Fault, run, say
from office.places import ARCHIVE, PROGRAM, SHARED, TARGET
from office.records import dataclass

STAMPS, LIST = f'{TARGET}/built', f'{ROOT}/crates.txt'
# What of a crate the prover reads, or a program is run on.
PARTS = ('src', 'specs', 'proofs', 'stdin', 'stdout', 'args', 'status', 'data')
# A file that was changed so shortly before it was noted may be changed again without another time, in nanoseconds.
SETTLED = 2 * 10 ** 9
# Digits of a hash.
SHA256 = 64
# Before the tool that built a thing, in its stamp.
BY = 'by '


@dataclass(frozen=True)
class Noted:
    """A file in a stamp: its hash, its size, and its time of change, or 0 where that tells nothing yet."""
    sha256: str
    size: int
    changed: int


@dataclass(frozen=True)
class Made:
    """A thing that is built: what it is, its file, the crate that it is made of, or else a file, what by, and how."""
    what: str
    file: str
    source: str
    tool: str
    make: Callable[[str], None]

    @property
    def stamp(self) -> str:
        return f'{STAMPS}/{os.path.basename(self.file)}'

    @property
    def seen(self) -> str:
        """Where it lies what a look found."""
        return f'{self.stamp}.seen'

    def places(self) -> Iterator[str]:
        """The files that it is made of, and the folders that they lie in, each before it is listed, with a slash at its
        end: the list of crates, and what its crate has and all crates below."""
        if os.path.isabs(self.source):
            yield self.source
        else:
            yield LIST
            for name in rows_of(self.source):
                yield from places_in(f'{ROOT}/crates/{name}/', PARTS)

    def sources(self) -> list[str]:
        """The files that it is made of."""
        return [path for path in self.places() if not path.endswith('/')]

    def sha256_of(self, path: str) -> str:
        """The hash of a file; of the list of crates that of the rows that matter."""
        import hashlib
        if path == LIST:
            return hashlib.sha256(repr(rows_of(self.source)).encode()).hexdigest()
        with open(path, 'rb') as opened:
            return hashlib.sha256(opened.read()).hexdigest()


def rows_of(crate: str) -> dict[str, list[str]]:
    """A crate and all below it in the list of crates, each with those that it uses."""
    with open(LIST) as opened:
        # Between a crate's name and the colon may stand what kind it is.
        listed = {name: used.split() for name, used in re.findall(r'^(\w+)[^:#\n]*:(.*)$', opened.read(), re.M)}
    names = [crate]
    for name in names:
        names += [used for used in listed.get(name, []) if used in listed and used not in names]
    return {name: listed.get(name, []) for name in names}


def places_in(folder: str, parts: Collection[str] = ()) -> Iterator[str]:
    """A folder and all that is in it, or in some parts of it."""
    yield folder
    with os.scandir(folder) as entries:
        for entry in entries:
            if not parts or entry.name in parts:
                yield from places_in(f'{entry.path}/') if entry.is_dir() else [entry.path]


def prove_archive(name: str) -> None:
    by_rt('host', ['rt', 'lib'], ARCHIVE, name)


def link(_: str) -> None:
    step('gcc', '-shared', '-o', SHARED, '-Wl,--whole-archive', ARCHIVE, '-Wl,--no-whole-archive')


def prove_program(name: str) -> None:
    # rt builds a program to run it: with no input it gives the key of the blank paper.
    by_rt('key', ['rt', 'run'], PROGRAM, name)


def by_rt(crate: str, command: list[str], file: str, name: str) -> None:
    """Proves and builds a crate, and takes what was made of it to its place. The one before goes first, as it is of
    other sources, and rt makes again what is gone."""
    import shutil
    from office.proving import built_by_rt
    made = f'{ROOT}/crates/{crate}/out/{os.path.basename(file)}'
    remove(made)
    built_by_rt(command, crate, rows_of(crate), name)
    if os.path.exists(made):
        os.makedirs(os.path.dirname(file), exist_ok=True)
        shutil.copy2(made, file)


LIBRARY = (Made('library', ARCHIVE, 'host', 'rt', prove_archive), Made('library', SHARED, ARCHIVE, 'gcc', link))
KEY = Made('program', PROGRAM, 'key', 'rt', prove_program)


def build_library(name: str = 'desk') -> None:
    """The archive, and the library that is linked of it."""
    for made in LIBRARY:
        build(made, name)


def build(made: Made, name: str) -> None:
    """Makes a thing unless it is of the sources that are there. One of other sources is not left."""
    reason = ''
    try:
        reason = wanting(made)
        if reason:
            with alone(name):
                reason = wanting(made)
                if reason:
                    make_anew(made, name, reason)
    except OSError as fault:
        state = f'the {made.what} {reason}, and it cannot be built here' if reason else f'the {made.what}: its sources'
        raise Fault(f'{state}: {fault.strerror}') from fault


def wanting(made: Made) -> str:
    """Why a thing has to be built; nothing if it is of the sources that are there. States are taken before a folder is
    listed and before a file is read: what changes later has another."""
    if as_seen(made):
        return ''
    began, now = time.time_ns(), {path: state_of(path) for path in (made.file, made.stamp) if os.path.exists(path)}
    noted = noted_of(made)
    if not noted or made.file not in now:
        return 'is not built yet'
    now |= {path: state_of(path) for path in made.places()}
    there = {path for path in now if not path.endswith('/') and path != made.stamp}
    for path in sorted(noted.keys() ^ there):
        return f'is of other sources: {called(path)} {"came" if path in there else "went"} since'
    unsure = [path for path in there if now[path] != (noted[path].size, noted[path].changed)]
    for path in unsure:
        if made.sha256_of(path) != noted[path].sha256:
            return f'is of other sources: {called(path)} was changed since'
    with contextlib.suppress(OSError):  # the next look takes longer, that is all
        if unsure:
            note(made, noted | {path: noted_at(began, noted[path].sha256, now[path]) for path in unsure})
        elif all(changed + SETTLED < began for _, changed in now.values()):
            write(made.seen, seen_as(now))
    return ''


def as_seen(made: Made) -> bool:
    """Whether every file and every folder is as the last whole look found it, so that none came or went either."""
    try:
        with open(made.seen) as opened:
            seen = opened.read()
        return seen == seen_as({path: state_of(path) for path in [
            f'{ROOT}/{line.split(" ", 2)[2]}' for line in seen.splitlines()]})
    except (OSError, ValueError, IndexError):
        return False


def seen_as(states: dict[str, tuple[int, int]]) -> str:
    """What a look found, a file or a folder a line."""
    return ''.join([f'{size} {changed} {called(path)}\n' for path, (size, changed) in states.items()])


def make_anew(made: Made, name: str, reason: str) -> None:
    """Builds a thing and notes what it was built of. The one before goes first: nothing is answered with it."""
    import shutil
    if not shutil.which(made.tool):
        raise Fault(f'the {made.what} {reason}, and there is no {made.tool} to build it with')
    before = {path: noted_now(made, path) for path in made.sources()}
    for path in (made.seen, made.stamp, made.file):
        remove(path)
    if made.tool == 'rt':
        say(f'{name}: the {made.what} {reason}: proving and building it, which takes minutes the first time ...')
    began = time.monotonic()
    made.make(name)
    if made.tool == 'rt':
        say(f' done in {time.monotonic() - began:.0f} s\n')
    if not os.path.exists(made.file):
        raise Fault(f'the {made.what} could not be built: {made.tool} made nothing')
    if {path: made.sha256_of(path) for path in made.sources()} != {path: was.sha256 for path, was in before.items()}:
        raise Fault(f'sources of the {made.what} were changed while it was being built: try again')
    note(made, before | {made.file: noted_now(made, made.file)}, tool_here(made))


@contextlib.contextmanager
def alone(name: str) -> Iterator[None]:
    """While one desk builds, others wait."""
    import fcntl
    os.makedirs(STAMPS, exist_ok=True)
    lock = os.open(f'{STAMPS}/lock', os.O_RDWR | os.O_CREAT | os.O_CLOEXEC, 0o666)
    try:
        try:
            fcntl.flock(lock, fcntl.LOCK_EX | fcntl.LOCK_NB)
        except BlockingIOError:
            say(f'{name}: another desk is building: waiting for it\n')
            fcntl.flock(lock, fcntl.LOCK_EX)
        yield
    finally:
        os.close(lock)


def noted_of(made: Made) -> dict[str, Noted]:
    """What a stamp has, by the paths of files; nothing where there is none, or one that was cut off."""
    try:
        with open(made.stamp) as opened:
            lines = opened.read().splitlines()
    except (OSError, ValueError):
        return {}
    found = [line.split(' ', 3) for line in lines if not line.startswith(BY)]
    try:
        noted = {f'{ROOT}/{path}': Noted(sha256, int(size), int(changed)) for sha256, size, changed, path in found}
    except ValueError:
        return {}
    return noted if all(len(one.sha256) == SHA256 for one in noted.values()) else {}


def note(made: Made, files: dict[str, Noted], by: str = '') -> None:
    """Writes a stamp, of the same tool as before if no other is named."""
    lines = [f'{noted.sha256} {noted.size} {noted.changed} {called(path)}\n' for path, noted in sorted(files.items())]
    write(made.stamp, ''.join([f'{BY}{by or built_by(made)}\n', *lines]))


def write(file: str, text: str) -> None:
    """Writes a file; at every moment the old one or the new one is there, whole."""
    beside = f'{file}.{os.getpid()}'
    with open(beside, 'w') as opened:
        opened.write(text)
    os.replace(beside, file)


def remove(file: str) -> None:
    """Removes a file, if it is there."""
    with contextlib.suppress(FileNotFoundError):
        os.unlink(file)


def built_by(made: Made) -> str:
    """The tool that built a thing, as it names itself."""
    try:
        with open(made.stamp) as opened:
            first = opened.readline()
            return first.removeprefix(BY).strip() if first.startswith(BY) else ''
    except OSError:
        return ''


def tool_here(made: Made) -> str:
    """The tool that would build a thing here."""
    import subprocess
    asked = {'rt': ['rt', 'version'], 'gcc': ['gcc', '--version']}[made.tool]
    told = subprocess.run(asked, stdin=subprocess.DEVNULL, capture_output=True, text=True, check=False).stdout
    return told.splitlines()[0] if told else made.tool


def called(path: str) -> str:
    """A file's path in the clone."""
    return path.removeprefix(f'{ROOT}/')


def state_of(path: str) -> tuple[int, int]:
    """The size of a file or a folder, and when it was changed."""
    now = os.stat(path)
    return now.st_size, now.st_ctime_ns


def noted_now(made: Made, path: str) -> Noted:
    """A file as it is."""
    began, state = time.time_ns(), state_of(path)
    return noted_at(began, made.sha256_of(path), state)


def noted_at(began: int, sha256: str, state: tuple[int, int]) -> Noted:
    """A file with its hash and the state that it had at a time, before it was hashed."""
    size, changed = state
    return Noted(sha256, size, changed if changed + SETTLED < began else 0)


def step(*command: str) -> None:
    """A step of a build. What it says is told only if it fails."""
    import subprocess
    done = subprocess.run(command, cwd=ROOT, stdin=subprocess.DEVNULL, stdout=subprocess.PIPE,
                          stderr=subprocess.STDOUT, check=False)
    if done.returncode != 0:
        say('\n' + done.stdout.decode('utf-8', 'replace'))
        raise Fault(f'it could not be built: {" ".join(command[:3])} failed with status {done.returncode}')


if __name__ == '__main__':
    run('key', lambda _: build(KEY, 'key'))
