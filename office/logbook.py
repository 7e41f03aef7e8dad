"""The log of a hall, open for one desk alone: what is taken down is on the disk before anybody is told of it.

Lines that come in together are written together, so that a hundred candidates do not wait for a hundred disks. The
file in its place stays ours: where another program has replaced, removed or rewritten it, all that was kept is put
back, and what was found is kept beside.
"""
import contextlib
import errno
import fcntl
import os
import tempfile
from collections.abc import Iterable, Iterator

from office.chain import Chain, Event, Reader
from office.clock import Clock, spelled
from office.command import Fault, mention, printable

LOG = 'sitting.log'
OTHERS, TRIES, TAIL, PIECE = 9, 3, 1 << 12, 1 << 20
MEDDLED = 'another program writes into it again and again'


class NotKnown(OSError):
    """The disk failed in such a way that it may or may not have what was to be kept."""


class Logbook:
    """A log in its folder, which no other desk may open meanwhile. Nothing is written before it is begun."""

    def __init__(self, folder: str):
        self.folder, self.file = folder, os.path.join(folder, LOG)
        self.missing = missing_of(folder)
        self.lines: list[bytes] = []
        self.chain, self.clock = Chain(''), Clock()
        self.kept = self.chain.end
        self.opened, self.length, self.seen, self.copy = -1, 0, 0, Copy()
        self.new, self.old, self.begun, self.clean = False, '', False, True
        try:
            os.makedirs(folder, exist_ok=True)
            self.locked = os.open(folder, os.O_RDONLY | os.O_DIRECTORY)
            fcntl.flock(self.locked, fcntl.LOCK_EX | fcntl.LOCK_NB)
        except BlockingIOError as fault:
            os.close(self.locked)
            raise Fault(f'{printable(folder)} is in use: another ./desk sit serves these answers') from fault
        except OSError as fault:
            raise Fault(f'cannot write in {printable(folder)}: {fault.strerror}') from fault

    def is_there(self) -> bool:
        return os.path.lexists(self.file)

    def events(self, paper: str) -> Iterator[Event]:
        """What a log of a time before has, a line at a time. Nothing is written."""
        try:
            self.opened = os.open(self.file, os.O_RDWR)
            with open(os.dup(self.opened), 'rb') as opened:
                read = Reader(self.file, opened)
                if read.paper != paper:
                    raise Fault(f'{printable(self.file)} is the log of another paper: give another folder')
                yield from read
        except OSError as fault:
            raise self.unable(fault) from fault
        self.chain, self.kept, self.length = read.chain, read.chain.end, read.length

    def top(self, paper: str) -> None:
        """Has a log of a paper made, in the place of one of an older form if that is there."""
        self.chain, self.new = Chain(paper), True
        self.lines = [self.chain.top]

    def add(self, who: str, machine: str, act: str, at: str = '') -> Event:
        """Takes an event down. It is not kept yet."""
        event, line = self.chain.added(at or spelled(self.clock.now()), who, machine, act)
        self.lines.append(line)
        return event

    def begin(self) -> None:
        """Writes what was taken down so far: from now on the log is kept."""
        self.begun = True
        try:
            if self.new:
                data, self.lines = b''.join(self.lines), []
                self.old = self.put([data], f'{self.file}.1')
                self.length, self.kept = len(data), self.chain.end
                for folder in self.missing:
                    sync(os.path.dirname(folder))
            self.cut()
            self.copy.make(self.folder, pieces_of(self.opened, self.length))
            self.keep()
        except OSError as fault:
            raise self.unable(fault) from fault

    def keep(self) -> None:
        """Keeps all that was taken down: when this is done it is on the disk. An OSError says that nothing of it is,
        NotKnown that some may be."""
        lines, self.lines = self.lines, []
        try:
            if lines:
                self.write(b''.join(lines))
        except OSError:
            self.chain.go_back(self.kept)
            raise
        self.kept = self.chain.end

    def write(self, data: bytes) -> None:
        """Writes behind what is kept; again, where another program has written into the file meanwhile. A write that
        fails leaves nothing there, if the disk can still do that."""
        for _ in range(TRIES):
            self.mend()
            try:
                write_at(self.opened, data, self.length)
                os.fsync(self.opened)
                alone = self.copy.is_before(data, self.opened)
            except OSError:
                self.take_back()
                raise
            if alone:
                break
            self.take_back()
        else:
            raise OSError(errno.EBUSY, MEDDLED)
        self.length += len(data)
        self.copy.add(data)
        with contextlib.suppress(OSError):
            self.seen = os.fstat(self.opened).st_mtime_ns

    def take_back(self) -> None:
        """Cuts off what was just written. Where that fails, nobody knows what the disk has."""
        self.clean = False
        try:
            self.cut()
        except OSError as fault:
            raise NotKnown(*fault.args) from fault

    # ---- The file stays ours, and clean

    def mend(self) -> None:
        """Sees to it that the log is in its place and ends behind what was kept."""
        for _ in range(TRIES):
            if not self.clean:
                self.cut()
            if not self.changed():
                return
            found = self.put(self.pieces(), f'{self.file}.other')
            mention(f'{printable(self.file)} was changed or removed by another program: the log is put back as it was'
                    + f', and what was there is now {printable(found)}' * bool(found))
        raise OSError(errno.EBUSY, MEDDLED)

    def cut(self) -> None:
        """Cuts off what stands behind all that was kept."""
        self.clean = False
        if os.fstat(self.opened).st_size > self.length:
            os.ftruncate(self.opened, self.length)
        os.fsync(self.opened)
        os.fsync(self.locked)
        self.clean, self.seen = True, 0

    def changed(self) -> bool:
        """Whether what is in the log's place is no longer what was written. It is read again only if it was touched."""
        try:
            ours = os.fstat(self.opened)
            if not os.path.samestat(os.stat(self.file), ours) or ours.st_size != self.length:
                return True
            touched = ours.st_mtime_ns != self.seen or not self.copy.is_before(b'', self.opened)
            if touched and not self.copy.is_in(self.opened):
                return True
        except OSError:
            return True
        self.seen = ours.st_mtime_ns
        return False

    def put(self, pieces: Iterable[bytes], beside: str) -> str:
        """Puts a file of these pieces into the log's place. What stood there is kept under a name beside, which is
        given back."""
        new = f'{self.file}.new'
        with contextlib.suppress(FileNotFoundError):
            os.unlink(new)
        made = os.open(new, os.O_RDWR | os.O_CREAT | os.O_EXCL, 0o600)
        try:
            length = 0
            for piece in pieces:
                length += write_at(made, piece, length)
            os.fsync(made)
            found = kept_beside(self.file, beside)
            os.replace(new, self.file)
        except OSError:
            os.close(made)
            with contextlib.suppress(OSError):
                os.unlink(new)
            raise
        if self.opened >= 0:
            os.close(self.opened)
        self.opened, self.clean, self.seen = made, False, 0
        os.fsync(self.locked)
        self.clean = True
        return found

    def pieces(self) -> Iterator[bytes]:
        """What was kept, from the copy; where there is none, from our file, as far as nobody has written into it."""
        return pieces_of(self.copy.opened if self.copy.good else self.opened, self.length)

    def close(self) -> None:
        """Gives the folder free, with the log in its place. One that was never begun leaves nothing behind."""
        if self.begun:
            try:
                self.mend()
            except OSError as fault:
                mention(str(self.unable(fault)))
        self.copy.close()
        for opened in (self.opened, self.locked):
            with contextlib.suppress(OSError):
                os.close(opened)
        for folder in self.missing:
            with contextlib.suppress(OSError):
                os.rmdir(folder)

    def give_up(self) -> None:
        """Takes away a log that was just made: the start has failed."""
        if self.new and self.begun:
            with contextlib.suppress(OSError):
                os.replace(self.old, self.file) if self.old else os.unlink(self.file)
        self.begun = False

    def unable(self, fault: OSError) -> Fault:
        return Fault(f'cannot keep {printable(self.file)}: {fault.strerror}')


class Copy:
    """What was kept, once more, in a file that no other program sees: for the case that one writes into ours. Where it
    cannot be made, the log goes on without."""

    def __init__(self) -> None:
        self.opened, self.length, self.good = -1, 0, False

    def make(self, folder: str, pieces: Iterable[bytes]) -> None:
        try:
            with tempfile.TemporaryFile(dir=folder) as made:
                self.opened = os.dup(made.fileno())
            self.good = True
        except OSError as fault:
            self.failed(fault)
        for piece in pieces:
            self.add(piece)

    def add(self, data: bytes) -> None:
        if self.good:
            try:
                self.length += write_at(self.opened, data, self.length)
            except OSError as fault:
                self.failed(fault)

    def failed(self, fault: OSError) -> None:
        self.good = False
        mention(f'no second copy of the log is kept: {fault.strerror}')

    def is_in(self, other: int) -> bool:
        """Whether a file begins with all of it. Without a copy nobody can tell that it does not."""
        return not self.good or all(here == there for here, there in zip(
            pieces_of(self.opened, self.length), pieces_of(other, self.length)))

    def is_before(self, data: bytes, other: int) -> bool:
        """Whether a file has the end of it, and then the data."""
        begin = max(self.length - TAIL, 0)
        return not self.good or os.pread(other, TAIL + len(data), begin) == os.pread(self.opened, TAIL, begin) + data

    def close(self) -> None:
        if self.opened >= 0:
            os.close(self.opened)


def write_at(opened: int, data: bytes, at: int) -> int:
    """Writes all of the data; how much that is."""
    done = 0
    while done < len(data):
        some = os.pwrite(opened, data[done:], at + done)
        if not some:
            raise OSError(errno.ENOSPC, os.strerror(errno.ENOSPC))
        done += some
    return done


def pieces_of(opened: int, length: int) -> Iterator[bytes]:
    """The first bytes of a file, piece by piece. That it is shorter is a fault."""
    for at in range(0, length, PIECE):
        piece = os.pread(opened, min(PIECE, length - at), at)
        if len(piece) < min(PIECE, length - at):
            raise OSError(errno.EIO, 'it was cut short')
        yield piece


def sync(folder: str) -> None:
    opened = os.open(folder, os.O_RDONLY | os.O_DIRECTORY)
    try:
        os.fsync(opened)
    finally:
        os.close(opened)


def missing_of(folder: str) -> list[str]:
    """The folders that have to be made for one to be there, the innermost first."""
    found: list[str] = []
    folder = os.path.abspath(folder)
    while not os.path.lexists(folder):
        found.append(folder)
        folder = os.path.dirname(folder)
    return found


def kept_beside(file: str, name: str) -> str:
    """Keeps what is in a place under a name beside as well, or under that with a number; says which. At no moment is
    the place empty, unless the disk knows no links."""
    for number in range(1, OTHERS + 1):
        other = name if number == 1 else f'{name}.{number}'
        if os.path.lexists(other):
            continue
        try:
            os.link(file, other, follow_symlinks=False)
        except FileNotFoundError:
            return ''
        except OSError:
            os.rename(file, other)
        return other
    return ''
