"""What every command shares: a fault becomes a message and a status in one place, files are read and written whole."""
import argparse
import contextlib
import os
import re
import select
import signal
import stat
import sys
from collections.abc import Callable, Iterable

TYPE_CHECKING = False
if TYPE_CHECKING:
    from typing import NoReturn

ROOT = os.path.dirname(os.path.dirname(os.path.realpath(__file__)))
# A clone has its sources, and builds. What a release installs has none, and nothing is written beside it.
CLONE = os.path.exists(f'{ROOT}/crates.txt')
REFUSED, FAILED, INTERRUPTED = 1, 2, 130
# More bytes than any text, listing or sheet has, and than a list of answers or candidates.
ENOUGH, LISTS = 1 << 20, 1 << 26
NUMBER = re.compile(r'-[0-9]+(?:\.[0-9]*)?')
# Where nothing tells how wide a terminal is.
WIDE = 80
# Standard input, once it was read; what was done so far, the latest last.
READ: list[str] = []
DONE = ['nothing was written']


class Fault(Exception):
    """What a user has to mend, a sentence a line; of a refusal also the number and the line."""

    def __init__(self, message: str, status: int = FAILED, number: int | None = None, line: int | None = None):
        super().__init__(message)
        self.status, self.number, self.line = status, number, line


class Layout(argparse.RawDescriptionHelpFormatter):
    """Lays a help out. One is made for each argument that is added, and would ask shutil how wide it is to be, which
    takes long to load."""

    def __init__(self, prog: str):
        super().__init__(prog, width=columns() - 2)


class Parser(argparse.ArgumentParser):
    """Reads arguments; what is wrong with them is a fault like any other, and the help is written like any result."""

    def asked(self, arguments: list[str]) -> argparse.Namespace:
        """What the arguments ask for. An option that is none is named before anything is missed."""
        self.allow_abbrev = False
        known = self._option_string_actions
        for word in arguments[:arguments.index('--') if '--' in arguments else None]:
            option = word.partition('=')[0]
            if not option.startswith('-') or option == '-' or NUMBER.fullmatch(option) or option in known:
                continue
            if option.startswith('--') or option[:2] not in known:
                meant = nearest(option, known)
                self.error(f'no option {printable(option)}{f": did you mean {meant}?" if meant else ""}')
        if not any(word.startswith(('-h', '--help')) for word in arguments):
            self.usage = ''  # which only a help shows, and takes long to make
        asked, more = self.parse_known_intermixed_args(arguments)
        if more:
            self.error(f'one argument too many: {printable(more[0])}')
        return asked

    def error(self, message: str) -> 'NoReturn':
        raise Fault(f'{message}; {self.prog} --help says how to ask')

    def _print_message(self, message: str, file: object = None) -> None:
        write_out(as_called(message).encode())


def columns() -> int:
    """How wide the terminal is, or is said to be."""
    told = os.environ.get('COLUMNS', '')
    with contextlib.suppress(OSError):
        return (int(told) if told.isdecimal() else 0) or os.get_terminal_size(1).columns or WIDE
    return WIDE


def say(words: str) -> None:
    """To standard error, as far as that takes it."""
    with contextlib.suppress(OSError):
        os.write(2, words.encode())


def as_installed(words: str) -> str:
    """Words about the commands for those who have them installed."""
    return words.replace('./desk', 'desk').replace('./key', 'key')


def as_called(words: str) -> str:
    """Words about the commands as they are called here."""
    return words if CLONE else as_installed(words)


def nearest(word: str, names: Iterable[str]) -> str:
    """The name that somebody meant, most likely; '' where none is near."""
    from difflib import get_close_matches  # which no command needs that is asked rightly
    known = [*names]
    alike = [name for name in known if name.casefold() == word.casefold()]
    return (alike or get_close_matches(word, known, 1) or [''])[0]


def printable(name: str) -> str:
    """A file's name for a message or a title."""
    return ''.join(c if c.isprintable() else '?' for c in name)


def title_of(file: str) -> str:
    """A file's name for a title, without its folder and its ending."""
    return printable(os.path.splitext(os.path.basename(file))[0])


def tell(name: str, message: str) -> None:
    """Says something on standard error, a sentence a line. Where nobody can be told, the status still tells."""
    lines = ''.join(f'{name}: {sentence}\n' for sentence in as_called(message).splitlines()).encode('utf-8', 'replace')
    with contextlib.suppress(OSError):
        while lines:
            lines = lines[os.write(2, lines):]


def mention(message: str) -> None:
    """Says something on standard error while others wait for an answer: if it is not taken at once, it is not said."""
    lines = ''.join(f'desk: {sentence}\n' for sentence in as_called(message).splitlines()).encode('utf-8', 'replace')
    with contextlib.suppress(OSError):
        if select.select([], [2], [], 0)[1]:
            os.write(2, lines[:select.PIPE_BUF])


def write_out(data: bytes) -> None:
    """Writes all of the data to standard output. A reader who leaves ends the command, as with other programs."""
    signal.signal(signal.SIGPIPE, signal.SIG_DFL)
    done('standard output was written in part, or not at all')  # whoever stops a write is not told how far it went
    try:
        while data:
            data = data[os.write(1, data):]
            done('standard output was written' + ' in part' * bool(data))
    except OSError as fault:
        raise Fault(f'standard output was not written: {fault.strerror}') from fault


def write_json(value: object) -> None:
    """Writes a value for programs: JSON in UTF-8, fields in the order of docs/JSON.md."""
    import json
    lines = [json.dumps(one, ensure_ascii=False) for one in (value if isinstance(value, list) else [value])]
    text = ',\n'.join(lines)
    write_out((f'[{text}]\n' if isinstance(value, list) else f'{text}\n').encode('utf-8', 'replace'))


def read_in(file: str, most: int = ENOUGH) -> bytes:
    """The bytes of a file, or of standard input for a dash, which can be read once."""
    if file == '-' and READ:
        raise Fault('- stands for standard input, and can be named once')
    READ.extend([file] * (file == '-'))
    return read_from(0 if file == '-' else file, file, most)


def files_in(folder: str, endings: tuple[str, ...] = ('.hex',)) -> list[str]:
    """The files in a folder with one of the endings, in the order of their names."""
    try:
        names = sorted(name for name in os.listdir(folder) if name.endswith(endings))
    except OSError as fault:
        raise Fault(f'cannot read {printable(folder)}: {fault.strerror}') from fault
    if not names:
        raise Fault(f'{printable(folder)} is a folder with no file {" or ".join(f"*{one}" for one in endings)} in it')
    return [os.path.join(folder, name) for name in names]


def read_plain(file: str) -> bytes:
    """The bytes of a plain file. Nothing else is waited for."""
    try:
        opened = os.open(file, os.O_RDONLY | os.O_NONBLOCK | os.O_CLOEXEC)
    except OSError as fault:
        raise Fault(f'cannot read {printable(file)}: {fault.strerror}') from fault
    try:
        if not stat.S_ISREG(os.fstat(opened).st_mode):
            raise Fault(f'cannot read {printable(file)}: it is no plain file')
        return read_from(opened, file)
    finally:
        os.close(opened)


def read_from(opened: int | str, file: str, most: int = ENOUGH) -> bytes:
    """The bytes of a file that is open, or that has a name."""
    try:
        with open(opened, 'rb', closefd=isinstance(opened, str)) as source:
            data = source.read(most + 1)
    except OSError as fault:
        raise Fault(f'cannot read {printable(file)}: {fault.strerror}') from fault
    if len(data) > most:
        what = 'text' if most == ENOUGH else 'list'
        raise Fault(f'cannot read {printable(file)}: it has more than {most:,} bytes, which no {what} has')
    return data


def place_of(file: str) -> str:
    """Where a file stands that may be written over."""
    place = os.path.realpath(file)
    if os.path.exists(place) and not os.path.isfile(place):
        raise Fault(f'cannot write {printable(file)}: it is there and no plain file')
    return place


def begins_with(file: str, begins: bytes) -> bool:
    """Whether a file begins with these bytes, or is not there."""
    try:
        with open(file, 'rb') as opened:
            return opened.read(len(begins)) == begins
    except FileNotFoundError:
        return True
    except OSError as fault:
        raise Fault(f'cannot read {printable(file)}: {fault.strerror}') from fault


def target_of(file: str, begins: bytes) -> str:
    """Where a file will stand that is written. One that does not begin as what is written is somebody else's."""
    if file == '-':
        raise Fault('- stands for standard output, and this is written to a file: give it a name')
    target = place_of(file)
    if begins and not begins_with(target, begins):
        raise Fault(f'{printable(file)} is there and is none of the desk\'s files, so it is left alone: '
                    'give another name')
    return target


def write_over(file: str, data: bytes, lasting: bool = False, begins: bytes = b'', mode: int = 0o666) -> None:
    """Writes a file beside, under a name of its own, and renames it over: at every moment the old one or the new one is
    there, whole. What is lasting is on the disk before it takes the old one's place. A file that does not begin as what
    is written here is somebody else's, and is left alone."""
    import secrets  # which takes long to load
    target = target_of(file, begins)
    beside = os.path.join(os.path.dirname(target), f'.desk-{secrets.token_hex(8)}.new')
    try:
        with open(beside, 'xb', opener=lambda name, flags: os.open(name, flags, mode)) as opened:
            if os.path.exists(target):
                os.fchmod(opened.fileno(), os.stat(target).st_mode & mode)
            opened.write(data)
            opened.flush()
            if lasting:
                os.fsync(opened.fileno())
        os.replace(beside, target)
    except OSError as fault:
        with contextlib.suppress(OSError):
            os.unlink(beside)
        raise Fault(f'cannot write {printable(file)}: {fault.strerror}') from fault
    done(f'{printable(file)} was written')


def take_away(file: str) -> None:
    """Removes a file, if it is there."""
    try:
        with contextlib.suppress(FileNotFoundError):
            os.unlink(file)
    except OSError as fault:
        raise Fault(f'cannot remove {printable(file)}: {fault.strerror}') from fault


def done(what: str) -> None:
    """Notes what was done so far, to be said if somebody ends the command."""
    DONE[:] = [what]


def run(name: str, command: Callable[[list[str]], None]) -> None:
    """Runs a command on the arguments."""
    if signal.getsignal(signal.SIGINT) is signal.SIG_DFL:
        signal.signal(signal.SIGINT, signal.default_int_handler)
    try:
        command(sys.argv[1:])
    except Fault as fault:
        tell(name, str(fault))
        sys.exit(fault.status)
    except KeyboardInterrupt:
        tell(name, f'ended: {DONE[0]}')
        sys.exit(INTERRUPTED)
