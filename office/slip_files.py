"""Files of slips: both of an answer, each reader's in a folder of its own. The examiner's is for its owner alone."""
import itertools
import os
import re
from collections.abc import Callable

from office.command import Fault, begins_with, printable, take_away, write_over
from office.keeping import PaperText
from office.library import Desk
from office.printed import begins
from office.records import dataclass
from office.slip_words import CANDIDATE, EXAMINER


@dataclass(frozen=True)
class Reader:
    """Who reads a slip: the call that writes it, and whether nobody but its owner may read it."""
    slip: Callable[[Desk, bytes], bytes]
    alone: bool

    @property
    def mode(self) -> int:
        """Who may read and write the files."""
        return 0o600 if self.alone else 0o666


READERS = {CANDIDATE: Reader(Desk.candidate_slip, False), EXAMINER: Reader(Desk.examiner_slip, True)}
SLIP, PAGE = 'hex', 'html'
# How files begin. Every slip begins with the line that tells the first uncut dependence.
KINDS = {SLIP: b'23', PAGE: begins('slip')}
# What there is for a reader, by the kind of file.
Made = dict[tuple[str, str], bytes]


def slip_name(candidate: str, paper: PaperText, reader: str, kind: str = SLIP) -> str:
    """What the file of a slip is called. The paper's part has no dot, so that no two slips have one name."""
    name = re.sub('[^A-Za-z0-9_-]', '_', paper.name)
    return f'{candidate}.{name}-{paper.sha256[:8]}.{reader}.{kind}'


def slips_of(desk: Desk, text: bytes) -> Made:
    """Both slips of an answer."""
    return {(name, SLIP): reader.slip(desk, text) for name, reader in READERS.items()}


@dataclass(frozen=True)
class Slips:
    """The folder that slips go to."""
    folder: str

    def make(self) -> None:
        """Makes a folder for each reader."""
        try:
            for name, reader in READERS.items():
                place = os.path.join(self.folder, name)
                os.makedirs(place, exist_ok=True)
                if reader.alone:
                    os.chmod(place, 0o700)
        except OSError as fault:
            raise Fault(f'cannot write in {printable(self.folder)}: {fault.strerror}') from fault

    def hand_out(self, candidate: str, paper: PaperText, made: Made) -> list[str]:
        """Writes what was made for the readers of a candidate's answer on a paper, and takes away what they had before
        where nothing takes its place; gives why something was not done."""
        faults = []
        for name, kind in itertools.product(READERS, KINDS):
            file = os.path.join(self.folder, name, slip_name(candidate, paper, name, kind))
            try:
                put(file, made.get((name, kind)), KINDS[kind], READERS[name].mode)
            except Fault as fault:
                faults.append(str(fault))
        return faults


def put(file: str, data: bytes | None, beginning: bytes, mode: int) -> None:
    """Writes a file, or takes it away for None. One that does not begin as it should is not ours, and stays."""
    if data is not None:
        write_over(file, data, begins=beginning, mode=mode)
    elif not os.path.isfile(file) or begins_with(file, beginning):
        take_away(file)
