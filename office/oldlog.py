"""A hall's log of the form before the chain: read once, to be taken down anew.

  paper SHA-256
  TIME <tab> CANDIDATE <tab> MOVE
"""
from collections.abc import Iterator
from typing import NamedTuple

from office.command import Fault, printable

FIRST, FIELDS, LONGEST = b'paper ', 3, 1 << 12


class Line(NamedTuple):
    """A line: its number, the time, the name of the candidate, what was done."""
    number: int
    at: str
    name: str
    act: str


def is_old(file: str) -> bool:
    """Whether a file is a log of this form."""
    try:
        with open(file, 'rb') as opened:
            return opened.read(len(FIRST)) == FIRST
    except OSError as fault:
        raise Fault(f'cannot read {printable(file)}: {fault.strerror}') from fault


def lines_of(file: str, paper: str) -> Iterator[Line]:
    """The lines of such a log. A last one that was cut off was told to nobody."""
    with open(file, 'rb') as opened:
        if opened.readline(LONGEST) != FIRST + paper.encode() + b'\n':
            raise Fault(f'{printable(file)} is the log of another paper: give another folder')
        for number, line in enumerate(iter(lambda: opened.readline(LONGEST), b''), 2):
            if not line.endswith(b'\n'):
                return
            fields = line[:-1].decode('utf-8', 'replace').split('\t')
            if len(fields) != FIELDS:
                raise Fault(f'{printable(file)} is damaged: line {number} is no move that can be made')
            yield Line(number, *fields)
