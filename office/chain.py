"""The lines of a hall's log, and the chain that holds them together.

  desk sitting 2 <tab> SHA-256 of the paper
  SEQ <tab> TIME <tab> WHO <tab> MACHINE <tab> ACT <tab> OWN

OWN is the SHA-256 of the OWN before it and of the line without its OWN; before the first stands the SHA-256 of the top
line. So no line can be changed, left out, doubled or moved without all that follow telling of it. The last OWN is the
head: who has written it down notices lines that are cut off at the end.

WHO acts is a candidate, by identity, or the person in charge and the desk itself, both written as a dash, whose acts
name their candidate first:

  paper LINES                         the paper of the top line, and then others, lines with spaces between
  title SHA-256 NAME                  what a paper is called, where there are several
  opened, charge                      a start; the person in charge has come to the page
  candidate ID MINUTES PAPER NAME     a dash where the list has no minutes, and for the paper of the top line; another
                                      paper by its SHA-256
  ticket ID SHA-256                   the only good ticket from now on
  minutes MINUTES, until TIME         how long all have for whom the list has no minutes: from entering, or until then
  close ID, extra ID MINUTES, message ID TEXT     a dash for all
  reopen ID, collected ID SHA-256     as if not handed in; handed in by the end, with the hash of the text
  enter, leave, put GAP, lift GAP, take back, hand in SHA-256     a candidate's
"""
import datetime
import hashlib
from collections.abc import Iterator
from typing import BinaryIO, NamedTuple

from office.command import Fault, printable

FIRST, OFFICE = 'desk sitting 2', '-'
# More bytes than any line has: a paper has at most 8,192.
LONGEST, HASH = 1 << 14, 64
RECEIPT, GROUP = 16, 4


class Event(NamedTuple):
    """A line of the log."""
    seq: int
    at: str
    who: str
    machine: str
    act: str
    own: str


def now() -> str:
    """The time as logs and registers write it."""
    return datetime.datetime.now(datetime.timezone.utc).isoformat(timespec='milliseconds')


def receipt_of(event: Event) -> str:
    """The code on a candidate's receipt: the first letters of the line's hash, in groups."""
    return '-'.join(event.own[at:at + GROUP] for at in range(0, RECEIPT, GROUP))


class Chain:
    """The end of a chain: how many lines it has, and the last hash."""

    def __init__(self, paper: str):
        self.top = f'{FIRST}\t{paper}\n'.encode()
        self.seq, self.head = 0, hashlib.sha256(self.top[:-1]).hexdigest()

    @property
    def end(self) -> tuple[int, str]:
        return self.seq, self.head

    def go_back(self, end: tuple[int, str]) -> None:
        self.seq, self.head = end

    def added(self, at: str, who: str, machine: str, act: str) -> tuple[Event, bytes]:
        """One more event, and its line."""
        line = f'{self.seq + 1}\t{at}\t{who}\t{machine}\t{act}'
        own = hashlib.sha256(f'{self.head}{line}'.encode()).hexdigest()
        self.seq, self.head = self.seq + 1, own
        return Event(self.seq, at, who, machine, act, own), f'{line}\t{own}\n'.encode()


class Reader:
    """Reads a log line by line, and holds each against the chain. A last line that was cut off is not read."""

    def __init__(self, file: str, opened: BinaryIO):
        self.file, self.opened = file, opened
        top = opened.readline(LONGEST)
        first, _, self.paper = top[:-1].decode('ascii', 'replace').partition('\t')
        self.chain, self.length = Chain(self.paper), len(top)
        if first != FIRST or top != self.chain.top or len(self.paper) != HASH:
            raise self.damaged(1, 'is not the top line of a log')

    def __iter__(self) -> Iterator[Event]:
        chain, head, number = self.chain, self.chain.head.encode(), 0
        while line := self.opened.readline(LONGEST):
            whole = line.endswith(b'\n')
            if not whole and self.cut_off(line):
                return
            body, _, own = line[:-1].rpartition(b'\t')
            number += 1
            try:
                seq, at, who, machine, act = body.decode().split('\t')
            except ValueError:
                raise self.damaged(number + 1, 'has not the form of a line') from None
            if not whole or hashlib.sha256(head + body).hexdigest().encode() != own:
                raise self.damaged(number + 1, 'is not the one that was written there')
            if seq != str(number):
                raise self.damaged(number + 1, f'has the number {printable(seq)} instead of {number}')
            head, chain.seq, chain.head = own, number, own.decode()
            self.length += len(line)
            yield Event(number, at, who, machine, act, chain.head)

    def cut_off(self, tail: bytes) -> bool:
        """Whether bytes without an end of line are the last, and the beginning of a line that was never kept whole. A
        disk may have put zeros behind it."""
        fields = tail.rstrip(b'\0').split(b'\t')
        begun = len(fields) < len(Event._fields) or len(fields[-1]) <= HASH
        return begun and not self.opened.read().strip(b'\0')

    def damaged(self, number: int, what: str) -> Fault:
        whole = f'lines 1 to {number - 1} are whole' if number > 1 else 'nothing of it can be trusted'
        return Fault(f'{printable(self.file)} is damaged: line {number} {what}; {whole}. Put back a copy of the log '
                     'that is whole' + (f', or keep this one elsewhere and cut it behind line {number - 1}: what came '
                                        'later is then not done' if number > 1 else ''))
