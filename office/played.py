"""A log of a hall played to its end: each line held against the chain, every move made once more by the library."""
from collections.abc import Collection, Iterator
from typing import BinaryIO

from office.candidates import folded
from office.chain import OFFICE, Event, Reader
from office.command import Fault, printable
from office.refusal import Refused
from office.sittings import Sittings

OPENED, CLOSE = 'opened', f'close {OFFICE}'


class Played:
    """The sittings that the events of a log leave, who of the candidates ever did something, and when the hall was
    opened and closed: where no line says so, with the first and the last."""

    def __init__(self, file: str, opened: BinaryIO):
        self.file, self.read = file, Reader(file, opened)
        self.room = Sittings(self.read.paper)
        self.seen: set[str] = set()
        self.opened, self.closed, self.told_closed = '', '', ''

    def __iter__(self) -> Iterator[Event]:
        """The events, each when it is made."""
        try:
            for event in self.read:
                self.room.make(event)
                self.note(event)
                yield event
        except (LookupError, ValueError, Refused) as fault:
            raise Fault(f'{printable(self.file)}: line {self.read.chain.seq + 1} is no act that can be made') from fault

    def to_the_end(self) -> 'Played':
        """Plays all of it."""
        for _ in self:
            pass
        return self

    def note(self, event: Event) -> None:
        if event.who != OFFICE:
            self.seen.add(event.who)
        elif event.act == OPENED:
            self.opened = self.opened or event.at
        elif event.act == CLOSE:
            self.told_closed = event.at
        self.closed = self.told_closed or event.at

    @property
    def head(self) -> str:
        return self.read.chain.head

    def ends(self) -> dict[str, bytes | None]:
        """What came from each candidate whose sitting is over, by identity in small letters: nothing from one who never
        entered."""
        return {folded(sitting.candidate): sitting.desk.sitting() if sitting.candidate in self.seen else None
                for sitting in self.room.by_identity.values()
                if sitting.handed_in or sitting.candidate not in self.seen}

    def papers(self) -> dict[str, str]:
        """The paper of each candidate, by identity in small letters."""
        return {folded(sitting.candidate): sitting.paper for sitting in self.room.by_identity.values()}

    def under_way(self, papers: Collection[str]) -> list[str]:
        """Who of those over some papers entered, and has neither handed in nor been collected."""
        return [sitting.candidate for sitting in self.room.by_identity.values()
                if sitting.candidate in self.seen and not sitting.handed_in and sitting.paper in papers]
