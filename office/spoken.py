"""What candidates were told: the words after their latest act, and what the person in charge said last. A page that is
drawn later, for another view or in another window, has them too, where no screen reader calls them out again."""
from dataclasses import dataclass

from office.chain import Event
from office.sittings import Sitting
from office.told import left_of, message_told

Stood = tuple[int, Event | None]


@dataclass(frozen=True)
class Said:
    """Words after an act, and whether they refuse it."""
    words: str = ''
    refused: bool = False


@dataclass(frozen=True)
class Before:
    """What a page has from before it is drawn: the words after the latest act, what the person in charge said last, and
    the milliseconds that are left, none where no clock runs."""
    said: Said
    message: str
    left: int | None


class Spoken:
    """What replies have told, by candidate. Words hold as long as the sitting stands as it did."""

    def __init__(self) -> None:
        self.last: dict[str, tuple[Said, Stood]] = {}
        self.messages: dict[str, Event] = {}

    def tell(self, sitting: Sitting, words: str = '', refused: bool = False) -> None:
        """A reply tells what the person in charge said last, and words after an act; a look leaves those of before."""
        if words:
            self.last[sitting.candidate] = Said(words, refused), stood(sitting)
        if sitting.message:
            self.messages[sitting.candidate] = sitting.message

    def before(self, sitting: Sitting, now: int) -> Before:
        said, then = self.last.get(sitting.candidate, (Said(), None))
        heard = self.messages.get(sitting.candidate) is sitting.message
        return Before(said if then == stood(sitting) else Said(), message_told(sitting) if heard else '',
                      left_of(sitting, now))


def stood(sitting: Sitting) -> Stood:
    return sitting.moves, sitting.ended
