"""A bar on standard error while a long command works, at a terminal alone."""
import sys
import time
from collections.abc import Iterator

TYPE_CHECKING = False
if TYPE_CHECKING:
    from typing import TypeVar
    Thing = TypeVar('Thing')

WIDTH, EVERY = 40, 0.1
CLEAR = '\r\x1b[K'


class Progress:
    """How many of some things are done."""

    def __init__(self, what: str, total: int):
        self.what, self.total, self.done, self.shown = what, total, 0, 0.0
        self.visible = sys.stderr is not None and sys.stderr.isatty()

    def over(self, things: 'list[Thing]') -> 'Iterator[Thing]':
        """The things, with the bar moved on after each and gone at the end."""
        try:
            for thing in things:
                yield thing
                self.done += 1
                if self.visible and time.monotonic() - self.shown >= EVERY:
                    self.show()
        finally:
            self.hide()

    def show(self) -> None:
        full = WIDTH * self.done // self.total
        bar = '#' * full + '.' * (WIDTH - full)
        sys.stderr.write(f'{CLEAR}{self.what} {bar} {self.done:,} of {self.total:,}')
        sys.stderr.flush()
        self.shown = time.monotonic()

    def hide(self) -> None:
        """Takes the bar off, so that something can be said."""
        if self.visible:
            sys.stderr.write(CLEAR)
            sys.stderr.flush()
