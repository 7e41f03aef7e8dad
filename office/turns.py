"""Turns: what waits to be done, by whose it is. One piece of each is done in turn, so that who asks for much does not
keep the others waiting."""
import asyncio
from collections import deque
from collections.abc import Callable, Hashable

# Seconds of work before the loop looks what else has come.
SPELL = 0.002


class Turns:
    """Pieces of work that wait, those first whose turn it is."""

    def __init__(self, loop: asyncio.AbstractEventLoop):
        self.loop, self.called = loop, False
        self.waiting: dict[Hashable, deque[Callable[[], bool]]] = {}

    def add(self, whose: Hashable, piece: Callable[[], bool]) -> None:
        """Has a piece of work wait, which says whether more of it will follow in the loop."""
        self.waiting.setdefault(whose, deque()).append(piece)
        self.soon()

    def many(self, whose: Hashable) -> int:
        """How many pieces of somebody wait."""
        return len(self.waiting.get(whose, ()))

    def soon(self) -> None:
        if self.waiting and not self.called:
            self.called = True
            self.loop.call_soon(self.work)

    def work(self) -> None:
        """Works for a spell, or until more follows of a piece, and goes on soon, also after a fault."""
        end, more = self.loop.time() + SPELL, False
        try:
            while self.waiting and self.loop.time() < end and not more:
                more = self.one()
        finally:
            self.called = False
            self.soon()

    def one(self) -> bool:
        """Does one piece; whose it was comes last from now on."""
        whose = next(iter(self.waiting))
        pieces = self.waiting.pop(whose)
        piece = pieces.popleft()
        if pieces:
            self.waiting[whose] = pieces
        return piece()

    def finish(self) -> None:
        """Does all that waits."""
        while self.waiting:
            self.one()
