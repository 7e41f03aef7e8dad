"""The room for connections: how many there may be, since when each is silent, and whose they are.

Where there is no room for one more, the machine that has most gives up the one that was silent longest, so that a
machine that opens many keeps nobody else out. A candidate has a share too, more than two browsers want.
"""
import asyncio
import resource
from typing import Generic, Protocol, TypeVar

from office.messages import Request

# Seconds for a request, for a reply to be taken, or for the next request to come; the most connections, those of one
# candidate, those that may be on their way out, and the files that the process wants for itself.
IDLE, MOST, SHARE, OUT, OWN = 60, 4000, 12, 32, 32


class Open(Protocol):
    """What the room knows of a connection."""
    machine: str
    under_way: Request | None

    def cut(self) -> None: ...


Kind = TypeVar('Kind', bound=Open)


def most_connections() -> int:
    """How many there may be: as many as the process may have files, once the soft limit is raised, but for its own."""
    soft, hard = resource.getrlimit(resource.RLIMIT_NOFILE)
    limit = MOST + OUT + OWN if hard == resource.RLIM_INFINITY else min(MOST + OUT + OWN, hard)
    if soft != resource.RLIM_INFINITY and soft < limit:
        resource.setrlimit(resource.RLIMIT_NOFILE, (limit, hard))
    return max(limit - OUT - OWN, SHARE)


class Room(Generic[Kind]):
    """The connections that are open: of each machine those first that were silent longest, with the time since when;
    and of each candidate those that it used. Those that were cut are on their way out until their files are closed."""

    def __init__(self, loop: asyncio.AbstractEventLoop, most: int):
        self.loop, self.most, self.many = loop, most, 0
        self.leaving: set[Kind] = set()
        self.since: dict[str, dict[Kind, float]] = {}
        self.users: dict[Kind, str] = {}
        self.used: dict[str, dict[Kind, None]] = {}
        self.cut_off()

    @property
    def may_enter(self) -> bool:
        """Whether one more may be let in now."""
        return len(self.leaving) < OUT

    def enter(self, connection: Kind) -> None:
        """Takes one more in; if there is no room, one of the machine that has most ends."""
        if self.many >= self.most:
            longest_silent(max(self.since.values(), key=len)).cut()
        self.many += 1
        self.since.setdefault(connection.machine, {})[connection] = self.loop.time()

    def end(self, connection: Kind) -> None:
        """One that was cut, and is on its way out."""
        self.leave(connection)
        self.leaving.add(connection)

    def leave(self, connection: Kind) -> None:
        self.leaving.discard(connection)
        there = self.since.get(connection.machine, {})
        if connection in there:
            self.many -= 1
            del there[connection]
            if not there:
                del self.since[connection.machine]
            self.used_by(connection, None)

    def all(self) -> list[Kind]:
        return [connection for there in self.since.values() for connection in there]

    def heard_of(self, connection: Kind) -> None:
        there = self.since.get(connection.machine, {})
        if there.pop(connection, None) is not None:
            there[connection] = self.loop.time()

    def used_by(self, connection: Kind, candidate: str | None) -> None:
        """Tells who uses a connection. Of more than a candidate's share, the one that was silent longest ends."""
        before = self.users.pop(connection, None)
        if before is not None:
            del self.used[before][connection]
            if not self.used[before]:
                del self.used[before]
        if candidate is not None:
            self.users[connection] = candidate
            mine = self.used.setdefault(candidate, {})
            mine[connection] = None
            if len(mine) > SHARE:
                longest_silent(mine).cut()

    def cut_off(self) -> None:
        """Ends all that were silent too long, now and again and again."""
        early = self.loop.time() - IDLE
        for connection in [connection for there in self.since.values() for connection, since in there.items()
                           if since < early and not connection.under_way]:
            connection.cut()
        self.loop.call_later(IDLE / 4, self.cut_off)


def longest_silent(some: dict[Kind, float] | dict[Kind, None]) -> Kind:
    """The first of some connections that has nothing under way, or the first."""
    return next((connection for connection in some if not connection.under_way), next(iter(some)))
