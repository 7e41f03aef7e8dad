"""A connection with a browser: requests are answered one after the other, and neither side leaves much unread.

A request is read when the reply to the one before it has gone out, so that one connection has one request under way,
however many it sends. Reading one is a piece of work of the machine that sends it, answering one of the candidate who
asks; each has its turn.
"""
import asyncio
import contextlib
import socket
import ssl
import traceback
from collections.abc import Callable
from http import HTTPStatus
from typing import Protocol

from office.called import machine_at
from office.command import mention
from office.messages import HEAD, LONGEST, Reply, Request, Unfit, request_in
from office.room import Room
from office.turns import Turns

# How much is read of what is not asked yet; how many pieces of work of one machine may wait before it gets no more
# connections.
ROOM, QUEUE = HEAD + LONGEST, 1000


class Answering(Protocol):
    """Who answers requests: what goes with every reply, whose a request is, what is said to one that is refused, and
    the answer, which None puts off."""
    always: str

    def whose(self, request: Request) -> str | None: ...
    def refusal(self, status: HTTPStatus, more: str) -> Reply: ...
    def answer(self, connection: 'Connection') -> Reply | None: ...


class Connections:
    """What all connections share: the loop, who answers, whether they may still ask, whose turn it is, who is in."""

    def __init__(self, loop: asyncio.AbstractEventLoop, desk: Answering, most: int, tls: ssl.SSLContext | None):
        self.loop, self.desk, self.tls, self.closed = loop, desk, tls, False
        self.turns, self.room = Turns(loop), Room[Connection](loop, most)

    def take(self, made: socket.socket, address: str) -> None:
        """Takes a connection that was accepted. It begins when its machine has its turn; where too many of that machine
        wait for that, it ends at once."""
        if self.turns.many(machine_at(address)) > QUEUE:
            made.close()
            return
        connection = Connection(self, made, address)
        self.room.enter(connection)
        self.turns.add(connection.machine, connection.begin)


    def end(self) -> None:
        """Reads no more. What was asked for is still done; who has only just come is sent away."""
        self.closed = True
        self.turns.finish()
        for connection in self.room.all():
            if connection.transport is None:
                connection.cut()


class Connection(asyncio.Protocol):
    """A connection. The request under way is the one that is not answered yet."""

    def __init__(self, others: Connections, made: socket.socket, address: str):
        self.others, self.made, self.address, self.unread = others, made, address, b''
        self.machine = machine_at(address)
        self.beginning: asyncio.Task[object] | None = None
        self.transport: asyncio.Transport | None = None
        self.under_way: Request | None = None
        self.ended = self.over = self.full = self.due = False

    @property
    def request(self) -> Request:
        """The request under way, for who answers it."""
        if self.under_way is None:
            raise LookupError('no request is under way')
        return self.under_way

    # ---- How it begins and ends

    def begin(self) -> bool:
        """Begins to talk, by way of a handshake where it is encrypted; that follows in the loop."""
        if self.over or self.others.closed:
            return False
        making = self.others.loop.connect_accepted_socket(lambda: self, self.made, ssl=self.others.tls)
        self.beginning = self.others.loop.create_task(making)
        self.beginning.add_done_callback(self.begun)
        return True

    def begun(self, beginning: asyncio.Task[object]) -> None:
        if beginning.cancelled() or beginning.exception():
            self.made.close()
            self.connection_lost(None)

    def cut(self) -> None:
        """Ends it at once."""
        self.over = True
        if self.transport or self.beginning:
            self.others.room.end(self)
        else:
            self.others.room.leave(self)
        if self.transport:
            self.transport.abort()
        elif self.beginning:
            self.beginning.cancel()
        else:
            self.made.close()

    def connection_made(self, transport: asyncio.BaseTransport) -> None:
        assert isinstance(transport, asyncio.Transport)  # as every one over a socket is
        self.transport = transport
        transport.set_write_buffer_limits(1, 0)
        if self.over:
            transport.abort()

    def connection_lost(self, _: Exception | None) -> None:
        self.over = True
        self.others.room.leave(self)

    # ---- What comes in

    def data_received(self, data: bytes) -> None:
        if self.over or self.transport is None:
            return
        if not self.unread:
            self.others.room.heard_of(self)
        self.unread += data
        self.look_soon()
        if len(self.unread) > ROOM:
            self.transport.pause_reading()

    def eof_received(self) -> bool:
        """Whoever has said all still gets the replies, unless it was encrypted: then nothing can follow."""
        self.ended = True
        self.look_soon()
        return not self.over and self.transport is not None and self.transport.can_write_eof()

    def pause_writing(self) -> None:
        self.full = True

    def resume_writing(self) -> None:
        self.full = False
        self.look_soon()

    def look_soon(self) -> None:
        """Looks for a request when the machine has its turn."""
        if not self.due:
            self.due = True
            self.others.turns.add(self.machine, self.look)

    def look(self) -> bool:
        """Takes the next request, if it is there and its turn has come."""
        self.due = False
        if self.under_way or self.over or self.full or self.others.closed or self.transport is None:
            return False
        try:
            found = request_in(self.unread, self.ended) if self.unread else None
        except Unfit as unfit:
            self.refuse(unfit)
            return False
        if found:
            self.under_way, length = found
            self.unread = self.unread[length:]
            if len(self.unread) <= ROOM:
                self.transport.resume_reading()
            candidate = self.others.desk.whose(self.under_way)
            self.others.room.used_by(self, candidate)
            self.others.turns.add(('candidate', candidate) if candidate else self.machine, self.answer)
        elif self.ended:
            self.end()
        return False

    # ---- What goes out

    def answer(self) -> bool:
        self.tell(lambda: self.others.desk.answer(self))
        return False

    def tell(self, reply: Callable[[], Reply | None]) -> None:
        """Sends a reply to the request under way, unless there is none yet. A fault of ours ends this connection."""
        try:
            made = reply()
            if made:
                self.send(made, self.request.last)
        except Unfit as unfit:
            self.refuse(unfit)
        except Exception:
            mention(traceback.format_exc())
            self.cut()

    def refuse(self, unfit: Unfit) -> None:
        self.send(self.others.desk.refusal(unfit.status, unfit.more), last=True)

    def send(self, reply: Reply, last: bool) -> None:
        bare = self.under_way is not None and self.under_way.method == 'HEAD'
        self.under_way = None
        if self.transport is None or self.transport.is_closing():
            return
        self.others.room.heard_of(self)
        self.transport.write(reply.spelled(last, self.others.desk.always, bare))
        if last:
            self.end()
        elif self.unread or self.ended:
            self.look_soon()

    def end(self) -> None:
        """Says no more. What still comes in is not looked at; to close at once could cost the other side a reply."""
        self.over, self.unread = True, b''
        if self.transport is None:
            return
        if self.ended or not self.transport.can_write_eof():
            self.transport.close()
        else:
            self.transport.resume_reading()
            with contextlib.suppress(OSError):  # the other side may be gone
                self.transport.write_eof()
