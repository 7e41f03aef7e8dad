"""The door of a hall: where it listens, what encrypts there, and how connections are let in."""
import asyncio
import socket
import ssl

from office.called import PORTS
from office.command import Fault, mention, printable
from office.connection import Connections

# Connections that may wait outside; seconds of letting in before the loop looks what else has come; seconds until the
# next try after a fault of the system; seconds without one before it is told again.
WAITING, SPELL, REST, QUIET = 4096, 0.005, 0.2, 60


def listening_at(address: str, port: int) -> socket.socket:
    """A socket that listens, over IPv4 or IPv6 as the address is."""
    try:
        if not 0 <= port < PORTS:
            raise OverflowError(f'a port is below {PORTS:,}')
        family, kind, _, _, place = socket.getaddrinfo(address, port, type=socket.SOCK_STREAM,
                                                       flags=socket.AI_PASSIVE)[0]
        made = socket.socket(family, kind)
        made.setsockopt(socket.SOL_SOCKET, socket.SO_REUSEADDR, 1)
        made.bind(place)
        made.listen(WAITING)
    except (OSError, OverflowError, UnicodeError) as fault:
        raise Fault(f'cannot listen at {printable(address)}, port {port}: {fault}') from fault
    made.setblocking(False)
    return made


def tls_with(certificate: str, key: str) -> ssl.SSLContext:
    """What encrypts, with a certificate and its key from files in PEM. A key that wants a password is refused."""
    context = ssl.SSLContext(ssl.PROTOCOL_TLS_SERVER)
    try:
        context.load_cert_chain(certificate, key, lambda: '')
    except (OSError, ValueError) as fault:
        raise Fault(f'cannot encrypt with {printable(certificate)} and {printable(key)}: '
                    f'{fault.strerror if isinstance(fault, OSError) and fault.strerror else fault}') from fault
    return context


class Door:
    """Lets in who waits outside. What keeps it from that is told once, and tried again."""

    def __init__(self, loop: asyncio.AbstractEventLoop, listening: socket.socket, within: Connections):
        self.loop, self.listening, self.within = loop, listening, within
        self.failed = -float(QUIET)
        self.open()

    def open(self) -> None:
        if self.listening.fileno() >= 0:
            self.loop.add_reader(self.listening, self.let_in)

    def let_in(self) -> None:
        """Lets in who waits outside, for a spell: they must not wait so long that the system turns others away."""
        end = self.loop.time() + SPELL
        while self.within.room.may_enter and self.loop.time() < end:
            try:
                made, address = self.listening.accept()
            except BlockingIOError:
                return
            except ConnectionError:
                continue  # who waited has gone
            except OSError as fault:
                self.rest(fault)
                return
            made.setblocking(False)
            self.within.take(made, address[0])

    def rest(self, fault: OSError) -> None:
        """The system has no room for more: it is left alone for a while."""
        now = self.loop.time()
        if now - self.failed >= QUIET:
            mention(f'cannot let anybody in: {fault.strerror}')
        self.failed = now
        self.loop.remove_reader(self.listening)
        self.loop.call_later(REST, self.open)

    def close(self) -> None:
        self.loop.remove_reader(self.listening)
        self.listening.close()
