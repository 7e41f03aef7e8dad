"""The page of a hall over HTTP: a few fixed routes, each candidate known by a cookie, and nothing else is answered.

No file is served: the pieces of the page are read once. A body has a few bytes, and only whitelisted words are moves.
Every request of a page says whose page it is; of a page that is no longer the cookie's, nothing is done.
"""
import asyncio
import concurrent.futures
import functools
import hashlib
import json
import re
import signal
import socket
import ssl
import urllib.parse
from collections.abc import Callable
from dataclasses import dataclass
from http import HTTPStatus

from office.called import Called
from office.candidates import ticket_in
from office.charge import Charge
from office.command import mention
from office.connection import Connection, Connections
from office.door import Door
from office.hall import Declined, Hall, Kept
from office.markup import Pages
from office.messages import Reply, Request, Unfit
from office.room import most_connections
from office.sight import WHOLE, View
from office.sittings import HAND_IN, MOVE, Sitting
from office.spoken import Spoken
from office.told import running, sitting_told

DATA, HTML = 'application/json', 'text/html; charset=utf-8'
ASKED = re.compile('(.*) at ([0-9]{1,9})')
VIEW = re.compile('/[?]loop=(0|[1-9][0-9]{0,2})(&unfold)?')
HANDS_IN = re.compile(f'{HAND_IN}((?: [1-9][0-9]{{0,2}})*)')
MOVED_ON = ('Not done: the sitting was changed in another window, or by a click that came late. Look at it as it is '
            'now.')
TICKET, CHARGE = 'ticket', 'charge'
NO_SECRET = 'This is not the secret that the start of the hall has told.'
NO_TICKET = 'This ticket is not known here. Look whether it is typed as it was handed out.'
STRICT = 'Strict-Transport-Security: max-age=86400\n'
ENDS, LOOK, DIGITS = (signal.SIGINT, signal.SIGTERM, signal.SIGHUP), 1, 16


@dataclass(frozen=True)
class Made:
    """Something that was made and is to be kept before it is told, to whom, what is said when it is kept, and what with
    the words why it is not."""
    connection: Connection
    sitting: Sitting
    kept: Callable[[], Reply]
    unkept: Callable[[str], Reply]


class Server:
    """Listens for candidates. One thread answers, and one writes files. Whoever asks about a sitting of which something
    is not kept yet waits for that."""

    def __init__(self, listening: socket.socket, tls: ssl.SSLContext | None, called: Called, hall: Hall, pages: Pages,
                 practice: bool):
        self.listening, self.tls, self.called = listening, tls, called
        self.hall, self.pages, self.practice = hall, pages, practice
        self.charge, self.spoken = Charge(hall), Spoken()
        self.always = STRICT if called.secure else ''
        self.made: list[Made] = []
        self.seen = 0
        self.waiting: dict[str, list[Connection]] = {}

    def serve(self) -> None:
        """Serves until Ctrl-C, or a signal that asks for the same. What was asked for before is still kept and told."""
        self.loop = asyncio.new_event_loop()
        self.loop.set_default_executor(concurrent.futures.ThreadPoolExecutor(1))
        self.loop.set_exception_handler(lambda _, fault: mention(f'{fault.get("message")}: {fault.get("exception")!r}'))
        connections = Connections(self.loop, self, most_connections(), self.tls)
        door = Door(self.loop, self.listening, connections)
        ends = [number for number in ENDS if number == signal.SIGINT or signal.getsignal(number) != signal.SIG_IGN]
        for number in ends:  # Ctrl-C also where a script in the background started it
            self.loop.add_signal_handler(number, self.loop.stop)
        self.look()
        self.loop.run_forever()
        for number in ends:
            self.loop.remove_signal_handler(number)
        door.close()
        connections.end()
        self.settle_all()
        self.loop.run_until_complete(self.loop.shutdown_default_executor())
        self.loop.close()

    def look(self) -> None:
        """Has the hall look after its log, its files and its clock, now and again and again."""
        self.hall.look()
        self.collect()
        self.write_files()
        self.loop.call_later(min(LOOK, self.hall.next_end()), self.look)

    def collect(self) -> None:
        """Collects what stands where the time is over, behind all that was asked for before."""
        if self.hall.run_out():
            self.settle_all()
            self.hall.collect()

    def settle_all(self) -> None:
        """Keeps and tells what was made, and what those ask for who wait for it."""
        while self.made:
            self.settle()

    def write_files(self) -> None:
        if self.hall.due:
            self.loop.run_in_executor(None, self.hall.write_files)

    # ---- Requests

    def whose(self, request: Request) -> str | None:
        """The candidate who asks."""
        sitting = self.sitting_of(request)
        return sitting.candidate if sitting else None

    def refusal(self, status: HTTPStatus, more: str) -> Reply:
        return self.pages.refusal(status, more)

    def answer(self, connection: Connection) -> Reply | None:
        """Answers a request that comes by the right name, on a route. None says that the reply comes later."""
        request = connection.request
        if not self.called.calls(request):
            raise Unfit(HTTPStatus.MISDIRECTED_REQUEST)
        if request.path not in ROUTES and not VIEW.fullmatch(request.path):
            raise Unfit(HTTPStatus.NOT_FOUND)
        method, route = ROUTES.get(request.path, ('GET', Server.page))
        if request.method != method and (request.method, method) != ('HEAD', 'GET'):
            raise Unfit(HTTPStatus.METHOD_NOT_ALLOWED, f'Allow: {"GET, HEAD" if method == "GET" else method}\n')
        return route(self, connection)

    def cookie_of(self, request: Request, of: str) -> str:
        """What a cookie has: a ticket, or the secret of the person in charge."""
        cookies = [part.strip().partition('=') for part in ';'.join(request.headers.get('cookie', [])).split(';')]
        values = [value for name, _, value in cookies if name == self.called.cookie(of)]
        return values[0] if len(values) == 1 else ''

    def ticket_of(self, request: Request) -> str:
        return self.cookie_of(request, TICKET)

    def sitting_of(self, request: Request) -> Sitting | None:
        """The sitting of the candidate who asks. Where there is a clock, one has entered before anything is shown."""
        sitting = self.hall.sitting_with(self.ticket_of(request))
        return None if sitting and sitting.timed and sitting.begun is None else sitting

    def is_page_of(self, request: Request, told: str | None) -> bool:
        """Whether the page that asks is that of the cookie's candidate."""
        return told == token_of(self.ticket_of(request))

    # ---- What is made, and kept before it is told

    def keep_soon(self, made: Made) -> None:
        """Has something kept, together with all that comes in meanwhile."""
        if not self.made:
            self.loop.call_soon(self.keep)
        self.made.append(made)
        self.waiting[made.sitting.candidate] = []

    def keep(self) -> None:
        """Keeps what was made, as soon as a turn of the loop has brought no more of it. That comes soon, as nobody asks
        again before the reply."""
        if self.seen < len(self.made):
            self.seen = len(self.made)
            self.loop.call_soon(self.keep)
        elif self.made:
            self.settle()

    def settle(self) -> None:
        """Keeps what was made, and tells of it; then those are answered who wait for it."""
        made, self.made, self.seen = self.made, [], 0
        kept = self.hall.keep()
        for one in made:
            reply: Callable[[], Reply] = functools.partial(one.unkept, kept.words)
            one.connection.tell(one.kept if kept is Kept.DONE else reply)
            for other in self.waiting.pop(one.sitting.candidate):
                other.answer()
        self.write_files()

    # ---- The routes

    def page(self, connection: Connection) -> Reply:
        sitting, asked = self.sitting_of(connection.request), VIEW.fullmatch(connection.request.path)
        if sitting is None:
            return self.pages.asks_ticket()
        view = View(int(asked[1]), bool(asked[2])) if asked else WHOLE
        page = self.pages.of_sitting(sitting, token_of(self.ticket_of(connection.request)), view,
                                     self.spoken.before(sitting, self.hall.now))
        if page is None:
            raise Unfit(HTTPStatus.NOT_FOUND)
        return page

    def another(self, connection: Connection) -> Reply:
        sitting = self.sitting_of(connection.request)
        return self.pages.another(sitting.name if sitting else None, self.ticket_of(connection.request))

    def receipt(self, connection: Connection) -> Reply:
        sitting = self.sitting_of(connection.request)
        return self.pages.asks_ticket() if sitting is None else self.pages.of_receipt(sitting)

    def listing(self, connection: Connection) -> Reply:
        sitting = self.sitting_of(connection.request)
        return self.pages.asks_ticket() if sitting is None else self.pages.listing(sitting)

    def to_print(self, connection: Connection) -> Reply:
        sitting = self.sitting_of(connection.request)
        return self.pages.asks_ticket() if sitting is None else self.pages.to_print(sitting)

    def file(self, connection: Connection) -> Reply:
        return self.pages.file(connection.request.path)

    def enter(self, connection: Connection) -> Reply | None:
        ticket = ticket_in(field_in(connection.request.body, TICKET)) or ''
        sitting = self.hall.sitting_with(ticket)
        if sitting is None:
            return self.pages.asks_ticket(NO_TICKET)

        def enter(sitting: Sitting, machine: str) -> Made | Reply:
            try:
                self.hall.enter(sitting, machine)
            except Declined as declined:
                return self.pages.asks_ticket(str(declined))
            return Made(connection, sitting, lambda: self.with_cookie(ticket), self.pages.asks_ticket)

        return self.done(connection, sitting, enter)

    def leave(self, connection: Connection) -> Reply | None:
        """Forgets the ticket, unless the page is not that of the cookie's candidate."""
        sitting = self.sitting_of(connection.request)
        if sitting is None:
            return self.with_cookie('')
        if not self.is_page_of(connection.request, field_in(connection.request.body, 'sitting')):
            return self.pages.another(sitting.name, '')

        def leave(sitting: Sitting, machine: str) -> Made:
            self.hall.leave(sitting, machine)
            return Made(connection, sitting, lambda: self.with_cookie(''), lambda _: self.with_cookie(''))

        return self.done(connection, sitting, leave)

    def now(self, connection: Connection) -> Reply | None:
        return self.asked(connection, lambda sitting, _: self.about(sitting, HTTPStatus.OK, ''))

    def time(self, connection: Connection) -> Reply | None:
        if self.hall.is_dead(self.ticket_of(connection.request)):
            return Reply(HTTPStatus.GONE, DATA, b'{}')

        def tell(sitting: Sitting, _: str) -> Reply:
            self.spoken.tell(sitting)
            return spelled_out(HTTPStatus.OK, running(sitting, self.hall.now))

        return self.asked(connection, tell)

    def move(self, connection: Connection) -> Reply | None:
        asked = ASKED.fullmatch(connection.request.body)
        move = MOVE.fullmatch(asked[1]) if asked else None

        def make(sitting: Sitting, machine: str) -> Made:
            assert asked and move
            if int(asked[2]) != sitting.moves and not sitting.handed_in:
                raise Declined(MOVED_ON)
            return self.telling(connection, sitting, self.hall.move(sitting, move[0], machine))

        return self.asked(connection, make if move else None)

    def hand_in(self, connection: Connection) -> Reply | None:
        asked = ASKED.fullmatch(connection.request.body)
        gaps = HANDS_IN.fullmatch(asked[1]) if asked else None

        def take(sitting: Sitting, machine: str) -> Made:
            assert asked and gaps
            return self.telling(connection, sitting, self.hall.hand_in(
                sitting, int(asked[2]), [*map(int, gaps[1].split())], machine))

        return self.asked(connection, take if gaps else None)

    def telling(self, connection: Connection, sitting: Sitting, said: str) -> Made:
        return Made(connection, sitting, lambda: self.about(sitting, HTTPStatus.OK, said),
                    lambda why: self.about(sitting, HTTPStatus.CONFLICT, why))

    def asked(self, connection: Connection, act: Callable[[Sitting, str], Made | Reply] | None) -> Reply | None:
        """Does what the page of a candidate asks for, if it has sense."""
        request = connection.request
        sitting = self.sitting_of(request)
        if sitting is None or not self.is_page_of(request, request.header('sitting')):
            return Reply(HTTPStatus.FORBIDDEN, DATA, b'{}')
        if act is None:
            return Reply(HTTPStatus.BAD_REQUEST, DATA, b'{}')
        return self.done(connection, sitting, act)

    def done(self, connection: Connection, sitting: Sitting,
             act: Callable[[Sitting, str], Made | Reply]) -> Reply | None:
        """Does something to a sitting, as soon as all of it is kept; what was made is kept before it is told."""
        self.charge.hears(sitting)
        if sitting.candidate in self.waiting:
            self.waiting[sitting.candidate].append(connection)
            return None
        try:
            made = act(sitting, self.called.machine(connection.address, connection.request))
        except Declined as declined:
            return self.about(sitting, HTTPStatus.CONFLICT, str(declined))
        if isinstance(made, Reply):
            return made
        self.keep_soon(made)
        return None

    def about(self, sitting: Sitting, status: HTTPStatus, said: str) -> Reply:
        """The whole of a sitting that may be told, and what is said."""
        self.spoken.tell(sitting, said, status is not HTTPStatus.OK)
        return spelled_out(status, sitting_told(sitting, said, self.practice, self.hall.now))

    def with_cookie(self, value: str, of: str = TICKET, to: str = '/') -> Reply:
        """Sends the browser to a page with a ticket, or the secret, or with none."""
        ends = ('; Secure' if self.called.secure else '') + ('' if value else '; Max-Age=0')
        cookie = f'{self.called.cookie(of)}={value}; HttpOnly; SameSite=Strict; Path=/{ends}'
        return Reply(HTTPStatus.SEE_OTHER, HTML, b'', f'Location: {to}\nSet-Cookie: {cookie}\n')

    # ---- The routes of the person in charge

    def in_charge(self, connection: Connection) -> bool:
        return self.charge.knows(self.cookie_of(connection.request, CHARGE))

    def charge_page(self, connection: Connection) -> Reply:
        if not self.in_charge(connection):
            return self.pages.asks_secret()
        return self.pages.of_charge(token_of(self.charge.secret))

    def charge_enter(self, connection: Connection) -> Reply:
        secret = ticket_in(field_in(connection.request.body, 'secret')) or ''
        if not self.charge.knows(secret):
            return self.pages.asks_secret(NO_SECRET)
        self.settle_all()
        self.charge.comes(self.called.machine(connection.address, connection.request))
        return self.with_cookie(secret, CHARGE, '/charge')

    def charge_leave(self, _: Connection) -> Reply:
        return self.with_cookie('', CHARGE, '/charge')

    def charge_now(self, connection: Connection) -> Reply:
        return self.charged(connection, lambda: '')

    def charge_act(self, connection: Connection) -> Reply:
        """Does what the person in charge asks for, behind all that candidates asked for before."""
        machine = self.called.machine(connection.address, connection.request)
        return self.charged(connection, lambda: self.charge.act(connection.request.body, machine))

    def charged(self, connection: Connection, act: Callable[[], str]) -> Reply:
        """What the page of the person in charge is told after an act, or after none."""
        if not self.in_charge(connection) or connection.request.header('charge') != token_of(self.charge.secret):
            return Reply(HTTPStatus.FORBIDDEN, DATA, b'{}')
        self.settle_all()
        try:
            said, status = act(), HTTPStatus.OK
        except ValueError:
            return Reply(HTTPStatus.BAD_REQUEST, DATA, b'{}')
        except Declined as declined:
            said, status = str(declined), HTTPStatus.CONFLICT
        self.write_files()
        return spelled_out(status, self.charge.told(said))


ROUTES: dict[str, tuple[str, Callable[[Server, Connection], Reply | None]]] = {
    '/': ('GET', Server.page), '/listing': ('GET', Server.listing), '/print': ('GET', Server.to_print),
    '/another': ('GET', Server.another), '/receipt': ('GET', Server.receipt), '/sitting': ('GET', Server.now),
    '/clock': ('GET', Server.time), '/enter': ('POST', Server.enter), '/leave': ('POST', Server.leave),
    '/move': ('POST', Server.move), '/hand-in': ('POST', Server.hand_in),
    '/charge': ('GET', Server.charge_page), '/charge/now': ('GET', Server.charge_now),
    '/charge/enter': ('POST', Server.charge_enter), '/charge/leave': ('POST', Server.charge_leave),
    '/charge/act': ('POST', Server.charge_act),
    **{path: ('GET', Server.file)
       for path in ('/hall.css', '/board.js', '/sitting.js', '/clock.js', '/charge.js', '/charge.css')}}


def spelled_out(status: HTTPStatus, told: dict[str, object]) -> Reply:
    return Reply(status, DATA, json.dumps(told, separators=(',', ':')).encode())


def token_of(ticket: str) -> str:
    """What a page says that is of a ticket. It tells nothing of the ticket."""
    return hashlib.sha256(f'page of {ticket}'.encode()).hexdigest()[:DIGITS]


def field_in(body: str, name: str) -> str:
    """The field of a form that has this one."""
    fields = urllib.parse.parse_qs(body, keep_blank_values=True, max_num_fields=1) if body.count('&') == 0 else {}
    return fields.get(name, [''])[0]
