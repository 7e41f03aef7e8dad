"""Messages of HTTP/1.1: a request read strictly from the bytes that came, a reply spelled.

Whatever the standard does not allow, and whatever is longer than a browser's requests to a hall, is refused.
"""
import email.utils
import functools
import re
import time
from dataclasses import dataclass
from http import HTTPStatus

# The most bytes of a head, headers in it, and bytes of a body: every gap of a full-size paper has room in it.
HEAD, MANY, LONGEST = 1 << 14, 100, 1024
TOKEN = rb"[!#$%&'*+.^_`|~0-9A-Za-z-]+"
LINE = re.compile(rb'(%b) ([!-~]+) HTTP/([0-9]\.[0-9])' % TOKEN)
HEADER = re.compile(rb'(%b):([\t -~\x80-\xff]*)' % TOKEN)
WHOLE = re.compile('(https?://[^/?#]+)(/.*)?', re.I)
METHODS, VERSIONS = ('GET', 'HEAD', 'POST', 'PUT', 'DELETE', 'OPTIONS', 'TRACE', 'CONNECT', 'PATCH'), ('1.0', '1.1')
HEADERS = '''Server: desk
Content-Security-Policy: default-src 'none'; script-src 'self'; style-src 'self'; connect-src 'self'; \
form-action 'self'; base-uri 'none'; frame-ancestors 'none'
X-Content-Type-Options: nosniff
Referrer-Policy: same-origin
Cache-Control: no-store
Cross-Origin-Resource-Policy: same-origin
Cross-Origin-Opener-Policy: same-origin
'''
LAST, END = 'Connection: close\n', b'\r\n'


class Unfit(Exception):
    """A request that is refused, the status that says why, and further headers, a line each."""

    def __init__(self, status: HTTPStatus, more: str = ''):
        super().__init__(status)
        self.status, self.more = status, more


@dataclass(frozen=True)
class Request:
    """A request: whom it names before its path, if it does; headers by their names in small letters, each with all its
    values; whether it is the last."""
    method: str
    named: str
    path: str
    headers: dict[str, list[str]]
    body: str
    last: bool

    def header(self, name: str) -> str | None:
        """The value of a header that is told once."""
        values = self.headers.get(name, [])
        return values[0] if len(values) == 1 else None


@dataclass(frozen=True)
class Reply:
    """What goes back: a status, the kind of the body, the body, and further headers, a line each."""
    status: HTTPStatus
    kind: str
    body: bytes
    more: str = ''

    def spelled(self, last: bool, more: str = '', bare: bool = False) -> bytes:
        """Its bytes, with still more headers; the last of a connection says so, and a bare one has no body."""
        head = (f'HTTP/1.1 {self.status.value} {self.status.phrase}\nDate: {date(int(time.time()))}\n{HEADERS}{more}'
                f'{self.more}{LAST if last else ""}Content-Type: {self.kind}\nContent-Length: {len(self.body)}\n\n')
        return head.replace('\n', '\r\n').encode() + (b'' if bare else self.body)


@functools.lru_cache(1)
def date(second: int) -> str:
    return email.utils.formatdate(second, usegmt=True)


def request_in(data: bytes, ended: bool) -> tuple[Request, int] | None:
    """The request that the data begin with, and its length; None while more has to come. Unfit refuses it. An empty
    line before it is passed over, as the standard has it."""
    skipped = len(END) if data.startswith(END) else 0
    end = data.find(END + END, skipped, HEAD)
    if end < 0:
        if len(data) >= HEAD:
            raise Unfit(HTTPStatus.REQUEST_HEADER_FIELDS_TOO_LARGE if END in data[skipped:HEAD] else
                        HTTPStatus.REQUEST_URI_TOO_LONG)
        if ended or data.count(b'\n') > data.count(END):
            raise Unfit(HTTPStatus.BAD_REQUEST)
        return None
    method, target, version, headers = head_of(data[skipped:end])
    length = length_of(method, headers)
    begin = end + len(END + END)
    body = data[begin:begin + length]
    if len(body) < length and not ended:
        return None
    if len(body) < length or not body.isascii():
        raise Unfit(HTTPStatus.BAD_REQUEST)
    last = version == '1.0' or 'close' in ','.join(headers.get('connection', [])).lower()
    whole = WHOLE.fullmatch(target)
    named, path = (whole[1].lower(), whole[2] or '/') if whole else ('', target)
    return Request(method, named, path, headers, body.decode(), last), begin + length


def head_of(head: bytes) -> tuple[str, str, str, dict[str, list[str]]]:
    """Method, target, version and headers of a request."""
    first, *rest = head.split(END)
    if len(rest) > MANY:
        raise Unfit(HTTPStatus.REQUEST_HEADER_FIELDS_TOO_LARGE)
    line, lines = LINE.fullmatch(first), [header for header in map(HEADER.fullmatch, rest) if header]
    if line is None or len(lines) < len(rest):
        raise Unfit(HTTPStatus.BAD_REQUEST)
    method, target, version = (part.decode() for part in line.groups())
    headers: dict[str, list[str]] = {}
    for name, value in (header.groups() for header in lines):
        headers.setdefault(name.decode().lower(), []).append(value.strip(b' \t').decode('latin-1'))
    if version not in VERSIONS:
        raise Unfit(HTTPStatus.HTTP_VERSION_NOT_SUPPORTED)
    if method not in METHODS:
        raise Unfit(HTTPStatus.NOT_IMPLEMENTED)
    return method, target, version, headers


def length_of(method: str, headers: dict[str, list[str]]) -> int:
    """The length of a body, which is told, and short."""
    lengths = headers.get('content-length', [] if method == 'POST' else ['0'])
    if 'expect' in headers:
        raise Unfit(HTTPStatus.EXPECTATION_FAILED)
    if 'transfer-encoding' in headers or len(lengths) != 1:
        raise Unfit(HTTPStatus.LENGTH_REQUIRED)
    if not re.fullmatch('[0-9]{1,9}', lengths[0]) or int(lengths[0]) > LONGEST:
        raise Unfit(HTTPStatus.REQUEST_ENTITY_TOO_LARGE)
    return int(lengths[0])
