"""How candidates call a hall: plain or encrypted, by which names, at which port; what follows from it for requests and
for the cookie; and from which machine a request comes."""
import functools
import ipaddress
import re
from dataclasses import dataclass

from office.command import Fault, printable
from office.messages import Request

USUAL = {'http': 80, 'https': 443}
LABEL = '[a-z0-9_](?:[a-z0-9_-]{0,61}[a-z0-9_])?'
NAME = re.compile(rf'(?:{LABEL}\.)*(?![0-9]+$){LABEL}')
ADDRESS = re.compile(r'(https?)://(\[[^\]]*\]|[^/:]*)(?::([0-9]{1,5}))?/?', re.I)
LONGEST, PORTS, NETWORK = 253, 1 << 16, 64


def name_of(given: str) -> str:
    """A name of a machine, or its address, as browsers send it."""
    name = given.lower()
    try:
        address = ipaddress.ip_address(name.removeprefix('[').removesuffix(']').partition('%')[0])
    except ValueError:
        if len(name) > LONGEST or not NAME.fullmatch(name):
            raise Fault(f'"{printable(given)}" is no name of a machine: it has letters of ASCII, digits, - and . only, '
                        'or is an IP address') from None
        return name
    return f'[{address}]' if address.version == 6 else str(address)


def is_everywhere(given: str) -> bool:
    """Whether an address to listen at stands for all that the machine has."""
    try:
        return ipaddress.ip_address(given).is_unspecified
    except ValueError:
        return False


def is_here(given: str) -> bool:
    """Whether an address is one that only this machine reaches."""
    try:
        return ipaddress.ip_address(given.partition('%')[0]).is_loopback
    except ValueError:
        return False


@functools.lru_cache(1 << 12)
def machine_at(address: str) -> str:
    """A machine by its address; those of one network of IPv6 count as one."""
    at = ipaddress.ip_address(address.partition('%')[0])
    if at.version == 4:
        return str(at)
    return str(at.ipv4_mapped or ipaddress.ip_network((at, NETWORK), strict=False))


@dataclass(frozen=True)
class Called:
    """What candidates type. Where something else stands in front of the hall, it is that which they call."""
    scheme: str
    names: tuple[str, ...]
    port: int
    in_front: bool = False

    @property
    def secure(self) -> bool:
        return self.scheme == 'https'

    def host(self, name: str) -> str:
        """A name as a browser sends it, which leaves the usual port out."""
        return name if self.port == USUAL[self.scheme] else f'{name}:{self.port}'

    @property
    def address(self) -> str:
        return f'{self.scheme}://{self.host(self.names[0])}/'

    def cookie(self, of: str) -> str:
        """The name of a cookie, so that two halls on one machine have two."""
        return f'{"__Host-" if self.secure else ""}{of}-{self.port}'

    def calls(self, request: Request) -> bool:
        """Whether a request comes by one of the names, from no page but one of the same name."""
        host = (request.header('host') or '').lower().removesuffix(f':{USUAL[self.scheme]}')
        told = [*request.headers.get('origin', []), *[request.named] * bool(request.named)]
        return host in map(self.host, self.names) and len(request.headers.get('origin', [])) < 2 and all(
            origin.lower().removesuffix(f':{USUAL[self.scheme]}') == f'{self.scheme}://{host}' for origin in told)

    def machine(self, address: str, request: Request) -> str:
        """The machine that a request comes from: what stands in front on this machine tells it."""
        told = ','.join(request.headers.get('x-forwarded-for', [])).rpartition(',')[2].strip()
        try:
            return str(ipaddress.ip_address(told)) if self.in_front and is_here(address) else address
        except ValueError:
            return address


def called_by(address: str) -> Called:
    """What --address says."""
    parts = ADDRESS.fullmatch(address)
    if not parts or not 0 < int(parts[3] or 1) < PORTS:
        raise Fault(f'"{printable(address)}" is no address of a hall: it is like https://hall.example or '
                    'http://192.168.1.10:8000')
    scheme = parts[1].lower()
    return Called(scheme, (name_of(parts[2]),), int(parts[3] or USUAL[scheme]), in_front=True)
