"""A mark as the register keeps it: its fields, and the chain in which each mark holds the hash of the one before."""
import hashlib

from office.candidates import BETWEEN, LETTERS, spelled
from office.records import dataclass, replace
from office.words import BEST

# What stands before the first mark; how many digits of the last hash are told as the head of a register.
NO_MARK, HEAD = '0' * 64, 16
# 80 bits are sixteen letters of five bits: those of tickets, and o, which 0 is read as.
SPELLING, NUMBER_BITS, LETTER_BITS = LETTERS + 'o', 80, 5


@dataclass(frozen=True)
class Finding:
    """What became of an answer: the verdict's word and the numbers that go with it."""
    verdict: str
    uncut: int | None = None
    loop: int | None = None
    theirs: int | None = None
    ours: int | None = None
    number: int | None = None
    line: int | None = None


@dataclass(frozen=True)
class Mark:
    """A row of the register's table of marks, its columns in their order. Papers, answers and sittings go by hash."""
    seq: int
    at: str
    candidate: str
    paper: str
    answer: str | None
    verdict: str
    uncut: int | None
    loop: int | None
    theirs: int | None
    ours: int | None
    number: int | None
    line: int | None
    desk: str
    library: str
    who: str
    replaces: int | None
    reason: str | None
    sitting: str | None
    before: str
    own: str

    @property
    def finding(self) -> Finding:
        return Finding(**{name: getattr(self, name) for name in Finding.__annotations__})

    @property
    def certified(self) -> bool:
        """Whether there may be a certificate for it, as long as no other mark replaces it."""
        return self.verdict == BEST

    def hashed(self) -> str:
        """The hash that it should have: of the hash before it and of its fields."""
        import json
        told = {name: value for name, value in vars(self).items() if name not in ('before', 'own')}
        spelled = json.dumps(told, separators=(',', ':'), default=bytes.hex)
        return hashlib.sha256(f'{self.before}{spelled}'.encode()).hexdigest()

    def chained(self, before: str) -> 'Mark':
        """The same mark behind another."""
        behind = replace(self, before=before)
        return replace(behind, own=behind.hashed())

    def certificate(self) -> str:
        """The number of its certificate: the first bits of its hash, spelled as tickets are."""
        bits = int(self.own, 16) >> 4 * len(self.own) - NUMBER_BITS
        places = range(NUMBER_BITS - LETTER_BITS, -1, -LETTER_BITS)
        letters = ''.join(SPELLING[bits >> place & (1 << LETTER_BITS) - 1] for place in places)
        return spelled(letters)


def certificate_in(typed: str) -> str | None:
    """The number of a certificate as it was typed, in any case, with or without dashes; None if it can be none."""
    letters = BETWEEN.sub('', typed).lower().replace('0', 'o')
    if len(letters) != NUMBER_BITS // LETTER_BITS or set(letters) - set(SPELLING):
        return None
    return spelled(letters)


COLUMNS = [*Mark.__annotations__]


def sha256_of(data: bytes) -> str:
    return hashlib.sha256(data).hexdigest()
