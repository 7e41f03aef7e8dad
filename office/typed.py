"""A text as somebody typed it: one of its lines quoted, and slips of the keyboard named."""

from office.records import dataclass
from office.words import counted

QUOTED = 48
MARKS = {b'\xef\xbb\xbf': 'a byte order mark (ef bb bf)', b'\xff\xfe': 'the byte order mark of UTF-16 (ff fe)',
         b'\xfe\xff': 'the byte order mark of UTF-16 (fe ff)'}
SMALL, CAPITAL, SPACES = b'0123456789abcdef', b'ABCDEF', b' \t'


@dataclass(frozen=True)
class Line:
    """The bytes of a line, whether a line feed ends it, and whether it is the first of its text."""
    typed: bytes
    ended: bool
    first: bool

    def quoted(self) -> str:
        """The line made printable, and cut where it is long."""
        shown = repr(self.typed[:QUOTED])[2:-1].replace('"', '\\"')
        more = len(self.typed) - QUOTED
        return f'"{shown}"' if more <= 0 else f'"{shown}..." and {counted(more, "byte")} more'

    def slips(self) -> list[str]:
        """What a person who types digits by hand gets wrong, each with what to do."""
        found, digits = [], self.typed
        for mark, name in MARKS.items():
            if self.first and digits.startswith(mark):
                found.append(f'the text begins with {name}: save it as plain text, without one')
                digits = digits.removeprefix(mark)
        if digits.endswith(b'\r'):
            found.append('the line ends in CRLF (0d 0a): save the text with line feeds alone')
            digits = digits.removesuffix(b'\r')
        if any(c in SPACES for c in digits):
            found.append('there are spaces in it: leave them out')
        if any(c in CAPITAL for c in digits):
            found.append('it has capital digits: type a to f small')
        strange = sorted({c for c in digits if c not in SMALL + CAPITAL + SPACES})
        if strange:
            signs = ' '.join(repr(bytes([c]))[2:-1] for c in strange[:8])
            return [f'it has what are no digits: {signs}; a line has 0 to 9 and a to f alone']
        if not digits:
            found.append('it is empty: take the line out')
        elif not found and len(digits) % 2 == 1:
            found.append(f'it has {counted(len(digits), "digit")}, an odd number: type two for each number')
        if not self.ended:
            found.append('no line feed comes after it: end the text with one')
        return found


def line_at(text: bytes, number: int) -> Line | None:
    """The line of a text with a number from 1, or None behind the last."""
    lines = text.split(b'\n')
    if not 1 <= number <= len(lines) or (number == len(lines) and not lines[-1]):
        return None
    return Line(lines[number - 1], number < len(lines), number == 1)
