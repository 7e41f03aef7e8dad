"""Lines of texts: frames in hexadecimal, and what the kinds are called."""
from collections.abc import Iterable

from office.header import DECLARED

DO, ENDDO, STATEMENT, INDEPENDENT, CARRIED, BARRED = (
    DECLARED.numbers[f'DESK_{kind}'] for kind in ('DO', 'ENDDO', 'STATEMENT', 'INDEPENDENT', 'CARRIED', 'BARRED'))
FLAGGED, BARRIER, COUNT, FIRST_UNCUT, VERDICT, CUT, REFUSAL = 0x04, 0x21, 0x22, 0x23, 0x24, 0x25, 0x2F
# Lines of arguments: a claim, a claim that leads, the gaps of a dependence, those from one on, those up to one.
CLAIM, LED, CUTS, FROM, UPTO = 0x31, 0x32, 0x33, 0x34, 0x35
# So many a paper has at most; loops are at most so many deep.
POINTS, DEPENDENCES, BARS = (DECLARED.numbers[f'DESK_{many}'] for many in ('POINTS', 'DEPENDENCES', 'BARS'))
DEEP = 8
# In a line 23 of a slip: no dependence is uncut.
NONE = 0xFFFF


def frames_of(text: bytes) -> list[list[int]]:
    """The frames that the lines of an accepted text spell."""
    return [list(bytes.fromhex(line)) for line in text.decode('ascii').split()]


def text_of(frames: Iterable[Iterable[int]]) -> bytes:
    """The text of frames, a line each."""
    return ''.join(''.join(f'{byte:02x}' for byte in frame) + '\n' for frame in frames).encode()


def placement_text(gaps: Iterable[int]) -> bytes:
    """The placement text of gaps."""
    return text_of((BARRIER, gap) for gap in gaps)
