"""Names of a paper's statements and loops, in a file beside its text: paper.names for paper.hex.

The text of a paper has no names, so they go along in a file of their own, written by ./desk spell. It is bound to the
paper by its hash: beside another text it is told of and not used. A listing that is taken as a paper has its own.

  sha256 3eb019b6...
  2 rent
  3 bread
"""
import os
import re

from office.asked import LISTED
from office.command import REFUSED, Fault, printable, read_plain, tell
from office.frames import ENDDO
from office.library import Desk
from office.listing import words_of
from office.paper import Paper, paper_on

TOP, ROW = re.compile('sha256 ([0-9a-f]{64})'), re.compile('(0|[1-9][0-9]{0,2}) (.+)')
SUFFIX, BEGINS = '.names', b'sha256 '


def sha256_of(text: bytes) -> str:
    import hashlib  # which takes long to load, and few papers have names
    return hashlib.sha256(text).hexdigest()


def names_text(text: bytes, names: dict[int, str]) -> bytes:
    """The file of the names for the points of a paper with this text."""
    rows = [f'{point} {name}' for point, name in sorted(names.items())]
    return '\n'.join([f'sha256 {sha256_of(text)}', *rows, '']).encode()


def bound_to(data: bytes) -> str:
    """The hash of the paper that a file of names is of; nothing where it is no such file."""
    top = TOP.fullmatch(data.partition(b'\n')[0].decode('utf-8', 'replace'))
    return top[1] if top else ''


def names_in(data: bytes, points: list[int]) -> dict[int, str]:
    """The names that a file has for the points of its paper. A ValueError says where it has something else."""
    _, *rows = data.decode('utf-8', 'replace').splitlines()
    names: dict[int, str] = {}
    for number, row in enumerate(rows, 2):
        read = ROW.fullmatch(row)
        if not read or not is_name(read[2]):
            raise ValueError(f'line {number} is not a point and a name: {printable(row)}')
        point, name = int(read[1]), read[2]
        if point >= len(points) or points[point] == ENDDO:
            raise ValueError(f'line {number}: point {point} is no statement and no DO')
        if point in names or name in names.values():
            raise ValueError(f'line {number}: the point or the name is there already')
        names[point] = name
    return names


def names_bound(data: bytes, paper: str, points: list[int]) -> dict[int, str]:
    """The names of a paper with this hash, as a register has them. A ValueError says why they are not its names."""
    if bound_to(data) != paper:
        raise ValueError('line 1 is not sha256 and the hash of this paper')
    return names_in(data, points)


def is_name(word: str) -> bool:
    """Whether a listing could have such a name."""
    words = words_of(word)
    return [one.text for one in words] == [word] and words[0].is_name


def names_beside(desk: Desk, file: str, text: bytes) -> dict[int, str]:
    """The names of a listing, or those that lie beside the file of a paper; those of another one are told of and not
    used."""
    if file in LISTED:
        return LISTED[file]
    beside = os.path.splitext(file)[0] + SUFFIX
    if file == '-' or not os.path.exists(beside):
        return {}
    data = read_plain(beside)
    if not bound_to(data):
        raise Fault(f'{printable(beside)} is no file of names: line 1 is not sha256 and a hash; move it away', REFUSED)
    if bound_to(data) != sha256_of(text):
        tell('desk', f'{printable(beside)} is of another paper, so its names are not used')
        return {}
    try:
        return names_in(data, desk.nest.points)
    except ValueError as fault:
        raise Fault(f'{printable(beside)}: {fault}', REFUSED) from fault


def named_paper(desk: Desk, file: str, text: bytes) -> Paper:
    """The paper on a desk, with the names of its listing, or those that lie beside its file."""
    return paper_on(desk, names_beside(desk, file, text))


def names_to_keep(desk: Desk, file: str, text: bytes) -> bytes:
    """The names of a paper's listing, or those beside its file, as a file of them; nothing where there are none."""
    names = names_beside(desk, file, text)
    return names_text(text, names) if names else b''
