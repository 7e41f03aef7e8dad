"""desk.h read for ctypes: its numbers, its structs and its functions. The form of the calls stands once, in C."""
import ctypes
import re

from office.places import HEADER

TYPE_CHECKING = False
if TYPE_CHECKING:
    from typing import TypeAlias

# Any type of C. The name that ctypes has for it is there for hints alone.
Type: 'TypeAlias' = 'type[ctypes._CData]'
PLAIN: dict[str, Type] = {
    'bool': ctypes.c_bool, 'size_t': ctypes.c_size_t, 'uint8_t': ctypes.c_uint8, 'uint16_t': ctypes.c_uint16,
    'uint32_t': ctypes.c_uint32, 'uint64_t': ctypes.c_uint64}


class Header:
    """What a header declares: numbers by name, structs by name, and functions with what they give and take."""

    def __init__(self, text: str):
        text = re.sub(r'/\*.*?\*/', '', text, flags=re.S)
        self.numbers: dict[str, int] = {}
        for listed in re.findall(r'\benum \{([^}]*)\};', text):
            self.numbers |= {name: int(value, 0) for name, value in re.findall(r'(\w+) = (\w+)', listed)}
        self.types = dict(PLAIN)
        for name, fields in re.findall(r'\btypedef struct (\w+) \{([^}]*)\}', text):
            declared = [field for line in fields.split(';') if line.strip() for field in self.fields(line)]
            self.types[name] = type(name, (ctypes.Structure,), {'_fields_': declared})
        self.functions: dict[str, tuple[Type, list[Type]]] = {}
        for gives, name, takes in re.findall(r'^(\w+) (\w+)\(([^)]*)\);', text, re.M):
            taken = [self.taken(word) for word in takes.split(',') if word != 'void']
            self.functions[name] = self.types[gives], taken

    def fields(self, line: str) -> list[tuple[str, Type]]:
        """The fields of one declaration: `size_t a, b` or `uint8_t points[DESK_POINTS]`."""
        kind, names = line.split(maxsplit=1)
        found = []
        for name, length in re.findall(r'(\w+)(?:\[([^\]]+)\])?', names):
            found.append((name, self.types[kind] * self.length(length) if length else self.types[kind]))
        return found

    def length(self, words: str) -> int:
        """The length of an array: a number, or one number by another."""
        first, *by = [self.numbers.get(word) or int(word) for word in words.split(' / ')]
        return first // by[0] if by else first

    def taken(self, word: str) -> Type:
        """The type of an argument. Bytes go over as they are, other lists as arrays."""
        kind = word.split()[-2]
        if '*' not in word:
            return self.types[kind]
        if kind == 'uint8_t':
            return ctypes.c_char_p
        return ctypes.POINTER(self.types[kind])


with open(HEADER) as opened:
    DECLARED = Header(opened.read())
