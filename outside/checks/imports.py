"""No import that its file does not use, in code, specs and proofs.

  python3 -m outside.checks.imports    the last line is 'N passed, M failed'
"""
import re
import sys

from outside.checks.repository import sources
from outside.trying import ROOT, Tally

# A use of several names, of one thing under another name, or of one name of the code.
USE = re.compile(r'^(?:ghost )?use ([^\n{;]*?)(?:\.\{([^}\n]*)\}| as (\S+?))?;?$', re.M)
# Where an operand stands in the name of an operator.
PLACE = '◌'
COMMENT = {'.antt': '--', '.rt': '//'}
WORD, JOINED = re.compile(r'[^\s(){}\[\].,;\\]+|\[\]'), re.compile(r'[⌜⌝«»@&*!|:<>]+')
# Texts with an import too many, and that import.
SEEN = [('.antt', 'use lib.Dec.{eqb, ltb}\nf a = eqb a 0\n', ['ltb']), ('.antt', 'use a.B as C\n', ['C']),
        ('.antt', 'use lib.N.{◌+◌, ◌∸◌}\nf a = a + 1 -- ∸\n', ['◌∸◌']),
        ('.rt', 'use desk::Desk;\nuse desk::Nest;\nResult<u8, Nest>', ['Desk'])]


def words(text: str) -> set[str]:
    """The words of a text; of an operator also its signs, of a word with signs of the code around it the word."""
    found = set(WORD.findall(text))
    return found.union(*(JOINED.split(word) for word in found), *(word.split('_') for word in found if '_' in word))


def imported(kind: str, text: str) -> list[str]:
    """The names that a file imports."""
    names = []
    for path, several, other in USE.findall(text):
        if several:
            names += [name.split(' as ')[-1] for name in several.split(', ')]
        elif other:
            names.append(other)
        elif kind == '.rt':
            names.append(path.split('::')[-1])
    return names


def unused(kind: str, text: str) -> list[str]:
    """The names that a file imports and does not use."""
    there = words(re.sub(rf'(?m)(^|\s){COMMENT[kind]}.*$', '', USE.sub('', text)))
    signs = {name: name.replace(PLACE, ' ').split() if PLACE in name else [name] for name in imported(kind, text)}
    return [name for name in signs if name not in there and not there.issuperset(signs[name])]


def main() -> None:
    tally = Tally()
    for path in sources():
        names = unused(path.suffix, path.read_text())
        tally.check(f'{path.relative_to(ROOT)} does not use', not names, ', '.join(names))
    for kind, text, names in SEEN:
        tally.check(f'seen in {text!r}', unused(kind, text) == names, unused(kind, text))
    tally.close()


if __name__ == '__main__':
    main()
