"""No division and no remainder in the planner and in the ring of moves: looks through what their crates compile to, the
file mir.json that the prover leaves in a library that it built.

The functions of these crates are listed with the divisions they hold, and so are those of other crates that they call.
`Placement::put` of crate paper_placements takes a gap's word and bit by / 64 and % 64, outside the planner: it is the
one exception, by name.
The last line is 'N passed, M failed'.
"""
import json
import sys
from collections import Counter
from typing import Any

from office.built import LIBRARY, build
from outside.checks.repository import CRATES as FOLDER
from outside.copies import below

CRATES = ['plan_tables', 'plan_sweeps', 'plan_starts', 'plan_rows', 'plan_settle', 'plan_lay', 'plan_nest',
          'desk_moves']
EXCEPTED = {'paper_placements::Placement::put'}
DIVIDE = ('Div', 'Rem')


def operations(part: Any) -> Counter[str]:
    """The names in a piece of code, of its operations among them, each with how often it is there."""
    found, rest = Counter[str](), [part]
    while rest:
        one = rest.pop()
        if isinstance(one, dict):
            found.update(one.keys())
            rest += one.values()
        elif isinstance(one, list):
            rest += one
        elif isinstance(one, str):
            found[one] += 1
    return found


def functions(crate: str) -> dict[str, Counter[str]]:
    """The functions of a crate, each with what is in its body."""
    path = FOLDER / crate / 'out' / 'rlib' / f'{crate}.rlib' / 'toolchain' / 'mir.json'
    return {name: operations(held['body']) for name, held in functions_in(json.loads(path.read_text()))}


def functions_in(part: Any) -> list[tuple[str, Any]]:
    """The pairs of a name and a function with a body, wherever they stand."""
    if isinstance(part, list):
        if len(part) == 2 and isinstance(part[0], str) and isinstance(part[1], dict) and 'body' in part[1]:
            return [(part[0], part[1])]
        return [pair for one in part for pair in functions_in(one)]
    return [pair for one in part.values() for pair in functions_in(one)] if isinstance(part, dict) else []


def reached(crate: str) -> dict[str, int]:
    """The functions of a crate and those of this repository that they call, by others too, each with its number of
    divisions and remainders."""
    known = {name: held for one in below(crate) for name, held in functions(one).items()}
    found = [name for name in known if name.split('::')[0] == crate]
    for name in found:
        found += [called for called in known[name] if called in known and called not in found]
    return {name: sum(known[name][word] for word in DIVIDE) for name in found}


def main() -> None:
    build(LIBRARY[0], 'test')
    passed = failed = 0
    for crate in CRATES:
        found = reached(crate)
        own = [name for name in found if name.startswith(f'{crate}::')]
        odd = [name for name in found if found[name] and name not in EXCEPTED]
        if own and not odd:
            print(f'{crate}: {len(own)} functions and {len(found) - len(own)} that they call, no division')
            passed += 1
        else:
            print(f'{crate}: {"division in " + ", ".join(odd) if own else "no function found"}')
            failed += 1
    # The search itself finds one where there is one.
    seen = {name: sum(held[word] for word in DIVIDE) for name, held in functions('paper_placements').items()}
    if seen.get('paper_placements::Placement::put') == len(DIVIDE):
        passed += 1
    else:
        print('the search does not find the division and the remainder in Placement::put')
        failed += 1
    print(f'{passed} passed, {failed} failed')
    sys.exit(failed > 0)


if __name__ == '__main__':
    main()
