"""Cost trees, drawn as docs/WHY.md does: the counts and the loops to be marked are the calls'."""
from office.paper import Paper

Counts = dict[int, int]
FORK, LAST, BAR, SPACE = '├ ', '└ ', '│ ', '  '


def drawn(paper: Paper, counts: Counts, marked: list[int] | None = None) -> list[str]:
    """The tree of counts, a loop a line, each under the loop around it; some loops are marked."""
    lines: list[str] = []

    def add(d: int, lead: str, below: str) -> None:
        lines.append(f'{lead}loop {d}: {counts[d]}' + ('  <' if marked and d in marked else ''))
        inside = [k for k in paper.end if k != d and paper.owner.get(k) == d]
        for k in inside[:-1]:
            add(k, below + FORK, below + BAR)
        for k in inside[-1:]:
            add(k, below + LAST, below + SPACE)

    add(0, '', '')
    return lines


def beside(left: list[str], right: list[str], apart: int = 4) -> list[str]:
    """Two columns of lines."""
    wide = max(map(len, left)) + apart
    return [f'{a:{wide}}{b}'.rstrip() for a, b in zip(left, right)]
