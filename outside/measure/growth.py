"""The picture of growth: growth.py BEFORE NOW writes an SVG to standard output.

NOW is a table as `instructions` beside this prints it, a heading and a line for each paper: kind, points, the
instructions of Load and Plan in the program and in its twin, and glpsol's milliseconds if it was there. BEFORE has the
Plan of the planner that made one sweep for each suffix. Each kind has a panel with three lines: Plan before, Plan now,
and Plan of the twin; both axes grow by factors, so that a straight line is a power of the points and its slope the
exponent.
"""
import math
import sys
from dataclasses import dataclass

PANEL_W, PANEL_H, LEFT, TOP, COLUMNS = 190, 150, 66, 56, 4
GAP_X, GAP_Y = 24, 44
LOW, HIGH = 10_000, 10_000_000
SERIES = (('twin', '#8a8f98', 'the same in plain Rust'),
          ('before', '#c05a2b', 'before: one sweep for each suffix'),
          ('now', '#1f6fb2', 'now: all starts at once'))


class Fault(Exception):
    """What is wrong with a table, in words for its maker."""


@dataclass(frozen=True)
class Figure:
    kind: str
    points: int
    plan: int
    twin: int
    glpsol: str


def figures(path: str) -> list[Figure]:
    """The papers of a table, by the names in its heading."""
    rows = []
    try:
        with open(path, encoding='ascii') as table:
            heading, *lines = table.read().splitlines() or ['']
    except (OSError, UnicodeDecodeError) as fault:
        raise Fault(f'{path}: {fault}') from None
    for line in lines:
        words = dict(zip(heading.split(), line.split()))
        try:
            rows.append(Figure(words['paper'], int(words['points']), int(words['plan']),
                               int(words.get('twin_plan', 0)), words.get('glpsol', '')))
        except (ValueError, KeyError):
            raise Fault(f'{path}: not a line of figures: {line}') from None
    if not rows:
        raise Fault(f'{path}: no figures')
    return rows


def text(x: float, y: float, words: str, anchor: str = 'start', size: int = 11, weight: str = 'normal') -> str:
    look = f'text-anchor="{anchor}" font-size="{size}" font-weight="{weight}"'
    return f'<text x="{x:.1f}" y="{y:.1f}" {look}>{words}</text>'


def panel(kind: str, beside: str, x0: float, y0: float, lines: dict[str, list[tuple[int, int]]],
          labels: bool) -> list[str]:
    """One kind of paper: a frame, the powers of ten, the sizes, its lines, and words beside its name."""
    sizes = sorted({points for line in lines.values() for points, _ in line})
    least, most = math.log2(sizes[0]) - 0.25, math.log2(sizes[-1]) + 0.25

    def across(points: int) -> float:
        return x0 + PANEL_W * (math.log2(points) - least) / (most - least)

    def up(cost: int) -> float:
        return y0 + PANEL_H * (1 - math.log10(cost / LOW) / math.log10(HIGH / LOW))

    out = [f'<rect x="{x0}" y="{y0}" width="{PANEL_W}" height="{PANEL_H}" fill="none" stroke="#b9bec6"/>',
           text(x0, y0 - 7, kind, weight='bold'), text(x0 + PANEL_W, y0 - 7, beside, 'end', 10)]
    power = LOW
    while power <= HIGH:
        y = up(power)
        if LOW < power < HIGH:
            out.append(f'<line x1="{x0}" y1="{y:.1f}" x2="{x0 + PANEL_W}" y2="{y:.1f}" stroke="#e3e6ea"/>')
        if labels:
            out.append(text(x0 - 6, y + 4, f'{power:,}', 'end', 10))
        power *= 10
    for points in sizes:
        out.append(text(across(points), y0 + PANEL_H + 14, str(points), 'middle', 10))
    for name, colour, _ in SERIES:
        places = [(across(points), up(cost)) for points, cost in sorted(lines[name])]
        path = ' '.join(f'{x:.1f},{y:.1f}' for x, y in places)
        out.append(f'<polyline points="{path}" fill="none" stroke="{colour}" stroke-width="2"/>')
        out += [f'<circle cx="{x:.1f}" cy="{y:.1f}" r="2.6" fill="{colour}"/>' for x, y in places]
    return out


def picture(before: list[Figure], now: list[Figure]) -> str:
    """All kinds of the second table, each beside what the first says of it."""
    kinds = list(dict.fromkeys(row.kind for row in now))
    width = LEFT + COLUMNS * (PANEL_W + GAP_X)
    height = TOP + -(-len(kinds) // COLUMNS) * (PANEL_H + GAP_Y) + 8
    out = [f'<svg xmlns="http://www.w3.org/2000/svg" viewBox="0 0 {width} {height}" width="{width}" height="{height}" '
           'font-family="sans-serif" fill="#22262b">',
           '<title>Instructions of Plan by the points of a paper</title>',
           f'<rect width="{width}" height="{height}" fill="#ffffff"/>']
    x = LEFT
    for name, colour, words in reversed(SERIES):
        out += [f'<line x1="{x}" y1="18" x2="{x + 22}" y2="18" stroke="{colour}" stroke-width="2"/>',
                text(x + 28, 22, words)]
        x += 48 + 6 * len(words)
    for i, kind in enumerate(kinds):
        lines = {'now': [(row.points, row.plan) for row in now if row.kind == kind],
                 'twin': [(row.points, row.twin) for row in now if row.kind == kind],
                 'before': [(row.points, row.plan) for row in before if row.kind == kind]}
        for name, line in lines.items():
            if any(not LOW <= cost <= HIGH for _, cost in line):
                raise Fault(f'{kind}: a figure of {name} lies outside {LOW} to {HIGH}')
        column, row = i % COLUMNS, i // COLUMNS
        last = [figure for figure in now if figure.kind == kind][-1]
        beside = f'glpsol: {int(last.glpsol):,} ms at {last.points}' if last.glpsol.isdigit() else ''
        out += panel(kind, beside, LEFT + column * (PANEL_W + GAP_X), TOP + row * (PANEL_H + GAP_Y), lines, column == 0)
    caption = ('Instructions of Plan by the points of the paper. Both axes grow by factors. '
               'glpsol: the least counts of all loops.')
    return '\n'.join(out + [text(LEFT, height - 10, caption), '</svg>', ''])


def main() -> int:
    if len(sys.argv) != 3:
        print('usage: growth.py BEFORE NOW', file=sys.stderr)
        return 2
    try:
        drawn = picture(figures(sys.argv[1]), figures(sys.argv[2]))
        sys.stdout.write(drawn)
        sys.stdout.flush()
    except (Fault, OSError) as fault:
        print(f'growth.py: {fault}', file=sys.stderr)
        return 1
    return 0


if __name__ == '__main__':
    sys.exit(main())
