"""The families of crates as a picture, made from crates.txt.

  python3 -m outside.checks.families > docs/families.svg

Each family is a box with its crates by their short names, the laws at the bottom. An arrow leads from a family to each
one that it uses; an arrow that follows from others is left out.
"""
import html
import re
import sys
import textwrap
from dataclasses import dataclass

from outside.checks.repository import edges
from outside.trying import ROOT

WIDTH, EDGE, ASIDE, RISE, PAD, LINE, CHIP, LETTER = 880, 12, 22, 32, 12, 18, 23, 7.2
INK, PALE, BOX, SHADE = '#17202a', '#5b6875', '#8da9c5', '#e4ebf2'
SIGN = 'An arrow leads from a family to one that it uses; arrows that follow from others are left out.'
STYLE = f'''
text {{ font-size: 12px; fill: {PALE} }}
.name {{ font-size: 14px; font-weight: bold; fill: {INK} }}
.crate {{ fill: {INK}; text-anchor: middle }}
.box {{ fill: {SHADE}; stroke: {BOX} }}
.chip {{ fill: white; stroke: {BOX} }}
.arrow {{ fill: {PALE}; stroke: {PALE}; stroke-width: 1.5 }}
'''


@dataclass
class Family:
    """A family: what crates.txt says of it, its crates by their short names, what it uses, and its box."""
    name: str
    subject: str
    crates: list[str]
    uses: list['Family']
    level: int
    x: int = 0
    y: int = 0
    width: int = 0
    height: int = 0

    def heading(self) -> list[str]:
        """What stands beside its name, where there is room for it, and in lines below."""
        room = int((self.width - 2 * PAD) / (LETTER - 0.6))
        fits = 2 * len(self.name) + len(self.subject) < room
        return [self.subject] if fits else ['', *textwrap.wrap(self.subject, room)]

    def chips(self) -> list[tuple[int, int, int, str]]:
        """Place and width of its crates, in rows from the left."""
        placed, x, y = [], PAD, LINE * len(self.heading()) + 13
        for crate in self.crates:
            wide = round(LETTER * len(crate)) + 12
            if x + wide > self.width - PAD:
                x, y = PAD, y + CHIP + 5
            placed.append((x, y, wide, crate))
            x += wide + 6
        return placed

    def drawn(self) -> list[str]:
        beside, *below = self.heading()
        x, y, size = self.x + PAD, self.y + 20, f'width="{self.width}" height="{self.height}"'
        lines = [f'<tspan class="name">{self.name}</tspan><tspan dx="10">{beside}</tspan>', *below]
        out = [f'<rect class="box" x="{self.x}" y="{self.y}" {size} rx="6"/>']
        out += [f'<text x="{x}" y="{y + LINE * i}">{line}</text>' for i, line in enumerate(lines)]
        for x, y, wide, crate in self.chips():
            x, y = self.x + x, self.y + y
            out += [f'<rect class="chip" x="{x}" y="{y}" width="{wide}" height="{CHIP}" rx="4"/>',
                    f'<text class="crate" x="{x + wide / 2:g}" y="{y + 16}">{crate}</text>']
        return out + [self.arrow(used) for used in self.uses]

    def arrow(self, used: 'Family') -> str:
        """Straight down where the two boxes lie one over the other, else aslant."""
        low, high = max(self.x, used.x), min(self.x + self.width, used.x + used.width)
        start, end = ((low + high) / 2,) * 2 if high - low > PAD else (high - PAD, low + PAD)
        line = f'M{start:g} {self.y + self.height}L{end:g} {used.y - 9}'
        return f'<path class="arrow" d="{line}M{end:g} {used.y - 1}l-4-8h8z"/>'


def families() -> list[Family]:
    """The families in the order of crates.txt, each with those that it uses and that no other of these leads to."""
    text, found, below = (ROOT / 'crates.txt').read_text(), dict[str, Family](), dict[str, set[str]]()
    for name in dict.fromkeys(crate.split('_')[0] for crate in edges()):
        own = [crate for crate in edges() if crate.split('_')[0] == name]
        uses = {used.split('_')[0] for crate in own for used in edges()[crate]} & found.keys()
        below[name] = uses.union(*(below[used] for used in uses))
        direct = [found[used] for used in found if used in uses and not any(used in below[other] for other in uses)]
        subject = re.search(rf'^# (?:{name}: )?(.*)(?:\n#.*)*\n{name}', text, re.M)
        short = [crate.removeprefix(f'{name}_') for crate in own if own != [name]]
        level = max((used.level + 1 for used in direct), default=0)
        found[name] = Family(name, html.escape(subject[1]) if subject else '', short, direct, level)
    return [*found.values()]


def stacked(level: list[Family], bottom: int) -> int:
    """Puts the boxes of a level side by side over a line; gives the line above them."""
    shares, x = [max(len(one.crates), 1) + 4 for one in level], EDGE
    for one, share in zip(level, shares):
        one.x, one.width = x, round((WIDTH - 2 * EDGE - ASIDE * (len(level) - 1)) * share / sum(shares))
        x += one.width + ASIDE
    height = PAD + max(LINE * len(one.heading()) for one in level)
    height = max([height, *(y + CHIP + PAD for one in level for _, y, _, _ in one.chips())])
    for one in level:
        one.y, one.height = bottom - height, height
    return bottom - height


def picture() -> str:
    every, top = families(), 0
    for level in range(max(one.level for one in every) + 1):
        top = stacked([one for one in every if one.level == level], top - RISE)
    frame = f'0 {top - EDGE} {WIDTH} {2 * EDGE - top}'
    return '\n'.join([
        f'<svg xmlns="http://www.w3.org/2000/svg" width="{WIDTH}" height="{2 * EDGE - top}" viewBox="{frame}" '
        'role="img" font-family="Helvetica, Arial, sans-serif">', '<title>The families of crates</title>',
        f'<style>{STYLE}</style>', f'<rect y="{top - EDGE}" width="100%" height="100%" fill="white"/>',
        *(line for one in every for line in one.drawn()), f'<text x="{EDGE}" y="0">{SIGN}</text>', '</svg>', ''])


if __name__ == '__main__':
    sys.stdout.write(picture())
