"""What an argument costs and how long it is, on full-size papers: python3 -m outside.measure.giving

A row a paper: barriers of the key; claims and sets that the library gives, and those that are left when it was made
shorter; lines in words; milliseconds of this process for what is given, for making shorter, for the words and for
weighing by the library; and for ./desk why with all, as it is typed.
"""
import subprocess
import tempfile
import time
from collections.abc import Callable
from typing import TypeVar

from office.argued import argued, argument_lines
from office.claim_words import claims_told
from office.claims import Claim, Ground, argument_text, claims_in
from office.library import Desk
from office.paper import paper_on, placed
from office.shorter import shortened
from outside.measure import papers
from outside.trying import DESK

TURNS = 5
Made = TypeVar('Made')


def timed(make: Callable[[], Made]) -> tuple[Made, float]:
    """What is made, and the least of some times that it takes, in milliseconds."""
    times = []
    for _ in range(TURNS):
        begun = time.process_time()
        made = make()
        times.append(time.process_time() - begun)
    return made, min(times) * 1000


def row(kind: str) -> list[object]:
    text, desk = papers.text(kind), Desk()
    desk.load(text)
    desk.plan()
    paper, key = paper_on(desk), placed(desk, desk.key())
    ground = Ground(paper, key.counts)
    text_given, given = timed(desk.argue)
    plain = claims_in(text_given)
    short, shorter = timed(lambda: shortened(ground, plain))
    _, worded = timed(lambda: claims_told(paper, key.counts, ground.follow(short)))
    _, weighed = timed(lambda: desk.weigh(argument_text(short)))
    lines = '\n'.join(argument_lines(argued(desk, paper, key.counts), True)).count('\n') + 1
    with tempfile.NamedTemporaryFile(suffix='.hex') as file:
        file.write(text)
        file.flush()
        begun = time.time()
        subprocess.run([DESK, 'why', file.name, '--argument'], stdout=subprocess.DEVNULL, check=True)
        whole = (time.time() - begun) * 1000
    times = [f'{given:.2f}', f'{shorter:.0f}', f'{worded:.0f}', f'{weighed:.2f}', f'{whole:.0f}']
    return [kind, len(key.gaps), sized(plain), sized(short), lines, *times]


def sized(claims: list[Claim]) -> str:
    return f'{len(claims)}, {sum(len(claim.steps) for claim in claims)}'


def main() -> None:
    for kind in (*papers.KINDS, 'barred', *papers.FOUND):
        print('| ' + ' | '.join(map(str, row(kind))) + ' |')


if __name__ == '__main__':
    main()
