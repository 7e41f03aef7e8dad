"""A search for dear papers: python3 -m outside.measure.climb [GENERATIONS [SEED]] climbs on the instructions that
target/bin/key takes, from the kinds of papers.py and those that were found before.

A generation is BROOD changed copies of the KEPT dearest papers so far; the dearest of all go on. The same numbers give
the same search. It prints the dearest after each generation and at the end writes that paper to target/dear.hex. What
it finds is a lower bound: a dearer paper may be there. It needs valgrind.
"""
import concurrent.futures
import os
import random
import re
import subprocess
import sys
from dataclasses import dataclass

from outside.measure import papers
from outside.measure.papers import DO, END, ST
from outside.trying import PROGRAM, ROOT

GENERATIONS, BROOD, KEPT, DEPTH = 40, 16, 4, 8
Dependence = tuple[int, ...]  # as in its frame: 11 s t, or 12 d s t


@dataclass(frozen=True)
class Paper:
    points: tuple[int, ...]
    deps: tuple[Dependence, ...]

    def text(self) -> bytes:
        return ''.join(bytes(frame).hex() + '\n' for frame in (*((p,) for p in self.points), *self.deps)).encode()


def paper_of(text: bytes) -> Paper:
    """The points and dependences of a nest text that has no other frames."""
    frames = [tuple(bytes.fromhex(line)) for line in text.decode().split()]
    return Paper(tuple(f[0] for f in frames if len(f) == 1), tuple(f for f in frames if len(f) > 1))


def cost(paper: Paper) -> int:
    """The program's instructions on a paper, 0 for one that it refuses."""
    command = ['valgrind', '--tool=callgrind', '--callgrind-out-file=/dev/null', str(PROGRAM)]
    run = subprocess.run(command, input=paper.text(), capture_output=True, check=True)
    found = re.search(rb'refs:\s+([\d,]+)', run.stderr)
    if found is None:
        sys.exit('climb: valgrind gave no count')
    return 0 if run.stdout.startswith(b'2f') else int(found.group(1).replace(b',', b''))


def is_shape(points: list[int]) -> bool:
    """One loop around all, and none deeper than is allowed."""
    depth = 0
    for i, p in enumerate(points):
        depth += {DO: 1, END: -1}.get(p, 0)
        if depth > DEPTH or depth < 1 and i < len(points) - 1:
            return False
    return depth == 0


def reshaped(points: tuple[int, ...], rng: random.Random) -> tuple[int, ...]:
    """Two points that stand side by side, an empty loop or statements, go elsewhere as a loop or as statements."""
    for _ in range(100):
        at = rng.randrange(1, len(points) - 2)
        if points[at:at + 2] not in ((DO, END), (ST, ST)):
            continue
        rest = [*points[:at], *points[at + 2:]]
        a, b = sorted(rng.randrange(1, len(rest)) for _ in range(2))
        first, second = rng.choice([(DO, END), (ST, ST)])
        made = [*rest[:a], first, *rest[a:b], second, *rest[b:]]
        if is_shape(made):
            return tuple(made)
    return points


def holds(dep: Dependence, points: tuple[int, ...], end: dict[int, int]) -> bool:
    """Whether a dependence fits the points."""
    s, t = dep[-2:]
    if points[s] == END or points[t] == DO:
        return False
    return s < t if len(dep) == 3 else dep[1] in end and dep[1] < t <= s < end[dep[1]]


def drawn(points: tuple[int, ...], end: dict[int, int], rng: random.Random) -> Dependence:
    """A dependence that fits: short, or any."""
    while True:
        s = rng.randrange(len(points))
        t = min(s + rng.choice([1, 2, 4, 200]), len(points) - 1)
        dep = (0x11, s, rng.randint(s, t)) if rng.random() < .8 else (0x12, rng.choice(list(end)), t, rng.randint(s, t))
        if holds(dep, points, end):
            return dep


def changed(paper: Paper, rng: random.Random) -> Paper:
    """A copy with other points here and there, with dependences that no longer fit and some others drawn anew."""
    points = paper.points
    for _ in range(rng.choice([0, 1, 1, 2, 5])):
        points = reshaped(points, rng)
    end = papers.ends(list(points))
    anew = rng.choice([0, .01, .05, .2])
    deps = [dep if holds(dep, points, end) and rng.random() >= anew else
            rng.choice(paper.deps) if rng.random() < .5 else drawn(points, end, rng) for dep in paper.deps]
    return Paper(points, tuple(dep if holds(dep, points, end) else drawn(points, end, rng) for dep in deps))


def main() -> None:
    generations = int(sys.argv[1]) if len(sys.argv) > 1 else GENERATIONS
    rng = random.Random(sys.argv[2] if len(sys.argv) > 2 else '')
    begin = [paper_of(papers.text(kind)) for kind in (*papers.KINDS, *papers.FOUND)]
    with concurrent.futures.ThreadPoolExecutor(os.cpu_count()) as workers:
        kept = sorted(zip(workers.map(cost, begin), begin), key=lambda row: -row[0])[:KEPT]
        print(f'at first {kept[0][0]}', flush=True)
        for generation in range(generations):
            brood = [changed(rng.choice(kept)[1], rng) for _ in range(BROOD)]
            kept = sorted([*kept, *zip(workers.map(cost, brood), brood)], key=lambda row: -row[0])[:KEPT]
            print(f'generation {generation + 1}: {kept[0][0]}', flush=True)
    (ROOT / 'target/dear.hex').write_bytes(kept[0][1].text())


if __name__ == '__main__':
    main()
