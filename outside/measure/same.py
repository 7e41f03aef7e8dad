"""The twin's answers: python3 -m outside.measure.same [PAPERS [SEED]] holds the twin's against those of target/bin/key,
byte by byte, on the papers that are measured and on so many random ones.

Random papers are of every size, some with flagged loops or barred gaps; every third text is then damaged. The same
numbers give the same papers. A difference is told with the text that shows it; the last line is 'N passed, M failed'.
"""
import pathlib
import random
import subprocess
import sys
import tempfile

from outside.measure import papers
from outside.measure.climb import DEPTH, drawn, is_shape
from outside.measure.papers import DO, END, ST
from outside.trying import PROGRAM, ROOT

PAPERS = 3000
TWIN = ['rustc', '-O', str(ROOT / 'outside/measure/twin/main.rs'), '-o']


def shape(rng: random.Random) -> list[int]:
    """The points of a random tree: few, any number, or as many as there may be."""
    n = rng.choice([rng.randint(2, 14), rng.randint(2, 256), 256])
    depth, opens = rng.choice([1, rng.randint(1, DEPTH), DEPTH]), rng.choice([.05, .2, .5])
    made, deep = [DO], 1
    while len(made) < n - deep:
        if deep < depth and len(made) + deep + 2 <= n and rng.random() < opens:
            made.append(DO)
            deep += 1
        elif deep > 1 and rng.random() < opens:
            made.append(END)
            deep -= 1
        else:
            made.append(ST)
    assert is_shape(made + [END] * deep)
    return made + [END] * deep


def paper(rng: random.Random) -> bytes:
    """The text of a random paper."""
    made = shape(rng)
    end = papers.ends(made)
    flags = rng.choice([0, 0, .3])
    lines = ['04' if p == DO and rng.random() < flags else f'{p:02x}' for p in made]
    many = rng.choice([rng.randint(0, 10), rng.randint(0, 512), 512])
    lines += [bytes(drawn(tuple(made), end, rng)).hex() for _ in range(many)]
    if len(end) == 1 and rng.random() < .7:
        below = rng.choice([len(made), min(len(made), 8)])
        for _ in range(rng.choice([1, 5, 30, 200])):
            lines.insert(rng.randint(len(made), len(lines)), f'13{rng.randrange(1, below):02x}')
    return ''.join(line + '\n' for line in lines).encode()


def damaged(text: bytes, rng: random.Random) -> bytes:
    """A byte changed, put in or left out, or a line doubled, left out or put elsewhere."""
    at, lines = rng.randrange(len(text)), text.splitlines(keepends=True)
    i, j = rng.randrange(len(lines)), rng.randrange(len(lines))
    return rng.choice([
        text[:at] + rng.choice(b'0123456789abcdefgA\n \xff').to_bytes(1, 'big') + text[at + rng.randint(0, 1):],
        text[:at] + text[at + 1:],
        text[:at],
        b''.join([*lines[:i], lines[j], *lines[i:]]),
        b''.join([*lines[:i], *lines[i + 1:]]),
        text + rng.choice([b'03\n', b'12000000\n', b'110001\n', b'1301\n', b'2101\n', b'zz\n', text]),
    ])


def texts(number: int, seed: str) -> list[bytes]:
    """The papers that are measured, the empty text, and random ones."""
    rng = random.Random(seed)
    made = [papers.text(kind, n) for kind in (*papers.KINDS, 'barred') for n in (64, 128, 256)]
    made += [*map(papers.text, papers.FOUND), b'']
    for i in range(number):
        text = paper(rng)
        made.append(damaged(text, rng) if i % 3 == 2 else text)
    return made


def answer(program: pathlib.Path, text: bytes) -> bytes:
    return subprocess.run([program], input=text, capture_output=True, check=True).stdout


def main() -> int:
    number = int(sys.argv[1]) if len(sys.argv) > 1 else PAPERS
    passed = refused = failed = 0
    with tempfile.TemporaryDirectory() as name:
        twin = pathlib.Path(name) / 'twin'
        subprocess.run([*TWIN, str(twin)], check=True)
        for text in texts(number, sys.argv[2] if len(sys.argv) > 2 else ''):
            ours = answer(PROGRAM, text)
            if ours == answer(twin, text):
                passed, refused = passed + 1, refused + ours.startswith(b'2f')
            else:
                failed += 1
                print(f'the twin answers otherwise to {text!r}')
    print(f'{refused} of them refused by both')
    print(f'{passed} passed, {failed} failed')
    return 0 if failed == 0 else 1


if __name__ == '__main__':
    sys.exit(main())
