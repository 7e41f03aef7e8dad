"""Full-size papers for measuring: papers.py KIND POINTS [SEED] writes a nest text, the same each time, another for
each SEED; papers.py KIND alone writes one that was found by climbing and is kept.

KIND: deep (8 loops, one in the other), one (one loop), many (small loops side by side), mixed (a random tree), carried
(empty loops side by side, 8 deep), tails (deep, with a statement at the end of each loop), pairs (tails 7 deep, with
empty loops in the innermost), barred (one loop with half as many barred gaps as points). There are twice as many
dependences as points, independent and carried in equal parts; in a carried paper the outermost loop carries them all,
in a barred one each has a gap that is not barred. In tails and pairs all are independent, from the statement at each
loop's end to its ENDDO and from each empty loop to the next, again and again: each search of the planner goes far.

Found by climbing on the planner's instructions, in the folder found: comb (74 loops, 59 of them 8 deep) and bush (115
loops, at every depth).
"""
import pathlib
import random
import sys

DO, END, ST = 1, 2, 3
KINDS = ('deep', 'one', 'many', 'mixed', 'carried', 'tails', 'pairs')
FOUND = ('comb', 'bush')


def points(kind: str, n: int, rng: random.Random) -> list[int]:
    if kind == 'deep':
        return [DO] * 8 + [ST] * (n - 16) + [END] * 8
    if kind in ('one', 'barred'):
        return [DO] + [ST] * (n - 2) + [END]
    if kind == 'many':
        inner = ([DO, ST, ST, END] * n)[:(n - 2) // 4 * 4]
        return [DO] + inner + [ST] * (n - 2 - len(inner)) + [END]
    if kind == 'carried':
        return [DO] * 7 + [DO, END] * ((n - 14) // 2) + [END] * 7
    if kind == 'tails':
        return [DO] * 8 + [ST] * (n - 23) + [END] + [ST, END] * 7
    if kind == 'pairs':
        return [DO] * 7 + [DO, END] * ((n - 20) // 2) + [END] + [ST, END] * 6
    ps, depth = [DO], 1
    while len(ps) < n - depth:
        r = rng.random()
        if r < .2 and depth < 8 and len(ps) + depth + 2 <= n:
            ps.append(DO)
            depth += 1
        elif r < .38 and depth > 1:
            ps.append(END)
            depth -= 1
        else:
            ps.append(ST)
    return ps + [END] * depth


def ends(ps: list[int]) -> dict[int, int]:
    open_, end = [], {}
    for i, p in enumerate(ps):
        if p == DO:
            open_.append(i)
        elif p == END:
            end[open_.pop()] = i
    return end


def short_lines(ps: list[int], end: dict[int, int]) -> list[tuple[int, int]]:
    """From the statement at a loop's end to its ENDDO; from an empty loop to the end of the next, or of their loop."""
    lines = [(e - 1, e) for e in end.values() if ps[e - 1] == ST]
    empty = sorted(d for d, e in end.items() if e == d + 1)
    lines += [(a, end[b]) for a, b in zip(empty, empty[1:])]
    return lines + [(d, end[d] + 1) for d in empty[-1:]]


def text(kind: str, n: int = 256, seed: str = '') -> bytes:
    """The nest text of a kind with so many points; of one that was found the text that is kept."""
    if kind in FOUND:
        return (pathlib.Path(__file__).parent / 'found' / f'{kind}.hex').read_bytes()
    rng = random.Random(kind + str(n) + seed)
    ps = points(kind, n, rng)
    end = ends(ps)
    out = ['%02x' % p for p in ps]
    loops, deps = list(end), 0
    barred = rng.sample(range(1, n), n // 2) if kind == 'barred' else []
    free = set(range(1, n)).difference(barred)
    if kind in ('tails', 'pairs'):
        lines = short_lines(ps, end)
        while deps < 2 * n:
            out.append('11%02x%02x' % lines[deps % len(lines)])
            deps += 1
    while deps < 2 * n:
        s, t = rng.randrange(n), rng.randrange(n)
        if ps[s] == END or ps[t] == DO:
            continue
        if kind != 'carried' and deps % 2 == 0:
            if s < t and t - s < 40 and free.intersection(range(s + 1, t + 1)):
                out.append('11%02x%02x' % (s, t))
                deps += 1
        else:
            d = 0 if kind == 'carried' else rng.choice(loops)
            if d < t <= s < end[d] and free.intersection([*range(d + 1, t + 1), *range(s + 1, end[d] + 1)]):
                out.append('12%02x%02x%02x' % (d, s, t))
                deps += 1
    out += ['13%02x' % g for g in barred]
    return '\n'.join([*out, '']).encode()


if __name__ == '__main__':
    sys.stdout.buffer.write(text(sys.argv[1], int(''.join(sys.argv[2:3]) or 256), ''.join(sys.argv[3:])))
