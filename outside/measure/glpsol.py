"""The least counts of a paper by integer programs: glpsol.py PAPER ANSWER prints glpsol's milliseconds.

PAPER is a nest text that is in order, ANSWER what the program key writes for it. The loops of each depth, from the
innermost out, are one integer program: a gap is 0 or 1, every dependence has a barrier among its gaps that are not
barred, the loops further inside have the counts found before, and the barriers of the depth's own gaps are as few as
can be. Needs glpsol, of the package glpk-utils. Exit status 1 where a count is not the one that the answer gives.
"""
import os
import subprocess
import sys
import tempfile
import time

DO, END, INDEPENDENT, BARRED, COUNT = 1, 2, 0x11, 0x13, 0x22


class Fault(Exception):
    """What is wrong, in words for the user."""


def frames(path: str) -> list[bytes]:
    """The lines of a text as bytes."""
    try:
        with open(path, encoding='ascii') as text:
            return [bytes.fromhex(line) for line in text.read().split()]
    except (OSError, ValueError) as fault:
        raise Fault(f'{path}: {fault}') from None


def owners(points: list[int]) -> tuple[list[int], dict[int, int], dict[int, int]]:
    """Of each gap its loop; of each loop its ENDDO and its depth."""
    owner, ends, depths, around = [0], {}, {}, []
    for place, kind in enumerate(points):
        if kind == DO:
            around.append(place)
            depths[place] = len(around)
        elif kind == END:
            ends[around.pop()] = place
        owner.append(around[-1] if around else 0)
    return owner, ends, depths


def gaps(frame: bytes, ends: dict[int, int]) -> list[int]:
    """The gaps of a dependence."""
    if frame[0] == INDEPENDENT:
        return list(range(frame[1] + 1, frame[2] + 1))
    d, s, t = frame[1:4]
    return sorted({*range(d + 1, t + 1), *range(s + 1, ends[d] + 1)})


def solve(rows: list[str]) -> tuple[dict[int, int], float]:
    """A best solution, gap by gap, and the milliseconds that glpsol took; the first row is what is to be least."""
    names = list(dict.fromkeys(word for row in rows for word in row.split() if word[0] == 'x'))
    lines = ['Minimize', rows[0], 'Subject To', *rows[1:], 'Binary', *names, 'End']
    with tempfile.TemporaryDirectory() as work:
        model, report = os.path.join(work, 'model.lp'), os.path.join(work, 'report')
        with open(model, 'w', encoding='ascii') as out:
            out.write('\n'.join(lines) + '\n')
        began = time.perf_counter()
        try:
            run = subprocess.run(['glpsol', '--lp', model, '-w', report], capture_output=True, text=True, check=False)
        except OSError as fault:
            raise Fault(f'glpsol: {fault}') from None
        spent = 1000 * (time.perf_counter() - began)
        if run.returncode != 0 or 'INTEGER OPTIMAL SOLUTION FOUND' not in run.stdout:
            raise Fault('glpsol found no best solution:\n' + run.stdout + run.stderr)
        with open(report, encoding='ascii') as text:
            words = [line.split() for line in text]
    columns = [word for word in words if word[:1] == ['j']]
    return {int(name[1:]): int(word[2]) for name, word in zip(names, columns, strict=True)}, spent


def counts(points: list[int], deps: list[bytes], barred: set[int]) -> tuple[dict[int, int], float]:
    """The least count of every loop, and glpsol's milliseconds in all."""
    owner, ends, depths = owners(points)
    own = {d: [g for g in range(1, len(points)) if owner[g] == d] for d in depths}
    cover = sorted({' + '.join(f'x{g}' for g in gaps(dep, ends) if g not in barred) + ' >= 1' for dep in deps})
    found: dict[int, int] = {}
    spent = 0.0
    for depth in sorted(set(depths.values()), reverse=True):
        here = [g for d in depths if depths[d] == depth for g in own[d]]
        fixed = [' + '.join(f'x{g}' for g in own[d]) + f' = {found[d]}' for d in found]
        values, took = solve([' + '.join(f'x{g}' for g in here), *cover, *fixed])
        spent += took
        found.update({d: sum(values.get(g, 0) for g in own[d]) for d in depths if depths[d] == depth})
    return found, spent


def main() -> int:
    if len(sys.argv) != 3:
        print('usage: glpsol.py PAPER ANSWER', file=sys.stderr)
        return 2
    try:
        paper, answer = frames(sys.argv[1]), frames(sys.argv[2])
        points = [frame[0] for frame in paper if len(frame) == 1]
        barred = {frame[1] for frame in paper if frame[0] == BARRED}
        found, spent = counts(points, [frame for frame in paper if len(frame) > 2], barred)
        said = {frame[1]: frame[2] for frame in answer if frame[0] == COUNT}
        if found != said:
            raise Fault(f'the counts differ: {found} by glpsol, {said} in the answer')
        print(round(spent))
    except Fault as fault:
        print(f'glpsol.py: {fault}', file=sys.stderr)
        return 1
    return 0


if __name__ == '__main__':
    sys.exit(main())
