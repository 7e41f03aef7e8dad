"""Whether an argument shows that no correct placement is better than a given one: three texts, and nothing else.

  python3 outside/argument.py PAPER PLACEMENT ARGUMENT

Prints 'holds' (status 0), or the first line of the argument that does not hold, and why (1), or which text cannot be
read (2). docs/RULES.md, "Arguments", has the rules. Nothing of this repository is used, so none of it need be believed.
That the paper and the placement are written as RULES says is taken for granted: the desk tells whether they are.
"""
import pathlib
import re
import sys
from collections import Counter
from itertools import accumulate

CLAIMS, STEPS = 4096, 1024
# A claim: d, a and b, and the lines of its steps. A step: the claim that leads it, where one does, and its set.
CLAIM, STEP = r'31(......)\n((?:3[2-5].*\n)*)', r'(?:32(....)\n)?(33....|34|35)\n'
FORMS = {'paper': r'((..)+\n)*', 'placement': r'(21..\n)*',
         'argument': r'(31......\n((32....\n)?(33....|34|35)\n){0,%d}){0,%d}' % (STEPS, CLAIMS)}


def lines_of(text: bytes, what: str) -> str:
    """The lines of a text. All of it must have its form."""
    lines = text.decode('latin-1')
    formed = re.match(FORMS[what].replace('.', '[0-9a-f]'), lines)[0]
    if formed != lines:
        raise ValueError(f'the {what}: line {len(formed.split()) + 1} has no place')
    return lines


def between(first: int, last: int) -> set[int]:
    """The gaps behind one point and up to another. Gap g lies just before point g."""
    return {*range(first + 1, last + 1)}


def weighed(paper: bytes, placement: bytes, argument: bytes) -> tuple[int, str]:
    """0 and nothing if the argument holds; else the first line that does not, 0 for the placement's, and why."""
    # Of the paper: the ENDDO of each DO, the loop of each gap, the gaps that cut each dependence, and the barred ones.
    frames = [bytes.fromhex(line) for line in lines_of(paper, 'paper').split() or ['01', '02']]
    points = [frame[0] for frame in frames if len(frame) == 1]
    deep = [*accumulate({1: 1, 2: -1, 3: 0, 4: 1}[kind] for kind in points)]
    end = {d: deep.index(deep[d] - 1, d) for d, kind in enumerate(points) if kind in (1, 4)}
    own = [max((d for d in end if d < gap <= end[d]), default=None) for gap in range(len(points))]
    cuts = [between(*rest) if kind == 0x11 else between(rest[0], rest[2]) | between(rest[1], end[rest[0]])
            for kind, *rest in frames if kind in (0x11, 0x12)]
    barred = {gap for kind, *rest in frames if kind == 0x13 for gap in rest}
    gaps = {int(line[2:], 16) for line in lines_of(placement, 'placement').split()}
    if gaps & barred or not all(gaps & cut for cut in cuts):
        return 0, 'the placement is not correct'
    count, known, line = Counter(own[gap] for gap in gaps), [], 0
    for claim, steps in re.findall(CLAIM, lines_of(argument, 'argument')):
        begin = line = line + 1
        d, a, b = bytes.fromhex(claim)
        if d not in end:
            return line, f'{d} is no loop'
        inside, from_a, up_to_b = between(d, end[d]), between(a - 1, end[d]), between(d, b)
        mine = {gap for gap in inside if own[gap] == d}
        sets = {f'33{number:04x}': cut for number, cut in enumerate(cuts)}
        sets |= ({'34': from_a} if a else {}) | ({'35': up_to_b} if b else {})
        # What is struck from every set; by the number of a claim that leads, what it strikes, and what is empty then.
        out = barred.union({gap for gap in inside - mine if count[own[gap]] == 0}, *(
            gone for loop, gone, _ in known if loop in inside))
        leads = {f'{number:04x}': ends for number, (loop, _, ends) in enumerate(known) if loop in inside and ends}
        leads[''] = set(), set()
        many, times, empty = 0, Counter(), set()
        for by, step in re.findall(STEP, steps):
            line += 2 if by else 1
            if step not in sets:
                return line, 'there is no such set'
            if by not in leads:
                return line, f'claim {int(by, 16)} does not lead here'
            left = sets[step] - out - empty - leads[by][0]
            if not (sets[step] <= inside and left <= mine):
                return line, f'what is left is not of loop {d}: {sorted(left)}'
            times.update(left)
            many, empty = (many, empty | leads[by][1]) if by else (many + 1, set())
        most, low = max([1, *times.values()]), a == b == 0
        if many <= (count[d] - low) * most:
            return begin, f'{many} sets, no gap in more than {most}, are not enough'
        exact = low and many == count[d] * most
        gone = {gap for gap in inside if (a == 0 and gap <= b) or (b == 0 and 0 < a <= gap) or (
            exact and gap in mine and times[gap] < most)}
        known.append((d, gone, (inside & from_a, inside & up_to_b) if a and b else None))
    lacking = [d for d in sorted(end, key=end.get) if count[d] and f'31{d:02x}0000' not in argument.decode().split()]
    return (line + 1, f'loop {lacking[0]} has no claim') if lacking else (0, '')


if __name__ == '__main__':
    try:
        if len(sys.argv) != 4:
            raise ValueError('usage: argument.py PAPER PLACEMENT ARGUMENT')
        at, fault = weighed(*(pathlib.Path(name).read_bytes() for name in sys.argv[1:]))
    except (OSError, ValueError) as unread:
        print(unread, file=sys.stderr)
        sys.exit(2)
    print(f'line {at} does not hold: {fault}' if fault else 'holds')
    sys.exit(bool(fault))
