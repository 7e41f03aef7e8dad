"""Lanes for a picture: stretches of rows that do not touch share a lane, and no more lanes are used than must be."""


def packed(rows: list[tuple[int, int]]) -> list[int]:
    """A lane for each stretch from its first row to its last. Taken by their first row, each gets the first lane that
    is free there, which uses the fewest lanes; then lanes of short stretches come first."""
    lanes: list[list[int]] = []
    for number in sorted(range(len(rows)), key=lambda i: rows[i]):
        low, _ = rows[number]
        free = next((lane for lane in lanes if rows[lane[-1]][1] < low), None)
        if free is None:
            lanes.append([number])
        else:
            free.append(number)
    lanes.sort(key=lambda lane: max(rows[i][1] - rows[i][0] for i in lane))
    return [next(k for k, lane in enumerate(lanes) if i in lane) for i in range(len(rows))]


def block(passing: list[tuple[int, int]], turning: list[tuple[int, int]]) -> tuple[list[int], list[int]]:
    """Lanes for the dependences of one loop, by the rows of s and t. Those that pass share lanes; behind them each that
    turns with the loop has a lane to itself, and by t, then s, they make stairs, which the eye reads."""
    lanes = packed(passing)
    stairs = sorted(range(len(turning)), key=lambda i: (turning[i][1], turning[i][0]))
    first = max(lanes, default=-1) + 1
    return lanes, [first + stairs.index(i) for i in range(len(turning))]
