"""Arguments for papers of any size, made as crates/argue_key/specs/Laps.antt makes them, without shortening.

A second reading of that definition, for the tests alone: laps of the planner's sweep over each loop, each barrier that
one counts a step, each loop that one enters a step led by a claim.
"""
from dataclasses import dataclass

DO, ENDDO, INDEPENDENT = 1, 2, 0x11
Step = tuple[int, int]
Head = tuple[int, int, int]


def lines(claims: list[tuple[Head, list[Step]]]) -> bytes:
    """Claims as a text; sets and leading claims numbered as in crates/argue_claims/specs/Arguments.antt."""
    rows = []
    for head, steps in claims:
        rows.append('31%02x%02x%02x' % head)
        for chosen, via in steps:
            rows += ['32%04x' % (via - 1)] if via else []
            rows.append(['34', '35'][chosen] if chosen < 2 else '33%04x' % (chosen - 2))
    return ''.join(row + '\n' for row in rows).encode()


@dataclass
class Swept:
    """A sweep: barriers of the loop's own, the front, the gaps laid, the steps."""
    own: int
    front: int
    laid: frozenset[int]
    steps: list[Step]


class Arguer:
    """The tables of a paper without barred gaps, its key and its argument."""

    def __init__(self, paper: bytes) -> None:
        frames = [bytes.fromhex(row) for row in paper.decode().split()]
        self.points = [DO if f[0] == 4 else f[0] for f in frames if f[0] < 0x11]
        self.deps = [(f[0], 0, f[1], f[2]) if f[0] == INDEPENDENT else (f[0], f[1], f[2], f[3])
                     for f in frames if f[0] in (0x11, 0x12)]
        self.size, self.end, self.owner, around = len(self.points), {}, [], []
        for i, kind in enumerate(self.points):
            self.owner.append(around[-1] if around else 0)
            if kind == DO:
                around.append(i)
            elif kind == ENDDO:
                self.end[around.pop()] = i
        self.home = [d if kind != INDEPENDENT else max(m for m in self.end if m <= s and t <= self.end[m])
                     for kind, d, s, t in self.deps]
        self.reach: dict[int, dict[int, int]] = {d: {} for d in self.end}
        for (kind, _, s, t), home in zip(self.deps, self.home):
            if kind == INDEPENDENT:
                self.reach[home][s + 1] = min(t, self.reach[home].get(s + 1, self.size))
        self.cost: dict[int, int] = {}
        self.left: dict[int, dict[int, int]] = {}
        self.lay: dict[int, dict[int, frozenset[int]]] = {}
        for d in sorted(self.end, reverse=True):
            self.settle(d)
        self.key = sorted(self.lay[0].get(1, frozenset()))
        self.claims: list[tuple[Head, list[Step]]] = []
        for d in sorted(self.end, reverse=True):
            for head in self.heads(d):
                self.claims.append((head, self.steps(head)))

    def sweep(self, d: int, at: int, num: int) -> Swept:
        """From d's ENDDO to its DO, where the gaps from `at` on are one of the sets too, with that number."""
        end, reach = self.end[d], self.reach[d]

        def need(a: int) -> int:
            return min(end, reach.get(a, self.size)) if a == at else reach.get(a, self.size)

        def chosen(a: int) -> int:
            goal = reach.get(a, self.size)
            if a == at and end < goal:
                return num
            return 2 + next((i for i, (kind, _, s, t) in enumerate(self.deps) if kind == INDEPENDENT and
                             self.home[i] == d and s + 1 == a and t == goal), len(self.deps))

        seen, p = Swept(0, end + 1, frozenset(), []), end
        while p > d:
            p -= 1
            if self.points[p] != ENDDO:
                if need(p + 1) < seen.front:
                    seen = Swept(seen.own + 1, p + 1, seen.laid | {p + 1}, seen.steps + [(chosen(p + 1), 0)])
                continue
            m = self.owner[p]
            left, lay, start = self.left[m], self.lay[m], m + 1
            b = next((a for a in range(p + 1, m, -1) if need(a) < seen.front), 0)
            if b == 0:
                laid = seen.laid | lay.get(start, frozenset())
                seen = Swept(seen.own, left.get(start, 0) or seen.front, laid, seen.steps)
            elif b <= p and left.get(b, 0):
                led = [(chosen(b), self.lead(m, b) + 1)] if start < left[b] else []
                seen = Swept(seen.own, left[b], seen.laid | lay[b], seen.steps + led)
            else:
                laid = seen.laid | {p + 1} | lay.get(start, frozenset())
                seen = Swept(seen.own + 1, left.get(start, 0) or p + 1, laid, seen.steps + [(chosen(b), 0)])
            p = m
        return seen

    def lead(self, m: int, b: int) -> int:
        return next((i for i, ((loop, a, upto), _) in enumerate(getattr(self, 'claims', []))
                     if loop == m and 0 < a <= b and upto + 1 == self.left[m][b]), 0)

    def settle(self, d: int) -> None:
        """A loop's row: its barriers, and for each gap the leftmost front of a sweep with a barrier from there on."""
        end, values = self.end[d], {}
        children = [m for m in self.end if m > d and self.owner[m] == d]
        self.cost[d], self.left[d], self.lay[d] = 0, {}, {}
        if d not in self.home and not any(self.left[m].get(m + 1, 0) for m in children):
            return
        for q in range(d + 1, end + 1):
            seen = self.sweep(d, q, 0)
            limit = min((t for (kind, _, s, t), home in zip(self.deps, self.home)
                         if kind != INDEPENDENT and home == d and q < s + 1), default=end)
            values[q] = seen if seen.front <= limit else Swept(seen.own + 1, d + 1, seen.laid | {d + 1}, [])
        self.cost[d] = min(value.own for value in values.values())
        best = None
        for q in range(end, d, -1):
            if values[q].own == self.cost[d] and (best is None or values[q].front <= best.front):
                best = values[q]
            if best is not None:
                self.left[d][q], self.lay[d][q] = best.front, best.laid

    def heads(self, d: int) -> list[Head]:
        left = self.left[d]
        if not left.get(d + 1, 0):
            return []
        heads: list[Head] = [(d, 0, 0)] if self.cost[d] else []
        if d and d + 1 < left[d + 1]:
            heads.append((d, 0, left[d + 1] - 1))
        for b in range(self.end[d], d, -1) if d else ():
            front = left.get(b, 0)
            if front != d + 1 and (b == d + 1 or front != left.get(b - 1, 0)):
                heads.append((d, b, max(front - 1, 0)))
        return heads

    def steps(self, head: Head) -> list[Step]:
        """Laps, until one counts enough."""
        d, a, upto = head
        few = self.cost[d] - (a == upto == 0)
        front, steps = d + 1, []
        for _ in range(self.end[d] + 2):
            at, num = 0, 0
            for i, (kind, _, s, t) in enumerate(self.deps):
                if kind != INDEPENDENT and self.home[i] == d and t < front and s + 1 >= at:
                    at, num = s + 1, i + 2
            seen = self.sweep(d, at, num) if a < at else self.sweep(d, a, 0)
            steps += seen.steps
            if 0 < upto < seen.front:
                steps.append((1, 0))
                seen = Swept(seen.own + 1, d + 1, seen.laid, [])
            if few < seen.own:
                break
            front = seen.front
        return steps
