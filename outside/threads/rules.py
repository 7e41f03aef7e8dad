"""Rules about gaps, calls and missing runs as the tests read them, and wrong ones, each a plausible mistake: runs of
real threads must be seen to differ from every one of these."""
import math
from collections.abc import Callable

from office.frames import INDEPENDENT
from outside.threads.nests import Nest

Ends = dict[int, int]
Dependence = tuple[int, ...]
Cuts = Callable[[Ends, Dependence], set[int]]


def parts(x: Dependence) -> tuple[int | None, int, int]:
    """The loop that carries a dependence, or None; s; t."""
    return (None, x[1], x[2]) if x[0] == INDEPENDENT else (x[1], x[2], x[3])


def span(first: int, last: int) -> set[int]:
    return set(range(first, last + 1))


def right(ends: Ends, x: Dependence) -> set[int]:
    """The gaps as they are."""
    d, s, t = parts(x)
    return span(s + 1, t) if d is None else span(d + 1, t) | span(s + 1, ends[d])


def independent(gaps: Callable[[int, int], set[int]]) -> Cuts:
    """A wrong rule for independent dependences alone."""
    def rule(ends: Ends, x: Dependence) -> set[int]:
        d, s, t = parts(x)
        return gaps(s, t) if d is None else right(ends, x)
    return rule


def carried(gaps: Callable[[int, int, int, int], set[int]]) -> Cuts:
    """A wrong rule for carried dependences alone, by d, e, s and t."""
    def rule(ends: Ends, x: Dependence) -> set[int]:
        d, s, t = parts(x)
        return right(ends, x) if d is None else gaps(d, ends[d], s, t)
    return rule


def without(left_out: Callable[[Ends, Dependence, int], bool]) -> Cuts:
    """A wrong rule that leaves gaps out."""
    return lambda ends, x: {gap for gap in right(ends, x) if not left_out(ends, x, gap)}


def loops_of(ends: Ends, gap: int) -> list[int]:
    """The loops whose barriers one at a gap is."""
    return [d for d, e in ends.items() if d < gap <= e]


def around(ends: Ends, point: int) -> list[int]:
    """The loops that a point is inside."""
    return [d for d, e in ends.items() if d < point < e]


def in_one_end_alone(ends: Ends, x: Dependence, gap: int) -> bool:
    """Whether a gap lies in a loop that one end is inside and the other is not."""
    _, s, t = parts(x)
    return any((d in around(ends, s)) != (d in around(ends, t)) for d in loops_of(ends, gap))


def in_no_end(ends: Ends, x: Dependence, gap: int) -> bool:
    """Whether a gap lies in a loop that neither end is inside."""
    _, s, t = parts(x)
    return any(d not in around(ends, s) + around(ends, t) for d in loops_of(ends, gap))


CUTS: dict[str, Cuts] = {
    'the gap before the target left out': independent(lambda s, t: span(s + 1, t - 1)),
    'the gap behind the source left out': independent(lambda s, t: span(s + 2, t)),
    'the gap before the source too': independent(lambda s, t: span(s, t)),
    'the gap behind the target too': independent(lambda s, t: span(s + 1, t + 1)),
    'the gap before an ENDDO left out': without(lambda ends, x, gap: gap in ends.values()),
    'the gap before a DO left out': without(lambda ends, x, gap: gap in ends),
    'the gap behind a DO left out': without(lambda ends, x, gap: gap - 1 in ends),
    'the gap behind an ENDDO left out': without(lambda ends, x, gap: gap - 1 in ends.values()),
    'loops with neither end in them left out': without(in_no_end),
    'loops with one end alone in them left out': without(in_one_end_alone),
    'carried: the way from s to the ENDDO alone': carried(lambda d, e, s, t: span(s + 1, e)),
    'carried: the way from the DO to t alone': carried(lambda d, e, s, t: span(d + 1, t)),
    'carried: the gap before the ENDDO left out': carried(lambda d, e, s, t: span(s + 1, e - 1) | span(d + 1, t)),
    'carried: the gap behind the DO left out': carried(lambda d, e, s, t: span(s + 1, e) | span(d + 2, t)),
    'carried: the gap before the target left out': carried(lambda d, e, s, t: span(s + 1, e) | span(d + 1, t - 1)),
    'carried: the gap before the source too': carried(lambda d, e, s, t: span(s, e) | span(d + 1, t)),
    'carried: the gap before the DO too': carried(lambda d, e, s, t: span(s + 1, e) | span(d, t)),
    'carried: the gap behind the ENDDO too': carried(lambda d, e, s, t: span(s + 1, e + 1) | span(d + 1, t)),
    'carried: all gaps of the loop': carried(lambda d, e, s, t: span(d + 1, e)),
    'carried forward: as if independent': carried(
        lambda d, e, s, t: span(s + 1, t) if s < t else span(s + 1, e) | span(d + 1, t)),
}


def calls(loops: Callable[[Ends, int], list[int]]) -> Callable[[Ends, list[int], dict[int, int]], int]:
    """A wrong rule for barrier calls, by the loops whose turns are multiplied."""
    return lambda ends, gaps, turns: sum(math.prod(turns[d] for d in loops(ends, gap)) for gap in gaps)


CALLS = {
    'calls: the gap before a DO inside that loop': calls(lambda ends, gap: [d for d in ends if d <= gap <= ends[d]]),
    'calls: the gap before an ENDDO outside': calls(lambda ends, gap: [d for d in ends if d < gap < ends[d]]),
    'calls: the innermost loop alone': calls(lambda ends, gap: loops_of(ends, gap)[-1:]),
    'calls: a barrier once': calls(lambda ends, gap: []),
}


def foreign(nest: Nest, x: Dependence) -> list[int]:
    """The loops that may not run and have nothing to do with the ends of a dependence."""
    _, s, t = parts(x)
    return [d for d in nest.flagged if not d <= s <= nest.ends[d] and not d <= t <= nest.ends[d]]


def cutting(nest: Nest, key: list[int], x: Dependence) -> list[list[int]]:
    """Of each barrier of the key that cuts a dependence the loops around it."""
    return [loops_of(nest.ends, gap) for gap in key if gap in right(nest.ends, x)]


def in_foreign_alone(nest: Nest, key: list[int], x: Dependence) -> bool:
    """Whether every barrier that cuts a dependence stands in a loop that is foreign to it."""
    return all(set(loops).intersection(foreign(nest, x)) for loops in cutting(nest, key, x))


def listed(nest: Nest, key: list[int]) -> list[int]:
    """The loops that need a barrier for their missing run."""
    return sorted({d for x in nest.dependences if in_foreign_alone(nest, key, x)
                   for loops in cutting(nest, key, x) for d in loops if d in foreign(nest, x)})


def without_another(nest: Nest, key: list[int]) -> list[int]:
    """Only those loops that all the barriers which cut a dependence stand in."""
    return sorted({d for x in nest.dependences for d in foreign(nest, x)
                   if all(d in loops for loops in cutting(nest, key, x))})


def innermost(nest: Nest, found: list[int]) -> list[int]:
    return [d for d in found if not any(d < k < nest.ends[d] for k in found)]


def outermost(nest: Nest, found: list[int]) -> list[int]:
    return [d for d in found if not any(k < d < nest.ends[k] for k in found)]


LISTS: dict[str, Callable[[Nest, list[int]], list[int]]] = {
    'missing: none': lambda nest, key: [],
    'missing: only where no barrier elsewhere cuts': without_another,
    'missing: the innermost of two alone': lambda nest, key: innermost(nest, listed(nest, key)),
    'missing: the outermost of two alone': lambda nest, key: outermost(nest, listed(nest, key)),
    'missing: the first alone': lambda nest, key: listed(nest, key)[:1],
}
