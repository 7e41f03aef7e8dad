"""What "cut" means, on real threads: papers are run by an interpreter (interpreter.c), and ThreadSanitizer must report
a race just where the desk says that a dependence is uncut. The last line is 'N passed, M failed'.

  python3 -m outside.threads.meaning [POINTS [RANDOM]]    all nests of up to so many points, and so many random papers

All small nests, with every dependence that a text may have and with every placement; random papers, with turns, barred
gaps and two to four threads; flagged loops that are skipped (request 10); barrier calls counted by the threads (request
11). Wrong rules are held beside the same runs, and each must be seen to differ.

Needs gcc with ThreadSanitizer and the library's archive (rt lib in crates/host). Where ThreadSanitizer is missing or cannot
run nothing is tried, which is told; where CI is true it is a failure.
"""
import contextlib
import itertools
import pathlib
import random
import sys
import tempfile
from collections.abc import Iterator

from office.frames import CARRIED, INDEPENDENT, frames_of, placement_text
from office.library import Desk
from office.refusal import Refused
from outside.threads import rules
from outside.threads.building import SANITIZED, compiled, sanitizer
from outside.threads.nests import Nest, legal, random_nest, shapes
from outside.threads.running import Interpreter, Look, Ran, Run
from outside.trying import ROOT, Seen, Tally

POINTS, RANDOM, FLAGGED, PARTLY = 8, 1500, 300, 6
# A loop that may not run, with one end of a dependence in it that goes forward into the next turn.
FORWARD = Nest([1, 1, 3, 2, 3, 2], [(CARRIED, 0, 2, 4), (CARRIED, 1, 2, 2)], flagged=[1])
# Two loops in a row that may not run, each with a barrier of its own that cuts the dependence over both.
IN_A_ROW = Nest([1, 3, 1, 3, 2, 1, 3, 2, 3, 2], [(CARRIED, 2, 3, 3), (CARRIED, 5, 6, 6), (INDEPENDENT, 1, 8)],
                flagged=[2, 5])


class Unlike:
    """Wrong rules that no run has been seen to differ from yet."""

    def __init__(self) -> None:
        self.cuts, self.calls = dict(rules.CUTS), dict(rules.CALLS)

    def look(self, nest: Nest, gaps: list[int], turns: dict[int, int], ran: Ran) -> None:
        """Takes away those that would have said something else of a run."""
        ends = nest.ends
        for name, cuts in [*self.cuts.items()]:
            uncut = [not cuts(ends, x).intersection(gaps) for x in nest.dependences]
            if any(said != (many > 0) for said, many, times in zip(uncut, ran.raced, ran.times) if times):
                del self.cuts[name]
        for name, calls in [*self.calls.items()]:
            if calls(ends, gaps, {d: turns.get(d, 2) for d in ends}) != ran.calls:
                del self.calls[name]

    def close(self, tally: Tally) -> None:
        for name in [*rules.CUTS, *rules.CALLS]:
            tally.check(f'not seen to differ: {name}', name not in self.cuts and name not in self.calls)


def held(tally: Tally, unlike: Unlike, nest: Nest, run: Run, cuts: bytes, calls: int | None) -> Look:
    """A run of a placement: each time that a dependence occurs it races if the desk says that it is uncut, and never if
    it is cut; the calls are those that the desk counts."""
    once = [d for d, turns in run.turns.items() if turns == 1]
    gaps = list(run.gaps)

    def look(ran: Ran) -> bool:
        wanted = [0 if cut else many for cut, many in zip(cuts, ran.times)]
        occurs = all(many > 0 or x[0] == CARRIED and x[1] in once for x, many in zip(nest.dependences, ran.times))
        well = occurs and calls in (None, ran.calls) and all(a <= b for a, b in zip(ran.raced, wanted))
        if well and ran.raced != wanted:
            return False
        tally.check('a run', well, (nest.text, run, ran, list(cuts), calls))
        unlike.look(nest, gaps, run.turns, ran)
        return True
    return look


def races(tally: Tally, what: str, nest: Nest, racing: list[int]) -> Look:
    """A run in which just these dependences race."""
    def look(ran: Ran) -> bool:
        tally.check(what, set(ran.racing) <= set(racing), (nest.text, ran, racing))
        return ran.racing == racing
    return look


def collected(into: list[int]) -> Look:
    """A run whose races are put with others."""
    def look(ran: Ran) -> bool:
        into.extend(ran.racing)
        return True
    return look


def all_small(tally: Tally, unlike: Unlike, two: Interpreter, most: int) -> None:
    """Every nest of up to so many points with every dependence, in every placement, a Put or a Lift each."""
    for many in range(2, most + 1):
        for points in shapes(many):
            nest, desk, gaps = Nest(points, legal(points)), Desk(), []
            desk.load(nest.text)
            turns = bytes([2] * len(nest.ends))
            for number in range(2 ** (many - 1)):
                if number:
                    gap = (number & -number).bit_length()
                    (desk.lift if gap in gaps else desk.put)(gap)
                now = desk.standing()
                gaps, run = now.gaps, Run(now.gaps)
                calls = desk.placement_calls(placement_text(gaps), turns)
                two.ask(nest, run, held(tally, unlike, nest, run, now.cuts, calls))
        two.play(tally, f'all nests of {many} points')


def key_of(desk: Desk) -> list[int]:
    return [gap for _, gap in frames_of(desk.key())]


def planned(nest: Nest) -> tuple[list[int], list[int]]:
    """The key of a paper, and the loops that need a barrier for their missing run."""
    desk = Desk()
    desk.load(nest.text)
    desk.plan()
    return key_of(desk), desk.missing_runs()


def any_paper(tally: Tally, unlike: Unlike, interpreters: list[Interpreter], many: int) -> None:
    """Random papers, also with barred gaps, with turns and more threads; the key, and placements at random."""
    rng = random.Random(1)
    for number in range(many):
        nest, desk = random_nest(rng, rng.choice([8, 16, 40]), 24), Desk()
        desk.load(nest.text)
        free = [gap for gap in range(1, len(nest.points)) if gap not in nest.barred]
        thinly = rng.random()
        placements, key = [[gap for gap in free if rng.random() < thinly] for _ in range(3)], None
        with contextlib.suppress(Refused):  # a dependence has all its gaps barred
            desk.plan()
            key = key_of(desk)
            placements.append(key)
        for gaps in placements:
            for gap in gaps:
                desk.put(gap)
            cuts = desk.standing().cuts
            for gap in gaps:
                desk.lift(gap)
            run, calls = Run(gaps, {d: rng.randrange(2 if gaps is key else 1, 4) for d in nest.ends}), None
            if not nest.barred and not nest.flagged:
                turns = bytes(run.turns.values())
                calls = desk.count_calls(turns) if gaps is key else desk.placement_calls(placement_text(gaps), turns)
            interpreters[number % len(interpreters)].ask(nest, run, held(tally, unlike, nest, run, cuts, calls))
    for interpreter in interpreters:
        interpreter.play(tally, 'random papers')


def flagged_nests(rng: random.Random) -> Iterator[Nest]:
    """Random papers with some loops that may not run."""
    while True:
        nest = random_nest(rng, rng.choice([8, 14, 20]), 8)
        if 0 < len(nest.flagged) <= 4:
            yield nest


def skips(nest: Nest) -> list[dict[int, int]]:
    """Every choice of flagged loops that are skipped throughout."""
    return [dict.fromkeys(away, 0) for size in range(len(nest.flagged) + 1)
            for away in itertools.combinations(nest.flagged, size)]


def skipped(tally: Tally, two: Interpreter, nests: list[Nest]) -> None:
    """Request 10. Whichever flagged loops are skipped, nothing races with the barriers that the desk lists. Without
    them a dependence races if all loops foreign to it are skipped, just where its barriers stand in these alone."""
    seen: dict[str, list[int]] = {name: [] for name in rules.LISTS}
    for nest in nests:
        key, listed = planned(nest)
        tally.check('the list', listed == rules.listed(nest, key), (nest.text, listed))
        for only in skips(nest):
            two.ask(nest, Run(key, only=only, substitutes=listed), races(tally, f'skipped: {[*only]}', nest, []))
            for name, rule in rules.LISTS.items():
                if (shorter := rule(nest, key)) != listed:
                    two.ask(nest, Run(key, only=only, substitutes=shorter), collected(seen[name]))
        for number, x in enumerate(nest.dependences):
            run = Run(key, only=dict.fromkeys(rules.foreign(nest, x), 0))
            two.ask(nest, run, alone(tally, nest, number, rules.in_foreign_alone(nest, key, x)))
    two.play(tally, 'loops that are skipped')
    for name, raced in seen.items():
        tally.check(f'not seen to differ: {name}', bool(raced))


def alone(tally: Tally, nest: Nest, number: int, racing: bool) -> Look:
    """A run in which one dependence races or does not, whatever the others do."""
    def look(ran: Ran) -> bool:
        if racing and not ran.raced[number]:
            return False
        tally.check('no barrier in its place', racing == (ran.raced[number] > 0), (nest.text, number, ran))
        return True
    return look


def one_end_in(nest: Nest, x: tuple[int, ...]) -> bool:
    """Whether a dependence goes forward into the next turn, with one end alone in a loop that may not run."""
    carrier, s, t = rules.parts(x)
    loops = [(d, e) for d, e in nest.ends.items() if d in nest.flagged]
    return carrier is not None and s < t and any(
        d < s < e and not d <= t <= e or d < t < e and not d <= s <= e for d, e in loops)


def in_some_turns(tally: Tally, two: Interpreter, nests: list[Nest]) -> None:
    """The limit of request 10: loops that are skipped in some turns and run in others. Only a dependence that goes
    forward into the next turn, with one end alone in such a loop, may then race."""
    rng, raced = random.Random(3), 0

    def look_at(nest: Nest) -> Look:
        def look(ran: Ran) -> bool:
            nonlocal raced
            raced += bool(ran.racing)
            well = all(one_end_in(nest, nest.dependences[number]) for number in ran.racing)
            tally.check('skipped in some turns', well, (nest.text, ran))
            return True
        return look

    for nest in nests:
        key, listed = planned(nest)
        desk = Desk()
        desk.load(nest.text)
        told = [number for number in range(len(nest.dependences)) if desk.one_end(number)]
        wanted = [number for number, x in enumerate(nest.dependences) if one_end_in(nest, x)]
        tally.check('what ./desk missing tells', told == wanted, (nest.text, told, wanted))
        for _ in range(PARTLY):
            turns, only = {d: rng.randrange(2, 4) for d in nest.ends}, {d: rng.randrange(8) for d in nest.flagged}
            two.ask(nest, Run(key, turns, only, listed), look_at(nest))
    tally.check('the key of the example', planned(FORWARD) == ([2], []), planned(FORWARD))
    for name, only, racing in [('always', {}, []), ('never', {1: 0}, []), ('in the first turn alone', {1: 1}, [0]),
                               ('in the second turn alone', {1: 2}, [])]:
        two.ask(FORWARD, Run([2], only=only), races(tally, f'the example, loop 1 runs {name}', FORWARD, racing))
    two.play(tally, 'loops that are skipped in some turns')
    tally.check('some races where loops are skipped in some turns', raced > 0)


def main(most: int = POINTS, many: int = RANDOM) -> None:
    tally = Tally()
    start = sanitizer(tally)
    if start is not None:
        with tempfile.TemporaryDirectory() as name:
            program = pathlib.Path(name, 'interpreter')
            seen = compiled(ROOT / 'outside' / 'threads' / 'interpreter.c', program, '-O2', *SANITIZED)
            tally.check('the interpreter', seen == Seen(b'', '', 0), seen)
            two, three, four = interpreters = [Interpreter(start, program, threads) for threads in (2, 3, 4)]
            unlike = Unlike()
            all_small(tally, unlike, two, most)
            any_paper(tally, unlike, interpreters, many)
            unlike.close(tally)
            rng = random.Random(2)
            nests = [IN_A_ROW, FORWARD, *itertools.islice(flagged_nests(rng), FLAGGED)]
            skipped(tally, two, nests)
            in_some_turns(tally, two, nests)
            print(f'{sum(interpreter.runs for interpreter in interpreters)} runs with real threads')
    tally.close()


if __name__ == '__main__':
    main(*map(int, sys.argv[1:]))
