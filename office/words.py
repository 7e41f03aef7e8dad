"""Words for the desk's numbers and verdicts. These tables stand once; every command takes its words from them."""
from collections.abc import Collection, Sequence

from office.header import DECLARED

RULES = {
    1: 'a line is an even number of digits 0-9 a-f, at least two, and a line feed after them',
    2: 'the kind is none of this text, or the line has the wrong length for its kind',
    3: 'a point stands after a dependence or a barred gap',
    4: 'an ENDDO or a statement stands before any DO, or a point after the outermost loop was closed, or a dependence, '
       'a barred gap or the end comes while points are missing or a loop is open; in an argument a step stands before '
       'any claim, or a claim leads no step',
    5: 'a 257th point, a loop 9 deep, a 513th dependence, a 256th barred gap, a 4,097th claim or a 1,025th step of a '
       'claim; or the text has more than 8,192 bytes',
    6: 's, t or d names no point, or a point of the wrong sort',
    7: 'an independent dependence has its s at or after its t, or a carried one has a point outside its loop',
    8: 'a gap is 0 or not below the number of points, or not above the gap before it',
    9: 'the buffer is shorter than the text that would be written',
    10: 'there is no nest: Load comes first',
    11: 'there is a nest but no key: Plan comes first',
    12: 'Put of a gap that is there, or Lift of one that is not',
    13: 'Take back where no move is left',
    14: 'a barred gap stands in a nest of more than one loop, or the textbook method is asked of one, or a paper with '
        'barred gaps is to be joined',
    15: 'a dependence has all its gaps barred, so no placement is correct and there is no key',
    16: 'the gap is barred: no barrier may stand there',
    17: 'the turns are not one number for each loop, from 2 to 16, for the outermost loop (and to improve a key or to '
        'count a placement, for every loop) from 1; or the paper has barred gaps or loops that may not run, for which '
        'no calls are counted',
    18: 'the joint paper would have more than 256 points, more than 512 dependences or a loop 9 deep',
    19: 'a sheet has 1 to 16 processors and 1 to 64 phases, a duration for each processor in each phase, and a set of '
        'waits for each after the first phase',
    20: 'a set of waits lacks its own processor, or names one that does not exist',
    21: 'a line of the argument does not hold, or the placement is not correct',
}

UNCUT, DEARER, BEST = 'Uncut', 'Dearer', 'Best'
VERDICTS = {DECLARED.numbers[f'DESK_{word.upper()}']: word for word in (UNCUT, DEARER, BEST)}
ENDED = {0: 'a whole round', 1: 'the budget'}
# What else may become of an answer.
REFUSED, UNREAD, ABSENT = 'Refused', 'Not read', 'Absent'


def counted(many: int, one: str, more: str = '') -> str:
    """A number of things: 1 loop, 2 loops."""
    return f'{many:,} {one if many == 1 else more or one + "s"}'


def joined(words: Sequence[str]) -> str:
    """Words in a row: a; a and b; a, b and c."""
    *some, end = words
    return f'{", ".join(some)} and {end}' if some else end


def runs_of(numbers: list[int]) -> list[str]:
    """Rising numbers as unbroken runs: 1, then 4 to 7."""
    runs: list[list[int]] = []
    for n in numbers:
        if runs and runs[-1][-1] == n - 1:
            runs[-1][1:] = [n]
        else:
            runs.append([n])
    return [f'{run[0]} to {run[-1]}' if len(run) > 1 else str(run[0]) for run in runs]


def in_turn(numbers: list[int]) -> list[str]:
    """Rising numbers, three and more in a row as a run: 1, then 4 to 7; but 8, then 9."""
    runs = [run.split(' to ') for run in runs_of(numbers)]
    return [word for run in runs for word in (run if int(run[-1]) - int(run[0]) < 2 else [' to '.join(run)])]


def ranges(numbers: list[int]) -> str:
    """Rising numbers as a list: 1, 4 to 7; 8, 9."""
    return ', '.join(in_turn(numbers))


def in_number(one: str, numbers: Collection[int]) -> str:
    """A word for things by their numbers: barrier; barriers, also where there is none."""
    return one if len(numbers) == 1 else f'{one}s'


def spoken(one: str, numbers: list[int]) -> str:
    """Things by their rising numbers in a sentence: gap 6; gaps 8 and 9; loops 1, 4 to 7 and 9."""
    return f'{in_number(one, numbers)} {joined(in_turn(numbers))}'


def stretches(gaps: list[int]) -> str:
    """The gaps of a dependence by their stretches: gap 6; gaps 8 and 9; gaps 1 to 2 and 11 to 13."""
    runs = runs_of(gaps)
    return spoken('gap', gaps) if len(runs) == 1 else f'gaps {" and ".join(runs)}'


def gaps_named(gaps: list[int]) -> str:
    """Gaps by their number: gap 4; gaps 4, 7; no gap."""
    if not gaps:
        return 'no gap'
    return ('gap ' if len(gaps) == 1 else 'gaps ') + ', '.join(map(str, gaps))
