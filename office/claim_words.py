"""An argument in words, claim by claim, for who checks it with a pencil. Claims go by their numbers, from 1."""

from office.claims import Followed, Struck, Taken, Why
from office.frames import CUTS, FROM
from office.paper import Paper
from office.records import dataclass
from office.words import counted, in_turn

NUMBERS = ('no', 'one', 'two', 'three', 'four', 'five', 'six', 'seven', 'eight', 'nine', 'ten', 'eleven', 'twelve')
ABOUT = ("Why no placement is better: each claim is about every correct placement that has the key's counts in all "
         "loops inside the claim's loop.")
NOTHING = 'No placement is better: the key has no barrier.'
NONE_FOUND = ('No argument was found that holds, so it is not shown line by line why no placement is better. That none '
              'is better than the key is proved for every paper, and so is that there is an argument: hand this paper '
              'to whoever keeps the desk.')


@dataclass(frozen=True)
class Told:
    """A claim in words: what it says, a line for each set, and what follows."""
    says: str
    sets: list[str]
    follows: str


def number_word(many: int) -> str:
    return NUMBERS[many] if many < len(NUMBERS) else f'{many:,}'


def either(gaps: list[int]) -> str:
    """Gaps of which one has a barrier: 4; 4 or 6; 4, 6 or 8 to 10."""
    *some, end = in_turn(gaps)
    return f'{", ".join(some)} or {end}' if some else end


def barriers(many: int) -> str:
    return 'a barrier' if many == 1 else f'{number_word(many)} barriers'


def reason(one: Struck) -> str:
    """Why gaps are struck."""
    why = {Why.BARRED: 'barred', Why.NONE: f'loop {one.number} has none of its own', Why.SAID: 'just said',
           Why.CLAIM: f'by {(one.number or 0) + 1}'}[one.why]
    return f'not {", ".join(in_turn(one.gaps))}: {why}'


def set_named(paper: Paper, taken: Taken, claim: Followed) -> str:
    """The set of a step by what needs a barrier in it."""
    if taken.step.kind != CUTS:
        start, upto = claim.claim.start, claim.claim.upto
        return f'the one from {start} on' if taken.step.kind == FROM else f'the one up to {upto}'
    x = paper.dependences[taken.step.number]
    names = [paper.names.get(point, f'point {point}') for point in (x.s, x.t)]
    named = f' ({names[0]} to {names[1]})' if {x.s, x.t} & paper.names.keys() else ''
    return f'dependence {taken.step.number}{named}'


def set_told(paper: Paper, taken: Taken, claim: Followed, known: list[Followed]) -> str:
    """A step: where a barrier must stand, why nowhere else, and what it leads to."""
    name, stands = set_named(paper, taken, claim), 'needs one' if taken.step.kind == CUTS else 'stands'
    struck = f' ({"; ".join(map(reason, taken.struck))})' if taken.struck else ''
    if taken.step.led is None:
        return f'{name} {stands} at {either(taken.own)}{struck}' if taken.own else f'{name} has no gap left{struck}'
    leads = known[taken.step.led].claim
    own = f' at {either(taken.own)}, or else' if taken.own else ''
    inner = f' at {either(taken.inner)}' if taken.inner else f' from {leads.start} on'
    then = ', and then' if taken.own else '; then'
    return (f'{name} {stands}{own} in loop {leads.loop}{inner}{struck}{then} loop {leads.loop} has none up to '
            f'{leads.upto}, by {taken.step.led + 1}')


def says(claim: Followed, count: int) -> str:
    """What a claim says, and what it supposes."""
    loop, start, upto = claim.claim.loop, claim.claim.start, claim.claim.upto
    if claim.claim.is_low:
        return f'Loop {loop} needs {barriers(count)} of its own.'
    has = f'Loop {loop} with {number_word(count) if count else "none"} of its own'
    if start and upto:
        return f'{has}: if a barrier stands in its range from {start} on, none stands up to {upto}. Suppose both:'
    where = f'from {start} on' if start else f'up to {upto}'
    return f'{has}: no barrier stands in its range {where}. Suppose one does:'


def follows(claim: Followed, count: int, used: bool) -> str:
    """What the sets of a claim come to; where later claims use it, where the barriers stand if there are no more."""
    leads = any(taken.step.led is not None for taken in claim.steps)
    if claim.most == 1:
        apart = 'No gap is named twice'
    elif leads:
        apart = f'No gap is named more than {number_word(claim.most)} times, and {number_word(claim.sets)} lines count'
    else:
        apart = f'No gap is in more than {number_word(claim.most)} of these {number_word(claim.sets)}'
    if not claim.claim.is_low:
        if not count:
            return 'That would be a barrier of its own, and there is none.'
        there = 'there is only one' if count == 1 else f'there are only {number_word(count)}'
        return f'{apart}: that would be {barriers(count + 1)} of its own, and {there}.'
    told = [f'{apart}: {barriers(count)} at least.'] if claim.sets > 1 and count > 1 else []
    if used:
        often = sorted(gap for gap, many in claim.times.items() if many == claim.most)
        where = 'there' if claim.most == 1 else f'at {either(often)}, named {number_word(claim.most)} times'
        told.append(f'With just {number_word(count)}, {"it stands" if count == 1 else "they stand"} {where}.')
    return ' '.join(told)


def claims_told(paper: Paper, counts: dict[int, int], known: list[Followed]) -> list[Told]:
    """The claims of an argument one by one."""
    used = {one.number for claim in known for taken in claim.steps for one in taken.struck if one.why is Why.CLAIM}
    told = []
    for number, claim in enumerate(known):
        count = counts[claim.claim.loop]
        sets = [set_told(paper, taken, claim, known) for taken in claim.steps]
        told.append(Told(says(claim, count), sets, follows(claim, count, number in used)))
    return told


def long(known: list[Followed]) -> str:
    """How long an argument is."""
    return f'{counted(len(known), "claim")} with {counted(sum(len(one.steps) for one in known), "set")}'


def closing(known: list[Followed]) -> str:
    """What all claims together say."""
    return ('So at every loop inside which it has the key\'s counts, a correct placement has at least as many barriers '
            f'of its own as the key: none is better. The desk has weighed this argument, {long(known)}, and it holds.')
