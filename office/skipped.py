"""Loops that may not run, in words: which need a barrier for their missing run, and what a placement leaves uncut
without them. The loops come from Missing runs and from Relied on."""
from office.library import Desk
from office.words import in_number, spoken


def missing_told(missing: list[int]) -> list[str]:
    """The loops that need a barrier for their missing run, if there are any, in a sentence."""
    if not missing:
        return []
    need, run = ('needs', 'its missing run') if len(missing) == 1 else ('need', 'their missing runs')
    return [f'{spoken("loop", missing)} {need} a barrier for {run}: some dependence is cut inside alone, so nothing '
            'cuts it where the loop does not run']


def relied_on(desk: Desk, text: bytes) -> dict[int, list[int]]:
    """The dependences that a placement text leaves uncut where loops do not run, each with these loops."""
    told = ((number, desk.relied_on(text, number)) for number in range(len(desk.nest.dependences)))
    return {number: loops for number, loops in told if loops}


def skipped_fields(relied: dict[int, list[int]]) -> list[dict[str, object]]:
    """The same for programs."""
    return [{'dependence': number, 'loops': loops} for number, loops in relied.items()]


def skipped_told(relied: dict[int, list[int]], name: str) -> list[str]:
    """What a placement leaves uncut where loops do not run, a sentence for each row of loops."""
    uncut: dict[tuple[int, ...], list[int]] = {}
    for number, loops in relied.items():
        uncut.setdefault(tuple(loops), []).append(number)
    told = []
    for skipped, numbers in uncut.items():
        not_run = f'{spoken("loop", list(skipped))} {"does" if len(skipped) == 1 else "do"} not run'
        told.append(f'Where {not_run}, {name} {"leave" if name.startswith("gaps") else "leaves"} '
                    f'{spoken("dependence", numbers)} uncut: a barrier has to be called in place of the missing '
                    f'{in_number("run", skipped)}.')
    return told
