"""./desk why: how one placement beats another on a paper, and why none beats the key: cost trees, the loop that
decides, calls, and the key's argument, in words."""
import argparse
import contextlib
import textwrap
import time

from office.argued import Argued, argued, argument_lines, before
from office.asked import (GAPS_HELP, PAPER_HELP, TURNS_HELP, is_file, loaded, placement_asked, planned, turns_asked,
                          turns_cause)
from office.command import REFUSED, Fault, title_of, write_json, write_out, write_over
from office.library import DEARER, UNCUT, Compared, Desk, Mark, refusal_of
from office.names import named_paper
from office.paper import Paper, Placed, loops_told, placed
from office.records import dataclass
from office.refusal import Refused
from office.result import hand_over, result_arguments
from office.skipped import relied_on, skipped_fields, skipped_told
from office.trees import beside, drawn
from office.words import VERDICTS, counted, gaps_named, spoken, stretches

MORE = """  ./desk why paper.hex                      why no placement is better than the key
  ./desk why paper.hex 4,7                  gaps 4 and 7 beside the key, and then the same
  ./desk why paper.hex 4,7 answer.hex       beside the placement of a file
  ./desk why paper.hex 4,7 --turns 10,2,3   calls, if the loops make so many turns, in the order of their DOs
  ./desk why paper.hex 4,7 --html why.html  a page to print, with pictures
  ./desk why paper.hex --text -o FILE       the argument for the key as a text

That no placement is better is shown by an argument: claims about one loop after the other, from the inside out, each
with sets of gaps of which one needs a barrier. The desk has weighed it. Anybody can weigh its text without the desk:

  ./desk key paper.hex | grep ^21 > paper.key
  python3 outside/argument.py paper.hex paper.key FILE
"""
KEY, TEN, WIDE, FEW = 'the key', '10', 100, 6
TEXT = 'argument'
NOT_READ = (1, 2, 4, 5)
INSIDE_OUT = ('Barriers are not added up: they are counted loop by loop, and the counts are compared from the inside '
              'out.')
FEWEST = ('Of the key alone it is true that no correct placement makes fewer calls, and only where each inner loop '
          'makes at least two turns.')
NO_COST = 'The program could go wrong, so nothing is said about cost.'
UNCOUNTED = 'Calls are not counted on a paper with barred gaps or with loops that may not run.'


@dataclass(frozen=True)
class Side:
    """A placement in the comparison: what a sentence calls it if its gaps are many, its text, what the slip tells of
    it, the desk's verdict where there is a key, how many dependences it leaves uncut, and on which loops that may not
    run it relies, by the dependences that it leaves uncut without them."""
    called: str
    text: bytes
    placed: Placed
    mark: Mark | None
    uncut: int
    relied: dict[int, list[int]]

    @property
    def name(self) -> str:
        return self.called if self.called == KEY or len(self.placed.gaps) > FEW else gaps_named(self.placed.gaps)

    @property
    def title(self) -> str:
        gaps = gaps_titled(self.placed.gaps)
        return gaps if self.name == gaps else f'{self.name}: {gaps}'


def gaps_titled(gaps: list[int]) -> str:
    """Gaps in a title: by their numbers if they are few."""
    return f'{len(gaps)} gaps' if len(gaps) > FEW else gaps_named(gaps)


def side_of(desk: Desk, called: str, text: bytes) -> Side:
    """A placement text held beside the key and put on the sitting."""
    try:
        mark = desk.mark(text)
    except Refused:
        mark = None  # a paper that has no key
    told, uncut = placed(desk, text), len(desk.nest.dependences)
    for gap in told.gaps:
        uncut = desk.put(gap)
    for gap in told.gaps:
        desk.lift(gap)
    return Side(called, text, told, mark, uncut, relied_on(desk, text))


def verdict(name: str, mark: Mark) -> str:
    """What the desk says of a placement."""
    told = VERDICTS[mark.verdict]
    if mark.verdict == UNCUT:
        told += f' {mark.uncut}'
    elif mark.verdict == DEARER:
        told += f', loop {mark.loop}, {mark.theirs} against {mark.ours}'
    return f'The desk says of {name}: {told}.'


def uncut_words(paper: Paper, side: Side, first: int) -> str:
    """That a placement is not correct, by its first uncut dependence."""
    gaps = paper.dependences[first].gaps
    where = f'its only gap, {gaps[0]}' if len(gaps) == 1 else f'any of its {stretches(gaps)}'
    many = f', the first of {side.uncut},' if side.uncut > 1 else ''
    return f'With {side.name} dependence {first}{many} is not cut: no barrier stands in {where}.'


def decided(paper: Paper, d: int, first: Side, second: Side) -> str:
    """What decides at a loop: the loops inside agree, its own counts differ, the loops around are not looked at."""
    ours, theirs = first.placed.counts, second.placed.counts
    inside, around = paper.inside(d), [k for k in paper.end if k < d < paper.end[k]]
    agree = rest = ''
    if len(inside) > FEW:
        agree = f'At all {len(inside)} loops inside loop {d} the counts agree. '
    elif inside:
        agree = f'Inside loop {d} the counts agree: {", ".join(f"loop {k} has {ours[k]} each" for k in inside)}. '
    if around:
        rest = f' {spoken("Loop", around)} around it {"is" if len(around) == 1 else "are"} not looked at any more.'
    return f'{agree}Loop {d}: {ours[d]} against {theirs[d]}, and this decides.{rest}'


def cost_words(paper: Paper, held: Compared, first: Side, second: Side) -> list[str]:
    """How the costs of two correct placements compare."""
    if not held.deciding:
        return ['Every loop has the same count in both, so they cost the same, wherever their barriers stand.']
    if not held.first and not held.second:
        each = [f'at loop {d} it is {first.placed.counts[d]} against {second.placed.counts[d]}' for d in held.deciding]
        return [INSIDE_OUT, f'Neither is as good or better than the other: {", ".join(each)}, and inside these loops '
                'the counts agree.']
    d, *others = held.deciding
    told = [INSIDE_OUT, decided(paper, d, first, second)]
    if others:
        told.append(f'{spoken("Loop", others)} would decide the same way.')
    if d != 0:
        told.append(f'A barrier in loop {d} is called in each turn of that loop, one outside it once for all turns.')
    better = (first if held.first else second).name
    return [*told, f'So {better} {"are" if better.startswith("gaps") else "is"} better.']


def reasons(paper: Paper, held: Compared, first: Side, second: Side) -> str:
    """One paragraph: whether both cut all, how the costs compare, what the desk says, no sentence twice."""
    wrong = [uncut_words(paper, side, side.placed.uncut) for side in (first, second) if side.placed.uncut is not None]
    told = [*wrong, NO_COST] if wrong else ['Both cut every dependence.', *cost_words(paper, held, first, second)]
    said = [verdict(side.name, side.mark) for side in (first, second) if side.mark and side.name != KEY]
    return ' '.join(dict.fromkeys(told + said))


def calls_made(desk: Desk, argument: str, turns: bytes, sides: list[Side]) -> list[int]:
    """How many calls each makes under the turns, by the desk; none of a paper whose calls it does not count."""
    try:
        return [desk.placement_calls(side.text, turns) for side in sides]
    except Refused as refusal:
        if desk.nest.barred or desk.nest.flagged:
            return []
        cause = turns_cause(desk.nest, turns, lambda some: refusal_of(
            lambda told: desk.placement_calls(sides[0].text, told), some))
        raise Fault(f'turns {argument}: {cause}') from refusal


def calls_words(paper: Paper, held: Compared, turns: bytes, made: list[int], first: Side, second: Side) -> str:
    """How many calls each makes under the turns."""
    if not made:
        return UNCOUNTED
    if len(set(turns)) == 1:
        when = f'If each loop makes {counted(turns[0], "turn")}'
    else:
        when = 'If the turns are ' + ', '.join(f'{many} of loop {d}' for d, many in zip(paper.end, turns))
    told = (f'{when}, each thread calls barriers {counted(made[0], "time")} with {first.name} and {made[1]:,} with '
            f'{second.name}.')
    if held.first and made[0] > made[1] or held.second and made[0] < made[1]:
        told += f' {FEWEST}'
    return told


def side_told(side: Side) -> dict[str, object]:
    """A placement for programs."""
    mark = None if side.mark is None else {**vars(side.mark), 'verdict': VERDICTS[side.mark.verdict]}
    return {'gaps': side.placed.gaps, 'counts': loops_told(side.placed.counts), 'first_uncut': side.placed.uncut,
            'uncut': side.uncut, 'mark': mark, 'skipped': skipped_fields(side.relied)}


def head_of(asked: argparse.Namespace, name: str, text: bytes) -> dict[str, str]:
    """What a page to print says of itself: the paper, the files of placements, the day."""
    import hashlib  # which takes long to load, as do those of a page
    files = [title_of(given) for given in (asked.gaps, asked.other) if given and is_file(given)]
    return {'Paper': name, 'SHA-256 of the paper': hashlib.sha256(text).hexdigest(),
            **({'Placement of' if len(files) == 1 else 'Placements of': ', '.join(files)} if files else {}),
            'Made on': time.strftime('%Y-%m-%d', time.gmtime())}


def arguments(parser: argparse.ArgumentParser) -> None:
    parser.add_argument('paper', metavar='PAPER', help=PAPER_HELP)
    parser.add_argument('gaps', metavar='GAPS', nargs='?', help=GAPS_HELP)
    parser.add_argument('other', metavar='GAPS', nargs='?', help='what to hold it beside; the key if none is named')
    parser.add_argument('--turns', help=f'{TURNS_HELP} ({TEN})')
    parser.add_argument('--argument', action='store_true', help='all of why no placement is better, however long it is')
    parser.add_argument('--html', metavar='FILE', help='writes a page for printing, with pictures')
    parser.add_argument('--json', action='store_true', help='an object, for programs')
    parser.add_argument('--text', action='store_true', help='the argument for the key as a text, in hexadecimal')
    result_arguments(parser, 'another argument')


def fitting(asked: argparse.Namespace) -> None:
    """What cannot be asked for together is a fault."""
    if asked.text and (asked.gaps is not None or asked.html is not None or asked.json):
        raise Fault('--text writes the argument for the key of a paper, with nothing beside it')
    if asked.html is not None and asked.json:
        raise Fault('--html is for people and --json for programs: give one of them')
    if asked.output is not None and not asked.text:
        raise Fault('-o is where the argument goes as a text: --text asks for it')
    if asked.turns is not None and asked.gaps is None:
        raise Fault('--turns counts the calls of a placement: name its gaps behind the paper')
    if asked.argument and asked.other is not None:
        raise Fault('--argument is about the key: name one placement to hold beside it, or none')


def of_key(asked: argparse.Namespace) -> None:
    """Why no placement is better than the key."""
    desk, text = planned(asked.paper)
    paper, key = named_paper(desk, asked.paper, text), placed(desk, desk.key())
    found, tree = argued(desk, paper, key.counts), drawn(paper, key.counts)
    if found is None:
        raise Fault(before(found, True), REFUSED)
    title, relied = f'{KEY}: {gaps_titled(key.gaps)}', relied_on(desk, desk.key())
    if asked.text:
        hand_over(asked, found.text, TEXT, lambda there: is_argument(desk, there))
    elif asked.json:
        write_json({'gaps': key.gaps, 'counts': loops_told(key.counts), 'argument': found.fields(),
                    'skipped': skipped_fields(relied)})
    elif asked.html is not None:
        from office.claim_figures import argument_markup
        from office.page import BEGINS, Shown, page
        name = title_of(asked.paper)
        markup = argument_markup(found, asked.argument, paper, key, name)
        head = head_of(asked, name, text) | {'SHA-256 of the argument': found.sha256}
        made_page = page(name, head, paper, [Shown(title, key, tree)], skipped_told(relied, KEY), [], markup)
        write_over(asked.html, made_page.encode(), begins=BEGINS)
    else:
        skipped = ['\n'.join(textwrap.wrap(words, WIDE)) for words in skipped_told(relied, KEY)]
        paragraphs = ['\n'.join([title, '', *tree]), *skipped, *argument_lines(found, asked.argument)]
        write_out(('\n\n'.join(paragraphs) + '\n').encode())


def is_argument(desk: Desk, text: bytes) -> bool:
    """Whether the desk reads a text as an argument, whether it holds or not."""
    refusal = refusal_of(desk.weigh, text)
    return refusal is None or refusal.number not in NOT_READ


def main(asked: argparse.Namespace) -> None:
    fitting(asked)
    if asked.gaps is None:
        of_key(asked)
    else:
        compared(asked)


def compared(asked: argparse.Namespace) -> None:
    """Two placements beside each other; one beside the key, and why none is better than that."""
    desk, text = planned(asked.paper) if asked.other is None else loaded(asked.paper)
    with contextlib.suppress(Refused):  # two placements can be compared on a paper that has no key
        desk.plan()
    paper = named_paper(desk, asked.paper, text)
    first = side_of(desk, 'the first placement', placement_asked(asked.gaps, desk))
    if asked.other is None:
        second = side_of(desk, KEY, desk.key())
    else:
        second = side_of(desk, 'the second placement', placement_asked(asked.other, desk))
    given = TEN if asked.turns is None else asked.turns
    turns = turns_asked(given, len(paper.end))
    made = calls_made(desk, given, turns, [first, second])
    held = desk.compare(first.text, second.text)
    correct = first.placed.uncut is None and second.placed.uncut is None
    trees = [drawn(paper, side.placed.counts, held.deciding if correct else []) for side in (first, second)]
    told = [reasons(paper, held, first, second)]
    if correct:
        told.append(calls_words(paper, held, turns, made, first, second))
    for side in (first,) if first.text == second.text else (first, second):
        told += skipped_told(side.relied, side.name) if side.placed.uncut is None else []
    found = argued(desk, paper, second.placed.counts) if asked.other is None else None
    if asked.json:
        sides = [side_told(side) for side in (first, second)]
        write_json({'first': sides[0], 'second': sides[1], 'correct': correct, 'first_as_good': held.first,
                    'second_as_good': held.second, 'deciding': held.deciding, 'turns': list(turns),
                    'calls': made or None, 'words': told, 'argument': found and found.fields()})
        return
    if asked.html is not None:
        from office.claim_figures import argument_markup
        from office.page import BEGINS, Shown, page
        shown = [Shown(side.title, side.placed, tree) for side, tree in zip((first, second), trees)]
        name = title_of(asked.paper)
        uncut = [side.placed.uncut for side in (first, second) if side.placed.uncut is not None]
        loops = held.deciding if correct else sorted({paper.home[number] for number in uncut})
        markup = argument_markup(found, asked.argument, paper, second.placed, name) if asked.other is None else ''
        made_page = page(name, head_of(asked, name, text), paper, shown, told, loops, markup)
        write_over(asked.html, made_page.encode(), begins=BEGINS)
        return
    left, right = ([side.title, '', *tree] for side, tree in zip((first, second), trees))
    paragraphs = ['\n'.join(beside(left, right)), *('\n'.join(textwrap.wrap(words, WIDE)) for words in told)]
    paragraphs += argument_lines(found, asked.argument) if asked.other is None else []
    write_out(('\n\n'.join(paragraphs) + '\n').encode())
