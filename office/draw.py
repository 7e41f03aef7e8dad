"""./desk draw, and ./draw for short: a paper as a picture, with the barriers of its key or with those named."""
import argparse
import re

from office.asked import GAPS_HELP, PAPER_HELP, loaded, placement_asked, planned
from office.command import Fault, Parser, printable, title_of, write_out, write_over
from office.day import COMMANDS, about
from office.names import named_paper
from office.paper import Paper, placed
from office.picture import Picture
from office.result import OUT_HELP
from office.sight import View
from office.version import Told
from office.words import joined, ranges

MORE = """  ./desk draw paper.hex -o paper.svg               the barriers of the key
  ./desk draw paper.hex 5,11 -o paper.svg          these gaps, in decimal; '' for none
  ./desk draw paper.hex answer.hex -o paper.svg    the gaps of a placement text, lines 21 and a gap
  ./desk draw paper.hex --loop 16 -o loop.svg      one loop with the dependences at home in it, loops inside folded
  ./desk draw paper.hex --loop 16 --unfold -o loop.svg
  ./desk draw paper.hex --only 5,7 -o paper.svg    these dependences alone

A dependence is at home in the outermost loop that has one of its gaps. Of a paper that has too many for lanes, the
picture shows how many dependences of each loop have each gap; the loops, one by one, show more.
"""
BEGINS = b'<svg '


def view_asked(paper: Paper, asked: argparse.Namespace) -> View:
    """The view that the arguments name."""
    if asked.loop is None:
        if asked.unfold:
            raise Fault('--unfold goes with --loop: the whole paper has no loop folded')
        return View()
    if asked.loop not in map(str, paper.end):
        raise Fault(f'{printable(asked.loop)} is no DO of this paper, which has {joined([*map(str, paper.end)])}')
    return View(int(asked.loop), asked.unfold)


def only_asked(paper: Paper, view: View, argument: str | None) -> set[int] | None:
    """The dependences that an argument names; all, if there is none."""
    if argument is None:
        return None
    named = [word for word in re.split('[, ]+', argument) if word]
    there = {str(number): number for number in range(len(paper.dependences))}
    wrong = [word for word in named if word not in there]
    if wrong or not named:
        has = ranges([*there.values()]) or 'none'
        what = f'{printable(wrong[0])} is' if wrong else '--only names'
        raise Fault(f'{what} no dependence of this paper, which has {has}')
    chosen = {there[word] for word in named}
    away = [number for number in sorted(chosen) if view.loop is not None and paper.home[number] != view.loop]
    if away:
        raise Fault(f'dependence {away[0]} is at home in loop {paper.home[away[0]]}, not in loop {view.loop}')
    return chosen


def arguments(parser: argparse.ArgumentParser) -> None:
    parser.add_argument('paper', metavar='PAPER', help=PAPER_HELP)
    parser.add_argument('gaps', metavar='GAPS', nargs='?', help=GAPS_HELP)
    parser.add_argument('-o', '--output', metavar='FILE', help=OUT_HELP)
    parser.add_argument('--loop', metavar='N', help='one loop alone, by the point of its DO')
    parser.add_argument('--unfold', action='store_true', help='with --loop: the loops inside it row by row')
    parser.add_argument('--only', metavar='LIST', help='some dependences alone, by their numbers, commas between')


def main(asked: argparse.Namespace) -> None:
    if asked.gaps is None:
        desk, read = planned(asked.paper)
        text, missing = desk.key(), desk.missing_runs()
    else:
        desk, read = loaded(asked.paper)
        text, missing = placement_asked(asked.gaps, desk), []
    paper = named_paper(desk, asked.paper, read)
    view = view_asked(paper, asked)
    drawing = Picture(paper, placed(desk, text), title_of(asked.paper), tuple(missing), view,
                      only=only_asked(paper, view, asked.only))
    drawn = drawing.svg().encode()
    if asked.output in (None, '-'):
        write_out(drawn)
    else:
        write_over(asked.output, drawn, begins=BEGINS)


def alone(given: list[str]) -> None:
    """The command under its own name."""
    parser = Parser(prog='./draw', description=about(COMMANDS['draw'], MORE.replace('./desk draw', './draw')),
                    formatter_class=argparse.RawDescriptionHelpFormatter)
    parser.add_argument('--version', action=Told, name='draw')
    arguments(parser)
    main(parser.asked(given))
