"""./desk missing: the loops that need a barrier for their missing run."""
import argparse

from office.asked import PAPER_HELP, planned
from office.command import tell, write_json, write_out
from office.library import Desk

MORE = """A loop a line, by the point of its DO; none where no loop needs one. The list is for loops that are skipped in
every turn or in none. A dependence for which it may not be enough where a loop is skipped in some turns alone is told
on standard error."""


def told(desk: Desk) -> list[str]:
    """Of which dependences the list does not speak where a loop is skipped in some turns alone, a sentence each: in one
    of their two turns a loop that has one of their ends may be skipped while they occur."""
    sentences = []
    for number, (_, d, s, t) in enumerate(desk.nest.dependences):
        if loops := desk.one_end(number):
            inside = f'loop {loops[0]}' if len(loops) == 1 else f'each of the loops {", ".join(map(str, loops))}'
            sentences.append(f'dependence {number} goes from {s} in one turn of loop {d} to {t} in the next, '
                             f'with one end alone in {inside}: where that is skipped in some turns and runs in others, '
                             'what is listed may not be enough')
    return sentences


def arguments(parser: argparse.ArgumentParser) -> None:
    parser.add_argument('paper', metavar='PAPER', help=PAPER_HELP)
    parser.add_argument('--json', action='store_true', help='an object, for programs')


def main(asked: argparse.Namespace) -> None:
    desk, _ = planned(asked.paper)
    loops = desk.missing_runs()
    if asked.json:
        write_json({'loops': loops})
    else:
        write_out(''.join(f'loop {d}\n' for d in loops).encode())
    tell('desk', '\n'.join(told(desk)))
