"""./desk improve: fewer calls than the key's where loops run once, within a budget of tries."""
import argparse

from office.asked import PAPER_HELP, TURNS_HELP, planned, turned
from office.command import Fault, write_json, write_out
from office.frames import placement_text
from office.library import Desk
from office.words import ENDED, counted, gaps_named

MORE = 'Turns are 1 to 16. No correct placement has fewer calls than the floor.'
BUDGET, MOST = 1000, 2 ** 64
BY = {0: 'round', 1: 'budget'}


def arguments(parser: argparse.ArgumentParser) -> None:
    parser.add_argument('paper', metavar='PAPER', help=PAPER_HELP)
    parser.add_argument('turns', metavar='TURNS', help=TURNS_HELP)
    parser.add_argument('--budget', type=int, default=BUDGET, help=f'how many tries are made at most ({BUDGET})')
    parser.add_argument('--text', action='store_true', help='writes the placement text alone')
    parser.add_argument('--json', action='store_true', help='an object, for programs')


def main(asked: argparse.Namespace) -> None:
    if not 0 <= asked.budget < MOST:
        raise Fault(f'a budget is a number of tries from 0: {asked.budget}')
    if asked.text and asked.json:
        raise Fault('--text writes the placement text alone: --json has no place beside it')
    desk, _ = planned(asked.paper)
    found = turned(desk, asked.turns, lambda desk, turns: Desk.improve(desk, turns, asked.budget),
                   lambda desk, turns: Desk.improve(desk, turns, 0))
    if asked.json:
        write_json({'gaps': found.gaps, 'calls': found.calls, 'tries': found.tries, 'ended': BY[found.ended],
                    'floor': found.floor})
        return
    lines = [gaps_named(found.gaps), counted(found.calls, 'call'),
             f'{counted(found.tries, "try", "tries")}, ended by {ENDED[found.ended]}',
             f'floor {found.floor:,}: at most {counted(found.calls - found.floor, "call")} too many', '']
    write_out(placement_text(found.gaps) if asked.text else '\n'.join(lines).encode())
