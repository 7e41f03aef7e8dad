"""./desk calls: the barrier calls of the key in a run."""
import argparse

from office.asked import PAPER_HELP, TURNS_HELP, planned, turned
from office.command import write_json, write_out
from office.library import Desk

MORE = 'Turns are 2 to 16, of the outermost loop from 1. No correct placement has fewer calls.'


def arguments(parser: argparse.ArgumentParser) -> None:
    parser.add_argument('paper', metavar='PAPER', help=PAPER_HELP)
    parser.add_argument('turns', metavar='TURNS', help=TURNS_HELP)
    parser.add_argument('--json', action='store_true', help='an object, for programs')


def main(asked: argparse.Namespace) -> None:
    desk, _ = planned(asked.paper)
    made = turned(desk, asked.turns, Desk.count_calls)
    if asked.json:
        write_json({'calls': made})
    else:
        write_out(f'{made}\n'.encode())
