"""./desk textbook: the placement of the textbook method for a paper of one loop."""
import argparse

from office.asked import PAPER_HELP, blocked_cause, is_placement, loaded, refused
from office.command import Fault, write_json, write_out
from office.frames import DO, placement_text
from office.refusal import Refused
from office.result import hand_over, result_arguments
from office.words import gaps_named

MORE = 'The result is a placement text, which ./desk mark takes. It has as many barriers as the key.'


def arguments(parser: argparse.ArgumentParser) -> None:
    parser.add_argument('paper', metavar='PAPER', help=PAPER_HELP)
    parser.add_argument('--words', action='store_true', help='in words: gaps in decimal')
    parser.add_argument('--json', action='store_true', help='an object, for programs')
    result_arguments(parser, 'another placement text')


def main(asked: argparse.Namespace) -> None:
    if asked.words and asked.json:
        raise Fault('--words is for people and --json for programs: give one of them')
    if (asked.words or asked.json) and asked.output is not None:
        raise Fault(f'-o writes the placement text: --{"words" if asked.words else "json"} has no place beside it')
    desk, text = loaded(asked.paper)
    try:
        gaps = desk.textbook()
    except Refused as refusal:
        many = desk.nest.points.count(DO)
        cause = f'the textbook method is for papers of one loop, and this one has {many}' if many > 1 else (
            blocked_cause(desk))
        raise refused(asked.paper, refusal, text, cause) from refusal
    if asked.json:
        write_json({'gaps': gaps})
    elif asked.words:
        write_out(f'textbook: {gaps_named(gaps)}\n'.encode())
    else:
        hand_over(asked, placement_text(gaps), 'placement text', lambda there: is_placement(there, desk))
