"""./desk key: the key of a paper as the program writes it, or in words."""
import argparse

from office.asked import PAPER_HELP, paper_text, refused_paper
from office.causes import LONGEST
from office.command import Fault, write_json, write_out
from office.frames import COUNT, REFUSAL, text_of
from office.library import Desk
from office.paper import loops_told, paper_on, placed
from office.refusal import BLOCKED, Refusal, Refused
from office.skipped import missing_told
from office.trees import drawn
from office.words import gaps_named

MORE = 'A refused paper gets the line 2f of its refusal, and standard error has it in words.'
TOO_LONG = Refusal(5, 0)


def answer_to(text: bytes, desk: Desk) -> bytes:
    """What the program writes for a paper that is not refused; the desk then has the paper and its key."""
    if len(text) > LONGEST:
        raise Refused(TOO_LONG)
    desk.load(text)
    desk.plan()
    key = desk.key()
    return key + text_of((COUNT, d, desk.count(d)) for d in placed(desk, key).counts)


def in_words(desk: Desk) -> bytes:
    """The key's gaps, and the tree of its counts."""
    key = placed(desk, desk.key())
    missing = missing_told(desk.missing_runs())
    return '\n'.join([f'key: {gaps_named(key.gaps)}', *drawn(paper_on(desk), key.counts), *missing, '']).encode()


def arguments(parser: argparse.ArgumentParser) -> None:
    parser.add_argument('paper', metavar='PAPER', help=PAPER_HELP)
    parser.add_argument('--words', action='store_true', help='in words: gaps in decimal, counts as a tree')
    parser.add_argument('--json', action='store_true', help='gaps, counts and missing runs, for programs')


def main(asked: argparse.Namespace) -> None:
    if asked.words and asked.json:
        raise Fault('--words is for people and --json for programs: give one of them')
    text, desk = paper_text(asked.paper), Desk()
    try:
        answer = answer_to(text, desk)
    except Refused as refusal:
        number, line = refusal.refusal.number, refusal.refusal.line
        if not asked.words and not asked.json:
            write_out(text_of([[REFUSAL, number, line >> 8, line & 255]]))
        raise refused_paper(asked.paper, refusal, text, desk if number == BLOCKED else None) from refusal
    if asked.json:
        key = placed(desk, desk.key())
        write_json({'gaps': key.gaps, 'counts': loops_told(key.counts), 'missing_runs': desk.missing_runs()})
    else:
        write_out(in_words(desk) if asked.words else answer)
