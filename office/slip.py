"""./desk slip: a slip in words, the candidate's or the examiner's."""
import argparse

from office.asked import loaded
from office.command import REFUSED, Fault, printable, read_in, write_json, write_out
from office.names import named_paper
from office.paper import Paper, loops_told
from office.slip_words import Slip, counts_told, cuts_told, slip_in, uncut_told
from office.view import verdict

MORE = """A slip names dependences and loops by their numbers. With --paper their words stand beside them.

  ./desk slip slips/candidate/anna.p-3fa1c022.candidate.hex
  ./desk slip slips/examiner/anna.p-3fa1c022.examiner.hex --paper p.hex
"""
COUNTS, CUTS = 'Barriers of its own in each loop:', 'The lowest gap that cuts each dependence:'


def arguments(parser: argparse.ArgumentParser) -> None:
    parser.add_argument('slip', metavar='FILE', help='a file with a slip; - for standard input')
    parser.add_argument('--paper', metavar='PAPER', help='the paper that the slip is of')
    parser.add_argument('--json', action='store_true', help='an object, for programs')


def told(slip: Slip, paper: Paper | None) -> list[str]:
    """What a slip says, a line each."""
    lines = [f"The {slip.reader}'s slip.", uncut_told(slip, paper), COUNTS, *counts_told(slip, paper)]
    if slip.finding is not None:
        lines += [f'The desk says: {verdict(slip.finding)}.', CUTS, *cuts_told(slip)]
    return lines


def main(asked: argparse.Namespace) -> None:
    paper = None
    if asked.paper is not None:
        desk, text = loaded(asked.paper)
        paper = named_paper(desk, asked.paper, text)
    try:
        slip = slip_in(read_in(asked.slip))
    except ValueError as fault:
        raise Fault(f'{printable(asked.slip)} is no slip: {fault}', REFUSED) from fault
    if paper is not None and not slip.is_of(paper):
        raise Fault(f'{printable(asked.slip)} is no slip of {printable(asked.paper)}', REFUSED)
    if asked.json:
        finding = None if slip.finding is None else vars(slip.finding)
        write_json({'reader': slip.reader, 'uncut': slip.uncut, 'counts': loops_told(slip.counts), 'finding': finding,
                    'cuts': slip.cuts})
    else:
        write_out('\n'.join([*told(slip, paper), '']).encode())
