"""./desk program: a paper as a program in C, with threads and the barriers of its key or with those named."""
import argparse
import contextlib

from office.asked import GAPS_HELP, PAPER_HELP, loaded, placement_asked, planned
from office.command import title_of, write_out, write_over
from office.library import Desk
from office.paper import paper_on, placed
from office.refusal import Refused
from office.threads import BEGINS, TURNS, program

MORE = """  ./desk program paper.hex > paper.c             the barriers of the key
  ./desk program paper.hex 3,9 > paper.c         these gaps, in decimal; '' for none
  ./desk program paper.hex 3,9 -o paper.c        the same; another's file is not written over

  gcc -pthread paper.c -o paper && ./paper       names each dependence that no barrier cuts
  gcc -pthread -g -fsanitize=thread paper.c -o paper && ./paper
                                                 ThreadSanitizer names the accesses that race

Threads, turns and whether a loop that may not run does are constants at the top of the program. With the key each loop
that needs a barrier for its missing run has it. Where ThreadSanitizer says "unexpected memory mapping", start the
program with setarch -R ./paper.
"""


def calls_counted(desk: Desk, text: bytes) -> int | None:
    """How many barrier calls the desk counts where each loop makes two turns; none on a paper where it does not."""
    with contextlib.suppress(Refused):
        return desk.placement_calls(text, bytes([TURNS] * len(desk.shape().end)))
    return None


def arguments(parser: argparse.ArgumentParser) -> None:
    parser.add_argument('paper', metavar='PAPER', help=PAPER_HELP)
    parser.add_argument('gaps', metavar='GAPS', nargs='?', help=GAPS_HELP)
    parser.add_argument('-o', '--output', metavar='FILE', help='a file to write, over a program of this kind at most')


def main(asked: argparse.Namespace) -> None:
    if asked.gaps is None:
        desk, _ = planned(asked.paper)
        text, missing = desk.key(), desk.missing_runs()
    else:
        desk, _ = loaded(asked.paper)
        text, missing = placement_asked(asked.gaps, desk), []
        with contextlib.suppress(Refused):  # a paper that has no key
            desk.plan()
            missing = desk.missing_runs() if text == desk.key() else []
    title = title_of(asked.paper)
    written = program(title, paper_on(desk), placed(desk, text).gaps, missing, calls_counted(desk, text)).encode()
    if asked.output is None:
        write_out(written)
    else:
        write_over(asked.output, written, begins=BEGINS.encode())
