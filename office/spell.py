"""./desk spell: from a listing, as ./desk show writes it, to the text of a paper."""
import argparse
import os

from office.asked import is_paper
from office.command import read_in, target_of, write_over
from office.listing import spelled_with_names
from office.names import BEGINS, SUFFIX, names_text
from office.result import hand_over, result_arguments

MORE = """a listing, a line each:
  DO NAME, ENDDO NAME        a loop; names may be left out; DO NAME may not run: a loop that need not
  DO NAME = 1, n             the same: bounds are not read, and such loops may share a name
  NAME                       a statement; names have letters of any script, digits and _
  A -> B                     a dependence; a loop's name stands for its DO before the arrow, for its ENDDO behind it
  A -> B round LOOP          a dependence that the loop carries
  barred | LINE              bars the gap just before a line; numbers before the bar are not read
  # ...                      a remark

  ./desk spell nest.txt -o paper.hex
"""


def arguments(parser: argparse.ArgumentParser) -> None:
    parser.add_argument('listing', metavar='LISTING', help='a file with a listing; - for standard input')
    parser.add_argument('--names', metavar='FILE', help='where the names go; with -o, if none is named, beside the '
                        'text: paper.names for paper.hex, where ./desk show, draw, why, slip and sit find them')
    result_arguments(parser, 'another paper')


def main(asked: argparse.Namespace) -> None:
    text, names = spelled_with_names(read_in(asked.listing), asked.listing)
    beside = None if asked.output in (None, '-') else os.path.splitext(asked.output)[0] + SUFFIX
    place = asked.names or (beside if names else None)
    if place is not None:
        target_of(place, BEGINS)  # so that no paper is written where its names cannot be
    if beside is not None:  # names of a paper that is not written would be of nothing
        hand_over(asked, text, 'paper', is_paper)
    if place is not None:
        write_over(place, names_text(text, names), begins=BEGINS)
    if beside is None:
        hand_over(asked, text, 'paper', is_paper)
