"""Where the result of a command goes: to standard output, or by -o into a file, which is written when all is well.

A shell makes the file of `> FILE` before the command is asked anything. What is refused then leaves an empty file, and
an empty text is the blank paper.
"""
import argparse
import os
from collections.abc import Callable

from office.command import Fault, place_of, printable, read_plain, write_out, write_over

OUT_HELP = 'writes to a file instead of standard output, and only when all is well'


def result_arguments(parser: argparse.ArgumentParser, what: str) -> None:
    parser.add_argument('-o', '--output', metavar='FILE', help=OUT_HELP)
    parser.add_argument('--over', action='store_true', help=f'with -o: may take the place of {what} that is there')


def hand_over(asked: argparse.Namespace, text: bytes, what: str, is_one: Callable[[bytes], bool]) -> None:
    """Writes a text to where it is asked for. Another one that is there goes only if that is asked for too, and what is
    nothing of the kind never does."""
    if asked.output in (None, '-'):
        write_out(text)
        return
    place = place_of(asked.output)
    there = read_plain(place) if os.path.exists(place) else None
    if there == text:
        return
    if there is not None and not is_one(there):
        raise Fault(f'{printable(asked.output)} is there and is no {what}, so it is left alone: give another name')
    if there is not None and not asked.over:
        raise Fault(f'{printable(asked.output)} is there, another {what}: --over lets this one take its place')
    write_over(asked.output, text, lasting=True)
