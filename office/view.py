"""./desk register: what the register says, at the screen, as CSV or as JSON."""
import argparse

from office.command import write_out
from office.marks import Finding, Mark
from office.register import Register, opened, readable
from office.rows import ALL, as_csv, as_json, cells_of
from office.words import counted

MORE = """Without --history the marks that hold today; with it those that others took the place of, too.

  ./desk register register.db
  ./desk register register.db --candidate anna --history
  ./desk register register.db --csv > marks.csv
"""


def arguments(parser: argparse.ArgumentParser) -> None:
    parser.add_argument('register', metavar='REGISTER', help='the file of the register')
    parser.add_argument('--candidate', metavar='ID', help='the marks of one candidate alone')
    parser.add_argument('--history', action='store_true', help='all marks, in the order in which they were made')
    form = parser.add_mutually_exclusive_group()
    form.add_argument('--csv', action='store_true', help='CSV in UTF-8; a cell that looks like a formula is guarded')
    form.add_argument('--excel', action='store_true', help='the same with a byte order mark, as Excel wants it')
    form.add_argument('--json', action='store_true', help='a list of objects')


def chosen(register: Register, asked: argparse.Namespace) -> list[Mark]:
    """The marks that are asked for, in order of candidate and paper, or as they were made."""
    table, order = ('mark', 'seq') if asked.history else ('register', 'candidate, paper')
    if asked.candidate is None:
        return register.marks(f'{table} ORDER BY {order}')
    return register.marks(f'{table} WHERE candidate = ? ORDER BY {order}', asked.candidate.lower())


def verdict(mark: Finding | Mark) -> str:
    """A verdict with its numbers."""
    if mark.uncut is not None:
        return f'{mark.verdict} {mark.uncut}'
    if mark.loop is not None:
        return f'{mark.verdict}, loop {mark.loop}, {mark.theirs} against {mark.ours}'
    if mark.number is not None:
        return f'{mark.verdict}, number {mark.number}, line {mark.line}'
    return mark.verdict


def line_of(register: Register, mark: Mark) -> list[str]:
    """What the screen shows of a mark."""
    paper = register.paper(mark.paper)
    of = '' if mark.replaces is None else f'in place of mark {mark.replaces}: {mark.reason}'
    at, name = mark.at[:16].replace('T', ' '), paper[0] if paper else '?'
    return [str(mark.seq), at, mark.candidate, name, verdict(mark), of]


def table_of(lines: list[list[str]]) -> list[str]:
    """Lines with their columns under one another."""
    widths = [max(map(len, column)) for column in zip(*lines)]
    return ['  '.join(f'{cell:{width}}' for cell, width in zip(line, widths)).rstrip() for line in lines]


def told(register: Register, asked: argparse.Namespace) -> bytes:
    """What is asked for."""
    marks = chosen(register, asked)
    if asked.csv or asked.excel:
        return as_csv(ALL, (cells_of(register, mark) for mark in marks), asked.excel)
    if asked.json:
        return as_json(cells_of(register, mark) for mark in marks)
    end, _ = register.end()
    lines = table_of([line_of(register, mark) for mark in marks])
    many = f'{counted(len(marks), "mark")} of {end:,}' if len(marks) < end else counted(end, 'mark')
    return '\n'.join([*lines, f'{many}, head {register.head()}', '']).encode()


def main(asked: argparse.Namespace) -> None:
    with opened(asked.register) as register, readable(asked.register):
        out = told(register, asked)
    write_out(out)
