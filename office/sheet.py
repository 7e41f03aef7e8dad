"""./desk sheet: when the run of a timing sheet ends, with its waits and with all barriers kept.

A sheet is a line for each phase, and in it a cell for each processor: a duration, and after the first phase a colon
and the processors it waits for, itself too, with commas between.
"""
import argparse
import re

from office.command import REFUSED, Fault, printable, read_in, write_json, write_out
from office.header import DECLARED
from office.library import refusal_of, run_ends
from office.refusal import Refused
from office.words import RULES, counted, spoken

MORE = """a sheet, a line for each phase, a cell for each processor from 0 on; # begins a remark:
  5 3 8                  durations, 0 to 65535
  4:0,1 2:1 6:0,1,2      durations, and the processors that each waits for, itself too
"""
BITS, LONGEST, SIZE = 16, 65535, 19
PROCESSORS, PHASES = (DECLARED.numbers[f'DESK_{many}'] for many in ('PROCESSORS', 'PHASES'))
FIRST, LATER = re.compile('([0-9]{1,5})'), re.compile('([0-9]{1,5}):([0-9]{1,2}(?:,[0-9]{1,2})*)')


def cell_in(word: str, first: bool) -> tuple[int, int]:
    """The duration and the set of waits of a cell, a bit for each processor."""
    cell = (FIRST if first else LATER).fullmatch(word)
    form = 'a duration' if first else 'a duration, a colon and the processors waited for, with commas between'
    waits = [int(k) for k in cell[2].split(',')] if cell and not first else []
    if not cell or int(cell[1]) > LONGEST or any(k >= BITS for k in waits):
        raise Fault(f'{word} is not {form}', REFUSED)
    return int(cell[1]), sum(1 << k for k in set(waits))


def sheet_in(text: bytes, file: str) -> tuple[int, int, list[int], list[int]]:
    """Processors, phases, durations and sets of waits, phase by phase."""
    phases: list[list[tuple[int, int]]] = []
    for number, line in enumerate(text.decode('utf-8-sig', 'replace').splitlines(), 1):
        words = line.partition('#')[0].split()
        try:
            phase = [cell_in(word, not phases) for word in words]
            if phases and words and len(words) != len(phases[0]):
                there = counted(len(words), 'processor')
                raise Fault(f'it has {there} where the first phase has {len(phases[0])}', REFUSED)
        except Fault as fault:
            raise Fault(f'{printable(file)}: line {number} of the sheet is refused: {fault}', REFUSED, None,
                        number) from fault
        phases += [phase] if words else []
    cells = [cell for phase in phases for cell in phase]
    many = len(phases[0]) if phases else 0
    return many, len(phases), [duration for duration, _ in cells], [waits for _, waits in cells[many:]]


def size_cause(processors: int, phases: int) -> str:
    """Which of a sheet's numbers is out of range."""
    if not phases:
        return 'it has no phase: a line has the durations of a phase, a number for each processor'
    if processors > PROCESSORS:
        return f'it has {processors} processors, and a sheet has at most {PROCESSORS}'
    return f'it has {phases} phases, and a sheet has at most {PHASES}'


def waits_cause(processors: int, phases: int, durations: list[int], waits: list[int]) -> str:
    """Which set of waits is at fault, and how. Each is tried in a sheet where every other waits for itself alone."""
    alone = [1 << at % processors for at in range(len(waits))]
    for at, some in enumerate(waits):
        def said(told: int) -> bool:
            tried = alone[:at] + [told] + alone[at + 1:]
            return refusal_of(lambda _: run_ends(processors, phases, durations, tried), b'') is None
        if not said(some):
            phase, k = at // processors + 2, at % processors
            if said(some | alone[at]):
                return f'processor {k} does not wait for itself in phase {phase}: name it among those it waits for'
            there = spoken('processor', [*range(processors)])
            return f'in phase {phase} processor {k} waits for one that the sheet does not have: it has {there}'
    return RULES[20]


def arguments(parser: argparse.ArgumentParser) -> None:
    parser.add_argument('sheet', metavar='SHEET', help='a file with a timing sheet; - for standard input')
    parser.add_argument('--json', action='store_true', help='an object, for programs')


def main(asked: argparse.Namespace) -> None:
    sheet = sheet_in(read_in(asked.sheet), asked.sheet)
    try:
        waiting, barriers = run_ends(*sheet)
    except Refused as refusal:
        number = refusal.refusal.number
        cause = size_cause(*sheet[:2]) if number == SIZE else waits_cause(*sheet)
        raise Fault(f'{printable(asked.sheet)}: the sheet is refused\nnumber {number}: {cause}', REFUSED, number,
                    0) from refusal
    if asked.json:
        write_json({'waiting': waiting, 'barriers': barriers})
        return
    write_out(f'with its waits the run ends at {waiting:,}\nwith all barriers kept it ends at {barriers:,}\n'.encode())
