"""./desk check: whether papers are accepted, and what is wrong with them in words."""
import argparse
import os

from office.asked import PAPER_HELP, paper_in, refused_paper
from office.command import REFUSED, Fault, done, files_in, printable, tell, write_json, write_out
from office.frames import DO
from office.library import Desk
from office.paper import Paper, paper_on
from office.refusal import Refused
from office.skipped import missing_told
from office.words import counted, spoken

MORE = """A paper that is accepted but can have no key is told as well, and has status 1 too. A folder stands for the
texts and listings in it, the files *.hex and *.txt. That a paper is hard for people is advice, and no fault.

  ./desk check paper.hex
  ./desk check papers
"""
FIELDS = ('points', 'loops', 'deep', 'dependences', 'barred', 'may_not_run', 'blank', 'advice', 'missing_runs')
# Gaps of its own and dependences at home in one loop: what a person can look over.
GAPS, DEPENDENCES = 25, 40


def advice(paper: Paper) -> list[str]:
    """The loops that are hard for people."""
    told = []
    for d in paper.end:
        own, home = [*paper.owner.values()].count(d), len(paper.at_home[d])
        if own > GAPS or home > DEPENDENCES:
            told.append(f'hard for people: loop {d} has {counted(own, "gap")} of its own and '
                        f'{counted(home, "dependence")} at home in it; {GAPS} and {DEPENDENCES} can be looked over')
    return told


def arguments(parser: argparse.ArgumentParser) -> None:
    parser.add_argument('papers', metavar='PAPER', nargs='+', help=f'{PAPER_HELP}; or a folder of texts')
    parser.add_argument('--json', action='store_true', help='a list of objects, one for each paper')


class Checked:
    """What there is to say of a paper: what it has, and why it is refused or can have no key."""

    def __init__(self, file: str):
        self.file = file
        self.fault: Fault | None = None
        self.words: list[str] = []
        self.has: dict[str, object] = {}
        try:
            self.look()
        except Fault as fault:
            self.fault = fault

    def look(self) -> None:
        text, desk = paper_in(self.file), Desk()
        try:
            desk.load(text)
        except Refused as refusal:
            raise refused_paper(self.file, refusal, text) from refusal
        paper = paper_on(desk)
        loops, deep = paper.points.count(DO), max(paper.depth[d] for d in paper.end) + 1
        parts = [counted(len(paper.points), 'point'), counted(loops, 'loop'), f'{deep} deep',
                 counted(len(paper.dependences), 'dependence')]
        barred, flagged = sorted(paper.barred), sorted(paper.flagged)
        if barred:
            parts.append(counted(len(barred), 'barred gap'))
        if flagged:
            parts.append(f'{counted(len(flagged), "loop")} that may not run ({spoken("loop", flagged)})')
        empty = '' if text else 'an empty text is the blank paper: '
        hard = advice(paper)
        self.words += [f'accepted: {empty}{", ".join(parts)}', *hard]
        self.has = {'points': len(paper.points), 'loops': loops, 'deep': deep, 'dependences': len(paper.dependences),
                    'barred': barred, 'may_not_run': flagged, 'blank': not text, 'advice': hard}
        try:
            desk.plan()
        except Refused as refusal:
            raise refused_paper(self.file, refusal, text, desk) from refusal
        missing = desk.missing_runs()
        self.has |= {'missing_runs': missing}
        self.words += missing_told(missing)

    @property
    def told(self) -> dict[str, object]:
        """The same for programs."""
        refused = None if self.fault is None else {
            'number': self.fault.number, 'line': self.fault.line, 'words': str(self.fault).splitlines()}
        return {'paper': self.file, 'accepted': bool(self.has), 'has_key': self.fault is None,
                **{field: self.has.get(field) for field in FIELDS}, 'refused': refused}


def main(asked: argparse.Namespace) -> None:
    files = [file for place in asked.papers for file in (
        files_in(place, ('.hex', '.txt')) if os.path.isdir(place) else [place])]
    checked: list[Checked] = []
    for file in files:
        checked.append(one := Checked(file))
        named = f'{printable(file)}: ' if len(files) > 1 else ''
        if not asked.json:
            write_out(''.join(f'{named}{line}\n' for line in one.words).encode())
        if one.fault is not None and (len(files) > 1 or asked.json):
            tell('desk', str(one.fault))
        done(f'{len(checked):,} of {counted(len(files), "paper")} checked')
    if asked.json:
        write_json([one.told for one in checked if one.fault is None or one.fault.status == REFUSED])
    faults = [one.fault for one in checked if one.fault is not None]
    if faults:
        worst = max(fault.status for fault in faults)
        raise Fault('' if len(files) > 1 or asked.json else str(faults[0]), worst)
