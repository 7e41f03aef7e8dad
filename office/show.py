"""./desk show: a paper as a listing for people, which ./desk spell reads.

  gap | line         the gap just before the line; `barred` after its number bars it
  DO L0, ENDDO L0    a loop by the point of its DO, or by its name; `may not run` behind DO says that it need not
  S2                 a statement by its point, or by its name
  0: S2 -> S5        an independent dependence
  1: S4 -> S3 round L1    a dependence that is carried by a loop
  # to the end of the line is a remark.
"""
import argparse

from office.asked import PAPER_HELP, loaded
from office.command import write_json, write_out
from office.frames import DO, ENDDO, STATEMENT
from office.names import named_paper
from office.paper import Paper

MORE = 'The number left of a bar is the gap just before that line. ./desk spell reads such a listing.'
KINDS = {DO: 'DO', ENDDO: 'ENDDO', STATEMENT: 'statement'}
NAMED = '# Left of the bar is the gap just before a line.'
REMARK = '# Left of the bar is the gap just before a line. S names a statement by its point, L a loop by its DO.'


def word_for(paper: Paper, point: int) -> str:
    """The name of a statement or of a loop by its DO: its own, or one by its point that no other has."""
    name = paper.names.get(point) or f'{"L" if paper.points[point] == DO else "S"}{point}'
    while point not in paper.names and name in paper.names.values():
        name += '_'
    return name


def name_of(paper: Paper, point: int) -> str:
    """A point as a listing calls it."""
    kind = paper.points[point]
    if kind == ENDDO:
        return f'ENDDO {word_for(paper, paper.owner[point])}'
    return f'DO {word_for(paper, point)}' if kind == DO else word_for(paper, point)


def listing_of(paper: Paper) -> str:
    """The listing of a paper."""
    gaps = [f'{gap:3}{" barred" if gap in paper.barred else ""}' for gap in range(1, len(paper.points))]
    wide = max(map(len, gaps))
    lines = [NAMED if paper.names else REMARK]
    for point, gap in enumerate(['', *gaps]):
        skipped = ' may not run' if point in paper.flagged else ''
        lines.append(f'{gap:{wide}} | {"  " * paper.depth[point]}{name_of(paper, point)}{skipped}')
    arrows = []
    for number, x in enumerate(paper.dependences):
        carried = '' if x.d is None else f' round {word_for(paper, x.d)}'
        arrows.append(f'{number}: {name_of(paper, x.s)} -> {name_of(paper, x.t)}{carried}')
    wide = max(map(len, arrows), default=0)
    words = [f'{arrow:{wide}}  # {paper.told(x)}' for arrow, x in zip(arrows, paper.dependences)]
    return '\n'.join([*lines, *[''] * bool(words), *words, ''])


def told(paper: Paper) -> dict[str, object]:
    """The same for programs."""
    loops = [{'do': d, 'enddo': end, 'deep': paper.depth[d] + 1, 'may_not_run': d in paper.flagged}
             for d, end in paper.end.items()]
    dependences = [{'carried_by': x.d, 's': x.s, 't': x.t, 'gaps': x.gaps} for x in paper.dependences]
    return {'points': [KINDS[kind] for kind in paper.points], 'loops': loops, 'dependences': dependences,
            'owners': [{'gap': gap, 'loop': d} for gap, d in paper.owner.items()], 'barred': sorted(paper.barred)}


def arguments(parser: argparse.ArgumentParser) -> None:
    parser.add_argument('paper', metavar='PAPER', help=PAPER_HELP)
    parser.add_argument('--json', action='store_true', help='points, loops, dependences and gaps, for programs')


def main(asked: argparse.Namespace) -> None:
    desk, text = loaded(asked.paper)
    paper = named_paper(desk, asked.paper, text)
    if asked.json:
        write_json(told(paper))
    else:
        write_out(listing_of(paper).encode())
