"""Views of papers: every view of papers of all kinds beside the gaps that the calls tell, and how large its page is.
The last line is 'N passed, M failed'."""
import gzip
import re
from html.parser import HTMLParser

from office.board import Board
from office.library import Desk
from office.markup import OfPaper
from office.paper import Paper, Placed, paper_on
from office.picture import PLATE
from office.sight import ROOM, WHOLE, WIDE_ROOM, Drawn, Layout, View
from outside.measure import papers
from outside.trying import EXAMPLES, ROOT, Tally

# The most of a page: bytes, bytes compressed, elements; of the whole paper, of a loop, and of P.
WHOLE_PAGE, LOOP_PAGE, SMALL_PAGE = (300_000, 45_000, 5_000), (300_000, 45_000, 5_000), (20_000, 6_000, 300)
# What most loops of a paper for people have room in.
USUAL_PAGE = 110_000, 20_000, 2_700


class Elements(HTMLParser):
    """Counts the elements of a page."""
    many = 0

    def handle_starttag(self, *_: object) -> None:
        self.many += 1


def paper_of(text: bytes) -> Paper:
    desk = Desk()
    desk.load(text)
    return paper_on(desk)


def every_paper() -> dict[str, Paper]:
    """Small papers, papers as they are set, and full-size papers of all kinds."""
    examples = {path.stem: path.read_bytes() for path in sorted((ROOT / 'examples').glob('*.hex'))}
    sizes = {f'mixed {n}': papers.text('mixed', n) for n in (20, 40, 80)}
    full = {kind: papers.text(kind) for kind in (*papers.KINDS, 'barred', *papers.FOUND)}
    return {name: paper_of(text) for name, text in {**examples, 'blank': b'', **sizes, **full}.items()}


def views_of(paper: Paper) -> list[View]:
    return [WHOLE, *(View(d, unfold) for d in paper.end for unfold in (False, True))]


def homes(tally: Tally, name: str, paper: Paper) -> None:
    """Each dependence has one home: one loop around all its gaps, that has one of them, and that carries it, if one
    does."""
    for number, x in enumerate(paper.dependences):
        home = paper.home[number]
        owners = {paper.owner[gap] for gap in x.gaps}
        around = all(home <= d and paper.end[d] <= paper.end[home] for d in owners)
        tally.check(f'{name}: home of {number}', home in owners and around and x.d in (None, home), (home, owners))


def bars(tally: Tally, name: str, layout: Layout) -> None:
    """Each dependence of a view is in one bar; a bar lies over just the gaps of each of its members that the view has;
    no two bars of a lane touch; blocks of loops lie beside those of the loops inside."""
    paper, view = layout.paper, layout.view
    wanted = [gap for gap, d in paper.owner.items() if view.loop is None or d == view.loop or
              view.unfold and view.loop < gap <= paper.end[view.loop]]
    at_home = [number for number, home in enumerate(paper.home) if view.loop in (None, home)]
    members = sorted(number for bar in layout.bars for number in bar.members)
    tally.check(f'{name}: gaps', layout.gaps == wanted, set(wanted).symmetric_difference(layout.gaps))
    tally.check(f'{name}: members', members == at_home == sorted(layout.shown), members)
    wrong, used = [], {}
    for bar in layout.bars:
        over = [gap for gap in wanted if any(layout.row_y(first) < layout.gap_y(gap) < layout.row_y(last)
                                             for first, last in bar.stretches)]
        gaps = [[gap for gap in paper.dependences[number].gaps if gap in set(wanted)] for number in bar.members]
        wrong += [bar.members] * any(own != over for own in gaps)
        rows = bar.turn or (bar.s, bar.t)
        used.setdefault(bar.lane, []).append(rows)
    tally.check(f'{name}: bars lie over their gaps', not wrong, wrong[:3])
    touching = [lane for lane, rows in used.items() for first, second in zip(sorted(rows), sorted(rows)[1:])
                if second[0] <= first[1]]
    tally.check(f'{name}: lanes', not touching and sorted(used) == list(range(layout.lanes)), touching)
    beside = all(layout.blocks[k][1] <= layout.blocks[d][0] for d in layout.blocks for k in layout.blocks
                 if d < k < paper.end[d])
    tally.check(f'{name}: blocks', beside, layout.blocks)
    fits = layout.drawn is Drawn.STRIPS or layout.takes(layout.step) <= layout.room or layout.step == 3
    tally.check(f'{name}: room', fits, (layout.drawn, layout.takes(layout.step)))


def drawn(tally: Tally, name: str, paper: Paper, view: View, practice: bool) -> None:
    """The pieces of the page: a button for each gap, each bar and each item once, and links to views that there are."""
    board = Board(paper, Placed([], dict.fromkeys(paper.end, 0), None), 'paper', practice, view)
    text, items = board.drawing(), board.told()
    buttons = [*map(int, re.findall(r'data-gap="(\d+)"', text))]
    tally.check(f'{name}: a button for each gap', buttons == board.gaps, buttons)
    tally.check(f'{name}: a place for each barrier', [*map(int, re.findall(r'data-barrier="(\d+)"', text))] == buttons)
    listed = [*map(int, re.findall(r'<li [^>]*data-d="(\d+)"', items))]
    tally.check(f'{name}: an item for each dependence', listed == board.shown, listed)
    members = [number for told in re.findall(r'data-bar="([\d ]+)"', text) for number in map(int, told.split())]
    numbered = board.drawn is not Drawn.STRIPS
    tally.check(f'{name}: bars', sorted(members) == board.shown * numbered, members)
    gaps = {int(d): [gap for run in told.split() for first, last in [map(int, run.split('-'))]
                     for gap in range(first, last + 1)]
            for d, told in re.findall(r'data-d="(\d+)" data-gaps="([\d -]*)"', items)}
    tally.check(f'{name}: gaps for the script', all(gaps[d] == paper.dependences[d].gaps for d in listed), gaps)
    loops = {*map(int, re.findall(r'href="/\?loop=(\d+)(?:&amp;unfold)?"', text + board.where() + board.loops_told()))}
    tally.check(f'{name}: links', loops <= set(paper.end), loops)
    told = re.findall('UNCUT|[Hh]ollow|class="dots"|class="[ic] u"', text + items + ' '.join(board.signs()))
    tally.check(f'{name}: nothing tells what is cut', practice or not told, told)
    plates = [tuple(map(float, place)) for place in re.findall(
        rf'<rect class="b" x="([\d.-]+)" y="([\d.-]+)" width="([\d.]+)" height="{PLATE}"', text)]
    over = sum(abs(y - other) < PLATE and x < far + wide and far < x + broad
               for k, (x, y, broad) in enumerate(plates) for far, other, wide in plates[:k])
    tally.check(f'{name}: numbers do not lie over each other', over * 20 <= len(plates), (over, len(plates)))


def sizes(tally: Tally, name: str, paper: Paper) -> None:
    """What a page is made of: bytes, and elements in the browser. Half of the loops' pages are small at least."""
    pages = OfPaper(paper, 'paper', True)
    small = []
    for view in [WHOLE, *(View(d) for d in paper.end)]:
        told = dict.fromkeys(('said', 'refused', 'message', 'left'), '')
        body = pages.page(view).substitute(candidate='anna', token='0' * 16, **told).encode()
        elements = Elements()
        elements.feed(body.decode())
        size = len(body), len(gzip.compress(body)), elements.many
        most = SMALL_PAGE if name == 'p' else WHOLE_PAGE if view == WHOLE else LOOP_PAGE
        most = (400_000, *most[1:]) if paper.barred else most  # each dependence names its barred gaps
        tally.check(f'{name}, {view}: size', all(one <= top for one, top in zip(size, most)), size)
        small += [all(one <= top for one, top in zip(size, USUAL_PAGE))] * (view != WHOLE)
    tally.check(f'{name}: most loops are small', 2 * sum(small) >= len(small) or len(paper.end) == 1, small)


def as_before(tally: Tally) -> None:
    """P is drawn with arrows, whole and loop by loop, in a lane each where they were."""
    layout = Layout(paper_of(EXAMPLES['p']), WHOLE, ROOM)
    lanes = {bar.members[0]: bar.lane for bar in layout.bars}
    tally.check('P as before', layout.drawn is Drawn.ARROWS and lanes == {0: 0, 1: 1, 2: 0, 3: 1, 4: 3, 5: 2}, lanes)


def main() -> None:
    tally = Tally()
    as_before(tally)
    for name, paper in every_paper().items():
        homes(tally, name, paper)
        for view in views_of(paper):
            for room in (ROOM, *[WIDE_ROOM] * (view == WHOLE)):
                bars(tally, f'{name}, {view}, {room}', Layout(paper, view, room))
            drawn(tally, f'{name}, {view}', paper, view, view.unfold)
        sizes(tally, name, paper)
    tally.close()


main()
