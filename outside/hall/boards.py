"""The board in Chromium, by real keys and a real mouse: views, what is lit, gaps compared, ways through the paper, in
an examination and for practice. What is seen is held against the gaps that the calls tell."""
import hashlib
import pathlib

from outside.hall.browser import DOWN, END, ENTER, ESCAPE, HOME, LEFT, PAGE_DOWN, PAGE_UP, RIGHT, UP, Browser, until
from outside.hall.opened import Candidate, Hall
from outside.hall.pages import GAP, Page, complaints
from outside.measure import papers
from outside.trying import EXAMPLES, Tally

LIT = """
const all = (selector) => [...document.querySelectorAll(selector)];
const seen = (piece) => piece.getClientRects().length > 0;
return {
    words: document.getElementById('lit').textContent,
    told: document.getElementById('told').textContent,
    items: all('#dependences li').filter(seen).map((item) => Number(item.dataset.d)),
    bars: all('[data-bar].hit').flatMap((bar) => bar.dataset.bar.split(' ').map(Number)),
    of: all('.gap.of').map((gap) => Number(gap.dataset.barrier)),
    bands: all('.lanes .band').map((band) => Number(band.getAttribute('y')) > -99),
    at: document.activeElement.dataset.gap ?? document.activeElement.id,
    address: location.pathname + location.search + location.hash,
    link: document.getElementById('in').hidden ? '' : document.getElementById('in').textContent,
    found: document.getElementById('found').textContent,
};
"""
MANY = {1: 'dependence has'}


class Looking:
    """A page, and what is lit on it."""

    def __init__(self, tally: Tally, page: Page):
        self.tally, self.page, self.seen, self.paper = tally, page, page.browser, page.paper

    def lit(self, step: str, **wanted: object) -> None:
        """What is lit becomes what is wanted."""
        def those() -> dict[str, object]:
            found = self.seen.script(LIT)
            return {key: found[key] for key in wanted}
        found = until(those, wanted)
        differ = {key: (found[key], wanted[key]) for key in wanted if found[key] != wanted[key]}
        self.tally.check(f'{self.page.name}, {step}', not differ, differ)

    def gap_lit(self, step: str, gap: int, loop: int | None = None) -> None:
        """A gap is lit with the dependences that have it, in a view of a loop with those at home there."""
        every = self.paper.having[gap]
        here = [number for number in every if loop in (None, self.paper.home[number])]
        if loop is None:
            words = f'Gap {gap}: {len(here)} {MANY.get(len(here), "dependences have")} it.'
        else:
            words = f'Gap {gap}: {len(here)} at home here, {len(every) - len(here)} of other loops.'
        self.lit(step, words=words, told=f'Dependences of gap {gap}: {len(here)}', items=here,
                 bands=[True, False])

    def middle(self, selector: str) -> tuple[float, float]:
        """The middle of an element in the window."""
        return tuple(self.seen.script("""const box = document.querySelector(arguments[0]).getBoundingClientRect();
            return [box.left + box.width / 2, box.top + box.height / 2];""", selector))

    def open(self, path: str) -> None:
        self.seen.open(self.page.hall.address.rstrip('/') + path)
        until(lambda: self.seen.script('return document.getElementById("state")?.textContent') != '', True)


def small(tally: Tally, seen: Browser, folder: pathlib.Path) -> None:
    """P, whole, by mouse: gaps and dependences light each other, two gaps are compared; nothing is put by looking."""
    hall = Hall(folder / 'looked', EXAMPLES['p'], ['anna']).start()
    page = Page(tally, seen, hall, 'anna')
    page.enter()
    page.shows('nothing put')
    on, every = Looking(tally, page), [*range(6)]
    on.lit('nothing lit', words='', told='Dependences: 6', items=every, bars=[], bands=[False, False])
    for gap in (5, 11, 13):
        seen.point(*on.middle(GAP(gap)))
        on.gap_lit(f'the mouse at gap {gap}', gap)
        on.lit(f'bars at gap {gap}', bars=page.paper.having[gap], at='')
    seen.point(5, 5)
    on.lit('the mouse goes away', words='', items=every)
    seen.point(*on.middle('#dependences li:nth-child(5)'))
    on.lit('the mouse at an item', of=page.paper.dependences[4].gaps, bars=[4])
    seen.point(*on.middle('#dependences li:nth-child(5)'), click=True)
    seen.point(5, 5)
    told = f'Dependence 4: {page.paper.told(page.paper.dependences[4])}'
    on.lit('a dependence is held', words=told, told='Dependence 4', items=[4], of=page.paper.dependences[4].gaps,
           link='In loop 0')
    lanes, row = seen.script('return document.querySelector(".lanes").getBoundingClientRect().left'), on.middle(GAP(7))
    line = seen.script('return Number(document.querySelector("[data-bar=\'5\']").dataset.x)')
    seen.point(lanes + line, row[1], click=True)
    seen.point(5, 5)
    on.lit('a click on a bar holds it', told='Dependence 5', items=[5], of=page.paper.dependences[5].gaps)
    seen.point(lanes + 71, on.middle(GAP(2))[1], click=True)
    seen.point(*on.middle(GAP(11)))
    both = 'Gap 11: 3. Gap 2: 2. Both: 1. Only 11: 2. Only 2: 1.'
    on.lit('two gaps compared', words=both, told='Dependences of gaps 2 and 11: 4', items=[1, 2, 3, 4],
           bands=[True, True])
    page.shows('nothing was put by looking')
    hall.end()


def keys(tally: Tally, seen: Browser, folder: pathlib.Path, practice: bool) -> None:
    """A full-size paper by keyboard: from gap to gap and loop to loop, views, and the ways between them."""
    hall = Hall(folder / f'keys {practice}', papers.text('mixed'), ['gert'], more=['--practice'] * practice).start()
    page = Page(tally, seen, hall, 'gert')
    page.enter()
    page.shows('nothing put')
    on, paper = Looking(tally, page), page.paper
    seen.script('document.querySelector("button[data-gap]").focus()')
    for key, gap in ((DOWN, 2), (DOWN, 3), (UP, 2), (PAGE_DOWN, 12), (PAGE_UP, 2), (END, 255), (HOME, 1)):
        seen.press(key)
        on.lit(f'a key to gap {gap}', at=str(gap))
        on.gap_lit(f'lit at gap {gap}', gap)
    seen.press(*[PAGE_DOWN] * 14)
    on.lit('far down', at='141')
    outer = max(gap for gap in range(1, 141) if paper.owner[gap] < paper.owner[141])
    seen.press(LEFT)
    on.lit('out to the loop around', at=str(outer))
    inner = min(gap for gap in range(outer + 1, 256) if paper.owner[gap] > paper.owner[outer])
    seen.press(RIGHT)
    on.lit('into the next loop', at=str(inner))
    seen.press('d')
    on.lit('D', at='told')
    seen.script(f'document.querySelector("[data-gap=\'{inner}\']").focus()')
    loop = paper.owner[inner]
    seen.press('l')
    on.lit('L', address=f'/?loop={loop}#g{inner}', at=str(inner))
    on.gap_lit('what was lit goes along', inner, loop)
    seen.press('w')
    on.lit('W', address=f'/#g{inner}', at=str(inner))
    seen.press('/')
    on.lit('/', at='place')
    seen.press(*'dep 317', ENTER)
    told = f'Dependence 317: {paper.told(paper.dependences[317])}{"; UNCUT" * practice}'
    on.lit('go to a dependence', words=told, items=[317], of=paper.dependences[317].gaps,
           link=f'In loop {paper.home[317]}')
    seen.click('#in')
    on.lit('in its loop', address=f'/?loop={paper.home[317]}#d317', told='Dependence 317', link='')
    wrong(on)
    one_loop(tally, on, practice)
    hall.end()


def wrong(on: Looking) -> None:
    """What is not there is told; what is in another view is found there."""
    for words, told in (('gap 300', 'There is no gap 300 in this paper.'), ('x', 'Write gap 5, dep 2 or loop 1.'),
                        ('loop 1', 'There is no loop 1 in this paper.'),
                        ('dep 600', 'There is no dependence 600 in this paper.')):
        on.open('/?loop=0')
        on.seen.click('#place')
        on.seen.press(*words, ENTER)
        on.lit(f'go to {words}', found=told)
    for words, address in (('loop 113', '/?loop=113'), ('140', '/#g140'),
                           ('d 0', f'/?loop={on.paper.home[0]}#d0')):
        on.open('/?loop=18')
        on.seen.click('#place')
        on.seen.press(*words, ENTER)
        on.lit(f'go to {words}', address=address)
    on.seen.back()
    on.lit('Back', address='/?loop=18')


def one_loop(tally: Tally, on: Looking, practice: bool) -> None:
    """Loop 113, folded: its own gaps alone; what is put inside a fold is counted, gaps are compared."""
    page, seen, paper = on.page, on.seen, on.paper
    on.open('/?loop=113')
    own = [gap for gap, d in paper.owner.items() if d == 113]
    here = seen.script('return [...document.querySelectorAll("[data-gap]")].map((gap) => Number(gap.dataset.gap))')
    tally.check('the gaps of the loop', here == own, here)
    seen.script(f'document.querySelector("[data-gap=\'{own[-4]}\']").focus()')
    seen.press('c')
    seen.press(DOWN, DOWN, DOWN)
    first, second = ([number for number in paper.having[gap] if paper.home[number] == 113]
                     for gap in (own[-1], own[-4]))
    both = len(set(first).intersection(second))
    on.lit('compared by keys', words=f'Gap {own[-1]}: {len(first)}. Gap {own[-4]}: {len(second)}. Both: {both}. '
           f'Only {own[-1]}: {len(first) - both}. Only {own[-4]}: {len(second) - both}.',
           items=sorted({*first, *second}), bands=[True, True])
    seen.press(ESCAPE)
    on.gap_lit('Escape ends the comparing', own[-1], 113)
    seen.press(ESCAPE)
    on.lit('Escape again', words='', bands=[False, False])
    elsewhere = Candidate(page.hall, page.name)
    elsewhere.ask('/sitting')
    for move in ('put 138', 'put 139', 'put 153'):
        elsewhere.move(move)
    on.open('/?loop=113')
    until(lambda: seen.script('return document.querySelectorAll(".filled").length'), 1)
    counted = seen.script('return document.querySelector("[data-inside=\'136\']").textContent')
    tally.check('barriers inside a fold are counted', counted == '2 inside', counted)
    uncut = seen.script('return document.querySelectorAll(".lanes .u, #dependences .u, .dots[d]").length')
    tally.check('what is cut is shown for practice alone', bool(uncut) == practice, uncut)
    seen.script(f'document.querySelector("[data-gap=\'{own[0]}\']").focus()')
    seen.press('u')
    there = {138, 139, 153}
    open_ = [number for number in paper.at_home[113] if not there.intersection(paper.dependences[number].gaps)]
    if practice:
        on.lit('U', told=f'Dependence {open_[0]}', items=[open_[0]])
        seen.click('#only')
        seen.script('document.activeElement.blur()')
    else:
        on.gap_lit('U does nothing', own[0], 113)
    told = complaints(seen)
    tally.check('the browser does not complain', told == [], told)


def narrow(tally: Tally, seen: Browser, folder: pathlib.Path) -> None:
    """A phone: one column, nothing wider than the window, the line with the count stays, the list is below."""
    hall = Hall(folder / 'narrow', papers.text('mixed', 40), ['pia']).start()
    page = Page(tally, seen, hall, 'pia')
    seen.screen(390, 844, 1)
    page.enter()
    page.shows('on a phone')
    page.turn(5)
    fits = seen.script("""scrollTo(0, 600);
        const line = document.querySelector('.where').getBoundingClientRect();
        return [document.documentElement.scrollWidth <= innerWidth, Math.round(line.top), line.height < 60,
            document.getElementById('brief').textContent,
            document.querySelector('aside').getBoundingClientRect().top > innerHeight];""")
    uncut = page.desk.standing().uncut
    tally.check('on a phone', fits == [True, 0, True, f'{uncut} uncut', True], fits)
    seen.script('scrollTo(0, 0)')
    seen.click('.narrow')
    tally.check('to the dependences', until(lambda: seen.script(
        'return document.getElementById("told").getBoundingClientRect().top < innerHeight'), True))
    seen.screen(1280, 800, 1)
    hall.end()


def printed(tally: Tally, seen: Browser, folder: pathlib.Path) -> None:
    """The paper for print: whole if a sheet has room for it, else a figure for each loop where a dependence is at home,
    from the inside out. No type is under 7 points, and nothing is told of what is cut."""
    for name, paper in (('p', EXAMPLES['p']), ('large', papers.text('mixed', 80))):
        hall = Hall(folder / f'printed {name}', paper, ['anna'], more=['--practice']).start()
        page = Page(tally, seen, hall, 'anna')
        page.enter()
        page.shows('nothing put')
        seen.click('a[href="/print"]')
        until(lambda: seen.script('return document.querySelectorAll("section").length > 0'), True)
        found = seen.script("""
            const sizes = [...document.querySelectorAll('svg text')].map((text) => parseFloat(getComputedStyle(
                text).fontSize));
            return [[...document.querySelectorAll('svg title')].map((title) => title.textContent), Math.min(...sizes),
                Math.max(...[...document.querySelectorAll('svg')].map((svg) => svg.width.baseVal.value)),
                document.querySelectorAll('.u, .dots').length, document.body.textContent.includes('UNCUT')];""")
        loops = sorted((d for d, mine in page.paper.at_home.items() if mine),
                       key=lambda d: (-page.paper.depth[d], d))
        figures = [''] if name == 'p' else [f', loop {d}' for d in loops]
        titles = [f'paper{loop}, barriers none' for loop in figures]
        tally.check(f'{name} to print', found == [titles, 11, found[2], 0, False] and found[2] <= 800, found)
        sheets = seen.sheets()
        tally.check(f'{name}: sheets', sheets <= len(figures), (sheets, len(figures)))
        told = complaints(seen)
        tally.check(f'{name}: the browser does not complain', told == [], told)
        hall.end()


def named(tally: Tally, seen: Browser, folder: pathlib.Path) -> None:
    """Names that lie beside the paper are on the page, in the drawing and for a screen reader."""
    hall = Hall(folder / 'named', EXAMPLES['p'], ['anna'])
    bound = hashlib.sha256(EXAMPLES['p']).hexdigest()
    names = f'sha256 {bound}\n0 sweep\n2 update\n5 copy\n'
    (hall.folder / 'paper.names').write_text(names)
    page = Page(tally, seen, hall.start(), 'anna')
    page.enter()
    page.shows('with names')
    heard = seen.heard()
    wanted = ('gap 2 of loop 1, before update, 2 dependences', 'gap 5 of loop 1, before copy, 3 dependences')
    tally.check('names are heard', all(heard.get(gap) == ('button', 'false') for gap in wanted), heard)
    item = seen.script('return document.querySelector("#dependences li").textContent')
    tally.check('names in words', item == '0 independent, update 2 to copy 5: gaps 3 to 5', item)
    tally.check('names for the register', (hall.answers / 'paper.names').read_text() == names)
    hall.end()


def boards(tally: Tally, seen: Browser, folder: pathlib.Path) -> None:
    seen.screen(1366, 768, 1)
    small(tally, seen, folder)
    for practice in (False, True):
        keys(tally, seen, folder, practice)
    narrow(tally, seen, folder)
    printed(tally, seen, folder)
    named(tally, seen, folder)
