"""The sitting on its page, in Chromium: what a candidate does, and what is then seen, beside the library's sitting.

  python3 -m outside.hall.sitting                       the last line is 'N passed, M failed'
  python3 -m outside.hall.sitting --screenshots DIR     pictures of the page, for the documents

Needs the library's archive (rt lib in crates/host) and a browser, which is installed where that may be done. Without one
the page is not tried, which is told; where CI is true it is a failure. Where Firefox is there, a short sitting is tried
in it too.
"""
import csv
import os
import pathlib
import re
import shutil
import sys
import tempfile
import urllib.request

from outside.hall import browser, firefox
from outside.hall.boards import boards
from outside.hall.browser import DOWN, END, ENTER, ESCAPE, HOME, SHIFT, TAB, UP, Browser, Driver, until
from outside.hall.charge_page import in_charge
from outside.hall.encrypted import by_itself, in_front
from outside.hall.entering import entering
from outside.hall.opened import Candidate, Hall, until_there
from outside.hall.pages import GAP, SHOWN, Page, complaints
from outside.hall.readers import readers
from outside.hall.staying import staying
from outside.hall.timed import timed
from outside.hall.windows import windows
from outside.measure import papers
from outside.trying import DESK, EXAMPLES, ROOT, Tally, run

MANY = 66
BEHIND = 'Not done: the sitting was changed in another window, or by a click that came late. Look at it as it is now.'


def entered(tally: Tally, page: Page) -> None:
    """Without a ticket there is a form alone."""
    seen = page.browser
    page.enter('no-such-tick-et')
    told = until(lambda: seen.script('return document.querySelector("[role=alert]")?.textContent'),
                 'This ticket is not known here. Look whether it is typed as it was handed out.')
    tally.check('a ticket that is none', 'not known' in told and not seen.script(
        'return document.querySelector("[data-gap]")'), told)
    page.enter()
    page.shows('nothing put')
    tally.check('no cookie for scripts', seen.script('return document.cookie') == '')
    heard = seen.heard()
    tally.check('heard', heard.get('gap 6 of loop 1, before ENDDO loop 1, 2 dependences') == ('button', 'false'), heard)


def day(tally: Tally, page: Page) -> None:
    """Put, lift, take back, refused moves, reload; then another window of the same candidate."""
    page.take_back()
    for gap in (5, 11, 5, 13, 1):
        page.turn(gap)
    page.take_back()
    page.browser.open(page.hall.address)
    page.shows('opened again')
    page.take_back()
    page.turn(7)
    elsewhere = Candidate(page.hall, page.name)
    status, _ = elsewhere.move('put 3')
    tally.check('put in another window', status == 200)
    page.browser.click(GAP(3))
    page.desk.put(3)
    page.shows('a page that is behind', BEHIND)
    elsewhere.move('put 2')
    page.browser.click('#back')
    page.desk.put(2)
    page.shows('take back in a page that is behind', BEHIND)
    page.take_back()
    elsewhere.ask('/sitting')
    page.browser.click('#hand')
    elsewhere.move('put 4')
    page.desk.put(4)
    page.browser.click('#yes')
    page.shows('not what was asked about', 'Not handed in: the sitting was changed in another window. Look at it as it '
               'is now, and hand in again.')
    tally.check('nothing handed in', not [*page.hall.answers.glob('*.hex')])


def ring(page: Page) -> None:
    """More moves than can be taken back, made in another window."""
    elsewhere, there = Candidate(page.hall, page.name), set(page.desk.standing().gaps)
    for turn in range(MANY):
        gap = 1 + turn % 13
        _, told = elsewhere.move(f'lift {gap}' if gap in there else f'put {gap}')
        (page.desk.lift if gap in there else page.desk.put)(gap)
        there ^= {gap}
    page.browser.open(page.hall.address)
    page.shows(f'after {MANY} moves', told['said'])
    for _ in range(65):
        page.take_back()


def keyboard(tally: Tally, page: Page) -> None:
    """A sitting with no mouse, to the end."""
    seen = page.browser
    seen.open(page.hall.address)
    page.shows('by keyboard')
    for place in ('#back', '#hand', 'header form button', GAP(1)):
        seen.press(TAB)
        tally.check(f'Tab goes to {place}', seen.at(place))
    seen.press(DOWN, DOWN, DOWN, DOWN, DOWN, UP)
    page.turn(5, by=' ')
    seen.press(END, UP, UP)
    page.turn(11, by=ENTER)
    seen.press(HOME)
    page.turn(1, by=' ')
    seen.press(TAB, TAB, TAB, held=SHIFT)
    tally.check('back at Take back', seen.at('#back'))
    page.take_back(by=ENTER)
    seen.press(TAB, ENTER)
    told = 'Hand in barriers in gaps 5, 11? Barriers: 2. Dependences uncut: 0 of 6. Nothing can be changed afterwards.'
    tally.check('a question first', seen.script('return document.getElementById("question").textContent') == told)
    seen.press(ESCAPE)
    page.shows('not yet', 'The latest move is taken back.')
    tally.check('nothing handed in yet', not (page.hall.answers / f'{page.name}.hex').exists())
    seen.press(ENTER)
    tally.check('the safe answer first', seen.at('#no'))
    seen.press(TAB, ENTER)
    page.handed_in = 'Handed in. '
    page.shows('handed in', 'Handed in: barriers in gaps 5, 11.')
    tally.check('the keyboard is where it is told', until(lambda: seen.at('#state'), True))
    disabled = seen.script('return document.querySelectorAll("button[data-gap]:not([aria-disabled=true])").length')
    tally.check('no gap can be used', disabled == 0, disabled)
    file = page.hall.answers / f'{page.name}.hex'
    tally.check('the file', until_there(file.exists) and file.read_bytes() == page.desk.sitting())


def register(tally: Tally, hall: Hall, name: str) -> None:
    """From the click to the register."""
    file, answer = hall.folder / 'register.db', hall.folder / 'oezge.hex'
    shutil.copy(hall.answers / f'{name}.hex', answer)
    seen = run(DESK, 'mark', hall.folder / 'paper.hex', answer, '--register', file, '--new')
    _, row = csv.reader(run(DESK, 'register', file, '--csv').out.decode().splitlines())
    tally.check('the register', seen.status == 0 and row[:2] == ['oezge', 'Best'] and row[8] == 'yes', row)


def over(page: Page) -> None:
    """After the end nothing changes, and another candidate may sit down."""
    page.browser.click(GAP(2))
    page.shows('handed in before', 'You have handed in. Nothing can be changed any more.')
    sheets = page.browser.sheets()
    page.tally.check('printed on few sheets', 0 < sheets < 3, sheets)
    page.leave('Leave this desk? Your ticket opens the sitting again.')
    page.enter()
    page.shows('looked at again')


def away(tally: Tally, page: Page) -> None:
    """The desk is killed and started again while the page is open."""
    page.hall.end()
    page.browser.click(GAP(2))
    told = until(lambda: page.browser.script(SHOWN)['said'][:25], 'The desk does not answer.')
    tally.check('the desk is away', told == 'The desk does not answer.', told)
    page.hall.start()
    page.shows('the desk is back', 'Your click on gap 2 did not arrive. Click again.')
    for gap in (2, 2, 3):
        page.turn(gap)


def large(tally: Tally, seen: Browser, folder: pathlib.Path) -> None:
    """A full-size paper, also at 200 percent, where the whole page scrolls: every gap can be reached and clicked, and
    the page is no wider than its window."""
    hall = Hall(folder / 'large', papers.text('mixed'), ['gross']).start()
    page = Page(tally, seen, hall, 'gross')
    for zoom in (1, 2):
        seen.screen(1280, 800, zoom)
        page.enter() if zoom == 1 else seen.open(hall.address)
        page.shows(f'zoom {zoom}')
        missed = seen.script("""
            return [...document.querySelectorAll('button[data-gap]')].filter((button) => {
                button.scrollIntoView({ block: 'nearest', inline: 'nearest' });
                const at = button.getBoundingClientRect();
                const x = at.left + Math.min(at.width, 100) / 2;
                return document.elementFromPoint(x, at.top + at.height / 2) !== button;
            }).map((button) => button.dataset.gap);""")
        tally.check(f'zoom {zoom}: every gap can be clicked', missed == [], missed)
        fits = seen.script("""
            const page = document.documentElement, at = document.getElementById('hand').getBoundingClientRect();
            const main = document.querySelector('main');
            return [page.scrollWidth <= innerWidth, at.right <= innerWidth, page.scrollHeight <= innerHeight &&
                main.clientHeight > innerHeight / 2];""")
        tally.check(f'zoom {zoom}: the page fits its window', fits == [True, True, zoom == 1], fits)
        for gap in (1, 128, 255, 128):
            page.turn(gap)
    hall.end()


def barred(tally: Tally, seen: Browser, folder: pathlib.Path) -> None:
    """A barred gap says so and is refused."""
    hall = Hall(folder / 'barred', (ROOT / 'examples' / 'foundation.hex').read_bytes(), ['uta']).start()
    page = Page(tally, seen, hall, 'uta')
    page.enter()
    page.shows('nothing put')
    for gap in (1, 3, 4):
        page.turn(gap)
    heard = {name.rpartition(', ')[0]: told for name, told in seen.heard().items() if name.startswith('gap ')}
    tally.check('a barred gap is called so', heard.get('gap 1 of loop 0, before statement 1, barred') == (
        'button', 'false') and heard.get('gap 3 of loop 0, before statement 3') == ('button', 'true'), heard)
    hall.end()


def nothing_inline(tally: Tally, page: Page) -> None:
    """Neither script nor style stands in the page, and the browser did not complain."""
    asked = urllib.request.Request(page.hall.address, headers=page.hall.whose(page.name))
    with urllib.request.urlopen(asked) as reply:
        text = reply.read().decode()
    found = re.findall(r'<script(?! src="/(?:board|clock|sitting)\.js")|<style|\sstyle=|\son\w+=|javascript:|https?://',
                       text)
    tally.check('nothing inline, nothing from elsewhere', found == [], found)
    told = complaints(page.browser)
    tally.check('no complaint of the browser', told == [], told)


def two(tally: Tally, seen: list[Browser], folder: pathlib.Path) -> None:
    """A sitting of two candidates, each in a browser."""
    hall = Hall(folder / 'hall', EXAMPLES['p'], ['anna', 'oezge'], listed='id,name\nanna,anna\noezge,Özge K.\n',
                more=['--practice']).start()
    anna, other = (Page(tally, browser, hall, *names) for browser, names in zip(seen, (
        ['anna'], ['oezge', 'Özge K.'])))
    entered(tally, anna)
    day(tally, anna)
    ring(anna)
    other.enter()
    other.shows('nothing put')
    for gap in (3, 9):
        other.turn(gap)
        anna.turn(gap)
    other.take_back()
    anna.shows('beside another', 'A barrier stands in gap 9.')
    away(tally, other)
    keyboard(tally, other)
    register(tally, hall, other.name)
    over(other)
    nothing_inline(tally, anna)
    nothing_inline(tally, other)
    tally.check('the hall had nothing to complain about', hall.complaints() == '', hall.complaints())
    hall.end()


def few(paper: bytes) -> bytes:
    """A paper of 40 points with as many dependences as one that is set, 32."""
    return b''.join(paper.splitlines(keepends=True)[:72])


def screenshots(into: pathlib.Path, folder: pathlib.Path) -> None:
    """P with two barriers; a paper of 40 points for practice; of one of 256 a loop with two gaps compared."""
    driver = Driver()
    for name, paper, more, view, gaps, look in (
            ('sitting', EXAMPLES['p'], [], '', (5, 9), 9),
            ('sitting-40', few(papers.text('mixed', 40)), ['--practice'], '', (5, 22), 5),
            ('sitting-256', papers.text('mixed'), [], '?loop=113', (153, 131), 181)):
        hall = Hall(folder / name, paper, ['anna'], 'p.hex' if name == 'sitting' else 'paper.hex', more).start()
        page = Page(Tally(), Browser(driver), hall, 'anna')
        page.browser.screen(1366, 800, 1)
        page.enter()
        page.shows('nothing put')
        for gap in gaps:
            page.turn(gap)
        page.browser.open(f'{hall.address}{view}#g{gaps[0]}')
        until(lambda: page.browser.at(GAP(gaps[0])), True)
        if view:
            page.browser.press('c')
        page.browser.point(700, 20)
        page.browser.script('document.querySelector(arguments[0]).focus()', GAP(look))
        page.browser.script('document.querySelector("main").scrollTo(0, 0)')
        (into / f'{name}.png').write_bytes(page.browser.picture())
        hall.end()
    driver.close()


def main() -> None:
    tally = Tally()
    if not browser.there():
        print(f'the page was not tried: no Chromium is here, nor could it be installed ({" ".join(browser.PACKAGES)})')
        tally.check('a browser where CI is true', os.environ.get('CI') != 'true')
        tally.close()
    with tempfile.TemporaryDirectory() as name:
        folder = pathlib.Path(name)
        if sys.argv[1:2] == ['--screenshots']:
            screenshots(pathlib.Path(sys.argv[2]), folder)
            return
        driver = Driver()
        seen = [Browser(driver), Browser(driver)]
        two(tally, seen, folder)
        barred(tally, seen[0], folder)
        large(tally, seen[0], folder)
        for part in (boards, windows, entering, readers, timed, staying):
            part(tally, Browser(driver), folder)
        in_charge(tally, driver, folder)
        by_itself(tally, driver, folder)
        in_front(tally, driver, folder)
        driver.close()
        if firefox.there():
            firefox.sat(tally, folder)
        else:
            print('Firefox is not here, and the page was not tried in it')
    tally.close()


if __name__ == '__main__':
    main()
