"""The clock and the receipt on a candidate's page: the time left, warnings in words, what is shown when it is over."""
import pathlib
import re

from outside.hall.browser import Browser, until
from outside.hall.clocks import OVER, Timed
from outside.hall.opened import until_there
from outside.hall.pages import GAP, Page, complaints
from outside.trying import DESK, EXAMPLES, Tally, run

SEEN = """
const words = (id) => document.getElementById(id).getClientRects().length ?
    document.getElementById(id).textContent : '';
return Object.fromEntries(['left', 'warned', 'changed', 'receipt', 'print'].map((id) => [id, words(id)]));
"""
FIVE = 'Less than five minutes are left. Then what stands here is collected.'
ONE = 'Less than one minute is left. Then what stands here is collected.'
RECEIPT = re.compile(r'(Collected|Handed in) \d{4}-\d\d-\d\d \d\d:\d\d:\d\d \(UTC[+-]\d\d:\d\d\): (.*)\. Receipt '
                     r'((?:[0-9a-f]{4}-){3}[0-9a-f]{4})\.')


def shown(seen: Browser, wanted: dict[str, str]) -> dict[str, str]:
    """What of the clock is seen; the time left without its seconds."""
    def now() -> dict[str, str]:
        found = seen.script(SEEN)
        return {key: found[key].rpartition(':')[0] if key == 'left' else found[key] for key in wanted}
    return until(now, wanted)


def runs_out(tally: Tally, seen: Browser, folder: pathlib.Path) -> None:
    """The time goes by, on a page on which nothing is clicked; at the end it shows what was collected."""
    hall = Timed(folder / 'runs out', EXAMPLES['p'], ['anna'], more=['--minutes', '90']).begin()
    page = Page(tally, seen, hall, 'anna')
    page.enter()
    page.shows('nothing put')
    found = shown(seen, {'left': '1:29', 'warned': '', 'receipt': ''})
    tally.check('the time left, counted down', found == {'left': '1:29', 'warned': '', 'receipt': ''}, found)
    page.turn(5)
    for passed, left, words in ((84.4, '5', ''), (85.2, '4', FIVE), (89.2, '0', ONE)):
        hall.later(passed)
        found = shown(seen, {'left': left, 'warned': words})
        tally.check(f'after {passed} minutes', found == {'left': left, 'warned': words}, found)
    role = seen.script('return document.getElementById("warned").role')
    tally.check('heard', ONE in seen.heard() and role == 'alert', role)
    hall.later(90)
    page.handed_in = 'Collected. '
    page.shows('collected without a click', 'A barrier stands in gap 5.')
    page.browser.click(GAP(2))
    page.shows('nothing is taken', OVER)
    receipt(tally, page, 'Collected', 'a barrier in gap 5')
    tally.check('nobody complains', complaints(seen) == [] and hall.complaints() == '', hall.complaints())
    hall.end()


def receipt(tally: Tally, page: Page, how: str, what: str) -> None:
    """The receipt is there, also when the page is loaded again, fits on one sheet, and its code is found."""
    seen = page.browser
    for _ in range(2):
        words = until(lambda: bool(RECEIPT.fullmatch(seen.script(SEEN)['receipt'])), True) and RECEIPT.fullmatch(
            seen.script(SEEN)['receipt'])
        tally.check('the receipt', bool(words) and words.group(1, 2) == (how, what), seen.script(SEEN))
        seen.open(page.hall.address)
        page.shows('loaded again')
    seen.click('#print')
    until(lambda: seen.script('return document.title')[:7], 'Receipt')
    text = seen.script('return document.body.textContent')
    tally.check('on paper', all(word in text for word in (page.called, what, words[3], 'SHA-256')), text)
    tally.check('on one sheet', seen.sheets() == 1, seen.sheets())
    found = run(DESK, 'story', page.hall.answers, '--code', words[3])
    verb = 'collected' if how == 'Collected' else 'hands in'
    tally.check('the code is found', found.status == 0 and all(
        word.encode() in found.out for word in (verb, what)), found)
    seen.click('.back a')
    page.shows('the way back')


def handed_in(tally: Tally, seen: Browser, folder: pathlib.Path) -> None:
    """Who hands in has a receipt, with a clock or without."""
    hall = Timed(folder / 'handed in', EXAMPLES['p'], ['anna'], listed='id,name\nanna,مُحَمَّد\n').begin()
    page = Page(tally, seen, hall, 'anna', 'مُحَمَّد')
    page.enter()
    page.shows('nothing put')
    tally.check('no clock', shown(seen, {'left': '', 'print': ''}) == {'left': '', 'print': ''})
    for gap in (5, 11):
        page.turn(gap)
    seen.click('#hand')
    seen.click('#yes')
    page.handed_in = 'Handed in. '
    page.shows('handed in', 'Handed in: barriers in gaps 5, 11.')
    receipt(tally, page, 'Handed in', 'barriers in gaps 5, 11')
    tally.check('the file', until_there((hall.answers / 'anna.hex').exists))
    hall.end()


def timed(tally: Tally, seen: Browser, folder: pathlib.Path) -> None:
    for some in (runs_out, handed_in):
        some(tally, seen, folder)
