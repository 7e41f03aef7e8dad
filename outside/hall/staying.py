"""Messages that stay: what was said is on the page of every view, until the next move; what a screen reader has called
out once, it does not call out again because another view is shown."""
import pathlib

from outside.hall.browser import Browser, until
from outside.hall.charged import Person
from outside.hall.clocks import Timed
from outside.hall.opened import Candidate
from outside.hall.pages import GAP, Page
from outside.hall.timed import FIVE, ONE
from outside.trying import EXAMPLES, Tally

# Whatever comes into an alert of a page, from its first piece on.
LISTENS = """
window.called = [];
new MutationObserver((changes) => {
    for (const { target } of changes) {
        const alert = (target.closest ? target : target.parentElement)?.closest('[role="alert"]');
        if (alert?.textContent) {
            window.called.push(alert.textContent);
        }
    }
}).observe(document, { childList: true, characterData: true, subtree: true });
"""
STANDS = """return ['read', 'message', 'known', 'warned'].filter((id) => document.getElementById(id).getClientRects(
    ).length).map((id) => document.getElementById(id).textContent).filter(Boolean)"""
NO_MOVE = 'No move is left to take back. The latest 64 can be, one after the other.'
PENS = ', from the person in charge: Pens down soon'


class Heard:
    """A candidate's page, and what is called out on it."""

    def __init__(self, tally: Tally, page: Page):
        self.tally, self.page, self.seen = tally, page, page.browser
        self.seen.ask('/goog/cdp/execute', cmd='Page.addScriptToEvaluateOnNewDocument', params={'source': LISTENS})

    def called(self, step: str, *wanted: str) -> None:
        """What was called out since the page is there."""
        found = until(lambda: self.words('return window.called'), [*wanted])
        self.tally.check(f'{step}: called out', found == [*wanted], found)

    def words(self, script: str) -> list[str]:
        """What a script finds, without the time of day of a message."""
        return [words[8:] if PENS in words else words for words in self.seen.script(script)]

    def goes(self, view: str, *stand: str) -> None:
        """Another view has what was said, and what else stands; nothing of it is called out."""
        self.seen.open(f'{self.page.hall.address}{view}')
        self.page.shows(f'in view "{view}"') if not view else until(
            lambda: self.seen.script('return document.getElementById("state").textContent') != '', True)
        said = self.seen.script('return document.getElementById("before").textContent')
        self.tally.check(f'in view "{view}": what was said', said == self.page.said, said)
        found = until(lambda: self.words(STANDS), [*stand])
        self.tally.check(f'in view "{view}": what stands', found == [*stand], found)
        self.called(f'view "{view}"')


def words(heard: Heard) -> None:
    """Put, refused, put in another window, handed in: each stays in all views, a refusal as one."""
    page, seen = heard.page, heard.seen
    heard.goes('?loop=1')
    page.browser.open(page.hall.address)
    page.take_back()
    heard.called('nothing to take back', NO_MOVE)
    for view in ('?loop=1', '?loop=0&unfold', ''):
        heard.goes(view)
        look = seen.script('return getComputedStyle(document.getElementById("before")).fontWeight')
        heard.tally.check('a refusal looks like one', look == '700', look)
    page.turn(5)
    heard.called('put')
    for view in ('?loop=1', '?loop=7', ''):
        heard.goes(view)
        heard.tally.check('heard where it stands', page.said in seen.heard(), view)
    _, told = Candidate(page.hall, page.name).move('put 9')
    page.desk.put(9)
    page.said = told['said']
    heard.goes('?loop=7')
    heard.goes('')


def running(heard: Heard) -> None:
    """A message and a warning are called out once: on the page that is there, or on the next if it came between."""
    page, hall = heard.page, heard.page.hall
    charge = Person(hall)
    charge.act('message', page.name, text='Pens down soon')
    heard.called('a message', PENS)
    heard.goes('?loop=1', PENS)
    hall.later(56)
    heard.called('a warning', FIVE)
    heard.goes('', PENS, FIVE)
    hall.later(59.5)
    heard.called('another', ONE)
    heard.goes('?loop=7', PENS, ONE)
    heard.seen.open('about:blank')
    charge.act('message', page.name, text='Pens down soon')
    heard.seen.open(hall.address)
    heard.called('one that came between', PENS)


def ended(heard: Heard) -> None:
    """Handed in is told in every view, and no longer when it is reopened."""
    page, seen = heard.page, heard.seen
    seen.click('#hand')
    seen.click('#yes')
    page.handed_in = 'Handed in. '
    page.shows('handed in', 'Handed in: barriers in gaps 5, 9.')
    for view in ('?loop=1', ''):
        heard.goes(view)
    Person(page.hall).act('reopen', page.name, minutes='')
    page.handed_in = ''
    page.said = ''
    heard.goes('?loop=1')
    heard.goes('')
    seen.click(GAP(9))
    page.desk.lift(9)
    page.shows('and goes on', 'The barrier in gap 9 is lifted.')


def staying(tally: Tally, seen: Browser, folder: pathlib.Path) -> None:
    hall = Timed(folder / 'spoken', EXAMPLES['p'], ['anna'], more=['--minutes', '60']).begin()
    heard = Heard(tally, Page(tally, seen, hall, 'anna'))
    heard.page.enter()
    heard.page.shows('nothing put')
    for some in (words, ended, running):
        some(heard)
    hall.end()
