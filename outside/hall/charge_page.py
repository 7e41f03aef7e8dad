"""The page of the person in charge, in Chromium, beside a candidate's in another browser."""
import pathlib

from outside.hall.browser import ENTER, Browser, Driver, until
from outside.hall.clocks import Timed
from outside.hall.opened import Candidate
from outside.hall.pages import Page, complaints
from outside.hall.timed import SEEN, shown
from outside.hall.windows import says
from outside.trying import EXAMPLES, Tally

NAME = 'מרים'
ROWS = """
return Object.fromEntries([...document.querySelectorAll('#candidates tr')].map((row) => [row.dataset.id,
    Object.fromEntries([...row.querySelectorAll('td[data-of]')].map((cell) => [cell.dataset.of, cell.textContent]))]));
"""
SAID = 'return ["said", "refused"].map((id) => document.getElementById(id)?.textContent).join("")'
DEAD = ('The ticket of this window opens nothing any more. Ask the person in charge for the new one. What was asked '
        'for here since then was not done.')


class ChargePage:
    """The page of the person in charge, as a person uses it."""

    def __init__(self, tally: Tally, seen: Browser, hall: Timed):
        self.tally, self.seen, self.hall = tally, seen, hall

    def enter(self, secret: str) -> None:
        self.seen.open(f'{self.hall.address}charge')
        until(lambda: self.seen.at('#secret'), True)
        self.seen.press(*secret, ENTER)

    def row(self, who: str, **wanted: str) -> None:
        """What a row shows, at last."""
        found = until(lambda: {of: self.seen.script(ROWS).get(who, {}).get(of) for of in wanted}, wanted)
        self.tally.check(f'the row of {who}', found == wanted, found)

    def fill(self, form: str, **given: str) -> None:
        for name, words in given.items():
            self.seen.script('document.querySelector(arguments[0]).value = arguments[1]',
                             f'#{form} input[name="{name}"]', words)

    def act(self, form: str, act: str, who: str, said: str, asks: bool = True, **given: str) -> str:
        """Chooses, fills in, clicks, says yes where that is asked; what is said must begin so."""
        if who:
            self.seen.click(f'input[name="who"][value="{who}"]')
        self.fill(form, **given)
        self.seen.click(f'#{form} button[value="{act}"]')
        if asks:
            self.seen.click('#yes')
        found = until(lambda: self.seen.script(SAID)[:len(said)], said)
        self.tally.check(f'{act}: what is said', found == said, self.seen.script(SAID))
        return self.seen.script(SAID)


def acted(tally: Tally, charge: ChargePage, page: Page) -> None:
    """A message, more time, a new ticket, a hand-in that is reopened: each is seen on both pages."""
    seen, hall = page.browser, page.hall
    charge.row('7', name=NAME, presence='present', machine='127.0.0.1', moves='1', ended='')
    charge.seen.click('input[name="who"][value="7"]')
    charge.seen.click('#tell input')
    charge.seen.press(*'Pens down soon', ENTER)
    until(lambda: charge.seen.script(SAID), '7 will read: Pens down soon')
    words = until(lambda: seen.script(SEEN.replace("'left'", "'message'"))['message'][8:],
                  ', from the person in charge: Pens down soon')
    tally.check('the message is read', words == ', from the person in charge: Pens down soon', words)
    charge.act('acts', 'extra', '-', 'All have 30 more minutes.', minutes='30')
    found = shown(seen, {'left': '1:29'})
    tally.check('there is more time', found == {'left': '1:29'}, found)
    told = charge.act('acts', 'ticket', '7', 'The new ticket of 7: ')
    says(tally, seen, 'the old ticket is dead', DEAD)
    page.enter(told.partition(': ')[2].partition('. ')[0])
    page.shows('the new ticket')
    charge.row('7', moves='1', presence='present')
    page.turn(11)
    seen.click('#hand')
    seen.click('#yes')
    page.handed_in = 'Handed in. '
    page.shows('handed in', 'Handed in: barriers in gaps 5, 11.')
    until(lambda: charge.seen.script(ROWS)['7']['ended'][:9], 'handed in')
    charge.act('acts', 'reopen', '7', '7 goes on.', minutes='')
    page.handed_in = ''
    page.shows('reopened', '')
    page.turn(11)


def in_charge(tally: Tally, driver: Driver, folder: pathlib.Path) -> None:
    hall = Timed(folder / 'charge', EXAMPLES['p'], ['7', 'bert'], more=['--minutes', '60'],
                 listed=f'id,name\n7,{NAME}\nbert,Bert\n').begin()
    charge, page = ChargePage(tally, Browser(driver), hall), Page(tally, Browser(driver), hall, '7', NAME)
    first = charge.seen.window()
    charge.enter(hall.tickets['7'])
    says(tally, charge.seen, 'a ticket is no secret', 'This is not the secret that the start of the hall has told.')
    charge.enter(hall.secret)
    charge.row('7', name=NAME, presence='not entered', machine='', moves='0', left='', ended='')
    page.enter()
    page.shows('nothing put')
    page.turn(5)
    acted(tally, charge, page)
    charge.seen.screen(1280, 1024, 4)
    fits = charge.seen.script('''return [document.documentElement.scrollWidth <= innerWidth, ...[...document
        .querySelectorAll('input:not([type=radio]), button, select')].filter((piece) => piece.checkVisibility()
        && piece.getBoundingClientRect().right > innerWidth).map((piece) => piece.name || piece.value)]''')
    tally.check('in charge at 400 percent', fits == [True], fits)
    charge.seen.screen(1200, 800, 1)
    charge.act('late', 'late', '', 'No candidate was added: 7 is there already.', asks=False, identity='7', name='')
    told = charge.act('late', 'late', '', 'carl is on the list. The ticket: ', asks=False, identity='carl',
                      name='Łukasz')
    charge.row('carl', name='Łukasz', presence='not entered')
    tally.check('the ticket', until(lambda: hall.tickets.get('carl'), told[-19:]) == told[-19:])
    tally.check('sits down', Candidate(hall, 'carl').enter() == 303)
    hall.end()
    until(lambda: charge.seen.script(SAID), 'The desk does not answer.')
    hall.start()
    until(lambda: charge.seen.at('#secret'), True)
    charge.enter(hall.secret)
    charge.row('7', moves='3', name=NAME)
    charge.act('end', 'close', '', 'The hall is closed. Collected: 2.')
    page.handed_in = 'Collected. '
    state = 'return document.getElementById("state")?.textContent.slice(0, 10)'
    found = until(lambda: page.browser.script(state), 'Collected.')
    tally.check('the candidate sees it', found == 'Collected.', found)
    charge.seen.new_window()
    charge.seen.open(f'file://{hall.answers}/tickets.html')
    whole = charge.seen.script('return [...document.querySelectorAll(".slip")].map((slip) => slip.innerText)')
    tally.check('tickets to print', charge.seen.sheets() == 1 and len(whole) == 3 and all(
        hall.address in slip and 'It is yours alone' in slip for slip in whole), whole)
    charge.seen.go_to(first)
    heads = charge.seen.script('return document.querySelectorAll("#candidates bdi").length')
    tally.check('names may run from right to left', heads == 3, heads)
    text = charge.seen.script('return document.body.textContent')
    tally.check('no placement', 'gap' not in text and 'uncut' not in text.lower(), text)
    tally.check('no complaint', complaints(charge.seen) == [] == complaints(page.browser) and hall.complaints() == '',
                [complaints(charge.seen), complaints(page.browser), hall.complaints()])
    hall.end()
