"""How candidates come in: a ticket however it is typed, pages in words for what is refused, and what a page may tell
in an examination and for practice."""
import pathlib
import re

from outside.hall.browser import Browser, until
from outside.hall.opened import Candidate, Hall
from outside.hall.pages import Page
from outside.hall.refusing import raw, request
from outside.hall.windows import LEAVING, says
from outside.trying import EXAMPLES, Tally

NO_PAGE = 'There is no such page in this hall.'
NO_NAME = 'The hall is not called by this address. Use the address that was handed out.'
TOO_LONG = 'That is longer than anything the hall takes. Nothing was changed.'
TOLD = {'candidate', 'gaps', 'counts', 'moves', 'handed_in', 'state', 'said', 'question', 'leaving', 'uncut',
        'receipt', 'left', 'message'}


def typed(tally: Tally, seen: Browser, folder: pathlib.Path) -> None:
    """A ticket is taken however it is typed, and leaving asks first."""
    hall = Hall(folder / 'typed', EXAMPLES['p'], ['anna']).start()
    page = Page(tally, seen, hall, 'anna')
    ticket = hall.tickets['anna']
    for as_typed in (ticket, ticket.upper(), ticket.replace('-', ''), f'  {ticket} ', ticket.replace('-', ' '),
                     ticket.replace('-', '\u2013').upper()):
        page.enter(as_typed)
        page.shows(f'entered by "{as_typed}"')
        seen.click('#leave button')
        seen.click('#stay')
        page.shows('stays')
        page.leave(LEAVING)
    seen.open(hall.address)
    seen.script('document.getElementById("ticket").value = "a".repeat(2000)')
    seen.click('form button')
    says(tally, seen, 'a ticket that is too long', TOO_LONG)
    seen.click('main a')
    tally.check('the way back', until(lambda: seen.at('#ticket'), True))
    seen.open(f'{hall.address}nowhere')
    says(tally, seen, 'no such page', NO_PAGE)
    seen.click('main a')
    tally.check('the way back from nowhere', until(lambda: seen.at('#ticket'), True))
    hall.end()


def by_another_name(tally: Tally, seen: Browser, folder: pathlib.Path) -> None:
    """Who calls the hall by a name that is not its own is told so, and finds the way. Capitals do not matter."""
    hall = Hall(folder / 'named', EXAMPLES['p'], ['anna'], more=['--bind', '0.0.0.0', '--name', 'LocalHost']).start()
    tally.check('as browsers send it', hall.address == f'http://localhost:{hall.port}/', hall.address)
    seen.open(f'http://127.0.0.2:{hall.port}/')
    says(tally, seen, 'by another name', NO_NAME)
    seen.click('main a')
    tally.check('the way to the right one', until(lambda: (seen.address(), seen.at('#ticket')), (hall.address, True)))
    hall.end()


def told(tally: Tally, seen: Browser, folder: pathlib.Path) -> None:
    """In an examination neither page nor reply has which dependences are cut; for practice they do."""
    for practice in (False, True):
        hall = Hall(folder / f'told {practice}', EXAMPLES['p'], ['anna'], more=['--practice'] * practice).start()
        page = Page(tally, seen, hall, 'anna')
        page.enter()
        page.shows('nothing put')
        for gap in (5, 11):
            page.turn(gap)
        anna = Candidate(hall, 'anna')
        replies = [anna.ask('/sitting'), anna.move('put 3'), anna.move('put 3'), anna.move('take back'),
                   anna.ask('/move', 'put 1 at 0'), anna.ask('/hand-in', 'hand in at 0'), anna.hand_in(),
                   anna.move('put 1'), anna.ask('/sitting')]
        wanted = TOLD | {'cuts'} if practice else TOLD
        tally.check('what is told', all(reply.keys() == wanted for _, reply in replies), replies)
        counts = ['Dependences uncut: 0 of 6.' in reply['state'] for _, reply in replies]
        tally.check('how many is told', all(counts), replies)
        text = raw(hall.port, request(hall, 'GET', '/')).decode()
        traces = re.findall('class="[^"]*dots|[Uu]ncut|UNCUT|[Hh]ollow|class="[ic] u"', text)
        tally.check('what the page has', bool(traces) == practice, traces)
        page.leave(LEAVING)
        hall.end()


def entering(tally: Tally, seen: Browser, folder: pathlib.Path) -> None:
    for some in (typed, by_another_name, told):
        some(tally, seen, folder)
