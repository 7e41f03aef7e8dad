"""Windows in one browser, and a desk that is away or hangs: whose page it is, and what did not arrive."""
import pathlib
import signal
import socket

from outside.hall.browser import Browser, until
from outside.hall.opened import Candidate, Hall
from outside.hall.pages import GAP, Page
from outside.trying import EXAMPLES, Tally

TEXT = 'return document.getElementById(arguments[0])?.textContent'
WORDS = 'return document.querySelector("main [role=alert]")?.textContent'
ANOTHER = ('This window was of another candidate. In this browser now sits: {}. What was asked for here since then was '
           'not done.').format
NOBODY = ('This window was of a candidate who has left this desk in another window. What was asked for here since then '
          'was not done.')
LEAVING = 'Leave this desk? You have not handed in. Your ticket opens the sitting again.'
BACK = 'The desk answers again. This is the sitting as the desk has it.'
LOST = 'Your hand-in did not arrive. Hand in again.'


def says(tally: Tally, seen: Browser, step: str, words: str) -> None:
    found = until(lambda: seen.script(WORDS), words)
    tally.check(step, found == words, found)


def acted(seen: Browser, *places: str) -> None:
    """Clicks in a window that was just brought to the front. It may have seen by itself that it is another's."""
    seen.script('for (const place of arguments[0]) { document.querySelector(place)?.click(); }', places)


def whose(tally: Tally, seen: Browser, folder: pathlib.Path) -> None:
    """Two candidates one after the other in one browser, with windows of the other left open, both ways round."""
    hall = Hall(folder / 'whose', EXAMPLES['p'], ['anna', 'bert']).start()
    anna, bert = (Page(tally, seen, hall, name) for name in hall.names)
    first = seen.window()
    anna.enter()
    anna.shows('nothing put')
    anna.turn(5)
    seen.new_window()
    seen.open(hall.address)
    anna.shows('in a second window')
    anna.leave(LEAVING)
    bert.enter()
    bert.shows('nothing put')
    bert.turn(11)
    seen.go_to(first)
    acted(seen, '#hand', '#yes')
    says(tally, seen, 'a hand-in on the page of another', ANOTHER('bert'))
    tally.check('nothing is handed in', not [*hall.answers.glob('*.hex')] and hall.moves('bert') == ['put 11'])
    seen.click('main a')
    bert.shows('the way back')
    others = []
    for _ in range(3):
        others.append(seen.new_window())
        seen.open(hall.address)
        bert.shows('in more windows')
    seen.go_to(first)
    bert.leave(LEAVING)
    anna.enter()
    anna.shows('as it was')
    for window, places in zip(others, ([GAP(3)], ['#back'], ['#leave button', '#go'])):
        seen.go_to(window)
        acted(seen, *places)
        says(tally, seen, f'{places[0]} on the page of another', ANOTHER('anna'))
    tally.check('nothing is made', [hall.moves(name) for name in hall.names] == [['put 5'], ['put 11']])
    left(tally, seen, anna, first)
    hall.end()


def left(tally: Tally, seen: Browser, anna: Page, first: str) -> None:
    """A window of somebody who has left in another asks for a ticket."""
    second = seen.window()
    seen.open(anna.hall.address)
    anna.shows('who sits is who entered last')
    seen.go_to(first)
    anna.leave(LEAVING)
    seen.go_to(second)
    acted(seen, GAP(3))
    says(tally, seen, 'nobody sits here', NOBODY)
    tally.check('nothing is made then', anna.hall.moves('anna') == ['put 5'])


def hangs(tally: Tally, seen: Browser, folder: pathlib.Path) -> None:
    """A desk that hangs: what is under way is shown, and what is clicked meanwhile is dropped."""
    hall = Hall(folder / 'hangs', EXAMPLES['p'], ['anna']).start()
    page = Page(tally, seen, hall, 'anna')
    page.enter()
    page.shows('nothing put')
    seen.double_click(GAP(4))
    page.desk.put(4)
    page.shows('a double click is one', 'A barrier stands in gap 4.')
    hall.process.send_signal(signal.SIGSTOP)
    seen.click(GAP(5))
    under = until(lambda: seen.script(TEXT, 'under'), 'Under way')
    tally.check('what is under way is shown', under == 'Under way', under)
    for place in (GAP(6), GAP(5), '#back', GAP(7), '#hand'):
        seen.click(place)
    hall.process.send_signal(signal.SIGCONT)
    page.desk.put(5)
    page.shows('the desk goes on', 'A barrier stands in gap 5.')
    tally.check('what was clicked meanwhile is dropped', hall.moves('anna') == ['put 4', 'put 5'], hall.moves('anna'))
    tally.check('nothing is under way', seen.script(TEXT, 'under') == '')
    tally.check('no question is asked', not seen.script('return document.getElementById("sure").open'))
    stays(tally, page)
    late(tally, page)
    hall.end()


def stays(tally: Tally, page: Page) -> None:
    """What was said stays when the window is looked at again, though what is shown is new."""
    elsewhere = Candidate(page.hall, page.name)
    elsewhere.move('put 9')
    page.desk.put(9)
    page.browser.script('document.dispatchEvent(new Event("visibilitychange"))')
    page.shows('looked at again', 'A barrier stands in gap 5.')
    page.turn(9)
    page.browser.click(GAP(1))
    page.desk.put(1)
    page.shows('put', 'A barrier stands in gap 1.')
    elsewhere.ask('/sitting')
    elsewhere.move('lift 1')
    page.browser.click(GAP(1))
    page.desk.lift(1)
    alert = 'return document.querySelector("header #refused[role=alert]").textContent'
    told = until(lambda: page.browser.script(alert)[:8], 'Not done')
    tally.check('a refusal is an alert', told == 'Not done', told)


def late(tally: Tally, page: Page) -> None:
    """A hand-in to a desk that hangs longer than the page waits: page and log then say the same."""
    seen, hall = page.browser, page.hall
    seen.click('#hand')
    hall.process.send_signal(signal.SIGSTOP)
    seen.click('#yes')
    told = until(lambda: seen.script(TEXT, 'refused')[:25], 'The desk does not answer.')
    tally.check('given up after a while', told == 'The desk does not answer.', told)
    hall.process.send_signal(signal.SIGCONT)
    until(lambda: bool(seen.script(TEXT, 'lost')) or seen.script(TEXT, 'said') == BACK, True)
    handed_in = 'hand in' in hall.moves('anna')
    page.handed_in = 'Handed in. ' * handed_in
    page.shows('the page says what the log says', BACK if handed_in else LOST)


def lost(tally: Tally, seen: Browser, folder: pathlib.Path) -> None:
    """A hand-in that did not arrive is told until one is answered; the desk is asked by one request at a time."""
    hall = Hall(folder / 'lost', EXAMPLES['p'], ['anna']).start()
    page = Page(tally, seen, hall, 'anna')
    page.enter()
    page.shows('nothing put')
    page.turn(5)
    hall.end()
    seen.click('#hand')
    seen.click('#yes')
    told = until(lambda: seen.script(TEXT, 'refused')[:25], 'The desk does not answer.')
    tally.check('the desk is away', told == 'The desk does not answer.', told)
    asked = requests_at(hall.port, seen)
    tally.check('one request at a time', asked == 1, asked)
    hall.start()
    page.shows('the desk is back', LOST)
    seen.click(GAP(6))
    page.desk.put(6)
    page.shows('it is still told', f'A barrier stands in gap 6.{LOST}')
    seen.click('#hand')
    seen.click('#yes')
    page.handed_in = 'Handed in. '
    page.shows('until it is answered', 'Handed in: barriers in gaps 5, 6.')
    hall.end()


def requests_at(port: int, seen: Browser) -> int:
    """How many requests come to a desk that takes them and says nothing, while gaps are clicked."""
    with socket.create_server(('127.0.0.1', port)) as listening:
        came = [listening.accept()[0]]
        for gap in (7, 8, 9):
            seen.click(GAP(gap))
        listening.settimeout(1)
        try:
            while True:
                came.append(listening.accept()[0])
        except TimeoutError:
            pass
        asked = sum(b'HTTP/1.1' in made.recv(1 << 16) for made in came)
        for made in came:
            made.close()
    return asked


def windows(tally: Tally, seen: Browser, folder: pathlib.Path) -> None:
    for some in (whose, hangs, lost):
        some(tally, seen, folder)
