"""A candidate's page in a browser: what is done on it, and what it shows beside the library's sitting."""
import contextlib

from office.library import Desk
from office.paper import paper_on
from office.refusal import Refused
from outside.hall.browser import ENTER, Browser, until
from outside.hall.opened import Hall
from outside.trying import Tally

# What a person sees: barriers and empty gaps, buttons that are pressed, hollow numbers, words and counts.
SHOWN = """
const all = (selector) => [...document.querySelectorAll(selector)];
const style = (place, selector) => getComputedStyle(place.querySelector(selector));
const places = all('[data-barrier]');
const number = (place) => Number(Object.values(place.dataset)[0]);
return {
    bars: places.filter((place) => style(place, 'path').strokeWidth === '5px').map(number),
    empty: places.filter((place) => style(place, 'path').strokeDasharray !== 'none').map(number),
    pressed: all('button[data-gap][aria-pressed="true"]').map(number),
    numbers: all('[data-number]').map((place) => place.dataset.number),
    hollow: all('[data-number]').filter((place) => style(place, '.b').fill ===
        getComputedStyle(document.body).backgroundColor).map((place) => place.dataset.number),
    dots: Boolean(document.querySelector('.dots')?.getAttribute('d')),
    words: all('#dependences li').map((item) => item.childNodes[2]?.data).filter(Boolean),
    counts: all('[data-count]').map((place) => [number(place), place.textContent]),
    tree: all('[data-tree]').map((place) => place.textContent),
    state: document.getElementById('state')?.textContent,
    said: ['before', 'said', 'refused', 'lost'].map((id) => document.getElementById(id)?.textContent).join(''),
    who: document.getElementById('candidate')?.textContent,
};
"""
GAP = 'button[data-gap="{}"]'.format


def complaints(seen: Browser) -> list[str]:
    """What the browser has to complain about, but for replies that say no, and a desk that is away."""
    return [line for line in seen.complaints() if not any(word in line for word in (
        'status of 403', 'status of 409', 'status of 410', 'ERR_CONNECTION'))]


class Page:
    """A candidate's page, and beside it a desk of the library on which the same moves are made."""

    def __init__(self, tally: Tally, browser: Browser, hall: Hall, name: str, called: str = ''):
        self.tally, self.hall, self.name, self.called = tally, hall, name, called or name
        self.practice = '--practice' in hall.more
        self.browser, self.desk, self.handed_in, self.said = browser, Desk(), '', ''
        self.desk.load(hall.paper)
        self.paper = paper_on(self.desk)

    def enter(self, ticket: str = '') -> None:
        self.browser.open(self.hall.address)
        until(lambda: self.browser.at('#ticket'), True)
        self.browser.press(*(ticket or self.hall.tickets[self.name]), ENTER)

    def leave(self, question: str) -> None:
        """Leaves the desk, after a question."""
        self.browser.click('#leave button')
        asked = self.browser.script('return document.getElementById("asked").textContent')
        self.tally.check(f'{self.name}: asked before leaving', asked == question, asked)
        self.browser.click('#go')
        until(lambda: self.browser.script('return document.title'), 'Ticket')

    def wanted(self, said: str, numbers: list[str]) -> dict[str, object]:
        """What the page must show of the library's sitting, if it has these numbers, some of them of several."""
        now = self.desk.standing()
        uncut = {str(number) for number, many in enumerate(now.cuts) if not many and self.practice}
        return {'bars': now.gaps, 'pressed': now.gaps, 'said': said, 'who': self.called,
                'empty': [gap for gap in range(1, len(self.desk.nest.points)) if gap not in now.gaps],
                'hollow': [group for group in numbers if uncut.intersection(group.split())],
                'words': [f'; cut, barriers: {many}' if many else '; UNCUT' for many in now.cuts if self.practice],
                'dots': any(self.dots(gap) for gap in now.gaps) and self.practice,
                'counts': [[d, f'count {count}'] for d, count in now.counts.items()],
                'tree': [f'barriers {count}, {self.at_home(d, uncut)}' for d, count in now.counts.items()],
                'state': f'{self.handed_in}Barriers: {len(now.gaps)}. Dependences uncut: {now.uncut} of '
                         f'{len(now.cuts)}.'}

    def at_home(self, d: int, uncut: set[str]) -> str:
        """What the page says of the dependences at home in a loop."""
        mine = self.paper.at_home[d]
        open_ = f'uncut {len(uncut.intersection(map(str, mine)))} of' if self.practice and mine else 'at home'
        return f'{open_} {len(mine)}'

    def dots(self, gap: int) -> bool:
        """Whether a barrier cuts anything."""
        alone = Desk()
        alone.load(self.hall.paper)
        with contextlib.suppress(Refused):
            alone.put(gap)
        return any(alone.standing().cuts)

    def shows(self, step: str, said: str | None = None) -> None:
        """The page shows the library's sitting, and what is said now, or was said last."""
        self.said = self.said if said is None else said

        def differing() -> dict[str, object]:
            found = self.browser.script(SHOWN)
            wanted = self.wanted(self.said, found['numbers'])
            return {key: (found[key], wanted[key]) for key in wanted if found[key] != wanted[key]}
        differ = until(differing, {})
        self.tally.check(f'{self.name}: {step}', not differ, differ)

    def turn(self, gap: int, by: str = 'mouse') -> None:
        """Puts or lifts, as the library's sitting says, and looks."""
        there = gap in self.desk.standing().gaps
        if by == 'mouse':
            self.browser.click(GAP(gap))
        else:
            self.browser.press(by)
        try:
            (self.desk.lift if there else self.desk.put)(gap)
            said = f'The barrier in gap {gap} is lifted.' if there else f'A barrier stands in gap {gap}.'
        except Refused as refused:
            said = self.refused(refused, gap)
        self.shows(f'gap {gap} {"lifted" if there else "put"}', said)

    def take_back(self, by: str = 'mouse') -> None:
        if by == 'mouse':
            self.browser.click('#back')
        else:
            self.browser.press(by)
        try:
            self.desk.take_back()
            said = 'The latest move is taken back.'
        except Refused as refused:
            said = self.refused(refused)
        self.shows('take back', said)

    @staticmethod
    def refused(refused: Refused, gap: int = 0) -> str:
        """What a candidate is told, by the number of the library's refusal."""
        return {13: 'No move is left to take back. The latest 64 can be, one after the other.',
                16: f'Gap {gap} is barred: no barrier may stand there.'}[refused.refusal.number]
