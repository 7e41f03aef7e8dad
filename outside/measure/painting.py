"""How long a candidate waits: from a click on a gap to the frame that shows the reply, and from a key to the frame that
shows what is lit, in Chromium, on pages of all sizes.

  python3 -m outside.measure.painting         a line for each page: bytes, elements, milliseconds (median and most), and
                                              of the processor, that is of all the browser does for it;
                                              and the script's own time for a reply
  python3 -m outside.measure.painting one     the pages with this word alone

Needs a browser (outside/hall/browser.py) and the library's archive. It judges nothing.
"""
import os
import pathlib
import statistics
import sys
import tempfile
import time
import urllib.request

from outside.hall.browser import DOWN, Browser, Driver, until
from outside.hall.opened import Candidate, Hall
from outside.hall.pages import GAP, Page
from outside.measure import papers
from outside.trying import EXAMPLES, Tally

# How often each is tried, and seconds between.
TURNS, PAUSE = 12, 0.3
# The time of an event, and of the second frame after what it brought about is in the page.
TIMED = """
window.taken = [];
const frame = (begun) => requestAnimationFrame(() => requestAnimationFrame(() => {
    window.taken.push(performance.now() - begun);
}));
let begun = 0;
addEventListener('pointerup', (event) => { begun = event.timeStamp; }, true);
new MutationObserver(() => begun && (frame(begun), begun = 0)).observe(
    document.getElementById('state'), { childList: true });
addEventListener('keydown', (event) => frame(event.timeStamp), true);
"""
# The script's own time to draw one of two replies in the place of the other, the least of some, in milliseconds.
DRAWS = """
const times = [];
for (let turn = 0; turn < 20; turn += 1) {
    const begun = performance.now();
    show(arguments[turn % 2]);
    times.push(performance.now() - begun);
}
return Math.min(...times.slice(2));
"""
VIEWS = [('P', EXAMPLES['p'], ''), ('mixed, 40 points', papers.text('mixed', 40), ''),
         ('mixed, whole', papers.text('mixed'), ''), ('mixed, loop 113', papers.text('mixed'), '?loop=113'),
         ('one, whole', papers.text('one'), ''), ('carried, whole', papers.text('carried'), '')]


def processor(parent: int) -> float:
    """The milliseconds of the processor that a process and all that came of it have had."""
    times, children = {}, {}
    for place in pathlib.Path('/proc').glob('[0-9]*/stat'):
        try:
            words = place.read_text().rpartition(') ')[2].split()
        except OSError:
            continue
        children.setdefault(int(words[1]), []).append(int(place.parent.name))
        times[int(place.parent.name)] = int(words[11]) + int(words[12])

    def of(process: int) -> int:
        return times.get(process, 0) + sum(map(of, children.get(process, [])))

    return 1000 * of(parent) / os.sysconf('SC_CLK_TCK')


def taken(seen: Browser, many: int) -> str:
    """The times since they were asked for, when so many are there."""
    until(lambda: len(seen.script('return window.taken')) >= many, True)
    times = seen.script('return window.taken.splice(0)')
    return f'{statistics.median(times):.0f} ({max(times):.0f})' if times else 'none'


def measured(driver: Driver, folder: pathlib.Path, name: str, paper: bytes, view: str) -> str:
    hall = Hall(folder, paper, ['anna'], more=['--practice']).start()
    page = Page(Tally(), Browser(driver, 1366, 768), hall, 'anna')
    seen = page.browser
    page.enter()
    page.shows('nothing put')
    seen.open(f'{hall.address}{view}')
    until(lambda: seen.script('return document.getElementById("state").textContent') != '', True)
    seen.script(TIMED)
    gap = seen.script('return document.querySelector("button[data-gap]").dataset.gap')
    before = processor(driver.process.pid)
    for _ in range(TURNS):
        seen.click(GAP(gap))
        time.sleep(PAUSE)
    clicks, clicked = taken(seen, TURNS), processor(driver.process.pid)
    for _ in range(TURNS):
        seen.press(DOWN)
        time.sleep(PAUSE)
    keys, pressed = taken(seen, TURNS), processor(driver.process.pid)
    clicks, keys = (f'{told} ms, {(end - begin) / TURNS:.0f} of the processor'
                    for told, begin, end in ((clicks, before, clicked), (keys, clicked, pressed)))
    other = Candidate(hall, 'anna')
    first, second = (other.move(f'put {place}')[1] for place in (3, 4))
    draws = seen.script(DRAWS, first, second)
    request = urllib.request.Request(f'{hall.address}{view}', headers=hall.whose('anna'))
    with urllib.request.urlopen(request) as reply:
        size = len(reply.read())
    many = seen.script('return document.querySelectorAll("*").length')
    hall.end()
    return f'{name}: {size:,} bytes, {many:,} elements, click {clicks}; key {keys}; a reply is drawn in {draws:.1f} ms'


def main() -> None:
    driver = Driver()
    with tempfile.TemporaryDirectory() as name:
        chosen = [view for view in VIEWS if ' '.join(sys.argv[1:]) in view[0]]
        for number, (called, paper, view) in enumerate(chosen):
            print(measured(driver, pathlib.Path(name) / str(number), called, paper, view), flush=True)
    driver.close()


if __name__ == '__main__':
    main()
