"""Firefox, where it is installed, driven by its own Marionette over a socket as Chromium is by its driver."""
import atexit
import base64
import json
import pathlib
import re
import shutil
import socket
import subprocess
import tempfile
import time
import zlib

from outside.hall.browser import DOWN, ENTER, UP, Browser, until
from outside.hall.opened import Hall
from outside.hall.pages import GAP, Page
from outside.trying import EXAMPLES, Tally

# The names that Marionette has for what a Browser asks for.
NAMES = {'/url': 'Navigate', '/execute/sync': 'ExecuteScript', '/element': 'FindElement', '/actions': 'PerformActions',
         '/back': 'Back', '/screenshot': 'TakeScreenshot', '/print': 'Print', '/window/rect': 'SetWindowRect'}
CLICK = re.compile('/element/(.+)/click')
PREFERENCES = """
user_pref("browser.shell.checkDefaultBrowser", false);
user_pref("datareporting.policy.dataSubmissionEnabled", false);
user_pref("toolkit.telemetry.reportingpolicy.firstRun", false);
user_pref("app.update.enabled", false);
user_pref("network.captive-portal-service.enabled", false);
user_pref("network.connectivity-service.enabled", false);
"""


def there() -> bool:
    return program() is not None


def program() -> str | None:
    return shutil.which('firefox-esr') or shutil.which('firefox')


class Firefox(Browser):
    """A browser with cookies and preferences of its own."""

    def __init__(self, wide: int = 1280, high: int = 800, preferences: str = ''):
        self.profile, port = tempfile.TemporaryDirectory(ignore_cleanup_errors=True), free_port()
        told = f'{PREFERENCES}user_pref("marionette.port", {port});\n{preferences}'
        pathlib.Path(self.profile.name, 'user.js').write_text(told)
        self.process = subprocess.Popen(
            [program(), '--headless', '--marionette', '--no-remote', '--profile', self.profile.name],
            stdout=subprocess.DEVNULL, stderr=subprocess.DEVNULL)
        atexit.register(self.end)
        self.socket, self.number, self.rest = connected(port), 0, b''
        self.read()
        self.command('NewSession')
        self.ask('/window/rect', width=wide, height=high)

    def end(self) -> None:
        self.process.terminate()
        self.process.wait()
        self.profile.cleanup()

    def read(self) -> object:
        """A message: its length in digits, a colon, JSON."""
        while b':' not in self.rest or len(self.rest) < self.rest.index(b':') + 1 + int(self.rest.split(b':')[0]):
            came = self.socket.recv(1 << 20)
            if not came:
                raise RuntimeError('Firefox has ended')
            self.rest += came
        length, _, rest = self.rest.partition(b':')
        text, self.rest = rest[:int(length)], rest[int(length):]
        return json.loads(text)

    def command(self, name: str, **told: object) -> object:
        self.number += 1
        text = json.dumps([0, self.number, f'WebDriver:{name}', told]).encode()
        self.socket.sendall(b'%d:%b' % (len(text), text))
        _, _, fault, result = self.read()
        if fault:
            raise RuntimeError(fault['message'])
        return result['value'] if isinstance(result, dict) and [*result] == ['value'] else result

    def ask(self, what: str, **told: object) -> object:
        clicked = CLICK.fullmatch(what)
        if clicked:
            return self.command('ElementClick', id=clicked[1])
        return self.command(NAMES[what], **told)

    def script(self, text: str, *arguments: object) -> object:
        """What a script gives; while a page goes, that is nothing for a moment."""
        for _ in range(20):
            found = super().script(text, *arguments)
            if found is not None:
                break
            time.sleep(0.02)
        return found

    def address(self) -> str:
        return self.command('GetCurrentURL')

    def picture(self) -> bytes:
        return base64.b64decode(self.ask('/screenshot', full=False))

    def sheets(self) -> int:
        """How many sheets the page takes when it is printed. What tells it is packed."""
        printed = base64.b64decode(self.ask('/print', shrinkToFit=False))
        packed = re.findall(rb'/ObjStm.*?stream\r?\n(.*?)\r?\nendstream', printed, re.S)
        return sum(len(re.findall(rb'/Type ?/Page\b', zlib.decompress(part))) for part in packed)

    def complaints(self) -> list[str]:
        """Marionette tells nothing of the console."""
        return []


def free_port() -> int:
    with socket.create_server(('127.0.0.1', 0)) as listening:
        return listening.getsockname()[1]


def connected(port: int) -> socket.socket:
    """A connection to a Firefox that has just been started."""
    for _ in range(600):
        try:
            return socket.create_connection(('127.0.0.1', port), timeout=60)
        except ConnectionRefusedError:
            time.sleep(0.1)
    raise RuntimeError('Firefox did not start')


def sat(tally: Tally, folder: pathlib.Path) -> None:
    """A sitting in Firefox, by mouse and by keys: what is put, what is lit, views, what is printed, handing in."""
    hall = Hall(folder / 'firefox', EXAMPLES['p'], ['anna'], more=['--practice']).start()
    seen = Firefox()
    page = Page(tally, seen, hall, 'anna')
    page.enter()
    page.shows('Firefox: nothing put')
    for gap in (5, 11, 5):
        page.turn(gap)
    page.take_back()
    for view in ('?loop=1', ''):
        seen.open(f'{hall.address}{view}#g3')
        tally.check(f'Firefox: at a gap of view "{view}"', until(lambda: seen.at(GAP(3)), True))
        ring = until(lambda: seen.script('return document.activeElement.matches(":focus-visible")'), True)
        tally.check('Firefox: the keyboard is seen', ring, ring)
    page.shows('Firefox: in another view')
    lit = seen.script('return [...document.querySelectorAll("[data-bar].hit")].map((bar) => Number(bar.dataset.bar))')
    tally.check('Firefox: what is lit', lit == page.paper.having[3], lit)
    seen.press(DOWN, DOWN, UP)
    page.turn(4, by=' ')
    page.turn(4, by=ENTER)
    tally.check('Firefox: on one sheet', seen.sheets() == 1, seen.sheets())
    seen.click('#hand')
    seen.click('#yes')
    page.handed_in = 'Handed in. '
    page.shows('Firefox: handed in', 'Handed in: barriers in gaps 5, 11.')
    seen.end()
    hall.end()
