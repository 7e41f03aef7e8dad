"""Chromium, driven by its chromedriver over plain HTTP. It is installed where that may be done."""
import atexit
import base64
import json
import re
import shutil
import subprocess
import time
import urllib.request
from collections.abc import Callable

from outside.trying import installed

PACKAGES = ['chromium', 'chromium-driver']
OPTIONS = ['--headless=new', '--no-sandbox', '--disable-dev-shm-usage', '--hide-scrollbars',
           '--disable-background-networking', '--no-first-run']
ELEMENT = 'element-6066-11e4-a52e-4f735466cecf'
ENTER, TAB, SHIFT, UP, DOWN, HOME, END, ESCAPE = (
    '\ue007', '\ue004', '\ue008', '\ue013', '\ue015', '\ue011', '\ue010', '\ue00c')
LEFT, RIGHT, PAGE_UP, PAGE_DOWN = '\ue012', '\ue014', '\ue00e', '\ue00f'
PATIENCE, MOMENT = 20, 0.01


def there() -> bool:
    """Whether there is a browser, installed just now if need be."""
    return installed(['chromium', 'chromedriver'], PACKAGES)


class Driver:
    """A chromedriver of our own, at a port that was free."""

    def __init__(self) -> None:
        self.process = subprocess.Popen(['chromedriver', '--port=0'], stdout=subprocess.PIPE, text=True)
        said = ''
        while not (started := re.search(r'started successfully on port (\d+)', said)):
            said = self.process.stdout.readline()
            if not said:
                raise RuntimeError('chromedriver did not start')
        self.address, self.opened = f'http://127.0.0.1:{started[1]}', []
        atexit.register(self.close)

    def ask(self, method: str, path: str, **told: object) -> object:
        data = json.dumps(told).encode() if method == 'POST' else None
        request = urllib.request.Request(self.address + path, data, {'Content-Type': 'application/json'}, method=method)
        try:
            with urllib.request.urlopen(request, timeout=60) as reply:
                return json.load(reply)['value']
        except urllib.error.HTTPError as fault:
            raise RuntimeError(json.load(fault)['value']['message']) from fault

    def close(self) -> None:
        """Closes all browsers, then itself."""
        while self.opened:
            self.ask('DELETE', self.opened.pop())
        self.process.terminate()
        self.process.wait()


class Browser:
    """A browser with cookies of its own."""

    def __init__(self, driver: Driver, wide: int = 1200, high: int = 800, *options: str):
        chrome = {'binary': shutil.which('chromium'), 'args': [*OPTIONS, f'--window-size={wide},{high}', *options]}
        wanted = {'browserName': 'chrome', 'goog:chromeOptions': chrome, 'goog:loggingPrefs': {'browser': 'ALL'}}
        self.driver = driver
        made = driver.ask('POST', '/session', capabilities={'alwaysMatch': wanted})
        self.path = f'/session/{made["sessionId"]}'
        driver.opened.append(self.path)

    def ask(self, what: str, **told: object) -> object:
        return self.driver.ask('POST', self.path + what, **told)

    def open(self, address: str) -> None:
        self.ask('/url', url=address)

    def script(self, text: str, *arguments: object) -> object:
        return self.ask('/execute/sync', script=text, args=[*arguments])

    def find(self, selector: str) -> str:
        return self.ask('/element', using='css selector', value=selector)[ELEMENT]

    def click(self, selector: str) -> None:
        """A click with the mouse, in the middle of what is seen of an element, which is brought into view."""
        self.script('document.querySelector(arguments[0])?.scrollIntoView({ block: "nearest", inline: "nearest" })',
                    selector)
        self.ask(f'/element/{self.find(selector)}/click')

    def double_click(self, selector: str) -> None:
        place = {'type': 'pointerMove', 'origin': {ELEMENT: self.find(selector)}, 'x': 0, 'y': 0}
        strokes = [{'type': kind, 'button': 0} for kind in ('pointerDown', 'pointerUp') * 2]
        self.ask('/actions', actions=[{'type': 'pointer', 'id': 'mouse', 'actions': [place, *strokes]}])

    def point(self, x: float, y: float, click: bool = False) -> None:
        """The mouse goes to a place of the window, and clicks there."""
        place = {'type': 'pointerMove', 'x': int(x), 'y': int(y), 'duration': 0}
        strokes = [{'type': kind, 'button': 0} for kind in ('pointerDown', 'pointerUp')] * click
        self.ask('/actions', actions=[{'type': 'pointer', 'id': 'mouse', 'actions': [place, *strokes]}])

    def back(self) -> None:
        self.ask('/back')

    def window(self) -> str:
        """The window that is in front."""
        return self.driver.ask('GET', f'{self.path}/window')

    def new_window(self) -> str:
        """Opens one more window, with the same cookies, in front."""
        handle = self.ask('/window/new', type='window')['handle']
        self.go_to(handle)
        return handle

    def go_to(self, window: str) -> None:
        self.ask('/window', handle=window)

    def address(self) -> str:
        return self.driver.ask('GET', f'{self.path}/url')

    def press(self, *keys: str, held: str = '') -> None:
        """Keys, one after the other, while one is held down."""
        strokes = [{'type': kind, 'value': key} for key in keys for kind in ('keyDown', 'keyUp')]
        if held:
            strokes = [{'type': 'keyDown', 'value': held}, *strokes, {'type': 'keyUp', 'value': held}]
        self.ask('/actions', actions=[{'type': 'key', 'id': 'keys', 'actions': strokes}])

    def at(self, selector: str) -> bool:
        """Whether the keyboard is at an element."""
        return self.script('return document.activeElement === document.querySelector(arguments[0])', selector)

    def heard(self) -> dict[str, tuple[str, str]]:
        """What a screen reader is told of each thing with a name: what it is, and whether it is pressed."""
        tree = self.ask('/goog/cdp/execute', cmd='Accessibility.getFullAXTree', params={})['nodes']
        told = {}
        for node in tree:
            pressed = [given['value']['value'] for given in node.get('properties', []) if given['name'] == 'pressed']
            if not node['ignored'] and node.get('name', {}).get('value'):
                told[node['name']['value']] = node['role']['value'], ''.join(pressed)
        return told

    def outline(self, *roles: str) -> list[tuple[str, str, int]]:
        """What a screen reader goes by: the things of some roles in their order, each with its words and its level."""
        tree = self.ask('/goog/cdp/execute', cmd='Accessibility.getFullAXTree', params={})['nodes']
        by_id = {node['nodeId']: node for node in tree}

        def words(node: dict) -> str:
            told = node.get('name', {}).get('value', '')
            return told or ' '.join(words(by_id[one]) for one in node.get('childIds', []) if one in by_id).strip()

        def found(node: dict) -> list[tuple[str, str, int]]:
            level = [given['value']['value'] for given in node.get('properties', []) if given['name'] == 'level']
            told = not node['ignored'] and node['role']['value'] in roles
            mine = [(node['role']['value'], words(node), level[0] if level else 0)] if told else []
            return mine + [one for child in node.get('childIds', []) if child in by_id for one in found(by_id[child])]

        return found(tree[0])

    def screen(self, wide: int, high: int, zoom: int) -> None:
        """A window of so many points, each as large as the zoom says."""
        self.ask('/goog/cdp/execute', cmd='Emulation.setDeviceMetricsOverride', params={
            'width': wide // zoom, 'height': high // zoom, 'deviceScaleFactor': zoom, 'mobile': False})

    def picture(self) -> bytes:
        return base64.b64decode(self.driver.ask('GET', f'{self.path}/screenshot'))

    def sheets(self) -> int:
        """How many sheets the page takes when it is printed."""
        printed = base64.b64decode(self.ask('/print', shrinkToFit=False))
        return len(re.findall(rb'/Type /Page\b', printed))

    def complaints(self) -> list[str]:
        """What the browser's console has since it was last asked."""
        return [entry['message'] for entry in self.ask('/se/log', type='browser')]


def until(seen: Callable[[], object], wanted: object) -> object:
    """What is seen, as soon as it is what is wanted, or after some time."""
    begun = time.monotonic()
    while (found := seen()) != wanted and time.monotonic() - begun < PATIENCE:
        time.sleep(MOMENT)
    return found
