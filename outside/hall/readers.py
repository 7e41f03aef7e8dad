"""The page for every reader: contrast of all words as the browser paints them, colours that a reader has chosen, and
a strong zoom."""
import pathlib

from outside.hall.browser import DOWN, TAB, Browser, until
from outside.hall.opened import Hall
from outside.hall.pages import GAP, Page
from outside.measure import papers
from outside.trying import EXAMPLES, ROOT, Tally

# All words that are seen, with the contrast to what is painted under their middle. Nothing may be hidden from the look.
WORDS = r"""
document.styleSheets[0].insertRule('* { pointer-events: auto !important }');
document.querySelectorAll('details').forEach((part) => { part.open = true; });
const told = (text) => {
    const [r, g, b, a = 1] = text.match(/[\d.]+/g).map(Number);
    return text.startsWith('color(srgb') ? [r * 255, g * 255, b * 255, a] : [r, g, b, a];
};
const painted = (piece) => {
    const style = getComputedStyle(piece);
    const shape = piece instanceof SVGGeometryElement;
    const paint = shape ? style.fill : style.backgroundColor;
    if (piece instanceof SVGElement && !shape && !(piece instanceof SVGSVGElement) || paint === 'none') {
        return [0, 0, 0, 0];
    }
    const [r, g, b, a] = told(paint);
    return [r, g, b, a * style.opacity];
};
const light = (colour) => {
    const [r, g, b] = colour.slice(0, 3).map((part) => part / 255).map(
        (part) => part <= 0.04045 ? part / 12.92 : ((part + 0.055) / 1.055) ** 2.4);
    return 0.2126 * r + 0.7152 * g + 0.0722 * b;
};
const over = (top, under) => top.slice(0, 3).map((part, k) => part * top[3] + under[k] * (1 - top[3]));
const found = [];
for (const piece of document.querySelectorAll('body *')) {
    const words = [...piece.childNodes].filter((node) => node.nodeType === 3).map((node) => node.data).join('').trim();
    const seen = piece.checkVisibility() && piece.getClientRects().length;
    if (!words || !seen || piece.closest('script, noscript, dialog:not([open])')) {
        continue;
    }
    piece.scrollIntoView({ block: 'center', inline: 'center' });
    const box = piece.getClientRects()[0];
    const stack = document.elementsFromPoint(box.left + box.width / 2, box.top + box.height / 2);
    let under = told(getComputedStyle(document.body).backgroundColor);
    for (const layer of stack.filter((layer) => !piece.contains(layer) || layer === piece).reverse()) {
        under = over(layer === piece && piece instanceof SVGElement ? [0, 0, 0, 0] : painted(layer), under);
    }
    const style = getComputedStyle(piece);
    const ink = over(told(piece instanceof SVGElement ? style.fill : style.color), under);
    const [a, b] = [light(ink), light(under)].sort((x, y) => y - x);
    const name = piece.closest('[class]')?.getAttribute('class') ?? '';
    found.push([Math.round(100 * (a + 0.05) / (b + 0.05)) / 100, piece.tagName, name, words.slice(0, 40)]);
}
return found;
"""
# The colours that shapes and words of the board are painted with, and those that a reader has chosen.
DRAWN = """
const probe = document.body.appendChild(document.createElement('p'));
const chosen = ['Canvas', 'CanvasText', 'GrayText'].map((colour) => {
    probe.style.color = colour;
    return getComputedStyle(probe).color;
});
probe.remove();
const drawn = [];
for (const shape of document.querySelectorAll('.board svg text, .board svg rect, .board svg path, .board svg circle')) {
    const style = getComputedStyle(shape);
    const stroke = Number.parseFloat(style.strokeWidth) ? style.stroke : 'none';
    const painted = shape.closest('.tag:not(.on)') ? [] : [style.fill, stroke];
    drawn.push(...painted.filter((paint) => paint !== 'none').map(
        (paint) => [paint, shape.tagName, shape.getAttribute('class'), shape.parentElement.getAttribute('class')]));
}
return { chosen, drawn };
"""
# The links of the line that stays, each brought into view and hit, and whether the words of what is lit are seen.
WAYS = """
const inside = (piece) => {
    const box = piece.getBoundingClientRect();
    return box.left >= 0 && document.elementFromPoint(box.left + 4, box.top + box.height / 2) === piece;
};
const lit = inside(document.getElementById('lit'));
const ways = [...document.querySelectorAll('.where a')].filter((way) => {
    way.scrollIntoView({ block: 'nearest', inline: 'nearest' });
    return inside(way);
});
const scrolls = getComputedStyle(document.querySelector('.where')).overflowX;
return { lit, scrolls, ways: ways.map((way) => way.textContent) };
"""
SEEN = """
const main = document.querySelector('main'), page = document.documentElement;
scrollTo(0, 0);
const top = document.querySelector('.board').getBoundingClientRect().top + scrollY;
scrollTo(0, top);
const rows = [...document.querySelectorAll('button[data-gap]')].filter((button) => {
    const at = button.getBoundingClientRect();
    return at.top >= 0 && at.bottom <= innerHeight && document.elementFromPoint(
        at.left + 20, at.top + at.height / 2) === button;
});
return { wide: page.scrollWidth <= innerWidth, rows: rows.length };
"""


def media(seen: Browser, **features: str) -> None:
    """Has the browser prefer something."""
    seen.ask('/goog/cdp/execute', cmd='Emulation.setEmulatedMedia', params={'features': [
        {'name': name.replace('_', '-'), 'value': value} for name, value in features.items()]})


def words(tally: Tally, page: Page, name: str) -> None:
    """All words of a page stand out by 4.5 at least."""
    seen = page.browser
    for colours in ('light', 'dark'):
        media(seen, prefers_color_scheme=colours)
        seen.open(page.hall.address)
        page.shows(f'{name} {colours}')
        found = seen.script(WORDS)
        low = [told for told in found if told[0] < 4.5]
        tally.check(f'{name}, {colours}: contrast of words', len(found) > 30 and not low, (len(found), low))


def chosen(tally: Tally, page: Page) -> None:
    """In colours that a reader has chosen, all that is drawn has one of them, and the kinds differ by their strokes."""
    seen = page.browser
    for colours in ('light', 'dark'):
        media(seen, forced_colors='active', prefers_color_scheme=colours)
        seen.open(page.hall.address)
        page.shows(f'chosen colours, {colours}')
        found = seen.script(WORDS)
        low = [told for told in found if told[0] < 4.5]
        tally.check(f'chosen colours, {colours}', len(found) > 30 and not low, low)
        strokes = seen.script("""return ['.i .l', '.c .l'].map((kind) => getComputedStyle(
            document.querySelector(`.lanes ${kind}`)).strokeDasharray);""")
        tally.check(f'kinds in chosen colours, {colours}', strokes[0] == 'none' != strokes[1], strokes)
    media(seen)


def chosen_alone(tally: Tally, page: Page) -> None:
    """Nothing that is drawn has another colour than those, also what is lit, compared and put."""
    seen = page.browser
    media(seen, forced_colors='active')
    seen.open(f'{page.hall.address}#g3')
    page.shows('chosen colours, at a gap')
    seen.press('c', DOWN, DOWN)
    found = seen.script(DRAWN)
    other = [told for told in found['drawn'] if told[0] not in found['chosen']]
    tally.check('chosen colours alone', len(found['drawn']) > 50 and not other, other)
    media(seen)


def read(tally: Tally, page: Page) -> None:
    """What a screen reader goes by: headings that say where one is, the gaps as one set of buttons that arrow keys go
    through, the loops in lists inside one another; each view has a title of its own."""
    seen, paper = page.browser, page.paper
    deep = max(paper.end, key=lambda d: paper.depth[d])
    for view, called in (('', 'The whole paper'), (f'?loop={deep}', f'Loop {deep}')):
        seen.open(f'{page.hall.address}{view}')
        until(lambda: seen.script('return document.getElementById("state").textContent') != '', True)
        seen.script('document.getElementById("loops").open = true')
        many = len(paper.dependences) if not view else len(paper.at_home[deep])
        found = seen.outline('heading', 'toolbar')
        tally.check(f'headings of "{view}"', found == [
            ('heading', 'paper, practice, anna', 1), ('heading', called, 2), ('toolbar', 'gaps', 0),
            ('heading', f'Dependences: {many}', 2)], found)
        title = seen.script('return document.title')
        tally.check(f'title of "{view}"', title == f'anna: paper, practice{f", loop {deep}" if view else ""}', title)
    levels = [(told.split()[1], level) for _, told, level in seen.outline('listitem') if told.startswith('loop ')]
    wanted = [(str(d), paper.depth[d] + 1) for d in sorted(paper.end)]
    tally.check('loops inside loops', levels == wanted, levels)


def printed(tally: Tally, page: Page, name: str) -> None:
    """On a sheet the sitting is as wide as there is room, with nothing cut off, and its words stand over it."""
    seen = page.browser
    seen.screen(703, 1000, 1)
    seen.open(page.hall.address)
    page.shows('to be printed')
    seen.ask('/goog/cdp/execute', cmd='Emulation.setEmulatedMedia', params={'media': 'print'})
    edges = seen.script("""
        const box = (of) => document.querySelector(of).getBoundingClientRect();
        const state = box('#state'), middle = [state.left + state.width / 2, state.top + state.height / 2];
        const [nest, lanes, item] = ['.nest', '.lanes', '#dependences b'].map(box);
        return [nest.left >= 0 && lanes.right <= innerWidth, Math.abs(nest.height - lanes.height) < 1,
            document.elementFromPoint(...middle).id,
            getComputedStyle(document.querySelector('#dependences b')).color];""")
    tally.check(f'{name} on a sheet', edges == [True, True, 'state', 'rgb(23, 32, 42)'], edges)
    seen.ask('/goog/cdp/execute', cmd='Emulation.setEmulatedMedia', params={'media': ''})
    seen.screen(1280, 800, 1)


def near(tally: Tally, page: Page) -> None:
    """At 400 percent, 320 by 256 points, the paper has the window to itself, and nothing scrolls two ways but it."""
    seen = page.browser
    seen.screen(1280, 1024, 4)
    seen.open(page.hall.address)
    page.shows('at 400 percent')
    found = seen.script(SEEN)
    tally.check('at 400 percent', found['wide'] and found['rows'] >= 4, found)
    page.turn(5)
    page.turn(5)
    seen.open(f'{page.hall.address}?loop=1#g3')
    until(lambda: seen.at(GAP(3)), True)
    found = seen.script(WAYS)
    tally.check('at 400 percent: what is lit is seen', found['lit'], found)
    tally.check('at 400 percent: every way to other views', found['scrolls'] == 'auto' and found['ways'] == [
        'Whole paper', 'Out to loop 0', 'Dependences'], found)
    seen.open(f'{page.hall.address}?loop=0')
    until(lambda: seen.script('return document.getElementById("state").textContent') != '', True)
    seen.press(TAB, TAB, TAB)
    for way in ('Whole paper', 'Unfold', 'Dependences'):
        seen.press(TAB)
        at = seen.script('''const box = document.activeElement.getBoundingClientRect();
            return [document.activeElement.textContent, box.left >= 0 && box.right <= innerWidth];''')
        tally.check(f'at 400 percent: Tab goes to {way}', at == [way, True], at)
    seen.screen(1280, 800, 1)


def wide(tally: Tally, page: Page) -> None:
    """At 400 percent a gap that is wider than the window is shown with its number."""
    seen = page.browser
    seen.screen(1280, 1024, 4)
    for gap in (3, 9, 1):
        seen.open('about:blank')
        seen.open(f'{page.hall.address}#g{gap}')
        until(lambda: seen.at(GAP(gap)), True)
        left = seen.script('return document.querySelector(arguments[0]).getBoundingClientRect().left',
                           f'[data-barrier="{gap}"] rect')
        tally.check(f'at 400 percent: the number of gap {gap}', 0 <= left < 300, left)
    seen.screen(1280, 800, 1)


def readers(tally: Tally, seen: Browser, folder: pathlib.Path) -> None:
    for name, paper in (('p', EXAMPLES['p']), ('deep', papers.text('deep', 30)),
                        ('barred', (ROOT / 'examples' / 'foundation.hex').read_bytes())):
        hall = Hall(folder / f'readers {name}', paper, ['anna'], more=['--practice']).start()
        page = Page(tally, seen, hall, 'anna')
        page.enter()
        page.shows('nothing put')
        page.turn(3)
        words(tally, page, name)
        read(tally, page)
        printed(tally, page, name)
        if name == 'p':
            chosen(tally, page)
            chosen_alone(tally, page)
            near(tally, page)
        if name == 'deep':
            wide(tally, page)
        media(seen)
        hall.end()
