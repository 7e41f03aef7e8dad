"""A page to print: placements on a paper, their pictures, their cost trees and the reasons. It needs no network."""
import base64
import html

from office.atlas import atlas, is_whole, signs_of
from office.paper import Paper, Placed
from office.picture import Picture
from office.printed import STYLE, TOP, facts
from office.records import dataclass

# By this a page is known as one; it names no kind, as those of before do not.
BEGINS = f'{TOP}<title>'.encode()
SIGN = ('Each loop stands under the one around it, by the point of its DO, with the count of its own barriers.{} Gaps, '
        'points and counts are decimal on this page, hexadecimal in texts.')
DECIDES = ' A loop marked &lt; decides.'
IN_LOOPS = ('The paper is too large for a sheet: these are the loops that the reasons speak of, from the inside out, '
            'each with the dependences at home in it.')
OF_PICTURES = """
h2 { font-size: 12pt; margin: 6mm 0 2mm 0 }
.two { display: grid; grid-template-columns: 1fr 1fr; gap: 8mm }
figure { margin: 0 0 5mm 0; break-inside: avoid; overflow-x: auto }
figcaption { font-weight: bold; margin-bottom: 2mm }
@media print { img { max-width: 100%; height: auto } }
@media screen { body { padding: 0 3mm } }
@media (max-width: 600px) { .two { grid-template-columns: 1fr } }
"""


@dataclass(frozen=True)
class Shown:
    """A placement on the page: its title, what the slip tells of it, and its cost tree."""
    title: str
    placed: Placed
    tree: list[str]


def figure(drawing: Picture, caption: str) -> str:
    """A picture inside the page."""
    data = base64.b64encode(drawing.svg().encode()).decode()
    return (f'<figure><figcaption>{html.escape(caption)}</figcaption>'
            f'<img alt="{html.escape(drawing.title)}" src="data:image/svg+xml;base64,{data}"></figure>\n')


def figures(paper: Paper, shown: list[Shown], name: str, loops: list[int]) -> str:
    """The placements on the whole paper, or on the loops that the reasons speak of."""
    drawings = [atlas(paper, side.placed, name, loops) for side in shown]
    if all(map(is_whole, drawings)):
        return ''.join(figure(one, side.title) for (one,), side in zip(drawings, shown))
    pairs = [figure(one, f'Loop {one.view.loop}, {side.title}') for both in zip(*drawings)
             for one, side in zip(both, shown)]
    signs = html.escape(signs_of([one for both in drawings for one in both]))
    return f'<p class="small">{IN_LOOPS} {signs}</p>\n{"".join(pairs)}' if pairs else ''


def page(name: str, head: dict[str, str], paper: Paper, shown: list[Shown], told: list[str], loops: list[int],
         argument: str) -> str:
    """The page, with a head of what is known, the loops that the reasons speak of, and the markup of an argument."""
    title = html.escape(f'{name}: {" and ".join(side.title for side in shown)}')
    trees = ''.join('<pre>{}</pre>\n'.format(html.escape('\n'.join([side.title, '', *side.tree]))) for side in shown)
    reasons = ''.join(f'<p>{html.escape(words)}</p>\n' for words in told)
    sign = SIGN.format(DECIDES if len(shown) > 1 else '')
    return (f'{BEGINS.decode()}{title}</title>\n<meta name="viewport" content="width=device-width">\n'
            f'<style>{STYLE}{OF_PICTURES}</style>\n</head>\n<body>\n<h1>{title}</h1>\n{facts(head)}{reasons}'
            f'<div class="two">\n{trees}</div>\n<p class="small">{sign}</p>\n{figures(paper, shown, name, loops)}'
            f'{argument}</body>\n</html>\n')
