"""The colours of pages and pictures, as office/served/colours.css has them, and styles in which they are put."""
import pathlib
import re

from office.command import ROOT

SERVED = pathlib.Path(ROOT, 'office', 'served')
COLOURS = (SERVED / 'colours.css').read_text()


def named(rules: str) -> dict[str, str]:
    """Each colour of some rules by its name."""
    return dict(re.findall(r'--([a-z0-9-]+): (#[0-9a-f]{6});', rules))


BRIGHT, _, DIM = COLOURS.partition('@media')
LIGHT = named(BRIGHT)
DARK = LIGHT | named(DIM)


def in_light(style: str) -> str:
    """A style with the light colours in the place of their names, for what stands alone."""
    return re.sub(r'var\(--([a-z0-9-]+)\)', lambda name: LIGHT[name[1]], style)
