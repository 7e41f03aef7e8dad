"""The tickets of a hall on paper: a page to print, with a slip for each candidate and a line to cut along."""
import html

from office.printed import document
from office.sittings import Sitting
from office.words import counted

KIND = 'tickets'
STYLE = """
.slip { break-inside: avoid; border-bottom: 0.3mm dashed #17202a; padding: 5mm 0 }
.slip h2 { font-size: 13pt; margin: 0 0 2mm 0 }
.slip p { margin: 1mm 0 }
.number { font: bold 15pt "DejaVu Sans Mono", monospace }
"""
WHAT = ('Open the address in a browser and type the ticket; capitals, spaces and dashes do not matter.',
        'It is yours alone: whoever has it sits in your name.',
        'If your machine breaks, the same ticket opens your sitting on another, as it was.')


def minutes_told(sitting: Sitting) -> str:
    minutes = sitting.minutes or sitting.allowed.minutes
    return f' You have {counted(minutes, "minute")} from when you enter.' if minutes else ''


def slip(address: str, sitting: Sitting, ticket: str) -> str:
    """The slip of one candidate."""
    also = f' ({html.escape(sitting.candidate)})' if sitting.name != sitting.candidate else ''
    return (f'<div class="slip">\n<h2><bdi>{html.escape(sitting.name)}</bdi>{also}</h2>\n'
            f'<p>Address: <b>{html.escape(address)}</b></p>\n<p>Ticket: <span class="number">{ticket}</span></p>\n'
            f'<p class="small">{html.escape(" ".join(WHAT))}{minutes_told(sitting)}</p>\n</div>\n')


def tickets_page(address: str, tickets: list[tuple[Sitting, str]]) -> bytes:
    """The page, in the order of the list."""
    return document(KIND, 'Tickets', STYLE, ''.join(slip(address, *one) for one in tickets))
