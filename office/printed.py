"""Pages to print: A4, with nothing to fetch and no script. A page says of what kind it is, so that none is written over
by one of another kind."""
import html

TOP = '<!DOCTYPE html>\n<html lang="en">\n<head>\n<meta charset="utf-8">\n'
STYLE = """
@page { size: A4; margin: 15mm }
body { font: 11pt/1.4 Helvetica, Arial, sans-serif; color: #17202a; max-width: 180mm; margin: 0 auto }
h1 { font-size: 15pt }
.small { font-size: 9pt }
.facts { border-collapse: collapse; margin: 0 0 5mm 0 }
.facts th { text-align: left; vertical-align: top; font-weight: normal; padding: 0 6mm 1mm 0; white-space: nowrap }
.facts td { font-variant-numeric: tabular-nums; overflow-wrap: anywhere; padding: 0 0 1mm 0 }
pre { font: 9pt/1.3 "DejaVu Sans Mono", monospace; margin: 0; white-space: pre-wrap }
"""


def begins(kind: str) -> bytes:
    """By this a page of a kind is known as one."""
    return f'{TOP}<meta name="desk" content="{kind}">\n'.encode()


def document(kind: str, title: str, style: str, body: str) -> bytes:
    """A page of a kind: the title is plain text, the body is markup."""
    return begins(kind) + (f'<title>{html.escape(title)}</title>\n<style>{STYLE}{style}</style>\n</head>\n<body>\n'
                           f'{body}</body>\n</html>\n').encode()


def paragraphs(sentences: list[str], small: bool = False) -> str:
    """Plain text, a paragraph each."""
    start = '<p class="small">' if small else '<p>'
    return ''.join(f'{start}{html.escape(words)}</p>\n' for words in sentences)


def facts(rows: dict[str, str]) -> str:
    """A table of what is known, a name and plain text a row. Names of people may run from right to left."""
    lines = ''.join(f'<tr><th>{html.escape(name)}</th><td><bdi>{html.escape(told)}</bdi></td></tr>\n'
                    for name, told in rows.items())
    return f'<table class="facts">\n{lines}</table>\n'
