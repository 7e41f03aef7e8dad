"""What a file is, by its bytes alone, where it is given as something else. Nothing is read here that the desk reads."""
import re
import unicodedata

MARKS_OF_16 = (b'\xff\xfe', b'\xfe\xff')
FRAMES = re.compile(rb'(?:(?:[0-9a-f]{2})+\n)+')
PLACEMENT, KEY = re.compile(rb'(?:21[0-9a-f]{2}\n)+'), re.compile(rb'(?:21[0-9a-f]{2}\n)*(?:22[0-9a-f]{4}\n)+')
PAPER = re.compile(rb'0[14]\n(?:(?:0[1-4]|11[0-9a-f]{4}|12[0-9a-f]{6}|13[0-9a-f]{2})\n)*')
SLIP, REFUSAL = re.compile(rb'23[0-9a-f]{4}\n'), re.compile(rb'2f[0-9a-f]{6}\n')
DECIMAL = re.compile(rb'[\s,;]*[0-9]{1,3}(?:[\s,;]+[0-9]{1,3})*[\s,;]*')
SPACED = re.compile(rb'(?:21[ \t]+[0-9]{2}[ \t]*(?:\r?\n|$))+')
LOOP = r'(?:do|end\s*do)\b|for\b\s*\(?\s*\w+\s*(?:=|:|in\b)|while\s*\('
LISTED = re.compile(rf'(?:[^|]*\|)?\s*(?:[0-9]+\s*:\s*)?(?:{LOOP})|.*(?:->|→)', re.I)
SAVED = 'the file is UTF-16: save it as plain text, in UTF-8'
BEGINNINGS = {b'SQLite format 3\0': 'a register', b'<!DOCTYPE html>': 'a page of HTML', b'<svg ': 'a picture'}


def is_utf16(text: bytes) -> bool:
    """Whether every other byte is a zero, and not all are, or a mark says so."""
    some = text[:64]
    return text[:2] in MARKS_OF_16 or any(some) and len(some) > 1 and not (any(some[::2]) and any(some[1::2]))


def is_listing(text: bytes) -> bool:
    """Whether a text has lines that only a listing has, and does not begin with digits."""
    if is_utf16(text) or b'\0' in text or text.lstrip()[:1] == b'<':
        return False
    lines = [line.partition('#')[0].strip() for line in text.decode('utf-8-sig', 'replace').splitlines()]
    typed = [line for line in lines if line]
    return bool(typed) and not re.fullmatch('[0-9][0-9a-f]*', typed[0]) and any(map(LISTED.match, typed))


def decimal_in(text: bytes) -> list[int]:
    """The numbers of a text that is a list of them; none where it is something else, or a paper, or a placement text
    with a space behind each 21: as numbers these do not rise."""
    if not DECIMAL.fullmatch(text) or PAPER.fullmatch(text):
        return []
    numbers = [int(word) for word in re.findall(rb'[0-9]+', text)]
    return [] if SPACED.fullmatch(text) and numbers != sorted({*numbers}) else numbers


def what_it_is(text: bytes) -> str:
    """What a text is that is neither a listing nor of digits, or is the desk's own; nothing where that is not seen."""
    for beginning, what in BEGINNINGS.items():
        if text.startswith(beginning):
            return what
    if SLIP.match(text) and FRAMES.fullmatch(text):
        return 'a slip'
    if REFUSAL.fullmatch(text):
        return 'what ./key says of a paper that is refused'
    return ''


def instead_of_paper(text: bytes) -> str:
    """What was given where a paper is wanted, with a cure; nothing where it may be meant as one."""
    if is_utf16(text):
        return SAVED
    if is_listing(text):
        return 'this is a listing: ./desk spell writes the text of it'
    if PLACEMENT.fullmatch(text):
        return 'this is a placement text, as answers are: the paper comes first'
    what = 'a key with its counts' if KEY.fullmatch(text) else what_it_is(text)
    return f'this is {what}, and no paper' if what else ''


def instead_of_placement(text: bytes) -> str:
    """What was given where a placement text is wanted, with a cure; nothing where it may be meant as one."""
    if is_utf16(text):
        return SAVED
    what = 'a listing of a paper' if is_listing(text) else 'a paper' if PAPER.fullmatch(text) else what_it_is(text)
    return f'this is {what}, and no placement text' if what else ''


def in_one_form(text: str) -> str:
    """Letters with marks in one spelling, so that what looks the same is the same."""
    return unicodedata.normalize('NFC', text)
