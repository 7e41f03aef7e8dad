"""./draw: which papers are drawn, what a picture has, and faults. The last line is 'N passed, M failed'."""
import os
import pathlib
import random
import re
import tempfile
import xml.etree.ElementTree as tree

from office.colours import DARK, LIGHT, SERVED
from office.lanes import packed
from outside.measure import papers
from outside.trying import DRAW, EXAMPLES, KEY, ROOT, VERSION, Seen, Tally, run

HALF_A_MEGABYTE = 500_000
PICTURES = {'p': ['p'], 'q-best': ['q'], 'q-dearer': ['q', '4,7'], 'r': ['r'], 'foundation': ['foundation']}
SVG = '{http://www.w3.org/2000/svg}'
# How much of the page the block of a loop covers, behind its lanes.
BLOCK = 0.6


def texts_of(seen: Seen) -> list[tree.Element]:
    """The texts of a picture; none where it is no picture."""
    try:
        return list(tree.fromstring(seen.out).iter(f'{SVG}text'))
    except tree.ParseError:
        return []


def words_of(texts: list[tree.Element], kind: str = '') -> list[str]:
    """The words of all texts, or of those of a kind."""
    return [text.text for text in texts if not kind or kind in text.get('class', '').split()]


def drawn(tally: Tally, folder: pathlib.Path) -> None:
    """The barriers of the key, those of a list, those of a placement text."""
    for name, (paper, *gaps) in PICTURES.items():
        seen = run(DRAW, ROOT / 'examples' / f'{paper}.hex', *gaps)
        picture = (ROOT / 'docs' / f'{name}.svg').read_bytes()
        tally.check(f'docs/{name}.svg is drawn so', (seen.out, seen.err, seen.status) == (picture, '', 0), seen.err)
    answer, paper = folder / 'answer.hex', ROOT / 'examples' / 'q.hex'
    answer.write_bytes(b'2104\n2107\n')
    by_list = run(DRAW, paper, '4,7')
    tally.check('a placement text', run(DRAW, paper, answer) == by_list and by_list.status == 0, by_list)
    tally.check('a list in any order', run(DRAW, paper, '7, 4,4') == by_list, by_list)
    none = run(DRAW, paper, '')
    answer.write_bytes(b'')
    tally.check('no barriers', words_of(texts_of(none), 'title') == ['q, barriers none'], none)
    tally.check('an empty placement text', run(DRAW, paper, answer) == none, none)
    tally.check('uncut', sum('UNCUT' in word for word in words_of(texts_of(none))) == 3, none)
    blank = run(DRAW, '/dev/null')
    tally.check('the empty paper', 'ENDDO loop 0' in words_of(texts_of(blank)) and blank.status == 0, blank)
    link = folder / 'drawer'
    link.symlink_to(DRAW)
    tally.check('by a link, elsewhere', run(link, paper, '4,7', shell='cd / && "$@"') == by_list, by_list)
    strange = os.fsencode(folder) + b'/\xff<&.hex'
    with open(strange, 'wb') as opened:
        opened.write(EXAMPLES['q'])
    seen = run(DRAW, os.fsdecode(strange), '4')
    tally.check('a strange name', words_of(texts_of(seen), 'title') == ['?<&, barrier 4'] and seen.status == 0, seen)
    for option, word in [('--help', b'usage: ./draw '), ('--version', f'draw {VERSION}, commit '.encode())]:
        seen = run(DRAW, option)
        tally.check(option, seen.status == 0 and word in seen.out, seen)


def barred(tally: Tally, folder: pathlib.Path) -> None:
    """Barred gaps have a band and a red number; the signs and the captions say so. Other papers have none of this."""
    paper = ROOT / 'examples' / 'foundation.hex'
    seen = run(DRAW, paper, '6')
    words = words_of(texts_of(seen))
    bands = re.findall(rb'class="gap barred">\n<path [^>]*>\n<rect [^>]*>\n<text [^>]*>(\d+)<', seen.out)
    tally.check('three bands', bands == [b'1', b'2', b'4'] and seen.status == 0, seen)
    tally.check('the sign', any('barred gap' in word for word in words), words)
    told = 'carried by loop 0, 4 to 1: gaps 1 and 5 to 6; barred 1; cut by 6'
    tally.check('a caption', told in words and 'barred 1, 2, 4; UNCUT' in ' '.join(words), words)
    seen = run(DRAW, ROOT / 'examples' / 'r.hex')
    bars = b'class="gap barred' in seen.out or 'barred' in ' '.join(words_of(texts_of(seen)))
    tally.check('no band', not bars and seen.status == 0, seen)
    blocked, answer = folder / 'blocked.hex', folder / 'answer.hex'
    blocked.write_bytes(b'01\n03\n02\n110001\n1301\n')
    seen = run(DRAW, blocked)
    tally.check('no key to draw', seen.out == b'' and 'alone, which is barred' in seen.err and seen.status == 1, seen)
    seen = run(DRAW, blocked, '2')
    tally.check('a blocked paper', 'barred 1; UNCUT' in ' '.join(words_of(texts_of(seen))) and seen.status == 0, seen)
    seen = run(DRAW, paper, '2,3,4,5,1')
    tally.check('a list with barred gaps', seen.failed('gap 1 is barred'), seen)
    for typed, word in [(b'2104\n', 'number 16'), (b'2103\n2104\n2102\n', 'number 16'), (b'2103\n2102\n', 'number 8')]:
        answer.write_bytes(typed)
        seen = run(DRAW, paper, answer)
        tally.check(f'{typed!r} beside barred gaps', seen.out == b'' and word in seen.err and seen.status == 1, seen)


def full_size(tally: Tally, folder: pathlib.Path) -> None:
    """A paper of 256 points and 512 dependences: under half a megabyte, every number in words, and all in the
    window."""
    every, other = ','.join(map(str, range(1, 256))), ','.join(map(str, range(1, 256, 2)))
    for kind in ['mixed', 'one', 'deep', 'barred']:
        paper = folder / f'{kind}.hex'
        paper.write_bytes(papers.text(kind))
        for gaps in [[]] if kind == 'barred' else [[], [every], [other]]:
            name, seen = f'full size, {kind}, {gaps[0][:8] if gaps else "its key"}', run(DRAW, paper, *gaps)
            tally.check(f'{name}: size', 0 < len(seen.out) < HALF_A_MEGABYTE and seen.status == 0, len(seen.out))
            texts = texts_of(seen)
            numbers = words_of(texts, 'n')
            tally.check(f'{name}: numbers', numbers == [*map(str, range(512))], len(numbers))
            wide = float(re.search(rb'width="([0-9.]+)"', seen.out + b'width="0"').group(1))
            over = [text.text for text in texts if text.get('class', '') in ('title', 'word', 'pale')
                    and float(text.get('x')) + 5 * len(text.text) > wide]
            tally.check(f'{name}: captions', wide > 0 and not over, over)
    seen = run(DRAW, folder / 'one.hex', other)
    title = words_of(texts_of(seen), 'title')
    tally.check('a long title wraps', ' '.join(title).endswith('253, 255') and len(title) > 1, title)
    seen = run(DRAW, folder / 'mixed.hex', shell='"$@" | head -c 100; exit ${PIPESTATUS[1]}')
    tally.check('a reader who leaves', (len(seen.out), seen.err, seen.status) == (100, '', 0), seen)


def views(tally: Tally, folder: pathlib.Path) -> None:
    """One loop alone, folded and unfolded, and some dependences alone."""
    paper, large = ROOT / 'examples' / 'p.hex', folder / 'mixed.hex'
    seen = run(DRAW, paper, '5,9', '--loop', '7')
    words = words_of(texts_of(seen))
    tally.check('a loop', words_of(texts_of(seen), 'title') == ['p, loop 7, barriers 5, 9'] and 'count 1' in words and
                'statement 8' in words and 'statement 5' not in words, words)
    captions = [word for word in words if 'gaps' in word and '; ' in word]
    tally.check('its dependences', captions == [
        'independent, 8 to 11: gaps 9 to 11; cut by 9',
        'carried by loop 7, 10 to 9: gaps 8 to 9 and 11 to 12; cut by 9'], captions)
    outer = words_of(texts_of(run(DRAW, paper, '5,9', '--loop', '0')))
    tally.check('loops inside folded', '\u25b8 loop 1, 1 to 6' in outer and outer.count('1 inside') == 2 and
                'statement 2' not in outer, outer)
    unfolded = words_of(texts_of(run(DRAW, paper, '5,9', '--loop', '0', '--unfold')))
    tally.check('unfolded', 'statement 2' in unfolded and '\u25b8 loop 1, 1 to 6' not in unfolded, unfolded)
    seen = run(DRAW, paper, '5', '--only', '5, 1')
    numbers = words_of(texts_of(seen), 'n')
    tally.check('some dependences', sorted(numbers) == ['1'] * 3 + ['5'] * 3 and words_of(texts_of(seen), 'title') == [
        'p, dependences 1, 5, barrier 5'], seen)
    seen = run(DRAW, large, '', '--loop', '113')
    tally.check('a loop of a full-size paper', seen.status == 0 and len(seen.out) < 60_000, len(seen.out))
    for name, word, *asked in [
            ('no such loop', '2 is no DO of this paper, which has 0, 1 and 7', '--loop', '2'),
            ('no number', 'x is no DO of this paper', '--loop', 'x'),
            ('unfold alone', '--unfold goes with --loop', '--unfold'),
            ('no such dependence', '6 is no dependence of this paper, which has 0 to 5', '--only', '5,6'),
            ('no dependence', '--only names no dependence of this paper', '--only', ''),
            ('of another loop', 'at home in loop 0, not in loop 1', '--loop', '1', '--only', '5')]:
        seen = run(DRAW, paper, '5', *asked)
        tally.check(name, seen.failed(word), seen)


def light_of(colour: str) -> float:
    """The relative luminance of a colour, as WCAG 2.2 has it."""
    parts = [int(colour[at:at + 2], 16) / 255 for at in (1, 3, 5)]
    red, green, blue = (part / 12.92 if part <= 0.04045 else ((part + 0.055) / 1.055) ** 2.4 for part in parts)
    return 0.2126 * red + 0.7152 * green + 0.0722 * blue


def contrast(first: str, second: str) -> float:
    darker, brighter = sorted((light_of(first), light_of(second)))
    return (brighter + 0.05) / (darker + 0.05)


def mixed(colour: str, share: float, under: str) -> str:
    """A colour that covers a share of what is under it."""
    parts = (share * int(colour[at:at + 2], 16) + (1 - share) * int(under[at:at + 2], 16) for at in (1, 3, 5))
    return '#' + ''.join(f'{round(part):02x}' for part in parts)


def contrasts(tally: Tally) -> None:
    """Words stand out by 4.5 and lines by 3 from what they stand on, at every depth, in light and dark colours."""
    known = contrast('#ffffff', '#000000'), contrast('#5b6875', '#8da9c5')
    tally.check('contrast is worked out as WCAG does', [round(told, 2) for told in known] == [21, 2.34], known)
    for name, has in (('light', LIGHT), ('dark', DARK)):
        shades = [has[f'd{depth}'] for depth in range(1, 9)]
        blocks = [mixed(shade, BLOCK, has['page']) for shade in shades]
        red = [has['page'], has['d1']]  # barred gaps stand in papers of one loop
        for word, under in (('ink', [has['page'], has['panel'], has['lit'], *shades]), ('red', red),
                            ('pale', [has['page'], has['panel']]), ('blue', [has['page'], has['panel']]),
                            ('page', [has[over] for over in ('ink', 'blue', 'brown')])):
            worst = min(contrast(has[word], colour) for colour in under)
            tally.check(f'{name}: words in {word}', worst >= 4.5, worst)
        for line, under in (('line', [has['page'], *shades]), ('blue', [has['lit'], *blocks]),
                            ('brown', [has['lit'], *blocks]), ('soft-blue', [has['page'], *blocks]),
                            ('soft-brown', [has['page'], *blocks]), ('red', [has['lit']])):
            worst = min(contrast(has[line], colour) for colour in under)
            tally.check(f'{name}: lines in {line}', worst >= 3, worst)
    for sheet in ('drawing.css', 'hall.css'):
        plain = re.findall('#[0-9a-fA-F]{3,8}\\b(?=[; }])', (SERVED / sheet).read_text())
        tally.check(f'{sheet} has its colours by name', not plain, plain)


def lanes(tally: Tally) -> None:
    """No two stretches of a lane touch, and there are as many lanes as stretches over some row."""
    rng = random.Random(1)
    for turn in range(50):
        rows = [tuple(sorted(rng.choices(range(40), k=2))) for _ in range(rng.randrange(60))]
        lane = packed(rows)
        apart = all(lane[i] != lane[j] or rows[i][1] < rows[j][0] or rows[j][1] < rows[i][0]
                    for i in range(len(rows)) for j in range(i))
        most = max((sum(low <= row <= high for low, high in rows) for row in range(40)), default=0)
        tally.check(f'lanes, turn {turn}', apart and len(set(lane)) == most == max(lane, default=-1) + 1, rows)


def faults(tally: Tally, folder: pathlib.Path) -> None:
    """What is not drawn gives no picture, a reason and a status."""
    paper, bad, text = ROOT / 'examples' / 'q.hex', folder / 'bad.hex', folder / 'text.hex'
    for typed in [b'01\n', b'01\r\n02\r\n', b'01\n02\n110001\n03\n']:
        bad.write_bytes(typed)
        seen, asked = run(DRAW, bad), run(KEY, given=typed)
        same = seen.err.replace(f'draw: {bad}: ', 'key: ').replace('draw: ', 'key: ') == asked.err
        tally.check(f'{typed!r} refused', same and (seen.out, seen.status) == (b'', 1), seen)
        tally.check(f'{typed!r} refused with gaps', run(DRAW, bad, '1') == seen, seen)
    for typed, word in [(b'2104\n2102\n', 'number 8'), (b'2100\n', 'number 8'), (b'210a\n', 'number 8'),
                        (b'2204\n', 'number 2'), (b'210405\n', 'number 2'), (b'210A\n', 'capital digits'),
                        (b'2104', 'no line feed')]:
        text.write_bytes(typed)
        seen = run(DRAW, paper, text)
        tally.check(f'{typed!r} as a placement', seen.out == b'' and word in seen.err and seen.status == 1, seen)
    decimal = folder / 'decimal.txt'
    decimal.write_bytes(b'21\n')
    for name, word, seen in [
            ('a gap too high', 'its gaps are 1 to 9', run(DRAW, paper, '4,10')),
            ('gap 0', 'its gaps are 1 to 9', run(DRAW, paper, '0')),
            ('a long number', 'its gaps are 1 to 9', run(DRAW, paper, '1' * 5000)),
            ('a file with a number in decimal', 'its gaps are 1 to 9', run(DRAW, paper, decimal)),
            ('no paper', 'cannot read', run(DRAW, folder / 'none.hex')),
            ('a folder', 'cannot read', run(DRAW, folder)),
            ('a paper without end', 'more than 1,048,576 bytes', run(DRAW, '/dev/zero')),
            ('nothing asked', './draw --help', run(DRAW)),
            ('no placement', 'cannot read', run(DRAW, paper, folder / 'none.hex')),
            ('output full', 'not written', run(DRAW, paper, shell='"$@" > /dev/full')),
            ('output closed', 'not written', run(DRAW, paper, shell='"$@" >&-'))]:
        tally.check(name, seen.failed(word), seen)


def main() -> None:
    tally = Tally()
    with tempfile.TemporaryDirectory() as name:
        folder = pathlib.Path(name)
        drawn(tally, folder)
        barred(tally, folder)
        full_size(tally, folder)
        views(tally, folder)
        lanes(tally)
        contrasts(tally)
        faults(tally, folder)
    tally.close()


main()
