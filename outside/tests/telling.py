"""What ./desk tells: usage, numbers in words, listings, keys, reasons. The last line is 'N passed, M failed'.

Needs gcc, target/bin/key and the library's archive (rt lib in crates/host).
"""
import base64
import ctypes
import dataclasses
import hashlib
import math
import pathlib
import random
import re
import shutil
import subprocess
import sys
import tempfile

from office import records
from office.day import COMMANDS
from office.frames import BARRED, CARRIED, FLAGGED, placement_text, text_of
from office.header import DECLARED, HEADER
from office.library import Desk, Nest
from office.listing import Listing, spelled, words_of
from office.paper import paper_on, placed
from office.refusal import Refused
from office.show import listing_of
from office.words import RULES, spoken
from outside.measure import papers
from outside.trying import DESK, DRAW, EXAMPLES, PROGRAM, ROOT, VERSION, Seen, Tally, run

FULL = '"$@" > /dev/full'
# The programs in examples/programs: how many barriers of the key each loop has of its own, if any.
PROGRAMS = {
    'jacobi': {'step': 2}, 'red_black': {'sweep': 3}, 'wavefront': {'diagonal': 1}, 'lu': {'k': 3},
    'fft': {'signal': 2, 'stage': 1}, 'double_buffer': {'frame': 2}, 'lulesh': {'cycle': 4}, 'swim': {'step': 3},
    'locks': {'turn': 3}, 'refinement': {'step': 1, 'level': 1}, 'matrix_product': {'tile': 2},
    'conjugate_gradient': {'iteration': 3}, 'n_body': {'step': 2}, 'monte_carlo': {'batch': 2},
    'multigrid': {'cycle': 1, 'down': 2, 'up': 2}}
KINDS = ['deep', 'one', 'many', 'mixed', 'carried', 'tails', 'pairs', 'barred']
# What takes long to load, and who does without.
HEAVY = ['dataclasses', 'inspect', 'typing', 'pathlib', 'shutil', 'subprocess', 'hashlib', 'json', 'sqlite3',
         'office.listing']
LIGHT = [['check', 'P'], ['key', 'P'], ['key', 'P', '--words'], ['missing', 'P'], ['calls', 'P', '3']]

# Papers with a fault: the text, the number, the line or 0, and words that quote the line or say what is missing. Which
# cause it is, mistakes.py tries.
FAULTS = [
    (b'01\n02\n110A05\n', 1, 3, '"110A05"'), (b'01\r\n02\r\n', 1, 1, 'CRLF'), (b'05\n', 2, 1, '"05"'),
    (b'01\n02\n1100\n', 2, 3, '"1100"'), (b'01\n02\n110001\n03\n', 3, 4, '"03"'), (b'03\n', 4, 1, '"03"'),
    (b'01\n', 4, 2, 'the end of the text'), (b'01\n' + b'03\n' * 300, 5, 257, '"03"'), (b'01\n' * 9, 5, 9, '"01"'),
    (b'01\n03\n02\n110105\n', 6, 4, '"110105"'), (b'01\n03\n02\n110101\n', 7, 4, '"110101"'),
    (b'01\n03\n02\n1303\n', 8, 4, '"1303"'), (b'01\n01\n02\n02\n1301\n', 14, 5, '"1301"'),
    (b'01\n03\n02\n110001\n1301\n', 15, 0, 'as a whole')]

# A listing as a setter types it, and the text; then the same with a fault: what takes whose place, the line, words.
TYPED = """# two loops in a row
DO year
  DO month          # the first
    rent
    bread
  enddo month
  do
    shoes
  ENDDO
ENDDO
rent -> bread
3: shoes -> rent round year
DO month -> ENDDO month
month -> month round year
"""
TYPED_TEXT = b'01\n01\n03\n03\n02\n01\n03\n02\n02\n110203\n12000602\n110104\n12000104\n'
TYPED_FAULTS = [
    ('bread\n  enddo', 'rent\n  enddo', 5, 'rent stands on line 4 already'),
    ('enddo month', 'enddo year', 6, 'loop month of line 3 is open'),
    ('rent -> bread', 'rent -> cake', 11, 'nothing is called cake'), ('rent -> bread', 'rent => bread', 11, 'arrow'),
    ('rent -> bread', 'bread -> rent', 11, 'number 7'), ('round year\nDO', 'round week\nDO', 12, 'called week'),
    ('DO month -> ENDDO', 'ENDDO month -> DO', 13, 'number 6'), ('ENDDO\nrent', 'rent', 2, 'number 4'),
    ('    shoes', 'barred | shoes', 8, 'number 14'), ('3: shoes', 'barred | 3: shoes', 12, 'before a point'),
    ('DO year', 'year', 2, 'number 4'), ('month -> month', 'rent ->', 14, 'missing'),
    ('    rent', 'r\xe4nt', 4, 'a name has letters'), ('month -> month round year\n', 'late\n', 14, 'number 4')]


def told(seen: Seen, *words: str) -> bool:
    """All the words stand in what was written, whatever the lines."""
    out = ' '.join(seen.out.decode().split())
    return seen.status == 0 and seen.err == '' and all(word in out for word in words)


def usage(tally: Tally) -> None:
    """Help and version for all; what is asked wrongly gets one line that says what to do."""
    seen = run(DESK, '--version')
    library = hashlib.sha256((ROOT / 'target' / 'libdesk.so').read_bytes()).hexdigest()
    wanted = rf'desk {re.escape(VERSION)}, commit [0-9a-f]{{12}}, library {library}\n'
    tally.check('--version', bool(re.fullmatch(wanted, seen.out.decode())) and (seen.err, seen.status) == ('', 0), seen)
    seen = run(DESK, '--help')
    tally.check('--help', told(seen, *COMMANDS, 'Status: 0 done, 1 refused, 2'), seen)
    for name in COMMANDS:
        shown = run(DESK, name, '--help')
        tally.check(f'{name} --help', told(shown, f'usage: ./desk {name} ', 'Status: 0'), name)
        tally.check(f'{name} --help: what it does', re.search(rb'\n\n[A-Z][a-z]+s ', shown.out) is not None, shown)
    for asked in [[], ['help'], ['-h']]:
        tally.check(f'the help by {asked}', run(DESK, *asked) == seen, asked)
    tally.check('help of a command', run(DESK, 'help', 'mark') == run(DESK, 'mark', '--help'))
    for name, asked, word in [
            ('help of no command', ['help', 'chek'], 'no command chek: did you mean check?'),
            ('the page of no command', ['manual', 'marks'], 'no command marks: did you mean mark?'),
            ('no command', ['chek'], 'no command chek: did you mean check?'), ('nothing near', ['xyz'], 'command xyz;'),
            ('no option of all', ['--bogus'], 'no option --bogus;'), ('no option', ['key', '--b'], 'no option --b;'),
            ('an option in part', ['key', '--word', 'x'], 'no option --word: did you mean --words?'),
            ('no paper', ['check'], 'required: PAPER'), ('too many', ['key', 'a', 'b\x1b'], 'too many: b?;'),
            ('a file like an option', ['mark', 'p', '-x.hex'], 'no option -x.hex;')]:
        seen = run(DESK, *asked)
        tally.check(f'asked wrongly, {name}', seen.failed(word) and '--help says how to ask' in seen.err, seen)
    for asked in (['join', '-', '-'], ['why', '-', '-'], ['why', '-', '3', '-'], ['check', '-', '-']):
        seen = run(DESK, *asked, given=EXAMPLES['p'])
        tally.check(f'{asked}: - twice', '- stands for standard input, and can be named once' in seen.err, seen)
        tally.check(f'{asked}: nothing else', seen.status == 2 and not seen.out.count(b'\n') > 1, seen)
    for asked in [['--help'], ['--version'], ['key', '--help'], ['key', ROOT / 'examples' / 'p.hex']]:
        seen = run(DESK, *asked, shell=FULL)
        tally.check(f'{asked}, output full', seen.failed('standard output was not written'), seen)


def manual(tally: Tally, folder: pathlib.Path) -> None:
    """Pages for man, of ./desk and of each command, with the texts of the help; groff has nothing to say to them."""
    seen = run(DESK, 'manual', '--into', folder / 'man1')
    pages = sorted(path.name for path in (folder / 'man1').iterdir())
    tally.check('a page each', pages == sorted(['desk.1', *(f'desk-{name}.1' for name in COMMANDS)]), (seen, pages))
    tally.check('one alone', run(DESK, 'manual', 'mark').out == (folder / 'man1' / 'desk-mark.1').read_bytes())
    other = folder / 'man1' / 'desk.1'
    other.write_text('a letter')
    seen = run(DESK, 'manual', '--into', folder / 'man1')
    tally.check('a letter is left alone', seen.failed('left alone') and other.read_text() == 'a letter', seen)
    other.unlink()
    run(DESK, 'manual', '--into', folder / 'man1')
    if shutil.which('groff'):
        seen = run('groff', '-man', '-Tutf8', '-ww', *(folder / 'man1' / page for page in pages))
        shown = ' '.join(re.sub(r'\x1b\[[0-9;]*m|.\x08', '', seen.out.decode()).split())
        tally.check('groff reads them', (seen.err, seen.status) == ('', 0), seen.err)
        for word in ('desk-spell - writes the text of a paper', './desk check papers', '--over', 'A -> B round LOOP'):
            tally.check(f'shown: {word}', word in shown.replace('‐', '-').replace('−', '-'), shown[:300])


def programs(tally: Tally) -> None:
    """The listings of real programs have the keys that their remarks say, with the barriers in the loops that are named
    here; where a loop may not run, it is the one that the remark names."""
    folder = ROOT / 'examples' / 'programs'
    tally.check('fifteen', sorted(path.stem for path in folder.iterdir()) == sorted(PROGRAMS), [*folder.iterdir()])
    for name, wanted in PROGRAMS.items():
        text = (folder / f'{name}.txt').read_bytes()
        desk, read = Desk(), Listing()
        desk.load(spelled(text, name))
        desk.plan()
        for number, line in enumerate(text.decode().splitlines(), 1):
            read.read(number, words_of(line.partition('#')[0]))
        names = {one.point: called for called, those in read.named.items() for one in those}
        key = placed(desk, desk.key())
        said = re.search(r'^# Key: (.*?)\.', text.decode(), re.M)
        tally.check(f'{name}: the key', said is not None and said[1] == spoken('gap', key.gaps), key.gaps)
        counts = {names[d]: count for d, count in key.counts.items() if count}
        tally.check(f'{name}: the loops of its barriers', counts == wanted, counts)
        missing = [names[d] for d in desk.missing_runs()]
        tally.check(f'{name}: missing runs', missing == ['level'] * (name == 'refinement'), missing)


def form(tally: Tally, folder: pathlib.Path) -> None:
    """Every struct as C lays it out, and every function with its arguments."""
    lines = ['#include "desk.h"', '#include <stdio.h>', 'int main(void) {']
    wanted = []
    for name, kind in DECLARED.types.items():
        if issubclass(kind, ctypes.Structure):
            wanted.append(f'{name} {ctypes.sizeof(kind)}')
            lines.append(f'printf("{name} %zu\\n", sizeof({name}));')
            for field, _ in kind._fields_:
                at = getattr(kind, field)
                wanted.append(f'{name}.{field} {at.offset} {at.size}')
                place = f'offsetof({name}, {field}), sizeof((({name} *)0)->{field})'
                lines.append(f'printf("{name}.{field} %zu %zu\\n", {place});')
    source, program = folder / 'form.c', folder / 'form'
    source.write_text('\n'.join([*lines, 'return 0; }']))
    subprocess.run(['gcc', '-I', pathlib.Path(HEADER).parent, source, '-o', program], check=True)
    seen = subprocess.run([program], capture_output=True, text=True, check=True).stdout.splitlines()
    tally.check('the structs are those of C', seen == wanted and len(wanted) > 50, set(seen) ^ set(wanted))
    declared = pathlib.Path(HEADER).read_text()
    structs = re.findall(r'^typedef struct (\w+)', declared, re.M)
    functions = set(re.findall(r'\b(desk_\w+)\(', declared))
    tally.check('all structs', all(name in DECLARED.types for name in structs), structs)
    tally.check('all functions', set(DECLARED.functions) == functions, functions)


def numbers(tally: Tally, folder: pathlib.Path) -> None:
    """Every number has words; every fault of a paper is told by its number with the line quoted."""
    tally.check('words for 1 to 21', sorted(RULES) == list(range(1, 22)) and all(RULES.values()), RULES)
    paper = folder / 'faulty.hex'
    for text, number, line, word in FAULTS:
        paper.write_bytes(text)
        seen = run(DESK, 'check', paper)
        where = f'line {line} is refused' if line and '"' in word else word
        held = all(part in seen.err for part in [f'number {number}: ', where, word])
        blocked = seen.out.startswith(b'accepted') if number == 15 else seen.out == b''
        tally.check(f'{text[:16]!r} checked', held and blocked and seen.status == 1, seen)
    for name, parts in [('p', '14 points, 3 loops, 2 deep, 6 dependences'),
                        ('r', '8 points, 1 loop, 1 deep, 3 dependences'),
                        ('foundation', '7 points, 1 loop, 1 deep, 3 dependences, 3 barred gaps')]:
        seen = run(DESK, 'check', ROOT / 'examples' / f'{name}.hex')
        tally.check(f'{name} checked', seen == Seen(f'accepted: {parts}\n'.encode(), '', 0), seen)
    tally.check('the blank paper', told(run(DESK, 'check', '/dev/null'), 'blank paper', '2 points'))
    seen = run(DESK, 'check', '-', given=papers.text('mixed'))
    hard = b'loop 0 has 19 gaps of its own and 153 dependences at home in it; 25 and 40 can be looked over\n'
    tally.check('hard for people', hard in seen.out and (seen.err, seen.status) == ('', 0), seen)
    tally.check('not hard for people', b'hard' not in run(DESK, 'check', '-', given=papers.text('mixed', 20)).out)
    tally.check('a paper by standard input', told(run(DESK, 'check', '-', given=EXAMPLES['q']), '10 points'))
    for call, refusals in {Desk.plan: [10], Desk.key: [10, 11], Desk.take_back: [10, 13]}.items():
        desk = Desk()
        for number in refusals:
            try:
                call(desk)
                tally.check(f'{call.__name__} is refused by {number}', False)
            except Refused as refused:
                tally.check(f'{call.__name__} gives {number}', refused.refusal.number == number, refused)
            desk.load(EXAMPLES['p'])


def nest_text(nest: Nest) -> bytes:
    """The text of a nest: points, dependences, then barred gaps, each once."""
    frames = [[FLAGGED if i in nest.flagged else kind] for i, kind in enumerate(nest.points)]
    frames += [[kind, d, s, t] if kind == CARRIED else [kind, s, t] for kind, d, s, t in nest.dependences]
    return text_of(frames + [[BARRED, gap] for gap in sorted(set(nest.barred))])


def listings(tally: Tally, folder: pathlib.Path) -> None:
    """What show writes spell reads, and the other way round; a setter's own names; faults by their line."""
    texts = {name: text for name, text in EXAMPLES.items()}
    texts['foundation'] = (ROOT / 'examples' / 'foundation.hex').read_bytes()
    for kind in KINDS:
        texts[kind] = papers.text(kind)
    for name, text in texts.items():
        desk = Desk()
        desk.load(text)
        listing = listing_of(paper_on(desk)).encode()
        again = spelled(listing, name)
        tally.check(f'{name} shown and spelled', again == nest_text(desk.nest), again[:200])
        tally.check(f'{name} spelled in order', sorted(again.split()) == sorted(text.split()), again[:200])
        desk.load(again)
        tally.check(f'{name} shown again', listing_of(paper_on(desk)).encode() == listing, listing[:200])
        (folder / 'listing').write_bytes(listing)
    seen = run(DESK, 'show', ROOT / 'examples' / 'foundation.hex')
    lines = seen.out.decode().splitlines()
    for line in ['           | DO L0', '  1 barred |   S1', '  3        |   S3', '  6        | ENDDO L0']:
        tally.check(f'shown: {line}', line in lines, seen)
    words = '1: S4 -> S1 round L0  # carried by loop 0, 4 to 1: gaps 1 and 5 to 6; barred 1'
    tally.check('a dependence shown in words', words in lines, seen)
    again = run(DESK, 'spell', '-', given=seen.out)
    tally.check('spelled by standard input', again == Seen(texts['foundation'], '', 0), again)
    tally.check('a listing by hand', spelled(TYPED.encode(), 'typed') == TYPED_TEXT, spelled(TYPED.encode(), 'typed'))
    windows = b'\xef\xbb\xbf' + TYPED.replace('\n', '\r\n').replace('  ', '\t').encode()
    tally.check('with tabs, CRLF and a byte order mark', spelled(windows, 'typed') == TYPED_TEXT)
    typed = folder / 'typed'
    for old, new, line, word in TYPED_FAULTS:
        typed.write_text(TYPED.replace(old, new, 1), encoding='latin-1')
        seen = run(DESK, 'spell', typed)
        held = f'line {line}, column ' in seen.err and word in seen.err
        tally.check(f'{new!r} for {old!r}', held and (seen.out, seen.status) == (b'', 1), seen)
    for text, word in [(b'', 'no point'), (b'# nothing\n', 'no point'), (b'DO\n', 'line 1, is not closed')]:
        seen = run(DESK, 'spell', '-', given=text)
        tally.check(f'{text!r} spelled', word in seen.err and (seen.out, seen.status) == (b'', 1), seen)
    many = b'DO\n' + b''.join(b's%d\n' % i for i in range(300)) + b'ENDDO\ns299 -> s299\n'
    tally.check('300 statements', 'line 257' in run(DESK, 'spell', '-', given=many).err)


def names(tally: Tally, folder: pathlib.Path) -> None:
    """Names go along in a file beside the text, for that text alone; listing, picture and page have them."""
    listing, paper, beside = folder / 'nest.txt', folder / 'nest.hex', folder / 'nest.names'
    listing.write_text('DO year\nrent\nDO\nbread\nL2\nENDDO\nENDDO year\nrent -> bread\nL2 -> rent round year\n')
    spelt = run(DESK, 'spell', listing, '--names', beside)
    paper.write_bytes(spelt.out)
    text = f'sha256 {hashlib.sha256(spelt.out).hexdigest()}\n0 year\n1 rent\n3 bread\n4 L2\n'
    tally.check('names are written', beside.read_text() == text and (spelt.err, spelt.status) == ('', 0), spelt)
    shown = run(DESK, 'show', paper)
    tally.check('shown', told(shown, 'DO year', '1 | rent', 'DO L2_', '0: rent -> bread', 'rent 1 to bread 3'), shown)
    tally.check('and read again', spelled(shown.out, '') == spelt.out, shown)
    for file, given in ((listing, b''), ('-', listing.read_bytes())):
        seen = run(DESK, 'show', file, given=given)
        tally.check(f'a listing has its own names, {file}', seen.out == shown.out and 'is a listing' in seen.err, seen)
    drawn = run(DESK, 'draw', paper).out.decode()
    words = ('rent', 'bread', 'DO loop 0 year', 'ENDDO loop 0')
    tally.check('drawn', all(f'>{word}<' in drawn for word in words), drawn)
    page = folder / 'named.html'
    run(DESK, 'why', paper, '1', '--html', page)
    pictures = re.findall(r'base64,([A-Za-z0-9+/=]+)"', page.read_text())
    tally.check('on the page', len(pictures) == 3 and all(b'>bread<' in base64.b64decode(one) for one in pictures))
    answer, slips = folder / 'nobody.hex', folder / 'named'
    answer.write_bytes(b'')
    run(DESK, 'mark', paper, answer, '--slips', slips)
    slip = run(DESK, 'slip', *slips.glob('candidate/nobody.*.hex'), '--paper', paper)
    tally.check('in the words of a slip', told(slip, 'dependence 0: independent, rent 1 to bread 3'), slip)
    beside.rename(folder / 'away')
    seen = run(DESK, 'slip', *slips.glob('candidate/nobody.*.hex'), '--paper', listing)
    tally.check('by the listing', seen.out == slip.out, seen)
    tally.check('drawn from a listing', b'>bread<' in run(DESK, 'draw', listing).out)
    register = folder / 'named.db'
    seen = run(DESK, 'mark', listing, answer, '--register', register, '--new')
    run(DESK, 'export', register, '--slips', folder / 'listed')
    pages = [page.read_text() for page in (folder / 'listed').rglob('*.html')]
    tally.check('a register has them', pages and any('rent' in page for page in pages), (seen, pages[:1]))
    (folder / 'away').rename(beside)
    written = folder / 'written.hex'
    seen = run(DESK, 'spell', listing, '-o', written)
    tally.check('beside what is written', (seen.err, seen.status) == ('', 0) and written.read_bytes() == spelt.out
                and written.with_suffix('.names').read_text() == text, seen)
    beside.write_text(text.replace('rent', 'r' * 200))
    drawn = run(DESK, 'draw', paper).out.decode()
    tally.check('a long name is shortened', 'r\u2026<' in drawn and f'>{"r" * 200}<' not in drawn, drawn[:300])
    for wrong, word in ((text.replace('0 year', '0 ye-ar'), 'line 2 is not a point and a name'),
                        (text.replace('4 L2', '4 rent'), 'line 5: the point or the name is there already'),
                        (text.replace('4 L2', '6 L2'), 'line 5: point 6 is no statement and no DO'),
                        (text.replace('4 L2', '99 L2'), 'point 99 is no statement'), ('', 'is no file of names')):
        beside.write_text(wrong)
        seen = run(DESK, 'show', paper)
        tally.check(f'names: {word}', seen.failed(word, 1), seen)
    beside.write_text(f'sha256 {"0" * 64}\n1 rent\n')
    seen = run(DESK, 'show', paper)
    tally.check('of another paper', b'S1' in seen.out and 'is of another paper' in seen.err and seen.status == 0, seen)
    kept = paper.read_bytes()
    letter = folder / 'letter.hex'
    letter.with_suffix('.names').write_text('dear Sir\n')
    for more in ([], ['--names', paper], ['--names', '-']):
        seen = run(DESK, 'spell', listing, '-o', letter, *more)
        tally.check(f'no paper without its names, {more}', seen.status == 2 and not letter.exists(), seen)
    seen = run(DESK, 'spell', listing, '--names', paper)
    tally.check('no names over a paper', seen.failed('left alone') and paper.read_bytes() == kept, seen)


def keys(tally: Tally, folder: pathlib.Path) -> None:
    """The program's bytes, refusals too; in words; the textbook's placement; the picture."""
    paper = folder / 'paper.hex'
    for text in [*EXAMPLES.values(), b'', b'01\n' * 3000, *(text for text, *_ in FAULTS)]:
        paper.write_bytes(text)
        seen, own = run(DESK, 'key', paper), run(PROGRAM, given=text)
        status = int(own.out.startswith(b'2f'))
        tally.check(f'the key of {text[:16]!r}', (seen.out, seen.status) == (own.out, status), seen)
    p, q, r = (ROOT / 'examples' / f'{name}.hex' for name in 'pqr')
    seen = run(DESK, 'key', p, '--words')
    tally.check('in words', seen.out.decode() == 'key: gaps 5, 11\nloop 0: 0\n├ loop 1: 1\n└ loop 7: 1\n', seen)
    tally.check('the textbook', run(DESK, 'textbook', r) == Seen(b'2101\n2104\n', '', 0))
    tally.check('the textbook in words', told(run(DESK, 'textbook', r, '--words'), 'textbook: gaps 1, 4'))
    seen = run(DESK, 'textbook', p)
    tally.check('the textbook of several loops', 'number 14' in seen.err and seen.status == 1, seen)
    tally.check('the picture', run(DESK, 'draw', q, '4,7') == run(DRAW, q, '4,7'))


def as_good(paper, first: dict[int, int], second: dict[int, int], d: int = 0) -> bool:
    """001, definition 1, tree by tree."""
    under = [k for k in paper.end if k and paper.owner[k] == d]
    equal = all(first[k] == second[k] for k in paper.inside(d))
    return all(as_good(paper, first, second, k) for k in under) and (not equal or first[d] <= second[d])


def deciding(paper, first: dict[int, int], second: dict[int, int]) -> list[int]:
    """The loops where two trees differ while all loops inside agree, by rising DO."""
    differ = {d for d in paper.end if first[d] != second[d]}
    return sorted(d for d in differ if not differ.intersection(paper.inside(d)))


def trees(tally: Tally) -> None:
    """Which of two placements is better, which loops decide, and the calls of a placement, on random nests."""
    rng = random.Random(1)
    for turn in range(300):
        points, opened = [1], 1
        while opened:
            kind = rng.choice([1, 2, 3]) if len(points) < 16 and opened < 8 else 2
            opened += {1: 1, 2: -1, 3: 0}[kind]
            points.append(kind)
        desk = Desk()
        desk.load(''.join(f'{kind:02x}\n' for kind in points).encode())
        paper = paper_on(desk)
        texts = [placement_text(g for g in range(1, len(points)) if rng.random() < 0.3) for _ in range(2)]
        first, second = (placed(desk, text).counts for text in texts)
        wanted = as_good(paper, first, second), as_good(paper, second, first)
        held = desk.compare(*texts)
        tally.check(f'trees, turn {turn}', (held.first, held.second) == wanted, (points, texts))
        tally.check(f'deciding loops, turn {turn}', held.deciding == deciding(paper, first, second), (points, texts))
        turns = bytes(rng.randrange(1, 17) for _ in paper.end)
        gaps = [gap for gap in range(1, len(points)) if rng.random() < 0.3]
        by_hand = sum(math.prod(many for k, many in zip(paper.end, turns) if k < gap <= paper.end[k]) for gap in gaps)
        made = desk.placement_calls(placement_text(gaps), turns)
        tally.check(f'calls, turn {turn}', made == by_hand, (points, gaps, turns))


def reasons(tally: Tally, folder: pathlib.Path) -> None:
    """Why on P, Q, R, the paper with gap 4, and two placements that cannot be compared; the page."""
    p, q, r, four = (*(ROOT / 'examples' / f'{name}.hex' for name in 'pqr'), folder / 'four.hex')
    four.write_bytes(b'01\n03\n01\n03\n03\n03\n02\n03\n02\n110104\n110307\n')
    dearer = ['So the key is better.', 'and this decides']
    for paper, asked, words in [
            (q, ['4,7'], [*dearer, '└ loop 2: 1 < └ loop 2: 0 <', 'Loop 2: 1 against 0', 'loop 3 has 1 each',
                          'The desk says of gaps 4, 7: Dearer, loop 2, 1 against 0.', '1,100 times', '1,010 with']),
            (p, ['3,9'], ['With gaps 3, 9 dependence 4 is not cut', '1 to 2 and 11 to 13', 'gaps 3, 9: Uncut 4.']),
            (p, [''], ['With no gap dependence 0, the first of 6, is not cut']),
            (p, ['3,9,13'], [*dearer, 'loop 0: 1 < loop 0: 0 <', 'Dearer, loop 0, 1 against 0', '210 times', '200']),
            (p, ['4,5,10,11'], [*dearer, 'Loop 1: 2 against 1', 'Loop 7 would decide the same way']),
            (p, ['4,5,11', '5,10,11'], ['Neither is as good or better than the other', 'at loop 1 it is 2 against 1',
                                        'at loop 7 it is 1 against 2', '300 times with gaps 4, 5, 11 and 300']),
            (p, ['5,11', '4,5,11'], ['So gaps 5, 11 are better.', 'gaps 5, 11: Best.', 'Dearer, loop 1, 2 against 1']),
            (r, ['2,5'], ['the same count in both', 'wherever their barriers stand', 'gaps 2, 5: Best.']),
            (four, ['4'], [*dearer, 'Loop 2: 1 against 0', '100 times with gap 4 and 20 with the key']),
            (four, ['4', '--turns', '3,2'], ['3 of loop 0, 2 of loop 2', '6 times with gap 4 and 6 with']),
            (four, ['4', '--turns', '1'], ['1 time with gap 4 and 2 with the key', 'at least two turns'])]:
        seen = run(DESK, 'why', paper, *asked)
        tally.check(f'why {paper.name} {asked}', told(seen, *words), seen)
    (folder / 'key.hex').write_bytes(b'2105\n210b\n')
    tally.check('a file', run(DESK, 'why', p, folder / 'key.hex') == run(DESK, 'why', p, '5,11'))
    blocked = folder / 'blocked.hex'
    blocked.write_bytes(b'01\n03\n03\n02\n110001\n1301\n')
    tally.check('no key', 'number 15' in run(DESK, 'why', blocked, '2').err)
    barred = folder / 'barred.hex'
    barred.write_bytes(b'01\n03\n03\n02\n110102\n1301\n')
    tally.check('no calls counted', told(run(DESK, 'why', barred, '2'), 'Calls are not counted'))
    tally.check('two without a key', told(run(DESK, 'why', blocked, '2', '3'), 'With gap 2 dependence 0 is not cut'))
    for asked, word in [(['14'], 'gap 14 is none of this paper: its gaps are 1 to 13\n'),
                        (['5', '--turns', '0'], 'turns 0: loop 0 may have 1 to 16 turns, and 0 are given'),
                        (['5', '--turns', '2,17,2'], 'loop 1 may have 1 to 16 turns, and 17 are given'),
                        (['5', '--turns', '2,2'], 'this paper has 3 loops, and 2 numbers of turns are given'),
                        (['5', '--turns', 'x'], 'up to 16'),
                        (['5', '--json', '--html', folder / 'none.html'], 'give one of them')]:
        seen = run(DESK, 'why', p, *asked)
        tally.check(f'why {asked}', seen.failed(word), seen)
    tally.check('no page beside JSON', not (folder / 'none.html').exists())
    for gaps, times in (('3', 1), ('4', 2)):
        words = ' '.join(run(DESK, 'why', p, '3', gaps).out.decode().split())
        many = words.count('is not cut'), words.count('The desk says of gap'), words.count('The program could')
        tally.check(f'why 3 {gaps}: nothing is said twice', many == (times, times, 1), words)
    page = folder / 'why.html'
    seen = run(DESK, 'why', q, '4,7', '--html', page)
    html = page.read_text()
    tally.check('a page', seen == Seen(b'', '', 0) and html.count('src="data:image/svg+xml;base64,') == 5, seen)
    tally.check('no network, no script', not re.search(r'https?:|<script|<link|@import', html), html[:300])
    paper_hash = hashlib.sha256(q.read_bytes()).hexdigest()
    for word in ['size: A4', 'and this decides', 'loop 2: 1  &lt;', 'alt="q, barriers 4, 7"', '1,100 times',
                 paper_hash]:
        tally.check(f'the page has {word}', word in html, html[:300])
    large, answer = folder / 'large.hex', folder / 'anna.hex'
    large.write_bytes(papers.text('mixed'))
    answer.write_bytes(placement_text(range(1, 256)))
    run(DESK, 'why', large, answer, '--html', page)
    html = page.read_text()
    drawn = [base64.b64decode(data).decode() for data in re.findall(r'base64,([A-Za-z0-9+/=]+)"', html)]
    tally.check('whose placement it is', '<th>Placement of</th><td><bdi>anna</bdi></td>' in html, html[:900])
    sizes = [float(size) for one in drawn for size in re.findall(r'<svg [^>]*? width="([0-9.]+)"', one)]
    titles = [re.search('<title>large, (loop|a claim about loop) ([0-9]+),', one) for one in drawn]
    tally.check('a large paper by the loops that decide', all(titles) and 0 < len(drawn) and max(sizes) <= 800, sizes)
    seen = run(DESK, 'why', q, '4,7', '--html', folder)
    tally.check('no page', seen.failed('no plain file'), seen)
    tally.check('a page over a page', run(DESK, 'why', q, '4,7', '--html', page).status == 0)
    for other in (folder / 'key.hex', folder / 'empty.hex'):
        other.touch()
        kept = other.read_bytes()
        seen = run(DESK, 'why', q, '4,7', '--html', other)
        tally.check(f'no page over {other.name}', seen.failed('it is left alone') and other.read_bytes() == kept, seen)
    tally.check('nothing beside the page', not [*folder.glob('.*')], [*folder.glob('.*')])


def starts(tally: Tally, folder: pathlib.Path) -> None:
    """What a start imports: little, and nothing that a site adds to every Python."""
    (folder / 'sitecustomize.py').write_text('import sys\nsys.exit("a module of the site")\n')
    for command in (DESK, DRAW):
        asked = [command, *['check'] * (command == DESK), ROOT / 'examples' / 'p.hex']
        tally.check(f'{command.name} has no module of the site', run(*asked, PYTHONPATH=str(folder)) == run(*asked))
    for words in LIGHT:
        asked = [ROOT / 'examples' / 'p.hex' if word == 'P' else word for word in words]
        seen = run(sys.executable, '-S', '-X', 'importtime', DESK, *asked)
        loaded = {line.rpartition('|')[2].strip() for line in seen.err.splitlines()}
        tally.check(f'{" ".join(words)} is light', seen.status == 0 and 'office.library' in loaded and
                    loaded.isdisjoint(HEAVY), loaded & {*HEAVY} or seen)


def alike(tally: Tally) -> None:
    """Records do what dataclasses do."""
    told = []
    for kind in (dataclasses, records):
        @kind.dataclass(frozen=True)
        class One:
            first: int
            second: str = 'two'
            third: list[int] = kind.field(default_factory=list)

        @kind.dataclass
        class Other:
            first: int

        one = One(1)
        mended = kind.replace(one, second='2')
        told.append([str(one).rpartition('.')[2], vars(One(third=[3], first=1)), vars(mended), one == One(1, 'two', []),
                     one == mended, one == Other(1), one.third is One(1).third, {Other(1) == Other(1)}, Other.__hash__,
                     hash(One(1, third=())) == hash(One(1, 'two', ()))])
        for name, given, named in [('many', (1, '2', [], 4), {}), ('unknown', (1,), {'fourth': 4}), ('few', (), {})]:
            try:
                One(*given, **named)
                told[-1].append(name)
            except (TypeError, AttributeError):
                pass
    tally.check('records', told[0] == told[1], told)


def main() -> None:
    tally = Tally()
    with tempfile.TemporaryDirectory() as name:
        folder = pathlib.Path(name)
        usage(tally)
        manual(tally, folder)
        programs(tally)
        form(tally, folder)
        numbers(tally, folder)
        listings(tally, folder)
        names(tally, folder)
        keys(tally, folder)
        trees(tally)
        reasons(tally, folder)
        starts(tally, folder)
        alike(tally)
    tally.close()


main()
