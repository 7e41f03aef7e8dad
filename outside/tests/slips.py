"""Slips, notes and certificates, as people get them: what stands on them, who may read them, and which are handed out
no more. Needs the library's archive (rt lib in crates/host). The last line is 'N passed, M failed'.
"""
import hashlib
import html
import itertools
import json
import pathlib
import re
import shutil
import sys
import tempfile
from collections.abc import Callable
from unittest import mock

from office import day
from office.audit import planned
from office.slip_files import Made, Slips, slips_of
from office.slip_words import slip_in
from outside.tests.book import ANSWERS, P, Q, change
from outside.tests.workday import KEYS, slip_of, text_of, verdict
from outside.trying import DESK, EXAMPLES, ROOT, Seen, Tally, run

ARGUMENTS = ROOT / 'examples' / 'arguments'
NAMES = 'id,name\nanna,"Ávila, Anna"\nbert,Bert\ncarl,Carl\ndora,Dora\neva,Eva\n'
OFFICE = ['--office', 'Office & Sons', '--place', 'Berne']
NUMBER = re.compile('[a-z2-9]{4}(?:-[a-z2-9]{4}){3}')
# What no candidate's page may have: verdicts, the key, and what only the register knows.
HIDDEN = re.compile('best|dearer|uncut|verdict|key|against|certificate|library|hash of the mark', re.I)


def page_of(slips: pathlib.Path, candidate: str, paper: str, reader: str) -> pathlib.Path:
    """The page beside a slip."""
    return slip_of(slips, candidate, paper, reader).with_suffix('.html')


def words_of(page: pathlib.Path) -> str:
    """The words of a page, without its style."""
    text = re.sub('<style>.*?</style>|<[^>]*>', ' ', page.read_text(), flags=re.S)
    return ' '.join(html.unescape(text).split())


def a_register(folder: pathlib.Path) -> pathlib.Path:
    """Four answers on P and who is absent, with the names of a list."""
    (folder / 'names.csv').write_text(NAMES)
    register = folder / 'register.db'
    run(DESK, 'mark', P, *ANSWERS, '--register', register, '--new', '--candidates', folder / 'names.csv')
    return register


# ---- Slips in words

def numbers(tally: Tally, _: pathlib.Path) -> None:
    """Slips of all placements of two barriers say what an own reading of the rules says."""
    for name, text in EXAMPLES.items():
        desk, many = planned(text), sum(line[:2] in (b'01', b'02', b'03') for line in text.split())
        for gaps in itertools.combinations(range(1, many), 2):
            wanted = verdict(text, gaps, KEYS[name])
            made = {reader: slip_in(slip) for (reader, _), slip in slips_of(desk, text_of(gaps)).items()}
            cells = [str(cell or ('' if cell is None else 0)) for cell in vars(made['examiner'].finding).values()]
            uncut = '' if made['candidate'].uncut is None else str(made['candidate'].uncut)
            holds = cells == wanted[:7] and uncut == wanted[1] and sum(made['candidate'].counts.values()) == 2
            alone = (made['candidate'].finding, made['candidate'].cuts) == (None, [])
            cut = all(gap is None or gap in gaps for gap in made['examiner'].cuts)
            tally.check(f'{name} {gaps}', holds and alone and cut, made)


def in_words(tally: Tally, folder: pathlib.Path) -> None:
    """What ./desk slip tells, and what is no slip."""
    examiner = b'230004\n220000\n220101\n220701\n2400000000\n2503\n2503\n2509\n2509\n2500\n2509\n'
    slip = folder / 'slip.hex'
    slip.write_bytes(examiner[:28])
    seen = run(DESK, 'slip', slip)
    told = ["The candidate's slip.", 'The first dependence that no barrier cuts is dependence 4.',
            'Barriers of its own in each loop:', 'loop 0: 0', 'loop 1: 1', 'loop 7: 1']
    tally.check("the candidate's", seen.out.decode().splitlines() == told and seen.status == 0, seen)
    seen = run(DESK, 'slip', '-', '--paper', P, given=examiner[:28])
    more = ['dependence 4: carried by loop 0, 10 to 2: gaps 1 to 2 and 11 to 13.', '├ loop 1: 1\n└ loop 7: 1\n']
    tally.check('with the paper', all(word in seen.out.decode() for word in more), seen)
    slip.write_bytes(examiner)
    seen = run(DESK, 'slip', slip)
    more = ["The examiner's slip.", 'The desk says: Uncut 4.', 'dependence 3: gap 9\ndependence 4: not cut\n']
    tally.check("the examiner's", all(word in seen.out.decode() for word in more), seen)
    slip.write_bytes(b'23ffff\n220001\n220101\n220701\n2401000100\n2503\n2503\n2509\n2509\n250d\n2509\n')
    seen = run(DESK, 'slip', slip)
    more = ['Every dependence is cut.', 'The desk says: Dearer, loop 0, 1 against 0.', 'dependence 4: gap 13\n']
    tally.check('another', all(word in seen.out.decode() for word in more), seen)
    tally.check('of another paper', run(DESK, 'slip', slip, '--paper', Q).failed('is no slip of', 1))
    for name, text, word in [
            ('nothing', b'', 'its end is missing'), ('one line', b'230004\n', 'its end is missing'),
            ('an answer', text_of([5, 11]), 'line 1 is not'), ('a paper', EXAMPLES['p'], 'line 1 is not'),
            ('no line feed', examiner[:27], 'line 4 is not'), ('a line less', examiner[7:], 'line 1 is not'),
            ('capital digits', examiner.replace(b'ff', b'FF').replace(b'2503', b'250D'), 'line 6 is not'),
            ('a line too long', examiner.replace(b'220101', b'22010101'), 'line 3 is not'),
            ('carriage returns', examiner.replace(b'\n', b'\r\n'), 'line 1 is not'),
            ('lines moved', b'230004\n220101\n220000\n220701\n', 'contradict'),
            ('a loop twice', b'230004\n220000\n220000\n', 'contradict'),
            ('another verdict', examiner.replace(b'2400', b'2402'), 'contradict'),
            ('no such verdict', examiner.replace(b'2400', b'2403'), 'no such verdict'),
            ('another first', examiner.replace(b'230004', b'230003'), 'contradict'),
            ('all cut', examiner.replace(b'2500', b'250d'), 'contradict'),
            ('two verdicts', examiner + b'2400000000\n', 'line 12 is not')]:
        slip.write_bytes(text)
        seen = run(DESK, 'slip', slip)
        tally.check(f'no slip: {name}', seen.failed(word, 1), seen)
    tally.check('a folder', run(DESK, 'slip', folder).failed('cannot read'))


# ---- What is exported

def exported(tally: Tally, folder: pathlib.Path) -> None:
    """Both slips of each answer with their pages; a note of what was refused; nothing of who is absent."""
    register, slips = a_register(folder), folder / 'slips'
    seen = run(DESK, 'export', register, '--slips', slips)
    tally.check('told', seen == Seen(f'{slips}: 3 answers with slips, 1 note\n'.encode(), '', 0), seen)
    seen = run(DESK, 'export', register, '--slips', slips, '--json')
    tally.check('for programs', json.loads(seen.out) == {'answers': 3, 'notes': 1, 'faults': []} and (
        seen.err, seen.status) == ('', 0), seen)
    tally.check('files', len([*slips.glob('*/*')]) == 14 and not [*slips.glob('*/eva.*')], [*slips.glob('*/*')])
    modes = [file.stat().st_mode & 0o777 for file in [slips / 'examiner', *(slips / 'examiner').iterdir()]]
    tally.check("the examiner's are nobody else's", modes == [0o700, *[0o600] * 7], modes)
    desk = planned(EXAMPLES['p'])
    for name in ('anna', 'bert', 'carl'):
        answer = next(file for file in ANSWERS if file.stem == name).read_bytes()
        for (reader, _), slip in slips_of(desk, answer).items():
            words, page = words_of(page_of(slips, name, 'p', reader)), page_of(slips, name, 'p', reader).read_text()
            tally.check(f'{name}, {reader}: the slip', slip_of(slips, name, 'p', reader).read_bytes() == slip and (
                ' '.join(slip.decode().split()) in words), words)
            tally.check(f'{name}, {reader}: the page', 'size: A4' in page and not re.search(
                r'https?:|<script|<link|@import|src=', page), page[:200])
            told = [hashlib.sha256(EXAMPLES['p']).hexdigest(), hashlib.sha256(answer).hexdigest(), f'({name})'.lower()]
            tally.check(f'{name}, {reader}: whose', all(word in words.lower() for word in told), words)
            hidden = HIDDEN.search(words)
            tally.check(f'{name}, {reader}: of the key', (hidden is None) == (reader == 'candidate'), hidden)
    verdicts = {'anna': 'Best', 'bert': 'Uncut 4', 'carl': 'Dearer, loop 0, 1 against 0'}
    for name, told in verdicts.items():
        words = words_of(page_of(slips, name, 'p', 'examiner'))
        tally.check(f'{name}: the verdict', f'The desk says {told} ' in words, words)
    words, told = words_of(page_of(slips, 'bert', 'p', 'candidate')), 'no barrier cuts is dependence 4: carried by'
    tally.check('what is not cut', told in words, words)
    tally.check('a name', 'Candidate Ávila, Anna (anna) Paper p' in words_of(page_of(slips, 'anna', 'p', 'candidate')))
    for reader in ('candidate', 'examiner'):
        words = words_of(page_of(slips, 'dora', 'p', reader))
        told = ['Line 2 is refused: "210B".', 'Number 1: it has capital digits: type a to f small.']
        tally.check(f'a note for the {reader}', all(word in words for word in told), words)
        tally.check(f'no slip for the {reader}', not slip_of(slips, 'dora', 'p', reader).exists())
    for slip in slips.glob('*/*.hex'):
        tally.check(f'{slip.name} in words', run(DESK, 'slip', slip, '--paper', P).status == 0)
    whole = {file: file.read_bytes() for file in slips.glob('*/*')}
    run(DESK, 'export', register, '--slips', slips, '--candidate', 'ANNA')
    tally.check('the same again', whole == {file: file.read_bytes() for file in slips.glob('*/*')})


def named(tally: Tally, folder: pathlib.Path) -> None:
    """The names of statements that lay beside the paper when it was marked stand on the pages; a register whose names
    were changed by hand hands nothing out."""
    register, slips, paper = folder / 'register.db', folder / 'slips', folder / 'p.hex'
    paper.write_bytes(EXAMPLES['p'])
    bound = hashlib.sha256(EXAMPLES['p']).hexdigest()
    (folder / 'p.names').write_text(f'sha256 {bound}\n0 sweep\n2 update\n10 copy\n')
    run(DESK, 'mark', paper, *ANSWERS, '--register', register, '--new')
    (folder / 'p.names').unlink()
    run(DESK, 'export', register, '--slips', slips)
    for reader in ('candidate', 'examiner'):
        words = words_of(page_of(slips, 'bert', 'p', reader))
        told = 'dependence 4: carried by loop 0, copy 10 to update 2: gaps 1 to 2 and 11 to 13.'
        tally.check(f'names for the {reader}', told in words, words)
    change(register, "UPDATE names SET text = CAST('2 update' AS BLOB)", False)
    seen = run(DESK, 'export', register, '--slips', slips)
    tally.check('names that were changed', seen.status == 2 and 'not as it was made' in seen.err, seen)


def no_longer(tally: Tally, folder: pathlib.Path) -> None:
    """What a later mark took the place of is handed out no more."""
    register, slips, late = a_register(folder), folder / 'slips', folder / 'late' / 'anna.hex'
    late.parent.mkdir()
    run(DESK, 'export', register, '--slips', slips)
    run(DESK, 'mark', Q, ANSWERS[1], '--register', register)
    for text, told in [(text_of([3, 9, 13]), 'gaps 3, 9, 13'), (b'21\n', None), (text_of([3, 9]), 'gaps 3, 9')]:
        late.write_bytes(text)
        run(DESK, 'mark', P, late, '--register', register, '--replace', 'once more')
        run(DESK, 'export', register, '--slips', slips)
        for reader in ('candidate', 'examiner'):
            words, slip = words_of(page_of(slips, 'anna', 'p', reader)), slip_of(slips, 'anna', 'p', reader)
            note = 'An answer that was refused' in words
            holds = f'Barriers {told} ' in words and slip.exists() and not note if told else note and not slip.exists()
            tally.check(f'{told}, {reader}', holds, words)
    tally.check('on another paper', page_of(slips, 'bert', 'q', 'candidate').exists())
    run(DESK, 'mark', P, late, '--register', register, '--slips', slips)
    there = [file.name for file in slips.glob('*/anna.p-*')]
    tally.check('marking takes pages away', sorted(name.split('.')[-1] for name in there) == ['hex', 'hex'], there)
    late.write_bytes(text_of([5, 11]))

    def meanwhile(real: Callable[[Slips, str, object, Made], list[str]]) -> Callable[..., list[str]]:
        """Somebody marks while slips are written: Anna's first."""
        def hand_out(slips: Slips, candidate: str, *more: object) -> list[str]:
            if candidate == 'carl' and late.exists():
                run(DESK, 'mark', P, late, '--register', register, '--replace', 'meanwhile')
                late.unlink()
            return real(slips, candidate, *more)  # type: ignore[arg-type]
        return hand_out

    with mock.patch.object(Slips, 'hand_out', meanwhile(Slips.hand_out)), mock.patch('office.export.write_out'):
        day.main(['export', str(register), '--slips', str(slips)])
    words = words_of(page_of(slips, 'anna', 'p', 'candidate'))
    tally.check('marked meanwhile', not late.exists() and 'Barriers gaps 5, 11 ' in words, words)


def not_written(tally: Tally, folder: pathlib.Path) -> None:
    """What is not ours is left alone, and what cannot be written is told; the others are written."""
    register, slips = a_register(folder), folder / 'slips'
    export = [DESK, 'export', register, '--slips', slips]
    others = [page_of(slips, 'anna', 'p', 'candidate'), slip_of(slips, 'bert', 'p', 'examiner'),
              slip_of(slips, 'dora', 'p', 'candidate'), page_of(slips, 'eva', 'p', 'candidate')]
    for other in others:
        other.parent.mkdir(parents=True, exist_ok=True)
        other.write_bytes(b'<!DOCTYPE html>\n<p>a letter</p>\n')
    seen = run(*export)
    tally.check("not over another's files", seen.err.count('it is left alone') == 2 and seen.status == 2, seen)
    again = run(*export, '--json')
    faults = ''.join(f'desk: {why}\n' for why in json.loads(again.out)['faults'])
    tally.check('for programs, too', (faults, again.err, again.status) == (seen.err, seen.err, 2), again)
    tally.check('they are as they were', all(other.read_bytes().endswith(b'a letter</p>\n') for other in others))
    tally.check('the others are written', page_of(slips, 'carl', 'p', 'examiner').exists(), seen)
    shutil.rmtree(slips)
    seen = run(*export, shell='ulimit -f 0; "$@"')
    tally.check('a full disk', seen.err.count('cannot write') == 14 and seen.status == 2, seen)
    tally.check('nothing is left', not [*slips.glob('*/*')], [*slips.glob('*/*')])
    page_of(slips, 'anna', 'p', 'candidate').mkdir()
    slip_of(slips, 'dora', 'p', 'examiner').mkdir()
    seen = run(*export)
    held = 'no plain file' in seen.err and 'cannot remove' in seen.err
    tally.check('folders in the way', held and seen.status == 2, seen)
    for name, word, seen in [
            ('no register', '--new makes one', run(DESK, 'export', folder / 'none.db', '--slips', slips)),
            ('a file for a folder', 'cannot write in', run(DESK, 'export', register, '--slips', register)),
            ('nobody', 'there is no mark', run(*export, '--candidate', 'fay')),
            ('output full', 'not written', run(*export, '--candidate', 'bert', shell='"$@" > /dev/full'))]:
        tally.check(name, seen.failed(word), seen)
    other = "UPDATE answer SET text = x'323130330a' WHERE sha256 = (SELECT answer FROM mark WHERE seq = 2)"
    for name, script in [('a verdict', "UPDATE mark SET verdict = 'Best', uncut = NULL WHERE seq = 2"),
                         ('an answer', other), ('a candidate', "UPDATE mark SET candidate = 'fay' WHERE seq = 2")]:
        changed, place = folder / 'changed.db', folder / name
        shutil.copy(register, changed)
        change(changed, script, mend=name == 'a verdict')
        seen = run(DESK, 'export', changed, '--slips', place)
        held = 'mark 2, ' in seen.err and 'not as it was made' in seen.err and seen.status == 2
        tally.check(f'{name} was changed', held and not [*place.glob('*/bert*'), *place.glob('*/fay*')], seen)
        tally.check(f'{name} was changed: the others', page_of(place, 'anna', 'p', 'candidate').exists())


# ---- Certificates

def certified(tally: Tally, folder: pathlib.Path) -> None:
    """A certificate, and what verify says of it while its mark holds."""
    register, page = a_register(folder), folder / 'anna.html'
    ask = [DESK, 'certificate', register, '--candidate', 'Anna', *OFFICE]
    seen = run(*ask, '--html', page)
    number = NUMBER.search(seen.out.decode())[0]
    tally.check('made', seen.out.decode() == f'{page}: certificate {number}\n' and seen.status == 0, seen)
    words, markup = words_of(page), page.read_text()
    paper, answer = (hashlib.sha256(file.read_bytes()).hexdigest() for file in (P, ANSWERS[0]))
    told = json.loads(run(*ask, '--html', page, '--json').out)
    at = told.pop('at')
    argument = hashlib.sha256((ARGUMENTS / 'p.hex').read_bytes()).hexdigest()
    tally.check('for programs', told == {'number': number, 'mark': 1, 'candidate': 'anna', 'paper_sha256': paper,
                                         'answer_sha256': answer, 'argument_sha256': argument}
                and f'Berne, {at[:10]}' in words, told)
    tally.check('the page is the same', page.read_text() == markup)
    tally.check('the page or JSON', run(*ask, '--json').failed('--html FILE writes the page to a file'))
    for word in ['Office & Sons Berne', 'Ávila, Anna', 'paper p with the mark Best', paper, answer, 'is a theorem',
                 f'./desk verify REGISTER {number}', 'Berne, 20', argument, 'outside/argument.py',
                 './desk why PAPER --text']:
        tally.check(f'the page has {word}', word in words, words)
    tally.check('to print', 'size: A4' in markup and not re.search(r'https?:|<script|<link|@import|src=', markup))
    tally.check('the same again', run(*ask).out == page.read_bytes() and run(*ask, '--html', page).status == 0)
    for typed in (number, number.upper(), number.replace('-', ' '), number.replace('-', '').replace('o', '0')):
        seen = run(DESK, 'verify', register, typed)
        lines = seen.out.decode().splitlines()
        held = lines[0] == 'yes: Ávila, Anna (anna), paper p: Best' and f'certificate {number} given 20' in lines[1]
        held = held and lines[2:] == [f'paper {paper}', f'answer {answer}']
        tally.check(f'yes: {typed}', held and seen.status == 0, seen)
    for typed, word in [('aaaa-aaaa-aaaa-aaaa', 'no: this register has no'), ('abc', 'no: a number has sixteen'),
                        (f'{number}2', 'no: a number'), ('1' * 16, 'no: a number')]:
        seen = run(DESK, 'verify', register, typed)
        tally.check(f'no: {typed}', seen.out.decode().startswith(word) and (seen.err, seen.status) == ('', 1), seen)
    tally.check('audited', run(DESK, 'audit', register).status == 0)
    for name, script in [('the mark', "UPDATE mark SET candidate = 'bert' WHERE seq = 1"),
                         ('the certificate', "UPDATE certificate SET number = 'aaaa-aaaa-aaaa-aaaa'"),
                         ('its mark', 'UPDATE certificate SET mark = 3'),
                         ('its hash', f"UPDATE mark SET own = '{'z' * 64}' WHERE seq = 1")]:
        changed = folder / 'changed.db'
        shutil.copy(register, changed)
        change(changed, script, False)
        seen = run(DESK, 'verify', changed, 'aaaa-aaaa-aaaa-aaaa' if name == 'the certificate' else number)
        word = 'is damaged: ./desk audit' if name == 'its hash' else 'not as it was made'
        tally.check(f'{name} was changed', seen.failed(word), seen)
    other, best = ROOT / 'examples' / 'r.hex', folder / 'anna.hex'
    best.write_bytes(text_of([3, 6]))
    run(DESK, 'mark', other, best, '--register', register)
    told = json.loads(run(*ask, '--paper', 'r', '--html', folder / 'r.html', '--json').out)
    kept = hashlib.sha256((ARGUMENTS / 'r.hex').read_bytes()).hexdigest()
    tally.check('of a placement that is not the printed key', told['argument_sha256'] == kept, told)
    seen = run(sys.executable, ROOT / 'outside' / 'argument.py', other, best, ARGUMENTS / 'r.hex')
    tally.check('and the checker takes it', seen == Seen(b'holds\n', '', 0), seen)


def no_certificate(tally: Tally, folder: pathlib.Path) -> None:
    """Who has none, and what becomes of one when another mark takes the place of its mark."""
    register, answer, page = a_register(folder), folder / 'anna.hex', folder / 'page.html'
    ask = [DESK, 'certificate', register]
    for name, told in [('bert', 'p (3eb019b6): Uncut 4'), ('carl', 'Dearer, loop 0, 1 against 0'), ('dora', 'Refused'),
                       ('eva', 'Absent'), ('fay', 'there is no mark')]:
        seen = run(*ask, '--candidate', name, *OFFICE)
        tally.check(f'none for {name}', seen.failed(told, 1), seen)
        again = run(*ask, '--candidate', name, *OFFICE, '--html', page, '--json')
        words = ''.join(f'desk: {line}\n' for line in json.loads(again.out)['refused']['words'])
        tally.check(f'none for {name}, for programs', (words, again.err, again.status) == (
            seen.err, seen.err, 1) and not page.exists(), again)
    for name, more, word in [('no office', [], 'whose certificate'), ('no place', OFFICE[:2], '--place'),
                             ('no name', ['--office', ' ', '--place', 'Berne'], '--office'),
                             ('no letterhead', ['--letterhead', folder / 'none'], 'cannot read'),
                             ('another file', [*OFFICE, '--html', register], 'it is left alone')]:
        seen = run(*ask, '--candidate', 'anna', *more)
        tally.check(name, seen.failed(word), seen)
    head = folder / 'office.txt'
    head.write_text('\ufeffÄmter\n\nBasel <1>\n')
    number = NUMBER.search(run(*ask, '--candidate', 'anna', '--letterhead', head, '--html', page).out.decode())[0]
    tally.check('a letterhead', 'Ämter Basel <1> Certificate' in words_of(page), words_of(page)[:200])
    run(DESK, 'why', Q, '4,7', '--html', folder / 'why.html')
    seen = run(*ask, '--candidate', 'anna', *OFFICE, '--html', folder / 'why.html')
    tally.check('not over another page', seen.failed('it is left alone'), seen)
    tally.check('nor another over it', run(DESK, 'why', Q, '4,7', '--html', page).failed('it is left alone'))
    paper = folder / '<i>&q.hex'
    shutil.copy(Q, paper)
    answer.write_bytes(text_of(KEYS['q']))
    run(DESK, 'mark', paper, answer, '--register', register)
    seen = run(*ask, '--candidate', 'anna', *OFFICE)
    tally.check('on two papers', seen.failed('has several marks, and --paper says which: '), seen)
    for named in ('<i>&q', '<i>&q.hex', hashlib.sha256(EXAMPLES['q']).hexdigest()[:8]):
        seen = run(*ask, '--candidate', 'anna', *OFFICE, '--paper', named)
        tally.check(f'on {named}', b'paper <b><bdi>&lt;i&gt;&amp;q</bdi></b>' in seen.out and seen.status == 0, seen)
    for name, told in (('anna', 'no mark of this candidate on paper r\n'), ('fay', 'no mark of this candidate\n')):
        seen = run(*ask, '--candidate', name, *OFFICE, '--paper', 'r')
        tally.check(f'on none, {name}', seen.failed(told, 1), seen)
    answer.write_bytes(text_of([3, 9, 13]))
    run(DESK, 'mark', P, answer, '--register', register, '--replace', 'an appeal')
    seen = run(DESK, 'verify', register, number)
    told = 'no: the mark does not hold any more: Dearer, loop 0, 1 against 0 took its place 20'
    tally.check('replaced', seen.out.decode().startswith(told) and b'an appeal' in seen.out and seen.status == 1, seen)
    tally.check('none any more', run(*ask, '--candidate', 'anna', *OFFICE, '--paper', 'p').failed('Dearer', 1))
    answer.write_bytes(text_of(KEYS['p']))
    run(DESK, 'mark', P, answer, '--register', register, '--replace', 'back')
    seen = run(*ask, '--candidate', 'anna', *OFFICE, '--paper', 'p', '--html', page)
    tally.check('another number', number not in seen.out.decode() and seen.status == 0, seen)
    tally.check('the old one is void', run(DESK, 'verify', register, number).status == 1)
    tally.check('audited', run(DESK, 'audit', register).status == 0)


def main() -> None:
    tally = Tally()
    for part in (numbers, in_words, exported, named, no_longer, not_written, certified, no_certificate):
        with tempfile.TemporaryDirectory() as name:
            part(tally, pathlib.Path(name))
    tally.close()


if __name__ == '__main__':
    main()
