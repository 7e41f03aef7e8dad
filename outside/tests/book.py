"""The register: what it takes and refuses, who may replace what, several desks at a time, faults of the disk, kills,
and a register that somebody changed by hand. Needs gcc and the library's archive (rt lib in crates/host). The last line is
'N passed, M failed'.
"""
import contextlib
import csv
import hashlib
import json
import os
import pathlib
import random
import re
import shutil
import signal
import sqlite3
import subprocess
import sys
import tempfile
import time
from unittest import mock

from office import register as registers
from office.audit import Audit
from office.chain import now
from office.command import Fault
from office.library import Desk
from office.marks import Mark, certificate_in, sha256_of
from office.refusal import Refusal, Refused
from office.schema import APPLICATION, SCHEMAS
from office.words import counted
from outside.measure import papers
from outside.measure.whole_day import day, marks_in
from outside.tests.workday import rows_of, text_of
from outside.trying import DESK, EXAMPLES, ROOT, Seen, Tally, run

P, Q = ROOT / 'examples' / 'p.hex', ROOT / 'examples' / 'q.hex'
ANSWERS = sorted((ROOT / 'examples' / 'answers').glob('*.hex'))
# The hash of the first form, by which registers were made that had no names of statements.
FIRST_FORM = 'aea28fe9bf6f1feab3355aba967565a2aa2a9854100d94814bc6cb858196f6b2'
ADDED = re.compile(r'([\d,]+) marks? added, head ([0-9a-f]{16})\n')


def added(seen: Seen) -> int | None:
    """How many marks were added, as the last line tells."""
    told = ADDED.search(seen.out.decode())
    return int(told[1].replace(',', '')) if told else None


def table(register: pathlib.Path, *more: str) -> list[dict[str, str]]:
    """The rows that the register writes as CSV."""
    return [*csv.DictReader(run(DESK, 'register', register, '--csv', *more).out.decode().splitlines())]


def verdicts(register: pathlib.Path) -> dict[str, str]:
    return {row['candidate']: row['verdict'] for row in table(register)}


def files(tally: Tally, folder: pathlib.Path) -> None:
    """What is no register is left alone, and a new one is asked for."""
    mark = [DESK, 'mark', P, *ANSWERS[:3], '--register']
    others = {'junk': b'name,mark\n', 'empty': b'', 'page': b'<!DOCTYPE html>'}
    for name, data in others.items():
        (folder / name).write_bytes(data)
    for name, application, form in [('other', 7, 1), ('plain', 0, 0), ('later', APPLICATION, 3)]:
        with contextlib.closing(sqlite3.connect(folder / name)) as made:
            made.executescript(f'PRAGMA application_id={application}; PRAGMA user_version={form}; CREATE TABLE a (b);')
        others[name] = (folder / name).read_bytes()
    for name, data in others.items():
        for more in ([], ['--new']):
            seen = run(*mark, folder / name, *more)
            word = 'is there already' if more else 'is there and no register, so it is left alone'
            tally.check(f'{name} {more}', seen.failed(word) and (folder / name).read_bytes() == data, seen)
        tally.check(f'{name} audited', run(DESK, 'audit', folder / name).failed('no register'))
    (folder / 'wide').mkdir()
    (folder / 'old.csv').write_bytes(run(DESK, 'mark', P, *ANSWERS).out)
    for name, word, seen in [
            ('a folder', 'no plain file', run(*mark, folder / 'wide')),
            ('a device', 'no plain file', run(*mark, '/dev/full')),
            ('nothing yet', '--new makes one', run(*mark, folder / 'none.db')),
            ('an old one', './desk take-in takes it', run(*mark, folder / 'old.csv')),
            ('no folder', 'cannot write', run(*mark, folder / 'none' / 'r.db', '--new')),
            ('no register to show', '--new makes one', run(DESK, 'register', folder / 'none.db'))]:
        tally.check(name, seen.failed(word), seen)
    seen = run(*mark, ':memory:', '--new', shell=f'cd {folder} && "$@"')
    tally.check('a file with a strange name', added(seen) == 3 and (folder / ':memory:').exists(), seen)
    register = folder / 'new ü?.db'
    seen = run(*mark, register, '--new')
    tally.check('a new one', added(seen) == 3 and register.stat().st_mode & 0o777 == 0o600, seen)
    (folder / 'link.db').symlink_to(register.name)
    seen = run(DESK, 'mark', P, *ANSWERS, '--register', folder / 'link.db')
    tally.check('by a link', added(seen) == 1 and len(table(register)) == 4, seen)
    with contextlib.closing(sqlite3.connect(register)) as opened:
        rules = [opened.execute(f'PRAGMA {rule}').fetchone()[0] for rule in ('journal_mode', 'application_id')]
    tally.check('its journal is deleted', rules == ['delete', APPLICATION], rules)
    with contextlib.closing(sqlite3.connect(register, isolation_level=None)) as other:
        for words in ('PRAGMA journal_mode=WAL', 'BEGIN', 'SELECT * FROM mark'):
            other.execute(words).fetchone()
        seen = run(DESK, 'mark', P, *ANSWERS, '--register', register)
        tally.check('open in another mode', seen.status == 2 and 'cannot' in seen.err, seen)
    tally.check('back again', added(run(DESK, 'mark', P, *ANSWERS, '--register', register)) == 0)
    tally.check('without a log', run('head', '-c', '20', register).out[18:20] == b'\1\1')
    tally.check('nothing is left beside', not [*folder.glob('.desk-*')] and not [*folder.glob('*-journal')])


def again(tally: Tally, folder: pathlib.Path) -> None:
    """The same answers add nothing; another one needs a reason; what was not read takes no mark away."""
    register, answers = folder / 'again.db', folder / 'again'
    shutil.copytree(ROOT / 'examples' / 'answers', answers)
    some = sorted(answers.iterdir())
    first = run(DESK, 'mark', P, *some, '--register', register, '--new')
    whole = register.read_bytes()
    seen = run(DESK, 'mark', P, *reversed(some), '--register', register)
    tally.check('the same again', added(seen) == 0 and seen.out.split()[-1] == first.out.split()[-1], seen)
    shutil.copy(answers / 'anna.hex', answers / 'Anna.hex')
    tally.check('capital letters', run(DESK, 'mark', P, *answers.glob('[aA]nna.hex')).failed('two answers of'))
    tally.check('whatever the case', added(run(DESK, 'mark', P, answers / 'Anna.hex', '--register', register)) == 0)
    (answers / 'Anna.hex').unlink()
    (answers / 'anna.hex').write_bytes(text_of([3, 9, 13]))
    seen = run(DESK, 'mark', P, *some, '--register', register)
    word = 'anna: another answer is in the register, Best; --replace "reason" puts this one in its place'
    tally.check('another answer', word in seen.err and seen.status == 2 and added(seen) == 0, seen)
    listed = folder / 'again.csv'
    listed.write_text('id,name,paper\nanna,Anna,p\nbert,Bért,\ncarl,Carl,p.hex\ndora,Dora,\neva,Eva,\nfay,Fay,q\n')
    (answers / 'anna.hex').unlink()
    seen = run(DESK, 'mark', P, *some, '--register', register, '--candidates', listed)
    tally.check('not read', 'anna: Not read, so the mark stays that is there: Best' in seen.err, seen)
    tally.check('all as it was', verdicts(register) == {'anna': 'Best', 'bert': 'Uncut', 'carl': 'Dearer',
                                                        'dora': 'Refused', 'eva': 'Absent'}, verdicts(register))
    tally.check('only Eva is new', added(seen) == 1 and seen.status == 2 and len(whole) > 0, seen)
    (answers / 'anna.hex').write_bytes(text_of([3, 9, 13]))
    (answers / 'eva.hex').write_bytes(text_of([5, 11]))
    seen = run(DESK, 'mark', P, answers / 'eva.hex', '--register', register)
    tally.check('absent before', added(seen) == 1 and verdicts(register)['eva'] == 'Best', seen)
    seen = run(DESK, 'mark', P, answers / 'anna.hex', '--register', register, '--replace', '@ with leave')
    tally.check('replaced', added(seen) == 1 and verdicts(register)['anna'] == 'Dearer', seen)
    rows = table(register, '--history', '--candidate', 'ANNA')
    story = [(row['verdict'], row['replaces'], row['reason']) for row in rows]
    tally.check('her story', story == [('Best', '', ''), ('Dearer', '1', "'@ with leave")], story)
    tally.check('on another paper', added(run(DESK, 'mark', Q, answers / 'anna.hex', '--register', register)) == 1)
    tally.check('audited', run(DESK, 'audit', register).status == 0)
    names = {'anna': '=HYPERLINK(1)', 'bert': 'Bért', 'carl': '+49', 'dora': '-x', 'eva': '\te'}
    told = {row['candidate']: row['name'] for row in table(register)}
    tally.check('names of the list', told['bert'] == 'Bért' and told.keys() == names.keys(), told)
    with registers.opened(str(register), writing=True) as opened, opened.adding():
        for name, called in names.items():
            opened.add_name(name, called)
    told = {row['candidate']: row['name'] for row in table(register)}
    guarded = {name: called if called == 'Bért' else f"'{called}" for name, called in names.items()}
    tally.check('formulas are guarded', told == guarded, told)


def exports(tally: Tally, folder: pathlib.Path) -> None:
    """The table begins with the columns that marking writes; for Excel and for programs it says the same."""
    register = folder / 'exports.db'
    run(DESK, 'mark', P, *ANSWERS, '--register', register, '--new')
    plain, whole = (run(DESK, *words).out for words in (['mark', P, *ANSWERS], ['register', register, '--csv']))
    cut = run('cut', '-d,', '-f1-11', given=whole).out
    tally.check('the columns of marking', cut == plain and len(rows_of(plain)) == 4, cut)
    tally.check('for Excel', run(DESK, 'register', register, '--excel').out == '\ufeff'.encode() + whole)
    told = json.loads(run(DESK, 'register', register, '--json').out)
    rows = [{name: '' if cell is None else str(cell) for name, cell in row.items()} for row in told]
    tally.check('as JSON', rows == table(register), rows[:1])
    version = run(DESK, '--version').out.decode().replace('\n', '').split(', ')
    desk = f'{version[0].removeprefix("desk ")}+{version[1].removeprefix("commit ")}'
    made = {(row['desk'], row['library']) for row in table(register)}
    tally.check('desk and library', made == {(desk, version[2].removeprefix('library '))}, made)
    dora = table(register)[3]
    tally.check('why it was refused', dora['words'].startswith('line 2 is refused: "210B": number 1: '), dora)
    shown = run(DESK, 'register', register).out.decode().splitlines()
    tally.check('at the screen', shown[2].endswith('carl  p  Dearer, loop 0, 1 against 0') and len(shown) == 5, shown)


def writers(tally: Tally, folder: pathlib.Path) -> None:
    """Six desks at a time lose nothing, and one waits for another, which it says."""
    register, answers = folder / 'six.db', folder / 'six'
    answers.mkdir()
    for i in range(700):
        (answers / f'{i:03}.hex').write_bytes(text_of([i % 13 + 1]))
    everyone = sorted(answers.iterdir())
    run(DESK, 'mark', P, everyone[0], '--register', register, '--new')
    shares = [everyone[100 * i:100 * i + 200] for i in range(6)]
    desks = [subprocess.Popen([DESK, 'mark', P, *share, '--register', register], stdout=subprocess.DEVNULL)
             for share in shares]
    audits = [run(DESK, 'audit', register).status for _ in range(3)]
    tally.check('six desks', not any(desk.wait() for desk in desks))
    tally.check('audited meanwhile', audits == [0] * 3, audits)
    rows = table(register, '--history')
    tally.check('nothing is lost, and nothing there twice', sorted(row['candidate'] for row in rows) == [
        file.stem for file in everyone], len(rows))
    with contextlib.closing(sqlite3.connect(register, isolation_level=None)) as busy:
        busy.execute('BEGIN IMMEDIATE')
        desk = subprocess.Popen([DESK, 'mark', Q, everyone[0], '--register', register], stdout=subprocess.PIPE,
                                stderr=subprocess.PIPE, text=True)
        assert desk.stderr is not None
        told = desk.stderr.readline()
        busy.execute('ROLLBACK')
        out, _ = desk.communicate()
    tally.check('it waits', 'is in use by another desk: waiting' in told and '1 mark added' in out, (told, out))
    tally.check('audited', run(DESK, 'audit', register).status == 0)


def ended(tally: Tally, folder: pathlib.Path) -> None:
    """Ended by a kill, by Ctrl-C or by a full disk: what was kept is whole, and the same command goes on."""
    register, answers = folder / 'ended.db', folder / 'many'
    answers.mkdir()
    for i in range(2000):
        (answers / f'{i:04}.hex').write_bytes(text_of([i % 13 + 1]))
    everyone = sorted(answers.iterdir())
    run(DESK, 'mark', P, everyone[0], '--register', register, '--new')
    base = register.read_bytes()
    command = [DESK, 'mark', P, *everyone, '--register', register]
    for turn, sign in enumerate([signal.SIGKILL] * 4 + [signal.SIGINT] * 2):
        register.write_bytes(base)
        desk = subprocess.Popen(command, stdout=subprocess.DEVNULL, stderr=subprocess.PIPE, text=True)
        while marks_in(register) < 300 * turn and desk.poll() is None:
            time.sleep(0.01)
        desk.send_signal(sign)
        _, err = desk.communicate()
        many = marks_in(register)
        whole = many % 300 == 0 or many in (1, 2000)
        tally.check(f'turn {turn}: ended', desk.returncode in (0, -9, 130) and whole, many)
        if desk.returncode == 130:
            tally.check(f'turn {turn}: what was kept', f'ended: {many - 1:,} marks of 2,000 answers kept' in err, err)
        tally.check(f'turn {turn}: audited', run(DESK, 'audit', register).status == 0)
    seen = run(*command)
    tally.check('it goes on', seen.status == 0 and marks_in(register) == 2000, seen)
    register.write_bytes(base)
    seen = run(*command, shell='ulimit -f 400; "$@"')
    many = marks_in(register)
    tally.check('a full disk', 'was not kept' in seen.err and seen.status == 2 and 0 < many < 2000, seen)
    tally.check('what was kept', f'\ndesk: {many - 1:,} marks of 2,000 answers kept' in seen.err, seen)
    tally.check('it goes on when there is room', added(run(*command)) == 2000 - many)
    tally.check('audited', run(DESK, 'audit', register).status == 0)


def commits(tally: Tally, folder: pathlib.Path) -> None:
    """Every call that is made of the disk fails; commits.py says how."""
    failing = folder / 'failing.so'
    subprocess.run(['gcc', '-shared', '-fPIC', '-o', failing, ROOT / 'outside' / 'tests' / 'failing.c'], check=True)
    ran = subprocess.run([sys.executable, '-m', 'outside.tests.commits'], cwd=ROOT, capture_output=True, text=True,
                         env={**os.environ, 'LD_PRELOAD': str(failing)}, check=False)
    closing = re.search(r'(\d+) passed, (\d+) failed\n$', ran.stdout)
    tally.check('commits', ran.returncode == 0 and closing is not None, ran.stdout + ran.stderr)
    tally.passed += int(closing[1]) if closing else 0


def first_form(file: pathlib.Path) -> None:
    """A new register as desks made it before there were names of statements in it."""
    with contextlib.closing(sqlite3.connect(file, isolation_level=None)) as made:
        made.executescript(f'PRAGMA application_id={APPLICATION}; PRAGMA user_version=1; BEGIN; {SCHEMAS[1]} COMMIT;')


def form_of(register: pathlib.Path) -> int:
    with registers.opened(str(register)) as opened:
        return opened.form


def forms(tally: Tally, folder: pathlib.Path) -> None:
    """A register of the first form is read and added to as it is. The first names of statements bring it into the
    newest form, and nothing else of it changes."""
    known = hashlib.sha256(SCHEMAS[1].encode()).hexdigest()
    tally.check('the first form is as it was', known == FIRST_FORM, known)
    register, paper, names = folder / 'first.db', folder / 'p.hex', folder / 'p.names'
    first_form(register)
    paper.write_bytes(EXAMPLES['p'])
    mark = [DESK, 'mark', paper, '--register', register]
    seen = run(*mark, *ANSWERS[:2])
    tally.check('added to', added(seen) == 2 and seen.err == '' and form_of(register) == 1, seen)
    names.write_text('sha256 0\n')
    tally.check('a bad file of names', run(*mark, *ANSWERS).failed('is no file of names', 1) and form_of(register) == 1)
    names.write_text(f'sha256 {"0" * 64}\n2 update\n')
    seen = run(*mark, *ANSWERS[:2])
    tally.check('names of another paper', added(seen) == 0 and 'not used' in seen.err and form_of(register) == 1, seen)
    for command in (['audit', register], ['register', register], ['export', register, '--slips', folder / 'slips']):
        seen = run(DESK, *command)
        tally.check(f'{command[0]} of the first form', seen.status == 0 and seen.err == '', seen)
    before, bound = everything(register), f'sha256 {hashlib.sha256(EXAMPLES["p"]).hexdigest()}\n'
    names.write_text(f'{bound}2 update\n5 copy\n')
    seen = run(*mark, *ANSWERS[:2], shell=f'ulimit -f 0; "$@"')
    tally.check('a full disk', seen.status == 2 and (form_of(register), everything(register)) == (1, before), seen)
    seen = run(*mark, *ANSWERS[:2])
    tally.check('the newest form', added(seen) == 0 and 'gets form 2' in seen.err and form_of(register) == 2, seen)
    tally.check('nothing is lost', everything(register) == before)
    for text in (f'{bound}2 update\n5 copy\n', f'{bound}2 relax\n5 copy\n'):
        names.write_text(text)
        seen = run(*mark, *ANSWERS)
        with registers.opened(str(register)) as opened:
            kept = opened.names(hashlib.sha256(EXAMPLES['p']).hexdigest())
        tally.check('names are kept, and mended', seen.status == 1 and kept == text.encode(), (seen, kept))
    names.unlink()
    seen = run(*mark, *ANSWERS[:2])
    tally.check('without a file they stay', added(seen) == 0 and run(DESK, 'audit', register).status == 0, seen)
    for script in ("UPDATE names SET paper = 'x'", 'DELETE FROM names'):
        with contextlib.closing(sqlite3.connect(register)) as opened:
            try:
                opened.execute(script)
                tally.check(f'refused: {script}', False)
            except sqlite3.IntegrityError:
                tally.check(f'refused: {script}', True)


# ---- Changed by hand

CARL = "UPDATE mark SET verdict = 'Best', loop = NULL, theirs = NULL, ours = NULL WHERE seq = 3"
SWAP = """CREATE TEMP TABLE old AS SELECT seq, answer FROM mark;
UPDATE mark SET answer = (SELECT answer FROM old WHERE old.seq = 4 - mark.seq) WHERE seq IN (1, 3)"""
TEXT = "UPDATE answer SET text = x'323130330a' WHERE sha256 = (SELECT answer FROM mark WHERE seq = 1)"
# What is done to a register of four marks, whether hashes are made to fit, and what must be told.
CHANGES = [
    ('an edited field', CARL, False, ['mark 3, carl on p: its hash is not that of its fields',
                                      'mark 3, carl on p: Best is kept, and Dearer, loop 0, 1 against 0 comes out']),
    ('an edited field, hashes mended', CARL, True, ['mark 3, carl on p: Best is kept, and Dearer']),
    ('another candidate', "UPDATE mark SET candidate = 'eva' WHERE seq = 2", False, ['mark 2, eva on p: its hash']),
    ('another time', "UPDATE mark SET at = '2020' WHERE seq = 2", False, ['mark 2, bert on p: its hash']),
    ('a dropped mark', 'DELETE FROM mark WHERE seq = 2', False, ['mark 3, carl on p: 1 mark is missing before it',
                                                                 'mark 3, carl on p: it does not hold the hash']),
    ('swapped answers', SWAP, True, ['mark 1, anna on p: Best is kept, and Dearer', 'mark 3, carl on p: Dearer']),
    ('a changed answer', TEXT, False, ['its text has another hash', 'mark 1, anna on p: Best is kept, and Uncut']),
    ('a paper', "UPDATE paper SET text = x'30310a30320a'", False, [
        'paper p: its text has another hash', 'mark 1, anna on p: Best is kept, and Refused']),
    ('no answer', 'PRAGMA foreign_keys=OFF; DELETE FROM answer', False, ['what mark 1 names in answer is not there']),
    ('names of no point', "INSERT INTO names SELECT sha256, CAST('sha256 ' || sha256 || x'0a393920780a' AS BLOB) "
     'FROM paper', False, [
         'paper p: its names are not as they were taken in: line 2: point 99 is no statement and no DO']),
    ('names of none', "INSERT INTO names SELECT sha256, CAST('2 update' AS BLOB) FROM paper", False, [
        'paper p: its names are not as they were taken in: line 1 is not sha256 and the hash of this paper']),
    ('no rule', 'DROP TRIGGER mark_in_turn', False, ['trigger mark_in_turn is not as a register has it']),
    ('another rule', 'CREATE TRIGGER more AFTER INSERT ON mark BEGIN SELECT 1; END', False, ['trigger more is not']),
    ('a certificate', "INSERT INTO certificate VALUES ('abcd-abcd-abcd-abcd', 1, '2999')", False, [
        'certificate abcd-abcd-abcd-abcd: mark 1 has no such certificate']),
    ('a certificate of none', "INSERT INTO certificate VALUES ('abcd-abcd-abcd-abcd', 2, '2999')", False, [
        'certificate abcd-abcd-abcd-abcd: mark 2 has no such certificate']),
    ('taken in place of none', 'UPDATE mark SET candidate = (SELECT candidate FROM mark WHERE seq = 1) WHERE seq = 4',
     True, ['mark 4, anna on p: it takes the place of mark none, and not of 1'])]


def change(register: pathlib.Path, script: str, mend: bool) -> None:
    """Changes a register as somebody would who knows SQL; the rules that forbid it are put back."""
    with contextlib.closing(sqlite3.connect(register, isolation_level=None)) as opened:
        rules = dict(opened.execute("SELECT name, sql FROM sqlite_schema WHERE type = 'trigger'").fetchall())
        for name in rules if 'TRIGGER' not in script else []:
            opened.execute(f'DROP TRIGGER {name}')
        opened.executescript(script)
        before = '0' * 64
        for row in opened.execute('SELECT * FROM mark ORDER BY seq').fetchall() if mend else []:
            mark = Mark(*row).chained(before)
            opened.execute('UPDATE mark SET before = ?, own = ? WHERE seq = ?', (mark.before, mark.own, mark.seq))
            before = mark.own
        for rule in rules.values() if 'TRIGGER' not in script else []:
            opened.execute(rule)


def changed(tally: Tally, folder: pathlib.Path) -> None:
    """An audit finds what was changed, at its row; a head that was noted shows a cut end and a rewriting."""
    whole, register = folder / 'whole.db', folder / 'changed.db'
    head = run(DESK, 'mark', P, *ANSWERS, '--register', whole, '--new').out.split()[-1].decode()
    seen = run(DESK, 'audit', whole, '--head', head)
    tally.check('nothing was changed', seen.status == 0 and b'all as it was made' in seen.out, seen)
    for name, script, mend, words in CHANGES:
        shutil.copy(whole, register)
        change(register, script, mend)
        seen = run(DESK, 'audit', register)
        tally.check(name, seen.status == 1 and all(word in seen.out.decode() for word in words), seen)
    for name, script, mend in [('a cut end', 'DELETE FROM mark WHERE seq = 4', False),
                               ('written anew', "UPDATE mark SET at = '2026'", True)]:
        shutil.copy(whole, register)
        change(register, script, mend)
        seen = run(DESK, 'audit', register)
        tally.check(f'{name}, without a head', seen.status == 0, seen)
        seen = run(DESK, 'audit', register, '--head', head)
        tally.check(name, seen.status == 1 and f'no mark has the head {head}' in seen.out.decode(), seen)
    tally.check('no head', run(DESK, 'audit', whole, '--head', 'ab').failed('a head has 16 digits'))
    for script in ['UPDATE mark SET at = at', 'DELETE FROM mark', 'DELETE FROM paper', 'UPDATE answer SET text = text',
                   'INSERT INTO mark SELECT * FROM mark WHERE seq = 1', 'DELETE FROM person']:
        with contextlib.closing(sqlite3.connect(whole)) as opened:
            with contextlib.suppress(sqlite3.IntegrityError):
                opened.execute("INSERT INTO person VALUES ('anna', 'Anna')")
            try:
                opened.execute(script)
                tally.check(f'refused: {script}', False)
            except sqlite3.IntegrityError:
                tally.check(f'refused: {script}', True)
    flipped(tally, whole, register)
    argued(tally, folder)


def argued(tally: Tally, folder: pathlib.Path) -> None:
    """An audit weighs an argument for each paper, and names the paper whose does not hold."""
    register, large = folder / 'argued.db', folder / 'large.hex'
    large.write_bytes(papers.text('mixed'))
    for number, paper in enumerate([P, Q, large]):
        run(DESK, 'mark', paper, ANSWERS[0], '--register', register, *['--new'] * (number == 0))
    seen = run(DESK, 'audit', register)
    for name, paper in {'p': P, 'q': Q, 'large': large}.items():
        text = run(DESK, 'why', paper, '--text').out
        claims = sum(line.startswith(b'31') for line in text.splitlines())
        told = f'paper {name}: its argument holds, {counted(claims, "claim")}, SHA-256 {sha256_of(text)}'
        tally.check(f'the argument of {name}', told in seen.out.decode().splitlines() and seen.status == 0, seen)
    with registers.opened(str(register)) as opened:
        audit = Audit(opened, opened.end())
        with mock.patch.object(Desk, 'weigh', side_effect=Refused(Refusal(21, 1))):
            audit.look(None)
        wanted = {f'paper {name}: no argument for its key was found that holds' for name in ('p', 'q', 'large')}
        tally.check('none that holds', {*audit.faults} == wanted and not audit.arguments, audit.faults)


def flipped(tally: Tally, whole: pathlib.Path, register: pathlib.Path) -> None:
    """A flipped bit is found, or lies where nothing is."""
    data, rng = whole.read_bytes(), random.Random(1)
    said, found = everything(whole), 0
    for _ in range(400):
        place = rng.randrange(100, len(data))
        register.write_bytes(data[:place] + bytes([data[place] ^ 1 << rng.randrange(8)]) + data[place + 1:])
        try:
            with registers.opened(str(register)) as opened:
                audit = Audit(opened, opened.end())
                audit.look(None)
                faults = audit.faults
        except Fault as fault:
            faults = [str(fault)]
        if faults:
            found += 1
        else:
            tally.check(f'the bit at {place} is nowhere', everything(register) == said, place)
    tally.check('flips that were found', found > 20, found)


def everything(register: pathlib.Path) -> list[object]:
    """All rows of the tables that hashes are of."""
    with registers.opened(str(register)) as opened:
        return [opened.asked(f'SELECT * FROM {table}') for table in ('mark', 'answer', 'certificate')] + [
            opened.asked('SELECT sha256, text FROM paper')]


def certificates(tally: Tally, folder: pathlib.Path) -> None:
    """A certificate is for a mark Best that holds today; one that was given stays when the mark is replaced."""
    path, answer = folder / 'certificates.db', folder / 'anna.hex'
    run(DESK, 'mark', P, *ANSWERS, '--register', path, '--new')
    with registers.opened(str(path), writing=True) as register:
        anna, bert, *_ = register.marks('mark ORDER BY seq')
        number = anna.certificate()
        tally.check('its number', re.fullmatch('[a-z2-9]{4}(-[a-z2-9]{4}){3}', number) is not None, number)
        typed = number.upper().replace('O', '0').replace('-', ' ')
        tally.check('as it is typed', certificate_in(f' {typed}') == number, typed)
        tally.check('no number', certificate_in('abcd') is None and certificate_in('1' * 16) is None)
        for name, mark, given in [('Best', anna, True), ('Uncut', bert, False)]:
            try:
                with register.adding():
                    register.add_certificate(mark, now())
                tally.check(f'a certificate for {name}', given)
            except Fault as fault:
                tally.check(f'a certificate for {name}', not given and 'Best' in str(fault), fault)
        tally.check('it is there', register.certificate(number) is not None and register.certificate('a') is None)
    answer.write_bytes(text_of([3, 9, 13]))
    run(DESK, 'mark', P, answer, '--register', path, '--replace', 'another one')
    tally.check('replaced afterwards', run(DESK, 'audit', path).status == 0)
    change(path, 'DELETE FROM certificate', False)
    with registers.opened(str(path), writing=True) as register:
        try:
            with register.adding():
                register.add_certificate(anna, now())
            tally.check('none for a mark that was replaced', False)
        except Fault as fault:
            tally.check('none for a mark that was replaced', 'not kept' in str(fault), fault)


def taken_in(tally: Tally, folder: pathlib.Path) -> None:
    """An old register is marked again; what does not come out as it says is told."""
    old, register, unread = folder / 'old.csv', folder / 'taken.db', folder / 'unread.hex'
    plain = run(DESK, 'mark', P, *ANSWERS).out + b''.join(run(DESK, 'mark', Q, *ANSWERS).out.splitlines(True)[1:])
    rows = plain.decode().splitlines()
    shown = [f'unread,Not read,,,,,,,no,{rows[1].split(",")[9]},', rows[1].replace('anna', 'Anna B.', 1)]
    old.write_text('\n'.join([*rows, *shown]) + '\n')
    listed = folder / 'ids.csv'
    listed.write_text('id,name\nanna-b,Anna B.\n')
    command = [DESK, 'take-in', register, old, ROOT / 'examples', '--candidates', listed]
    seen = run(*command, '--new')
    tally.check('taken in', seen.status == 0 and added(seen) == 10 and '10 rows, 0 not' in seen.out.decode(), seen)
    first = [','.join(list(row.values())[:11]) for row in table(register)]
    tally.check('the same rows', set(first) == set(rows[1:] + [shown[0], shown[1].replace('Anna B.', 'anna-b')]), first)
    tally.check('again', added(run(*command)) == 0 and run(DESK, 'audit', register).status == 0)
    unread.write_text('\n'.join([*rows, shown[1]]).replace('Dearer,,0,1', 'Dearer,,0,2', 1) + '\n')
    seen = run(DESK, 'take-in', folder / 'some.db', unread, P, *ANSWERS, '--new')
    words = ['carl, paper 3eb019b6: theirs is 2, and 1 comes out', 'anna, paper', 'its paper is not among the files',
             'Anna B., paper 3eb019b6: an id has']
    tally.check('what is told', all(word in seen.err for word in words) and added(seen) == 3 and seen.status == 1, seen)
    again = run(DESK, 'take-in', folder / 'some.db', unread, P, *ANSWERS, '--json')
    told = json.loads(again.out)
    tally.check('for programs', [*told] == ['rows', 'not_taken_in', 'added', 'head'] and seen.out.decode() == (
        f'{told["rows"]} rows, {told["not_taken_in"]} not taken in: 3 marks added, head {told["head"]}\n') and (
            told['added'], again.err, again.status) == (0, seen.err, 1), again)
    old.write_bytes('\ufeff'.encode() + old.read_bytes())
    tally.check('from a spreadsheet', run(*command).failed('was it saved by a spreadsheet?'))
    tally.check('no CSV', run(DESK, 'take-in', register, P, P).failed('is no register of CSV'))


def small_day(tally: Tally, folder: pathlib.Path) -> None:
    """Six papers, six desks, kills between; outside/measure/whole_day.py has it with three thousand candidates."""
    day(tally, folder, 310)


def main() -> None:
    tally = Tally()
    for part in (files, again, exports, writers, ended, commits, forms, changed, certificates, taken_in, small_day):
        with tempfile.TemporaryDirectory() as name:
            part(tally, pathlib.Path(name))
    tally.close()


if __name__ == '__main__':
    main()
