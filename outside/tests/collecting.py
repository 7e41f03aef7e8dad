"""A sitting taken into the register: who handed in, who was collected, who never came and who is not done; logs that
are changed, in their folder or in the register. Needs the library's archive (rt lib in crates/host). The last line is
'N passed, M failed'.
"""
import hashlib
import json
import pathlib
import shutil
import tempfile

from office import register as registers
from office.candidates import Candidate
from office.chain import Chain
from office.hall import Hall, Kept
from office.sittings import hash_of
from outside.tests.book import added, change, table
from outside.tests.workday import text_of
from outside.trying import DESK, EXAMPLES, Tally, run

PEOPLE = [Candidate('anna', 'Ávila, Anna'), Candidate('Bert', 'Bert B.'), Candidate('carl', 'Carl'),
          Candidate('dora', 'dora'), Candidate('eva', 'Eva')]
HERE = '10.0.0.7'


def sit(folder: pathlib.Path) -> None:
    """Anna hands in the key, Bert is collected with a barrier, Carl enters and stays, Dora hands in nothing, and Eva
    does not come."""
    with Hall(EXAMPLES['p'], PEOPLE, str(folder)) as hall:
        hall.open()
        for name, gaps in [('anna', [5, 11]), ('Bert', [3]), ('carl', [4]), ('dora', [])]:
            sitting = hall.sittings[name]
            hall.enter(sitting, HERE)
            for gap in gaps:
                hall.move(sitting, f'put {gap}', HERE)
            if name in ('anna', 'dora'):
                hall.hand_in(sitting, sitting.moves, gaps, HERE)
        hall.note(f'collected Bert {hash_of(hall.sittings["Bert"].desk.sitting())}')
        assert hall.keep() is Kept.DONE


def end(folder: pathlib.Path, *acts: str) -> None:
    """What the person in charge does afterwards."""
    with Hall(EXAMPLES['p'], PEOPLE, str(folder)) as hall:
        hall.open()
        for act in acts:
            hall.note(act)
        assert hall.keep() is Kept.DONE


def hand_in_again(folder: pathlib.Path) -> None:
    """Anna's sitting is reopened, and she hands in another placement."""
    with Hall(EXAMPLES['p'], PEOPLE, str(folder)) as hall:
        hall.open()
        hall.note('reopen anna')
        anna = hall.sittings['anna']
        hall.move(anna, 'put 13', HERE)
        hall.hand_in(anna, anna.moves, [5, 11, 13], HERE)
        assert hall.keep() is Kept.DONE


def verdicts(register: pathlib.Path) -> list[tuple[str, str]]:
    return [(row['candidate'], row['verdict']) for row in table(register)]


def collected(tally: Tally, folder: pathlib.Path) -> None:
    """The log's answers are marked, with the log beside them; who is not done comes in when the log has the end."""
    answers, register = folder / 'morning', folder / 'register.db'
    sit(answers)
    log = (answers / 'sitting.log').read_bytes()
    collect = [DESK, 'collect', answers, '--register', register]
    seen = run(*collect, '--paper', 'p.hex', '--new')
    told = '3 answers: 1 Best, 2 Uncut; 1 Absent\n'
    tally.check('taken in', seen.out.decode().startswith(told) and added(seen) == 4 and seen.status == 1, seen)
    told = 'desk: carl entered and has neither handed in nor been collected, and is not marked\n'
    tally.check('who is not done', seen.err == told, seen)
    wanted = [('anna', 'Best'), ('bert', 'Uncut'), ('dora', 'Uncut'), ('eva', 'Absent')]
    tally.check('the marks', verdicts(register) == wanted, verdicts(register))
    rows, head = table(register), log.split()[-1].decode()
    of_anna = [rows[0][column] for column in ('name', 'paper', 'answer_sha256')]
    tally.check('from the sitting', {row['sitting'] for row in rows} == {head} and of_anna == [
        'Ávila, Anna', 'p', hashlib.sha256(text_of([5, 11])).hexdigest()], rows[0])
    with registers.opened(str(register)) as opened:
        times = [line.split('\t')[1] for line in log.decode().splitlines()[1:]]
        (held,) = opened.asked('SELECT head, name, opened, closed, log FROM sitting')
        first = next(line.split('\t')[1] for line in log.decode().splitlines() if '\topened\t' in line)
        tally.check('the log', held == (head, 'morning', first, times[-1], log), held[:4])
    tally.check('audited', run(DESK, 'audit', register).status == 0)
    tally.check('the same again', added(run(*collect)) == 0 and len(table(register, '--history')) == 4)
    slips = run(DESK, 'export', register, '--slips', folder / 'slips')
    tally.check('slips of it', b'3 answers with slips, 0 notes' in slips.out, slips)
    end(answers, f'collected carl {hash_of(text_of([4]))}', f'collected eva {hash_of(b"")}')
    seen = run(*collect)
    tally.check('carl is collected', added(seen) == 1 and (seen.err, seen.status) == ('', 0), seen)
    tally.check('absent all the same', dict(verdicts(register))['eva'] == 'Absent', verdicts(register))
    hand_in_again(answers)
    seen = run(*collect)
    tally.check('another answer', 'anna: another answer is in the register, Best; --replace' in seen.err and (
        added(seen), seen.status) == (0, 2), seen)
    seen = run(*collect, '--replace', 'reopened')
    tally.check('replaced', added(seen) == 1 and dict(verdicts(register))['anna'] == 'Dearer', seen)
    end(answers, 'close -')
    end(answers, 'message - Good bye')
    run(*collect)
    lines = (answers / 'sitting.log').read_text().splitlines()
    close = next(line.split('\t')[1] for line in lines if '\tclose -\t' in line)
    with registers.opened(str(register)) as opened:
        closed = [at for at, in opened.asked('SELECT closed FROM sitting')]
        tally.check('closed', closed.count(close) == 1 and len(closed) == 4, closed)
    tally.check('audited in the end', run(DESK, 'audit', register).status == 0, run(DESK, 'audit', register))


def by_mark(tally: Tally, folder: pathlib.Path) -> None:
    """./desk mark --sitting does the same, for a sitting over the paper that is named."""
    answers, register, other = folder / 'by mark', folder / 'mark.db', folder / 'collect.db'
    sit(answers)
    for name, text in EXAMPLES.items():
        (folder / f'{name}.hex').write_bytes(text)
    mark = [DESK, 'mark', folder / 'p.hex', '--sitting', answers, '--register', register]
    seen, wanted = run(*mark, '--new'), run(DESK, 'collect', answers, '--register', other, '--paper', 'p', '--new')
    tally.check('as collect does', (seen.err, seen.status, seen.out.splitlines()[0]) == (
        wanted.err, wanted.status, wanted.out.splitlines()[0]) and added(seen) == 4, seen)
    columns = ('candidate', 'verdict', 'paper', 'name', 'answer_sha256', 'sitting')
    ours, theirs = ([[row[column] for column in columns] for row in table(file)] for file in (register, other))
    tally.check('the same marks', ours == theirs, ours)
    tally.check('again', added(run(*mark)) == 0)
    for name, command in [('mark', [*mark[:-1], folder / 'json.db', '--new']),
                          ('collect', [DESK, 'collect', answers, '--register', folder / 'json too.db', '--new'])]:
        seen = run(*command, '--json')
        told, head = json.loads(seen.out), run(DESK, 'register', command[-2]).out.split()[-1].decode()
        tally.check(f'{name} for programs', told == {
            'verdicts': {'Best': 1, 'Uncut': 2, 'Absent': 1}, 'added': 4, 'head': head, 'under_way': ['carl']} and (
                seen.err, seen.status) == (wanted.err, 1), seen)
    for more, words in [(['--candidates', folder / 'p.hex'], 'leave those out'),
                        (['--slips', folder], 'leave those out'), (['--replace', ' '], 'wants the reason')]:
        tally.check(f'{more[0]}', run(*mark, *more).failed(words), run(*mark, *more))
    for command, words in [([DESK, 'mark', folder / 'q.hex', *mark[3:]], 'a sitting over another paper than'),
                           (mark[:5], '--register FILE names it'), (mark[:3], 'name the answers, or a sitting'),
                           ([*mark[:3], folder / 'q.hex', *mark[3:]], 'leave those out')]:
        tally.check(words, run(*command).failed(words), run(*command))


def names(tally: Tally, folder: pathlib.Path) -> None:
    """The names of statements that the hall has left in its folder go along into the register; those beside the paper
    come first."""
    answers, bound = folder / 'named', hashlib.sha256(EXAMPLES['p']).hexdigest()
    sit(answers)
    (folder / 'p.hex').write_bytes(EXAMPLES['p'])
    (answers / 'other.names').write_text(f'sha256 {"0" * 64}\n2 other\n')
    (answers / 'p.names').write_text(f'sha256 {bound}\n2 update\n')
    collect = [DESK, 'collect', answers, '--new', '--register']
    mark = [DESK, 'mark', folder / 'p.hex', '--sitting', answers, '--new', '--register']
    for number, (command, beside, wanted) in enumerate([(collect, '', 'update'), (mark, '', 'update'),
                                                        (mark, 'relax', 'relax'), (collect, 'relax', 'update')]):
        if beside:
            (folder / 'p.names').write_text(f'sha256 {bound}\n2 {beside}\n')
        register = folder / f'{number}.db'
        seen = run(*command, register)
        with registers.opened(str(register)) as opened:
            kept = opened.names(bound)
        tally.check(f'names by {command[1]}', kept == f'sha256 {bound}\n2 {wanted}\n'.encode(), (seen, kept))
        tally.check(f'audited, {number}', run(DESK, 'audit', register).status == 0)
    (answers / 'p.names').write_text(f'sha256 {bound}\n6 end\n')
    tally.check('names that are none', run(*collect, folder / 'none.db').failed('point 6 is no statement', 1))


def refused(tally: Tally, folder: pathlib.Path) -> None:
    """A hall that is open, a log that is changed or of nothing: nothing is taken in."""
    answers, register = folder / 'answers', folder / 'register.db'
    sit(answers)
    file = answers / 'sitting.log'
    log, collect = file.read_bytes(), [DESK, 'collect', answers, '--register', register, '--new']
    with Hall(EXAMPLES['p'], PEOPLE, str(answers)):
        tally.check('in use', run(*collect).failed('the sitting has not ended yet'))
    lines = log.splitlines(keepends=True)
    chain = Chain(hash_of(EXAMPLES['p']))
    _, strange = chain.added('2026-11-16T00:00:00.000+00:00', '-', '-', 'put 5')
    for name, data, word in [
            ('a byte', log.replace(b'put 11', b'put 12'), 'is not the one that was written there'),
            ('a line less', b''.join(lines[:3] + lines[4:]), 'is damaged'), ('no top', log[5:], 'top line'),
            ('nothing', b'', 'top line'), ('only a top', lines[0], 'never began'),
            ('a strange act', chain.top + strange, 'is no act that can be made'),
            ('an old form', b'paper 00\n', 'of an older form')]:
        file.write_bytes(data)
        seen = run(*collect)
        tally.check(name, seen.failed(word) and not register.exists(), seen)
    file.write_bytes(log[:-30])
    seen = run(*collect)
    held = added(seen) == 3 and 'Bert entered and has neither' in seen.err and seen.status == 1
    tally.check('a last line that was cut off', held, seen)
    tally.check('audited', run(DESK, 'audit', register).status == 0)
    file.unlink()
    for name, word, seen in [('no log', 'cannot read', run(*collect)), ('no folder', 'cannot read', run(
            DESK, 'collect', folder / 'none', '--register', register)), ('no reason', 'wants the reason', run(
                DESK, 'collect', answers, '--register', register, '--replace', ' '))]:
        tally.check(name, seen.failed(word), seen)
    blocked = folder / 'blocked'
    with Hall(b'01\n03\n03\n02\n110001\n1301\n', PEOPLE, str(blocked)) as hall:
        hall.open()
    seen = run(DESK, 'collect', blocked, '--register', register)
    tally.check('no key', seen.status == 2 and 'has no key' in seen.err and len(table(register)) == 3, seen)


LOG = 'UPDATE sitting SET log = {}'
# What is done to a register with a sitting, and what must be told.
CHANGES = [
    ('a byte', LOG.format("CAST(replace(CAST(log AS TEXT), 'put 11', 'put 12') AS BLOB)"), 'its log is damaged: line'),
    ('a cut end', LOG.format("CAST(substr(CAST(log AS TEXT), 1, length(log) - 200) AS BLOB)"), 'another head'),
    ('no log', LOG.format("x''"), 'its log is damaged: line 1'),
    ('bytes behind it', LOG.format("CAST(log || 'x' AS BLOB)"), 'another end'),
    ('another time', "UPDATE sitting SET closed = '2026'", 'other times'),
    ('another head', f"UPDATE sitting SET head = '{'0' * 64}'", 'another head'),
    ('another answer', "UPDATE mark SET answer = (SELECT answer FROM mark WHERE candidate = 'dora'), uncut = 0, "
                       "verdict = 'Uncut' WHERE candidate = 'anna'", 'its log does not have what mark 1, anna, is of'),
    ('another candidate', "UPDATE mark SET candidate = 'fay' WHERE seq = 1", 'mark 1, fay, is of'),
    ('who was there', "UPDATE mark SET candidate = 'carl' WHERE candidate = 'eva'", 'mark 4, carl, is of')]


def changed(tally: Tally, folder: pathlib.Path) -> None:
    """An audit finds a log that was changed, and marks that are not of it, whatever was made to fit."""
    answers, whole, register = folder / 'answers', folder / 'whole.db', folder / 'changed.db'
    sit(answers)
    run(DESK, 'collect', answers, '--register', whole, '--new')
    for name, script, word in CHANGES:
        shutil.copy(whole, register)
        change(register, f'PRAGMA foreign_keys=OFF; {script}', True)
        seen = run(DESK, 'audit', register)
        told = [line for line in seen.out.decode().splitlines() if line.startswith('sitting answers: ')]
        tally.check(name, seen.status == 1 and len(told) == 1 and word in told[0], seen)


def main() -> None:
    tally = Tally()
    for part in (collected, by_mark, names, refused, changed):
        with tempfile.TemporaryDirectory() as name:
            part(tally, pathlib.Path(name))
    tally.close()


if __name__ == '__main__':
    main()
