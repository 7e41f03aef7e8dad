"""Starts of a hall: what is wrong is told before anybody sits down, and a start that fails leaves all as it was."""
import hashlib
import pathlib
import shutil

from outside.hall.opened import Candidate, Hall
from outside.hall.refusing import raw, request, status
from outside.trying import EXAMPLES, Tally, run

OLD = """paper {}
2026-11-16T09:04:24.680+00:00\tanna\tput 5
2026-11-16T09:04:31.127+00:00\tanna\ttake back
2026-11-16T09:04:32.000+00:00\tÖzge K.\tput 3
2026-11-16T09:04:33.500+00:00\tanna\tput 11
2026-11-16T09:05:00.000+00:00\tÖzge K.\thand in
"""


def kept_in(folder: pathlib.Path) -> dict[str, bytes]:
    return {path.name: path.read_bytes() for path in folder.iterdir()} if folder.exists() else {}


def refused(tally: Tally, folder: pathlib.Path) -> None:
    """Each fault is told, in one line, and nothing is changed."""
    hall = Hall(folder / 'starts', EXAMPLES['p'], ['anna', 'bert']).start()
    names, tickets = folder / 'starts' / 'names.txt', hall.answers / 'tickets.csv'
    Candidate(hall, 'anna').move('put 5')
    other = Hall(folder / 'other', EXAMPLES['p'], ['anna'])
    other.port = hall.port
    tally.check('a port in use', run(*other.command).failed('cannot listen'), run(*other.command))
    tally.check('nothing is left of it', not other.answers.exists())
    hall.end()
    good, whole = names.read_bytes(), hall.log.read_bytes()
    lines = tickets.read_bytes().splitlines(keepends=True)
    last = whole.count(b'\n')
    for name, file, data, word in [
            ('no names', names, b'# nobody\n\n', 'names no candidate'), ('a path', names, b'anna\n../bert\n', 'line 2'),
            ('no UTF-8', names, b'\xff\n', 'not UTF-8'),
            ('another paper', hall.log, whole.replace(whole[15:25], b'0123456789'), 'another paper'),
            ('another form', hall.log, b'desk sitting 3\n', 'line 1 '), ('empty', hall.log, b'', 'line 1 '),
            ('damaged', hall.log, whole + b'anna put 6\n', f'line {last + 1} '),
            ('a line doubled', hall.log, whole + whole.splitlines(keepends=True)[-1], f'line {last + 1} '),
            ('no columns', tickets, b'anna\n', 'line 1 has not the columns'),
            ('one ticket for two', tickets, b''.join(lines[:2]) + lines[1].replace(b'anna', b'bert'), 'line 3 has a'),
            ('no ticket', tickets, b'candidate,ticket\nanna,x\n', 'line 2 has no ticket'),
            ('another ticket', tickets, b'candidate,ticket\nanna,aaaa-aaaa-aaaa-aaaa\n', 'not the one handed out'),
            ('an answer of before', hall.answers / 'bert.hex', b'', 'bert did not hand it in'),
            ('an answer of nobody', hall.answers / 'carl.hex', b'', 'no candidate has this id'),
            ('a paper that is none', hall.folder / 'paper.hex', b'03\n', 'number 4')]:
        before = file.read_bytes() if file.exists() else None
        file.write_bytes(data)
        kept = kept_in(hall.answers)
        seen = run(*hall.command)
        tally.check(name, word in seen.err and seen.out == b'' and seen.status == (1 if 'number' in word else 2), seen)
        tally.check(f'{name}: nothing is changed', kept_in(hall.answers) == kept)
        if before is None:
            file.unlink()
        else:
            file.write_bytes(before)
    for more, word in [(['--port', '70000'], 'cannot listen'), (['--port', 'x'], 'invalid int'),
                       (['--bind', '0.0.0.0'], 'say by --name'), (['--bind', '203.0.113.1'], 'cannot listen')]:
        kept = kept_in(hall.answers)
        tally.check(' '.join(more), run(*hall.command, *more).failed(word) and kept_in(hall.answers) == kept)
    tally.check('as it was', (names.read_bytes(), hall.log.read_bytes()) == (good, whole))


def no_log(tally: Tally, folder: pathlib.Path) -> None:
    """With tickets or answers and no log nothing is opened, and nothing made."""
    for name, file, data in (('tickets', 'tickets.csv', b'candidate,ticket\n'), ('an answer', 'anna.hex', b'2105\n')):
        hall = Hall(folder / f'no log, {name}', EXAMPLES['p'], ['anna'])
        hall.answers.mkdir()
        (hall.answers / file).write_bytes(data)
        seen = run(*hall.command)
        tally.check(f'{name}, no log', seen.failed(f'has {file} and no sitting.log: put the log back'), seen)
        tally.check(f'{name}: nothing is made', kept_in(hall.answers) == {file: data})
    deep = Hall(folder / 'deep', EXAMPLES['p'], ['anna'])
    deep.answers = deep.folder / 'a' / 'b'
    tally.check('no port', run(*deep.command, '--port', '70000').failed('cannot listen'))
    tally.check('folders that were made go', not (deep.folder / 'a').exists())
    deep.start()
    tally.check('folders are made', deep.log.exists())
    deep.end()


def other_lists(tally: Tally, folder: pathlib.Path) -> None:
    """Candidates come, and get another name; nobody goes. A ticket that is cleared is dead, and no other."""
    hall = Hall(folder / 'lists', EXAMPLES['p'], ['anna', 'bert']).start()
    Candidate(hall, 'anna').move('put 5')
    hall.end()
    first = hall.tickets
    (hall.folder / 'names.txt').write_text('id;name;minutes\r\nANNA;Anna Ávila;90\r\ncleo;Cleo;\r\n')
    hall.more = ['--bind', '0.0.0.0', '--name', 'hall.example']
    hall.start()
    tally.check('one more candidate', hall.tickets | first == hall.tickets and len(hall.tickets) == 3, hall.tickets)
    tally.check('the list in the log', b'candidate anna 90 - Anna \xc3\x81vila\t' in hall.log.read_bytes())
    reply = raw(hall.port, request(hall, 'GET', '/sitting', Host=f'hall.example:{hall.port}'))
    tally.check('by a name', status(reply) == 200 and b'"gaps":[5]' in reply, reply)
    tally.check('not by another', status(raw(hall.port, request(hall, 'GET', '/sitting', Host='a:1'))) == 421)
    lines = hall.log.read_bytes().count(b'\n')
    hall.end()
    hall.start()
    tally.check('a start is a line', hall.log.read_bytes().count(b'\n') == lines + 1)
    hall.end()
    text = (hall.answers / 'tickets.csv').read_text().replace(first['anna'], '').replace(',', ';').replace('\n', '\r\n')
    stolen, bert = Candidate(hall, 'bert'), first['bert']
    (hall.answers / 'tickets.csv').write_text(f'\ufeff{text}')
    stolen.headers = hall.with_ticket(first['anna'])
    hall.more = []
    hall.start()
    tally.check('a new ticket', hall.tickets['anna'] != first['anna'] and hall.tickets['bert'] == bert, hall.tickets)
    tally.check('opens the sitting', Candidate(hall, 'anna').ask('/sitting')[1]['gaps'] == [5])
    tally.check('the old one is dead', stolen.ask('/sitting')[0] == 403)
    hall.end()
    stolen.leave()
    (hall.answers / 'tickets.csv').unlink()
    stolen.headers = hall.with_ticket(bert)
    hall.start()
    tally.check('without the file all tickets stay good', stolen.ask('/sitting')[0] == 200)
    tally.check('no ticket in the log', bert.encode() not in hall.log.read_bytes())
    hall.end()


def migrated(tally: Tally, folder: pathlib.Path) -> None:
    """A log of the form before the chain is taken down anew, and kept."""
    text = OLD.format(hashlib.sha256(EXAMPLES['p']).hexdigest()).encode()
    hall = Hall(folder / 'old', EXAMPLES['p'], ['anna', '7'], listed='id,name\nanna,anna\n7,Özge K.\n')
    hall.answers.mkdir()
    hall.log.write_bytes(text + b'2026-11-16T09:05:00.000+00:00\tanna\tpu')
    (hall.answers / 'tickets.csv').write_text(
        'candidate,ticket\nanna,abcd-efgh-jkmn-pqrs\nÖzge K.,bcde-fghj-kmnp-qrst\n')
    (hall.answers / 'Özge K..hex').write_bytes(b'2103\n')
    before = kept_in(hall.answers)
    tally.check('an answer by another name', run(*hall.command).failed('no candidate has this id: move it away'))
    seen = run(*hall.command, '--port', '70000')
    tally.check('no port', seen.failed(''), seen)
    tally.check('all is as it was', kept_in(hall.answers) == before)
    (hall.answers / 'Özge K..hex').unlink()
    hall.start()
    tally.check('it is told', 'taken down anew, and the old one kept as' in hall.complaints(), hall.complaints())
    told = Candidate(hall, 'anna').ask('/sitting')[1]
    tally.check('the moves', (told['gaps'], told['moves'], hall.moves('anna')) == (
        [11], 3, ['put 5', 'take back', 'put 11']), told)
    tally.check('the time', b'\t2026-11-16T09:04:24.680+00:00\tanna\t-\tput 5\t' in hall.log.read_bytes())
    tally.check('what was handed in', (hall.answers / '7.hex').read_bytes() == b'2103\n')
    tally.check('handed in', hall.moves('7') == ['put 3', 'hand in'])
    tally.check('the old one', (hall.answers / 'sitting.log.1').read_bytes().startswith(text))
    hall.end()
    hall.start()
    tally.check('once', hall.complaints().count('taken down anew') == 1)
    hall.end()
    shutil.rmtree(hall.answers)
    hall.answers.mkdir()
    for name, data, word in (('a line', text + b'anna put 6\n', 'line 7 '),
                             ('a move', text + b't\tanna\tput 11\n', 'line 7 '),
                             ('after the end', text + 't\tÖzge K.\tput 6\n'.encode(), 'line 7 '),
                             ('nobody', text + b't\tcarl\tput 6\n', 'who is not among the candidates'),
                             ('another paper', b'paper 00\n', 'another paper')):
        hall.log.write_bytes(data)
        seen = run(*hall.command)
        tally.check(f'an old log: {name}', seen.failed(word) and kept_in(hall.answers) == {'sitting.log': data}, seen)


def started(tally: Tally, folder: pathlib.Path) -> None:
    for some in (refused, no_log, other_lists, migrated):
        some(tally, folder)
