"""./desk story: a sitting told again from its log, with the codes that people wrote down."""
import json
import pathlib
import re
import signal

from office.candidates import Candidate as Listed
from office.hall import Declined, Kept
from office.hall import Hall as Room
from office.sittings import hash_of
from outside.hall.opened import Candidate, Hall
from outside.hall.refusing import raw, request, status
from outside.trying import DESK, EXAMPLES, Tally, run

TIME = r'\d{4}-\d\d-\d\d \d\d:\d\d:\d\d\.\d{3}'
CODE = '[0-9a-f]{4}(?:-[0-9a-f]{4}){3}'
ANNA = ['on the list as Ávila, Anna', 'a ticket is made', 'the hall is opened', 'enters at 127.0.0.1',
        'put 5 at 127.0.0.1: a barrier in gap 5, 3 of 6 dependences uncut',
        'put 11 at 127.0.0.1: barriers in gaps 5, 11, 0 of 6 dependences uncut', 'the hall is opened',
        'take back at 127.0.0.1: a barrier in gap 5, 3 of 6 dependences uncut',
        'hands in at 127.0.0.1: a barrier in gap 5, 3 of 6 dependences uncut; receipt CODE', 'leaves at 127.0.0.1']


def words(line: str) -> str:
    """A line of a story without its number, its time and its code."""
    return re.sub(CODE, 'CODE', re.sub(rf'^ *\d+  {TIME}  ', '', line))


def a_day(tally: Tally, hall: Hall) -> None:
    """Anna enters, moves, has the desk killed between, hands in and leaves."""
    ticket = hall.tickets['anna']
    entered = raw(hall.port, request(hall, 'POST', '/enter', f'ticket={ticket}'.encode(), Cookie=''))
    tally.check('entered', status(entered) == 303, entered)
    for move in ('put 5', 'put 11', 'put 5'):
        Candidate(hall, 'anna').move(move)
    hall.end()
    hall.start()
    anna = Candidate(hall, 'anna')
    anna.move('take back')
    tally.check('handed in', anna.hand_in()[1]['handed_in'])
    page = f'sitting={hall.whose("anna")["Sitting"]}'.encode()
    tally.check('left', status(raw(hall.port, request(hall, 'POST', '/leave', page))) == 303)


def as_words(at: str) -> str:
    return at.removesuffix('+00:00').replace('T', ' ')


def for_programs(tally: Tally, story: tuple[object, ...], lines: list[str], told: list[str]) -> None:
    """The same as JSON: of all, and of Anna act by act."""
    whole, anna = (json.loads(run(*story, *more, '--json').out) for more in ([], ['--candidate', 'anna']))
    of_anna, of_bert = whole['sittings']
    tally.check('all for programs', [
        f'anna (Ávila, Anna): {of_anna["moves"]} moves, {of_anna["ended"]} {as_words(of_anna["at"])}: a barrier in gap '
        f'{of_anna["gaps"][0]}; receipt {of_anna["receipt"]}', 'bert: 0 moves, not handed in; no barrier',
        f'the log is whole: {whole["lines"]} lines, {as_words(whole["first"])} to {as_words(whole["last"])}',
        f'head {whole["head"]}'] == told, whole)
    wanted = {'candidate': 'bert', 'name': 'bert', 'moves': 0, 'ended': None, 'at': None, 'gaps': [], 'receipt': None}
    tally.check('who is not done, for programs', of_bert == wanted, of_bert)
    acts = anna.pop('acts')
    tally.check('the same sitting', anna == of_anna, anna)
    tally.check('its lines', [f'{act["line"]:>6}  {as_words(act["at"])}  ' for act in acts] == [
        line[:33] for line in lines[:-1]], acts)
    here, keys = '127.0.0.1', ('machine', 'act', 'said', 'gaps', 'uncut')
    tally.check('its acts', [tuple(act[key] for key in keys) for act in acts] == [
        (None, 'candidate', 'Ávila, Anna', [], 6), (None, 'ticket', None, [], 6), (None, 'opened', None, [], 6),
        (here, 'enter', None, [], 6), (here, 'put 5', None, [5], 3), (here, 'put 11', None, [5, 11], 0),
        (None, 'opened', None, [5, 11], 0), (here, 'take back', None, [5], 3), (here, 'hand in', None, [5], 3),
        (here, 'leave', None, [5], 3)], acts)
    tally.check('its receipt', acts[-2]['code'] == of_anna['receipt'] and acts[-1]['code'] == whole['head'], acts)


def told_again(tally: Tally, folder: pathlib.Path) -> None:
    hall = Hall(folder / 'story', EXAMPLES['p'], ['anna', 'bert'], listed='id,name\nanna,"Ávila, Anna"\nbert,\n')
    hall.start()
    a_day(tally, hall)
    story = DESK, 'story', hall.answers
    for where in ('while it is open', 'afterwards'):
        lines = run(*story, '--candidate', 'Anna').out.decode().splitlines()
        tally.check(f'the story {where}', [*map(words, lines[:-1])] == ANNA, lines)
        told = run(*story).out.decode().splitlines()
        tally.check(f'all {where}', len(told) == 4 and bool(re.fullmatch(
            rf'anna \(Ávila, Anna\): 3 moves, handed in {TIME}: a barrier in gap 5; receipt {CODE}', told[0])) and
            told[1] == 'bert: 0 moves, not handed in; no barrier' and bool(re.fullmatch(
                rf'the log is whole: 13 lines, {TIME} to {TIME}', told[2])), told)
        for_programs(tally, story, lines, told)
        if hall.lives():
            hall.end(signal.SIGINT)
    receipt, head = (re.findall(CODE, line)[-1] for line in (told[0], told[3]))
    for code in (receipt, receipt.upper().replace('-', ' ')):
        seen = run(*story, '--code', code)
        tally.check('a receipt', b'line 12 of 13: ' in seen.out and b'Anna): hands in at 127.0.0.1' in seen.out, seen)
    tally.check('the head', b'line 13 of 13: ' in run(*story, '--code', head).out)
    acts = json.loads(run(*story, '--candidate', 'anna', '--json').out)['acts']
    for code in (receipt, head):
        one = json.loads(run(*story, '--code', code, '--json').out)
        act, whose = next(act for act in acts if act['code'] == code), {'candidate': 'anna', 'name': 'Ávila, Anna'}
        tally.check('a code for programs', one == act | whose | {'lines': 13}, one)
    seen = run(*story, '--code', '0' * 16, '--json')
    words_ = json.loads(seen.out)['refused']['words']
    tally.check('a code of no line, for programs', seen.err == f'desk: {words_[0]}\n' and seen.status == 1, seen)
    data = hall.log.read_bytes()
    for name, log, words_, more, wanted in [
            ('a code of no line', data, 'no line of this log has the code', ['--code', '0' * 16], 1),
            ('the head of a log cut off', data[:data.rindex(b'13\t')], 'no line of this log', ['--code', head], 1),
            ('no code', data, 'sixteen digits', ['--code', 'abcd'], 2),
            ('both', data, 'not for both', ['--code', head, '--candidate', 'anna'], 2),
            ('nobody', data, 'is no candidate', ['--candidate', 'carl'], 2),
            ('a byte', data.replace(b'put 11', b'put 12'), 'line 10 is not the one', [], 2),
            ('an old log', b'paper 00\n', 'of an older form', [], 2), ('nothing', b'', 'line 1 ', [], 2)]:
        hall.log.write_bytes(log)
        seen = run(*story, *more)
        tally.check(name, seen.failed(words_, wanted), seen)
    hall.log.unlink()
    tally.check('no log', run(*story).failed('cannot read'))
    of_the_office(tally, folder / 'office')


def of_the_office(tally: Tally, folder: pathlib.Path) -> None:
    """What the person in charge may do one day is read already: more time, a message, collected, reopened, the end."""
    people = [Listed('anna', 'anna')]
    with Room(EXAMPLES['p'], people, str(folder)) as room:
        room.open()
        anna = room.sittings['anna']
        room.move(anna, 'put 5', '10.0.0.7')
        for act in ('extra anna 10', 'message - Five minutes', f'collected anna {hash_of(anna.desk.sitting())}'):
            room.note(act)
        tally.check('collected', anna.handed_in and anna.collected)
        room.note('reopen anna')
        room.move(anna, 'put 11', '10.0.0.7')
        room.note('close -')
        tally.check('kept', room.keep() is Kept.DONE)
    with Room(EXAMPLES['p'], people, str(folder)) as room:
        anna = room.sittings['anna']
        tally.check('read again', (anna.gaps, anna.handed_in, room.room.closed) == ([5, 11], False, True))
        try:
            room.move(anna, 'put 6', '')
            said = ''
        except Declined as declined:
            said = str(declined)
        tally.check('closed', said.startswith('The sitting is closed'), said)
    told = [words(line) for line in run(DESK, 'story', folder, '--candidate', 'anna').out.decode().splitlines()]
    tally.check('told', told[4:9] == [
        'more minutes: 10', 'told: Five minutes', 'collected: a barrier in gap 5; receipt CODE', 'reopened',
        'put 11 at 10.0.0.7: barriers in gaps 5, 11, 0 of 6 dependences uncut'], told)
    acts = json.loads(run(DESK, 'story', folder, '--candidate', 'anna', '--json').out)['acts']
    tally.check('told for programs', [(act['act'], act['said'], act['gaps']) for act in acts[4:9]] == [
        ('extra', '10', [5]), ('message', 'Five minutes', [5]), ('collected', None, [5]), ('reopen', None, [5]),
        ('put 11', None, [5, 11])], acts)
