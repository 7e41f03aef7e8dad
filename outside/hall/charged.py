"""The person in charge without a browser: the secret, every act with its line in the log, what is not kept, and what a
start has of it."""
import http.client
import json
import pathlib
import re
import signal

from office.candidates import hash_of as ticket_hash
from office.serving import token_of
from outside.hall.clocks import BROKEN, OVER, Timed, minutes
from outside.hall.opened import Candidate, Hall, until_there
from outside.trying import DESK, EXAMPLES, Tally, run

ROW = {'id', 'name', 'paper', 'presence', 'machine', 'moves', 'left', 'ended'}
TOLD = {'said', 'now', 'papers', 'away', 'closed', 'state', 'candidates'}


class Person:
    """The person in charge, as their page would ask."""

    def __init__(self, hall: Hall, secret: str = ''):
        self.hall, self.secret = hall, secret or hall.secret
        self.headers = {'Cookie': f'charge-{hall.port}={self.secret}', 'Charge': token_of(self.secret)}

    def ask(self, method: str, path: str, body: str | None = None, **headers: str) -> tuple[int, str]:
        made = http.client.HTTPConnection('127.0.0.1', self.hall.port, timeout=30)
        made.request(method, path, body, {**self.headers, **headers})
        reply = made.getresponse()
        text = reply.read().decode()
        made.close()
        return reply.status, text

    def act(self, act: str, who: str = '', **more: str) -> tuple[int, str]:
        """The status, and what is said."""
        more = {'paper': '', **more} if act == 'late' else more
        status, text = self.ask('POST', '/charge/act', json.dumps({'act': act, 'who': who, **more}))
        self.told = json.loads(text)
        return status, self.told.get('said', '')

    def now(self) -> dict:
        self.told = json.loads(self.ask('GET', '/charge/now')[1])
        return self.told

    def row(self, who: str) -> dict:
        return next(row for row in self.now()['candidates'] if row['id'] == who)


def ticket_told(said: str) -> str:
    return re.search('([a-z0-9]{4}-){3}[a-z0-9]{4}', said)[0]


def slips(printed: pathlib.Path) -> list[tuple[str, str]]:
    """The names and tickets on the page to print."""
    return re.findall(r'<div class="slip">\n<h2><bdi>(.*?)</bdi>(?s:.*?)<span class="number">(.*?)</span>',
                      printed.read_text())


def secret(tally: Tally, folder: pathlib.Path) -> None:
    """Only who has the secret gets in, and it is another at each start."""
    hall = Timed(folder / 'charge secret', EXAMPLES['p'], ['anna']).begin()
    person, first = Person(hall), hall.secret
    for name, asked in [('no secret', ''), ('a ticket', hall.tickets['anna']), ('a guess', 'abcd-efgh-jkmn-pqrs')]:
        other = Person(hall, asked or 'x')
        tally.check(name, [other.ask(*of)[0] for of in (
            ('GET', '/charge'), ('GET', '/charge/now'), ('POST', '/charge/act', '{}'),
            ('POST', '/charge/enter', f'secret={asked}'))] == [403] * 4)
    tally.check('the candidate is not in charge', 'candidates' not in Person(hall, 'x').ask(
        'GET', '/charge/now', Cookie=f'ticket-{hall.port}={first}; charge-{hall.port}={hall.tickets["anna"]}')[1])
    cookie = f'ticket-{hall.port}={first}'
    tally.check('nor the other way round', person.ask('GET', '/sitting', Cookie=cookie)[0] == 403)
    typed = first.upper().replace('-', '+')
    tally.check('the secret', person.ask('POST', '/charge/enter', f'secret={typed}')[0] == 303)
    tally.check('it is in the log', hall.acts()[-1] == 'charge' and '\t127.0.0.1\tcharge\t' in hall.log.read_text())
    tally.check('the page', person.ask('GET', '/charge')[0] == 200)
    tally.check('not without saying whose page', person.ask('GET', '/charge/now', Charge='')[0] == 403)
    tally.check('not from another page', person.ask('POST', '/charge/act', '{}', Origin='http://a.example')[0] == 421)
    tally.check('not in the log', first not in hall.log.read_text() and ticket_hash(first) not in hall.log.read_text())
    for body in ('', '{', '[]', '{}', '{"act":"plan"}', '{"act":"late","who":""}', '{"act":"close","who":1}',
                 '{"act":"close","who":"","more":""}', '{"act":"ticket","who":"anna","self":"x"}', '1' * 900):
        tally.check(f'no act: {body[:40]}', person.ask('POST', '/charge/act', body) == (400, '{}'))
    tally.check('told', person.now().keys() == TOLD and all(row.keys() == ROW for row in person.told['candidates']))
    hall.end()
    hall.start()
    tally.check('another at each start', person.ask('GET', '/charge/now')[0] == 403 and hall.secret != first)
    tally.check('no complaint', hall.complaints() == '', hall.complaints())
    hall.end()


def presence(tally: Tally, folder: pathlib.Path) -> None:
    """Who is there, and how far; no placement."""
    hall = Timed(folder / 'charge presence', EXAMPLES['p'], ['anna', 'bert'], more=['--minutes', '60']).begin()
    person, anna = Person(hall), Candidate(hall, 'anna', '127.0.0.7')
    tally.check('nobody has entered', [row['presence'] for row in person.now()['candidates']] == ['not entered'] * 2)
    anna.enter()
    anna.move('put 5')
    row = person.row('anna')
    tally.check('present', (row['presence'], row['machine'], row['moves'], row['ended']) == (
        'present', '127.0.0.7', 1, '') and minutes(row) == 60, row)
    tally.check('in all', person.told['state'] == '2 candidates, 1 present, 0 handed in, 0 collected', person.told)
    hall.later(2)
    row = person.row('anna')
    tally.check('away', row['presence'].startswith('away since ') and minutes(row) == 58, row)
    anna.ask('/clock')
    tally.check('back', person.row('anna')['presence'] == 'present')
    anna.hand_in()
    tally.check('handed in', person.row('anna')['ended'].startswith('handed in ') and person.told['state'] ==
                '2 candidates, 1 present, 1 handed in, 0 collected', person.told)
    hall.end()
    hall.start()
    tally.check('after a start', Person(hall).row('anna')['presence'] == 'not heard since the start')
    hall.end()


def tickets(tally: Tally, folder: pathlib.Path) -> None:
    """A late candidate and a new ticket, while the others go on; the file of tickets follows."""
    hall = Timed(folder / 'charge tickets', EXAMPLES['p'], ['anna', 'bert'], more=['--minutes', '60']).begin()
    person, anna, bert = Person(hall), Candidate(hall, 'anna'), Candidate(hall, 'bert')
    for one in (anna, bert):
        one.enter()
        one.move('put 5')
    status, said = person.act('ticket', 'anna')
    new = ticket_told(said)
    tally.check('a new ticket', status == 200 and said.startswith('The new ticket of anna: '), said)
    tally.check('the old one is dead at once', anna.ask('/sitting')[0] == 403 == anna.ask('/move', 'put 6 at 1')[0])
    tally.check('a window learns of it', anna.ask('/clock')[0] == 410)
    tally.check('and that is told', 'opens nothing any more' in person.ask(
        'GET', '/another', Cookie=anna.headers['Cookie'])[1])
    tally.check('nobody enters by it', person.ask('POST', '/enter', f'ticket={anna.headers["Cookie"][-19:]}')[0] == 403)
    anna.headers = hall.with_ticket(new)
    tally.check('the new one opens the sitting', anna.ask('/sitting')[1]['gaps'] == [5])
    tally.check('the others go on', bert.move('put 6')[0] == 200)
    tally.check('the file', until_there(lambda: hall.tickets['anna'] == new), hall.tickets)
    printed = hall.answers / 'tickets.html'
    tally.check('on paper', until_there(lambda: new in printed.read_text()) and slips(printed) == [
        ('anna', new), ('bert', hall.tickets['bert'])] and printed.read_text().count(hall.address) == 2, slips(printed))
    status, said = person.act('late', identity='carl-7', name="Nguyễn Thị Ánh", minutes='90')
    tally.check('a late candidate', status == 200 and person.row('carl-7')['name'] == 'Nguyễn Thị Ánh', said)
    tally.check('has a ticket', until_there(lambda: hall.tickets.get('carl-7') == ticket_told(said)), said)
    tally.check('and a slip', until_there(lambda: slips(printed)[-1] == ('Nguyễn Thị Ánh', ticket_told(said))) and
                '(carl-7)' in printed.read_text() and 'You have 90 minutes' in printed.read_text(), slips(printed))
    carl = Candidate(hall, 'carl-7')
    tally.check('sits down', carl.enter() == 303 and carl.move('put 3')[0] == 200 and minutes(carl.told) == 90)
    for name, given in [('the same', {'identity': 'ANNA', 'name': '', 'minutes': ''}),
                        ('no id', {'identity': 'a b', 'name': '', 'minutes': ''}),
                        ('no name', {'identity': 'x', 'name': '=1', 'minutes': ''}),
                        ('two lines', {'identity': 'x', 'name': 'a\tb\u2028c\x07', 'minutes': ''}),
                        ('no minutes', {'identity': 'x', 'name': '', 'minutes': '0'})]:
        status, said = person.act('late', **given)
        tally.check(f'late: {name}', status == 409 and said.startswith('No candidate was added: '), said)
    tally.check('a ticket for nobody', person.act('ticket', 'zoe')[0] == 409 == person.act('ticket', '-')[0])
    before = hall.tickets
    (hall.answers / 'tickets.csv').write_text(f'candidate,ticket\nanna,{before["bert"]}\n')
    (hall.answers / 'tickets.csv').unlink()
    (hall.answers / 'tickets.csv').mkdir()
    newest = ticket_told(person.act('ticket', 'bert')[1])
    tally.check('a file that cannot be written', until_there(lambda: 'the tickets are good' in hall.complaints()))
    hall.end()
    (hall.answers / 'tickets.csv').rmdir()
    lines = ''.join(f'{who},{ticket}\n' for who, ticket in before.items())
    (hall.answers / 'tickets.csv').write_text(f'candidate,ticket\n{lines}')
    hall.start()
    for one, ticket in ((anna, new), (bert, newest), (carl, before['carl-7'])):
        one.leave()
        one.headers = hall.with_ticket(ticket)
        tally.check('a start has them', one.ask('/sitting')[0] == 200)
    tally.check('what is dead goes from the file', hall.tickets == {
        who: ticket for who, ticket in before.items() if who != 'bert'}, hall.tickets)
    hall.end()


def more_time(tally: Tally, folder: pathlib.Path) -> None:
    """More time for one and for all; what was collected goes on. A message. A start has it all."""
    hall = Timed(folder / 'charge more', EXAMPLES['p'], ['anna', 'bert', 'carl'], more=['--minutes', '60']).begin()
    person, (anna, bert, carl) = Person(hall), (Candidate(hall, name) for name in hall.names)
    for one in (anna, bert, carl):
        one.enter()
        one.move('put 5')
    carl.hand_in()
    tally.check('for one', person.act('extra', 'anna', minutes='10') == (200, 'anna has 10 more minutes.'), person.told)
    tally.check('for all', person.act('extra', '-', minutes='1') == (200, 'All have 1 more minute.'), person.told)
    tally.check('they have it', [minutes(one.ask('/clock')[1]) for one in (anna, bert)] == [71, 61])
    for who, given, words in [('carl', '5', 'carl has handed in. Reopen first.'), ('anna', '0', 'minutes are'),
                              ('zoe', '5', 'Say first for whom'), ('', '5', 'Say first for whom')]:
        status, said = person.act('extra', who, minutes=given)
        tally.check(f'no time for {who}', status == 409 and words in said, said)
    hall.later(62)
    tally.check('bert is collected', until_there(lambda: hall.collected() == ['bert']), hall.acts())
    file = hall.answers / 'bert.hex'
    tally.check('with a file', until_there(file.exists))
    status, said = person.act('extra', '-', minutes='8')
    tally.check('a break is given back', said == 'All have 8 more minutes. What was collected goes on: bert.', said)
    tally.check('he goes on', bert.move('put 11')[0] == 200 and minutes(bert.told) == 8, bert.told)
    tally.check('without a file', until_there(lambda: not file.exists()))
    status, said = person.act('message', '-', text='  Window 3 stays\tshut: प्रिया knows. ')
    tally.check('a message', said == 'All will read: Window 3 stays shut: प्रिया knows.', said)
    tally.check('is read', anna.ask('/clock')[1]['message'].endswith(
        ', from the person in charge: Window 3 stays shut: प्रिया knows.'), anna.told)
    person.act('message', 'bert', text='Five')
    for text in ('', ' ', 'x' * 151, 'a\x07b', 'a\u202eb'):
        tally.check('no message', person.act('message', '-', text=text)[0] == 409, text)
    hall.end()
    hall.start()
    person = Person(hall)
    for one in (anna, bert, carl):
        one.leave()
    tally.check('a start has it', minutes(bert.ask('/sitting')[1]) == 8 and bert.told['message'].endswith(': Five') and
                bert.told['gaps'] == [5, 11] and 'प्रिया' in anna.ask('/sitting')[1]['message'], bert.told)
    hall.later(500)
    tally.check('all are collected', until_there(lambda: sorted(hall.collected()) == ['anna', 'bert', 'bert']))
    tally.check('reopened without time', person.act('reopen', 'bert', minutes='')[1].endswith(
        'so say how many minutes there are.'))
    tally.check('reopened', person.act('reopen', 'bert', minutes='5') == (200, 'bert goes on.'), person.told)
    tally.check('with so much time', bert.move('lift 11')[0] == 200 and minutes(bert.told) == 5, bert.told)
    person.act('close')
    tally.check('closed: reopen first', person.act('extra', 'bert', minutes='5') == (
        409, 'No time was given: the hall is closed for bert. Reopen first.'), person.told)
    hall.end()


def closed(tally: Tally, folder: pathlib.Path) -> None:
    """A hand-in is reopened; the hall is closed; all of it into the register."""
    hall = Timed(folder / 'charge closed', EXAMPLES['p'], ['anna', 'bert', 'carl', 'dora']).begin()
    person, (anna, bert, carl, dora) = Person(hall), (Candidate(hall, name) for name in hall.names)
    for one in (anna, bert, carl):
        one.enter()
        one.move('put 5')
    anna.hand_in()
    tally.check('no clock, no time', person.act('extra', '-', minutes='5')[1] == 'No time was given: no clock runs.')
    tally.check('nothing to reopen', person.act('reopen', 'bert', minutes='')[0] == 409)
    tally.check('reopened', person.act('reopen', 'anna', minutes='') == (200, 'anna goes on.'))
    tally.check('anna goes on', anna.move('put 11')[0] == 200 and anna.told['receipt'] == '')
    tally.check('no file', until_there(lambda: not (hall.answers / 'anna.hex').exists()))
    tally.check('handed in again', anna.hand_in()[0] == 200)
    status, said = person.act('close')
    tally.check('closed', (status, said) == (200, 'The hall is closed. Collected: 2.') and person.told['closed'], said)
    tally.check('once', person.act('close')[0] == 409)
    tally.check('nothing more', bert.move('put 6')[1]['said'] == OVER and dora.enter() == 403, bert.told)
    status, said = person.act('late', identity='eva', name='', minutes='')
    tally.check('a late one sits down all the same', until_there(lambda: 'eva' in hall.tickets) and
                Candidate(hall, 'eva').enter() == 303)
    tally.check('one is reopened', person.act('reopen', 'carl', minutes='')[0] == 200 == carl.move('put 11')[0])
    hall.end(signal.SIGINT)
    for one in (anna, bert, carl):
        one.leave()
    hall.start()
    person = Person(hall)
    tally.check('a start keeps it', bert.move('put 6')[0] == 409 and carl.move('put 13')[0] == 200 and
                person.now()['closed'])
    carl.hand_in()
    person.act('reopen', 'bert', minutes='')
    hall.end(signal.SIGINT)
    register = folder / 'closed.db'
    seen = run(DESK, 'collect', hall.answers, '--register', register, '--new')
    tally.check('who goes on is told', seen.status == 1 and all(
        f'{who} entered' in seen.err for who in ('bert', 'eva')), seen)
    tally.check('the marks', seen.out.startswith(b'2 answers: 1 Best, 1 Dearer; 1 Absent\n'), seen)
    story = run(DESK, 'story', hall.answers, '--candidate', 'anna').out.decode()
    tally.check('the story', all(word in story for word in ('reopened', 'the sitting is closed', 'hands in at')), story)


def not_kept(tally: Tally, folder: pathlib.Path) -> None:
    """On a disk that is full nothing is done, and that is told; then it goes on."""
    hall = Timed(folder / 'charge not kept', EXAMPLES['p'], ['anna', 'bert'], more=['--minutes', '60'])
    hall.altered(BROKEN.format(str(hall.folder))).begin()
    person, anna, bert = Person(hall), Candidate(hall, 'anna'), Candidate(hall, 'bert')
    for one in (anna, bert):
        one.enter()
        one.move('put 5')
    bert.hand_in()
    tally.check('files', until_there((hall.answers / 'bert.hex').exists))
    (hall.folder / 'is full').touch()
    acts = [('late', '', {'identity': 'x', 'name': '', 'minutes': ''}), ('ticket', 'anna', {}),
            ('extra', '-', {'minutes': '5'}), ('reopen', 'bert', {'minutes': ''}), ('message', '-', {'text': 'Five'}),
            ('close', '', {})]
    log, file = hall.log.read_bytes(), hall.tickets
    for act, who, more in acts:
        status, said = person.act(act, who, **more)
        tally.check(f'{act} is not done', status == 409 and said.startswith('This was not done'), said)
    tally.check('the person in charge still comes in', person.ask(
        'POST', '/charge/enter', f'secret={hall.secret}')[0] == 303 and len(person.now()['candidates']) == 2)
    tally.check('nothing is changed', (hall.log.read_bytes(), hall.tickets) == (log, file))
    tally.check('for nobody', anna.ask('/sitting')[0] == 200 and minutes(anna.told) == 60 and not anna.told['message'])
    tally.check('what was handed in stays', bert.ask('/sitting')[1]['handed_in'] and (
        hall.answers / 'bert.hex').exists())
    (hall.folder / 'is full').unlink()
    for act, who, more in acts:
        tally.check(f'{act} is done', person.act(act, who, **more)[0] == 200, person.told)
    hall.end()


def in_charge(tally: Tally, folder: pathlib.Path) -> None:
    for some in (secret, presence, tickets, more_time, closed, not_kept):
        some(tally, folder)
