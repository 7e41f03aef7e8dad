"""Several papers in one hall: who sits over which is in the list; one log, one address, and each is marked by its own
key."""
import csv
import pathlib
import signal

from office.sittings import hash_of
from outside.hall.charged import Person
from outside.hall.clocks import Timed
from outside.hall.opened import Candidate, until_there
from outside.trying import DESK, EXAMPLES, Tally, run

LISTED = 'id,name,paper\nanna,Anna,p\nbert,Bert,q.hex\ncarl,Carl,q\ndora,,p\n'


class Two(Timed):
    """A hall over P and Q."""

    @property
    def command(self) -> list[str]:
        (self.folder / 'q.hex').write_bytes(EXAMPLES['q'])
        first, second, paper, *more = super().command
        return [first, second, paper, str(self.folder / 'q.hex'), *more]


def rows(register: pathlib.Path) -> list[list[str]]:
    table = csv.DictReader(run(DESK, 'register', register, '--csv').out.decode().splitlines())
    return [[row[column] for column in ('candidate', 'paper', 'verdict')] for row in table]


def sat(tally: Tally, folder: pathlib.Path) -> Two:
    """A sitting over both, with a start in the middle and a late candidate."""
    hall = Two(folder / 'several', EXAMPLES['p'], ['anna', 'bert', 'carl', 'dora'], 'p.hex', listed=LISTED).begin()
    anna, bert = Candidate(hall, 'anna'), Candidate(hall, 'bert')
    for one, paper in ((anna, 'p'), (bert, 'q')):
        tally.check(f'{one.name} enters', one.enter() == 303)
        page = Person(hall).ask('GET', '/', Cookie=one.headers['Cookie'])[1]
        tally.check(f'{one.name} has {paper}', f'<h1>{paper}, <bdi' in page and 'data-gap="1"' in page, page[:400])
    tally.check('each its own', anna.move('put 5')[0] == 200 == bert.move('put 2')[0] and 'of 6' in anna.told['state']
                and 'of 6' not in bert.told['state'], bert.told)
    hall.end()
    for one in (anna, bert):
        one.leave()
    hall.start()
    tally.check('a start has both', anna.move('put 11')[0] == 200 and bert.ask('/sitting')[1]['gaps'] == [2])
    person = Person(hall)
    over = [row['paper'] for row in person.now()['candidates']]
    tally.check('the person in charge sees it', over == ['p', 'q', 'q', 'p'] and person.told['papers'] == ['p', 'q'])
    late = {'identity': 'eva', 'name': '', 'minutes': ''}
    tally.check('late over none', person.act('late', **late)[1] == 'No candidate was added: say over which paper.')
    tally.check('late over Q', person.act('late', **late, paper='q')[0] == 200 and until_there(
        lambda: 'eva' in hall.tickets) and person.row('eva')['paper'] == 'q', person.told)
    eva = Candidate(hall, 'eva')
    eva.enter()
    tally.check('eva sits', eva.move('put 2')[0] == 200 and eva.hand_in()[0] == 200)
    anna.hand_in()
    receipt = Person(hall).ask('GET', '/receipt', Cookie=eva.headers['Cookie'])[1]
    tally.check('the receipt', '<bdi>q</bdi>' in receipt, receipt)
    return hall


def started_again(tally: Tally, hall: Two) -> None:
    """What does not go together is refused, and nothing written."""
    hall.end(signal.SIGINT)
    kept, names, paper = hall.log.read_bytes(), hall.folder / 'names.txt', hall.command[3]
    one_paper = [word for word in hall.command if word != paper]
    swapped = [*hall.command[:2], paper, hall.command[2], *hall.command[4:]]
    twice = [*hall.command[:3], hall.command[2], *hall.command[4:]]
    for name, command, listed, words in [
            ('one is missing', one_paper, 'anna\nbert\n', 'has further papers: name them too: q'),
            ('in another order', swapped, LISTED, 'is the log of another paper'),
            ('twice the same', twice, LISTED, 'two papers are the same'),
            ('no paper', hall.command, 'id,paper\nanna,p\nbert,\n',
             'line 3 has no paper, and several are served: p, q'),
            ('a plain list', hall.command, 'anna\nbert\n', 'line 1 has no paper'),
            ('another paper', hall.command, 'id,paper\nanna,p\nbert,r\n', 'line 3 has a paper that is not served: "r"'),
            ('begun over another', hall.command, 'id,paper\nbert,p\n', 'bert has begun over another paper')]:
        names.write_text(listed)
        seen = run(*command, PYTHONPATH=str(hall.folder))
        tally.check(name, seen.failed(words), seen)
    tally.check('nothing is written', hall.log.read_bytes() == kept)
    names.write_text(LISTED.replace('carl,Carl,q', 'carl,Carl,p'))
    hall.start()
    carl = Candidate(hall, 'carl')
    told = carl.enter() == 303 and carl.ask('/sitting')[1]['state']
    tally.check('not begun: another paper', 'of 6' in told, told)
    tally.check('in the log', f'title {hash_of(EXAMPLES["q"])} q\t' in hall.log.read_text())
    Person(hall).act('close')
    hall.end(signal.SIGINT)


def marked(tally: Tally, hall: Two, folder: pathlib.Path) -> None:
    """Each is marked by the key of its own paper."""
    both, single = folder / 'both.db', folder / 'single.db'
    seen = run(DESK, 'collect', hall.answers, '--register', both, '--new')
    wanted = [['anna', 'p', 'Best'], ['bert', 'q', 'Uncut'], ['carl', 'p', 'Uncut'], ['dora', 'p', 'Absent'],
              ['eva', 'q', 'Uncut']]
    tally.check('collected', seen.status == 0 and sorted(rows(both)) == wanted, [seen, rows(both)])
    tally.check('audited', run(DESK, 'audit', both).status == 0, run(DESK, 'audit', both))
    tally.check('named by the log', run(DESK, 'collect', hall.answers, '--register', both, '--paper', 'x').failed(
        'leave --paper out'))
    for paper in ('q', 'p'):
        new = ['--new'] if paper == 'q' else []
        seen = run(DESK, 'mark', hall.folder / f'{paper}.hex', '--sitting', hall.answers, '--register', single, *new)
        got = sorted(row for row in rows(single) if row[1] == paper)
        tally.check(f'over {paper} alone', seen.status == 0 and got == [row for row in wanted if row[1] == paper], seen)
    tally.check('both by one after the other', sorted(rows(single)) == wanted)
    tally.check('audited too', run(DESK, 'audit', single).status == 0, run(DESK, 'audit', single))
    story = run(DESK, 'story', hall.answers, '--candidate', 'bert')
    tally.check('the story', story.status == 0 and b'collected: a barrier in gap 2' in story.out, story)


def several(tally: Tally, folder: pathlib.Path) -> None:
    hall = sat(tally, folder)
    started_again(tally, hall)
    marked(tally, hall, folder)
