"""The hall without a browser: a hundred candidates at once, from handing in to the register, the person in charge,
several papers, connections of every sort and in any number, how it is called, bad requests.

Needs the library's archive (rt lib in crates/host). The last line is 'N passed, M failed'.
"""
import csv
import pathlib
import signal
import tempfile

from outside.hall.charged import in_charge
from outside.hall.connections import connected
from outside.hall.crowds import crowd, rush
from outside.hall.encrypted import from_where, over_ipv6, wrong
from outside.hall.opened import Candidate, Hall
from outside.hall.refusing import raw, request, status, unmoved
from outside.hall.several import several
from outside.hall.shares import shares
from outside.trying import DESK, EXAMPLES, Tally, run


def to_the_register(tally: Tally, folder: pathlib.Path) -> None:
    """Three sittings, handed in and marked."""
    hall = Hall(folder / 'day', EXAMPLES['p'], ['anna', 'bert', 'carl'], 'a$b<.hex').start()
    page = raw(hall.port, request(hall, 'GET', '/'))
    head = b'<h1>a$b&lt;, <bdi id="candidate">anna</bdi></h1>'
    tally.check('a strange name', status(page) == 200 and head in page, page)
    for name, gaps in (('anna', [5, 11]), ('bert', [3, 9]), ('carl', [3, 9, 13])):
        candidate = Candidate(hall, name)
        for gap in gaps:
            candidate.move(f'put {gap}')
        tally.check(f'{name} hands in', candidate.hand_in()[1]['handed_in'])
        tally.check(f'{name} is done', candidate.move('put 1')[0] == 409 == candidate.hand_in()[0])
    hall.end(signal.SIGINT)
    files, register = sorted(hall.answers.glob('*.hex')), folder / 'r.db'
    run(DESK, 'mark', hall.folder / hall.file, *files, '--register', register, '--new')
    table = run(DESK, 'register', register, '--csv').out.decode().splitlines()
    rows = [row[:6] for row in csv.reader(table)][1:]
    tally.check('the register', rows == [['anna', 'Best', '', '', '', ''], ['bert', 'Uncut', '4', '', '', ''],
                                         ['carl', 'Dearer', '', '0', '1', '0']], rows)


def main() -> None:
    tally = Tally()
    with tempfile.TemporaryDirectory() as name:
        folder = pathlib.Path(name)
        crowd(tally, folder)
        rush(tally, folder)
        to_the_register(tally, folder)
        in_charge(tally, folder)
        several(tally, folder)
        connected(tally, folder)
        shares(tally, folder)
        over_ipv6(tally, folder)
        from_where(tally, folder)
        wrong(tally, folder)
        unmoved(tally, folder)
    tally.close()


if __name__ == '__main__':
    main()
