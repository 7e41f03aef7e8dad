"""Lists of candidates and files of tickets, as people and spreadsheets write them; tickets as people type them."""
import pathlib
import unicodedata

from office.candidates import Candidate, Tickets, candidates_in, hash_of, ticket_in
from office.command import Fault
from outside.trying import Tally

GOOD = 'abcd-efgh-jkmn-pqrs'
NAMES = ['प्रिया शर्मा', 'สมชาย ใจดี', 'مُحَمَّد', 'José', 'O’Brien', "O'Brien", 'Gal·la',
         'Müller, Hans', 'Łukasz Żółć',
         '李明', 'Jean-Luc (B)', 'می‌خواهم', 'Nguyễn Thị Ánh', 'Özge K.']


def said(read: object, *told: object) -> object:
    """What is read, or the fault in words."""
    try:
        return read(*told)
    except Fault as fault:
        return str(fault)


def plain(tally: Tally, file: pathlib.Path) -> None:
    """An id a line."""
    for name, text, wanted in [
            ('lines', 'anna\n\n# nobody\n bert \r\nK-7_x.2\n', ['anna', 'bert', 'K-7_x.2']),
            ('a mark in front', '\ufeffanna\n', ['anna']), ('64 letters', 'a' * 64, ['a' * 64]),
            ('no names', '# nobody\n\n', 'names no candidate'), ('a path', 'anna\n../bert\n', 'line 2 '),
            ('hidden', '.anna\n', 'line 1 '), ('an option', '-x\n', 'line 1 '), ('65 letters', 'a' * 65, 'line 1 '),
            ('twice', 'anna\nbert\nanna\n', 'line 3 has anna a second time'),
            ('twice but for the case', 'anna\nAnna\n', 'line 2 has Anna a second time'),
            ('letters of another script', 'anna\nаnna\n', 'line 2 '),
            ('a name with a space', 'Jean Luc\n', 'columns id and name'),
            ('a name with an accent', 'Özge\n', 'columns id and name')]:
        file.write_text(text)
        seen = said(candidates_in, str(file), ['p'])
        holds = wanted in seen if isinstance(seen, str) else [one.identity for one in seen] == wanted
        tally.check(f'a list: {name}', holds, seen)
    file.write_bytes(b'\xff\n')
    tally.check('a list: no UTF-8', 'not UTF-8' in str(said(candidates_in, str(file), ['p'])))


def tables(tally: Tally, file: pathlib.Path) -> None:
    """CSV as spreadsheets save it."""
    both = [Candidate('7', 'Özge K.', 90), Candidate('8', 'Özge K.')]
    for name, text, wanted in [
            ('commas', 'id,name,minutes\n7,Özge K.,90\n8,Özge K.,\n', both),
            ('semicolons, CRLF, a mark', '\ufeffid;name;minutes\r\n7;Özge K.;90\r\n8;Özge K.;\r\n', both),
            ('tabs, another order', 'Minutes\tName\tID\n90\tÖzge K.\t7\n\tÖzge K.\t8\n', both),
            ('blank rows, quotes', '"id","name","minutes"\n,,\n7," Özge  K. ",90\n\n8,"Özge\u00a0K.",\n', both),
            ('short rows', 'id,name,minutes\n7,Özge K.,90\n8,Özge K.\n', both),
            ('ids alone', 'id\n7\n8\n', [Candidate('7', '7'), Candidate('8', '8')]),
            ('a paper', 'id,paper\na,p\nb,p.hex\nc,\n', [
                Candidate('a', 'a', None, 'p'), Candidate('b', 'b', None, 'p'), Candidate('c', 'c')]),
            ('another paper', 'id,paper\na,p\nb,q\n', 'line 3 has a paper that is not served: "q"'),
            ('no id', 'id,name\n7,Anna\n,Bert\n', 'line 3 has no id'),
            ('an id twice', 'id\nx\nX\n', 'line 3 has X a second time'),
            ('an id that is none', 'id,name\nÖ,Ö\n', 'line 2 has no id'),
            ('a name that is none', 'id,name\n7,=SUM(A1)\n', 'line 2 has no name'),
            ('a control', 'id,name\n7,a\u202eb\n', 'line 2 has no name'),
            ('a long name', f'id,name\n7,{"a" * 101}\n', 'line 2 has no name'),
            ('minutes that are none', 'id,minutes\n7,1h\n', 'line 2 has no number of minutes: "1h"'),
            ('no minutes', 'id,minutes\n7,0\n', 'line 2 has no number'),
            ('another column', 'id,name,room\n7,Anna,3\n', 'line 1 has the columns id, name, room'),
            ('a column twice', 'id,name,id\n', 'line 1 has the columns'),
            ('too many cells', 'id,name\n7,Anna,90\n', 'line 2 has more cells'),
            ('nobody', 'id,name\n', 'names no candidate')]:
        file.write_text(text)
        seen = said(candidates_in, str(file), ['p'])
        tally.check(f'a table: {name}', wanted in seen if isinstance(seen, str) else seen == wanted, seen)
    for name in NAMES:
        file.write_text(f'id,name\n7,"{unicodedata.normalize("NFD", name)}"\n')
        seen = said(candidates_in, str(file), [])
        tally.check(f'a name: {name}', seen == [Candidate('7', unicodedata.normalize('NFC', name))], seen)


def typed(tally: Tally) -> None:
    """A ticket is taken however it is typed."""
    for words in (GOOD, GOOD.upper(), f'  {GOOD}\t', 'abcd - efgh - jkmn - pqrs', 'abcdefgh jkmnpqrs',
                  *(GOOD.replace('-', sign) for sign in ('', ' ', '–', '‑', '\u00a0'))):
        tally.check(f'typed: {words!r}', ticket_in(words) == GOOD, ticket_in(words))
    for words in ('', 'abcd', GOOD[:-1], f'{GOOD}a', f'{GOOD}\0', *(GOOD.replace('a', sign) for sign in 'l0ä'),
                  *(GOOD.replace('-', sign) for sign in '_.')):
        tally.check(f'no ticket: {words!r}', ticket_in(words) is None, ticket_in(words))


def tickets(tally: Tally, file: pathlib.Path) -> None:
    """The file of tickets after a spreadsheet had it; a fault names the line, and nobody else's ticket is touched."""
    other, third = 'bcde-fghj-kmnp-qrst', 'cdef-ghjk-mnpq-rstu'
    people = [Candidate('anna', 'Anna'), Candidate('7', 'Özge K.'), Candidate('8', 'anna'), Candidate('9', '7')]
    for name, text, wanted in [
            ('as it was written', f'candidate,name,ticket\nanna,Anna,{GOOD}\n7,Özge K.,{other}\n', (GOOD, other)),
            ('of before', f'candidate,ticket\nanna,{GOOD}\n7,{other}\n', (GOOD, other)),
            ('a spreadsheet', f'\ufeffcandidate;name;ticket\r\nANNA;Anna;{GOOD.upper()}\r\n;;\r\n7;;{other}\r\n\r\n',
             (GOOD, other)),
            ('more columns', f'ticket,room,id\n{GOOD},3,anna\n{other},,7\n', (GOOD, other)),
            ('by the name', f'candidate,ticket\nanna,{GOOD}\nÖzge K.,{other}\n', (GOOD, other)),
            ('called by a name that is an id', f'candidate,ticket\n7,{other}\nanna,{GOOD}\n', (GOOD, other)),
            ('somebody else too', f'candidate,ticket\nzoe,{third}\nanna,{GOOD}\n7,{other}\n', (GOOD, other)),
            ('no dashes', f'candidate,ticket\nanna,{GOOD.replace("-", "")}\n7,{other}\n', (GOOD, other)),
            ('not a ticket', f'candidate,ticket\nanna,{GOOD}\n7,12345\n', 'line 3 has no ticket: "12345"; write it as'),
            ('the same ticket', f'candidate,ticket\nanna,{GOOD}\n7,{GOOD}\n', 'line 3 has a ticket that stands above'),
            ('the same candidate', f'candidate,ticket\nanna,{GOOD}\nAnna,{other}\n', 'line 3 has '),
            ('nobody', f'candidate,ticket\n,{GOOD}\n', 'line 2 has no candidate'),
            ('no columns', f'anna,{GOOD}\n', 'line 1 has not the columns'),
            ('one column', f'ticket\n{GOOD}\n', 'line 1 has not the columns')]:
        file.write_text(text)
        seen = said(Tickets, str(file), people)
        if isinstance(seen, Tickets):
            given = seen.given('anna', 'Anna', ''), seen.given('7', 'Özge K.', '')
            kept = seen.given('anna', 'Anna', hash_of(GOOD)), seen.given('7', 'Özge K.', hash_of(other)), seen.changed
            tally.check(f'tickets: {name}', given == wanted and kept == ('', '', False), given)
        else:
            tally.check(f'tickets: {name}', isinstance(wanted, str) and wanted in str(seen) and 'all get new' not in
                        str(seen), seen)
    file.write_text(f'candidate,room,ticket\nanna,3,\nzoe,4,{third}\n')
    seen = Tickets(str(file), people)
    new = seen.given('anna', 'Anna', hash_of(GOOD))
    tally.check('a ticket cleared is a new one', ticket_in(new) == new != GOOD)
    tally.check('a row left out is none', seen.given('7', 'x', hash_of(other)) == '')
    seen.write()
    tally.check('what else is there stays', file.read_text() == f'candidate,room,ticket,name\nanna,3,{new},Anna\nzoe,4,'
                f'{third},\n', file.read_text())
    told = said(seen.given, 'zoe', 'Zoe', hash_of(GOOD))
    tally.check('not the one handed out', 'the ticket of zoe is not the one handed out' in str(told), told)
    file.unlink()
    seen = Tickets(str(file), people)
    tally.check('no file: what was handed out stays good', seen.given('anna', 'Anna', hash_of(GOOD)) == '' and
                not seen.changed)


def listed(tally: Tally, folder: pathlib.Path) -> None:
    plain(tally, folder / 'list.txt')
    tables(tally, folder / 'list.csv')
    typed(tally)
    tickets(tally, folder / 'tickets.csv')
