"""./desk verify: whether a certificate was given by this register, and whether its mark still holds."""
import argparse

from office.command import REFUSED, Fault, printable, write_json, write_out
from office.marks import certificate_in
from office.register import Register, opened, readable
from office.slip_pages import of_whom, when
from office.stored import Stored, damaged
from office.view import verdict

MORE = """It says yes with the row, or no; the status is then 1. The mark is made again by the proved calls. The number
may be typed with or without dashes, in capital or small letters.

  ./desk verify register.db abcd-efgh-jkmn-pqrs
"""
FORM = 'a number has sixteen letters and digits in groups of four'


def arguments(parser: argparse.ArgumentParser) -> None:
    parser.add_argument('register', metavar='REGISTER', help='the file of the register')
    parser.add_argument('number', metavar='NUMBER', help='the number of the certificate')
    parser.add_argument('--json', action='store_true', help='an object, for programs')


def answer_to(register: Register, typed: str) -> tuple[bool, list[str]]:
    """Yes with the row, or no with the reason, a line each."""
    number = certificate_in(typed)
    if number is None:
        return False, [f'no: {FORM}: {printable(typed)}']
    given = register.certificate(number)
    if given is None:
        return False, [f'no: this register has no certificate {number}']
    (mark, at), stored = given, Stored(register)
    if mark.certificate() != number or not mark.certified:
        raise damaged(mark)
    stored.answer(mark)
    row = [f'{of_whom(stored.called(mark), mark)}, paper {stored.paper(mark).text.name}: {verdict(mark)}',
           f'marked {when(mark.at)}, mark {mark.seq}; certificate {number} given {when(at)}',
           f'paper {mark.paper}', f'answer {mark.answer}']
    for later in register.marks('mark WHERE replaces = ?', mark.seq):
        return False, [f'no: the mark does not hold any more: {verdict(later)} took its place {when(later.at)}, '
                       f'{later.reason}', *row]
    return True, [f'yes: {row[0]}', *row[1:]]


def main(asked: argparse.Namespace) -> None:
    with opened(asked.register) as register, readable(asked.register):
        holds, lines = answer_to(register, asked.number)
    if asked.json:
        write_json({'holds': holds, 'words': lines})
    else:
        write_out('\n'.join([*lines, '']).encode())
    if not holds:
        raise Fault('', REFUSED)
