"""./desk certificate: the page of a certificate to print, for a mark Best that holds today."""
import argparse
import unicodedata

from office.argued import argument_of
from office.certificate_page import BEGINS, Office, certificate_page
from office.chain import now
from office.command import REFUSED, Fault, printable, read_plain, write_json, write_out, write_over
from office.marks import Mark, sha256_of
from office.paper import placed
from office.register import Register, opened, readable
from office.stored import Stored
from office.view import verdict

MORE = """The register keeps that it was given; asked for again it is the same, with the same number and date. A mark
that another took the place of has none. The office's name and place are told by options, or by a file with a line for
each.

  ./desk certificate register.db --candidate anna --office "Examining Office" --place Berne --html anna.html
  ./desk certificate register.db --candidate anna --letterhead office.txt --paper p > anna.html
"""
# So many digits of a paper's hash are enough to name it.
SHORTEST = 8


def arguments(parser: argparse.ArgumentParser) -> None:
    parser.add_argument('register', metavar='REGISTER', help='the file of the register')
    parser.add_argument('--candidate', metavar='ID', required=True, help='whose certificate it is')
    parser.add_argument('--paper', metavar='PAPER', help='the name of the paper, or digits of its hash; needed where '
                        'the candidate is marked Best on several')
    parser.add_argument('--office', metavar='NAME', help="the office's name")
    parser.add_argument('--place', metavar='PLACE', help="the office's place")
    parser.add_argument('--letterhead', metavar='FILE', help='a file with the name in its first line, the place in its '
                        'second')
    parser.add_argument('--html', metavar='FILE', help='writes the page to a file instead of standard output')
    parser.add_argument('--json', action='store_true', help='an object, for programs, beside a page in a file')


def office_asked(asked: argparse.Namespace) -> Office:
    """The office as options say, and where they do not, as its file does."""
    lines = ['', '']
    if asked.letterhead is not None:
        try:
            text = unicodedata.normalize('NFC', read_plain(asked.letterhead).decode('utf-8-sig'))
        except UnicodeDecodeError as fault:
            raise Fault(f'{printable(asked.letterhead)} is not UTF-8') from fault
        lines = [line.strip() for line in text.splitlines() if line.strip()] + lines
    name, place = (printable(given or line).strip() for given, line in zip((asked.office, asked.place), lines))
    if not name or not place:
        raise Fault('whose certificate is it? --office and --place say it, or --letterhead with a line for each')
    return Office(name, place)


def best_of(register: Register, candidate: str, paper: str | None) -> Mark:
    """The mark Best that a candidate has today, on a paper or on the only one."""
    marks = register.marks('register WHERE candidate = ? ORDER BY paper', candidate.lower())
    names = {mark.seq: (register.paper(mark.paper) or ('?', b''))[0] for mark in marks}
    if paper is not None:
        marks = [mark for mark in marks if names[mark.seq] == paper.removesuffix('.hex') or (
            len(paper) >= SHORTEST and mark.paper.startswith(paper.lower()))]
    best = [mark for mark in marks if mark.certified]
    if len(best) == 1:
        return best[0]
    told = ', '.join(f'{names[mark.seq]} ({mark.paper[:SHORTEST]}): {verdict(mark)}' for mark in marks)
    if best:
        raise Fault(f'{printable(candidate)} has several marks, and --paper says which: {told}')
    where = f' on paper {printable(paper)}' if paper is not None and names else ''
    why = f'it is {told}' if marks else f'there is no mark of this candidate{where}'
    raise Fault(f'there is no certificate for {printable(candidate)}: {why}', REFUSED)


def main(asked: argparse.Namespace) -> None:
    if asked.json and asked.html is None:
        raise Fault('standard output has the page or JSON, not both: --html FILE writes the page to a file')
    office = office_asked(asked)
    with opened(asked.register, writing=True) as register, readable(asked.register):
        stored = Stored(register)
        with register.adding():
            mark = best_of(register, asked.candidate, asked.paper)
            answer, on = stored.answer(mark), stored.paper(mark)
            register.add_certificate(mark, now())
        given = register.certificate(mark.certificate())
        if given is None:
            raise Fault(f'the certificate {mark.certificate()} is not in the register')
        argument = argument_of(on.desk, on.paper, placed(on.desk, answer).counts,
                               lambda text: on.desk.weigh_placement(answer, text))
        page = certificate_page(office, stored.called(mark), on, mark, given[1], argument)
    if asked.html is None:
        write_out(page)
    else:
        write_over(asked.html, page, begins=BEGINS)
        if asked.json:
            write_json({'number': mark.certificate(), 'at': given[1], 'mark': mark.seq, 'candidate': mark.candidate,
                        'paper_sha256': mark.paper, 'answer_sha256': mark.answer,
                        'argument_sha256': argument and sha256_of(argument)})
        else:
            write_out(f'{printable(asked.html)}: certificate {mark.certificate()}\n'.encode())
