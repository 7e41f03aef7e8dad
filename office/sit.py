"""./desk sit: a sitting at the screen, on a page that candidates open in a browser."""
import argparse
import os
import signal

from office.asked import BLANK_HELP, PAPER_HELP, loaded
from office.called import Called, called_by, is_everywhere, is_here, name_of
from office.candidates import candidates_in
from office.clock import wanted
from office.command import Fault, printable, title_of, write_out
from office.hall import TICKETS, TO_PRINT, Hall
from office.library import Desk
from office.names import named_paper, names_text
from office.words import counted

MORE = """Each candidate gets a ticket. The answers handed in are files that ./desk mark takes; every move is kept, and
the same command goes on where it was. docs/HALL.md tells the person in charge more.

  ./desk sit paper.hex --candidates names.txt --answers answers
  ./desk sit paper.hex --candidates names.csv --answers answers --minutes 90
  ./desk sit paper.hex --candidates names.csv --answers answers --until 12:30
  ./desk sit p.hex q.hex --candidates names.csv --answers answers --minutes 90
  ./desk sit paper.hex --candidates names.txt --answers answers --practice
  ./desk sit paper.hex --candidates names.txt --answers answers --bind 0.0.0.0 --name hall.example \\
      --certificate hall.crt --key hall.key
"""
HERE, PORT = '127.0.0.1', 8000


def arguments(parser: argparse.ArgumentParser) -> None:
    parser.add_argument('papers', metavar='PAPER', nargs='+', help=f'{PAPER_HELP}; where there are several, the list '
                        'says who sits over which')
    parser.add_argument('--candidates', metavar='FILE', required=True,
                        help='the candidates: an id a line, or CSV with the columns id, name, minutes, paper')
    parser.add_argument('--answers', metavar='DIR', required=True,
                        help='where answers (DIR/NAME.hex), tickets and the log of moves are kept')
    parser.add_argument('--minutes', metavar='N', help='how long a candidate has from entering, where the list does '
                        'not say otherwise; then what stands is collected')
    parser.add_argument('--until', metavar='HH:MM', help='the time of day at which what stands is collected, for all '
                        'for whom the list has no minutes')
    parser.add_argument('--go-on', action='store_true',
                        help="says that this machine's clock is right, where nothing was kept for more than 12 hours "
                        'and somebody is under way')
    parser.add_argument('--practice', action='store_true',
                        help='tells also which dependences are cut; without it only how many are not')
    parser.add_argument('--bind', metavar='ADDRESS', default=HERE,
                        help=f'the address to listen at ({HERE}, which no other machine reaches)')
    parser.add_argument('--port', metavar='N', type=int, default=PORT,
                        help=f'the port ({PORT}); 0 for any that is free')
    parser.add_argument('--name', metavar='NAME', action='append', default=[],
                        help='a name or an address by which candidates call this machine; may be given again')
    parser.add_argument('--certificate', metavar='FILE', help='encrypts (TLS) with this certificate, in PEM')
    parser.add_argument('--key', metavar='FILE', help="the certificate's key, in PEM")
    parser.add_argument('--address', metavar='URL', help='what candidates call, where that is something in front of '
                        'the hall: https://hall.example')
    parser.add_argument('--blank', action='store_true', help=BLANK_HELP)


def hold_standard_files() -> None:
    """Opens what is closed of standard input, output and error on nothing: no file of the hall may take its place."""
    for number in range(3):
        try:
            os.fstat(number)
        except OSError:
            os.open(os.devnull, os.O_RDWR)  # the lowest number that is free


def called(asked: argparse.Namespace, port: int) -> Called:
    """How candidates call the hall that listens at a port."""
    if asked.address is not None:
        return called_by(asked.address)
    names = [*asked.name, *[asked.bind] * (not is_everywhere(asked.bind)), *['localhost'] * is_here(asked.bind)]
    return Called('https' if asked.certificate else 'http', tuple(map(name_of, names)), port)


def look_at(asked: argparse.Namespace) -> None:
    """Refuses what does not go together, before anything is opened."""
    if is_everywhere(asked.bind) and not asked.name and asked.address is None:
        raise Fault(f'with --bind {asked.bind} say by --name how candidates call this machine')
    if asked.address is not None and asked.name:
        raise Fault('--address says how candidates call the hall: --name has no place beside it')
    if bool(asked.certificate) != bool(asked.key):
        raise Fault('--certificate and --key go together')
    if called(asked, PORT).scheme == 'http' and asked.certificate:
        raise Fault('with --certificate the hall is called by https, and --address says http')


def papers_asked(asked: argparse.Namespace) -> list[tuple[str, bytes]]:
    """The papers that are asked for, by name. No two are the same, and no two are called the same."""
    papers = [(title_of(file), loaded(file, asked.blank)[1]) for file in asked.papers]
    for number, (name, text) in enumerate(papers):
        for other, same in papers[:number]:
            if name == other or text == same:
                raise Fault(f'two papers are the same, or are called the same: {other}, {name}')
    return papers


def laid_out(text: bytes) -> Desk:
    """A desk with a paper, and no key."""
    desk = Desk()
    desk.load(text)
    return desk


def say_so(hall: Hall, address: str, secret: str) -> None:
    """Says that the hall is open, and to whoever reads this the secret of the person in charge. If nobody can be told,
    it is not."""
    try:
        write_out(f'{address} is open for {counted(len(hall.sittings), "candidate")}, '
                  f'{counted(hall.handed_in, "answer")} handed in\n'
                  f'tickets: {printable(os.path.join(hall.answers, TICKETS))}, to print {TO_PRINT} beside it; '
                  'Ctrl-C ends the sitting\n'
                  f'in charge: {address}charge with {secret}\n{hall.away}{chr(10) * bool(hall.away)}'.encode())
    except Fault:
        hall.give_up()
        raise


def main(asked: argparse.Namespace) -> None:
    from office.door import listening_at, tls_with  # these take long to load, and no other command needs them
    from office.markup import OfPaper, Pages
    from office.serving import Server
    hold_standard_files()
    look_at(asked)
    time = wanted(asked.minutes, asked.until, asked.go_on)
    os.umask(0o077)  # what is kept is nobody else's to read
    (name, text), *others = papers_asked(asked)
    files = {title_of(file): file for file in asked.papers}
    candidates = candidates_in(asked.candidates, [name, *dict(others)])
    tls = tls_with(asked.certificate, asked.key) if asked.certificate else None
    with listening_at(asked.bind, asked.port) as listening, \
            Hall(text, candidates, asked.answers, time, name, dict(others)) as hall:
        here = called(asked, listening.getsockname()[1])
        hall.address = here.address
        papers = {name: named_paper(laid_out(text), files[name], text) for name, text in hall.texts.items()}
        hall.names = {name: names_text(hall.texts[name], paper.names) for name, paper in papers.items() if paper.names}
        pages = Pages({hall.papers[name]: OfPaper(paper, name, asked.practice) for name, paper in papers.items()}, here)
        server = Server(listening, tls, here, hall, pages, asked.practice)
        hall.open()
        say_so(hall, here.address, server.charge.secret)
        signal.signal(signal.SIGPIPE, signal.SIG_IGN)  # a candidate who goes away must not end the hall
        server.serve()
