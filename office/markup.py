"""The pages of a hall, made from the pieces in office/served: the ticket's, a candidate's, and a few words with a way
back for what is refused."""
import html
import string
from http import HTTPStatus

from office.atlas import atlas, is_whole, signs_of
from office.board import Board
from office.called import Called
from office.chain import receipt_of
from office.clock import time_in, told
from office.colours import COLOURS, SERVED
from office.messages import Reply
from office.paper import Paper, Placed
from office.picture import STYLE
from office.printed import facts
from office.show import listing_of
from office.sight import Drawn, View
from office.sittings import Sitting, hash_of, told_gaps
from office.spoken import Before
from office.words import counted

HTML, CSS, SCRIPT, PLAIN = (f'text/{kind}; charset=utf-8' for kind in ('html', 'css', 'javascript', 'plain'))
BACK, UNREAD = 'To the sitting', 'The desk could not make sense of what the browser sent. Nothing was changed.'
REFUSED = {
    HTTPStatus.NOT_FOUND: 'There is no such page in this hall.',
    HTTPStatus.METHOD_NOT_ALLOWED: 'That cannot be done with this page.',
    HTTPStatus.REQUEST_ENTITY_TOO_LARGE: 'That is longer than anything the hall takes. Nothing was changed.',
    HTTPStatus.REQUEST_URI_TOO_LONG: 'There is no such page in this hall.',
    HTTPStatus.MISDIRECTED_REQUEST: 'The hall is not called by this address. Use the address that was handed out.',
}
PRACTICE = ', practice'
LARGE = ' This paper is large: the name of a loop shows that loop alone, the loops inside it folded.'
IN_LOOPS = ' A figure a loop, from the inside out, each with the dependences at home in it.'
FILTER = '<p><label><input type="checkbox" id="only"> Only uncut ones</label></p>'
UNCUT_KEY = 'U: the next uncut;'
ANOTHER = 'This window was of another candidate. In this browser now sits: '
NOBODY = 'This window was of a candidate who has left this desk in another window.'
SINCE = ' What was asked for here since then was not done.'
DEAD = 'The ticket of this window opens nothing any more. Ask the person in charge for the new one.'
NO_RECEIPT = 'Nothing is handed in here yet, so there is no receipt.'


def template(name: str) -> string.Template:
    return string.Template((SERVED / name).read_text())


class OfPaper:
    """The pages of a paper. A view of it is drawn when it is first asked for, and kept."""

    def __init__(self, paper: Paper, name: str, practice: bool):
        self.paper, self.name, self.practice = paper, name, practice
        self.sitting = template('sitting.html')
        self.views: dict[View, string.Template] = {}
        self.printed = b''

    def has(self, view: View) -> bool:
        """Whether there is such a view."""
        return view.loop is None or view.loop in self.paper.end

    def page(self, view: View) -> string.Template:
        """The page of a view, without the candidate."""
        if view not in self.views:
            self.views[view] = self.drawn(view)
        return self.views[view]

    def drawn(self, view: View) -> string.Template:
        board = Board(self.paper, Placed([], dict.fromkeys(self.paper.end, 0), None), self.name, self.practice, view)
        whole, strips = view.loop is None, board.drawn is Drawn.STRIPS
        return string.Template(self.sitting.safe_substitute(
            paper=html.escape(self.name + PRACTICE * self.practice).replace('$', '$$'), row=board.tall,
            view='' if whole else f', loop {view.loop}', loop='' if whole else view.loop,
            last=len(self.paper.points) - 1, large=LARGE * strips,
            where=board.where(), board=board.drawing(), map=board.map(), open=' open' * strips,
            loops=len(self.paper.end), tree=board.loops_told(), shown=len(board.shown),
            filter=FILTER * self.practice, homes=board.homes, dependences=board.told(),
            signs=html.escape(' '.join(board.signs())), uncut_key=UNCUT_KEY * self.practice))

    def to_print(self) -> Reply:
        """The paper for print, a figure a loop if it is too large for a sheet. It has nothing of a candidate."""
        if not self.printed:
            empty = Placed([], dict.fromkeys(self.paper.end, 0), None)
            figures = atlas(self.paper, empty, self.name, self.paper.end, known=False)
            about = f'{counted(len(self.paper.points), "point")}, {counted(len(self.paper.dependences), "dependence")}.'
            self.printed = template('print.html').substitute(
                paper=html.escape(self.name), about=about + IN_LOOPS * (not is_whole(figures)),
                signs=html.escape(signs_of(figures)),
                figures='\n'.join(f'<section>\n{figure.svg(style=False)}</section>' for figure in figures)).encode()
        return Reply(HTTPStatus.OK, HTML, self.printed)


class Pages:
    """The pages of a hall, by the hash of the paper, and how candidates call it."""

    def __init__(self, papers: dict[str, OfPaper], called: Called):
        self.papers, self.called = papers, called
        self.ticket, self.words, self.receipt = map(template, ('ticket.html', 'words.html', 'receipt.html'))
        self.asks, self.charge = template('secret.html'), template('charge.html')
        css = ''.join([COLOURS, STYLE, *((SERVED / f'{of}.css').read_text() for of in ('hall', 'clock'))])
        self.files = {f'/{file}': (CSS if file.endswith('css') else SCRIPT, (SERVED / file).read_bytes())
                      for file in ('board.js', 'sitting.js', 'clock.js', 'charge.js', 'charge.css')}
        self.files['/hall.css'] = CSS, css.encode()

    def of_sitting(self, sitting: Sitting, token: str, view: View, before: Before) -> Reply | None:
        """The page of a candidate, if there is such a view; the token says in each request that it comes from there."""
        of = self.papers[sitting.paper]
        if not of.has(view):
            return None
        page = of.page(view).substitute(
            candidate=html.escape(sitting.name), token=token, said=html.escape(before.said.words),
            refused=' class="refused"' * before.said.refused, message=html.escape(before.message),
            left='' if before.left is None else before.left)
        return Reply(HTTPStatus.OK, HTML, page.encode())

    def of_receipt(self, sitting: Sitting) -> Reply:
        """The receipt of a sitting that is over, to be printed."""
        if sitting.ended is None:
            return self.says(HTTPStatus.OK, html.escape(NO_RECEIPT), '/')
        rows = {'Candidate': sitting.name, 'Id': sitting.candidate, 'Paper': self.papers[sitting.paper].name,
                'Collected' if sitting.collected else 'Handed in': told(time_in(sitting.ended.at)),
                'What': told_gaps(sitting.gaps), 'SHA-256 of it': hash_of(sitting.desk.sitting())}
        page = self.receipt.substitute(facts=facts(rows), code=receipt_of(sitting.ended))
        return Reply(HTTPStatus.OK, HTML, page.encode())

    def listing(self, sitting: Sitting) -> Reply:
        """The paper of a sitting as a listing."""
        return Reply(HTTPStatus.OK, PLAIN, listing_of(self.papers[sitting.paper].paper).encode())

    def to_print(self, sitting: Sitting) -> Reply:
        """The paper of a sitting for print."""
        return self.papers[sitting.paper].to_print()

    def asks_ticket(self, said: str = '') -> Reply:
        page = self.ticket.substitute(said=html.escape(said))
        return Reply(HTTPStatus.FORBIDDEN, HTML, page.encode())

    def asks_secret(self, said: str = '') -> Reply:
        return Reply(HTTPStatus.FORBIDDEN, HTML, self.asks.substitute(said=html.escape(said)).encode())

    def of_charge(self, token: str) -> Reply:
        """The page of the person in charge."""
        names = ', '.join(of.name for of in self.papers.values())
        page = self.charge.substitute(paper=html.escape(names), token=token)
        return Reply(HTTPStatus.OK, HTML, page.encode())

    def file(self, path: str) -> Reply:
        """A script or a style."""
        return Reply(HTTPStatus.OK, *self.files[path])

    def another(self, candidate: str | None, ticket: str) -> Reply:
        """Says who sits in this browser now, to a window that was of somebody else."""
        if candidate is None:
            return self.asks_ticket((DEAD if ticket else NOBODY) + SINCE)
        return self.says(HTTPStatus.OK, f'{html.escape(ANOTHER)}<bdi>{html.escape(candidate)}</bdi>.'
                         f'{html.escape(SINCE)}', '/')

    def refusal(self, status: HTTPStatus, more: str = '') -> Reply:
        """A refusal in words. It says nothing of what was asked, and leads back."""
        to = self.called.address if status == HTTPStatus.MISDIRECTED_REQUEST else '/'
        return self.says(status, html.escape(REFUSED.get(status, UNREAD)), to, more)

    def says(self, status: HTTPStatus, words: str, to: str, more: str = '') -> Reply:
        page = self.words.substitute(words=words, to=html.escape(to), back=BACK)
        return Reply(status, HTML, page.encode(), more)
