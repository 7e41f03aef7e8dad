"""Marks of a register with the bytes that they are of. Each is made again by the calls before anything is handed out
about it, and what does not come out as it is kept is not."""

from office.audit import planned
from office.command import Fault
from office.keeping import PaperText, finding_of
from office.library import Desk
from office.marks import Mark, sha256_of
from office.names import names_bound
from office.paper import Paper, paper_on
from office.records import dataclass
from office.register import Register


@dataclass(frozen=True)
class OnDesk:
    """A paper of the register on a desk with its key, and as the calls tell of it."""
    text: PaperText
    desk: Desk
    paper: Paper


class Stored:
    """The papers and answers of a register, by the marks that are of them."""

    def __init__(self, register: Register):
        self.register = register
        self.papers: dict[str, OnDesk] = {}

    def paper(self, mark: Mark) -> OnDesk:
        """The paper of a mark."""
        if mark.paper not in self.papers:
            name, text = self.register.paper(mark.paper) or ('', b'')
            desk = planned(text)
            if sha256_of(text) != mark.paper or desk is None:
                raise damaged(mark)
            self.papers[mark.paper] = OnDesk(PaperText(mark.paper, name, text), desk, self.named(mark, desk))
        return self.papers[mark.paper]

    def named(self, mark: Mark, desk: Desk) -> Paper:
        """The paper on a desk, with the names that the register has of its statements."""
        names = self.register.names(mark.paper)
        try:
            return paper_on(desk, {} if names is None else names_bound(names, mark.paper, desk.nest.points))
        except ValueError as fault:
            raise damaged(mark) from fault

    def answer(self, mark: Mark) -> bytes:
        """The answer of a mark that has one."""
        text = self.register.answer(mark.answer or '')
        if text is None or sha256_of(text) != mark.answer or mark.own != mark.hashed() or (
                finding_of(self.paper(mark).desk, text) != mark.finding):
            raise damaged(mark)
        return text

    def called(self, mark: Mark) -> str:
        """The candidate of a mark as people write the name, or by identity where no list has told one."""
        return self.register.name(mark.candidate) or mark.candidate


def damaged(mark: Mark) -> Fault:
    return Fault(f'mark {mark.seq}, {mark.candidate}: here the register is not as it was made; ./desk audit tells more')
