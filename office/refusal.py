"""A refusal in words: the line in decimal, the line as typed, the rule, and slips of the keyboard by name.

  python3 -m office.refusal NAME ANSWER PROGRAM < TEXT    NAME: who says it; ANSWER: the program's line 2f for the text
"""
import sys

from office.frames import REFUSAL
from office.records import dataclass
from office.words import RULES

DIGITS_RULE, BLOCKED = 1, 15


@dataclass(frozen=True)
class Refusal:
    """The number of a rule and a line from 1; line 0 stands for the whole text. Of two texts, 1 or 2 is at fault."""
    number: int
    line: int
    text: int = 0

    @property
    def rule(self) -> str:
        return f'number {self.number}: {RULES[self.number]}'

    def words(self, text: bytes, cause: str = '') -> list[str]:
        """What the refusal of a text means, a sentence a line: where, and the cause if it is known, else the rule."""
        from office.typed import line_at  # which only a refusal needs
        line = line_at(text, self.line)
        if line is not None:
            where = f'line {self.line} is refused: {line.quoted()}'
        elif self.line > 0:
            where = f'the end of the text is refused, which counts as line {self.line}'
        else:
            where = 'the text is refused as a whole'
        slips = line.slips() if line is not None and self.number == DIGITS_RULE else []
        cause = cause or '; '.join(slips)
        return [where, f'number {self.number}: {cause}' if cause else self.rule]


class Refused(Exception):
    """A call of the desk was refused."""

    def __init__(self, refusal: Refusal):
        super().__init__(refusal)
        self.refusal = refusal


def refusal_in(answer: str) -> Refusal:
    """The refusal that the program's line 2f tells: the number in one byte, the line in two."""
    _, number, high, low = bytes.fromhex(answer)
    return Refusal(number, 256 * high + low)


def answered(program: str, text: bytes) -> Refusal | None:
    """Why the program refuses a text; None where it has a key, or can have none."""
    import subprocess  # which no command of ./desk needs
    answer = subprocess.run([program], input=text, stdout=subprocess.PIPE, check=True).stdout.decode()
    refusal = refusal_in(answer) if answer.startswith(f'{REFUSAL:02x}') else None
    return refusal if refusal and refusal.number != BLOCKED else None


def main(name: str, answer: str, program: str) -> None:
    from office.causes import paper_cause  # which has its refusals from here
    text, refusal = sys.stdin.buffer.read(), refusal_in(answer)
    cause = paper_cause(refusal, text, lambda some: answered(program, some))
    for sentence in refusal.words(text, cause):
        print(f'{name}: {sentence}', file=sys.stderr)


if __name__ == '__main__':
    main(*sys.argv[1:])
