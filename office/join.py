"""./desk join: two papers pasted into one."""
import argparse

from office.asked import PAPER_HELP, is_paper, paper_text, refused, refused_paper
from office.command import REFUSED, Fault
from office.frames import DEEP, DEPENDENCES, POINTS
from office.library import Desk, join, refusal_of
from office.refusal import Refused
from office.result import hand_over, result_arguments

MORE = 'The first paper comes first, its dependences too. The key of the joint paper is the two keys, moved along.'
BARRED, POINT = 'it has barred gaps, and only papers without any can be joined', len(b'01\n')


def too_large(texts: list[bytes]) -> str:
    """Which limit the joint paper would pass. Without their dependences the two may fit; a loop more around one that is
    as deep as may be does not."""
    points = [b''.join(line for line in text.splitlines(True) if len(line) == POINT) for text in texts]
    if refusal_of(lambda second: join(points[0], second), points[1]) is None:
        return f'the joint paper would have more than {DEPENDENCES} dependences'
    for text, which in zip(texts, ('first', 'second')):
        desk = Desk()
        desk.load(text)
        shape = desk.shape()
        if max(shape.depth[d] for d in shape.end) == DEEP - 1:
            return f'the {which} paper has loops {DEEP} deep, and joining puts one more around them'
    return f'the joint paper would have more than {POINTS} points'


def arguments(parser: argparse.ArgumentParser) -> None:
    parser.add_argument('first', metavar='PAPER', help=PAPER_HELP)
    parser.add_argument('second', metavar='PAPER', help='the paper behind it')
    result_arguments(parser, 'another paper')


def main(asked: argparse.Namespace) -> None:
    files = [asked.first, asked.second]
    texts = [paper_text(file) for file in files]
    try:
        joint = join(*texts)
    except Refused as refusal:
        at = refusal.refusal.text
        if at and refusal.refusal.line:
            raise refused_paper(files[at - 1], refusal, texts[at - 1]) from refusal
        if at:
            raise refused(files[at - 1], refusal, texts[at - 1], BARRED) from refusal
        _, *rules = refusal.refusal.words(b'', too_large(texts))
        raise Fault('\n'.join(['the two papers cannot be joined', *rules]), REFUSED) from refusal
    hand_over(asked, joint, 'paper', is_paper)
