"""./desk story: what the log of a hall tells, each line held against the chain, and the story of one candidate."""
import argparse
import os
import re
from collections.abc import Iterator

from office import oldlog
from office.candidates import folded
from office.chain import OFFICE, Event, receipt_of
from office.command import REFUSED, Fault, printable, write_json, write_out
from office.logbook import LOG
from office.played import Played
from office.sittings import COLLECTED, ENTER, HAND_IN, LEAVE, MOVE, Sitting, Sittings, told_gaps
from office.words import counted

MORE = """Each line is held against the chain of hashes, and every move is made once more by the library. The head is
the code of the last line: who has written it down can look it up by --code, as candidates can the code of a
receipt. Times are UTC.

  ./desk story answers
  ./desk story answers --candidate anna
  ./desk story answers --code 3f2a-91bc-04de-77aa
"""
CODE = re.compile('[0-9a-f]{16,64}')
# What the desk and the person in charge do, by the first word of the act.
OFFICE_ACTS = {'paper': 'the paper is laid out', 'title': 'a paper is called {}', 'opened': 'the hall is opened',
               'charge': 'the person in charge has come', 'candidate': 'on the list as {}',
               'minutes': 'minutes for all: {}', 'until': 'for all until {}', 'ticket': 'a ticket is made',
               'close': 'the sitting is closed', 'extra': 'more minutes: {}', 'message': 'told: {}',
               'reopen': 'reopened', COLLECTED: 'collected'}
# Those of them that are about the hall and name no candidate.
OF_THE_HALL = ('paper', 'title', 'opened', 'charge', 'minutes', 'until')


def arguments(parser: argparse.ArgumentParser) -> None:
    parser.add_argument('answers', metavar='DIR', help='the folder of the answers, with the log')
    parser.add_argument('--candidate', metavar='ID', help='each act of one candidate, with the barriers after it')
    parser.add_argument('--code', metavar='CODE', help='the line that has a code, of a receipt or a head')
    parser.add_argument('--json', action='store_true', help='an object, for programs')


def played(answers: str) -> Iterator[tuple[Event, Sittings]]:
    """The events of a log, each with the sittings after it."""
    file = os.path.join(answers, LOG)
    if oldlog.is_old(file):
        raise Fault(f'{printable(file)} is of an older form: ./desk sit takes it down anew')
    try:
        with open(file, 'rb') as opened:
            log = Played(file, opened)
            for event in log:
                yield event, log.room
    except OSError as fault:
        raise Fault(f'cannot read {printable(file)}: {fault.strerror}') from fault


def when(event: Event) -> str:
    return event.at.removesuffix('+00:00').replace('T', ' ')


def called(sitting: Sitting) -> str:
    """A candidate by identity and name."""
    return sitting.candidate + f' ({sitting.name})' * (sitting.name != sitting.candidate)


def how_ended(sitting: Sitting) -> str:
    return 'collected' if sitting.collected else 'handed in'


def ended(sitting: Sitting) -> str:
    """How a sitting ended: when, with what, by which code."""
    if sitting.ended is None:
        return f'not handed in; {told_gaps(sitting.gaps)}'
    return f'{how_ended(sitting)} {when(sitting.ended)}: {told_gaps(sitting.gaps)}; receipt {receipt_of(sitting.ended)}'


def subject(event: Event) -> tuple[str, str]:
    """Whom an act is about, a dash for all, and what is said of it."""
    if event.who != OFFICE:
        return event.who, ''
    word, _, rest = event.act.partition(' ')
    who, _, more = rest.partition(' ') if word not in OF_THE_HALL else (OFFICE, '', rest)
    return who, more.split(' ', 2)[-1] if word == 'candidate' else more.split(' ', 1)[-1] if word == 'title' else more


def of_office(event: Event) -> str:
    """What the desk or the person in charge did."""
    return OFFICE_ACTS[event.act.split(' ')[0]].format(subject(event)[1])


def told(event: Event, sitting: Sitting) -> str:
    """An act in words, and the barriers after it where it is a move or an end."""
    if event.who == OFFICE:
        end = f': {told_gaps(sitting.gaps)}; receipt {receipt_of(event)}'
        return of_office(event) + end * event.act.startswith(COLLECTED)
    at = f' at {event.machine}' * (event.machine != OFFICE)
    if event.act in (ENTER, LEAVE):
        return f'{"enters" if event.act == ENTER else "leaves"}{at}'
    there = sitting.desk.standing()
    now = f'{told_gaps(there.gaps)}, {there.uncut} of {counted(len(there.cuts), "dependence")} uncut'
    if MOVE.fullmatch(event.act):
        return f'{event.act}{at}: {now}'
    return f'hands in{at}: {now}; receipt {receipt_of(event)}'


def sitting_fields(sitting: Sitting) -> dict[str, object]:
    """How a sitting stands, for programs."""
    end = sitting.ended
    return {'candidate': sitting.candidate, 'name': sitting.name, 'moves': sitting.moves,
            'ended': end and how_ended(sitting), 'at': end and end.at, 'gaps': sitting.gaps,
            'receipt': end and receipt_of(end)}


def act_fields(event: Event, sitting: Sitting | None) -> dict[str, object]:
    """An act for programs, and the barriers after it. Of the office's acts the first word, and what is said of it."""
    act, said = event.act, None
    if event.who == OFFICE:
        act = event.act.split(' ')[0]
        said = subject(event)[1] if '{}' in OFFICE_ACTS[act] else None
    elif act.startswith(HAND_IN):
        act = HAND_IN
    there = sitting and sitting.desk.standing()
    return {'line': event.seq, 'at': event.at, 'machine': None if event.machine == OFFICE else event.machine,
            'act': act, 'said': said, 'gaps': there and there.gaps, 'uncut': there and there.uncut,
            'code': receipt_of(event)}


def acts_of(answers: str, asked: str) -> Iterator[tuple[Event, Sitting]]:
    """The acts about one candidate and those about all, each with the sitting after it."""
    found: Sitting | None = None
    for event, room in played(answers):
        found = found or next((sitting for identity, sitting in room.by_identity.items()
                               if folded(identity) == folded(asked)), None)
        if found and subject(event)[0] in (found.candidate, OFFICE):
            yield event, found
    if found is None:
        raise Fault(f'{printable(asked)} is no candidate of this log')


def of_candidate(answers: str, asked: str) -> Iterator[str]:
    """The story of one candidate."""
    last = ''
    for event, found in acts_of(answers, asked):
        back = ' (the clock was put back)' * (event.at < last)
        yield f'{event.seq:>6}  {when(event)}  {told(event, found)}{back}'
        last = event.at
    yield f'{called(found)}: {counted(found.moves, "move")}, {ended(found)}'


def candidate_fields(answers: str, asked: str) -> dict[str, object]:
    """The story of one candidate, for programs."""
    acts = []
    for event, found in acts_of(answers, asked):
        acts.append(act_fields(event, found))
    return sitting_fields(found) | {'acts': acts}


def whole(answers: str) -> tuple[Event, Event, list[Sitting]]:
    """The first line and the last of a log that is whole, and how each sitting stands."""
    first = None
    for event, room in played(answers):
        first = first or event
    if first is None:
        raise Fault(f'{printable(answers)} has a log with nothing in it')
    return first, event, [*room.by_identity.values()]


def of_all(answers: str) -> Iterator[str]:
    """Whether the log is whole, and how each sitting stands."""
    first, last, sittings = whole(answers)
    for sitting in sittings:
        yield f'{called(sitting)}: {counted(sitting.moves, "move")}, {ended(sitting)}'
    yield f'the log is whole: {counted(last.seq, "line")}, {when(first)} to {when(last)}'
    yield f'head {receipt_of(last)}'


def all_fields(answers: str) -> dict[str, object]:
    """The same for programs."""
    first, last, sittings = whole(answers)
    return {'sittings': [*map(sitting_fields, sittings)], 'lines': last.seq, 'first': first.at, 'last': last.at,
            'head': receipt_of(last)}


def line_of(answers: str, typed: str) -> tuple[str, dict[str, object]]:
    """The line that a code is of, in words and for programs."""
    code = re.sub(r'[\s-]', '', typed).lower()
    if not CODE.fullmatch(code):
        raise Fault(f'a code has sixteen digits 0-9 a-f, in groups of four: {printable(typed)}')
    words, last = '', 0
    fields: dict[str, object] = {}
    for event, room in played(answers):
        last = event.seq
        if event.own.startswith(code):
            who = room.by_identity.get(subject(event)[0])
            act = f'{called(who)}: {told(event, who)}' if who else of_office(event)
            words, fields = f'{when(event)}  {act}', act_fields(event, who) | {
                'candidate': who and who.candidate, 'name': who and who.name}
    if not fields:
        raise Fault(f'no line of this log has the code {printable(typed)}: lines are missing, or it is another log\'s',
                    REFUSED)
    return f'line {fields["line"]} of {last}: {words}', fields | {'lines': last}


def in_words(asked: argparse.Namespace) -> Iterator[str]:
    """What is asked for, a line each."""
    if asked.code is not None:
        yield line_of(asked.answers, asked.code)[0]
    elif asked.candidate is not None:
        yield from of_candidate(asked.answers, asked.candidate)
    else:
        yield from of_all(asked.answers)


def in_fields(asked: argparse.Namespace) -> dict[str, object]:
    """What is asked for, for programs."""
    if asked.code is not None:
        return line_of(asked.answers, asked.code)[1]
    if asked.candidate is not None:
        return candidate_fields(asked.answers, asked.candidate)
    return all_fields(asked.answers)


def main(asked: argparse.Namespace) -> None:
    if asked.candidate is not None and asked.code is not None:
        raise Fault('ask for a candidate or for a code, not for both')
    if asked.json:
        write_json(in_fields(asked))
    else:
        write_out(''.join(f'{line}\n' for line in in_words(asked)).encode())
