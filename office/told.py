"""What a candidate's page is told of a sitting. In an examination that is how many dependences remain uncut; for
practice also which are cut. What may not be shown is not told."""
from office.chain import receipt_of
from office.clock import of_day, time_in, told
from office.sittings import Sitting, told_gaps

AT_ONCE = 'Nothing can be changed afterwards.'
AGAIN = 'Your ticket opens the sitting again.'


def state_of(barriers: int, uncut: int, dependences: int) -> str:
    return f'Barriers: {barriers}. Dependences uncut: {uncut} of {dependences}.'


def how_ended(sitting: Sitting) -> str:
    """How a sitting ended, for who sat there."""
    return 'Collected' if sitting.collected else 'Handed in'


def receipt_told(sitting: Sitting) -> str:
    """What a candidate has in hand afterwards: when, with what, and the code of the line in the log."""
    if sitting.ended is None:
        return ''
    at = told(time_in(sitting.ended.at))
    return f'{how_ended(sitting)} {at}: {told_gaps(sitting.gaps)}. Receipt {receipt_of(sitting.ended)}.'


def running(sitting: Sitting, now: int) -> dict[str, object]:
    """What may change though nothing is clicked: the milliseconds that are left, none where no clock runs, and what the
    person in charge said last."""
    return {'moves': sitting.moves, 'handed_in': sitting.handed_in, 'left': left_of(sitting, now),
            'message': message_told(sitting)}


def left_of(sitting: Sitting, now: int) -> int | None:
    return None if sitting.over is None or sitting.handed_in else max(sitting.over - now, 0)


def message_told(sitting: Sitting) -> str:
    if sitting.message is None:
        return ''
    return f'{of_day(time_in(sitting.message.at))}, from the person in charge: {sitting.message.act.split(" ", 2)[2]}'


def sitting_told(sitting: Sitting, said: str, practice: bool, now: int) -> dict[str, object]:
    """The whole sitting as the desk has it, whose it is, and words for what was asked. The cuts are two digits a
    dependence."""
    stands = sitting.desk.standing()
    state = state_of(len(stands.gaps), stands.uncut, len(stands.cuts))
    leaving = '' if sitting.handed_in else 'You have not handed in. '
    shown: dict[str, object] = {
        'candidate': sitting.name, 'gaps': stands.gaps, 'counts': [*stands.counts.items()], 'uncut': stands.uncut,
        'state': f'{how_ended(sitting)}. {state}' if sitting.handed_in else state,
        'said': said, 'question': f'Hand in {told_gaps(stands.gaps)}? {state} {AT_ONCE}',
        'leaving': f'Leave this desk? {leaving}{AGAIN}', 'receipt': receipt_told(sitting), **running(sitting, now)}
    return {**shown, 'cuts': stands.cuts.hex()} if practice else shown
