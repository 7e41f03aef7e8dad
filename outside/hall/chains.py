"""The chain of a hall's log: no bit of it can be changed, and no line left out, doubled or moved, without a start that
says so. What is cut off at the end is a sitting of before, or a line that nobody was told of."""
import io
import pathlib
from collections.abc import Iterator

from office.candidates import Candidate
from office.chain import Event, Reader, receipt_of
from office.command import Fault
from office.hall import Hall, Kept
from outside.trying import EXAMPLES, Tally

WHO = [Candidate('anna', 'Anna Ávila'), Candidate('bert', 'bert', 90)]


def sat(folder: pathlib.Path) -> Hall:
    """A hall in which two have sat, and one has handed in."""
    hall = Hall(EXAMPLES['p'], WHO, str(folder))
    hall.open()
    anna, bert = hall.sittings.values()
    hall.enter(anna, '192.168.1.10')
    hall.enter(bert, '::1')
    for move in ('put 5', 'put 11', 'lift 5', 'take back'):
        hall.move(anna, move, '192.168.1.10')
    hall.move(bert, 'put 3', '::1')
    hall.hand_in(anna, 4, [5, 11], '192.168.1.10')
    hall.leave(anna, '192.168.1.10')
    assert hall.keep() is Kept.DONE
    return hall


def read(data: bytes) -> list[Event] | None:
    """The events of a log; none where it is refused."""
    try:
        return [*Reader('log', io.BytesIO(data))]
    except Fault:
        return None


def flips(data: bytes) -> Iterator[bytes]:
    """The data with each of its bits changed."""
    for at in range(len(data)):
        for bit in range(8):
            yield data[:at] + bytes([data[at] ^ 1 << bit]) + data[at + 1:]


def lines_changed(data: bytes) -> Iterator[tuple[str, bytes]]:
    """The data with each line left out, doubled, or in the place of the next; but for the last left out."""
    lines = data.splitlines(keepends=True)
    for at, line in enumerate(lines):
        if at < len(lines) - 1:
            yield f'{at + 1} left out', b''.join(lines[:at] + lines[at + 1:])
            yield f'{at + 1} moved', b''.join(lines[:at] + [lines[at + 1], line] + lines[at + 2:])
        yield f'{at + 1} doubled', b''.join(lines[:at + 1] + lines[at:])


def cut(data: bytes, events: list[Event]) -> Iterator[int]:
    """The places at which the log can be cut, and another sitting than one of before is then read."""
    top = data.index(b'\n') + 1
    for at in range(len(data)):
        whole = data[:at].count(b'\n') - 1
        for zeros in (b'', bytes(5), bytes(40_000)):
            if read(data[:at] + zeros) != (events[:whole] if at >= top else None):
                yield at


def chained(tally: Tally, folder: pathlib.Path) -> None:
    hall = sat(folder / 'chained')
    hall.close()
    data = pathlib.Path(hall.log.file).read_bytes()
    events = read(data) or []
    tally.check('the log is read', len(events) == data.count(b'\n') - 1 > 10, len(events))
    missed = [changed for changed in flips(data) if read(changed) is not None]
    tally.check('every bit', not missed, missed)
    missed_lines = [what for what, changed in lines_changed(data) if read(changed) is not None]
    tally.check('every line', not missed_lines, missed_lines)
    cuts = [*cut(data, events)]
    tally.check('cut anywhere', not cuts, cuts)
    middle = data.index(b'\n', len(data) // 2) + 1
    tally.check('a hole', read(data[:middle] + bytes(40_000) + data[middle:]) is None)
    tally.check('a line of another sort', read(data[:-1] + b'x\n') is None and read(data + b'\n') is None)
    tally.check('nothing', read(b'') is None and read(b'\n') is None)
    ended = hall.sittings['anna'].ended
    tally.check('the receipt', ended is not None and receipt_of(ended).replace('-', '') == ended.own[:16])


def started_again(tally: Tally, folder: pathlib.Path) -> None:
    """A start makes the same sittings, whatever was cut off behind them, or refuses."""
    first = sat(folder / 'again')
    first.close()
    file, answer = pathlib.Path(first.log.file), folder / 'again' / 'anna.hex'
    data = file.read_bytes()

    def seen() -> list[object]:
        with Hall(EXAMPLES['p'], WHO, str(folder / 'again')) as hall:
            return [(s.candidate, s.name, s.minutes, s.gaps, s.moves, s.ended, s.machine, s.ticket)
                    for s in hall.sittings.values()]

    def refused() -> str:
        try:
            return str(seen())
        except Fault as fault:
            return str(fault)

    before = [(s.candidate, s.name, s.minutes, s.gaps, s.moves, s.ended, s.machine, s.ticket)
              for s in first.sittings.values()]
    tally.check('the same', seen() == before, seen())
    tally.check('a look writes nothing', file.read_bytes() == data)
    file.write_bytes(data + b'99\t2026')
    tally.check('a line cut off', seen() == before)
    wrong = []
    for at in range(0, len(data), 7):
        file.write_bytes(data[:at] + bytes([data[at] ^ 1]) + data[at + 1:])
        line = data[:at].count(b'\n') + 1
        told = refused()
        if not any(f'line {number} ' in told for number in (line, line + 1)) and 'another paper' not in told:
            wrong.append((at, told))
    tally.check('a bit is told by its line', not wrong, wrong)
    file.write_bytes(data[:data.index(b'hand in')])
    tally.check('an answer that the log does not have', 'did not hand it in' in refused(), refused())
    file.write_bytes(data)
    answer.write_bytes(b'2101\n')
    tally.check('another answer', 'did not hand it in' in refused(), refused())
    answer.unlink()
    with Hall(EXAMPLES['p'], WHO, str(folder / 'again')) as hall:
        hall.open()
    tally.check('an answer is written anew', answer.read_bytes() == b'2105\n210b\n')
    file.unlink()
    tally.check('no log', 'and no sitting.log' in refused(), refused())
    tally.check('nothing is made', sorted(path.name for path in (folder / 'again').iterdir()) == [
        'anna.hex', 'tickets.csv', 'tickets.html'])
