"""./desk over the calls of requests 10 to 14. The last line is 'N passed, M failed'.

Needs the library's archive (rt lib in crates/host).
"""
import pathlib
import tempfile

from office.listing import spelled
from outside.trying import DESK, ROOT, Seen, Tally, run

# A loop that may not run between two statements: the key's barrier for both dependences stands in it.
SKIPPED = """
DO all
  a
  DO some may not run
    b
    c
  ENDDO
  d
ENDDO
a -> d
b -> c
"""


def missing(tally: Tally, folder: pathlib.Path) -> None:
    """Loops that may not run: listed, spelled, shown, drawn; those that need a barrier for their missing run."""
    paper = folder / 'skipped.hex'
    paper.write_bytes(spelled(SKIPPED.encode(), 'skipped'))
    tally.check('04 for such a DO', paper.read_bytes().startswith(b'01\n03\n04\n03\n03\n02\n'), paper.read_bytes())
    shown = run(DESK, 'show', paper).out
    tally.check('shown', b'|   DO L2 may not run\n' in shown and spelled(shown, '') == paper.read_bytes(), shown)
    told = b'2 dependences, 1 loop that may not run (loop 2)\nloop 2 needs a barrier for its missing run: '
    tally.check('checked', told in run(DESK, 'check', paper).out, run(DESK, 'check', paper))
    drawn = run(DESK, 'draw', paper).out
    dashed = drawn.count(b'class="box d2 flagged"') == 1
    tally.check('drawn', dashed and b'DO loop 2, may not run' in drawn, drawn[:300])
    named = b'Loop 2 needs a barrier for its missing run.'
    tally.check('named below the key', named in drawn and named not in run(DESK, 'draw', paper, '4').out, drawn[-900:])
    tally.check('its key', run(DESK, 'key', paper) == Seen(b'2104\n220000\n220201\n', '', 0))
    tally.check('missing', run(DESK, 'missing', paper) == Seen(b'loop 2\n', '', 0), run(DESK, 'missing', paper))
    tally.check('none missing', run(DESK, 'missing', ROOT / 'examples' / 'p.hex') == Seen(b'', '', 0))
    for frames, where in [
            ('01 04 03 02 03 02 12000204 12010202', 'from 2 in one turn of loop 0 to 4 in the next, with one end'),
            ('01 03 04 03 02 02 12000103', 'to 3 in the next, with one end alone in loop 2: where that is skipped in'),
            ('01 04 03 02 04 03 02 02 12000205', 'one end alone in each of the loops 1, 4: ')]:
        seen = run(DESK, 'missing', '-', given=frames.replace(' ', '\n').encode() + b'\n')
        tally.check(f'told of {frames}', where in seen.err and seen.err.startswith('desk: dependence 0 goes '), seen)
        tally.check('one sentence, and no loop', (seen.out, seen.err.count('\n'), seen.status) == (b'', 1, 0), seen)
    # Independent, back into the next turn, both ends in the loop, the loop's own DO and ENDDO, a loop that runs.
    for frames in ['01 04 03 02 03 02 110204 12000402', '01 04 03 03 02 03 02 12000203',
                   '01 04 03 02 03 02 12000104 12000203', '01 01 03 02 03 02 12000204']:
        seen = run(DESK, 'missing', '-', given=frames.replace(' ', '\n').encode() + b'\n')
        tally.check(f'not told of {frames}', (seen.err, seen.status) == ('', 0), seen)
    seen = run(DESK, 'missing', '-', given=b'01\n')
    tally.check('missing of a bad paper', 'number 4' in seen.err and (seen.out, seen.status) == (b'', 1), seen)


def calls(tally: Tally, folder: pathlib.Path) -> None:
    """The key's calls under turns; they are those that `why` counts."""
    q = ROOT / 'examples' / 'q.hex'
    for turns, made in [('10', 1010), ('10,10,10', 1010), ('1,2,2', 5), ('16', 4112), ('3, 5, 7', 108)]:
        seen = run(DESK, 'calls', q, turns)
        tally.check(f'calls of Q under {turns}', seen == Seen(b'%d\n' % made, '', 0), seen)
        told = ' '.join(run(DESK, 'why', q, '4,7', '--turns', turns).out.decode().split())
        tally.check(f'why under {turns}', f'and {made:,} with the key.' in told, told)
    skipped = folder / 'skipped.hex'
    for paper, turns in [(q, '1'), (q, '2,2'), (q, '2,2,17'), (q, '0,2,2'), (q, '2,2,2,2'), (q, ''), (skipped, '2'),
                         (ROOT / 'examples' / 'foundation.hex', '2')]:
        seen = run(DESK, 'calls', paper, turns)
        refused = 'number 17' in seen.err and (seen.out, seen.status) == (b'', 1)
        tally.check(f'{paper.name} under {turns!r}', refused, seen)
    for turns in ['x', '256', '-1']:
        seen = run(DESK, 'calls', q, '--', turns)
        tally.check(f'turns {turns}', seen.failed('turns are numbers'), seen)


def joined(tally: Tally, folder: pathlib.Path) -> None:
    """Two papers into one: the keys moved along under a root with count 0; which text is at fault."""
    p, q, r = (ROOT / 'examples' / f'{name}.hex' for name in 'pqr')
    joint, bad, large = folder / 'joint.hex', folder / 'bad.hex', folder / 'large.hex'
    joint.write_bytes(run(DESK, 'join', p, q).out)
    wanted = b'2106\n210c\n2111\n2115\n220000\n220100\n220201\n220801\n220f01\n221100\n221201\n'
    tally.check('the key of P and Q', run(DESK, 'key', joint) == Seen(wanted, '', 0), run(DESK, 'key', joint))
    skipped = run(DESK, 'join', folder / 'skipped.hex', '/dev/null').out
    kept = skipped.startswith(b'01\n01\n03\n04\n') and b'\n02\n01\n02\n02\n' in skipped
    tally.check('flags are kept', kept, skipped)
    bad.write_bytes(b'01\n02\n11\n')
    large.write_bytes(b'01\n' + b'03\n' * 250 + b'02\n')
    foundation = ROOT / 'examples' / 'foundation.hex'
    for first, second, number, word in [
            (bad, p, 2, f'{bad}: line 3 is refused: "11"'), (p, bad, 2, f'{bad}: line 3 is refused: "11"'),
            (foundation, p, 14, f'{foundation}: the text is refused as a whole'), (r, foundation, 14, str(foundation)),
            (large, r, 18, 'the two papers cannot be joined')]:
        seen = run(DESK, 'join', first, second)
        told = word in seen.err and f'number {number}: ' in seen.err
        tally.check(f'{first.name} and {second.name}', told and (seen.out, seen.status) == (b'', 1), seen)
    seen = run(DESK, 'join', p, folder / 'none.hex')
    tally.check('no second paper', seen.failed('cannot read'), seen)


def improved(tally: Tally, folder: pathlib.Path) -> None:
    """Fewer calls where loops run once: what is found, how it ended, the floor."""
    four = folder / 'four.hex'
    four.write_bytes(b'01\n03\n01\n03\n03\n03\n02\n03\n02\n110104\n110307\n')
    for asked, told in [
            (['1', '--budget', '10'], 'gap 4\n1 call\n10 tries, ended by a whole round\nfloor 1: at most 0 calls too'),
            (['1', '--budget', '9'], 'gap 4\n1 call\n9 tries, ended by the budget\nfloor 1: at most 0 calls too'),
            (['1', '--budget', '0'], 'gaps 2, 7\n2 calls\n0 tries, ended by the budget\n'),
            (['1,10'], 'gaps 2, 7\n2 calls\n6 tries, ended by a whole round\n')]:
        seen = run(DESK, 'improve', four, *asked)
        tally.check(f'improve {asked}', seen.out.decode().startswith(told) and seen.status == 0, seen)
    tally.check('as text', run(DESK, 'improve', four, '1', '--text') == Seen(b'2104\n', '', 0))
    seen = run(DESK, 'improve', four, '17')
    tally.check('turns out of range', 'number 17' in seen.err and (seen.out, seen.status) == (b'', 1), seen)
    for budget in ['-1', 'x', str(2 ** 64)]:
        seen = run(DESK, 'improve', four, '1', f'--budget={budget}')
        tally.check(f'a budget of {budget}', seen.failed('budget'), seen)


def sheets(tally: Tally) -> None:
    """Timing sheets: when a run ends, and what is wrong with one."""
    sheet = b'5 3 8   # three processors\n\n4:0,1 2:1 6:0,1,2\n1:0 9:1 0:2\n'
    told = b'with its waits the run ends at 14\nwith all barriers kept it ends at 23\n'
    seen = run(DESK, 'sheet', '-', given=sheet)
    tally.check('a sheet', seen == Seen(told, '', 0), seen)
    told = b'with its waits the run ends at 65,535\nwith all barriers kept it ends at 65,535\n'
    tally.check('one phase', run(DESK, 'sheet', '-', given=b'65535') == Seen(told, '', 0))
    for text, word in [(b'', 'number 19'), (b'1 ' * 17, 'number 19'), (b'1\n' + b'1:0\n' * 64, 'number 19'),
                       (b'1 1\n1:0 1:0\n', 'number 20'), (b'1 1\n1:0 1:1,2\n', 'number 20'),
                       (b'1 1\n1:0\n', 'line 2 of the sheet is refused: it has 1 processor where'),
                       (b'1:0\n', 'line 1'),
                       (b'1\n1\n', 'line 2'), (b'65536\n', 'line 1'), (b'1\n1:16\n', 'line 2'), (b'x\n', 'line 1')]:
        seen = run(DESK, 'sheet', '-', given=text)
        tally.check(f'the sheet {text[:20]!r}', word in seen.err and (seen.out, seen.status) == (b'', 1), seen)
    tally.check('no sheet', run(DESK, 'sheet', '/').failed('cannot read'))


def main() -> None:
    tally = Tally()
    with tempfile.TemporaryDirectory() as name:
        folder = pathlib.Path(name)
        missing(tally, folder)
        calls(tally, folder)
        joined(tally, folder)
        improved(tally, folder)
        sheets(tally)
    tally.close()


main()
