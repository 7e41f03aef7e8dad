"""./desk program: what it writes, compiled without a warning and run with real threads, names the dependences that the
desk says are uncut, and calls barriers as often as the desk counts. The last line is 'N passed, M failed'.

Needs gcc and the library's archive (rt lib in crates/host). Clang and ThreadSanitizer are tried where they are; that
ThreadSanitizer is not is told, and where CI is true it is a failure.
"""
import pathlib
import random
import re
import shutil
import tempfile

from office.frames import placement_text
from office.library import Desk
from office.threads import BEGINS
from outside.measure import papers
from outside.threads.building import SANITIZED, compiled, sanitizer
from outside.threads.nests import Nest, random_nest
from outside.threads.running import TRIES
from outside.trying import DESK, EXAMPLES, ROOT, Seen, Tally, run

NOT_CUT, ABSENT = r'^dependence (\d+) is not cut: ', r'^dependence (\d+) did not occur: '
# Two loops in a row that may not run, with a barrier in each, and the dependence over both.
IN_A_ROW = Nest([1, 3, 1, 3, 2, 1, 3, 2, 3, 2], [(0x12, 2, 3, 3), (0x12, 5, 6, 6), (0x11, 1, 8)], flagged=[2, 5])
RANDOM, FULL = 12, ['deep', 'many', 'mixed', 'carried']


def uncut_of(desk: Desk, gaps: list[int]) -> list[int]:
    """The dependences that no barrier of a placement cuts."""
    for gap in gaps:
        desk.put(gap)
    cuts = desk.standing().cuts
    for gap in gaps:
        desk.lift(gap)
    return [number for number, many in enumerate(cuts) if many == 0]


def said(seen: Seen, pattern: str) -> list[int]:
    return [int(number) for number in re.findall(pattern, seen.out.decode(), re.M)]


class Programs:
    """Programs written, compiled and run in a folder."""

    def __init__(self, tally: Tally, folder: pathlib.Path) -> None:
        self.tally, self.paper = tally, folder / 'paper.hex'
        self.source, self.made = folder / 'paper.c', folder / 'paper'

    def written(self, text: bytes, *gaps: str) -> str:
        """The program of a paper."""
        self.paper.write_bytes(text)
        seen = run(DESK, 'program', self.paper, *gaps, '-o', self.source)
        told = '' if text else f'desk: {self.paper} is empty: it is taken as the blank paper\n'
        self.tally.check('written', seen == Seen(b'', told, 0), seen)
        return self.source.read_text()

    def ran(self, source: str, *options: str, compiler: str = 'gcc', start: tuple[str, ...] = ()) -> Seen:
        """What a program says that compiles without a warning."""
        self.source.write_text(source)
        seen = compiled(self.source, self.made, *options, compiler=compiler)
        self.tally.check(f'compiled, {compiler} {options}', seen == Seen(b'', '', 0), seen)
        return run(*start, self.made)

    def held(self, name: str, source: str, uncut: list[int], calls: int | None, *options: str,
             absent: tuple[int, ...] = (), compiler: str = 'gcc') -> None:
        """A program names these dependences and no others, and calls barriers so often."""
        seen = self.ran(source, *options, compiler=compiler)
        closing = f'barrier calls of each thread: {"[0-9]+" if calls is None else calls}\n'
        if not uncut:
            closing = f'every dependence{" that occurred" if absent else ""} is cut\n{closing}'
        well = said(seen, NOT_CUT) == uncut and said(seen, ABSENT) == [*absent] and seen.err == ''
        told = bool(re.search(f'^{closing}\\Z', seen.out.decode(), re.M)) and seen.status == bool(uncut)
        self.tally.check(f'{name} {options}', well and told, (seen, uncut, calls, absent))


def examples(tally: Tally, programs: Programs) -> None:
    """P, Q and R with their keys and others, by both compilers, plain and optimised, with two threads and more."""
    compilers = ['gcc', *['clang'] * bool(shutil.which('clang'))]
    for name, gaps, uncut, calls in [('p', ['3,9'], [4], 8), ('p', [], [], 8), ('p', ['3,11'], [5], 8),
                                     ('p', [''], [*range(6)], 0), ('q', ['4,7'], [], 12), ('r', ['1'], [0, 1], 2)]:
        source = programs.written(EXAMPLES[name], *gaps)
        tally.check('lines to read', max(map(len, source.splitlines())) <= 120, source)
        tally.check('the desk counts too', f'the desk counts {calls} barrier calls' in source, source[:1500])
        for compiler in compilers:
            for options in (['-O0', '-DTHREADS=2'], ['-O2', '-DTHREADS=8']):
                programs.held(f'{name} {gaps}, {compiler}', source, uncut, calls, *options, compiler=compiler)
    source = programs.written(EXAMPLES['p'], '3,9').replace('#define TURNS_0 2', '#define TURNS_0 1')
    programs.held('one turn', source, [], 4, absent=(4,))
    tally.check('the same by standard output', run(DESK, 'program', programs.paper, '3,9').out.decode() ==
                programs.written(EXAMPLES['p'], '3,9'))
    tally.check('the same by standard input', run(DESK, 'program', '-', '3,9', given=EXAMPLES['p']).out.count(b'\n') ==
                programs.source.read_bytes().count(b'\n'))
    none = Seen(b'the paper has no dependence\nbarrier calls of each thread: 0\n', '', 0)
    for text in (b'', b'01\n03\n02\n', b'01\n04\n02\n02\n'):
        seen = programs.ran(programs.written(text))
        tally.check(f'{text!r}', seen == none, seen)
    programs.held('one cell alone', programs.written(b'01\n02\n110001\n', ''), [0], 0)
    programs.held('one cell, cut', programs.written(b'01\n02\n110001\n'), [], 2)


def any_time(tally: Tally, programs: Programs) -> None:
    """However the threads are timed: again and again, on one processor alone, while others are busy."""
    seen = programs.ran(programs.written(EXAMPLES['p'], '3,9'), '-O2')
    busy = 'for i in 1 2 3 4; do (while :; do :; done) & done; for i in {1..15}; do "$@"; done; kill $(jobs -p)'
    one = 'for i in {1..15}; do taskset -c "$(taskset -cp $$ | grep -o "[0-9]*$")" "$@"; done'
    for name, shell in [('again and again', 'for i in {1..15}; do "$@"; done'), ('busy', busy),
                        *[('one processor', one)] * bool(shutil.which('taskset'))]:
        many = run(programs.made, shell=shell)
        tally.check(name, many.out == seen.out * 15 and seen.status == 1, many)


def random_ones(tally: Tally, programs: Programs) -> None:
    """Random papers, with turns; and with loops that are skipped, where nothing may be uncut that occurs."""
    rng = random.Random(4)
    for number in range(RANDOM):
        nest, desk = random_nest(rng, 24, 16), Desk()
        desk.load(nest.text)
        gaps = [gap for gap in range(1, len(nest.points)) if gap not in nest.barred and rng.random() < 0.25]
        source = programs.written(nest.text, ','.join(map(str, gaps)))
        turns = {d: rng.randrange(1, 4) for d in nest.ends}
        for d, many in turns.items():
            source = source.replace(f'#define TURNS_{d} 2\n', f'#define TURNS_{d} {many}\n')
        counts = not nest.barred and not nest.flagged
        calls = desk.placement_calls(placement_text(gaps), bytes(turns.values())) if counts else None
        absent = [k for k, x in enumerate(nest.dependences) if x[0] == 0x12 and turns[x[1]] == 1]
        uncut = [k for k in uncut_of(desk, gaps) if k not in absent]
        programs.held(f'random {number}', source, uncut, calls, f'-DTHREADS={rng.randrange(2, 9)}', absent=(*absent,))
        if nest.flagged:
            key = programs.written(nest.text)
            for d in nest.flagged:
                key = key.replace(f'#define RUNS_{d} 1\n', f'#define RUNS_{d} {rng.randrange(2)}\n')
            seen = programs.ran(key)
            tally.check(f'random {number}, skipped', (said(seen, NOT_CUT), seen.status) == ([], 0), (nest.text, seen))


def skipped(tally: Tally, programs: Programs) -> None:
    """Loops that may not run: the key has barriers in their place, and without them a dependence is uncut."""
    source = programs.written(IN_A_ROW.text)
    tally.check('both substitutes', source.count('/* for the missing run of loop ') == 2, source)
    tally.check('with the key named', programs.written(IN_A_ROW.text, '3,6') == source, source)
    tally.check('not with others', 'missing run' not in programs.written(IN_A_ROW.text, '3,7'))
    away = re.sub(r'#define RUNS_(\d) 1', r'#define RUNS_\1 0', source)
    programs.held('both run', source, [], 8)
    programs.held('none runs', away, [], 4, absent=(0, 1))
    bare = re.sub(r' else \{\n *barrier\(me\); /\* for the missing run of loop \d \*/\n *\}', '', away)
    programs.held('none runs, no barrier', bare, [2], 0, absent=(0, 1))


def full_size(tally: Tally, programs: Programs) -> None:
    """Papers at the limits, whose programs compile and run as well."""
    for kind in FULL:
        desk = Desk()
        text = papers.text(kind)
        desk.load(text)
        desk.plan()
        gaps = [gap for gap in range(1, 256) if gap % 16 == 0]
        source = programs.written(text, ','.join(map(str, gaps)))
        turns = bytes([2] * len(desk.shape().end))
        programs.held(f'full size, {kind}', source, uncut_of(desk, gaps),
                      desk.placement_calls(placement_text(gaps), turns), '-O0')
        programs.held(f'full size, {kind}, its key', programs.written(text), [], desk.count_calls(turns), '-O0')


def sanitized(tally: Tally, programs: Programs, start: list[str]) -> None:
    """ThreadSanitizer reports a race on each dependence that is uncut, and on no other. It may miss one where two threads
    come in the very same moment, so what raced too little is run again (running.py)."""
    rng = random.Random(5)
    nests = [(EXAMPLES['p'], '3,9'), (EXAMPLES['p'], '5,11'), (EXAMPLES['q'], '4'), (EXAMPLES['r'], '')]
    while len(nests) < 10:
        nest = random_nest(rng, 20, 12)
        free = [gap for gap in range(1, len(nest.points)) if gap not in nest.barred]
        nests.append((nest.text, ','.join(str(gap) for gap in free if rng.random() < 0.3)))
    for text, gaps in nests:
        desk = Desk()
        desk.load(text)
        wanted = uncut_of(desk, [int(gap) for gap in gaps.split(',') if gap])
        source, told = programs.written(text, gaps), True
        for _ in range(TRIES):
            seen = programs.ran(source, *SANITIZED, start=(*start,))
            raced = {int(number) for number in re.findall("global 'dependence_([0-9]+)'", seen.err)}
            told = told and said(seen, NOT_CUT) == wanted
            if not raced < {*wanted}:
                break
        well = told and sorted(raced) == wanted and seen.status == (66 if wanted else 0)
        tally.check(f'sanitized, {gaps}', well, (text, wanted, raced, seen.status, seen.err[:200]))


def files(tally: Tally, folder: pathlib.Path) -> None:
    """A program takes the place of a program and of nothing else; where something is wrong nothing is written."""
    p, other, mine = ROOT / 'examples' / 'p.hex', folder / 'other.c', folder / 'mine.c'
    other.write_text('int main(void) { return 0; }\n')
    kept = other.read_bytes()
    seen = run(DESK, 'program', p, '3,9', '-o', other)
    tally.check("not over another's file", seen.failed('it is left alone') and other.read_bytes() == kept, seen)
    run(DESK, 'program', p, '3,9', '-o', mine)
    nine = mine.read_bytes()
    tally.check('known by its beginning', nine.startswith(BEGINS.encode()), nine[:80])
    seen = run(DESK, 'program', p, '-o', mine)
    tally.check('over a program', seen == Seen(b'', '', 0) and mine.read_bytes() != nine, seen)
    key = mine.read_bytes()
    bad, blocked = folder / 'bad.hex', folder / 'blocked.hex'
    bad.write_bytes(b'01\n03\n')
    blocked.write_bytes(b'01\n03\n03\n02\n110102\n1302\n')
    for name, asked, word, status in [
            ('a refused paper', [bad], 'number 4', 1), ('a blocked paper', [blocked], 'number 15', 1),
            ('a barred gap', [blocked, '2'], 'gap 2 is barred', 2), ('no gap', [p, '14'], 'gap 14 is none of', 2),
            ('no paper', [folder / 'none.hex'], 'cannot read', 2), ('a bad placement', [p, bad], 'line 1 is refu', 1)]:
        for output in ([], ['-o', mine]):
            seen = run(DESK, 'program', *asked, *output)
            well = word in seen.err and (seen.out, seen.status) == (b'', status) and mine.read_bytes() == key
            tally.check(f'{name} {output}', well, seen)
    tally.check('a blocked paper with gaps', run(DESK, 'program', blocked, '1').status == 0)
    for name, seen in [('a folder', run(DESK, 'program', p, '-o', folder)),
                       ('no folder', run(DESK, 'program', p, '-o', folder / 'none' / 'p.c')),
                       ('a full disk', run(DESK, 'program', p, '-o', folder / 'new.c', shell='ulimit -f 0; "$@"')),
                       ('output full', run(DESK, 'program', p, shell='"$@" > /dev/full'))]:
        tally.check(name, seen.failed('no plain file' if name == 'a folder' else 'writ'), seen)
    tally.check('nothing is left', not [*folder.glob('.desk-*')] and not (folder / 'new.c').exists())
    for strange in ['a*.hex', '-', 'ä\u202e"%s\\.hex', 'two\nlines.hex']:
        (folder / strange).write_bytes(EXAMPLES['p'])
        seen = run(DESK, 'program', f'{folder}/{strange}', '-o', mine)
        made = compiled(mine, folder / 'mine')
        tally.check(f'a paper named {strange!r}', seen == Seen(b'', '', 0) == made, (seen, made))
    full = run(folder / 'mine', shell='"$@" > /dev/full')
    tally.check('the program notices that nothing is written', full.failed('nothing could be written'), full)


def main() -> None:
    tally = Tally()
    start = sanitizer(tally)
    with tempfile.TemporaryDirectory() as name:
        folder = pathlib.Path(name)
        programs = Programs(tally, folder)
        examples(tally, programs)
        skipped(tally, programs)
        any_time(tally, programs)
        random_ones(tally, programs)
        full_size(tally, programs)
        if start is not None:
            sanitized(tally, programs, start)
        files(tally, folder)
    tally.close()


if __name__ == '__main__':
    main()
