"""./desk in trouble: faults of input, output and disk, files that are no answers, at a terminal and on a machine that
lacks tools. Needs the library's archive (rt lib in crates/host). The last line is 'N passed, M failed'.
"""
import contextlib
import hashlib
import os
import pathlib
import pty
import re
import shutil
import subprocess
import sys
import tempfile
from collections.abc import Callable

from outside.tests.workday import rows_of, text_of
from outside.trying import DESK, EXAMPLES, ROOT, VERSION, Seen, Tally, run

# Tells why the library would be built, if it would, and how many folders are listed to find out.
LISTED = """
import sys
from office.built import LIBRARY, wanting
listed = []
sys.addaudithook(lambda event, _: listed.append(event) if event in ('os.scandir', 'os.listdir') else None)
print([*map(wanting, LIBRARY)], len(listed))
"""


def faults(tally: Tally, folder: pathlib.Path) -> None:
    """What cannot be read or written: a status, a line, and the register as it was."""
    paper, answer, register = folder / 'p.hex', folder / 'anna.hex', folder / 'register.db'
    paper.write_bytes(EXAMPLES['p'])
    answer.write_bytes(text_of([5, 11]))
    mark = [DESK, 'mark', paper, answer]
    run(*mark, '--register', register, '--new')
    old = register.read_bytes()
    bad, wide, pipe = folder / 'bad.hex', folder / 'wide', folder / 'pipe.hex'
    bad.write_bytes(b'01\n')
    wide.mkdir()
    os.mkfifo(pipe)
    for name, word, seen in [
            ('no paper', 'cannot read', run(DESK, 'mark', folder / 'none.hex', answer, '--register', register)),
            ('a folder for a paper', 'Is a directory', run(DESK, 'mark', folder, answer, '--register', register)),
            ('an endless paper', 'more than', run(DESK, 'mark', '/dev/zero', answer, '--register', register)),
            ('one candidate twice', 'two answers of', run(*mark, answer, '--register', register)),
            ('an answer nowhere', 'there is no file', run(*mark, folder / 'bert.hex', '--register', register)),
            ('a pattern that matches none', 'there is no file', run(*mark, f'{wide}/*.hex', '--register', register)),
            ('a folder with no answers', 'no file *.hex', run(*mark, wide, '--register', register)),
            ('an answer by standard input', 'an answer is a file', run(*mark, '-', '--register', register)),
            ('standard input twice', 'an answer is a file', run(DESK, 'mark', '-', '-')),
            ('slips in a file', 'cannot write in', run(*mark, '--slips', answer, '--register', register)),
            ('no register to replace in', '--register FILE', run(*mark, '--replace', 'why')),
            ('no reason', 'wants the reason', run(*mark, '--register', register, '--replace', ' ')),
            ('output full', 'not written', run(*mark, shell='"$@" > /dev/full')),
            ('output closed', 'not written', run(*mark, shell='"$@" >&-'))]:
        tally.check(name, seen.failed(word), seen)
        tally.check(f'{name}: the register', register.read_bytes() == old, register.read_bytes())
    seen = run(*mark, '--slips', wide, shell='ulimit -f 0; "$@"')
    tally.check('slips on a full disk', seen.err.count('cannot write') == 2 and seen.status == 2, seen)
    tally.check('the row all the same', len(rows_of(seen.out)) == 1, seen)
    slip = wide / 'examiner' / f'anna.p-{hashlib.sha256(EXAMPLES["p"]).hexdigest()[:8]}.examiner.hex'
    slip.write_bytes(text_of([5, 11]))
    seen = run(*mark, '--slips', wide)
    left = slip.read_bytes() == text_of([5, 11])
    tally.check("not over another's file", 'it is left alone' in seen.err and left, seen)
    slip.unlink()
    slip.mkdir()
    answer.write_bytes(b'21\n')
    seen = run(*mark, '--slips', wide)
    tally.check('slips that cannot be removed', 'cannot remove' in seen.err and seen.status == 2, seen)
    answer.write_bytes(text_of([5, 11]))
    seen = run(DESK, 'check', '-', given=None)
    tally.check('input closed', seen.failed('cannot read -: Bad file descriptor'), seen)
    seen = run(DESK, 'mark', bad, answer, '--register', register)
    tally.check('a refused paper', 'number 4' in seen.err and (seen.out, seen.status) == (b'', 1), seen)
    tally.check('nothing changed', register.read_bytes() == old)
    tally.check('nothing is left', not [*folder.glob('**/*.new')], [*folder.glob('**/*.new')])


def nobody(tally: Tally, folder: pathlib.Path) -> None:
    """Files that are no candidate's answer are told and have no row; the others are marked."""
    paper, answer, away = folder / 'p.hex', folder / 'anna.hex', folder / 'away'
    away.mkdir()
    names = [b'\xff"a,\n.hex', b'away/.hex', b'=1+1.hex', b'n' * 65 + b'.hex']
    strange = [os.path.join(os.fsencode(folder), name) for name in names]
    for file in strange:
        shutil.copy(answer, file)
    others = [*map(os.fsdecode, strange), folder / 'pipe.hex', '/dev/zero']
    seen = run(DESK, 'mark', folder / 'p.hex', *others, answer, '--slips', folder / 'slips')
    tally.check('one row', [name for name, _ in rows_of(seen.out)] == ['anna'] and seen.status == 2, seen)
    tally.check('each is told', seen.err.count(' is not marked: ') == seen.err.count('\n') == len(others), seen)
    tally.check('nothing beside the answers', [*os.listdir(away)] == ['.hex'], os.listdir(away))
    tally.check('nobody else has slips', len([*(folder / 'slips').glob('*/*')]) == 2)
    run(DESK, 'mark', ROOT / 'examples' / 'q.hex', answer, '--slips', folder / 'slips')
    answer.write_bytes(b'21\n')
    shutil.copy(ROOT / 'examples' / 'q.hex', away / 'p.hex')
    run(DESK, 'mark', away / 'p.hex', answer, '--slips', folder / 'slips')
    tally.check('slips of another paper stay', len([*(folder / 'slips').glob('*/*.p-*')]) == 2)
    answer.write_bytes(text_of([5, 11]))
    listed = folder / 'listed.txt'
    listed.write_text('Anna\nbert\n')
    seen = run(DESK, 'mark', paper, answer, folder / 'bad.hex', '--candidates', listed)
    tally.check('not on the list', 'bad is not on the list' in seen.err and seen.status == 2, seen)
    marks = [row[:2] for row in rows_of(seen.out).values()]
    tally.check('absent', marks == [['anna', 'Best'], ['bert', 'Absent']], seen)


def terminal(tally: Tally, folder: pathlib.Path) -> None:
    """A bar at a terminal, gone at the end; none elsewhere."""
    (folder / 'many').mkdir()
    files = [folder / 'many' / f'{i:04}.hex' for i in range(1000)]
    for file in files:
        file.write_bytes(text_of([5, 11]))
    command = [DESK, 'mark', folder / 'p.hex', *files]
    seen = run(*command)
    tally.check('no bar in a file', seen.err == '' and seen.status == 0, seen.err)
    ours, theirs = pty.openpty()
    desk = subprocess.Popen(command, stdout=subprocess.DEVNULL, stderr=theirs)
    os.close(theirs)
    shown = b''
    try:
        while data := os.read(ours, 4096):
            shown += data
    except OSError:
        pass  # the terminal is closed
    tally.check('a bar', b'marking ' in shown and b' of 1,000' in shown and desk.wait() == 0, shown[:200])
    tally.check('gone at the end', shown.endswith(b'\r\x1b[K'), shown[-20:])


def elsewhere(tally: Tally, folder: pathlib.Path) -> None:
    """A machine that lacks rt or gcc, and a library that is missing, or of other sources."""
    root, tools = folder / 'copy', folder / 'tools'
    for part in ['office', 'crates/host']:
        shutil.copytree(ROOT / part, root / part, ignore=shutil.ignore_patterns('__pycache__', 'out'))
    tools.mkdir()
    (tools / 'python3').symlink_to(sys.executable)
    for file in ['desk', 'VERSION']:
        shutil.copy(ROOT / file, root / file)
    (root / 'crates.txt').write_text('host staticlib:\n')
    source, built = root / 'crates' / 'host' / 'src' / 'lib.rt', ROOT / 'target' / 'staticlib' / 'libhost.a'
    answered = Seen(b'2101\n2104\n220002\n', '', 0)

    def asked() -> Seen:
        return run(root / 'desk', 'key', '-', given=EXAMPLES['r'], PATH=str(tools), shell='python3 "$@"')

    def rt(*lines: str) -> None:
        (tools / 'rt').write_text('\n'.join(['#!/bin/sh', 'echo noise', *lines, '']))
        (tools / 'rt').chmod(0o755)

    tally.check('not built, no rt', asked().failed('not built yet, and there is no rt'), asked())
    rt('exit 1')
    seen = asked()
    tally.check('a build that fails', (seen.out, seen.status) == (b'', 2) and 'could not be built' in seen.err, seen)
    tally.check('what it said', '\nnoise\n' in seen.err, seen)
    for tool in ['mkdir', 'cp']:
        (tools / tool).symlink_to(shutil.which(tool))
    # rt runs in the crate's folder, and leaves the archive in out/.
    rt('[ "$*" = lib ] || exit 1', 'mkdir -p out', f'cp {built} out/libhost.a')
    seen = asked()
    tally.check('not linked, no gcc', seen.status == 2 and 'there is no gcc' in seen.err, seen)
    tally.check('built in one line', seen.err.count('\n') == 2 and ' done in ' in seen.err, seen)
    for tool in ['gcc', 'ld', 'as']:
        (tools / tool).symlink_to(shutil.which(tool))
    tally.check('linked', asked() == answered, asked())
    (root / 'COMMIT').write_text('0123456789abcdef0123\n')
    seen = run(root / 'desk', '--version', PATH=str(tools), shell='python3 "$@"')
    told = seen.out.decode().startswith(f'desk {VERSION}, commit 0123456789ab, library ')
    tally.check('a release knows its commit', told, seen)
    for tool in ['gcc', 'rt']:
        (tools / tool).unlink()
    tally.check('linked once', asked() == answered, asked())
    source.write_bytes(source.read_bytes())
    (root / 'crates' / 'host' / 'desk.h').touch()
    (root / 'crates' / 'host' / 'must-fail' / 'more.edit').touch()
    tally.check('touched, no rt', asked() == answered, asked())
    looked(tally, root, asked, answered)
    source.write_bytes(source.read_bytes() + b'// one more\n')
    seen = asked()
    tally.check('changed, no rt', seen.failed('src/lib.rt was changed since, and there is no rt'), seen)


def below(tally: Tally, folder: pathlib.Path) -> None:
    """The first time: rt proves what the library uses before it, and it is seen how far it is."""
    root, tools, log = folder / 'first', folder / 'kit', folder / 'asked'
    for part in ['office', 'crates/host']:
        shutil.copytree(ROOT / part, root / part, ignore=shutil.ignore_patterns('__pycache__', 'out'))
    for file in ['desk', 'VERSION']:
        shutil.copy(ROOT / file, root / file)
    (root / 'crates.txt').write_text('# First.\nhost staticlib: left right\nlow:\nleft: low\nright: low\n')
    for crate in ['low', 'left', 'right']:
        (root / 'crates' / crate / 'src').mkdir(parents=True)
        (root / 'crates' / crate / 'src' / 'lib.rt').touch()
    tools.mkdir()
    for tool in ['gcc', 'ld', 'as', 'cat', 'mkdir', 'cp', 'pwd']:
        (tools / tool).symlink_to(shutil.which(tool))
    (tools / 'python3').symlink_to(sys.executable)
    says = [f'echo "rt: chose --jobs 2 for {crate}"; echo "logic=proved functions=1"'
            for crate in ['low', 'left', 'right', 'host']]

    def rt(*lines: str) -> None:
        (tools / 'rt').write_text('\n'.join(['#!/bin/sh', f'echo "$* in $(pwd)" >> {log}', *lines, '']))
        (tools / 'rt').chmod(0o755)

    command = [str(tools / 'python3'), '-S', str(root / 'desk'), 'key', str(folder / 'p.hex')]
    rt(*says[:2], 'echo "rt: chose --jobs 2 for right"', 'echo noise', 'exit 1')
    seen = run(*command, PATH=str(tools))
    told = '\nnoise\n' in seen.err and 'rt lib in crates/host failed with status 1' in seen.err
    tally.check('a crate below fails', seen.status == 2 and told, seen)
    tally.check('no more is asked', log.read_text() == f'lib in {root}/crates/host\n', log.read_text())
    log.unlink()
    rt(*says, '[ "$1" != lib ] || mkdir -p out', f'[ "$1" != lib ] || cp {ROOT}/target/staticlib/libhost.a out/libhost.a')
    ours, theirs = pty.openpty()
    desk = subprocess.Popen(command, stdout=subprocess.PIPE, stderr=theirs, env={**os.environ, 'PATH': str(tools)})
    os.close(theirs)
    shown = b''
    with contextlib.suppress(OSError):  # until the terminal is closed
        while data := os.read(ours, 4096):
            shown += data
    out, _ = desk.communicate()
    tally.check('an answer', out.startswith(b'2105\n210b\n') and desk.returncode == 0, (out, shown))
    for at, crate in enumerate(['low', 'left', 'right', 'host']):
        tally.check(f'a bar at {crate}', re.search(rf'{at} of 4 crates proved in \d+ s: {crate}'.encode(), shown) is not None,
                    shown)
    first, *more = log.read_text().splitlines()
    tally.check('the library', first == f'lib in {root}/crates/host', first)
    tally.check('and nothing else', all(line.startswith('version ') for line in more), more)


def looked(tally: Tally, root: pathlib.Path, asked: Callable[[], Seen], answered: Seen) -> None:
    """What a look found is enough as long as nothing has changed, and whatever changes is seen behind it."""
    host, made = root / 'crates' / 'host', root / 'target' / 'built' / 'libhost.a'
    source, seen, empty = host / 'src' / 'lib.rt', made.with_suffix('.a.seen'), host / 'proofs' / 'empty'
    asked()
    tally.check('what has just been changed is not yet noted', not seen.exists())
    code = root / 'office' / 'built.py'
    code.write_text(code.read_text().replace('SETTLED = 2 * 10 ** 9', 'SETTLED = 0'))
    empty.mkdir()

    def noted() -> bool:
        """Whether a look is noted behind which no folder is listed: the first look notes what is new of files."""
        answers = [asked(), asked()]
        told = subprocess.run([sys.executable, '-c', LISTED], cwd=root, capture_output=True, text=True, check=False)
        return answers == [answered] * 2 and seen.exists() and told.stdout == "['', ''] 0\n"

    def rewritten(file: pathlib.Path, data: bytes) -> None:
        """Writes a file and gives it the time back that it had."""
        before = file.stat()
        file.write_bytes(data)
        os.utime(file, ns=(before.st_atime_ns, before.st_mtime_ns))

    bytes_of = {file: file.read_bytes() for file in (source, root / 'crates.txt', root / 'target' / 'libdesk.so', made)}
    for name, change, back, word in [
            ('one byte, with its old time', lambda: rewritten(source, bytes_of[source].replace(b'a', b'b', 1)),
             lambda: rewritten(source, bytes_of[source]), 'src/lib.rt was changed since'),
            ('a file in a folder', lambda: (host / 'specs' / 'More.antt').touch(),
             lambda: (host / 'specs' / 'More.antt').unlink(), 'specs/More.antt came since'),
            ('a file in an empty folder', lambda: (empty / 'Proof.antt').touch(),
             lambda: (empty / 'Proof.antt').unlink(), 'proofs/empty/Proof.antt came since'),
            ('a new part', lambda: ((host / 'data').mkdir(), (host / 'data' / 'one').touch()),
             lambda: shutil.rmtree(host / 'data'), 'data/one came since'),
            ('a file less', lambda: source.rename(root / 'lib.rt'), lambda: (root / 'lib.rt').rename(source),
             'src/lib.rt went since'),
            ('other rows', lambda: rewritten(root / 'crates.txt', b'host staticlib: \nmore:\nhost staticlib: more\n'),
             lambda: rewritten(root / 'crates.txt', bytes_of[root / 'crates.txt']), 'the library'),
            ('another library', lambda: rewritten(root / 'target' / 'libdesk.so', b'none'),
             lambda: rewritten(root / 'target' / 'libdesk.so', bytes_of[root / 'target' / 'libdesk.so']),
             'target/libdesk.so was changed since'),
            ('no stamp', made.unlink, lambda: made.write_bytes(bytes_of[made]), 'is not built yet')]:
        tally.check(f'{name}: noted before', noted(), asked())
        change()
        told = asked()
        tally.check(f'{name}: seen behind a look', told.failed(word), told)
        back()
    tally.check('all as it was', noted(), asked())


def main() -> None:
    tally = Tally()
    with tempfile.TemporaryDirectory() as name:
        folder = pathlib.Path(name)
        faults(tally, folder)
        nobody(tally, folder)
        terminal(tally, folder)
        elsewhere(tally, folder)
        below(tally, folder)
    tally.close()


main()
