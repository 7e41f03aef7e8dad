"""The program and ./key under faults of input, output and typing: what is typed, what is seen.

Needs target/bin/key, and gcc for a read that fails. The last line is 'N passed, M failed'.
"""
import os
import pathlib
import shutil
import subprocess
import tempfile
from collections.abc import Callable

from outside.trying import EXAMPLES, KEY, NOBODY, PROGRAM, ROOT, VERSION, Seen, Tally, python_for_all, run

P_ANSWER = b'2105\n210b\n220000\n220101\n220701\n'
NOT_READ, NOT_WRITTEN = 'key: standard input was not read: ', 'key: the answer was not written'
FULL = '"$@" > /dev/full'
NO_OUTPUT = '"$@" >&-'
TOOLS = ['bash', 'cat', 'chmod', 'cp', 'dirname', 'head', 'mkdir', 'mktemp', 'readlink', 'rm', 'setpriv']

# Slips of the keyboard: the text, the number and the line of the refusal, and words that name the slip.
SLIPS = [
    (b'01\r\n02\r\n', 1, 1, ['"01\\r"', 'CRLF']),
    (b'01\n02\n110A05\n', 1, 3, ['"110A05"', 'capital digits']),
    (b'\xef\xbb\xbf01\n02\n', 1, 1, ['"\\xef\\xbb\\xbf01"', 'a byte order mark']),
    ('\ufeff01\n'.encode('utf-16-le'), 1, 1, ['UTF-16']),
    (b'01\n0 2\n', 1, 2, ['"0 2"', 'spaces']),
    (b'01\n02\t\n', 1, 2, ['"02\\t"', 'spaces']),
    (b'01\n\n02\n', 1, 2, ['line 2 is refused: ""', 'it is empty']),
    (b'01\n021\n', 1, 2, ['3 digits, an odd number']),
    (b'01\n02', 1, 2, ['no line feed comes after it']),
    (b'01\n0g\n', 1, 2, ['no digits: g']),
    (b'01\n' + b'zz' * 400 + b'\n02\n', 1, 2, ['"' + 'z' * 48 + '..." and 752 bytes more']),
    (b'01\n\x1b[31m\x00\xff\n', 1, 2, ['"\\x1b[31m\\x00\\xff"']),
    (b'05\n', 2, 1, ['"05"', 'no line of a paper begins with 05']),
    (b'01\n02\n110001\n03\n', 3, 4, ['"03"', 'a point stands behind line 3']),
    (b'01\n', 4, 2, ['the end of the text is refused, which counts as line 2', 'loop 0, opened on line 1,']),
    (b'01\n' + b'03\n' * 300, 5, 257, ['line 257 is refused: "03"', 'at most 256']),
    (b'01\n' * 3000, 5, 0, ['the text is refused as a whole', '9,000 bytes', '8,192']),
    (b'01\n03\n02\n110105\n', 6, 4, ['"110105"', 't is 5', 'there is no such point']),
    (b'01\n03\n02\n110101\n', 7, 4, ['"110101"', 'did you mean 12000101?']),
    (b'01\n03\n02\n1303\n', 8, 4, ['"1303"', 'its gaps are 1 and 2, in texts 01 and 02']),
    (b'01\n01\n02\n02\n1301\n', 14, 5, ['"1301"', 'this one has 2 loops']),
    (b'01\n03\n02\n110001\n1301\n', 15, 0, ['the text is refused as a whole', 'all its gaps barred']),
]


def faults_of_reading(tally: Tally, folder: pathlib.Path) -> None:
    """The program tells the end of its input from a failed read, and goes on after short and interrupted ones."""
    faulty = folder / 'faulty.so'
    source = ROOT / 'outside' / 'tests' / 'faulty.c'
    subprocess.run(['gcc', '-shared', '-fPIC', '-O1', '-o', faulty, source], check=True)
    preload = {'LD_PRELOAD': str(faulty)}
    text = EXAMPLES['p']

    def faulty_run(**told: str):
        settings = ' '.join(f'{name}={value}' for name, value in {**preload, **told}.items())
        return run(PROGRAM, given=text, shell=f'{settings} "$@"')

    for after in [0, 1, 2, 3, 42, 49, len(text) - 1, len(text)]:
        seen = faulty_run(READ_FAILS_AFTER=str(after))
        tally.check(f'a read that fails after {after} bytes', seen.failed(NOT_READ + 'Input/output error', 0), seen)
        seen = faulty_run(READ_FAILS_AFTER=str(after), READ_SHORT='5', READ_INTERRUPTS='1')
        tally.check(f'short reads that fail after {after} bytes', seen.failed(NOT_READ + 'Input', 0), seen)
    for told in [{'READ_SHORT': '1'}, {'READ_SHORT': '7'}, {'READ_INTERRUPTS': '3'},
                 {'READ_SHORT': '1', 'READ_INTERRUPTS': '2'}, {'READ_FAILS_AFTER': str(len(text) + 1)}]:
        seen = faulty_run(**told)
        tally.check(f'a whole paper by {told}', (seen.out, seen.err) == (P_ANSWER, ''), seen)
    seen = faulty_run(READ_INTERRUPTS='-1')
    tally.check('interrupted for ever', seen.failed(NOT_READ + 'Interrupted system call', 0), seen)
    text = b'03\n' * 4000
    seen = faulty_run(READ_SHORT='1000')
    tally.check('too long, in short reads', (seen.out, seen.err) == (b'2f050000\n', ''), seen)
    seen = run(PROGRAM, given=None)
    tally.check('the program, input closed', seen.failed(NOT_READ + 'Bad file descriptor', 0), seen)
    seen = run(PROGRAM, shell=f'"$@" < {ROOT}/examples')
    tally.check('the program, a folder', seen.failed(NOT_READ + 'Is a directory', 0), seen)
    for name, shell in [('full', FULL), ('closed', NO_OUTPUT)]:
        seen = run(PROGRAM, given=EXAMPLES['p'], shell=shell)
        tally.check(f'the program, output {name}', seen.failed(NOT_WRITTEN, 0), seen)


def statuses(tally: Tally, folder: pathlib.Path) -> None:
    """./key says by its status what became of a paper, and by one line what went wrong."""
    paper, link = ROOT / 'examples' / 'p.hex', folder / 'link'
    link.symlink_to(KEY)
    for name, seen in [('by name', run(KEY, paper)), ('by input', run(KEY, given=EXAMPLES['p'])),
                       ('by a dash', run(KEY, '-', given=EXAMPLES['p'])),
                       ('by a link', run(link, paper)), ('elsewhere', run(KEY, paper, shell='cd / && "$@"')),
                       ('input closed', run(KEY, paper, given=None))]:
        tally.check(f'P {name}', (seen.out, seen.err, seen.status) == (P_ANSWER, '', 0), seen)
    seen = run(KEY)
    tally.check('empty', (seen.out, seen.status) == (b'220000\n', 0) and 'the blank paper' in seen.err, seen)
    tally.check('-h', run(KEY, '-h') == run(KEY, '--help'))
    for option, word in [('--help', b'usage: ./key'), ('--version', f'key {VERSION}, commit '.encode())]:
        seen = run(KEY, option)
        tally.check(option, word in seen.out and (seen.err, seen.status) == ('', 0), seen)
        seen = run(KEY, option, shell=FULL)
        tally.check(f'{option}, output full', seen.out == b'' and seen.err != '' and seen.status == 2, seen)
    (folder / 'office').mkdir()
    (folder / 'office' / '__init__.py').touch()
    seen = run(KEY, given=b'05\n', shell=f'cd {folder} && "$@"')
    tally.check('beside another office', 'number 2: no line' in seen.err and seen.status == 1, seen)
    hidden = folder / 'hidden.hex'
    for name, word, seen in [
            ('an option', 'no option --keys', run(KEY, '--keys')), ('two papers', 'one paper', run(KEY, paper, paper)),
            ('no file', f'cannot open {hidden}', run(KEY, hidden)), ('no name', 'cannot open', run(KEY, '')),
            ('a folder', 'Is a directory', run(KEY, ROOT / 'examples')),
            ('a folder as input', 'Is a directory', run(KEY, shell=f'"$@" < {ROOT}/examples')),
            ('input closed', 'standard input is closed', run(KEY, given=None)),
            ('output full', NOT_WRITTEN, run(KEY, paper, shell=FULL)),
            ('output closed', NOT_WRITTEN, run(KEY, paper, shell=NO_OUTPUT)),
            ('refused, output full', NOT_WRITTEN, run(KEY, given=b'05\n', shell=FULL)),
            ('no room for a copy', 'no room', run(KEY, paper, shell='"$@" 2> >(tail -n 1 >&2)', TMPDIR=str(hidden)))]:
        tally.check(name, seen.failed(word), seen)
    left = [name for name in os.listdir(folder) if name.startswith('tmp.')]
    tally.check('no copy is left', not left, left)


def words(tally: Tally) -> None:
    """A refusal's bytes stay the program's; its words go to standard error."""
    for text, number, line, told in SLIPS:
        seen, own = run(KEY, given=text), run(PROGRAM, given=text)
        name = f'{text[:20]!r} refused'
        tally.check(f'{name}: bytes', seen.out == own.out == b'2f%02x%04x\n' % (number, line), seen)
        tally.check(f'{name}: words', all(word in seen.err for word in [f'number {number}:', *told]), seen)
        tally.check(f'{name}: status', seen.status == 1, seen)
        tally.check(f'{name}: printable', all(' ' <= c <= '~' or c == '\n' for c in seen.err), seen)


def other_machines(tally: Tally, folder: pathlib.Path) -> None:
    """A machine that lacks rt or python3, and a program that is missing, of other sources or mute."""
    tools, root = folder / 'tools', folder / 'desk'
    tools.mkdir()
    for tool in TOOLS:
        (tools / tool).symlink_to(shutil.which(tool))
    shutil.copytree(ROOT / 'office', root / 'office', ignore=shutil.ignore_patterns('__pycache__'))
    source, program = root / 'crates' / 'key' / 'src' / 'main.rt', root / 'target' / 'bin' / 'key'
    source.parent.mkdir(parents=True)
    source.write_text('// one\n')
    (root / 'crates.txt').write_text('key:\n')
    (root / 'crates' / 'host').mkdir()
    shutil.copy(ROOT / 'crates' / 'host' / 'desk.h', root / 'crates' / 'host')
    shutil.copy(KEY, root / 'key')

    def asked(text: bytes = EXAMPLES['p'], shell: str = '"$@"') -> Seen:
        return run(root / 'key', given=text, shell=shell, PATH=str(tools))

    def rt(*lines: str) -> None:
        (tools / 'rt').write_text('\n'.join([f'#!{shutil.which("bash")}', 'echo noise', *lines, '']))
        (tools / 'rt').chmod(0o755)

    # rt runs in the crate's folder, and leaves the program in out/.
    builds = ['[ "$*" = run ] || exit 1', 'mkdir -p out', f'cp {PROGRAM} out/key']
    answered = Seen(P_ANSWER, '', 0)
    tally.check('no python3', asked().failed('there is no python3'), asked())
    (tools / 'python3').symlink_to(python_for_all())
    tally.check('not built, no rt', asked().failed('not built yet, and there is no rt'), asked())
    rt('exit 1')
    seen = asked()
    tally.check('a build that fails', (seen.out, seen.status) == (b'', 2), seen)
    tally.check('what it said', '\nnoise\n' in seen.err and 'rt run in crates/key failed with status 1' in seen.err, seen)
    rt(*builds)
    seen = asked()
    tally.check('a build', (seen.out, seen.status, seen.err.count('\n')) == (P_ANSWER, 0, 1), seen)
    tally.check('told in one line', 'not built yet: proving and building it' in seen.err and ' s\n' in seen.err, seen)
    rt('exit 1')
    tally.check('built once', asked() == answered, asked())
    source.write_text('// one\n')
    (root / 'crates.txt').write_text('# Two.\nother: key\nkey:\n')
    tally.check('a source that was touched, a crate more', asked() == answered, asked())
    before = source.stat().st_mtime_ns
    source.write_text('// two\n')
    os.utime(source, ns=(before, before))
    seen = asked()
    tally.check('a source that was changed, at the old time', (seen.out, seen.status) == (b'', 2), seen)
    tally.check('which one', 'crates/key/src/main.rt was changed since' in seen.err, seen)
    (tools / 'rt').unlink()
    tally.check('changed, no rt', asked().failed('there is no rt'), asked())
    rt()
    seen = asked()
    tally.check('a build that makes nothing', seen.out == b'' and 'rt made nothing' in seen.err, seen)
    rt(*builds)
    tally.check('built again', asked().out == P_ANSWER and asked() == answered, asked())
    (root / 'crates' / 'key' / 'proofs').mkdir()
    (root / 'crates' / 'key' / 'proofs' / 'Lib.antt').touch()
    seen = asked()
    tally.check('a source that came', seen.out == P_ANSWER and 'proofs/Lib.antt came since' in seen.err, seen)
    seen = asked(b'05\n')
    tally.check('refused', (seen.out, seen.status) == (b'2f020001\n', 1) and 'number 2' in seen.err, seen)
    rt(*builds, 'echo "// three" > src/main.rt')
    source.write_text('// other\n')
    seen = asked()
    tally.check('changed while it is built', seen.out == b'' and 'try again' in seen.err and seen.status == 2, seen)
    rt(*builds)
    tally.check('built after that', asked().out == P_ANSWER and asked() == answered, asked())
    not_ours(tally, folder, root, source, asked)
    program.write_text(f'#!{shutil.which("bash")}\n')
    seen = asked()
    tally.check('a program that was not built', seen.out == P_ANSWER and 'target/bin/key was changed' in seen.err, seen)
    rt('mkdir -p out', f'echo "#!{shutil.which("bash")}" > out/key', 'chmod +x out/key')
    source.write_text('// mute\n')
    asked()
    tally.check('a mute program', asked().failed('the program gave no answer'), asked())


def not_ours(tally: Tally, folder: pathlib.Path, root: pathlib.Path, source: pathlib.Path,
             asked: Callable[..., Seen]) -> None:
    """In a folder that may not be written a program of the sources that are there answers, and no other does."""
    folder.chmod(0o777)
    closed = [place for place in [root, *root.rglob('*')] if place.is_dir()]
    for place in closed:
        place.chmod(0o555)
    seen = asked(shell=NOBODY)
    tally.check('not to be written', seen == Seen(P_ANSWER, '', 0), seen)
    before = source.read_bytes()
    source.chmod(0o644)
    source.write_text('// elsewhere\n')
    seen = asked(shell=NOBODY)
    tally.check('not to be written, other sources', seen.failed('cannot be built here: Permission denied'), seen)
    source.write_bytes(before)
    seen = asked(shell=NOBODY)
    tally.check('not to be written, its own sources again', seen == Seen(P_ANSWER, '', 0), seen)
    for place in closed:
        place.chmod(0o755)


def main() -> None:
    tally = Tally()
    with tempfile.TemporaryDirectory() as name:
        folder = pathlib.Path(name)
        os.environ['TMPDIR'] = name
        faults_of_reading(tally, folder)
        statuses(tally, folder)
        words(tally)
        other_machines(tally, folder)
    tally.close()


main()
