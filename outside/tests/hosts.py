"""The C boundary from outside: the header beside the archive, and the examples in C, Rust and Python.

  python3 -m outside.tests.hosts    needs target/staticlib/libhost.a (rt lib in crates/host), gcc, rustc and nm

The last line is 'N passed, M failed', and the status is 0 only if nothing failed.
"""
import pathlib
import re
import subprocess
import sys
import tempfile

from outside.measure import stack
from outside.trying import ROOT, Tally

ARCHIVE = ROOT / 'target/staticlib/libhost.a'
HEADER = ROOT / 'crates/host/desk.h'
C = ['gcc', '-std=c11', '-Wall', '-Wextra', '-Werror', '-Wno-cast-function-type', '-I', HEADER.parent]
ROOM = f'a stack of {stack.STACK} KiB has room for every call and for {stack.OWN} KiB of frames of its own'
PAPERS = {
    'p.hex': (0, '2105\n210b\nUncut 4 0 0\ngap 5 put: 3 uncut\n'),
    'q.hex': (0, '2102\n2106\nUncut 1 0 0\ngap 5 put: 1 uncut\n'),
    'faulty.hex': (1, 'refused: number 4, line 2\n'),
    'blocked.hex': (1, 'refused: number 15, line 0\n'),
}
MADE = {'faulty.hex': '01\n', 'blocked.hex': '01\n03\n02\n110001\n1301\n'}


def run(*command: object) -> tuple[int, str]:
    """The status of a command and what it wrote, standard error too where it failed."""
    done = subprocess.run([str(word) for word in command], cwd=ROOT, capture_output=True, text=True)
    return done.returncode, done.stdout + (done.stderr if done.returncode else '')


def check_names(tally: Tally) -> None:
    """Every function of the archive is in the header, and the other way round."""
    declared = set(re.findall(r'^\w+ (\w+)\([^;]*\);$', HEADER.read_text(), re.M))
    status, symbols = run('nm', '--defined-only', '--extern-only', ARCHIVE)
    exported = set(re.findall(r'^[0-9a-f]+ [A-Z] (\w+)$', symbols, re.M))
    tally.check('the archive has names', status == 0 and bool(exported), symbols)
    for name in sorted(declared | exported):
        tally.check(f'{name} is in the header', name in declared)
        tally.check(f'{name} is in the archive', name in exported)


def check_words(tally: Tally) -> None:
    """The examples that hand a desk on give it the header's number of words."""
    words = re.search(r'DESK_WORDS = (\d+)', HEADER.read_text()).group(1)
    for name, form in {'desk.rs': f'[u64; {words}]', 'desk.py': f'c_uint64 * {words})'}.items():
        tally.check(f'{name}: a desk of {words} words', form in (ROOT / 'examples' / name).read_text())


def check_said(tally: Tally) -> None:
    """What a host has to keep to, which no call can try, stands in the header."""
    said = ' '.join(HEADER.read_text().split())
    for rule in ('No call checks a desk: on one that no call made it may answer anything',
                 'Two desks are not to be compared byte by byte',
                 'Where the length is 0 the pointer is not read, and may be NULL.',
                 'A buffer does not overlap a text that it is written from; two texts may overlap.', ROOM):
        tally.check(f'the header says: {rule}', rule in said)


def check_longest(tally: Tally) -> None:
    """The length of an argument's text that is proved, on the page too."""
    longest = re.search(r'DESK_ARGUMENT = (\d+)', HEADER.read_text()).group(1)
    for name, form in {'argue_lengths/specs/Lengths.antt': f'LONGEST = {longest}\n',
                       'pages_arguments/specs/Giving.antt': f' long ≤ {longest}\n'}.items():
        tally.check(f'{name}: {form}', form in (ROOT / 'crates' / name).read_text())


def check_version(tally: Tally) -> None:
    """One version: the file's is the header's and the newest of the changes; layout.c holds the library's beside it."""
    version = (ROOT / 'VERSION').read_text().strip()
    header = [re.search(rf'DESK_{part} = (\d+)', HEADER.read_text()).group(1) for part in ('MAJOR', 'MINOR', 'PATCH')]
    newest = re.search(r'^## (\S+)$', (ROOT / 'CHANGELOG.md').read_text(), re.M).group(1)
    tally.check('VERSION is three numbers', re.fullmatch(r'\d+\.\d+\.\d+', version) is not None, version)
    tally.check("VERSION is the header's", version == '.'.join(header), header)
    tally.check('the newest of CHANGELOG', version == newest, newest)
    for name, form in {'desk.rs': f'.major == {header[0]},', 'desk.py': f'.major != {header[0]}:'}.items():
        tally.check(f'{name}: {form}', form in (ROOT / 'examples' / name).read_text())


def check_layout(tally: Tally, work: pathlib.Path) -> None:
    """Sizes and offsets of every struct, in C."""
    status, said = run(*C, 'outside/tests/layout.c', ARCHIVE, '-o', work / 'layout')
    tally.check('layout.c compiles', status == 0, said)
    if status == 0:
        status, said = run(work / 'layout')
        tally.check('layout.c', status == 0 and re.fullmatch(r'\d+ passed, 0 failed\n', said) is not None, said)


def check_examples(tally: Tally, work: pathlib.Path) -> None:
    """The same papers through the three examples."""
    for name, text in MADE.items():
        (work / name).write_text(text)
    rust = ['rustc', '-D', 'warnings', '-L', ARCHIVE.parent, '-l', 'static=host']
    whole = ['-Wl,--whole-archive', ARCHIVE, '-Wl,--no-whole-archive']
    built = {
        'C': run(*C, 'examples/desk.c', ARCHIVE, '-o', work / 'desk_c'),
        'Rust': run(*rust, 'examples/desk.rs', '-o', work / 'desk_rust'),
        'Python': run('gcc', '-shared', '-o', ROOT / 'target/libdesk.so', *whole),
    }
    commands = {'C': [work / 'desk_c'], 'Rust': [work / 'desk_rust'], 'Python': [sys.executable, 'examples/desk.py']}
    for language, (status, said) in built.items():
        tally.check(f'the example in {language} is built', status == 0, said)
        for paper, wanted in PAPERS.items() if status == 0 else []:
            path = work / paper if paper in MADE else ROOT / 'examples' / paper
            answer = run(*commands[language], path)
            tally.check(f'{language}, {paper}: {wanted}', answer == wanted, str(answer))
        if status == 0:
            tally.check(f'{language}: no paper', run(*commands[language], work / 'none.hex')[0] != 0)


def check_stack(tally: Tally, work: pathlib.Path) -> None:
    """Every call on full-size papers, on a thread with no more stack than the header asks for."""
    declared = set(re.findall(r'^\w+ (\w+)\([^;]*\);$', HEADER.read_text(), re.M))
    program, fault = stack.built(work)
    tally.check('stack.c compiles', not fault, fault)
    for kind, text in stack.PAPERS.items() if not fault else []:
        taken = stack.depths(program, text)
        tally.check(f'{kind}: every call, and no other', set(taken) == declared, sorted(declared ^ set(taken)))


def main() -> None:
    tally = Tally()
    if ARCHIVE.exists():
        with tempfile.TemporaryDirectory() as name:
            check_names(tally)
            check_words(tally)
            check_said(tally)
            check_longest(tally)
            check_version(tally)
            check_layout(tally, pathlib.Path(name))
            check_examples(tally, pathlib.Path(name))
            check_stack(tally, pathlib.Path(name))
    else:
        tally.check(f'{ARCHIVE} is there: ./test hosts builds it', False)
    tally.close()


if __name__ == '__main__':
    main()
