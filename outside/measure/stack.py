"""The stack that each call of the library takes: python3 -m outside.measure.stack prints, for each call of desk.h, the
most bytes that it took on the full-size papers.

stack.c beside this makes the calls on a thread of STACK KiB whose own frames take OWN, and paints the rest of the
stack before each. It needs target/staticlib/libhost.a and gcc.
"""
import pathlib
import subprocess
import sys
import tempfile

from outside.measure import papers
from outside.trying import ROOT

ARCHIVE = ROOT / 'target/staticlib/libhost.a'
STACK, OWN = 96, 12  # KiB: what desk.h asks of a thread, and what it leaves to the thread's own frames
PAPERS = {kind: papers.text(kind) for kind in (*papers.KINDS, *papers.FOUND, 'barred')} | {
    'half of one': papers.text('one', 126)}  # two of these can be joined


def built(work: pathlib.Path) -> tuple[pathlib.Path, str]:
    """stack.c as a program in a folder, and what the compiler said if there is none."""
    program = work / 'stack'
    source = ROOT / 'outside/measure/stack.c'
    flags = ['-std=c11', '-O2', '-Wall', '-Wextra', '-Werror', '-pthread', f'-DSTACK={STACK * 1024}',
             f'-DOWN={OWN * 1024}', f'-I{ROOT / "crates/host"}']
    done = subprocess.run(['gcc', *flags, source, ARCHIVE, '-o', program], capture_output=True, text=True, check=False)
    return program, done.stderr if done.returncode else ''


def depths(program: pathlib.Path, text: bytes) -> dict[str, int]:
    """Of each call the bytes that it took on a paper; none where the program came to no end."""
    done = subprocess.run([program], input=text, capture_output=True, check=False)
    if done.returncode != 0:
        return {}
    return {name: int(size) for name, size in (line.split() for line in done.stdout.decode().splitlines())}


def main() -> None:
    with tempfile.TemporaryDirectory() as name:
        program, fault = built(pathlib.Path(name))
        if fault:
            sys.exit(f'stack: {fault}')
        most: dict[str, int] = {}
        for kind, text in PAPERS.items():
            taken = depths(program, text)
            if not taken:
                sys.exit(f'stack: no end on {kind}')
            for call, size in taken.items():
                most[call] = max(most.get(call, 0), size)
    for call, size in sorted(most.items(), key=lambda row: -row[1]):
        print(f'{call} {size}')


if __name__ == '__main__':
    main()
