"""Puts faults into copies of the library, one at a time, and plays the judge's scripts against each copy.

  python3 -m outside.faults.faults [SECONDS [LABEL...]]    SECONDS: how long the scripts run on each copy (default 20)
  python3 -m outside.faults.faults --fit                   only whether each edit fits the sources, in a second

A copy's sources are the crates' own, with one edit of faults.txt. Nothing is proved of it: contracts are taken off,
and what is left, which Rust reads as well, is compiled by rustc into a shared library that the judge loads. The copy
with no edit must pass; every other must be caught by a difference, by a stop or by no answer in time. Needs rustc
alone. The last line is 'N passed, M failed'.
"""
import os
import pathlib
import re
import resource
import signal
import subprocess
import sys
import tempfile
from dataclasses import dataclass

from outside.checks.repository import edges
from outside.trying import ROOT

# The judge's threads, and the seconds of the processor that it may take for its first scripts and for shortening one.
JUDGES, SPARE = 2, 15
RUSTC = ['rustc', '--edition', '2021', '-O', '-A', 'warnings', '-C', 'panic=abort']


class Unusable(Exception):
    """An edit that does not fit the sources, or sources that do not compile."""


@dataclass
class Fault:
    """An edit: in a file, a text that stands there once, and what takes its place."""
    label: str
    file: str
    old: str
    new: str


def read_faults() -> list[Fault]:
    """The faults of faults.txt: a line each for label, file, old and new."""
    lines = (ROOT / 'outside/faults/faults.txt').read_text().splitlines()
    fields = [line for line in lines if line and not line.startswith('#')]
    keys = ['fault: ', 'file: ', 'old: ', 'new: ']
    faults = []
    for i in range(0, len(fields), 4):
        if any(not line.startswith(key) for line, key in zip(fields[i:i + 4], keys)):
            raise Unusable(f'faults.txt: four lines {keys} expected from: {fields[i]}')
        faults.append(Fault(*(line[len(key):] for line, key in zip(fields[i:i + 4], keys))))
    return faults


def crates() -> dict[str, list[str]]:
    """Each crate that the library is made of, with those it uses, from crates.txt."""
    uses = edges()
    wanted, todo = set(), ['host']
    while todo:
        name = todo.pop()
        if name not in wanted:
            wanted.add(name)
            todo += uses[name]
    return {name: uses[name] for name in uses if name in wanted}


def without_contracts(source: str) -> str:
    """What is left for Rust: no ghosts, no contracts; every value may be copied."""
    source = re.sub(r'(?m)^ghost use .*;\n', '', source)
    # What a trait and its impls say of its meaning, and the clauses of a trait's methods.
    source = re.sub(r'(?m)^ *ghost \w+(?: =|:) \{.*\};\n', '', source)
    source = re.sub(r'\n *(?:requires|ensures)(?: \w+)? \{.*\};', ';', source)
    # Attributes of the prover's own, and derives, which are put before every type below.
    source = re.sub(r'(?m)^ *#!?\[(?:tactic|cycle|derive)\b.*\]\n', '', source)
    clause = r'(?:requires|ensures)(?: \w+)? \{'
    source = re.sub(rf'(?m)^( *){clause}(?:.|\n)*?(?=^\1?{clause}|^ *\{{\n)', '', source)
    return re.sub(r'(?m)^(pub )?(struct|enum) ', r'#[derive(Clone, Copy)]\n\1\2 ', source)


def with_lengths(source: str) -> str:
    """The exported functions as C calls them: what is lent is a pointer and a length."""
    lent = re.compile(r'(\w+): &(mut )?\[(\w+)\]')

    def exported(found: re.Match) -> str:
        name, given, rest = found.groups()
        whole = [f'    let {it} = unsafe {{ std::slice::from_raw_parts{"_mut" if mut else ""}({it}, {it}_length) }};\n'
                 for it, mut, _ in lent.findall(given)]
        parts = lent.sub(lambda it: f'{it[1]}: *{"mut" if it[2] else "const"} {it[3]}, {it[1]}_length: usize', given)
        return f'{name}({parts}){rest}{"".join(whole)}'
    return re.sub(r'(pub extern "C" fn \w+)\(([^)]*)\)([^{]*\{\n)', exported, source)


def library(fault: Fault | None) -> str:
    """The library as one Rust file, a module for each crate."""
    text = ['#![allow(improper_ctypes_definitions)]']
    found = fault is None
    for name, uses in crates().items():
        path = f'crates/{name}/src/lib.rt'
        if not (ROOT / path).exists():
            continue
        source = (ROOT / path).read_text()
        if fault and fault.file == path:
            if source.count(fault.old) != 1:
                raise Unusable(f'{fault.old!r} stands {source.count(fault.old)} times in {path}')
            source, found = source.replace(fault.old, fault.new), True
        used = ''.join(f'    use crate::{u};\n' for u in uses if (ROOT / f'crates/{u}/src/lib.rt').exists())
        text.append(f'pub mod {name} {{\n{used}{with_lengths(without_contracts(source))}}}\n')
    if not found:
        raise Unusable(f'no crate of the library has {fault.file}')
    return '\n'.join(text)


def compile_rust(*words: object) -> None:
    made = subprocess.run([*RUSTC, *words], capture_output=True, text=True)
    if made.returncode:
        raise Unusable(f'it does not compile\n{made.stderr}')


def build(folder: pathlib.Path, fault: Fault | None) -> None:
    """Compiles a copy into libhost.so."""
    (folder / 'host.rs').write_text(library(fault))
    compile_rust('--crate-type', 'cdylib', '--crate-name', 'host', '-o', folder / 'libhost.so', folder / 'host.rs')


def verdict(judge: pathlib.Path, folder: pathlib.Path, seconds: int) -> str | None:
    """How the judge catches the copy, None where it does not. The time is the processor's: other work takes none."""
    environment = {**os.environ, 'LD_LIBRARY_PATH': str(folder)}
    command = [judge, '--scripts', '1', str(seconds)]
    allowed = JUDGES * seconds + SPARE
    run = subprocess.run(command, env=environment, capture_output=True, text=True, check=False,
                         preexec_fn=lambda: resource.setrlimit(resource.RLIMIT_CPU, (allowed, allowed + 1)))
    if run.returncode == 0:
        return None
    if run.returncode in (-signal.SIGXCPU, -signal.SIGKILL):
        return 'no answer in time'
    difference = [line for line in run.stdout.splitlines() if line.startswith('difference')]
    if not difference:
        return f'stopped, status {run.returncode}'
    after = run.stdout.split('\n\n')[0].splitlines()
    return f'by {len(after) - 2} calls: {after[-1][:100]}'


def outcome(work: pathlib.Path, fault: Fault | None, seconds: int) -> tuple[bool, str]:
    """Whether a copy is judged as it must be, and how."""
    try:
        build(work, fault)
        if fault is None:
            compile_rust('-L', work, '-l', 'dylib=host', '-o', work / 'judge', ROOT / 'outside/judge/main.rs')
    except Unusable as reason:
        return False, str(reason)
    caught = verdict(work / 'judge', work, seconds)
    if fault is None:
        return caught is None, caught or 'nothing differs'
    return caught is not None, caught or 'NOT CAUGHT'


def fit() -> int:
    """Whether each edit's text stands once in a file of the library, and no label twice in the list."""
    passed = failed = 0
    labels = set()
    for fault in read_faults():
        try:
            library(fault)
            if fault.label in labels:
                raise Unusable('it stands twice in the list')
            labels.add(fault.label)
            passed += 1
        except Unusable as reason:
            failed += 1
            print(f'{fault.label}: {reason}')
    print(f'{passed} passed, {failed} failed')
    return 0 if failed == 0 else 1


def main() -> int:
    if sys.argv[1:] == ['--fit']:
        return fit()
    seconds = int(sys.argv[1]) if len(sys.argv) > 1 else 20
    chosen = sys.argv[2:]
    passed = failed = 0
    with tempfile.TemporaryDirectory() as name:
        for fault in [None, *(f for f in read_faults() if not chosen or f.label in chosen)]:
            well, how = outcome(pathlib.Path(name), fault, seconds)
            passed, failed = passed + well, failed + (not well)
            print(f'{fault.label if fault else "no fault"}: {how}', flush=True)
    print(f'{passed} passed, {failed} failed')
    return 0 if failed == 0 else 1


if __name__ == '__main__':
    sys.exit(main())
