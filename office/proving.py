"""A build by `rt`, which proves and builds the crates below by itself, with a bar on standard error."""
import re
import subprocess
import sys
import time

from office.command import ROOT, Fault, columns, say
from office.progress import CLEAR

# How wide the bar is.
WIDTH = 24
# How often it is told where there is no terminal, in seconds.
SELDOM, MINUTE = 60, 60
# What rt says when it begins with a crate, and at the end of one.
BEGINS, PROVED = re.compile(r'rt: chose --jobs \d+ for (\w+)'), re.compile(r'logic=proved\b')


def built_by_rt(command: list[str], crate: str, rows: dict[str, list[str]], name: str) -> None:
    """Runs rt in a crate's folder, the crate given with all below it. What it says is told only if it fails."""
    bar, told = Bar(name, order(crate, rows)), list[str]()
    with subprocess.Popen(command, cwd=f'{ROOT}/crates/{crate}', stdin=subprocess.DEVNULL, stdout=subprocess.PIPE,
                          stderr=subprocess.STDOUT, text=True, errors='replace') as ran:
        for line in ran.stdout or ():
            told.append(line)
            bar.read(line)
    bar.close()
    if ran.returncode != 0:
        say('\n' + ''.join(told))
        raise Fault(f'it could not be built: {" ".join(command)} in crates/{crate} failed with status '
                    f'{ran.returncode}')


def order(crate: str, rows: dict[str, list[str]]) -> list[str]:
    """The crates in the order in which rt builds them: each behind those that it uses, and these as they are listed."""
    found: list[str] = []

    def add(one: str) -> None:
        if one in rows and one not in found:
            for used in rows[one]:
                add(used)
            found.append(one)
    add(crate)
    return found


class Bar:
    """How far the crates are: a bar at a terminal, below the line that is there; elsewhere some words on that line now
    and then."""

    def __init__(self, name: str, crates: list[str]):
        self.name, self.crates, self.at, self.running, self.begun = name, crates, 0, '', time.monotonic()
        self.shown, self.visible = self.begun, sys.stderr is not None and sys.stderr.isatty()
        if self.visible:
            say('\n')

    def read(self, line: str) -> None:
        """Goes on by what rt says: what stands before a crate is proved when it begins, and a crate when it ends."""
        begins = BEGINS.match(line)
        if begins and begins[1] in self.crates:
            self.running = begins[1]
            self.at = self.crates.index(self.running)
        elif PROVED.match(line) and self.running:
            self.at, self.running = self.crates.index(self.running) + 1, ''
        self.show(bool(begins))

    def show(self, moved: bool) -> None:
        """Draws the bar anew, or writes a line if the last one was long ago."""
        now, whole = time.monotonic(), len(self.crates)
        told = f'{self.at} of {whole} crates proved in {span(now - self.begun)}'
        if self.visible and moved:
            full = WIDTH * self.at // whole
            line = f'{"#" * full}{"." * (WIDTH - full)} {told}: {self.running}'
            say(f'{CLEAR}{line[:columns() - 1]}')
        elif not self.visible and now - self.shown >= SELDOM:
            say(f' {told} ...')
            self.shown = now

    def close(self) -> None:
        """Takes the bar off."""
        if self.visible:
            say(f'{CLEAR}{self.name}:')


def span(seconds: float) -> str:
    """A time in words."""
    return f'{seconds:.0f} s' if seconds < MINUTE else f'{seconds / MINUTE:.0f} min'
