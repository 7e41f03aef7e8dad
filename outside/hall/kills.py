"""A hall that is killed again and again among random clicks, and what must be there afterwards."""
import pathlib
import random
import threading
import time

from office.library import Desk
from office.refusal import Refused
from outside.hall.chains import read
from outside.hall.opened import Candidate, Hall, until_there
from outside.hall.ours import saved_into, saved_over
from outside.trying import EXAMPLES, Tally

KILLS = 50


class Clicker:
    """Clicks at random until no answer comes. Holds a desk of the library with all that was answered."""

    def __init__(self, hall: Hall, name: str):
        self.candidate, self.desk, self.rng = Candidate(hall, name), Desk(), random.Random(name)
        self.desk.load(hall.paper)
        self.moves = self.answered = 0
        self.pending, self.wrong, self.thread = '', [], None

    def make(self, move: str) -> bool:
        """Makes a move on the library's desk; whether it is accepted."""
        word, _, gap = move.partition(' ')
        try:
            if word == 'take':
                self.desk.take_back()
            else:
                (self.desk.put if word == 'put' else self.desk.lift)(int(gap))
        except Refused:
            return False
        self.moves += 1
        return True

    def begin(self) -> None:
        self.answered, self.thread = 0, threading.Thread(target=self.click)
        self.thread.start()

    def click(self) -> None:
        """Clicks until the hall is gone."""
        while True:
            gap = self.rng.randrange(1, 15)
            self.pending = self.rng.choice([f'put {gap}', f'put {gap}', f'lift {gap}', 'take back'])
            try:
                status, told = self.candidate.move(self.pending)
            except OSError:
                return
            accepted = self.make(self.pending)
            if not self.same(told) or (status == 200) != accepted:
                self.wrong.append((self.pending, status, told))
            self.answered += 1

    def same(self, told: dict) -> bool:
        """Whether what is told is the library's sitting."""
        now = self.desk.standing()
        return (told['gaps'], told['moves'], bytes.fromhex(told['cuts'])) == (now.gaps, self.moves, now.cuts)

    def after(self, told: dict) -> bool:
        """Whether all that was answered is there after a kill, and of the rest at most the move that was under way."""
        if told['moves'] == self.moves + 1:
            self.make(self.pending)
        return self.same(told)


def late_save(hall: Hall, turn: int) -> None:
    """An editor has read the log, moves were made, and now it saves. The hall has a second to notice: until the log is
    whole again, with more in it than before."""
    log = hall.log.read_bytes()
    until_there(lambda: hall.log.stat().st_size > len(log))
    grown = hall.log.stat().st_size
    (saved_over if turn % 2 else saved_into)(hall.log, log)
    until_there(lambda: hall.log.stat().st_size > grown and read(hall.log.read_bytes()) is not None)


def killed(tally: Tally, folder: pathlib.Path) -> None:
    """Killed again and again among clicks, with an editor that saves an old log now and then, the hall loses no move
    that was answered, and its log stays whole."""
    hall = Hall(folder / 'killed', EXAMPLES['p'], ['anna', 'bert', 'cleo', 'dora'], more=['--practice']).start()
    rng = random.Random(2)
    clickers, answered, begun = [Clicker(hall, name) for name in hall.names], 0, time.monotonic()
    for turn in range(KILLS):
        for clicker in clickers:
            clicker.begin()
        while not all(clicker.answered for clicker in clickers):
            time.sleep(0.001)
        if turn % 5 == 4:
            late_save(hall, turn)
        time.sleep(rng.random() * 0.1)
        hall.end()
        for clicker in clickers:
            clicker.thread.join()
        hall.start()
        tally.check(f'kill {turn}: the log is whole', read(hall.log.read_bytes()) is not None)
        for clicker in clickers:
            held = clicker.after(clicker.candidate.ask('/sitting')[1])
            tally.check(f'kill {turn}: {clicker.candidate.name}', held and not clicker.wrong, clicker.wrong)
            answered += clicker.answered
    hall.end()
    print(f'{KILLS} kills among {answered:,} clicks: {time.monotonic() - begun:.0f} s')
    told = hall.complaints().splitlines()
    tally.check('nothing else to complain about', bool(told) and all('is put back' in line for line in told), told)
