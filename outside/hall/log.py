"""The hall's log and what a start makes of it: the chain, lists and tickets, other programs, bad disks, the
clock, kills.

Needs the library's archive (rt lib in crates/host) and gcc. The last line is 'N passed, M failed'.
"""
import pathlib
import tempfile

from outside.hall.chains import chained, started_again
from outside.hall.clocks import by_the_clock
from outside.hall.disks import on_bad_disks
from outside.hall.kills import killed
from outside.hall.lists import listed
from outside.hall.ours import stays_ours
from outside.hall.run_out import run_out
from outside.hall.starts import started
from outside.hall.stories import told_again
from outside.trying import Tally


def main() -> None:
    tally = Tally()
    with tempfile.TemporaryDirectory() as name:
        for some in (listed, chained, started_again, started, stays_ours, on_bad_disks, told_again, by_the_clock,
                     killed, run_out):
            some(tally, pathlib.Path(name))
    tally.close()


if __name__ == '__main__':
    main()
