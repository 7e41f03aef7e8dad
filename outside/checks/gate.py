"""What `./test` makes of the words of `rt ci`: it fails where rt fails, and where an edit could not be tried.

  python3 -m outside.checks.gate    the last line is 'N passed, M failed'
"""
from outside.proofs import counted_gate, counted_update
from outside.trying import Tally

DONE = 'rt: ok; handles allowed: none; must-fail edits: 384 refused{}; every proof and must-fail edit was done in this run\n'
# What rt said, its status, and what counts.
SAID = [
    ('all well', 0, [DONE.format(''), '461 passed, 0 failed\n'], (461, 0)),
    ('some by a limit', 0, [DONE.format(', 2 of them only by a limit'), '461 passed, 0 failed\n'], (461, 0)),
    ('an edit that is bad', 0, [DONE.format(', 1 bad'), '460 passed, 0 failed\n'], (460, 1)),
    ('bad ones beside a limit', 0, [DONE.format(', 2 of them only by a limit, 12 bad'), '449 passed, 0 failed\n'], (449, 12)),
    ('no line that all is well', 0, ['461 passed, 0 failed\n'], (461, 1)),
    ('no closing line', 0, [DONE.format('')], (0, 1)),
    ('a crate that is not proved', 1, ['rt: FAILED: desk host\n', '459 passed, 2 failed\n'], (459, 2)),
    ('a status of its own', 1, [DONE.format(''), '461 passed, 0 failed\n'], (461, 1)),
    ('nothing said', 2, [], (0, 1)),
    ('refused as a whole', 2, ['0 passed, 1 failed\n'], (0, 1)),
]


def main() -> None:
    tally = Tally()
    for name, status, said, counts in SAID:
        seen = counted_gate(status, said)
        tally.check(name, seen == counts, seen)
    tally.check('a check that fails', counted_update(1) == (0, 1))
    tally.check('a check that passes', counted_update(0)[0] > 0 and counted_update(0)[1] == 0)
    tally.close()


if __name__ == '__main__':
    main()
