"""Plan on random trees of loops: random_trees.py PROGRAM prints, for 64, 128 and 256 points, the mean of 100 papers.

Instructions as `instructions` beside this counts them: what the accepted text costs beyond one that is refused on a line
after its last. Beside them the gaps of all loops, each gap once for every loop around it: what the planner's passes go
over; and the most that the whole program takes on one of the papers.
"""
import re
import subprocess
import sys

from outside.measure import papers

SEEDS = 100


def instructions(program: str, text: str) -> int:
    """What the program executes on a text."""
    run = subprocess.run(['valgrind', '--tool=callgrind', '--callgrind-out-file=/dev/null', program],
                         input=text, capture_output=True, text=True, check=True)
    found = re.search(r'refs:\s+([\d,]+)', run.stderr)
    if found is None:
        sys.exit('random_trees: valgrind gave no count')
    return int(found.group(1).replace(',', ''))


def gaps(text: str) -> int:
    """At each point how many loops are around it, summed."""
    depth = total = 0
    for word in text.split():
        if len(word) == 2:
            total += depth
            depth += {'01': 1, '02': -1}.get(word, 0)
    return total


def main() -> None:
    print('trees points plan gaps most')
    for points in (64, 128, 256):
        plan = around = most = 0
        for seed in range(SEEDS):
            text = papers.text('mixed', points, str(seed)).decode()
            whole = instructions(sys.argv[1], text)
            plan += whole - instructions(sys.argv[1], text + 'zz\n')
            around += gaps(text)
            most = max(most, whole)
        print(SEEDS, points, plan // SEEDS, around // SEEDS, most)


if __name__ == '__main__':
    main()
