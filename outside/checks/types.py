"""The types of the office, as mypy reads them at its strictest.

  python3 -m outside.checks.types    the last line is 'N passed, M failed': N modules without an error, M errors

Needs mypy, which is installed where that may be done. Without it the types are not checked, which is told; where CI is
true it is a failure.
"""
import os
import re
import subprocess
import sys

from outside.trying import ROOT, installed

PACKAGES = ['mypy']
MYPY = ['mypy', '--strict', '--config-file=', '--no-color-output', '--cache-dir', 'target/mypy', 'office', 'releasing']


def main() -> None:
    passed, failed = 0, int(os.environ.get('CI') == 'true')
    if installed(['mypy'], PACKAGES):
        done = subprocess.run(MYPY, cwd=ROOT, stdout=subprocess.PIPE, stderr=subprocess.STDOUT, text=True, check=False)
        print(done.stdout, end='')
        wrong = re.findall(r'^(.+?):\d+: error: ', done.stdout, re.M)
        looked_at = re.search(r'(?:found in|checked) (\d+) source files?', done.stdout)
        passed = int(looked_at[1]) - len(set(wrong)) if looked_at else 0
        failed = len(wrong) or int(done.returncode != 0 or looked_at is None)
    else:
        print(f'the types were not checked: no mypy is here, nor could it be installed ({PACKAGES[0]})')
    print(f'{passed} passed, {failed} failed')
    sys.exit(failed > 0)


if __name__ == '__main__':
    main()
