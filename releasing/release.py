"""./release: what is needed of a commit is proved and built, and packed into dist/ for machines without the prover."""
import argparse
import hashlib
import os
import shutil
import subprocess
import time

from office.built import KEY, LIBRARY, build, built_by, tool_here
from office.command import ROOT, Fault, Parser, write_out, write_over
from office.version import library_sha256, version
from releasing.archives import debian, tarball
from releasing.tree import Release, tree_of

HELP = """Proves and builds what is needed of this commit and makes two packages of one tree in dist/, for machines that
have python3 alone: marking-desk-VERSION-x86_64.tar.gz, to be unpacked anywhere, and marking-desk_VERSION_amd64.deb for
Debian. The same commit, kit and compiler give the same bytes. Their SHA-256 are written to standard output."""
STATUS = 'Status: 0 done, 2 what is there is no commit, or cannot be built or written.'
CONTROL = """Package: marking-desk
Version: {version}
Architecture: amd64
Maintainer: The marking desk <marking-desk@localhost>
Depends: bash, python3 (>= 3.10), libc6 (>= 2.34), libsqlite3-0 (>= 3.39)
Section: education
Priority: optional
Description: marking of barrier papers, by a proved library
 Reads a paper of nested loops with dependences between threads, works out where
 the barriers go, marks what candidates answer, serves sittings at the screen
 and keeps the register.
 .
 Commit {commit}, proved by {kit}.
"""


def git(*words: str) -> str:
    done = subprocess.run(['git', *words], cwd=ROOT, capture_output=True, text=True, check=False)
    if done.returncode != 0:
        raise Fault(f'a release is of a commit, and git does not tell it: {done.stderr.strip().splitlines()[-1:]}')
    return done.stdout.strip()


def release_here() -> Release:
    """The release of the commit that is checked out, built if need be."""
    if not shutil.which('git') or not os.path.exists(f'{ROOT}/.git'):
        raise Fault('a release is of a commit, and here is no clone, or no git')
    other = git('status', '--porcelain').splitlines()
    if other:
        raise Fault(f'a release is of a commit, and {len(other)} files differ from it: {other[0].split()[-1]} first')
    for made in (KEY, *LIBRARY):
        if os.path.exists(made.stamp) and built_by(made) != tool_here(made):
            os.unlink(made.stamp)
        build(made, 'release')
    when = int(git('log', '-1', '--format=%ct'))
    date = time.strftime('%Y-%m-%d', time.gmtime(when))
    return Release(version(), git('rev-parse', 'HEAD'), date, when, built_by(KEY), library_sha256())


def main(arguments: list[str]) -> None:
    parser = Parser(prog='./release', description=HELP, epilog=STATUS,
                    formatter_class=argparse.RawDescriptionHelpFormatter)
    parser.parse_args(arguments)
    release = release_here()
    tree = tree_of(release)
    control = CONTROL.format(version=release.version, commit=release.commit, kit=release.kit)
    named = f'marking-desk-{release.version}'
    try:
        os.makedirs(f'{ROOT}/dist', exist_ok=True)
    except OSError as fault:
        raise Fault(f'cannot write in dist: {fault.strerror}') from fault
    for name, data in {f'{named}-x86_64.tar.gz': tarball(tree, named, release.time),
                       f'marking-desk_{release.version}_amd64.deb': debian(tree, control, release.time)}.items():
        write_over(f'{ROOT}/dist/{name}', data, lasting=True)
        write_out(f'{hashlib.sha256(data).hexdigest()}  dist/{name}\n'.encode())
