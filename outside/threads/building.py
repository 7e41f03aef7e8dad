"""Programs in C for the tests of threads: compiled without a warning; whether ThreadSanitizer can run here."""
import os
import pathlib
import shutil
import tempfile

from outside.trying import Seen, Tally, run

STRICT = ['-std=c11', '-Wall', '-Wextra', '-pedantic', '-Werror', '-pthread']
SANITIZED = ['-g', '-fsanitize=thread']
# Where addresses of programs are too random for ThreadSanitizer, they are made less so.
STARTS = [[], ['setarch', '-R']]
TRIED = 'int main(void) { return 0; }\n'


def compiled(source: pathlib.Path, program: pathlib.Path, *options: str, compiler: str = 'gcc') -> Seen:
    """Compiles a program; a warning is an error."""
    return run(compiler, *STRICT, *options, source, '-o', program)


def sanitizer(tally: Tally) -> list[str] | None:
    """What a sanitized program is started with; None where ThreadSanitizer cannot run, which is told."""
    with tempfile.TemporaryDirectory() as name:
        source, program = pathlib.Path(name, 'tried.c'), pathlib.Path(name, 'tried')
        source.write_text(TRIED)
        if compiled(source, program, *SANITIZED).status == 0:
            for start in STARTS:
                if all(map(shutil.which, start[:1])) and run(*start, program).status == 0:
                    return start
    print('no race was looked for: gcc has no ThreadSanitizer here (libtsan), or it cannot run')
    tally.check('ThreadSanitizer where CI is true', os.environ.get('CI') != 'true')
    return None
