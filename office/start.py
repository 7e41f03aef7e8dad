"""How ./desk and ./draw begin, before anything else is imported: with a Python that can read the rest, a standard error
that no file takes the place of, and an end without a traceback for whoever stops it at once.

  python3 -m office.start MODULE NAME ...    begins so, and goes on with a module of the office; ./key asks for it
"""
import os
import sys

TYPE_CHECKING = False
if TYPE_CHECKING:
    import signal
else:
    try:
        import _signal as signal  # of which signal is made: it is there at once, and signal only when enum is loaded
    except ImportError:
        import signal

OLDEST = (3, 10)


def begin(name):  # type: (str) -> None
    """Makes sure of what every command relies on. This runs on any Python 3."""
    if sys.version_info < OLDEST:
        there = '.'.join(map(str, sys.version_info[:3]))
        sys.stderr.write('%s: Python %d.%d or later is needed, and this is %s (%s)\n' % (
            (name,) + OLDEST + (there, sys.executable)))
        sys.exit(2)
    try:
        os.fstat(2)
    except OSError:
        nowhere = os.open(os.devnull, os.O_WRONLY)
        if nowhere != 2:
            os.dup2(nowhere, 2)
            os.close(nowhere)
    if signal.getsignal(signal.SIGINT) is signal.default_int_handler:
        signal.signal(signal.SIGINT, signal.SIG_DFL)  # until command.run takes it over


if __name__ == '__main__':
    begin(sys.argv[2])
    import runpy
    runpy.run_module('office.' + sys.argv.pop(1), run_name='__main__', alter_sys=True)
