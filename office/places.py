"""Where the desk's own files lie: in a clone, or as a release has them installed."""
from office.command import CLONE, ROOT

TARGET, TOP = f'{ROOT}/target', ROOT.rsplit('/', 2)[0]
ARCHIVE, PROGRAM = f'{TARGET}/staticlib/libhost.a', f'{TARGET}/bin/key'
SHARED = f'{TARGET}/libdesk.so' if CLONE else f'{TOP}/lib/libdesk.so'
HEADER = f'{ROOT}/crates/host/desk.h' if CLONE else f'{TOP}/include/desk.h'
