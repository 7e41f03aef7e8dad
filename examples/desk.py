"""Reads a paper, works out its key, marks the placement 3, 9 beside it, and puts a barrier at gap 5 of a sitting.
  gcc -shared -o target/libdesk.so -Wl,--whole-archive target/staticlib/libhost.a -Wl,--no-whole-archive
  python3 examples/desk.py examples/p.hex
"""
import ctypes, sys
from ctypes import Structure, c_size_t, c_uint8, c_uint64


def record(**fields):
    return type('Record', (Structure,), {'_fields_': list(fields.items())})


Version = record(major=c_size_t, minor=c_size_t, patch=c_size_t)
Desk = record(words=c_uint64 * 449)  # DESK_WORDS of desk.h: handed on, never opened
Reply = record(number=c_uint8, line=c_size_t, desk=Desk)
Answer = record(number=c_uint8, line=c_size_t, value=c_size_t)
Moved = record(number=c_uint8, line=c_size_t, uncut=c_size_t, desk=Desk)
Mark = record(number=c_uint8, line=c_size_t, verdict=c_uint8, a=c_size_t, b=c_size_t, c=c_size_t)

host = ctypes.CDLL('target/libdesk.so')
lent = ctypes.c_char_p
for name, result, given in [('desk_version', Version, []), ('desk_new', Desk, []),
                            ('desk_load', Reply, [Desk, lent, c_size_t]), ('desk_plan', Reply, [Desk]),
                            ('desk_write', Answer, [Desk, lent, c_size_t]),
                            ('desk_mark', Mark, [Desk, lent, c_size_t]), ('desk_put', Moved, [Desk, c_size_t])]:
    getattr(host, name).restype, getattr(host, name).argtypes = result, given

if host.desk_version().major != 1:  # DESK_MAJOR of desk.h
    sys.exit('the library is of another version than this program')
text = open(sys.argv[1] if len(sys.argv) > 1 else 'examples/p.hex', 'rb').read()
reply = host.desk_load(host.desk_new(), text, len(text))
if not reply.number:
    reply = host.desk_plan(reply.desk)
if reply.number:
    print(f'refused: number {reply.number}, line {reply.line}')
    sys.exit(1)
desk, key, answer = reply.desk, ctypes.create_string_buffer(1275), b'2103\n2109\n'
written = host.desk_write(desk, key, len(key))
print(key.raw[:written.value].decode(), end='')
mark = host.desk_mark(desk, answer, len(answer))
print(('Uncut', 'Dearer', 'Best')[mark.verdict], mark.a, mark.b, mark.c)
print(f'gap 5 put: {host.desk_put(desk, 5).uncut} uncut')
