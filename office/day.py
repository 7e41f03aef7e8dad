"""./desk: the commands of an office's day, each in a module of its own. Only the one that is asked for is imported."""
import argparse
import importlib

from office.command import REFUSED, Fault, Layout, Parser, nearest, printable, write_json, write_out

TYPE_CHECKING = False
if TYPE_CHECKING:
    from typing import Any

ABOUT = """The office's day, over the proved library: the setter checks a text, the desk works out the key, answers are
marked as they come in, and the day ends in the register. Gaps, loops and points are decimal in words and arguments,
hexadecimal in texts."""
VERSION_HELP = 'says which desk this is: version, commit and library'
STATUS = 'Status: 0 done, 1 refused, 2 bad usage or a file that cannot be read or written.'
# The commands, each with what it does; and the modules of those whose module is called otherwise.
COMMANDS = {
    'check': 'tells whether papers are accepted, and what is wrong with them in words',
    'show': 'writes a paper as an indented listing, with gap numbers and dependences in words',
    'spell': 'writes the text of a paper from a listing, so that no points need be counted',
    'key': 'writes the key of a paper and the counts of its loops, as the program does',
    'mark': 'marks answers beside the key of a paper, a row of CSV for each, or a mark in the register',
    'collect': 'takes a sitting that has ended into the register, with its log, and marks what was handed in',
    'register': 'shows the marks of a register, or writes them as CSV or JSON',
    'export': 'writes the slips of a register, with a page in words beside each',
    'slip': 'tells in words what a slip says, whoever it is for',
    'certificate': 'makes the certificate of a candidate who is marked Best, a page to print',
    'verify': 'tells of a certificate whether it is in the register, by its number',
    'audit': 'looks at a register whether all is as it was made, and makes every mark again',
    'take-in': 'marks the rows of an old register, a file of CSV, again and takes them into a register',
    'why': 'tells why no placement beats the key of a paper, or how one placement beats another',
    'draw': 'draws a paper as SVG, with the barriers of its key or with those that are named',
    'program': 'writes a paper as a program in C, with threads and the barriers of its key or with those that are '
               'named',
    'join': 'joins two papers into one, under a new outermost loop',
    'calls': 'counts the barrier calls of the key in a run, given the turns of each loop',
    'textbook': 'writes the placement that the textbook method gives for a paper of one loop',
    'missing': 'lists the loops that may not run and need a barrier for their missing run',
    'improve': 'looks for a placement with fewer calls than the key where loops run once',
    'sheet': 'tells when the run of a timing sheet ends, with its waits and with all barriers kept',
    'sit': 'serves a sitting on a page, where candidates put and lift barriers and hand in',
    'story': 'tells what the log of a hall has: whether it is whole, who handed in, or the story of one candidate',
    'manual': 'writes pages for man, from the texts of the help',
}
MODULES = {'register': 'view', 'take-in': 'take_in', 'program': 'c_program'}
ASKS_HELP = ('help', '--help', '-h')


def module_of(name: str) -> 'Any':
    """The module of a command: MORE, arguments and main."""
    return importlib.import_module(f'office.{MODULES.get(name, name)}')


def about(does: str, more: str) -> str:
    """How the help of a command begins."""
    return f'{does[0].upper()}{does[1:]}.\n\n{more}'


def command_parser(name: str) -> Parser:
    """What a command takes."""
    module = module_of(name)
    parser = Parser(prog=f'./desk {name}', description=about(COMMANDS[name], module.MORE), epilog=STATUS,
                    formatter_class=Layout)
    module.arguments(parser)
    return parser


def whole_parser() -> Parser:
    """All commands with a line each, for the help."""
    made = Parser(prog='./desk', description=ABOUT, epilog=STATUS)
    made.add_argument('--version', action='store_true', help=VERSION_HELP)
    commands = made.add_subparsers(title='commands', metavar='COMMAND')
    for name, does in COMMANDS.items():
        commands.add_parser(name, help=does)
    return made


def main(arguments: list[str]) -> None:
    name, *rest = arguments or ['help']
    if name == '--version':
        from office.version import told  # which knows the library
        write_out(f'desk {told()}\n'.encode())
    elif name in ASKS_HELP and (not rest or rest[0] in ASKS_HELP):
        whole_parser().print_help()
    elif name in ASKS_HELP and rest[0] in COMMANDS:
        command_parser(rest[0]).print_help()
    elif name in COMMANDS:
        run(name, command_parser(name).asked(rest))
    else:
        raise unknown(rest[0] if name in ASKS_HELP else name)


def unknown(name: str) -> Fault:
    """That there is no such command, and which may be meant."""
    what = 'option' if name.startswith('-') else 'command'
    meant = nearest(name, [*COMMANDS, '--version', '--help'])
    return Fault(f'there is no {what} {printable(name)}{f": did you mean {meant}?" if meant else ""}; '
                 './desk --help says how to ask')


def run(name: str, asked: argparse.Namespace) -> None:
    """Does what is asked. A program that asks for JSON has a refusal in it too."""
    try:
        module_of(name).main(asked)
    except Fault as fault:
        if getattr(asked, 'json', False) and fault.status == REFUSED and str(fault):
            words = str(fault).splitlines()
            write_json({'refused': {'number': fault.number, 'line': fault.line, 'words': words}})
        raise
