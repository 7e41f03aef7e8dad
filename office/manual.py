"""./desk manual: pages for man, made from the texts that --help shows."""
import argparse
import os

from office.command import Fault, Parser, done, printable, write_out, write_over
from office.day import ABOUT, COMMANDS, STATUS, VERSION_HELP, command_parser, module_of, unknown
from office.version import version
from office.words import counted

MORE = """Without --into the page is written to standard output: of ./desk, or of one command.

  ./desk manual check | man -l -
  ./desk manual --into man1
"""
BEGINS = b'.\\" desk: '


def arguments(parser: argparse.ArgumentParser) -> None:
    parser.add_argument('command', metavar='COMMAND', nargs='?', help='the command; ./desk itself if none is named')
    parser.add_argument('--into', metavar='DIR', help='writes all pages into a folder: desk.1, desk-check.1 and so on')


def typed(text: str) -> str:
    """A text as roff takes it."""
    lines = text.replace('\\', '\\e').replace('-', '\\-').splitlines()
    return '\n'.join(f'\\&{line}' if line[:1] in ('.', "'") else line for line in lines)


def as_typed(text: str) -> list[str]:
    """Lines that stay as they are."""
    return ['.nf', typed(text.strip('\n')), '.fi']


def option(action: argparse.Action) -> list[str]:
    """What an argument or an option is for."""
    value = '' if action.nargs == 0 else str(action.metavar or action.dest.upper())
    named = [f'\\fB{typed(name)}\\fR{f" {typed(value)}" if value else ""}' for name in action.option_strings]
    return ['.TP', ', '.join(named) or f'\\fI{typed(value)}\\fR', typed((action.help or '').replace('%%', '%'))]


def page_of(name: str, about: str, parser: Parser, body: list[str], see: list[str]) -> bytes:
    """A page of the first section."""
    usage = ' '.join(parser.format_usage().split()).removeprefix('usage: ')
    arguments = [line for action in parser._actions for line in option(action) if action.help != argparse.SUPPRESS]
    lines = [f'{BEGINS.decode()}{name}', f'.TH {name.upper()} 1 "" "desk {version()}"', '.SH NAME',
             f'{typed(name)} \\- {typed(about)}', '.SH SYNOPSIS', typed(usage), '.SH DESCRIPTION', *body,
             '.SH OPTIONS', *arguments, '.SH EXIT STATUS', typed(STATUS.removeprefix('Status: ')), '.SH SEE ALSO',
             typed(', '.join(f'{one}(1)' for one in see)), '']
    return '\n'.join(lines).encode()


def command_page(name: str) -> bytes:
    """The page of a command."""
    return page_of(f'desk-{name}', COMMANDS[name], command_parser(name), as_typed(module_of(name).MORE), ['desk'])


def whole_page() -> bytes:
    """The page of ./desk, with a line for each command."""
    parser = Parser(prog='./desk')
    parser.add_argument('--version', action='store_true', help=VERSION_HELP)
    parser.add_argument('command', metavar='COMMAND', help='one of the commands above, with its arguments')
    listed = [line for name, does in COMMANDS.items() for line in ('.TP', f'\\fB{typed(name)}\\fR', typed(does))]
    return page_of('desk', "the office's day over the proved library", parser,
                   [typed(ABOUT), '.SH COMMANDS', *listed], [f'desk-{name}' for name in COMMANDS])


def pages() -> dict[str, bytes]:
    """All pages, by their names."""
    return {'desk': whole_page(), **{f'desk-{name}': command_page(name) for name in COMMANDS}}


def main(asked: argparse.Namespace) -> None:
    if asked.command is not None and asked.command not in COMMANDS:
        raise unknown(asked.command)
    if asked.into is None:
        write_out(whole_page() if asked.command is None else command_page(asked.command))
        return
    if asked.command is not None:
        raise Fault('--into writes all pages: no command has a place beside it')
    try:
        os.makedirs(asked.into, exist_ok=True)
    except OSError as fault:
        raise Fault(f'cannot write in {printable(asked.into)}: {fault.strerror}') from fault
    made = pages()
    for number, (name, page) in enumerate(made.items(), 1):
        write_over(os.path.join(asked.into, f'{name}.1'), page, begins=BEGINS)
        done(f'{number} of {counted(len(made), "page")} written')
