"""Manual pages and the completion of words for bash, from what the commands say of themselves."""
import argparse

from office import day
from office.command import as_installed
from office.manual import as_typed, pages
from office.version import version
from releasing.archives import File, Tree

PAGES, COMPLETIONS = 'share/man/man1', 'share/bash-completion/completions'
KEY_HELP = 'writes the key of a paper and the counts of its loops'
COMPLETION = '''# Words for bash to complete, behind desk.
_desk() {{
    local word=${{COMP_WORDS[COMP_CWORD]}} words=
    if [ "$COMP_CWORD" -eq 1 ]; then
        words='{commands}'
    else
        case ${{COMP_WORDS[1]}} in
{options}
        esac
    fi
    case $word in
        -*) mapfile -t COMPREPLY < <(compgen -W "$words" -- "$word") ;;
        *) mapfile -t COMPREPLY < <([ "$COMP_CWORD" -gt 1 ] || compgen -W "$words" -- "$word"
               [ "$COMP_CWORD" -eq 1 ] || compgen -f -- "$word") ;;
    esac
}}
complete -o filenames -F _desk desk
'''


def manuals(key_help: str) -> Tree:
    """A page for desk, one for each of its commands, and one for key, with the calls as they are when installed."""
    key = ['.TH KEY 1 "" "desk ' + version() + '"', '.SH NAME', f'key \\- {KEY_HELP}', '.SH DESCRIPTION',
           *as_typed(key_help), '']
    texts = {**pages(), 'key': '\n'.join(key).encode()}
    return {f'{PAGES}/{name}.1': File(as_installed(page.decode()).encode()) for name, page in texts.items()}


def completion() -> Tree:
    options = '\n'.join(f"            {name}) words='{' '.join(words(day.command_parser(name)))}' ;;"
                        for name in day.COMMANDS)
    text = COMPLETION.format(commands=' '.join([*day.COMMANDS, '--help', '--version']), options=options)
    return {f'{COMPLETIONS}/desk': File(text.encode()),
            f'{COMPLETIONS}/key': File(b"complete -W '--help --version' -o default key\n")}


def words(parser: argparse.ArgumentParser) -> list[str]:
    """The options of a command."""
    return sorted(option for action in parser._actions for option in action.option_strings if option.startswith('--'))
