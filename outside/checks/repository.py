"""What the repository has: its crates, the names that they define, and which specs rest on which."""
import functools
import pathlib
import re

from outside.trying import ROOT

CRATES = ROOT / 'crates'
# What of a crate is its own: beside it lies what rt made of it.
PARTS = ('src', 'specs', 'proofs')

# The crates whose public functions are calls, and the statement that joins them.
CALLS = ['desk', 'call_moves', 'call_list', 'call_textbook', 'call_shape', 'call_gaps', 'call_standing', 'call_slips',
         'call_compare', 'call_argument', 'call_argue', 'call_missing', 'call_skipped', 'call_runs', 'call_improve',
         'call_join', 'call_sheet', 'host', 'key_answer']
STATEMENTS = ['desk/specs/Since']
# Specs that no reader needs: `key_first` and `first_only` say which placement the key is, whatever the planner does.
UNREAD = 'plan_method/specs/'


@functools.cache
def edges() -> dict[str, list[str]]:
    """The crates in the order of crates.txt, each with those that it lists."""
    rows = re.findall(r'^(\w+)[^:#\n]*:(.*)$', (ROOT / 'crates.txt').read_text(), re.M)
    return {name: words.split() for name, words in rows}


def crates() -> list[str]:
    """The crates in the order of crates.txt."""
    return [*edges()]


def edits_of(crate: str) -> list[str]:
    """The labels of the edits of a crate that must be refused."""
    return sorted(path.stem for path in (CRATES / crate / 'must-fail').glob('*.edit'))


MODIFIERS = r'^[ \t]*(?:(?:abbrev|unfoldable)[ \t]+)*(pub[ \t]+)?'
ANTT = [MODIFIERS + r'([^\s:(){};,]+)[ \t]*(?:\n[ \t]+)?:\s', MODIFIERS + r'(?:record|data)[ \t]+([^\s:(){};,]+)']
CODE = [r'^[ \t]*(pub[ \t]+)?(?:extern "C" )?(?:fn|struct|enum|const)[ \t]+(\w+)', r'^[ \t]*(pub[ \t]+)?(\w+):',
        r'^[ \t]*()([A-Z]\w*)(?:\(\w+\))?,$', r'^[ \t]*()let (?:mut )?(\w+)']


@functools.cache
def defined(path: pathlib.Path) -> dict[str, bool]:
    """The names that a source file defines, and whether each is public there."""
    names: dict[str, bool] = {}
    for pattern in ANTT if path.suffix == '.antt' else CODE:
        for public, name in re.findall(pattern, path.read_text(), re.M):
            names[name] = names.get(name, False) or bool(public)
    return names


@functools.cache
def sources() -> list[pathlib.Path]:
    """The code, specs and proofs of all crates."""
    return [path for crate in crates() for part in PARTS for kind in ('antt', 'rt')
            for path in (CRATES / crate / part).glob(f'**/*.{kind}')]


@functools.cache
def known() -> set[str]:
    """Every name that a crate defines, the crates and the edits that must be refused."""
    edits = {path.stem for path in CRATES.glob('*/*/*.edit')}
    return set().union(crates(), edits, *(defined(path) for path in sources()))


@functools.cache
def cited() -> list[tuple[str, str, str, str]]:
    """What comments cite: the file, and a heading of 01, a job of 02 or a demand."""
    found = []
    outside = [path for kind in ('rs', 'txt') for path in (ROOT / 'outside').glob(f'**/*.{kind}')]
    for path in sources() + outside:
        where, text = str(path.relative_to(ROOT)), re.sub(r'\s*\n\s*(?:--|//[/!]?|#)\s*', ' ', path.read_text())
        headings = re.findall(r'\b01, ("[^"]+"(?:[^".;:()]{0,12} and "[^"]+")*)', text)
        jobs = re.findall(r'\b02, jobs? (\d+(?:(?:, | and | to )\d+)*)', text)
        found += [(where, heading, '', '') for heading in re.findall('"([^"]+)"', ' '.join(headings))]
        found += [(where, '', job, '') for job in re.findall(r'\d+', ' '.join(jobs))]
        found += [(where, '', '', demand) for demand in re.findall(r'\b[Dd]emand (\d)\b', text)]
    return found


@functools.cache
def specs_used(path: pathlib.Path) -> list[str]:
    """The specs files, as CRATE/specs/FILE, that a source file uses."""
    found = re.findall(r'^(?:ghost )?use Rattle\.(\w+)\.specs\.(\w+)', path.read_text(), re.M)
    return [f'{crate}/specs/{file}' for crate, file in found if file != 'declared' and crate in crates()]


@functools.cache
def contracts(crate: str) -> list[tuple[str, str]]:
    """The public functions of a crate that have a contract, each with it."""
    text = (CRATES / crate / 'src/lib.rt').read_text()
    return re.findall(r'^ *pub (?:extern "C" )?fn (\w+)[^{]*?\)[^{]*?\n((?: *(?:requires|ensures) .*\n)+)', text, re.M)


def calls() -> list[str]:
    """The public calls: what each promises is a definition called after it, as LoadSays."""
    return [name for crate in CALLS for name, contract in contracts(crate) if re.search(r'[a-z]Says\b', contract)]


def contracts_cite(crate: str) -> set[str]:
    """The specs files that the contracts of a crate's public functions cite."""
    text = (CRATES / crate / 'src/lib.rt').read_text()
    words = set(re.findall(r"[\w'-]+", ' '.join(contract for _, contract in contracts(crate))))
    uses = re.findall(r'^ghost use Rattle\.(\w+)\.specs\.(\w+)\.\{(.*)\}', text, re.M)
    return {f'{owner}/specs/{file}' for owner, file, names in uses
            if owner in crates() and words & set(names.split(', '))}


def must_be_read() -> set[str]:
    """The specs files on which the calls' contracts and the statements over calls rest."""
    rest = set(STATEMENTS).union(*(contracts_cite(crate) for crate in CALLS))
    read: set[str] = set()
    while rest:
        file = rest.pop()
        if file not in read and not file.startswith(UNREAD):
            read.add(file)
            rest.update(specs_used(CRATES / f'{file}.antt'))
    return read
