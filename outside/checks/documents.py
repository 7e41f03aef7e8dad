"""Holds README.md, CHANGELOG.md, docs/ and the READMEs of outside/ against the repository.

  python3 -m outside.checks.documents              all checks; the last line is 'N passed, M failed'
  python3 -m outside.checks.documents --lengths    writes the lengths under "The definitions behind the contracts" anew

What is checked:
  - comments that cite 01, 02 or a demand find their heading in docs/RULES.md;
  - links lead to files and headings; a link whose text is a name leads to the file that defines it;
  - names, paths, commands and crates in code type are there, but for the notes on requests, which tell of their day;
  - the theorems stand in the files that are named beside them; every crate, call and request is in its table;
  - the files behind the contracts are all there, in order, with their lengths; every other specs file is told too;
  - a page takes of the project the structs and the names that contracts cite, and nothing else;
  - papers are shown one frame a line and the program reads them; examples print what is shown;
  - the picture of the families is the one that crates.txt makes;
  - the kit that is here is one that README names; the folders of outside/ say what is there;
  - a fault put into a copy of the documents is noticed.

Needs target/bin/key, which ./key builds.
"""
import pathlib
import re
import subprocess
import sys
from typing import Iterator, NamedTuple

from outside.checks import families
from outside.checks.repository import (CALLS, CRATES, UNREAD, calls, cited, contracts, crates, defined, edits_of, known,
                                       must_be_read, specs_used)
from outside.parts import parts
from outside.trying import ROOT

Documents = dict[str, str]

# Words in code type that the repository does not define: the kit's, and those that stand for what a reader fills in.
KIT = set('''abbrev cc count_ones declared ensures gcc length-set let main omega pub python3 requires rt rustc rw
    subst u16 usize valgrind where'''.split())
# The headings of PROOFS on what to believe: the pages, and the definitions for those who want more.
BELIEVED, BEHIND = 'What a reader must believe', 'The definitions behind the contracts'
STAND_IN = set('CRATE EDIT FUNCTION GAPS LABEL NAME PART SECONDS'.split())
RT = set('all check ci doc expand fmt help lemma lib must-fail plant run test tidy try verdict version'.split())


class Check(NamedTuple):
    where: str
    what: str
    holds: bool


# ---- The documents

def documents() -> Documents:
    paths = [ROOT / 'README.md', ROOT / 'CHANGELOG.md', *sorted((ROOT / 'docs').glob('**/*.md')),
             *sorted((ROOT / 'outside').glob('*/README.md'))]
    return {str(path.relative_to(ROOT)): path.read_text() for path in paths}


def today(docs: Documents) -> Iterator[tuple[str, str]]:
    """All but the notes on requests, whose names and commands are those of their day, and the pages that tell old names
    beside new ones."""
    return ((where, text) for where, text in docs.items()
            if not re.match(r'docs/(changes/\d|(PORT|DESIGN-PASS|LOOK-BACK)\.md)', where))


def blocks(text: str) -> list[tuple[str, str]]:
    """The fenced blocks, each with the words behind its fence."""
    return re.findall(r'^```(.*)\n((?:.*\n)*?)```$', text, re.M)


def prose(text: str) -> Iterator[tuple[int, str]]:
    """The lines outside fenced and indented blocks, numbered."""
    fenced = False
    for number, line in enumerate(text.splitlines(), 1):
        if line.startswith('```'):
            fenced = not fenced
        elif not fenced and not line.startswith('    '):
            yield number, line


def headings(text: str) -> list[str]:
    return [line.lstrip('#').strip() for _, line in prose(text) if line.startswith('#')]


def anchor(heading: str) -> str:
    return re.sub(r'[^\w\- ]', '', heading.lower()).replace(' ', '-')


def rows(text: str, heading: str) -> list[list[str]]:
    """The rows of the first table under a heading, each with as many cells as the table has columns."""
    under = text.partition(f'\n## {heading}\n')[2] if heading else text
    table = re.search(r'^\|.*\n\|([-|]+)\|\n((?:\|.*\n)*)', under, re.M)
    if not table:
        sys.exit(f'there is no table under "{heading}"')
    columns, body = table.groups()
    cells = [[cell.strip() for cell in row[1:].split('|')] for row in body.splitlines()]
    return [(row + [''] * len(columns))[:len(columns.split('|'))] for row in cells]


def linked(cell: str) -> list[pathlib.Path]:
    """The files that a line of a document under docs/ links to, as far as they are there."""
    paths = [(ROOT / 'docs' / target).resolve() for target in re.findall(r'\]\(([^)#]+)', cell)]
    return [path for path in paths if path.is_file()]


# ---- The checks

def citations(docs: Documents) -> Iterator[Check]:
    """Every 01, "HEADING", 02, job N and demand N in a comment has its place in RULES.md."""
    rules = docs['docs/RULES.md']
    titles = headings(rules) + re.findall('"([^"]+)"', str(rows(rules, '')))
    demands = rules.partition('\n## The demands\n')[2].partition('\n## ')[0]
    for where, title, job, demand in cited():
        if title:
            yield Check(where, f'cites 01, "{title}", which docs/RULES.md has', title in titles)
        elif job:
            held = any(re.match(rf'Job {job}\b', title) for title in titles)
            yield Check(where, f'cites 02, job {job}, which docs/RULES.md has', held)
        else:
            yield Check(where, f'cites demand {demand}, which docs/RULES.md has', f'\n{demand}. ' in demands)


def links(docs: Documents) -> Iterator[Check]:
    """Every relative link leads somewhere, and one whose text is a name leads to where that is defined."""
    for where, text in docs.items():
        for number, line in prose(text):
            for label, target in re.findall(r'\[([^\]]*)\]\(([^)]+)\)', line):
                if re.match(r'\w+:', target):
                    continue
                file, _, part = target.partition('#')
                path = (ROOT / where).parent / file if file else ROOT / where
                held = path.exists() and ROOT in path.resolve().parents
                if held and part:
                    page = docs.get(str(path.resolve().relative_to(ROOT)), '')
                    held = part in map(anchor, headings(page))
                if held and re.fullmatch('`[^`]+`', label) and path.suffix in ('.antt', '.rt'):
                    held = label.strip('`').split('::')[-1] in defined(path.resolve())
                yield Check(f'{where}:{number}', f'{label} leads to {target}', held)


def is_path(word: str) -> bool:
    """The path is there, from the root, from docs/, crates/ or a crate; of target/ only programs are looked at."""
    made = re.match(r'target/(?:bin/)?([\w.]+)', word)
    if made:
        return not word.startswith('target/bin/') or made[1] in crates()
    places = ['', 'docs/', 'crates/', 'crates/*/']
    return any(True for place in places for end in ('', '.antt') for _ in ROOT.glob(place + word.rstrip('/') + end))


def is_part(words: list[str]) -> bool:
    """The words behind ./test: seconds, parts, or edits of a crate."""
    if words[0] == 'edit':
        return STAND_IN.issuperset(words[1:]) or words[1] in crates() and {*words[2:]} <= {*edits_of(words[1])}
    return all(word.isdecimal() or word in ('--help', 'quick') or word in parts() or word in STAND_IN
               for word in words)


def is_command(words: list[str]) -> bool:
    """The command is there, and so are the paths and crates among its words."""
    first, rest = words[0], [word for word in words[1:] if re.match(r'[\w./-]+$', word)]
    if first == './test' and rest:
        return is_part(rest)
    if first == 'python3' and rest[0] == '-m':
        return is_path(rest[1].replace('.', '/') + '.py')
    if first == 'rt':
        # What rt does with all crates is another of its commands.
        named = rest[2:] if rest[0] == 'all' and rest[1:2] and rest[1] in RT else rest[1:]
        return rest[0] in RT and all(word in crates() or word in STAND_IN for word in named if word[0] != '-')
    named = [word for word in ([first] if '/' in first else []) + rest if '/' in word]
    return all(is_path(word.removeprefix('./')) for word in named)


def is_name(word: str) -> bool:
    return word in known() or word in KIT or word in STAND_IN or is_path(word)


def is_there(span: str) -> bool | None:
    """Whether what stands in code type is there: a command, a path, a name or a call; None for any other text."""
    words = span.split()
    if words[0].startswith('./') or (words[0] in ('rt', 'python3') and len(words) > 1):
        return is_command(words)
    if re.fullmatch(r'[\w.*-]+(?:/[\w.*-]*)+', span):
        return is_path(span) or bool(STAND_IN & set(re.split(r'[/.]', span)))
    name = re.fullmatch(r"(?:(\w+)::)?([A-Za-z_][\w'-]*)(?:\(.*\))?", span)
    return all(map(is_name, filter(None, name.groups()))) if name else None


def names(docs: Documents) -> Iterator[Check]:
    """Everything in code type is there, every path wherever it stands, and every command of an example."""
    place = '|'.join(['docs', 'outside', 'examples', *(f'{crate}/(?:specs|proofs|src)' for crate in crates())])
    for where, text in today(docs):
        for number, line in prose(text):
            for span in re.findall(r'`([^`\s][^`]*)`', line):
                held = is_there(span)
                if held is not None:
                    yield Check(f'{where}:{number}', f'`{span}` is there', held)
            for path in re.findall(rf'(?<![\w/`.])((?:{place})(?:/[\w.-]*\w)?)', line):
                yield Check(f'{where}:{number}', f'{path} is there', is_path(path))
            for crate in re.findall(r'\b[Cc]rates? `(\w+)`', line):
                yield Check(f'{where}:{number}', f'{crate} is a crate', crate in crates())
        for line in re.findall(r'^(?:    |\$ )\(?((?:\./|rt |python3 |outside/|target/).*)', text, re.M):
            yield Check(where, f'{line} is there', is_command(line.split()))


def tables(docs: Documents) -> Iterator[Check]:
    """Theorems and lemmas stand where it says; rules' names are links; all calls, requests and crates are there."""
    for theorem, where, _ in rows(docs['docs/PROOFS.md'], 'The theorems by name'):
        held, files = re.findall(r'`([^`]+)`', theorem), linked(where)
        public = {name for file in files for name, public in defined(file).items() if public}
        yield Check('docs/PROOFS.md', f'{theorem}: a file for every name', bool(held) and bool(files))
        for name in held:
            yield Check('docs/PROOFS.md', f'`{name}` stands in {where}', name in public)
        for file in files:
            yield Check('docs/PROOFS.md', f'{file.name} has one of {theorem}', bool(set(held) & set(defined(file))))
    chain = docs['docs/PROOFS.md'].partition("\n## The planner's theorem, bottom up\n")[2].partition('\n## ')[0]
    for step in re.findall(r'^\d+\. .*', chain, re.M):
        there = set().union(*map(defined, linked(step)))
        for name in re.findall(r'`([^`]+)`', step):
            yield Check('docs/PROOFS.md', f'`{name}` stands in the files of step {step[:2]}', name in there)
    for row in rows(docs['docs/ARCHITECTURE.md'], 'Where each rule lives'):
        linkless = re.sub(r'\[`[^`]+`\]\([^)]+\)', '', ' '.join(row))
        yield Check('docs/ARCHITECTURE.md', f'{row[0]}: every name is a link', '`' not in linkless)
    for call in calls():
        yield Check('README.md', f'the call {call} is in the table of calls', f'{call}(' in docs['README.md'])
    jobs = [title.split()[1].strip('.') for title in headings(docs['docs/RULES.md']) if title.startswith('Job ')]
    notes = [str(int(path.stem)) for path in sorted((ROOT / 'docs/changes').glob('[0-9]*.md'))]
    yield Check('docs/RULES.md', f'jobs {jobs} have sections, {notes} have notes', jobs == notes)
    layers = [re.sub(r'\[(\w+)\].*', r'\1', row[0]) for row in rows(docs['docs/ARCHITECTURE.md'], '')]
    yield Check('docs/ARCHITECTURE.md', 'the layers are the crates of crates.txt, in order', layers == crates())


def folders(_: Documents) -> Iterator[Check]:
    """Every folder of outside/ says what is there, and no file there has the name of a module of office/."""
    modules = {path.stem for path in (ROOT / 'office').glob('*.py')}
    for path in sorted((ROOT / 'outside').glob('*/*')):
        if path.suffix != '.pyc':
            yield Check(str(path.relative_to(ROOT)), 'no module of office/ is named so', path.stem not in modules)
    for folder in {path.parent for path in (ROOT / 'outside').glob('*/*.*')}:
        if folder.name != '__pycache__':
            lines = (folder / 'README.md').read_text().splitlines() if (folder / 'README.md').exists() else []
            yield Check(str(folder.relative_to(ROOT)), 'a README of three lines says what is there', len(lines) == 3)


def believed(docs: Documents) -> Iterator[Check]:
    """The files behind the contracts: all there, each after those it uses, with their lengths."""
    seen, total = [], 0
    for file, length, _ in rows(docs['docs/PROOFS.md'], BEHIND):
        yield Check('docs/PROOFS.md', f'{file} is a file', bool(linked(file)) or file == 'together')
        for path in linked(file):
            name = str(path.relative_to(CRATES).with_suffix(''))
            lines = len(path.read_text().splitlines())
            later = [used for used in specs_used(path) if used not in seen and not used.startswith(UNREAD)]
            yield Check('docs/PROOFS.md', f'{name} has {lines} lines (--lengths mends it)', length == str(lines))
            yield Check('docs/PROOFS.md', f'{name} comes after what it uses {later}', not later)
            seen.append(name)
            total += lines
        if file == 'together':
            yield Check('docs/PROOFS.md', f'together {total} lines (--lengths mends it)', length == str(total))
    for name in sorted(must_be_read()):
        yield Check('docs/PROOFS.md', f'{name} is among the files to believe', name in seen)


def accounted(docs: Documents) -> Iterator[Check]:
    """Every specs file is linked under the headings on what to believe, or its crate is named there."""
    page = docs['docs/PROOFS.md']
    told = ''.join(page.partition(f'\n## {heading}\n')[2].partition('\n## ')[0] for heading in (BELIEVED, BEHIND))
    there, whole = set(linked(told)), set(re.findall(r'`(\w+)`', told)) & set(crates())
    for path in sorted(CRATES.glob('*/specs/*.antt')):
        crate = path.relative_to(CRATES).parts[0]
        if path.stem != 'Lib':
            name = f'{crate}/specs/{path.stem}'
            yield Check('docs/PROOFS.md', f'{name} is told of under "{BELIEVED}" or "{BEHIND}"',
                        path in there or crate in whole)


def apart(_: Documents) -> Iterator[Check]:
    """A page uses the structs, other pages, and names that the contracts of calls cite, so that it can be read alone;
    the pages on arguments also what an argument is and what its text claims."""
    cites = {word for crate in CALLS for _, contract in contracts(crate) for word in re.findall(r"[\w'-]+", contract)}
    for path in sorted(CRATES.glob('pages*/specs/*.antt')):
        for crate, file, names in re.findall(r'^use Rattle\.(\w+)\.specs\.(\w+)(.*)$', path.read_text(), re.M):
            used = set(re.findall(r"[\w'-]+", names))
            argued = path.parts[-3] == 'pages_arguments' and crate in ('argue_claims', 'argue_texts')
            held = file == 'declared' or crate not in crates() or crate.startswith('pages') or argued or used <= cites
            yield Check(str(path.relative_to(ROOT)), f'{crate}/specs/{file}: {used} stand in contracts', held)


def papers(docs: Documents) -> Iterator[Check]:
    """Papers are one frame a line, and the program accepts them."""
    for where, text in today(docs):
        packed = re.findall(r'\b0[1-4](?:,? 0[1-4]){3}.*', text)
        yield Check(where, f'papers are one frame a line {packed}', not packed)
        for kind, block in blocks(text):
            if kind == 'paper':
                frames = all(re.fullmatch('(?:[0-9a-f]{2})+', line) for line in block.splitlines())
                answer = run([str(ROOT / 'target/bin/key')], block)
                yield Check(where, f'the program reads {block.split()}', frames and answer[:2] in ('21', '22'))


def timeless(printed: str) -> str:
    """What a command prints, with words for the time and for the head of a register, which follows from it."""
    return re.sub(r'\bhead [0-9a-f]{16}\b', 'head HEAD', re.sub(r'\b\d{4}-\d\d-\d\d \d\d:\d\d\b', 'TIME', printed))


def examples(docs: Documents) -> Iterator[Check]:
    """Commands behind '$ ' print what stands below them; a block with a file's name is that file's text. The register
    of the examples is made anew."""
    (ROOT / 'target' / 'register.db').unlink(missing_ok=True)
    for where, text in today(docs):
        for kind, block in blocks(text):
            if kind == 'console':
                for command, shown in re.findall(r'^\$ (.*)\n((?:(?!\$ ).*\n)*)', block, re.M):
                    printed = run(['bash', '-c', command])
                    held = timeless(printed) == timeless(shown)
                    yield Check(where, f'{command} prints {shown!r}, not {printed!r}', held)
            elif ' ' in kind:
                file = ROOT / kind.split()[1]
                yield Check(where, f'{kind} is as shown', file.exists() and block in file.read_text())


def kits(docs: Documents) -> Iterator[Check]:
    """The kit that is here is one of those that README names."""
    here = run(['rt', 'version']).strip()
    named = [line for kind, block in blocks(docs['README.md']) if kind == 'kits' for line in block.splitlines()]
    yield Check('README.md', f'the kit is {here!r}, one of {named}', here in named)


def drawn(_: Documents) -> Iterator[Check]:
    """The picture of the families is made from crates.txt as it is."""
    path = ROOT / 'docs/families.svg'
    held = path.exists() and path.read_text() == families.picture()
    yield Check('docs/families.svg', 'is what python3 -m outside.checks.families prints', held)


def run(command: list[str], text: str = '') -> str:
    """What a command writes to standard output, or why there is nothing."""
    try:
        ran = subprocess.run(command, input=text, capture_output=True, text=True, timeout=120, cwd=ROOT)
    except (OSError, subprocess.TimeoutExpired) as fault:
        return f'{command[0]}: {type(fault).__name__}'
    return ran.stdout


# ---- Faults that must be noticed

READING = [citations, links, names, tables, believed, accounted]
FAULTS = [
    ('docs/RULES.md', '\n## The program\n', '\n## The programme\n'),
    ('docs/RULES.md', '\n### Job 2. ', '\n### Request 2. '),
    ('docs/RULES.md', '\n### Job 5. ', '\n### Request 5. '),
    ('docs/RULES.md', '\n2. **', '\n4. **'),
    ('README.md', '#numbers-from-the-input', '#numbers'),
    ('README.md', '(docs/WHY.md)', '(docs/WHAT.md)'),
    ('README.md', '`./desk draw ', '`./desks draw '),
    ('README.md', '`put_gap(', '`put_gaps('),
    ('README.md', '`lift_gap(desk, gap)`', 'Take back'),
    ('docs/CONTRIBUTING.md', '`rt must-fail paper_lines`', '`rt must-fail paper_line`'),
    ('README.md', '`./test telling`', '`./test tellings`'),
    ('README.md', '`python3 -m outside.faults.faults`', '`python3 -m outside.faults.fault`'),
    ('docs/CONTRIBUTING.md', 'outside/checks/repository.py', 'outside/repositories.py'),
    ('docs/changes/05.md', '(../../crates/call_moves/specs/Runs.antt)', '(../../crates/call_moves/specs/Says.antt)'),
    ('README.md', '$ ./key examples/p.hex', '$ ./key example/p.hex'),
    ('docs/PROOFS.md', '| `reads_back` |', '| `read_back` |'),
    ('docs/PROOFS.md', '| `reads_back` | [paper_texts/proofs/ReadsBack](../crates/paper_texts/proofs/ReadsBack.antt)',
     '| `reads_back` | [paper_texts/proofs/Accepted](../crates/paper_texts/proofs/Accepted.antt)'),
    ('docs/PROOFS.md', 'plan_method/proofs/FirstSweep.antt', 'plan_method/proofs/FirstExchange.antt'),
    ('docs/PROOFS.md', '`nest_key`.', '`key_is_key`.'),
    ('docs/PROOFS.md', 'rate `plan_theorem` joins', 'rate `along` joins'),
    ('docs/PROOFS.md', 'desk/specs/Desks.antt) | ', 'desk/specs/Desks.antt) | 1'),
    ('docs/PROOFS.md', '| [plan_theorem/specs/OneKey](../crates/plan_theorem/specs/OneKey.antt)',
     '| [plan_theorem/specs/Lib](../crates/plan_theorem/specs/Lib.antt)'),
    ('docs/PROOFS.md', '(../crates/desk_moves/specs/Game.antt)', '(../crates/desk_moves/specs/Games.antt)'),
    ('docs/PROOFS.md', '(../crates/laws/specs/Entries.antt)', '(../crates/laws/specs/Bits.antt)'),
    ('docs/ARCHITECTURE.md', '(../crates/paper_nests/specs/Loops.antt)', '(../crates/paper_nests/specs/Gaps.antt)'),
    ('docs/ARCHITECTURE.md', '[`as_good`](../crates/paper_order/specs/LoopOrder.antt)', '`as_good`'),
    ('docs/ARCHITECTURE.md', '| [plan_nest](../crates/plan_nest) |', '| [plan_method](../crates/plan_nest) |'),
]


def noticed(docs: Documents) -> Iterator[Check]:
    """Each fault, put into a copy of the documents, makes a check fail that does not fail without it."""
    def failing(some: Documents) -> set[Check]:
        return {check for reading in READING for check in reading(some) if not check.holds}

    without = failing(docs)
    for where, old, new in FAULTS:
        faulty = docs | {where: docs[where].replace(old, new, 1)}
        held = bool(failing(faulty) - without)
        yield Check('outside/checks/documents.py', f'noticed in {where}: {new.strip()} for {old.strip()}', held)


def write_lengths() -> None:
    """Writes the lengths of the table of the files behind the contracts anew."""
    path = ROOT / 'docs/PROOFS.md'
    before, heading, after = path.read_text().partition(f'\n## {BEHIND}\n')
    total = 0

    def lines(row: re.Match) -> str:
        nonlocal total
        path = ROOT / 'docs' / row[2]
        length = len(path.read_text().splitlines()) if path.exists() else 0
        total += length
        return f'{row[1]}{length} |'
    after = re.sub(r'^(\| \[[^\]]+\]\(([^)]+)\) \| )\d+ \|', lines, after, flags=re.M)
    path.write_text(before + heading + re.sub(r'^\| together \| \d+ \|', f'| together | {total} |', after, flags=re.M))


def main() -> int:
    if sys.argv[1:] == ['--lengths']:
        write_lengths()
        return 0
    if sys.argv[1:]:
        print(__doc__, file=sys.stderr)
        return 2
    docs = documents()
    readings = [*READING, apart, folders, papers, examples, kits, drawn, noticed]
    checks = [check for reading in readings for check in reading(docs)]
    failed = [check for check in checks if not check.holds]
    for check in failed:
        print(f'{check.where}: does not hold: {check.what}')
    print(f'{len(checks) - len(failed)} passed, {len(failed)} failed')
    return 1 if failed else 0


if __name__ == '__main__':
    sys.exit(main())
