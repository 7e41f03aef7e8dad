#!/usr/bin/env python3
"""Spells the repository's own definitions and lemmas as today's Rattle does: words in snake case.

usage: python3 tools/spell_names.py     at the top, right after port.py; a second run would write nothing more

`names.tsv` beside this file has a row for each name: old, new, and `apart` where the name first has to make room for another.
Files of specs/, proofs/ and src/, the edits, and the code spans of pages are turned; whole words alone.
"""

import os
import re

HERE = os.path.dirname(os.path.abspath(__file__))
WORD = re.compile(r"""(?<![\w'₀-₉′«-])[a-z][^\s(){}.;,@"«»:λ→`\[\]|/]*""")
SPAN = re.compile(r"`[^`\n]*`")
IMPORT = re.compile(r"^use (Rattle\.(?!std\b|core\b|io\b|libc\b|os\b|check\b)[^\s{]+)\.\{([^}]*)\}", re.M)
DECLARED = re.compile(r"^\s*(?:abbrev |unfoldable |pub )*([^\s(){}:;,=|]+)\s*\n?\s*:(?=\s)|[({]((?:[^\s(){}:;,=.]+ )+): |λ \(?((?:[^\s(){}:;,=.λ]+ ?)+)|\blet ([^\s(){}:;,=.λ]+) [:=]", re.M)


def tables() -> tuple[dict[str, str], dict[str, str]]:
    apart: dict[str, str] = {}
    names: dict[str, str] = {}
    with open(os.path.join(HERE, "names.tsv"), encoding="utf-8") as file:
        for line in file:
            if line.startswith("#"):
                continue
            row = line.rstrip("\n").split("\t")
            (apart if len(row) == 3 else names)[row[0]] = row[1]
    return apart, names


def turned(text: str, names: dict[str, str], path: str = "") -> str:
    def one(match: re.Match[str]) -> str:
        word = match[0]
        if word not in names:
            return word
        before = text[max(0, match.start() - 60) : match.start()]
        after = text[match.end() : match.end() + 1]
        # a path's step is a module, a folder or a function of the code
        if re.search(r"Rattle\.[\w.+'-]*\.$", before) and after == ".":
            return word
        return names[word]

    return WORD.sub(one, text)


def spans(text: str, names: dict[str, str]) -> str:
    return SPAN.sub(lambda m: turned(m[0], names), text)


def known(text: str) -> set[str]:
    code = re.sub(r"--[^\n]*", "", text)
    words: set[str] = set()
    for match in DECLARED.finditer(code):
        for group in match.groups():
            words |= set((group or "").split())
    for match in IMPORT.finditer(code):
        words |= {it.strip().split(" as ")[-1].strip() for it in match[2].split(",")}
    return words


def code_of_antt(text: str, names: dict[str, str]) -> str:
    lines = []
    for line in text.split("\n"):
        cut = re.search(r"(^|\s)--(\s|$)", line)
        at = cut.start() if cut else len(line)
        lines.append(turned(line[:at], names) + spans(line[at:], names))
    return "\n".join(lines)


def code_of_rt(text: str, names: dict[str, str]) -> str:
    lines = []
    for line in text.split("\n"):
        at = line.find("//")
        at = len(line) if at < 0 else at
        lines.append(turned(line[:at], names) + spans(line[at:], names))
    return "\n".join(lines)


def edit(text: str, names: dict[str, str]) -> str:
    return "\n".join(line if line.startswith("file:") else turned(line, names) for line in text.split("\n"))


def main() -> None:
    apart, names = tables()
    fields = set()
    for folder, _, files in os.walk("crates"):
        for name in files:
            if name.endswith(".antt"):
                with open(os.path.join(folder, name), encoding="utf-8") as file:
                    text = re.sub(r"--[^\n]*", "", file.read())
                for block in re.findall(r"\brecord \w.*?where\n((?:  .*\n|\n)*)", text):
                    fields |= set(re.findall(r"^  (?:pub )?(\S+)\s*\n?\s*:", block, re.M))
    for folder, folders, files in os.walk("."):
        folders[:] = [it for it in folders if it not in ("out", ".git", "tools")]
        for name in files:
            path = os.path.join(folder, name)
            inside = path.startswith("./crates/")
            if not (inside and name.endswith((".antt", ".rt", ".edit")) or name.endswith(".md")):
                continue
            with open(path, encoding="utf-8") as file:
                text = file.read()
            if name.endswith(".antt"):
                here = known(text)
                moved = {old: new for old, new in apart.items() if old in here or old in fields and name != "Proof.antt"}
                new = code_of_antt(code_of_antt(text, moved), names)
            elif name.endswith(".rt"):
                new = code_of_rt(text, {old: it for old, it in names.items() if "-" not in old or old in fields})
            elif name.endswith(".edit"):
                new = edit(text, names)
            else:
                new = spans(text, names)
            if new != text:
                with open(path, "w", encoding="utf-8") as file:
                    file.write(new)


if __name__ == "__main__":
    main()
