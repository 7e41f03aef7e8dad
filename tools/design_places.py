#!/usr/bin/env python3
"""Counts the places that docs/DESIGN-PASS.md speaks of, point by point.

    python3 tools/design_places.py [POINT ..] [--root FOLDER]

prints for each point the places in crates/*/src (point 8: in crates/*/proofs), a line each, and how many there are. Run on
a checkout of an earlier commit (--root) it counts there.
"""

from __future__ import annotations

import argparse
import collections
import pathlib
import re
from typing import Iterator


class Function:
    """A function of a source file: its name, its parameters, its clauses and its body."""

    def __init__(self, path: str, line: int, head: str, clauses: list[str], body: str) -> None:
        self.where = f"{path}:{line}"
        self.head = head
        self.clauses = clauses
        self.body = body
        found = re.search(r"\bfn (\w+)", head)
        self.name = found.group(1) if found else "?"
        inner = head[head.index("(") + 1 :]
        self.parameters = [
            part.strip() for part in re.split(r",(?![^\[(<]*[\])>])", inner.split(") ->")[0].rstrip(" )")) if ":" in part
        ]


def sources(root: pathlib.Path) -> Iterator[tuple[str, str]]:
    for path in sorted(root.glob("crates/*/src/*.rt")):
        yield str(path.relative_to(root)), path.read_text()


def functions(root: pathlib.Path) -> Iterator[Function]:
    for path, text in sources(root):
        for found in re.finditer(r"^([ ]*)(?:pub )?(?:extern \"C\" )?fn \w+.*?^\1\}$", text, re.S | re.M):
            whole = found.group(0)
            indent = found.group(1)
            cut = re.search(rf"^{indent}\{{$|\{{$", whole, re.M)
            if cut is None:
                continue
            front, body = whole[: cut.start()], whole[cut.end() :]
            clauses = re.findall(r"^\s+(?:requires|ensures)\s+(?:\w+ )?(\{.*?\})$", front, re.S | re.M)
            head = re.split(r"^\s+(?:requires|ensures)", front, flags=re.M)[0]
            yield Function(path, text[: found.start()].count("\n") + 1, " ".join(head.split()), clauses, body)


# Constants of one byte that are no kinds: of digits and limits.
OTHERS = ("FEED", "NUMBERS", "LETTERS", "BASE", "MOST", "INNER", "OUTER")


def point_1(root: pathlib.Path) -> Iterator[str]:
    """Enums and structs in the place of Option and Result; numbers in the place of refusals and kinds."""
    for path, text in sources(root):
        for number, line in enumerate(text.splitlines(), 1):
            if re.match(r"(pub )?enum \w+", line):
                yield f"{path}:{number}: {line.strip()}"
            elif re.match(r"    (pub )?(number|blocked|fine|loaded|planned|ended|verdict): ", line):
                yield f"{path}:{number}: field {line.strip()}"
            elif (constant := re.match(r"(?:pub )?const ([A-Z_]+): u8 = ", line)) and constant[1] not in OTHERS:
                yield f"{path}:{number}: {line.strip()}"
    for f in functions(root):
        if re.search(r"-> u8$", f.head) and "fault" in f.name:
            yield f"{f.where}: {f.name} gives a number for a refusal"
        if re.search(r"\bnumber: u8\b", f.head):
            yield f"{f.where}: {f.name} takes a number for a refusal"


def shape(f: Function) -> str:
    """A function's text without its names, its types and its constants."""
    text = re.sub(r"//[^\n]*", "", f.head.split("(", 1)[1] + f.body)
    text = re.sub(r"\b(u8|u16|u32|u64|usize)\b", "T", text)
    names: dict[str, str] = {}

    def named(found: re.Match[str]) -> str:
        word = found.group(0)
        if word in ("if", "else", "return", "while", "for", "in", "let", "mut", "match", "loop", "as", "T", "bool"):
            return word
        return names.setdefault(word, f"v{len(names)}")

    return " ".join(re.sub(r"\b[A-Za-z_]\w*\b|\b\d+\b", named, text).split())


def point_2(root: pathlib.Path) -> Iterator[str]:
    """Functions of one shape, which differ in names, types and constants alone."""
    groups: dict[str, list[Function]] = collections.defaultdict(list)
    for f in functions(root):
        if "/cases_" not in f.where and "/host/" not in f.where and len(shape(f).split()) > 11:
            groups[shape(f)].append(f)
    for group in groups.values():
        if len(group) > 1:
            yield ", ".join(f"{f.where} {f.name}" for f in group)
    structs: dict[tuple[str, ...], list[str]] = collections.defaultdict(list)
    for path, text in sources(root):
        for found in re.finditer(r"struct (\w+)[^{;]*\{\n(.*?)^\}", text, re.S | re.M):
            fields = re.findall(r"^    (?:pub )?(\w+):", found.group(2), re.M)
            structs[tuple(fields[:2] if fields[:2] == ["number", "line"] else fields)].append(f"{path} {found.group(1)}")
    for fields, owners in structs.items():
        if len(owners) > 1:
            yield f"structs that begin with {', '.join(fields)}: {', '.join(owners)}"


def point_3(root: pathlib.Path) -> Iterator[str]:
    """Loops whose test reads a counter that the body moves by one."""
    for path, text in sources(root):
        for found in re.finditer(r"^([ ]*)while ([^\n]*) \{\n(.*?)^\1\}", text, re.S | re.M):
            test, body = found.group(2), found.group(3)
            counters = set(re.findall(r"\b(\w+) [+-]= 1;", body)) | {
                name for name, other in re.findall(r"\b(\w+) = (\w+);", body)
                if re.search(rf"let {other} = {name} [+-] 1;", body)
            }
            if any(re.search(rf"\b{name}\b", test) for name in counters):
                yield f"{path}:{text[: found.start()].count(chr(10)) + 1}: while {test}"


def point_4(root: pathlib.Path) -> Iterator[str]:
    """Copies, comparisons and conversions by hand: fields named twice, values copied before they are used, own min and
    max, 1 or 0 of a test."""
    for path, text in sources(root):
        for number, line in enumerate(text.splitlines(), 1):
            if re.match(r"\s+(\w+): \1,$", line) or re.search(r"\{ (\w+): \1,? ", line):
                yield f"{path}:{number}: {line.strip()}"
    for f in functions(root):
        body = " ".join(f.body.split())
        if re.fullmatch(r"(if (\w+) <=? (\w+) \{ (return )?(\2|\3);? \}( else \{)? ?(\2|\3) ?\}? ?)\}?", body):
            yield f"{f.where}: {f.name} is std's min or max"
        if re.fullmatch(r"if [^{]* \{ 1 \} else \{ 0 \} ?\}?", body):
            yield f"{f.where}: {f.name} is a bool as a number"


def point_5(root: pathlib.Path) -> Iterator[str]:
    """Clauses that three or more functions have, and four or more parameters that travel together."""
    clauses: dict[str, set[str]] = collections.defaultdict(set)
    lists: dict[tuple[str, ...], set[str]] = collections.defaultdict(set)
    for f in functions(root):
        for clause in f.clauses:
            clauses[" ".join(clause.split())].add(f.where)
        names = [p.replace("mut ", "") for p in f.parameters]
        for at in range(len(names) - 3):
            lists[tuple(names[at : at + 4])].add(f.where)
    for clause, places in sorted(clauses.items(), key=lambda item: -len(item[1])):
        if len(places) > 2 and "result" not in clause:
            yield f"{len(places)} functions: {clause}"
    for names, places in sorted(lists.items(), key=lambda item: -len(item[1])):
        if len(places) > 2:
            yield f"{len(places)} functions: ({', '.join(names)})"


def point_6(root: pathlib.Path) -> Iterator[str]:
    """Buffers with a length beside them, lists that run beside each other."""
    for f in functions(root):
        names = [p.split(":")[0].replace("mut ", "") for p in f.parameters]
        for first, second in zip(f.parameters, f.parameters[1:]):
            if re.search(r": &(mut )?\[", first) and re.match(r"(count|many|flags|known|len)\b", second):
                yield f"{f.where}: {f.name} takes {first}, {second}"
        if {"loops", "froms", "uptos"} <= set(names):
            yield f"{f.where}: {f.name} takes loops, froms, uptos beside each other"
        elif {"cs", "fs", "link"} <= set(names):
            yield f"{f.where}: {f.name} takes cs, fs, link beside each other"
    for path, text in sources(root):
        for number, line in enumerate(text.splitlines(), 1):
            if re.search(r"let points = &?(\w+\.)?nest\.points(\[\.\.|;)|&points\[\.\.(count|n)\]", line):
                yield f"{path}:{number}: {line.strip()}"


def point_7(root: pathlib.Path) -> Iterator[str]:
    """Functions that are told by a flag or a number which step to take."""
    for f in functions(root):
        for p in f.parameters:
            if re.fullmatch(r"(put|low|exact|first|put|yes|chosen|ended|inner|state): (bool|u8)", p):
                yield f"{f.where}: {f.name} is told by {p}"


def point_8(root: pathlib.Path) -> Iterator[str]:
    """Answers, by crate."""
    for crate in sorted(root.glob("crates/*")):
        answers = lines = 0
        for path in crate.glob("proofs/**/Answers.antt"):
            if path.parent.name == "proofs":
                continue
            text = path.read_text()
            answers += len(re.findall(r"^pub ", text, re.M))
            lines += text.count("\n")
        if answers:
            yield f"{crate.name}: {answers} answers, {lines} lines"


POINTS = {
    "1": point_1,
    "2": point_2,
    "3": point_3,
    "4": point_4,
    "5": point_5,
    "6": point_6,
    "7": point_7,
    "8": point_8,
}


def main() -> None:
    parser = argparse.ArgumentParser(description=__doc__, formatter_class=argparse.RawDescriptionHelpFormatter)
    parser.add_argument("point", nargs="*", choices=[[], *POINTS], help="which points; all, where none is named")
    parser.add_argument("--root", type=pathlib.Path, default=pathlib.Path(__file__).resolve().parent.parent)
    given = parser.parse_args()
    for point in given.point or POINTS:
        places = list(POINTS[point](given.root))
        for place in places:
            print(f"{point}  {place}")
        print(f"point {point}: {len(places)}")


if __name__ == "__main__":
    main()
