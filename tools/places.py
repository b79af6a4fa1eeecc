#!/usr/bin/env python3
"""List the places that may read like older Rattle, point by point, as docs/DESIGN-PASS.md counts them.

    python3 tools/places.py [-n] [ROOT]

With -n only the counts. A place that is listed need not be one to change: the
page says of each that stays why it does.
"""

from __future__ import annotations

import collections
import difflib
import re
import sys
from collections.abc import Callable, Iterator
from pathlib import Path
from typing import NamedTuple

LIKE = 0.85
TOKEN = re.compile(r"[A-Za-z_]\w*|\d[\w.]*|[^\s\w]")
KEPT = set(
    "fn let mut match if else for in return self Self impl pub Ok Err Some None true false"
    " usize u8 u16 u32 u64 i16 bool Result Option".split()
)


class File(NamedTuple):
    """A source file without its comments, line by line."""

    path: str
    lines: list[str]


class Function(NamedTuple):
    """A function's head and body, without its clauses."""

    where: str
    name: str
    text: str


def files(root: Path) -> list[File]:
    """Read every file of the crates' src/."""
    return [
        File(str(path.relative_to(root)), [re.sub(r"//.*", "", line) for line in path.read_text(encoding="utf-8").splitlines()])
        for path in sorted(root.glob("crates/*/src/*.rt"))
    ]


def matching(sources: list[File], pattern: str) -> Iterator[str]:
    """Yield the lines that a pattern is found in."""
    found = re.compile(pattern)
    for source in sources:
        for number, line in enumerate(source.lines, 1):
            if found.search(line):
                yield f"{source.path}:{number}: {line.strip()}"


def blocks(sources: list[File], head: str) -> Iterator[tuple[str, str]]:
    """Yield each block that begins in a line with this head, to the brace that ends it."""
    for source in sources:
        for number, line in enumerate(source.lines, 1):
            if re.search(head, line) and "{" in line:
                depth, text = 0, []
                for following in source.lines[number - 1 :]:
                    text.append(following)
                    depth += following.count("{") - following.count("}")
                    if depth <= 0:
                        break
                yield f"{source.path}:{number}: {line.strip()}", "\n".join(text)


def functions(sources: list[File]) -> Iterator[Function]:
    """Yield the functions, their clauses left out."""
    for source in sources:
        text = "\n".join(source.lines)
        for start in re.finditer(r"\bfn (\w+)", text):
            depth, at, body = 0, start.start(), None
            while at < len(text):
                if depth == 0 and re.match(r"\b(requires|ensures)\b", text[at:]):
                    at = text.index("{", at)
                    level = 1
                    while level:
                        at += 1
                        level += {"{": 1, "}": -1}.get(text[at], 0)
                elif text[at] == "{":
                    depth += 1
                    body = at if body is None else body
                elif text[at] == "}":
                    depth -= 1
                    if depth == 0:
                        break
                elif text[at] == ";" and depth == 0:
                    break
                at += 1
            if body is not None:
                head = re.split(r"\b(?:requires|ensures)\b", text[start.start() : body])[0]
                line = text.count("\n", 0, start.start()) + 1
                yield Function(f"{source.path}:{line}", start.group(1), head + text[body : at + 1])


def options_and_numbers(sources: list[File]) -> Iterator[str]:
    """Point 1: enums of a value or nothing, results that begin with a flag or number, numbers that stand for kinds."""
    for where, text in blocks(sources, r"\benum \w+"):
        variants = re.findall(r"^\s+([A-Z]\w*)(\(|\s*\{)?", text, re.M)
        if any(fields for _, fields in variants) and any(not fields for _, fields in variants):
            yield where
    yield from matching(sources, r"->.*\((bool|u8|u16|u32|u64|usize), |\[\((u8|u16|u32|usize), ")
    yield from matching(sources, r"\bnumber: u(8|16|32)\b|number\(\) *==|\bstruct \w+\(\[u\d+; \d+\]\)|\bconst \w+: u32 = [1-9];")


def twins(sources: list[File]) -> Iterator[str]:
    """Point 2: pairs of functions that are alike once names and numbers are left out, and that share most names."""

    def shape(text: str) -> list[str]:
        return [t if t in KEPT or not (t[0].isalnum() or t[0] == "_") else "N" if t[0].isdigit() else "x" for t in TOKEN.findall(text)]

    def names(text: str) -> set[str]:
        return {t for t in TOKEN.findall(text) if t[0].isalpha() and t not in KEPT}

    every = [(f, shape(f.text), names(f.text)) for f in functions(sources)]
    every = [e for e in every if len(e[1]) >= 24]
    for i, (f, s, n) in enumerate(every):
        for g, t, m in every[i + 1 :]:
            if min(len(s), len(t)) < LIKE * max(len(s), len(t)) or len(n & m) < 0.5 * min(len(n), len(m)):
                continue
            likeness = difflib.SequenceMatcher(None, s, t, autojunk=False)
            if likeness.quick_ratio() >= LIKE and likeness.ratio() >= LIKE:
                yield f"{f.where} {f.name} ~ {g.where} {g.name}"


def counters(sources: list[File]) -> Iterator[str]:
    """Point 3: counters, and loops over a range whose variable picks items."""
    yield from matching(sources, r"\+= (1|usize::from\(.*\));|= [\w.\[\]]+\.saturating_add\(1\)|\bwhile |\bloop \{")
    for where, text in blocks(sources, r"\bfor \w+ in [^{]*\.\."):
        variable = re.search(r"\bfor (\w+) in", text)
        if variable and re.search(rf"\[{variable.group(1)}\b|\.(slot|get)\({variable.group(1)}\)", text):
            yield where


def by_hand(sources: list[File]) -> Iterator[str]:
    """Point 4: equality, order, copies, conversions and printing that are written by hand."""
    yield from matching(sources, r"^impl.* (PartialEq|Eq|PartialOrd|Ord|Hash|Default)(<[^>]*>)? for ")
    yield from matching(
        sources,
        r"\bfn (of|copy|copy_of|kind_of|number_of|count_of|same_\w+|is_same|are_equal|is_equal|moved_\w+)(<[^(]*)?\("
        r"(word|number|numbers|text|a|rt|case|bytes|line|digits|answer|&self\) -> Result|heap|before)",
    )
    yield from matching(sources, r"u32::from\([^)]*\) \* 65536|\(check / 65536\)")


def repeated_facts(sources: list[File]) -> Iterator[str]:
    """Point 5: facts that stand in the contracts of three or more functions."""
    seen = collections.defaultdict(set)
    for source in sources:
        name = ""
        for line in source.lines:
            head = re.search(r"\bfn (\w+)", line)
            name = head.group(1) if head else name
            clause = re.match(r"\s*(requires|ensures)( \w+)? \{ (.*) \}\s*$", line)
            if clause:
                kind, _, text = clause.groups()
                for part in re.split(r" × ", text) if kind == "requires" else [text]:
                    fact = re.sub(r"\.(old|now|entry)\b", ".then", part).strip("() ")
                    seen[f"{kind} {fact}"].add(f"{source.path}:{name}")
    for fact, where in sorted(seen.items(), key=lambda item: (-len(item[1]), item[0])):
        if len(where) >= 3:
            yield f"{len(where)} contracts: {fact[:150]}"


def side_by_side(sources: list[File]) -> Iterator[str]:
    """Point 6: a position beside its slice, slices side by side, items written one by one."""
    yield from matching(
        sources,
        r"^\s*(pub )?at: usize|: &mut \[u(8|16)\],$|^\s*(pub )?(first|second|third)(_in)?: (&mut |Vec|\w+,)|^\s*\w+\[[^\]]*\] = ",
    )


def switches(sources: list[File]) -> Iterator[str]:
    """Point 7: switches on which step to run, tables of functions, dyn."""
    yield from matching(sources, r"match (kind|act|word|case\.next\(\)\?|self\.kind|slab\.kind) \{|\bdyn |: fn\(")


def answers(root: Path) -> Iterator[str]:
    """Point 8: files of answers and invariants."""
    for path in sorted(root.glob("crates/*/proofs/**/*.antt")):
        if path.name in ("Answers.antt", "Invariants.antt"):
            yield str(path.relative_to(root))


def main() -> None:
    """Print the places of each point."""
    arguments = sys.argv[1:]
    counts = "-n" in arguments
    root = Path(next((a for a in arguments if a != "-n"), "."))
    sources = files(root)
    points: list[Callable[[], Iterator[str]]] = [
        lambda: options_and_numbers(sources),
        lambda: twins(sources),
        lambda: counters(sources),
        lambda: by_hand(sources),
        lambda: repeated_facts(sources),
        lambda: side_by_side(sources),
        lambda: switches(sources),
        lambda: answers(root),
    ]
    for number, point in enumerate(points, 1):
        places = list(dict.fromkeys(point()))
        print(f"{number}: {len(places)}")
        if not counts:
            print("".join(f"    {place}\n" for place in places), end="")


if __name__ == "__main__":
    main()
