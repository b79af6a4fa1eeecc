"""Bring the definitions and lemmas of the crates to the spelling that this Rattle uses, after its port.py.

    python3 tools/respell.py [ROOT]

Words become snake case, types camel case, as tools/respelled_names.txt lists
them, old name and new; a lemma that fell together with a definition gets
`_lem`. The crate `check`, which is named as a library of the kit, becomes
`crc`. Strings stay, and so do English words with a dash in comments. Run it
once, on what port.py made.
"""

from __future__ import annotations

import re
import sys
from collections.abc import Callable, Iterator
from pathlib import Path

LIST = Path(__file__).resolve().parent / "respelled_names.txt"
TOKEN = re.compile(r"[A-Za-z_][\w'\-]*\+*")
STRING = re.compile(r'"(?:[^"\\]|\\.)*"')
# Names that Rattle makes of a call and its variable, in the records of answers: only the spelling of functions changed.
MADE = re.compile(r"\bc\.([\w'\-]+)")
MADE_OF_FUNCTIONS = {"reads-back": "reads_back"} | {f"row-{n}": f"row_{n}" for n in range(14)}
# Lemmas whose names a definition gets: they stand in proofs/ alone.
LEMMAS = {"carried_row", "carried_rows", "same_flag"}


def names() -> dict[str, str]:
    """Return the new name of each old one."""
    lines = LIST.read_text(encoding="utf-8").splitlines()
    return dict(line.split() for line in lines if not line.startswith("#"))


def outside_strings(text: str, turn: Callable[[str], str]) -> str:
    """Turn what stands outside string literals."""
    parts: list[str] = []
    at = 0
    for found in STRING.finditer(text):
        parts += [turn(text[at : found.start()]), found.group()]
        at = found.end()
    return "".join([*parts, turn(text[at:])])


def turn_line(line: str, table: dict[str, str], comment: str) -> str:
    """Turn the names of a line; in its comment those alone that are no English."""
    code, mark, said = line.partition(comment)

    def turned(text: str) -> str:
        made: list[str] = []
        at = 0
        for found in MADE.finditer(text):
            name = found.group(1)
            made += [tokens(text[at : found.start()]), "c." + MADE_OF_FUNCTIONS.get(name, name)]
            at = found.end()
        return "".join([*made, tokens(text[at:])])

    def tokens(text: str) -> str:
        return TOKEN.sub(lambda found: table.get(found.group(), found.group()), text)

    def in_comment(text: str) -> str:
        return TOKEN.sub(
            lambda found: found.group()
            if "-" in found.group() and found.group()[0].islower()
            else table.get(found.group(), found.group()),
            text,
        )

    return outside_strings(code, turned) + mark + in_comment(said)


def turn_crate_name(text: str) -> str:
    """Rename the crate check to crc in paths."""
    return re.sub(r"\bRattle\.check\.", "Rattle.crc.", re.sub(r"\bcheck::", "crc::", text))


def files(root: Path) -> Iterator[Path]:
    """Yield the files of Rattle and the edits."""
    for path in sorted((root / "crates").rglob("*")):
        if path.suffix in {".rt", ".antt", ".edit"} and "out" not in path.parts:
            yield path


def respell(path: Path, table: dict[str, str]) -> None:
    """Respell one file in place."""
    text = path.read_text(encoding="utf-8")
    known = table
    if path.suffix != ".antt" or "specs" in path.parts:
        known = {old: new for old, new in table.items() if old not in LEMMAS}
    comment = "--" if path.suffix == ".antt" else "//"
    turned = "\n".join(turn_line(line, known, comment) for line in text.split("\n"))
    turned = turn_crate_name(turned)
    if turned != text:
        path.write_text(turned, encoding="utf-8")


def main() -> int:
    """Respell the repository at the given root, or at the current folder."""
    root = Path(sys.argv[1] if len(sys.argv) > 1 else ".").resolve()
    table = names()
    for path in files(root):
        respell(path, table)
    listed = root / "crates.txt"
    listed.write_text(re.sub(r"\bcheck\b", "crc", listed.read_text(encoding="utf-8")), encoding="utf-8")
    if (root / "crates" / "check").exists():
        (root / "crates" / "check").rename(root / "crates" / "crc")
    return 0


if __name__ == "__main__":
    sys.exit(main())
