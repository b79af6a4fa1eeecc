"""Hold the build to refusing what it has to refuse, and for that reason.

    python3 tools/refused.py

Each edit in tools/refused-by-the-build/CRATE is like a must-fail edit, with one
more line: what the build has to say. `rt ci` counts such an edit as bad, since
its text is no program and no contract is tried; so it is tried here. Exit 1 if
an edit does not fit its file, is not refused, or is refused for another reason.
"""

from __future__ import annotations

import shutil
import subprocess
import sys
import tempfile
from collections.abc import Iterator
from pathlib import Path
from typing import NamedTuple

ROOT = Path(__file__).resolve().parent.parent
EDITS = ROOT / "tools" / "refused-by-the-build"
SECONDS = 300


class Edit(NamedTuple):
    """A change of one place in a file of a crate, and what the build says of it."""

    name: str
    crate: str
    file: str
    old: str
    new: str
    said: str


def edits() -> Iterator[Edit]:
    """Yield the edits, by crate and name."""
    for path in sorted(EDITS.glob("*/*.edit")):
        lines = path.read_text(encoding="utf-8").splitlines()
        words = dict(line.split(": ", 1) for line in lines)
        yield Edit(path.stem, path.parent.name, words["file"], words["old"], words["new"], words["said"])


def fault_of(edit: Edit) -> str | None:
    """Return what is wrong with an edit, if anything is."""
    with tempfile.TemporaryDirectory() as room:
        copy = Path(room)
        shutil.copytree(ROOT / "crates", copy / "crates", ignore=shutil.ignore_patterns("out"))
        shutil.copy(ROOT / "crates.txt", copy)
        crate = copy / "crates" / edit.crate
        file = crate / edit.file
        text = file.read_text(encoding="utf-8")
        if text.count(edit.old) != 1:
            return f"its text stands {text.count(edit.old)} times in {edit.file}"
        file.write_text(text.replace(edit.old, edit.new), encoding="utf-8")
        run = subprocess.run(
            ["rt", "try"], cwd=crate, stdin=subprocess.DEVNULL, capture_output=True, text=True, timeout=SECONDS, check=False
        )
    if run.returncode == 0:
        return "the build takes it"
    if edit.said not in run.stdout + run.stderr:
        return f"the build refuses it otherwise: {(run.stdout + run.stderr)[:400]}"
    return None


def main() -> int:
    """Try every edit; status 1 if one is not refused as it has to be."""
    status = 0
    for edit in edits():
        fault = fault_of(edit)
        if fault:
            status = 1
        print(f"{edit.crate}/{edit.name}: {fault or 'refused by the build: ' + edit.said}")
    return status


if __name__ == "__main__":
    sys.exit(main())
