"""Hold the stored files of every program to what the reference computes.

    python3 reference/whole/check.py            compare: exit 1 and a diff if any differs
    python3 reference/whole/check.py --write    write the stored files

To add a case, add a line to CASES.
"""

from __future__ import annotations

import argparse
import difflib
import sys
from collections.abc import Callable, Iterator
from pathlib import Path
from typing import NamedTuple

from bench import PICTURE_BYTES
from carry import carry
from selfcheck import SELF_CHECKS, SelfCheckFailure, require_equal
from survey import survey
from vector_cases import cases_text
from vectors import answer_all

ROOT = Path(__file__).resolve().parents[2]
CRATES = ROOT / "crates"


class Case(NamedTuple):
    """A stored file and the function that regenerates its text."""

    name: str
    regenerate: Callable[[], str]
    path: Path


def carry_of_sample() -> str:
    """Return what `carry` prints for the sample picture."""
    data = (CRATES / "carry_picture" / "stdin").read_bytes()
    require_equal(len(data), PICTURE_BYTES, "bytes of the sample picture")
    return carry(data).text


def vectors_of_cases() -> str:
    """Return what `vectors` prints for its cases."""
    return answer_all(cases_text())


def survey_of_sample() -> str:
    """Return what `survey` prints for its picture with a logo."""
    data = (CRATES / "survey" / "stdin").read_bytes()
    require_equal(len(data), PICTURE_BYTES, "bytes of the picture with a logo")
    return survey(data)


CASES: list[Case] = [
    Case("carry", carry_of_sample, CRATES / "carry_picture" / "stdout"),
    Case("survey", survey_of_sample, CRATES / "survey" / "stdout"),
    Case("vectors' cases", cases_text, CRATES / "vectors_whole" / "stdin"),
    Case("vectors", vectors_of_cases, CRATES / "vectors_whole" / "stdout"),
]


def split_lines(text: str) -> list[str]:
    """Split at newlines alone, marking a last line that has none."""
    lines = [line + "\n" for line in text.split("\n")]
    last = lines.pop()
    if last != "\n":
        lines.append(last + "\\ No newline at end of file\n")
    return lines


def diff(stored: bytes, expected: bytes, name: str) -> Iterator[str]:
    """Yield the lines of a unified diff from the stored text to the expected."""
    return difflib.unified_diff(
        split_lines(stored.decode("utf-8", "backslashreplace")),
        split_lines(expected.decode("utf-8")),
        f"{name} (stored)",
        f"{name} (reference)",
    )


def show(path: Path) -> str:
    """Return a path as written from the root of the repository."""
    return path.relative_to(ROOT).as_posix()


def compare(case: Case) -> bool:
    """Tell whether a stored file is as computed, printing a diff if not."""
    expected = case.regenerate().encode("utf-8")
    stored = case.path.read_bytes()
    if stored == expected:
        return True
    print(f"reference: {case.name}: {show(case.path)} differs")
    sys.stdout.writelines(diff(stored, expected, show(case.path)))
    return False


def write(case: Case) -> bool:
    """Write the computed text of a case to its file."""
    case.path.write_bytes(case.regenerate().encode("utf-8"))
    print(f"reference: {case.name}: wrote {show(case.path)}")
    return True


def attempt(act: Callable[[Case], bool], case: Case) -> bool:
    """Tell whether a case succeeds, printing why if it cannot be tried."""
    try:
        return act(case)
    except (SelfCheckFailure, OSError) as failure:
        print(f"reference: {case.name}: {failure}")
        return False


def self_checks_hold() -> bool:
    """Tell whether every self-check holds, printing the first that fails."""
    for name, self_check in SELF_CHECKS:
        try:
            self_check()
        except SelfCheckFailure as failure:
            print(f"reference: self-check of {name}: {failure}")
            return False
    return True


def main() -> int:
    parser = argparse.ArgumentParser(description="Check the stored files of the programs.")
    parser.add_argument("--write", action="store_true", help="write the stored files instead")
    act = write if parser.parse_args().write else compare

    if not self_checks_hold():
        return 1
    failed = [case.name for case in CASES if not attempt(act, case)]
    if failed:
        print(f"reference: FAILED {len(failed)} of {len(CASES)} files: {', '.join(failed)}")
        return 1
    done = "written" if act is write else "as stored"
    print(
        f"reference: {len(SELF_CHECKS)} self-checks hold; "
        f"{len(CASES)} of {len(CASES)} files {done}: {', '.join(case.name for case in CASES)}"
    )
    return 0


if __name__ == "__main__":
    sys.exit(main())
