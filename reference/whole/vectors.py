"""What the program `vectors` does: answer cases, one a line.

    python3 reference/whole/vectors.py INPUT

prints what `vectors` prints for the lines of INPUT, which may be - for
standard input. The kinds of cases stand in the modules `answers_...`.
"""

from __future__ import annotations

import argparse
import sys
from collections.abc import Callable, Mapping, Sequence
from functools import cache

from answers_blocks import BLOCKS
from answers_formats import FORMATS_AND_REFERENCES
from answers_images import IMAGES
from answers_pictures import PICTURES
from answers_scenes import SCENES
from answers_slots import SLOTS
from refusals import Refused

ANSWERS: Mapping[str, Callable[[Sequence[str]], str]] = {
    **BLOCKS,
    **FORMATS_AND_REFERENCES,
    **IMAGES,
    **SLOTS,
    **PICTURES,
    **SCENES,
}


@cache
def answer(case: str) -> str:
    """Return the answer to one line, both without their newline."""
    kind, *words = case.split(" ")
    if kind not in ANSWERS:
        raise ValueError(f"no case is called {kind!r}")
    try:
        return ANSWERS[kind](words)
    except Refused as refused:
        return f"refused {refused.refusal.value}"


def answer_all(cases: str) -> str:
    """Return what `vectors` prints for the text of its standard input."""
    lines = cases.split("\n")
    if lines.pop():
        raise ValueError("the last line has no newline")
    return "".join(answer(line) + "\n" for line in lines)


def main() -> int:
    parser = argparse.ArgumentParser(description="Do what the program vectors does.")
    parser.add_argument("input", help="file of cases, or - for standard input")
    options = parser.parse_args()
    try:
        source = sys.stdin.buffer if options.input == "-" else open(options.input, "rb")
        with source:
            answers = answer_all(source.read().decode("ascii"))
    except (OSError, ValueError) as failure:
        print(f"vectors: {failure}", file=sys.stderr)
        return 1
    sys.stdout.write(answers)
    return 0


if __name__ == "__main__":
    sys.exit(main())
