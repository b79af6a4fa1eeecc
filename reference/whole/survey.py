"""What the program `survey` does: gather a bench picture and say what became of it.

    python3 reference/whole/survey.py INPUT

prints what `survey` prints for the bytes of INPUT, which may be - for standard
input.
"""

from __future__ import annotations

import argparse
import sys
from collections import Counter

from bench import BENCH, slab_in, split_stripes
from extractor import Gathering, deliver
from formats import ELEMENTS
from raster import Raster
from refusals import Refusal, Refused
from slots import Table


def judge(
    gathering: Gathering, stripe: int, column: int, slab: Raster, table: Table[int], sheet: Table
) -> str:
    """Gather a macroblock and return what it counts as."""
    try:
        gathering.gather(stripe, column, slab, table, sheet)
    except Refused as refused:
        return "foreign" if refused.refusal == Refusal.FOREIGN else "bad"
    return "good"


def survey_stripe(gathering: Gathering, stripe: int, slab: Raster, table: Table[int]) -> str:
    """Gather the macroblocks of a stripe and return its line."""
    sheet: Table = Table(BENCH.columns)
    counts = Counter(
        judge(gathering, stripe, column, slab, table, sheet) for column in range(BENCH.columns)
    )
    kinds = " ".join(f"{kind} {counts[kind]}" for kind in ("good", "foreign", "bad"))
    return f"stripe {stripe} {kinds}\n"


def picture_line(table: Table[int]) -> str:
    """Return the last line: what deliver makes of the table."""
    try:
        deliver(table)
    except Refused as refused:
        return f"picture refused {refused.refusal.value}\n"
    return "picture whole\n"


def survey(data: bytes) -> str:
    """Do what `survey` does with the bytes of its standard input."""
    table: Table[int] = Table(ELEMENTS)
    gathering = Gathering(BENCH.number, 0, table)
    lines = [
        survey_stripe(gathering, stripe, slab_in(bytearray(packed)), table)
        for stripe, packed in enumerate(split_stripes(data))
    ]
    return "".join(lines) + picture_line(table)


def main() -> int:
    parser = argparse.ArgumentParser(description="Do what the program survey does.")
    parser.add_argument("input", help="file of three packed slabs, or - for standard input")
    options = parser.parse_args()
    try:
        source = sys.stdin.buffer if options.input == "-" else open(options.input, "rb")
        with source:
            text = survey(source.read())
    except OSError as failure:
        print(f"survey: {failure}", file=sys.stderr)
        return 1
    sys.stdout.write(text)
    return 0


if __name__ == "__main__":
    sys.exit(main())
