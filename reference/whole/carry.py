"""What the program `carry` does: carry a picture through three slabs and back.

It places the record of zeros on every macroblock of a bench picture under the
blank image, reads every macroblock back, and gathers what it placed.

    python3 reference/whole/carry.py INPUT [OUTPUT]

prints what `carry` prints for the bytes of INPUT and, given OUTPUT, writes the
three slabs there. INPUT may be - for standard input.
"""

from __future__ import annotations

import argparse
import sys
from collections.abc import Sequence
from pathlib import Path
from typing import NamedTuple

from bench import BENCH, slab_in, split_stripes
from block import RECORD
from extractor import Gathering, read
from formats import ELEMENTS
from image import blank
from inserter import Inserter, Picture
from raster import unpack_words
from refusals import Refused
from slots import State, Table

FIRST = 0
IMAGE = blank()
ZEROS = dict.fromkeys(RECORD, 0)


class Carried(NamedTuple):
    """What `carry` prints, and the packed slabs that it writes."""

    text: str
    packed: bytes


def place_stripe(picture: Picture, stripe: int, memory: bytearray) -> None:
    """Place the record of zeros on the macroblocks of a stripe."""
    for column in range(BENCH.columns):
        picture.place(stripe, column, slab_in(memory), IMAGE, ZEROS)


def reads_back(picture: Picture, stripe: int, column: int, memory: bytearray) -> bool:
    """Tell whether a macroblock is read as the block that went in."""
    try:
        block = read(BENCH.number, column, slab_in(memory))
    except Refused:
        return False
    return block == picture.block(stripe, column, IMAGE, ZEROS)


def stripe_line(picture: Picture, stripe: int, before: bytes, memory: bytearray) -> str:
    """Return the line of a stripe: the words that moved, the blocks that are read back."""
    pairs = zip(unpack_words(before), unpack_words(memory), strict=True)
    moved = sum(old != new for old, new in pairs)
    read_back = sum(
        reads_back(picture, stripe, column, memory) for column in range(BENCH.columns)
    )
    return f"stripe {stripe} moved {moved} read {read_back}\n"


def gathered_line(memories: Sequence[bytearray]) -> str:
    """Gather the picture and return the line of it: accepted gathers, slots held."""
    table: Table[int] = Table(ELEMENTS)
    gathering = Gathering(BENCH.number, FIRST, table)
    gathered = 0
    for stripe, memory in enumerate(memories):
        sheet: Table = Table(BENCH.columns)
        for column in range(BENCH.columns):
            try:
                gathering.gather(stripe, column, slab_in(memory), table, sheet)
            except Refused:
                continue
            gathered += 1
    return f"gathered {gathered} held {table.count(State.HELD)}\n"


def carry(data: bytes) -> Carried:
    """Do what `carry` does with the bytes of its standard input."""
    before = split_stripes(data)
    memories = [bytearray(packed) for packed in before]
    with Inserter(BENCH.number, FIRST).open() as picture:
        for stripe, memory in enumerate(memories):
            place_stripe(picture, stripe, memory)
    lines = [
        stripe_line(picture, stripe, packed, memory)
        for stripe, (packed, memory) in enumerate(zip(before, memories, strict=True))
    ]
    return Carried("".join(lines) + gathered_line(memories), b"".join(memories))


def main() -> int:
    parser = argparse.ArgumentParser(description="Do what the program carry does.")
    parser.add_argument("input", help="file of three packed slabs, or - for standard input")
    parser.add_argument("output", nargs="?", type=Path, help="where to write the three slabs")
    options = parser.parse_args()
    try:
        source = sys.stdin.buffer if options.input == "-" else open(options.input, "rb")
        with source:
            carried = carry(source.read())
        if options.output is not None:
            options.output.write_bytes(carried.packed)
    except OSError as failure:
        print(f"carry: {failure}", file=sys.stderr)
        return 1
    sys.stdout.write(carried.text)
    return 0


if __name__ == "__main__":
    sys.exit(main())
