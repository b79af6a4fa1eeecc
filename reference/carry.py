"""What the program `carry` does: embed known blocks in three slabs, read them back.

    python3 reference/carry.py INPUT [OUTPUT]

prints what `carry` prints for the bytes of INPUT and, given OUTPUT, writes the
three slabs there. INPUT may be - for standard input.
"""

from __future__ import annotations

import argparse
import sys
from pathlib import Path
from typing import NamedTuple

from block import WIDTHS, Block, Refused, decode_block, encode_block, zero_block
from raster import COLUMNS, SLAB_BYTES, Slab, moved_words, pack_slab, unpack_slab
from scrambling import embed_rows, read_rows

STRIPES = 3
PICTURE_BYTES = STRIPES * SLAB_BYTES
MULTIPLIER = 2654435761
MIDDLE = 67


class Carried(NamedTuple):
    """What `carry` prints, and the packed slabs that it writes."""

    text: str
    packed: bytes


def known_block(position: int) -> Block:
    """Return the block embedded at a position, 45 x stripe + column."""
    return zero_block() | {
        "fr_fl_srib": 1,
        "reference": position,
        "element": position * MULTIPLIER % (1 << WIDTHS["element"]),
        "mb_intra": position % 2,
        "mv000": position - MIDDLE,
    }


def reads_back(slab: Slab, column: int, block: Block) -> bool:
    """Tell whether a block is what the macroblock at a column carries."""
    try:
        return decode_block(read_rows(slab, column)) == block
    except Refused:
        return False


def split_stripes(data: bytes) -> list[Slab]:
    """Unpack three slabs: missing bytes are 0, bytes after the third are ignored."""
    picture = data[:PICTURE_BYTES].ljust(PICTURE_BYTES, b"\0")
    return [
        unpack_slab(picture[start : start + SLAB_BYTES])
        for start in range(0, PICTURE_BYTES, SLAB_BYTES)
    ]


def carry_stripe(stripe: int, before: Slab) -> Carried:
    """Embed and read back the 45 blocks of one stripe."""
    blocks = [known_block(COLUMNS * stripe + column) for column in range(COLUMNS)]
    after = [row.copy() for row in before]
    for column, block in enumerate(blocks):
        embed_rows(after, column, encode_block(block))
    # Read from the packed bytes, which are what a receiver has.
    packed = pack_slab(after)
    received = unpack_slab(packed)
    read = sum(reads_back(received, column, block) for column, block in enumerate(blocks))
    text = f"stripe {stripe} moved {moved_words(before, after)} read {read}\n"
    return Carried(text, packed)


def carry(data: bytes) -> Carried:
    """Do what `carry` does with the bytes of its standard input."""
    stripes = [carry_stripe(stripe, slab) for stripe, slab in enumerate(split_stripes(data))]
    return Carried(
        "".join(stripe.text for stripe in stripes),
        b"".join(stripe.packed for stripe in stripes),
    )


def main() -> int:
    parser = argparse.ArgumentParser(description="Do what the program carry does.")
    parser.add_argument("input", help="file of three packed slabs, or - for standard input")
    parser.add_argument("output", nargs="?", type=Path, help="where to write the three slabs")
    options = parser.parse_args()
    try:
        source = sys.stdin.buffer if options.input == "-" else open(options.input, "rb")
        with source:
            carried = carry(source.read())
        if options.output is not None:
            options.output.write_bytes(carried.packed)
    except OSError as failure:
        print(f"carry: {failure}", file=sys.stderr)
        return 1
    sys.stdout.write(carried.text)
    return 0


if __name__ == "__main__":
    sys.exit(main())
