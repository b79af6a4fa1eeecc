"""Compare the packed sample picture with a planar dump of the same frame.

    python3 reference/sample.py PACKED PLANAR

PLANAR is a 720 x 48 frame in ffmpeg's yuv422p10le: the whole of Y, then of Cb,
then of Cr, each sample two bytes, least significant first.
"""

from __future__ import annotations

import argparse
import struct
import sys
from pathlib import Path

from carry import PICTURE_BYTES, STRIPES, split_stripes
from raster import ROWS

WIDTH = 720
HEIGHT = STRIPES * ROWS
PLANAR_BYTES = 2 * 2 * WIDTH * HEIGHT


def interleave_planes(planar: bytes) -> list[list[int]]:
    """Return the lines of a planar frame as words in the order Cb, Y, Cr, Y."""
    samples = struct.unpack(f"<{2 * WIDTH * HEIGHT}H", planar)
    luma = samples[: WIDTH * HEIGHT]
    half = WIDTH // 2
    cb = samples[WIDTH * HEIGHT :][: half * HEIGHT]
    cr = samples[WIDTH * HEIGHT :][half * HEIGHT :]
    lines: list[list[int]] = []
    for y in range(HEIGHT):
        line: list[int] = []
        for x in range(half):
            first = WIDTH * y + 2 * x
            line += [cb[half * y + x], luma[first], cr[half * y + x], luma[first + 1]]
        lines.append(line)
    return lines


def main() -> int:
    parser = argparse.ArgumentParser(description="Compare the sample with a planar dump of it.")
    parser.add_argument("packed", type=Path)
    parser.add_argument("planar", type=Path)
    options = parser.parse_args()
    packed, planar = options.packed.read_bytes(), options.planar.read_bytes()
    if len(packed) != PICTURE_BYTES or len(planar) != PLANAR_BYTES:
        print(f"wanted {PICTURE_BYTES} and {PLANAR_BYTES} bytes: {len(packed)}, {len(planar)}")
        return 1
    unpacked = [row for slab in split_stripes(packed) for row in slab]
    pairs = [
        (ours, theirs)
        for our_row, their_line in zip(unpacked, interleave_planes(planar), strict=True)
        for ours, theirs in zip(our_row, their_line, strict=True)
    ]
    equal = sum(ours == theirs for ours, theirs in pairs)
    print(f"{equal} of {len(pairs)} words equal")
    return 0 if equal == len(pairs) else 1


if __name__ == "__main__":
    sys.exit(main())
