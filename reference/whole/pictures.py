"""Bench pictures that the inserter made, whole and damaged: inputs of `survey`.

    python3 reference/whole/pictures.py INPUT

prints what the reference's survey makes of each picture over the words of INPUT.
"""

from __future__ import annotations

import sys
from collections.abc import Callable, Collection
from pathlib import Path

from bench import BENCH, PICTURE_BYTES, SLAB_BYTES, slab_in, split_stripes
from block import REFERENCE_LIMIT, encode_block, mend_check
from draws import Draws
from formats import ELEMENTS
from image import DATA_BYTES, blank, elements, join, seal, with_check, with_value
from inserter import Inserter
from raster import MACROBLOCK_WORDS, PackedBuffer
from scrambling import BLOCK_ROWS, Rows, embed_rows, read_rows
from survey import survey

SEED = 3510
IMAGE = seal(with_value(with_value(blank()[:DATA_BYTES], "user data", 351), "time_code", 1 << 20))

Change = Callable[[Rows], Rows]
"""What becomes of the rows of a macroblock."""


def every(data: bytes) -> list[PackedBuffer]:
    """Return the three slabs of a picture, in memory of their own."""
    return [slab_in(bytearray(stripe)) for stripe in split_stripes(data)]


def packed(slabs: list[PackedBuffer]) -> bytes:
    """Return the bytes of a picture."""
    return b"".join(bytes(slab.memory) for slab in slabs)


def placed(
    data: bytes, image: bytes = IMAGE, first: int = 0, holes: Collection[int] = ()
) -> bytes:
    """Return a picture with all macroblocks placed but for holes, by position."""
    slabs, draws = every(data), Draws(SEED)
    with Inserter(BENCH.number, first).open() as picture:
        for position in range(ELEMENTS):
            stripe, column = divmod(position, BENCH.columns)
            record = draws.record()
            if position not in holes:
                picture.place(stripe, column, slabs[stripe], image, record)
    return packed(slabs)


def changed(data: bytes, positions: Collection[int], change: Change) -> bytes:
    """Return a picture with other rows in the macroblocks at some positions."""
    slabs = every(data)
    for position in positions:
        stripe, column = divmod(position, BENCH.columns)
        embed_rows(slabs[stripe], column, change(read_rows(slabs[stripe], column)))
    return packed(slabs)


def painted(data: bytes, stripe: int, columns: range, rows: range, bit: int) -> bytes:
    """Return a picture with a rectangle in which bit 0 of every word is overwritten."""
    slabs = every(data)
    for row in rows:
        for place in range(MACROBLOCK_WORDS * columns.start, MACROBLOCK_WORDS * columns.stop):
            slabs[stripe].set(row, place, bit)
    return packed(slabs)


def flipped(row: int, bits: int, more: int = 0) -> Change:
    """Return the change of bits in a row, and of more in the row after it."""

    def change(rows: Rows) -> Rows:
        after = list(rows)
        after[row] ^= bits
        if more:
            after[row + 1] ^= more
        return after

    return change


def forged(row: int, bits: int) -> Change:
    """Return the change of bits in a row, with a check that fits."""
    return lambda rows: mend_check(flipped(row, bits)(rows))


def numbered(reference: int) -> Change:
    """Return the change to another reference, with a check that fits."""
    return lambda rows: mend_check([rows[0], reference, *rows[2:]])


def elements_of(data: bytes, image: bytes) -> bytes:
    """Return a picture with the elements of 540 bytes, which need not be sealed."""
    slabs, draws = every(data), Draws(SEED)
    with Inserter(BENCH.number, 0).open() as picture:
        for position, element in enumerate(elements(image)):
            stripe, column = divmod(position, BENCH.columns)
            block = picture.block(stripe, column, IMAGE, draws.record()) | {"element": element}
            embed_rows(slabs[stripe], column, encode_block(block))
    return packed(slabs)


def with_bit(image: bytes, bit: int) -> bytes:
    """Return an image with one bit inverted."""
    after = 8 * len(image) - 1 - bit
    return (int.from_bytes(image, "big") ^ 1 << after).to_bytes(len(image), "big")


def broken(name: str, value: int) -> bytes:
    """Return an image that cannot be sealed, with a check that fits."""
    return with_check(with_value(IMAGE[:DATA_BYTES], name, value))


def burst_inputs(clean: bytes) -> dict[str, bytes]:
    """Return bursts in each of the 15 pairs of rows: of many bits, and in another stripe of two."""
    draws, inputs = Draws(SEED), {}
    for row in range(BLOCK_ROWS - 1):
        many = flipped(row, 1 + draws.below(65535), 1 + draws.below(65535))
        two = flipped(row, 1 << draws.below(16), 1 << draws.below(16))
        damaged = changed(clean, [draws.below(BENCH.columns)], many)
        damaged = changed(damaged, [90 + draws.below(BENCH.columns)], two)
        inputs[f"bursts in rows {row} and {row + 1}"] = damaged
    return inputs


def cut_inputs(clean: bytes) -> dict[str, bytes]:
    """Return short and long inputs."""
    return {
        "empty": b"",
        "one byte": clean[:1],
        "a slab": clean[:SLAB_BYTES],
        "one byte into the second slab": clean[: SLAB_BYTES + 1],
        "two slabs and a half": clean[: 5 * SLAB_BYTES // 2],
        "one byte short": clean[:-1],
        "longer than three slabs": clean + b"more",
        "the picture twice": clean + clean,
        "the picture one byte late": (b"\0" + clean)[:PICTURE_BYTES],
        "stripes in another order": clean[SLAB_BYTES:] + clean[:SLAB_BYTES],
    }


def refused_inputs(sample: bytes, clean: bytes) -> dict[str, bytes]:
    """Return pictures of well-formed blocks that gather or deliver refuses."""
    everywhere = range(ELEMENTS)
    return {
        "frames and fields": changed(clean, everywhere, forged(0, 0x0400)),
        "a block of a field": changed(clean, [77], forged(0, 0x0400)),
        "the reference 65521": changed(clean, [7], numbered(REFERENCE_LIMIT + 1)),
        "the reference 65520": changed(clean, [7], numbered(REFERENCE_LIMIT)),
        "the reference 65535": changed(clean, range(45), numbered(65535)),
        "the reference of a neighbour": changed(clean, [7], numbered(8)),
        "a reserved bit": changed(clean, [90], forged(13, 1)),
        "a rule broken": changed(clean, everywhere, forged(4, 1)),
        "an element changed": changed(clean, [12], forged(3, 1)),
        "the check's element changed": changed(clean, [134], forged(2, 0x8000)),
        "all elements changed": changed(clean, everywhere, forged(2, 0xFFFF)),
        "the image's first bit wrong": elements_of(sample, with_bit(IMAGE, 0)),
        "the image's user data wrong": elements_of(sample, with_bit(IMAGE, 4287)),
        "the image's check wrong": elements_of(sample, with_bit(IMAGE, 4319)),
        "elements in reverse": elements_of(sample, join(elements(IMAGE)[::-1])),
        "elements of zeros": elements_of(sample, bytes(len(IMAGE))),
        "MPEG standard flag 1": elements_of(sample, broken("MPEG standard flag", 1)),
        "picture_structure 0": elements_of(sample, broken("picture_structure", 0)),
        "chroma_format 0": elements_of(sample, broken("chroma_format", 0)),
        "chroma_format 3": elements_of(sample, broken("chroma_format", 3)),
        "a spare bit": elements_of(sample, broken("spare", 1)),
        "the image of a field": elements_of(sample, broken("picture_structure", 2)),
    }


def survey_inputs(sample: bytes) -> dict[str, bytes]:
    """Return inputs of `survey` by name, over the words of a sample."""
    clean, noise = placed(sample), Draws(SEED).message(PICTURE_BYTES)
    other = with_check(with_value(IMAGE[:DATA_BYTES], "user data", 352))
    return {
        "clean": clean,
        "clean, over noise": placed(noise),
        "clean, over zeros": placed(b""),
        "clean, another image": placed(sample, other),
        "nothing placed": sample,
        "noise": noise,
        "all ones": b"\xff" * PICTURE_BYTES,
        "a hole": placed(sample, holes=(67,)),
        "holes at the corners": placed(sample, holes=(0, 44, 90, 134)),
        "a stripe of holes": placed(sample, holes=range(45, 90)),
        "holes over an earlier picture": placed(placed(noise, first=135), holes=range(40, 50)),
        "a logo": painted(clean, 0, range(38, 44), range(4, 16), 0),
        "a painted row": painted(clean, 1, range(0, 45), range(9, 10), 1),
        "a painted slab": painted(clean, 2, range(0, 45), range(0, 16), 0),
        "from first reference 1": placed(sample, first=1),
        "from first reference 135": placed(sample, first=135),
        "from first reference 65520": placed(sample, first=65520),
        "half of two pictures": placed(clean, other, 135, range(60)),
        "elements of two images": placed(clean, other, 0, range(134)),
        **burst_inputs(clean),
        **refused_inputs(sample, clean),
        **cut_inputs(clean),
    }


def main() -> int:
    for name, data in survey_inputs(Path(sys.argv[1]).read_bytes()).items():
        print(name, *survey(data).splitlines(), sep="\n    ")
    return 0


if __name__ == "__main__":
    sys.exit(main())
