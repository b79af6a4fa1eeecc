"""Checks of the reference itself: worked values, and laws on random data."""

from __future__ import annotations

import binascii
import itertools
import random
from collections.abc import Callable
from typing import TypeVar

from block import (
    FIELDS,
    FIXED,
    LAYOUT,
    LINKED_FLAGS,
    RECORD,
    WIDTHS,
    Block,
    Refusal,
    Refused,
    contradicts,
    decode_block,
    encode_block,
    fill_rows,
    fitting,
    mend_check,
    zero_block,
)
from carry import PICTURE_BYTES, STRIPES, carry, known_block, split_stripes
from check_register import check_of
from raster import (
    COLUMNS,
    ROW_WORDS,
    ROWS,
    SLAB_BYTES,
    WORD_LIMIT,
    Slab,
    pack_slab,
    pack_words,
    unpack_slab,
    unpack_words,
)
from scrambling import BLOCK_ROW_BITS, BLOCK_ROWS, descramble, embed_rows, read_rows, scramble
from vector_cases import KINDS, make_cases
from vectors import NUMBERS, answer

SEED = 20250
RANDOM_SLABS = 8
RANDOM_BLOCKS = 200

Given = TypeVar("Given")


class SelfCheckFailure(Exception):
    """The reference breaks one of its own rules."""


def require_equal(got: object, wanted: object, what: str) -> None:
    """Fail, naming what was checked, unless the two are equal."""
    if got != wanted:
        raise SelfCheckFailure(f"{what}: got {_brief(got)}, wanted {_brief(wanted)}")


def _brief(value: object) -> str:
    text = repr(value)
    return text if len(text) <= 80 else text[:77] + "..."


def random_slab(source: random.Random) -> Slab:
    """Return a slab of words drawn evenly from all ten-bit words."""
    return [[source.randrange(WORD_LIMIT) for _ in range(ROW_WORDS)] for _ in range(ROWS)]


def check_packing_values() -> None:
    """The worked value of packing, and the size of a slab."""
    words = [1023, 0, 512, 1]
    packed = bytes.fromhex("FF C0 08 00 01")
    require_equal(pack_words(words), packed, "packed words")
    require_equal(unpack_words(packed), words, "unpacked words")
    require_equal(SLAB_BYTES, 28800, "bytes of a slab")
    require_equal(COLUMNS, 45, "columns of a slab")


def check_packing_round_trip() -> None:
    """Packing and unpacking undo each other, and packing is one string of bits."""
    source = random.Random(SEED)
    for _ in range(RANDOM_SLABS):
        slab = random_slab(source)
        packed = pack_slab(slab)
        require_equal(unpack_slab(packed), slab, "slab packed and unpacked")
        bits = "".join(f"{word:010b}" for row in slab for word in row)
        require_equal(packed, int(bits, 2).to_bytes(SLAB_BYTES, "big"), "slab as a string of bits")
        packed = source.randbytes(SLAB_BYTES)
        require_equal(pack_slab(unpack_slab(packed)), packed, "bytes unpacked and packed")


def check_scrambling_values() -> None:
    """The worked values of scrambling."""
    for chroma, luma, bit, moved in [(512, 64, 1, 513), (1019, 940, 1, 1018)]:
        what = f"chroma {chroma}, luma {luma}, bit {bit}"
        require_equal(scramble(chroma, luma, bit), moved, what)
        require_equal(descramble(moved, luma), bit, f"bit read after {what}")


def check_embedding() -> None:
    """Every block of a slab reads back, and only bit 0 of chroma words changes."""
    source = random.Random(SEED)
    for _ in range(RANDOM_SLABS):
        before = random_slab(source)
        after = [row.copy() for row in before]
        blocks = [
            [source.getrandbits(BLOCK_ROW_BITS) for _ in range(BLOCK_ROWS)] for _ in range(COLUMNS)
        ]
        for column, block in enumerate(blocks):
            embed_rows(after, column, block)
        for column, block in enumerate(blocks):
            require_equal(read_rows(after, column), block, f"block of column {column}")
        for old_row, new_row in zip(before, after, strict=True):
            require_equal(new_row[1::2], old_row[1::2], "luma words")
            require_equal(
                [word >> 1 for word in new_row[0::2]],
                [word >> 1 for word in old_row[0::2]],
                "bits 9 to 1 of the chroma words",
            )


def reverse_bits(value: int, width: int) -> int:
    """Return the number whose bits, `width` of them, are in reverse order."""
    return int(f"{value:0{width}b}"[::-1], 2)


def check_register_values() -> None:
    """The worked values of the check."""
    require_equal(check_of(b"123456789"), 0x0376E6E7, "check of 123456789")
    require_equal(check_of(b""), 0xFFFFFFFF, "check of no bytes")


def check_register_laws() -> None:
    """The check is the library's CRC-32 with bits reversed and ends inverted.

    A message followed by its check leaves 0 in the register.
    """
    source = random.Random(SEED)
    for length in [*range(41), 536]:
        message = source.randbytes(length)
        check = check_of(message)
        mirrored = binascii.crc32(bytes(reverse_bits(byte, 8) for byte in message))
        require_equal(check, reverse_bits(mirrored ^ 0xFFFFFFFF, 32), f"check of {length} bytes")
        require_equal(check_of(message + check.to_bytes(4, "big")), 0, "check of the whole")


def random_block(source: random.Random) -> Block:
    """Return a block that is encoded and decoded, of values that fit."""
    while True:
        block = {field: fitting(field)[source.getrandbits(WIDTHS[field])] for field in FIELDS}
        if block["reference"] <= 65520 and not contradicts(block):
            return block


def outcome(act: Callable[[Given], object], given: Given) -> object:
    """Return what an act makes of what it is given, or why it refuses it."""
    try:
        return act(given)
    except Refused as refused:
        return refused.refusal


def check_layout() -> None:
    """Every row is full, and every bit of a field lies in one place."""
    require_equal([sum(part.width for part in parts) for parts in LAYOUT], [16] * 16, "row widths")
    places = [
        (part.field, bit)
        for parts in LAYOUT
        for part in parts
        for bit in range(part.low, part.high + 1)
    ]
    wanted = [(field, bit) for field in WIDTHS for bit in range(WIDTHS[field])]
    require_equal(
        sorted(place for place in places if place[0] != "reserved"),
        sorted(place for place in wanted if place[0] != "reserved"),
        "places of the bits",
    )
    require_equal(sum(field == "reserved" for field, _ in places), 22, "reserved bits")
    require_equal((len(FIELDS), len(RECORD)), (30, 23), "fields of a block and of its record")


def check_block_values() -> None:
    """The worked values of rows, and the edges of what fits."""
    flags = {"fr_fl_srib": 1, "top_field_first": 1, "mb_intra": 1}
    require_equal(encode_block(zero_block() | flags)[0], 0xFE02, "row 0")
    vector = {"mv000": -1, "motion_type": 2}
    require_equal(encode_block(zero_block() | vector)[4], 0xFFFC, "row 4")
    for field, value, fits in [
        ("mv000", -4097, False),
        ("mv000", -4096, True),
        ("mv000", 4095, True),
        ("mv000", 4096, False),
        ("mv001", 255, True),
        ("mv001", 256, False),
    ]:
        block = zero_block() | {field: value}
        got = outcome(lambda block: decode_block(encode_block(block)), block)
        require_equal(got, block if fits else Refusal.WIDTH, f"{field} of {value}")


def check_block_flags() -> None:
    """Forty of the settings of the flags that exclude each other are taken, by both ways."""
    require_equal(len(LINKED_FLAGS), 7, "flags that exclude each other")
    taken = 0
    for setting in itertools.product((0, 1), repeat=len(LINKED_FLAGS)):
        block = zero_block() | dict(zip(LINKED_FLAGS, setting, strict=True))
        encoded = outcome(encode_block, block)
        rows = mend_check(fill_rows({**block, **FIXED}))
        decoded = outcome(decode_block, rows)
        refused = encoded == Refusal.FLAGS
        require_equal(encoded, Refusal.FLAGS if refused else rows, f"encoding of {setting}")
        require_equal(decoded, Refusal.FLAGS if refused else block, f"decoding of {setting}")
        taken += not refused
    require_equal(taken, 40, "settings that are taken")


def check_block_round_trip() -> None:
    """Every block decodes as it was, and one with a bit or a burst wrong not at all."""
    source = random.Random(SEED)
    for _ in range(RANDOM_BLOCKS):
        block = random_block(source)
        rows = encode_block(block)
        require_equal(decode_block(rows), block, "block encoded and decoded")
        whole = int("".join(f"{row:016b}" for row in rows), 2)
        burst = (source.getrandbits(32) | 1) << source.randrange(256 - 31)
        for wrong in [1 << source.randrange(256), burst]:
            bits = f"{whole ^ wrong:0256b}"
            damaged = [int(bits[start : start + 16], 2) for start in range(0, 256, 16)]
            got = outcome(decode_block, damaged)
            wanted = Refusal.SYNC if wrong >> 251 else Refusal.CHECK
            require_equal(got, wanted, f"block with {wrong:#x} wrong")


def check_carry_blocks() -> None:
    """The first block and the last, and that the others too are encoded."""
    first = {"fr_fl_srib": 1, "mv000": -67}
    require_equal(known_block(0), zero_block() | first, "first block")
    last = {"reference": 134, "element": 3507073702, "mv000": 67}
    require_equal(known_block(134), zero_block() | {"fr_fl_srib": 1} | last, "last block")
    for position in range(STRIPES * COLUMNS):
        rows = encode_block(known_block(position))
        require_equal(decode_block(rows), known_block(position), f"block {position}")


def check_carry_lengths() -> None:
    """Missing bytes count as 0, bytes after the third slab are ignored."""
    source = random.Random(SEED)
    picture = source.randbytes(PICTURE_BYTES)
    require_equal(carry(picture + b"\xff" * 7), carry(picture), "carry of a longer input")
    short = picture[: SLAB_BYTES + 3]
    filled = short + bytes(PICTURE_BYTES - len(short))
    require_equal(carry(short), carry(filled), "carry of a shorter input")
    require_equal(split_stripes(b""), [[[0] * ROW_WORDS] * ROWS] * 3, "stripes of no input")


def head(case: str) -> str:
    """Return what sort of answer a case has."""
    text = answer(case)
    if case.startswith("check"):
        return "check"
    return text if text.startswith("refused") else text.split(" ")[0]


def check_vector_words() -> None:
    """A line gives every field of a block; worked answers."""
    require_equal(sorted(NUMBERS), sorted(FIELDS), "numbers of a line")
    require_equal(answer("check"), "FFFFFFFF", "answer for no bytes")
    require_equal(answer("check 313233343536373839"), "0376E6E7", "answer for 123456789")
    numbers = " ".join("0" for _ in NUMBERS)
    rows = " ".join(["F800", *["0000"] * 13, "BE42", "6EB6"])
    require_equal(answer(f"encode {numbers}"), f"rows {rows}", "answer for zeros")
    require_equal(answer(f"decode {rows}"), f"block {numbers}", "answer for their rows")


def check_vector_answers() -> None:
    """The cases of every kind have the answers that the kind is there for."""
    for kind, cases in zip(KINDS, make_cases().values(), strict=True):
        require_equal({head(case) for case in cases}, kind.answers, kind.name)


SELF_CHECKS: list[tuple[str, Callable[[], None]]] = [
    ("packing, worked values", check_packing_values),
    ("packing, random slabs", check_packing_round_trip),
    ("scrambling, worked values", check_scrambling_values),
    ("embedding, random slabs", check_embedding),
    ("check, worked values", check_register_values),
    ("check, random messages", check_register_laws),
    ("blocks, layout", check_layout),
    ("blocks, worked values", check_block_values),
    ("blocks, flags", check_block_flags),
    ("blocks, random blocks", check_block_round_trip),
    ("carry, blocks", check_carry_blocks),
    ("carry, input lengths", check_carry_lengths),
    ("vectors, worked values", check_vector_words),
    ("vectors, answers", check_vector_answers),
]
