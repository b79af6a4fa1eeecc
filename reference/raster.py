"""Rasters of ten-bit sample words, and how a slab of them is packed in bytes.

A sample word has ten bits, 9 (most significant) down to 0. A slab is 16 rows
of 1,440 words in the order Cb, Y, Cr, Y. Packed, its words lie row after row
with no gap, four words in five bytes, most significant bit first.
"""

from __future__ import annotations

from collections.abc import Sequence

WORD_BITS = 10
WORD_LIMIT = 1 << WORD_BITS

ROWS = 16
ROW_WORDS = 1440

GROUP_WORDS = 4
GROUP_BYTES = 5

SLAB_BYTES = ROWS * ROW_WORDS * GROUP_BYTES // GROUP_WORDS

MACROBLOCK_WORDS = 32
COLUMNS = ROW_WORDS // MACROBLOCK_WORDS

Slab = list[list[int]]
"""The rows of a slab, each a list of words."""


def pack_words(words: Sequence[int]) -> bytes:
    """Pack words, a multiple of four of them, four to five bytes."""
    if len(words) % GROUP_WORDS:
        raise ValueError(f"{len(words)} words are not whole groups of {GROUP_WORDS}")
    packed = bytearray()
    for start in range(0, len(words), GROUP_WORDS):
        group = 0
        for word in words[start : start + GROUP_WORDS]:
            if not 0 <= word < WORD_LIMIT:
                raise ValueError(f"{word} is not a ten-bit word")
            group = group << WORD_BITS | word
        packed += group.to_bytes(GROUP_BYTES, "big")
    return bytes(packed)


def unpack_words(packed: bytes) -> list[int]:
    """Unpack bytes, a multiple of five of them, into their words."""
    if len(packed) % GROUP_BYTES:
        raise ValueError(f"{len(packed)} bytes are not whole groups of {GROUP_BYTES}")
    words: list[int] = []
    for start in range(0, len(packed), GROUP_BYTES):
        group = int.from_bytes(packed[start : start + GROUP_BYTES], "big")
        for place in reversed(range(GROUP_WORDS)):
            words.append(group >> place * WORD_BITS & WORD_LIMIT - 1)
    return words


def pack_slab(slab: Slab) -> bytes:
    """Pack the 16 rows of a slab into 28,800 bytes."""
    if len(slab) != ROWS or any(len(row) != ROW_WORDS for row in slab):
        raise ValueError(f"a slab is {ROWS} rows of {ROW_WORDS} words")
    return b"".join(pack_words(row) for row in slab)


def unpack_slab(packed: bytes) -> Slab:
    """Unpack 28,800 bytes into the 16 rows of a slab."""
    if len(packed) != SLAB_BYTES:
        raise ValueError(f"a packed slab is {SLAB_BYTES} bytes, not {len(packed)}")
    words = unpack_words(packed)
    return [words[start : start + ROW_WORDS] for start in range(0, len(words), ROW_WORDS)]


def moved_words(before: Slab, after: Slab) -> int:
    """Count the words that differ between two slabs."""
    return sum(
        old != new
        for old_row, new_row in zip(before, after, strict=True)
        for old, new in zip(old_row, new_row, strict=True)
    )
