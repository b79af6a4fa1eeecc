"""Blocks of data carried in bit 0 of the chroma words of a slab.

A block is 16 rows of 16 bits. Bit k of block row r (k = 0 is the most
significant) travels in bit 0 of word 32c + 2k of row r, where c is the column
of the macroblock. It is scrambled by the parities of that word and of the
next, which are taken over bits 9 to 2 and so do not change on embedding.
"""

from __future__ import annotations

from collections.abc import Sequence

from raster import COLUMNS, MACROBLOCK_WORDS, ROWS, Slab

BLOCK_ROWS = ROWS
BLOCK_ROW_BITS = 16

Rows = list[int]
"""The rows of a block, each a 16-bit number."""


def parity(word: int) -> int:
    """Return the number of ones in bits 9 to 2 of a word, modulo 2."""
    return sum(word >> bit & 1 for bit in range(2, 10)) % 2


def scramble(chroma: int, luma: int, bit: int) -> int:
    """Return the chroma word once it carries the data bit."""
    return chroma & ~1 | (bit + parity(chroma) + parity(luma)) % 2


def descramble(chroma: int, luma: int) -> int:
    """Return the data bit that the chroma word carries."""
    return ((chroma & 1) + parity(chroma) + parity(luma)) % 2


def embed_rows(slab: Slab, column: int, rows: Sequence[int]) -> None:
    """Embed the rows of a block, in place, in the macroblock at a column of a slab."""
    _require_column(column)
    if len(rows) != BLOCK_ROWS or any(not 0 <= data < 1 << BLOCK_ROW_BITS for data in rows):
        raise ValueError(f"a block is {BLOCK_ROWS} numbers of {BLOCK_ROW_BITS} bits")
    for row, data in zip(slab, rows, strict=True):
        for k in range(BLOCK_ROW_BITS):
            at = MACROBLOCK_WORDS * column + 2 * k
            bit = data >> BLOCK_ROW_BITS - 1 - k & 1
            row[at] = scramble(row[at], row[at + 1], bit)


def read_rows(slab: Slab, column: int) -> Rows:
    """Read the rows of the block carried in the macroblock at a column of a slab."""
    _require_column(column)
    rows: Rows = []
    for row in slab:
        data = 0
        for k in range(BLOCK_ROW_BITS):
            at = MACROBLOCK_WORDS * column + 2 * k
            data = data << 1 | descramble(row[at], row[at + 1])
        rows.append(data)
    return rows


def _require_column(column: int) -> None:
    if not 0 <= column < COLUMNS:
        raise ValueError(f"a slab has columns 0 to {COLUMNS - 1}, not {column}")
