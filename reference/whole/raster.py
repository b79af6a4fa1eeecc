"""Rasters of ten-bit sample words: buffers in memory, and fields of other rasters.

A sample word has ten bits, 9 (most significant) down to 0, and a raster is rows
of words. To look is to ask for a word; to set is to write bit 0 of a word. In a
word buffer each word is the low ten bits of a sixteen-bit cell. In a packed
buffer four words are in five bytes, most significant bit first, with no gap
between rows.
"""

from __future__ import annotations

from collections.abc import Sequence
from typing import NamedTuple, Protocol

WORD_BITS = 10
WORD_LIMIT = 1 << WORD_BITS

ROWS = 16
"""The rows of a slab."""

MACROBLOCK_WORDS = 32

GROUP_WORDS = 4
GROUP_BYTES = 5

ALLOWED_ROWS = range(1, 1089)
ALLOWED_WORDS = range(GROUP_WORDS, 3841, GROUP_WORDS)


class Extent(NamedTuple):
    """The rows of a raster, and the words of each."""

    rows: int
    words: int


NOTHING = Extent(0, 0)


class Raster(Protocol):
    """Anything that has an extent and can be looked at and set inside it."""

    @property
    def extent(self) -> Extent: ...

    def look(self, row: int, place: int) -> int: ...

    def set(self, row: int, place: int, bit: int) -> None: ...


def buffer_extent(wanted: Extent, needed: int, length: int) -> Extent:
    """Return the extent of a buffer: the wanted one, or nothing where it is not allowed."""
    allowed = wanted.rows in ALLOWED_ROWS and wanted.words in ALLOWED_WORDS and needed == length
    return wanted if allowed else NOTHING


def word_number(extent: Extent, row: int, place: int) -> int:
    """Return how many words come before a word, along the rows."""
    if row not in range(extent.rows) or place not in range(extent.words):
        raise IndexError(f"row {row}, word {place} is not in {extent}")
    return row * extent.words + place


def cells_for(wanted: Extent) -> int:
    """Return how many cells a word buffer takes."""
    return wanted.rows * wanted.words


def bytes_for(wanted: Extent) -> int:
    """Return how many bytes a packed buffer takes."""
    return wanted.rows * wanted.words // GROUP_WORDS * GROUP_BYTES


class WordBuffer:
    """A raster in cells of sixteen bits, the upper six of which stay."""

    def __init__(self, wanted: Extent, cells: list[int]) -> None:
        self.extent = buffer_extent(wanted, cells_for(wanted), len(cells))
        self.cells = cells

    def look(self, row: int, place: int) -> int:
        return self.cells[word_number(self.extent, row, place)] % WORD_LIMIT

    def set(self, row: int, place: int, bit: int) -> None:
        number = word_number(self.extent, row, place)
        self.cells[number] = self.cells[number] & ~1 | bit


class PackedBuffer:
    """A raster in bytes, four words to five."""

    def __init__(self, wanted: Extent, memory: bytearray) -> None:
        self.extent = buffer_extent(wanted, bytes_for(wanted), len(memory))
        self.memory = memory

    def look(self, row: int, place: int) -> int:
        start, within = self._group(row, place)
        return unpack_words(self.memory[start : start + GROUP_BYTES])[within]

    def set(self, row: int, place: int, bit: int) -> None:
        start, within = self._group(row, place)
        words = unpack_words(self.memory[start : start + GROUP_BYTES])
        words[within] = words[within] & ~1 | bit
        self.memory[start : start + GROUP_BYTES] = pack_words(words)

    def _group(self, row: int, place: int) -> tuple[int, int]:
        """Return where the five bytes of a word start, and which of their words it is."""
        group, within = divmod(word_number(self.extent, row, place), GROUP_WORDS)
        return GROUP_BYTES * group, within


class Field:
    """Every second row of a raster, from row 0 (top) or from row 1 (bottom)."""

    def __init__(self, below: Raster, first_row: int) -> None:
        rows, words = below.extent
        self.extent = Extent((rows + 1 - first_row) // 2, words)
        self.below = below
        self.first_row = first_row

    def look(self, row: int, place: int) -> int:
        word_number(self.extent, row, place)
        return self.below.look(2 * row + self.first_row, place)

    def set(self, row: int, place: int, bit: int) -> None:
        word_number(self.extent, row, place)
        self.below.set(2 * row + self.first_row, place, bit)


def pack_words(words: Sequence[int]) -> bytes:
    """Pack words, a multiple of four of them, four to five bytes."""
    if len(words) % GROUP_WORDS:
        raise ValueError(f"{len(words)} words are not whole groups of {GROUP_WORDS}")
    packed = bytearray()
    for start in range(0, len(words), GROUP_WORDS):
        group = 0
        for word in words[start : start + GROUP_WORDS]:
            if not 0 <= word < WORD_LIMIT:
                raise ValueError(f"{word} is not a ten-bit word")
            group = group << WORD_BITS | word
        packed += group.to_bytes(GROUP_BYTES, "big")
    return bytes(packed)


def unpack_words(packed: bytes) -> list[int]:
    """Unpack bytes, a multiple of five of them, into their words."""
    if len(packed) % GROUP_BYTES:
        raise ValueError(f"{len(packed)} bytes are not whole groups of {GROUP_BYTES}")
    words: list[int] = []
    for start in range(0, len(packed), GROUP_BYTES):
        group = int.from_bytes(packed[start : start + GROUP_BYTES], "big")
        for place in reversed(range(GROUP_WORDS)):
            words.append(group >> place * WORD_BITS & WORD_LIMIT - 1)
    return words
