"""Answers to the cases of `vectors` about placing, reading and gathering.

These work on a slab in memory that is filled from a seed. A slab is of a kind:
`word` and `packed` are buffers of these names, `top` and `bottom` the fields of
a word buffer of twice the rows.
"""

from __future__ import annotations

import binascii
import re
import struct
from collections.abc import Callable, Mapping, Sequence

from answers_blocks import RECORD_NAMES, block_words, parse_record, parse_rows
from answers_slots import make_offer, table_words
from block import encode_block, zero_block
from case_words import UNSIGNED_16, UNSIGNED_32, generated, number, numbers, replaced
from check_register import CHECK_BITS, START
from extractor import Gathering, read
from formats import ELEMENTS
from image import DATA_BYTES, blank, seal
from inserter import Inserter
from raster import (
    GROUP_BYTES,
    MACROBLOCK_WORDS,
    ROWS,
    Extent,
    Field,
    PackedBuffer,
    Raster,
    WordBuffer,
    bytes_for,
    cells_for,
    unpack_words,
)
from refusals import Refused
from scrambling import Rows, embed_rows
from slots import Slot, State, Table

MIRRORED = bytes(int(f"{byte:08b}"[::-1], 2) for byte in range(256))
"""Each byte with its bits in reverse order."""


def digest_of(message: bytes) -> int:
    """Return the check of a long message, by way of the library's mirrored CRC-32."""
    mirrored = binascii.crc32(message.translate(MIRRORED)) ^ START
    return int(f"{mirrored:0{CHECK_BITS}b}"[::-1], 2)


class Memory:
    """A slab of a kind, and the memory that it is in."""

    def __init__(self, kind: str, extent: Extent, seed: int) -> None:
        double = Extent(2 * extent.rows, extent.words)
        self.slab: Raster
        if kind == "packed":
            self.memory = bytearray(generated(seed, bytes_for(extent), 8))
            self.slab = PackedBuffer(extent, self.memory)
        elif kind == "word":
            self.cells = list(generated(seed, cells_for(extent), 16))
            self.slab = WordBuffer(extent, self.cells)
        elif kind in ("top", "bottom"):
            self.cells = list(generated(seed, cells_for(double), 16))
            self.slab = Field(WordBuffer(double, self.cells), ("top", "bottom").index(kind))
        else:
            raise ValueError(f"no slab is of the kind {kind!r}")
        self.packed = kind == "packed"

    def bytes(self) -> bytes:
        """Return all of the memory, cells with their high byte first."""
        if self.packed:
            return bytes(self.memory)
        return struct.pack(f">{len(self.cells)}H", *self.cells)

    def digest(self) -> str:
        """Return the check of the memory in hex."""
        return f"{digest_of(self.bytes()):08X}"

    def moved_since(self, before: bytes) -> int:
        """Return how many words differ from those in an earlier state of the memory."""
        size = GROUP_BYTES if self.packed else 2
        now = self.bytes()
        pairs = [
            (before[start : start + size], now[start : start + size])
            for start in range(0, len(now), size)
            if before[start : start + size] != now[start : start + size]
        ]
        if not self.packed:
            return len(pairs)
        return sum(
            one != other
            for old, new in pairs
            for one, other in zip(unpack_words(old), unpack_words(new), strict=True)
        )


def memory_of(words: Sequence[str]) -> Memory:
    """Return the slab that four words describe: kind, rows, words and seed."""
    kind, *sizes = words
    rows, width, seed = numbers(sizes, UNSIGNED_16, UNSIGNED_16, UNSIGNED_32)
    return Memory(kind, Extent(rows, width), seed)


def embed_where_possible(slab: Raster, column: int, rows: Rows) -> None:
    """Embed rows in a column; where there is no such column nothing happens."""
    height, width = slab.extent
    if height == ROWS and column < width // MACROBLOCK_WORDS:
        embed_rows(slab, column, rows)


def image_of(words: Sequence[str]) -> bytes:
    """Return the blank image with some bytes replaced, sealed."""
    try:
        return seal(replaced(blank()[:DATA_BYTES], words))
    except Refused as refused:
        raise ValueError("an image that cannot be sealed") from refused


def answer_place(words: Sequence[str]) -> str:
    """Place a record in a new picture; tell how many words moved, and the memory's check."""
    memory = memory_of(words[:4])
    number_, first, stripe, column = numbers(words[4:8], *[UNSIGNED_32] * 4)
    record = parse_record(words[8 : 8 + len(RECORD_NAMES)])
    image = image_of(words[8 + len(RECORD_NAMES) :])
    before = memory.bytes()
    try:
        with Inserter(number_, first).open() as picture:
            picture.place(stripe, column, memory.slab, image, record)
    except Refused as refused:
        return f"refused {refused.refusal.value} {memory.digest()}"
    return f"placed {memory.moved_since(before)} {memory.digest()}"


def answer_read(words: Sequence[str]) -> str:
    """Embed rows at a column, then read a column."""
    memory = memory_of(words[:4])
    number_, column, at = numbers(words[4:7], *[UNSIGNED_32] * 3)
    embed_where_possible(memory.slab, at, parse_rows(words[7:]))
    return " ".join(["block", *block_words(read(number_, column, memory.slab))])


def answer_start(words: Sequence[str]) -> str:
    """Start on a table with some offers made; tell what it holds then."""
    number_, first, length = numbers(words[:3], UNSIGNED_32, UNSIGNED_32, UNSIGNED_16)
    table: Table[int] = Table(length)
    for word in words[3:]:
        make_offer(table, word)
    said = "started"
    try:
        Gathering(number_, first, table)
    except Refused as refused:
        said = f"refused {refused.refusal.value}"
    return " ".join([said, *table_words(table)])


def sheet_words(sheet: Table) -> list[str]:
    """Return the slots of a sheet that are not empty; a record by its block's check."""
    return [
        f"{at}={record_word(slot)}"
        for at, slot in enumerate(sheet.slots)
        if slot.state is not State.EMPTY
    ]


def record_word(slot: Slot) -> str:
    """Return a slot of a sheet as a word: the check of a block with its record and zeros."""
    if slot.state is not State.HELD:
        return "*"
    *_, high, low = encode_block(zero_block() | slot.value)
    return f"{high:04X}{low:04X}"


def step(
    memory: Memory, gathering: Gathering, table: Table[int], sheet: Table, word: str
) -> list[str]:
    """Take one step: embed rows, as in 7=F800..., or gather a macroblock, as in 2:7."""
    if "=" in word:
        at, rows = word.split("=")
        if not re.fullmatch("[0-9A-F]{64}", rows):
            raise ValueError("rows are 64 hex digits")
        parts = [rows[start : start + 4] for start in range(0, 64, 4)]
        embed_where_possible(memory.slab, number(at, UNSIGNED_32), parse_rows(parts))
        return []
    stripe, column = numbers(word.split(":"), UNSIGNED_32, UNSIGNED_32)
    try:
        block = gathering.gather(stripe, column, memory.slab, table, sheet)
    except Refused as refused:
        return [f"!{refused.refusal.value}"]
    return [f"{block['reference']}:{block['element']:08X}"]


def answer_gather(words: Sequence[str]) -> str:
    """Take steps on a slab; tell what each gather answers and what table and sheet hold."""
    memory = memory_of(words[:4])
    number_, first, slots, lines = numbers(
        words[4:8], UNSIGNED_32, UNSIGNED_32, UNSIGNED_16, UNSIGNED_16
    )
    gathering = Gathering(number_, first, Table(ELEMENTS))
    table: Table[int] = Table(slots)
    sheet: Table = Table(lines)
    answers = ["gather"]
    for word in words[8:]:
        answers += step(memory, gathering, table, sheet, word)
    answers += ["table", *table_words(table), "sheet", *sheet_words(sheet)]
    return " ".join(answers)


PICTURES: Mapping[str, Callable[[Sequence[str]], str]] = {
    "place": answer_place,
    "read": answer_read,
    "start": answer_start,
    "gather": answer_gather,
}
