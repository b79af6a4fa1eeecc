"""Checks of the reference itself: worked values, and laws on random data."""

from __future__ import annotations

import binascii
import itertools
import random
import re
from collections import Counter
from collections.abc import Callable, Iterator, Mapping
from typing import TypeVar

from answers_blocks import NUMBERS
from bench import BENCH, PICTURE_BYTES, SLAB_BYTES, slab_in, split_stripes
from block import (
    FIELDS,
    FIXED,
    LAYOUT,
    LINKED_FLAGS,
    RECORD,
    WIDTHS,
    Block,
    contradicts,
    decode_block,
    encode_block,
    fill_rows,
    fitting,
    mend_check,
    zero_block,
)
from carry import carry
from check_register import check_of
from extractor import Gathering, deliver, read
from formats import ELEMENTS, FORMATS, REFERENCES, Format, format_of
from image import (
    DATA_BYTES,
    IMAGE_BYTES,
    PARAMETERS,
    blank,
    check_image,
    elements,
    join,
    seal,
    value_of,
    with_check,
    with_value,
)
from inserter import Inserter
from raster import (
    WORD_LIMIT,
    Extent,
    Field,
    PackedBuffer,
    Raster,
    WordBuffer,
    pack_words,
    unpack_words,
)
from refusals import Refusal, Refused
from scrambling import BLOCK_ROW_BITS, BLOCK_ROWS, descramble, embed_rows, read_rows, scramble
from slots import DISPUTED, EMPTY, Slot, State, Table
from survey import survey
from vector_cases import GROUPS, make_cases
from vectors import answer

SEED = 20250
RANDOM_SLABS = 4
RANDOM_BLOCKS = 200

Given = TypeVar("Given")


class SelfCheckFailure(Exception):
    """The reference breaks one of its own rules."""


def require_equal(got: object, wanted: object, what: str) -> None:
    """Fail, naming what was checked, unless the two are equal."""
    if got != wanted:
        raise SelfCheckFailure(f"{what}: got {_brief(got)}, wanted {_brief(wanted)}")


def _brief(value: object) -> str:
    text = repr(value)
    return text if len(text) <= 80 else text[:77] + "..."


def random_words(source: random.Random, count: int) -> list[int]:
    """Return words drawn evenly from all ten-bit words."""
    return [source.randrange(WORD_LIMIT) for _ in range(count)]


def random_cells(source: random.Random, count: int) -> list[int]:
    """Return cells of sixteen bits drawn evenly."""
    return [source.getrandbits(16) for _ in range(count)]


def words_of(raster: Raster) -> list[list[int]]:
    """Return the rows of words that a raster shows."""
    rows, words = raster.extent
    return [[raster.look(row, place) for place in range(words)] for row in range(rows)]


def check_packing_values() -> None:
    """The worked value of packing, and the size of a slab."""
    words = [1023, 0, 512, 1]
    packed = bytes.fromhex("FF C0 08 00 01")
    require_equal(pack_words(words), packed, "packed words")
    require_equal(unpack_words(packed), words, "unpacked words")
    require_equal(SLAB_BYTES, 28800, "bytes of a slab")


def check_packing_round_trip() -> None:
    """Packing and unpacking undo each other, and packing is one string of bits."""
    source = random.Random(SEED)
    for _ in range(RANDOM_SLABS):
        words = random_words(source, SLAB_BYTES * 4 // 5)
        packed = pack_words(words)
        require_equal(unpack_words(packed), words, "words packed and unpacked")
        bits = "".join(f"{word:010b}" for word in words)
        require_equal(packed, int(bits, 2).to_bytes(SLAB_BYTES, "big"), "words as a string of bits")
        packed = source.randbytes(SLAB_BYTES)
        require_equal(pack_words(unpack_words(packed)), packed, "bytes unpacked and packed")


def random_rasters(source: random.Random) -> list[tuple[str, Raster]]:
    """Return a raster of each kind over random memory."""
    size, double = Extent(16, 96), Extent(32, 96)
    return [
        ("word", WordBuffer(size, random_cells(source, 16 * 96))),
        ("packed", PackedBuffer(size, bytearray(source.randbytes(16 * 96 // 4 * 5)))),
        ("top", Field(WordBuffer(double, random_cells(source, 32 * 96)), 0)),
        ("bottom", Field(WordBuffer(double, random_cells(source, 32 * 96)), 1)),
    ]


def check_rasters() -> None:
    """A set changes bit 0 of one word, in every kind of raster; sizes that are not allowed."""
    source = random.Random(SEED)
    for kind, raster in random_rasters(source):
        for _ in range(10):
            wanted = words_of(raster)
            row, place, bit = source.randrange(16), source.randrange(96), source.getrandbits(1)
            wanted[row][place] = wanted[row][place] // 2 * 2 + bit
            raster.set(row, place, bit)
            require_equal(words_of(raster), wanted, f"{kind} raster after a set")
    packed = source.randbytes(50)
    shown = words_of(PackedBuffer(Extent(5, 8), bytearray(packed)))
    require_equal(list(itertools.chain(*shown)), unpack_words(packed), "words of a packed buffer")
    cells = random_cells(source, 40)
    wanted = [cell & 0x3FF for cell in cells]
    shown = words_of(WordBuffer(Extent(5, 8), cells))
    require_equal(list(itertools.chain(*shown)), wanted, "words of a word buffer")
    for rows, words, length in [(0, 4, 0), (1089, 4, 4356), (1, 6, 6), (1, 3844, 3844), (2, 4, 9)]:
        buffer = WordBuffer(Extent(rows, words), [0] * length)
        require_equal(buffer.extent, Extent(0, 0), f"extent of {rows} x {words} in {length}")
    require_equal(PackedBuffer(Extent(1, 4), bytearray(4)).extent, Extent(0, 0), "4 packed bytes")
    odd = WordBuffer(Extent(5, 4), [0] * 20)
    require_equal([Field(odd, first).extent.rows for first in (0, 1)], [3, 2], "fields of 5 rows")


def check_scrambling_values() -> None:
    """The worked values of scrambling."""
    for chroma, luma, bit, moved in [(512, 64, 1, 513), (1019, 940, 1, 1018)]:
        what = f"chroma {chroma}, luma {luma}, bit {bit}"
        require_equal(scramble(chroma, luma, bit), moved, what)
        require_equal(descramble(moved, luma), bit, f"bit read after {what}")


def check_embedding() -> None:
    """Every block of a slab reads back, and only bit 0 of chroma words changes."""
    source = random.Random(SEED)
    for kind, slab in random_rasters(source):
        columns = slab.extent.words // 32
        before = words_of(slab)
        blocks = [
            [source.getrandbits(BLOCK_ROW_BITS) for _ in range(BLOCK_ROWS)] for _ in range(columns)
        ]
        for column, block in enumerate(blocks):
            embed_rows(slab, column, block)
        for column, block in enumerate(blocks):
            require_equal(read_rows(slab, column), block, f"{kind}: block of column {column}")
        for old_row, new_row in zip(before, words_of(slab), strict=True):
            require_equal(new_row[1::2], old_row[1::2], "luma words")
            require_equal(
                [word >> 1 for word in new_row[0::2]],
                [word >> 1 for word in old_row[0::2]],
                "bits 9 to 1 of the chroma words",
            )


def reverse_bits(value: int, width: int) -> int:
    """Return the number whose bits, `width` of them, are in reverse order."""
    return int(f"{value:0{width}b}"[::-1], 2)


def check_register_values() -> None:
    """The worked values of the check."""
    require_equal(check_of(b"123456789"), 0x0376E6E7, "check of 123456789")
    require_equal(check_of(b""), 0xFFFFFFFF, "check of no bytes")


def check_register_laws() -> None:
    """The check is the library's CRC-32 with bits reversed and ends inverted.

    A message followed by its check leaves 0 in the register.
    """
    source = random.Random(SEED)
    for length in [*range(41), 536]:
        message = source.randbytes(length)
        check = check_of(message)
        mirrored = binascii.crc32(bytes(reverse_bits(byte, 8) for byte in message))
        require_equal(check, reverse_bits(mirrored ^ 0xFFFFFFFF, 32), f"check of {length} bytes")
        require_equal(check_of(message + check.to_bytes(4, "big")), 0, "check of the whole")


def random_block(source: random.Random) -> Block:
    """Return a block that is encoded and decoded, of values that fit."""
    while True:
        block = {field: fitting(field)[source.getrandbits(WIDTHS[field])] for field in FIELDS}
        if block["reference"] <= 65520 and not contradicts(block):
            return block


def outcome(act: Callable[[Given], object], given: Given) -> object:
    """Return what an act makes of what it is given, or why it refuses it."""
    try:
        return act(given)
    except Refused as refused:
        return refused.refusal


def check_layout() -> None:
    """Every row is full, and every bit of a field lies in one place."""
    require_equal([sum(part.width for part in parts) for parts in LAYOUT], [16] * 16, "row widths")
    places = [
        (part.field, bit)
        for parts in LAYOUT
        for part in parts
        for bit in range(part.low, part.high + 1)
    ]
    wanted = [(field, bit) for field in WIDTHS for bit in range(WIDTHS[field])]
    require_equal(
        sorted(place for place in places if place[0] != "reserved"),
        sorted(place for place in wanted if place[0] != "reserved"),
        "places of the bits",
    )
    require_equal(sum(field == "reserved" for field, _ in places), 22, "reserved bits")
    require_equal((len(FIELDS), len(RECORD)), (30, 23), "fields of a block and of its record")


def check_block_values() -> None:
    """The worked values of rows, and the edges of what fits."""
    flags = {"fr_fl_srib": 1, "top_field_first": 1, "mb_intra": 1}
    require_equal(encode_block(zero_block() | flags)[0], 0xFE02, "row 0")
    vector = {"mv000": -1, "motion_type": 2}
    require_equal(encode_block(zero_block() | vector)[4], 0xFFFC, "row 4")
    for field, value, fits in [
        ("mv000", -4097, False),
        ("mv000", -4096, True),
        ("mv000", 4095, True),
        ("mv000", 4096, False),
        ("mv001", 255, True),
        ("mv001", 256, False),
    ]:
        block = zero_block() | {field: value}
        got = outcome(lambda block: decode_block(encode_block(block)), block)
        require_equal(got, block if fits else Refusal.WIDTH, f"{field} of {value}")


def check_block_flags() -> None:
    """Forty of the settings of the flags that exclude each other are taken, by both ways."""
    require_equal(len(LINKED_FLAGS), 7, "flags that exclude each other")
    taken = 0
    for setting in itertools.product((0, 1), repeat=len(LINKED_FLAGS)):
        block = zero_block() | dict(zip(LINKED_FLAGS, setting, strict=True))
        encoded = outcome(encode_block, block)
        rows = mend_check(fill_rows({**block, **FIXED}))
        decoded = outcome(decode_block, rows)
        refused = encoded == Refusal.FLAGS
        require_equal(encoded, Refusal.FLAGS if refused else rows, f"encoding of {setting}")
        require_equal(decoded, Refusal.FLAGS if refused else block, f"decoding of {setting}")
        taken += not refused
    require_equal(taken, 40, "settings that are taken")


def check_block_round_trip() -> None:
    """Every block decodes as it was, and one with a bit or a burst wrong not at all."""
    source = random.Random(SEED)
    for _ in range(RANDOM_BLOCKS):
        block = random_block(source)
        rows = encode_block(block)
        require_equal(decode_block(rows), block, "block encoded and decoded")
        whole = int("".join(f"{row:016b}" for row in rows), 2)
        burst = (source.getrandbits(32) | 1) << source.randrange(256 - 31)
        for wrong in [1 << source.randrange(256), burst]:
            bits = f"{whole ^ wrong:0256b}"
            damaged = [int(bits[start : start + 16], 2) for start in range(0, 256, 16)]
            got = outcome(decode_block, damaged)
            wanted = Refusal.SYNC if wrong >> 251 else Refusal.CHECK
            require_equal(got, wanted, f"block with {wrong:#x} wrong")


def check_format_values() -> None:
    """The worked values of indices and references."""
    large = format_of(1)
    indices = [(1, 89, 134), (1, 90, 0), (3, 0, 27), (67, 119, 83)]
    for stripe, column, index in indices:
        require_equal(large.index(stripe, column), index, f"index of {stripe}, {column}")
    require_equal(large.reference(65520, 0, 1), 0, "reference of position 1 from 65520")
    require_equal(large.next_first(60000), 2639, "picture after one from 60000")
    require_equal(BENCH.slab, Extent(16, 1440), "slab of the bench")
    for number in (0, 5, 1 << 32):
        require_equal(outcome(format_of, number), Refusal.FORMAT, f"format {number}")


def macroblocks(picture_format: Format) -> Iterator[tuple[int, int]]:
    """Yield the macroblocks of a format by position."""
    return itertools.product(range(picture_format.stripes), range(picture_format.columns))


def check_formats() -> None:
    """Positions count up, and every element has its carriers."""
    for each in FORMATS:
        places = list(macroblocks(each))
        require_equal(
            [each.position(*place) for place in places], list(range(len(places))), "positions"
        )
        carried = Counter(each.index(*place) for place in places)
        require_equal(sorted(carried), list(range(ELEMENTS)), f"elements in format {each.number}")
        require_equal(min(carried.values()), each.carriers, f"carriers of format {each.number}")
        last = each.reference(0, each.stripes - 1, each.columns - 1)
        require_equal(each.next_first(0), (last + 1) % REFERENCES, "reference after the last")
        for stripe, column in [(each.stripes, 0), (0, each.columns), (-1, 0), (0, -1)]:
            got = outcome(lambda place: each.position(*place), (stripe, column))
            require_equal(got, Refusal.MACROBLOCK, f"position of {stripe}, {column}")


def check_image_table() -> None:
    """The table has 79 rows without gap or overlap; known places."""
    require_equal(len(PARAMETERS), 79, "rows of the table")
    require_equal(len({parameter.name for parameter in PARAMETERS}), 79, "names of the table")
    ends = [0, *itertools.accumulate(parameter.width for parameter in PARAMETERS)]
    require_equal([parameter.first for parameter in PARAMETERS], ends[:-1], "first bits")
    require_equal(ends[-1], 8 * IMAGE_BYTES, "bits of the table")
    known = {parameter.name: parameter[:3] for parameter in PARAMETERS}
    for name, row in {
        "horizontal_size": (26, 14, 2),
        "bit_rate": (62, 30, 2),
        "picture_structure": (261, 2, 1),
        "sub_carrier_phase": (285, 8, 1),
        "user data": (328 * 8, 208 * 8, 2),
        "spare": (2583, 41, 0),
        "check": (4288, 32, 0),
    }.items():
        require_equal(known[name], row, f"row of {name}")


def data_with(changes: Mapping[int, int]) -> bytes:
    """Return 536 zero bytes with some of them changed."""
    data = bytearray(DATA_BYTES)
    for place, byte in changes.items():
        data[place] = byte
    return bytes(data)


def check_image_values() -> None:
    """The worked values of seal, and each of its refusals alone."""
    require_equal(outcome(seal, bytes(DATA_BYTES)), Refusal.NO_STRUCTURE, "seal of zeros")
    lawful = data_with({15: 0x40, 32: 0x06})
    require_equal(seal(lawful), blank(), "seal of the blank image's data")
    require_equal(value_of(blank(), "chroma_format"), 1, "chroma_format of the blank image")
    require_equal(value_of(blank(), "picture_structure"), 3, "picture_structure of it")
    for length in (0, 535, 537, 540):
        require_equal(outcome(seal, bytes(length)), Refusal.LENGTH, f"seal of {length} bytes")
    for name, value, refusal in [
        ("MPEG standard flag", 1, Refusal.STANDARD),
        ("picture_structure", 0, Refusal.NO_STRUCTURE),
        ("chroma_format", 0, Refusal.CHROMA),
        ("chroma_format", 3, Refusal.CHROMA),
        ("spare", 1, Refusal.SPARE),
        ("spare", 1 << 40, Refusal.SPARE),
    ]:
        data = with_value(lawful, name, value)
        require_equal(outcome(seal, data), refusal, f"seal with {name} {value}")
        require_equal(outcome(check_image, with_check(data)), refusal, f"image, {name} {value}")


def check_image_laws() -> None:
    """Values go in and out, elements join to the image, and wrong bits are found."""
    source = random.Random(SEED)
    for _ in range(20):
        data = source.randbytes(DATA_BYTES)
        for name, value in [
            ("MPEG standard flag", 0),
            ("picture_structure", source.randrange(1, 4)),
            ("chroma_format", source.randrange(1, 3)),
            ("spare", 0),
        ]:
            data = with_value(data, name, value)
            require_equal(value_of(data, name), value, f"value of {name}")
        image = seal(data)
        require_equal(outcome(check_image, image), None, "sealed image")
        require_equal(join(elements(image)), image, "elements joined")
        bits = "".join(
            f"{value_of(image, parameter.name):0{parameter.width}b}" for parameter in PARAMETERS
        )
        require_equal(int(bits, 2).to_bytes(IMAGE_BYTES, "big"), image, "values one by one")
        wrong = bytearray(image)
        wrong[source.randrange(IMAGE_BYTES)] ^= 1 << source.randrange(8)
        require_equal(outcome(check_image, bytes(wrong)), Refusal.IMAGE_CHECK, "image with a bit wrong")


def check_slots() -> None:
    """A slot fills, stays with an equal value, and is disputed from an unequal one on."""
    table: Table[int] = Table(3)
    table.offer(1, 7)
    table.offer(1, 7)
    table.offer(2, 7)
    table.offer(2, 8)
    table.offer(2, 7)
    require_equal(table.slots, [EMPTY, Slot(State.HELD, 7), DISPUTED], "slots after offers")
    require_equal([table.lowest(state) for state in State], [0, 1, 2], "lowest of each state")
    require_equal(outcome(table.slot, 3), Refusal.SLOT, "slot 3 of 3")
    table.clear()
    require_equal(table.slots, [EMPTY] * 3, "slots once cleared")
    require_equal(table.lowest(State.HELD), None, "lowest held slot of none")


def check_inserter() -> None:
    """First references, and pictures one after the other, left early or not."""
    require_equal(outcome(lambda first: Inserter(5, first), 0), Refusal.FORMAT, "format 5")
    for first in (65521, 65535):
        got = outcome(lambda first: Inserter(1, first), first)
        require_equal(got, Refusal.FIRST_REFERENCE, f"first reference {first}")
    inserter = Inserter(1, 60000)
    inserter.open().close()
    require_equal(inserter.next, 2639, "next reference after a picture from 60000")
    try:
        with inserter.open() as picture:
            picture.place(68, 0, slab_in(bytearray(SLAB_BYTES)), blank(), zero_block())
    except Refused as refused:
        require_equal(refused.refusal, Refusal.SLAB, "place in a bench slab")
    require_equal(inserter.next, 2639 + 8160, "next reference after one that is left early")


def random_image(source: random.Random, frame: bool) -> bytes:
    """Return a sealed image of random data, of a frame or of a field."""
    data = with_value(source.randbytes(DATA_BYTES), "MPEG standard flag", 0)
    data = with_value(data, "picture_structure", 3 if frame else source.randrange(1, 3))
    data = with_value(data, "chroma_format", source.randrange(1, 3))
    return seal(with_value(data, "spare", 0))


def random_record(source: random.Random) -> dict[str, int]:
    """Return a record that can be placed."""
    block = random_block(source)
    return {component: block[component] for component in RECORD}


def slab_of(source: random.Random, each: Format) -> WordBuffer:
    """Return a slab of a format, of random cells."""
    return WordBuffer(each.slab, random_cells(source, each.slab.rows * each.slab.words))


def check_placing() -> None:
    """What is placed is read and gathered; at most 256 words move, and none elsewhere."""
    source = random.Random(SEED)
    for each in FORMATS:
        first = source.randrange(REFERENCES)
        picture = Inserter(each.number, first).open()
        image, slab = random_image(source, each.frame), slab_of(source, each)
        table: Table[int] = Table(ELEMENTS)
        gathering = Gathering(each.number, first, table)
        for _ in range(8):
            stripe, column = source.randrange(each.stripes), source.randrange(each.columns)
            record, before = random_record(source), slab.cells.copy()
            picture.place(stripe, column, slab, image, record)
            moved = [at for at, cell in enumerate(before) if slab.cells[at] != cell]
            columns = {at % each.slab.words // 32 for at in moved}
            require_equal(columns, {column}, "columns of words that moved")
            require_equal(len(moved) <= 256, True, "at most 256 words moved")
            block = picture.block(stripe, column, image, record)
            require_equal(read(each.number, column, slab), block, "block placed and read")
            sheet: Table = Table(each.columns)
            got = gathering.gather(stripe, column, slab, table, sheet)
            require_equal(got, block, "block placed and gathered")
            index = each.index(stripe, column)
            element = Slot(State.HELD, elements(image)[index])
            require_equal(table.slot(index), element, "element gathered")
            require_equal(sheet.slot(column), Slot(State.HELD, record), "record gathered")
            require_equal(sheet.count(State.EMPTY), each.columns - 1, "slots left empty")


def check_gathering_refusals() -> None:
    """Each refusal of start, gather and deliver, in their order."""
    source = random.Random(SEED)
    table: Table[int] = Table(ELEMENTS)
    for number, first, length, refusal in [
        (5, 65521, 134, Refusal.FORMAT),
        (4, 65521, 134, Refusal.FIRST_REFERENCE),
        (4, 65520, 134, Refusal.LENGTH),
    ]:
        got = outcome(lambda table: Gathering(number, first, table), Table(length))
        require_equal(got, refusal, f"start of {number} from {first}")
    slab, image = slab_of(source, BENCH), random_image(source, frame=True)
    picture = Inserter(4, 100).open()
    for column in range(45):
        picture.place(0, column, slab, image, random_record(source))
    gathering = Gathering(4, 100, table)
    for lengths, stripe, column, refusal in [
        ((134, 45), 3, 45, Refusal.LENGTH),
        ((135, 44), 3, 45, Refusal.LENGTH),
        ((135, 45), 3, 45, Refusal.MACROBLOCK),
        ((135, 45), 0, 45, Refusal.MACROBLOCK),
        ((135, 45), 1, 0, Refusal.FOREIGN),
    ]:
        tables = (Table(lengths[0]), Table(lengths[1]))
        got = outcome(lambda given: gathering.gather(stripe, column, slab, *given), tables)
        require_equal(got, refusal, f"gather of {stripe}, {column} with {lengths}")
    other = Gathering(2, 100, table)
    got = outcome(lambda sheet: other.gather(0, 0, slab, table, sheet), Table(120))
    require_equal(got, Refusal.SLAB, "gather in another format")
    require_equal(outcome(deliver, Table(134)), Refusal.LENGTH, "deliver from 134 slots")


def check_delivery() -> None:
    """A picture is delivered as sealed, or what is wrong with it is named."""
    source = random.Random(SEED)
    for _ in range(20):
        image = random_image(source, frame=True)
        table: Table[int] = Table(ELEMENTS)
        for index in range(ELEMENTS):
            table.offer(index, elements(image)[index])
        require_equal(deliver(table), image, "image delivered")
        hole, dispute = source.sample(range(ELEMENTS), 2)
        table.offer(dispute, elements(image)[dispute] ^ 1 << source.randrange(32))
        require_equal(refused_at(deliver, table), (Refusal.DISPUTED, dispute), "disputed slot")
        table.slots[hole] = EMPTY
        require_equal(refused_at(deliver, table), (Refusal.EMPTY, hole), "empty slot")


def refused_at(act: Callable[[Given], object], given: Given) -> object:
    """Return why an act refuses, and the slot that it names."""
    try:
        return act(given)
    except Refused as refused:
        return refused.refusal, refused.slot


def check_carry_lengths() -> None:
    """Missing bytes count as 0, bytes after the third slab are ignored."""
    source = random.Random(SEED)
    picture = source.randbytes(PICTURE_BYTES)
    require_equal(split_stripes(picture + b"\xff" * 7), split_stripes(picture), "longer input")
    short = picture[: SLAB_BYTES + 3]
    filled = short + bytes(PICTURE_BYTES - len(short))
    require_equal(split_stripes(short), split_stripes(filled), "shorter input")
    require_equal(split_stripes(b""), [bytes(SLAB_BYTES)] * 3, "stripes of no input")


def check_survey() -> None:
    """What `carry` writes is whole; zeros, foreign references and damage are told apart."""
    source = random.Random(SEED)
    carried = carry(source.randbytes(PICTURE_BYTES))
    good = [f"stripe {stripe} good 45 foreign 0 bad 0" for stripe in range(3)]
    require_equal(survey(carried.packed).split("\n"), [*good, "picture whole", ""], "whole picture")
    require_equal(carried.text.split("\n")[3:], ["gathered 135 held 135", ""], "last line of carry")
    empty = [f"stripe {stripe} good 0 foreign 0 bad 45" for stripe in range(3)]
    require_equal(survey(b"").split("\n"), [*empty, "picture refused 20", ""], "empty picture")
    turned = carried.packed[SLAB_BYTES:] + carried.packed[:SLAB_BYTES]
    foreign = [f"stripe {stripe} good 0 foreign 45 bad 0" for stripe in range(3)]
    wanted = [*foreign, "picture refused 20", ""]
    require_equal(survey(turned).split("\n"), wanted, "stripes in another order")


def head(case: str) -> str:
    """Return what sort of answer a case has."""
    text = answer(case)
    if case.startswith("check"):
        return "check"
    if case.startswith("scene"):
        text = re.sub(".* (delivered|refused)", r"\1", text)
    return " ".join(text.split(" ")[:2]) if text.startswith("refused") else text.split(" ")[0]


def check_vector_words() -> None:
    """A line gives every field of a block; worked answers."""
    require_equal(sorted(NUMBERS), sorted(FIELDS), "numbers of a line")
    require_equal(answer("check"), "FFFFFFFF", "answer for no bytes")
    require_equal(answer("check 313233343536373839"), "0376E6E7", "answer for 123456789")
    numbers = " ".join("0" for _ in NUMBERS)
    rows = " ".join(["F800", *["0000"] * 13, "BE42", "6EB6"])
    require_equal(answer(f"encode {numbers}"), f"rows {rows}", "answer for zeros")
    require_equal(answer(f"decode {rows}"), f"block {numbers}", "answer for their rows")


def check_vector_answers() -> None:
    """The cases of every kind have the answers that the kind is there for."""
    for kind in itertools.chain(*GROUPS):
        got = {head(case) for case in make_cases()[kind.name]}
        require_equal(got, kind.answers, kind.name)


SELF_CHECKS: list[tuple[str, Callable[[], None]]] = [
    ("packing, worked values", check_packing_values),
    ("packing, random words", check_packing_round_trip),
    ("rasters, each kind", check_rasters),
    ("scrambling, worked values", check_scrambling_values),
    ("embedding, each kind of raster", check_embedding),
    ("check, worked values", check_register_values),
    ("check, random messages", check_register_laws),
    ("blocks, layout", check_layout),
    ("blocks, worked values", check_block_values),
    ("blocks, flags", check_block_flags),
    ("blocks, random blocks", check_block_round_trip),
    ("formats, worked values", check_format_values),
    ("formats, all macroblocks", check_formats),
    ("images, table", check_image_table),
    ("images, worked values", check_image_values),
    ("images, random images", check_image_laws),
    ("slots, offers", check_slots),
    ("inserter, references", check_inserter),
    ("inserter and extractor, random blocks", check_placing),
    ("extractor, refusals", check_gathering_refusals),
    ("extractor, delivery", check_delivery),
    ("carry, input lengths", check_carry_lengths),
    ("survey, pictures", check_survey),
    ("vectors, worked values", check_vector_words),
    ("vectors, answers", check_vector_answers),
]
