"""Cases of `vectors` about checks and blocks."""

from __future__ import annotations

import itertools
from collections.abc import Iterator, Sequence
from functools import partial

from answers_blocks import NUMBERS, block_words, message_words, row_words
from block import (
    CHECKED_ROWS,
    FIELDS,
    FIXED,
    LAYOUT,
    LINKED_FLAGS,
    RECORD,
    REFERENCE_LIMIT,
    SIGNED,
    SYNC_CODE,
    WIDTHS,
    Block,
    encode_block,
    fill_rows,
    fitting,
    mend_check,
    zero_block,
)
from check_register import check_of
from draws import FLAGS, Draws, Kind
from refusals import Refusal
from scrambling import BLOCK_ROW_BITS, BLOCK_ROWS, Rows

BLOCK_BITS = BLOCK_ROWS * BLOCK_ROW_BITS
CHECKED_BITS = CHECKED_ROWS * BLOCK_ROW_BITS
PAIR_BITS = 2 * BLOCK_ROW_BITS

DECODER = (
    Refusal.SYNC,
    Refusal.CHECK,
    Refusal.RESERVED,
    Refusal.REFERENCE,
    Refusal.FLAGS,
)
"""What the decoder refuses, in checking order."""


def case_check(message: bytes) -> str:
    return " ".join(["check", *message_words(message)])


def case_encode(block: Block) -> str:
    return " ".join(["encode", *block_words(block)])


def case_decode(rows: Sequence[int]) -> str:
    return " ".join(["decode", *row_words(rows)])


def rows_of(block: Block) -> Rows:
    """Return the rows of a block with a check that fits, whatever the block's flags."""
    return mend_check(fill_rows({**block, **FIXED}))


def flip(rows: Sequence[int], bit: int) -> Rows:
    """Return rows with one bit changed; bit 0 is the most significant of row 0."""
    row, place = divmod(bit, BLOCK_ROW_BITS)
    return flip_mask(rows, row, 1 << BLOCK_ROW_BITS - 1 - place)


def flip_mask(rows: Sequence[int], row: int, mask: int) -> Rows:
    """Return rows with the bits of a mask changed in one of them."""
    changed = list(rows)
    changed[row] ^= mask
    return changed


def places_of(field: str) -> list[int]:
    """Return where the bits of a field lie, counted as `flip` counts them."""
    owners = [part.field for parts in LAYOUT for part in parts for _ in range(part.width)]
    return [bit for bit, owner in enumerate(owners) if owner == field]


def with_sync(rows: Sequence[int], code: int) -> Rows:
    """Return rows with another sync code."""
    kept = BLOCK_ROW_BITS - WIDTHS["srib_sync_code"]
    return [code << kept | rows[0] % (1 << kept), *rows[1:]]


def edges(field: str) -> list[int]:
    """Return the values at and next to the edges of a field, and about 0."""
    values = fitting(field)
    near = {values[0], values[0] + 1, -1, 0, 1, values[-1] - 1, values[-1]}
    return sorted(value for value in near if value in values)


def beyond(field: str) -> list[int]:
    """Return values that a line may give but that do not fit: the nearest, and the furthest."""
    values, given = fitting(field), NUMBERS[field]
    far = {values[0] - 1, values[-1] + 1, given[0], given[-1]}
    return sorted(value for value in far if value in given and value not in values)


def settings_of_linked_flags() -> Iterator[dict[str, int]]:
    for setting in itertools.product((0, 1), repeat=len(LINKED_FLAGS)):
        yield dict(zip(LINKED_FLAGS, setting, strict=True))


# Checks.


def published_check(draws: Draws) -> Iterator[str]:
    yield case_check(b"123456789")


def checks_of_every_length(draws: Draws) -> Iterator[str]:
    yield case_check(b"")
    for length in range(1, 41):
        yield case_check(bytes(length))
        yield case_check(b"\xff" * length)
        yield case_check(draws.message(length))


def checks_of_block_length(draws: Draws) -> Iterator[str]:
    for _ in range(40):
        yield case_check(draws.message(28))


def checks_of_long_messages(draws: Draws) -> Iterator[str]:
    yield case_check(bytes(536))
    yield case_check(b"\xff" * 536)
    for _ in range(10):
        yield case_check(draws.message(536))


def checks_of_random_messages(draws: Draws) -> Iterator[str]:
    for _ in range(80):
        yield case_check(draws.message(draws.below(100)))


def checks_of_checked_messages(draws: Draws) -> Iterator[str]:
    for _ in range(20):
        message = draws.message(draws.below(40))
        yield case_check(message + check_of(message).to_bytes(4, "big"))


# Encodings.


def encode_zeros(draws: Draws) -> Iterator[str]:
    yield case_encode(zero_block())


def encode_each_flag(draws: Draws) -> Iterator[str]:
    for flag in FLAGS:
        yield case_encode(zero_block() | {flag: 1})


def encode_each_bit(draws: Draws) -> Iterator[str]:
    for field in FIELDS:
        if field not in FLAGS:
            for bit in range(WIDTHS[field]):
                value = 1 << bit
                sign = field in SIGNED and bit == WIDTHS[field] - 1
                yield case_encode(zero_block() | {field: -value if sign else value})


def encode_edges(draws: Draws) -> Iterator[str]:
    for field in NUMBERS:
        for value in edges(field):
            yield case_encode(zero_block() | {field: value})
            yield case_encode(draws.plain_block() | {field: value})


def encode_beyond(draws: Draws) -> Iterator[str]:
    for field in RECORD:
        for value in beyond(field):
            yield case_encode(zero_block() | {field: value})
            yield case_encode(draws.block() | {field: value})


def encode_beyond_contradicting(draws: Draws) -> Iterator[str]:
    for field in RECORD:
        for value in beyond(field):
            yield case_encode(draws.plain_block() | draws.contradiction() | {field: value})


def encode_linked_flags(draws: Draws) -> Iterator[str]:
    for flags in settings_of_linked_flags():
        yield case_encode(zero_block() | flags)
        yield case_encode(draws.block() | flags)


def encode_references(draws: Draws) -> Iterator[str]:
    for reference in (REFERENCE_LIMIT, REFERENCE_LIMIT + 1, 65535):
        for block in (zero_block(), draws.block(), draws.block()):
            yield case_encode(block | {"reference": reference})


def encode_random(draws: Draws) -> Iterator[str]:
    for _ in range(300):
        yield case_encode(draws.block())


def encode_one_of_its_type(draws: Draws) -> Iterator[str]:
    limited = [field for field in RECORD if beyond(field)]
    for _ in range(130):
        field = limited[draws.below(len(limited))]
        yield case_encode(draws.block() | {field: draws.within(NUMBERS[field])})


def encode_all_of_their_types(draws: Draws) -> Iterator[str]:
    for _ in range(40):
        yield case_encode({field: draws.within(NUMBERS[field]) for field in NUMBERS})


# Decodings.


def decode_random_blocks(draws: Draws) -> Iterator[str]:
    yield case_decode(encode_block(zero_block()))
    for _ in range(200):
        yield case_decode(encode_block(draws.block()))


def decode_each_bit(draws: Draws) -> Iterator[str]:
    for bit in range(CHECKED_BITS):
        yield case_decode(mend_check(flip(encode_block(zero_block()), bit)))


def decode_vector_edges(draws: Draws) -> Iterator[str]:
    for field in SIGNED:
        for value in edges(field):
            yield case_decode(encode_block(draws.block() | {field: value}))


def decode_references(draws: Draws) -> Iterator[str]:
    for reference in (0, REFERENCE_LIMIT - 1, REFERENCE_LIMIT, REFERENCE_LIMIT + 1, 65535):
        for block in (zero_block(), draws.block(), draws.block()):
            yield case_decode(encode_block(block | {"reference": reference}))


def decode_wrong_syncs(draws: Draws) -> Iterator[str]:
    for code in range(SYNC_CODE):
        yield case_decode(mend_check(with_sync(encode_block(draws.block()), code)))


def decode_wrong_checks(draws: Draws) -> Iterator[str]:
    for _ in range(8):
        *checked, high, low = encode_block(draws.block())
        yield case_decode([*checked, low, high])
        yield case_decode([*checked, high ^ 0xFFFF, low ^ 0xFFFF])
        yield case_decode([*checked, 0, 0])
        yield case_decode([*checked, draws.bits(16), draws.bits(16)])


def decode_each_reserved_bit(draws: Draws) -> Iterator[str]:
    for bit in places_of("reserved"):
        for block in (zero_block(), draws.block(), draws.block()):
            yield case_decode(mend_check(flip(encode_block(block), bit)))


def decode_linked_flags(draws: Draws) -> Iterator[str]:
    for flags in settings_of_linked_flags():
        yield case_decode(rows_of(draws.block() | flags))


def decode_first_refusal(first: Refusal, draws: Draws) -> Iterator[str]:
    """A refusal alone, with each later one, and with all sets of these."""
    later = [refusal for refusal in DECODER if refusal > first]
    for setting in itertools.product((False, True), repeat=len(later)):
        chosen = {first, *itertools.compress(later, setting)}
        for _ in range(6):
            yield case_decode(refused_rows(chosen, draws))


def refused_rows(refusals: set[Refusal], draws: Draws) -> Rows:
    """Return rows with the faults of some refusals of the decoder, and no other."""
    block = draws.block()
    if Refusal.REFERENCE in refusals:
        block["reference"] = draws.within(range(REFERENCE_LIMIT + 1, 1 << 16))
    if Refusal.FLAGS in refusals:
        block |= draws.contradiction()
    rows = rows_of(block)
    if Refusal.RESERVED in refusals:
        places = places_of("reserved")
        rows = flip(rows, places[draws.below(len(places))])
    if Refusal.SYNC in refusals:
        rows = with_sync(rows, draws.below(SYNC_CODE))
    rows = mend_check(rows)
    if Refusal.CHECK in refusals:
        rows = flip(rows, draws.within(range(CHECKED_BITS, BLOCK_BITS)))
    return rows


def decode_flips(draws: Draws) -> Iterator[str]:
    rows = encode_block(draws.block())
    for bit in range(BLOCK_BITS):
        yield case_decode(flip(rows, bit))


def decode_bursts(draws: Draws) -> Iterator[str]:
    """In each pair of neighbouring rows, errors from a first bit to a last."""
    for row in range(BLOCK_ROWS - 1):
        for _ in range(16):
            length = draws.within(range(2, PAIR_BITS + 1))
            burst = draws.bits(length) | 1 << length - 1 | 1
            burst <<= draws.below(PAIR_BITS + 1 - length)
            rows = encode_block(draws.block())
            rows = flip_mask(rows, row, burst >> BLOCK_ROW_BITS)
            yield case_decode(flip_mask(rows, row + 1, burst % (1 << BLOCK_ROW_BITS)))


def decode_random_rows(draws: Draws) -> Iterator[str]:
    for _ in range(100):
        yield case_decode(draws.rows())


def decode_random_rows_in_sync(draws: Draws) -> Iterator[str]:
    for _ in range(40):
        yield case_decode(with_sync(draws.rows(), SYNC_CODE))


def decode_random_rows_mended(draws: Draws) -> Iterator[str]:
    for _ in range(40):
        yield case_decode(mend_check(with_sync(draws.rows(), SYNC_CODE)))


def decode_random_fields(draws: Draws) -> Iterator[str]:
    for _ in range(100):
        yield case_decode(rows_of({field: draws.within(fitting(field)) for field in FIELDS}))


CHECK, ROWS, BLOCK = "check", "rows", "block"
R12, R13, R14, R15, R16, R17 = (f"refused {number}" for number in range(12, 18))

def decode_number_edges(draws: Draws) -> Iterator[str]:
    for field in NUMBERS:
        if field in FLAGS or field == "reference":
            continue
        for value in edges(field):
            yield case_decode(encode_block(draws.block() | {field: value}))


def worked_rows(draws: Draws) -> Iterator[str]:
    """The published rows FE02 and FFFC, and the limits of the first two vectors."""
    flags = {"fr_fl_srib": 1, "top_field_first": 1, "mb_intra": 1}
    yield case_encode(zero_block() | flags)
    yield case_encode(zero_block() | {"mv000": -1, "motion_type": 2})
    for value in (-4097, -4096, 4095, 4096):
        yield case_encode(zero_block() | {"mv000": value})
    for value in (-257, -256, -1, 255, 256):
        yield case_encode(zero_block() | {"mv001": value})


BLOCK_KINDS: list[Kind] = [
    Kind("check, published", published_check, {CHECK}),
    Kind("check, lengths 0 to 40", checks_of_every_length, {CHECK}),
    Kind("check, 28 bytes", checks_of_block_length, {CHECK}),
    Kind("check, 536 bytes", checks_of_long_messages, {CHECK}),
    Kind("check, random messages", checks_of_random_messages, {CHECK}),
    Kind("check, messages with their check", checks_of_checked_messages, {CHECK}),
    Kind("encode, zeros", encode_zeros, {ROWS}),
    Kind("encode, each flag alone", encode_each_flag, {ROWS}),
    Kind("encode, each other bit alone", encode_each_bit, {ROWS}),
    Kind("encode, components at their edges", encode_edges, {ROWS}),
    Kind("encode, components beyond them", encode_beyond, {R12}),
    Kind("encode, 12 before 17", encode_beyond_contradicting, {R12}),
    Kind("encode, all settings of the flags in 17", encode_linked_flags, {ROWS, R17}),
    Kind("encode, references at their edge", encode_references, {ROWS}),
    Kind("encode, random blocks", encode_random, {ROWS}),
    Kind("encode, one component of its type", encode_one_of_its_type, {ROWS, R12}),
    Kind("encode, all components of their types", encode_all_of_their_types, {R12}),
    Kind("decode, random blocks", decode_random_blocks, {BLOCK}),
    Kind("decode, each bit changed, mended", decode_each_bit, {BLOCK, R13, R15}),
    Kind("decode, vectors at their edges", decode_vector_edges, {BLOCK}),
    Kind("decode, references at their edge", decode_references, {BLOCK, R16}),
    Kind("decode, wrong sync codes, mended", decode_wrong_syncs, {R13}),
    Kind("decode, wrong checks", decode_wrong_checks, {R14}),
    Kind("decode, each reserved bit, mended", decode_each_reserved_bit, {R15}),
    Kind("decode, all settings of the flags in 17", decode_linked_flags, {BLOCK, R17}),
    Kind("decode, 13 alone and first", partial(decode_first_refusal, Refusal.SYNC), {R13}),
    Kind("decode, 14 alone and first", partial(decode_first_refusal, Refusal.CHECK), {R14}),
    Kind("decode, 15 alone and first", partial(decode_first_refusal, Refusal.RESERVED), {R15}),
    Kind("decode, 16 alone and first", partial(decode_first_refusal, Refusal.REFERENCE), {R16}),
    Kind("decode, 17 alone", partial(decode_first_refusal, Refusal.FLAGS), {R17}),
    Kind("decode, each bit changed", decode_flips, {R13, R14}),
    Kind("decode, bursts in two rows", decode_bursts, {R13, R14}),
    Kind("decode, random rows", decode_random_rows, {R13, R14}),
    Kind("decode, random rows in sync", decode_random_rows_in_sync, {R14}),
    Kind("decode, random rows in sync, mended", decode_random_rows_mended, {R15}),
    Kind("decode, random fields, mended", decode_random_fields, {BLOCK, R17}),
    Kind("decode, numbers at their edges", decode_number_edges, {BLOCK}),
    Kind("encode, worked values", worked_rows, {ROWS, R12}),
]
