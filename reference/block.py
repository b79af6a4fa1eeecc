"""Blocks: their fields, how these lie in 16 rows of 16 bits, and what is refused."""

from __future__ import annotations

from collections.abc import Mapping, Sequence
from enum import IntEnum
from typing import NamedTuple

from check_register import check_of
from scrambling import BLOCK_ROW_BITS, BLOCK_ROWS, Rows

Block = dict[str, int]
"""The value of every field but the sync code, the reserved bits and the check."""


class Part(NamedTuple):
    """Bits `high` down to `low` of a field."""

    field: str
    high: int
    low: int

    @property
    def width(self) -> int:
        return self.high - self.low + 1


LAYOUT: tuple[tuple[Part, ...], ...] = (
    (
        Part("srib_sync_code", 4, 0),
        Part("fr_fl_srib", 0, 0),
        Part("top_field_first", 0, 0),
        Part("repeat_first_field", 0, 0),
        Part("422_420_chroma", 0, 0),
        Part("q_scale_type", 0, 0),
        Part("mb_quant", 0, 0),
        Part("mb_mfwd", 0, 0),
        Part("mb_mbwd", 0, 0),
        Part("mb_pattern", 0, 0),
        Part("mb_intra", 0, 0),
        Part("dct_type", 0, 0),
    ),
    (Part("reference", 15, 0),),
    (Part("element", 31, 16),),
    (Part("element", 15, 0),),
    (Part("mv000", 12, 0), Part("motion_type", 1, 0), Part("skipped_mb", 0, 0)),
    (Part("mv001", 8, 0), Part("num_other_bits", 6, 0)),
    (Part("mv010", 12, 0), Part("slice_start_flag", 0, 0), Part("reserved", 1, 0)),
    (Part("mv011", 8, 0), Part("num_mv_bits", 7, 2), Part("reserved", 0, 0)),
    (Part("mv100", 12, 0), Part("reserved", 2, 0)),
    (Part("mv101", 8, 0), Part("q_scale_code", 4, 0), Part("num_mv_bits", 1, 0)),
    (Part("mv110", 12, 0), Part("reserved", 2, 0)),
    (Part("mv111", 8, 0), Part("mb_vert_field_sel", 3, 0), Part("reserved", 2, 0)),
    (Part("num_coef_bits", 13, 0), Part("reserved", 1, 0)),
    (Part("coded_block_pattern", 7, 0), Part("reserved", 7, 0)),
    (Part("check", 31, 16),),
    (Part("check", 15, 0),),
)
"""What each row holds, from its most significant bit."""

CHECKED_ROWS = 14
"""The check is over the rows before its own."""


def _widths() -> dict[str, int]:
    widths: dict[str, int] = {}
    for part in (part for parts in LAYOUT for part in parts):
        widths[part.field] = max(widths.get(part.field, 0), part.high + 1)
    return widths


WIDTHS = _widths()

SIGNED = ("mv000", "mv010", "mv100", "mv110", "mv001", "mv011", "mv101", "mv111")
"""The fields in two's complement."""

SYNC_CODE = 0b11111

FIXED: Mapping[str, int] = {"srib_sync_code": SYNC_CODE, "reserved": 0, "check": 0}
"""What the encoder puts in the fields that are no part of a block; it mends the check last."""

FIELDS = tuple(field for field in WIDTHS if field not in FIXED)

RECORD = tuple(
    field for field in FIELDS[FIELDS.index("mb_quant") :] if field not in ("reference", "element")
)

REFERENCE_LIMIT = 65520
"""The greatest reference that is decoded."""

EXCLUDED: Mapping[str, tuple[str, ...]] = {
    "mb_intra": ("mb_mfwd", "mb_mbwd", "mb_pattern"),
    "skipped_mb": ("mb_quant", "mb_pattern", "mb_intra", "slice_start_flag"),
}
"""The flags that may not be 1 with a flag."""

LINKED_FLAGS = tuple(
    field
    for field in FIELDS
    if field in EXCLUDED or any(field in others for others in EXCLUDED.values())
)


class Refusal(IntEnum):
    """Why a block or its rows are refused."""

    WIDTH = 12
    SYNC = 13
    CHECK = 14
    RESERVED = 15
    REFERENCE = 16
    FLAGS = 17


class Refused(Exception):
    """A block that is not encoded, or rows that are not decoded."""

    def __init__(self, refusal: Refusal) -> None:
        super().__init__(f"refused {refusal.value}")
        self.refusal = refusal


def zero_block() -> Block:
    """Return the block whose fields are all 0."""
    return dict.fromkeys(FIELDS, 0)


def fitting(field: str) -> range:
    """Return the values that fit the width of a field."""
    limit = 1 << WIDTHS[field]
    return range(-limit // 2, limit // 2) if field in SIGNED else range(limit)


def contradicts(block: Mapping[str, int]) -> bool:
    """Tell whether a flag is 1 with one that it excludes."""
    return any(
        block[flag] and any(block[other] for other in others) for flag, others in EXCLUDED.items()
    )


def fill_rows(contents: Mapping[str, int]) -> Rows:
    """Lay every field in its place, with no rule but that each fits its width."""
    for field in WIDTHS:
        if contents[field] not in fitting(field):
            raise ValueError(f"{field} does not take {contents[field]}")
    rows: Rows = []
    for parts in LAYOUT:
        row = 0
        for part in parts:
            # Shifts and remainders of a negative number are those of its two's complement.
            row = row << part.width | (contents[part.field] >> part.low) % (1 << part.width)
        rows.append(row)
    return rows


def gather_fields(rows: Sequence[int]) -> dict[str, int]:
    """Read every field from its place; the reserved bits are joined by or."""
    if len(rows) != BLOCK_ROWS or any(not 0 <= row < 1 << BLOCK_ROW_BITS for row in rows):
        raise ValueError(f"a block is {BLOCK_ROWS} numbers of {BLOCK_ROW_BITS} bits")
    contents = dict.fromkeys(WIDTHS, 0)
    for row, parts in zip(rows, LAYOUT, strict=True):
        left = BLOCK_ROW_BITS
        for part in parts:
            left -= part.width
            contents[part.field] |= (row >> left) % (1 << part.width) << part.low
    for field in SIGNED:
        if contents[field] not in fitting(field):
            contents[field] -= 1 << WIDTHS[field]
    return contents


def check_of_rows(rows: Sequence[int]) -> int:
    """Return the check that fits the rows before it."""
    return check_of(b"".join(row.to_bytes(2, "big") for row in rows[:CHECKED_ROWS]))


def mend_check(rows: Sequence[int]) -> Rows:
    """Return the rows with the check that fits them."""
    check_alone = fill_rows(dict.fromkeys(WIDTHS, 0) | {"check": check_of_rows(rows)})
    return [*rows[:CHECKED_ROWS], *check_alone[CHECKED_ROWS:]]


def encode_block(block: Block) -> Rows:
    """Return the rows of a block, or raise Refused."""
    if any(block[field] not in fitting(field) for field in RECORD):
        raise Refused(Refusal.WIDTH)
    if contradicts(block):
        raise Refused(Refusal.FLAGS)
    return mend_check(fill_rows({**block, **FIXED}))


def decode_block(rows: Sequence[int]) -> Block:
    """Return the block in 16 rows, or raise Refused."""
    contents = gather_fields(rows)
    if contents["srib_sync_code"] != SYNC_CODE:
        raise Refused(Refusal.SYNC)
    if contents["check"] != check_of_rows(rows):
        raise Refused(Refusal.CHECK)
    if contents["reserved"]:
        raise Refused(Refusal.RESERVED)
    if contents["reference"] > REFERENCE_LIMIT:
        raise Refused(Refusal.REFERENCE)
    if contradicts(contents):
        raise Refused(Refusal.FLAGS)
    return {field: contents[field] for field in FIELDS}
