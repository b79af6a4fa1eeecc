"""What the program `vectors` does: answer cases, one a line.

    check HEX          the check of the bytes, as 8 hex digits; no HEX for no bytes
    encode N ... N     30 numbers: `rows` and 16 rows of 4 hex digits, or `refused N`
    decode R ... R     16 rows of 4 hex digits: `block` and 30 numbers, or `refused N`

    python3 reference/vectors.py INPUT

prints what `vectors` prints for the lines of INPUT, which may be - for
standard input.
"""

from __future__ import annotations

import argparse
import re
import sys
from collections.abc import Callable, Mapping, Sequence

from block import Block, Refused, decode_block, encode_block
from check_register import check_of
from scrambling import BLOCK_ROWS

FLAG = range(2)
UNSIGNED_8 = range(1 << 8)
UNSIGNED_16 = range(1 << 16)
UNSIGNED_32 = range(1 << 32)
SIGNED_16 = range(-1 << 15, 1 << 15)

NUMBERS: Mapping[str, range] = {
    "fr_fl_srib": FLAG,
    "top_field_first": FLAG,
    "repeat_first_field": FLAG,
    "422_420_chroma": FLAG,
    "q_scale_type": FLAG,
    "reference": UNSIGNED_16,
    "element": UNSIGNED_32,
    "mb_quant": FLAG,
    "mb_mfwd": FLAG,
    "mb_mbwd": FLAG,
    "mb_pattern": FLAG,
    "mb_intra": FLAG,
    "dct_type": FLAG,
    "mv000": SIGNED_16,
    "mv010": SIGNED_16,
    "mv100": SIGNED_16,
    "mv110": SIGNED_16,
    "mv001": SIGNED_16,
    "mv011": SIGNED_16,
    "mv101": SIGNED_16,
    "mv111": SIGNED_16,
    "motion_type": UNSIGNED_8,
    "skipped_mb": FLAG,
    "num_other_bits": UNSIGNED_8,
    "slice_start_flag": FLAG,
    "num_mv_bits": UNSIGNED_8,
    "q_scale_code": UNSIGNED_8,
    "mb_vert_field_sel": UNSIGNED_8,
    "num_coef_bits": UNSIGNED_16,
    "coded_block_pattern": UNSIGNED_8,
}
"""The numbers of a block in the order of a line, and what a line may give for each."""


def message_words(message: bytes) -> list[str]:
    """Return a message as the words of a line: one, or none if it is empty."""
    return [message.hex().upper()] if message else []


def row_words(rows: Sequence[int]) -> list[str]:
    """Return rows as the words of a line."""
    return [f"{row:04X}" for row in rows]


def block_words(block: Block) -> list[str]:
    """Return a block as the words of a line."""
    return [str(block[name]) for name in NUMBERS]


def parse_message(words: Sequence[str]) -> bytes:
    """Return the message in the words of a line."""
    if not words:
        return b""
    if len(words) != 1 or not re.fullmatch("([0-9A-F]{2})+", words[0]):
        raise ValueError("a message is pairs of hex digits")
    return bytes.fromhex(words[0])


def parse_rows(words: Sequence[str]) -> list[int]:
    """Return the rows in the words of a line."""
    if len(words) != BLOCK_ROWS or not all(re.fullmatch("[0-9A-F]{4}", word) for word in words):
        raise ValueError(f"rows are {BLOCK_ROWS} words of 4 hex digits")
    return [int(word, 16) for word in words]


def parse_block(words: Sequence[str]) -> Block:
    """Return the block in the words of a line."""
    if len(words) != len(NUMBERS) or not all(re.fullmatch("-?[0-9]+", word) for word in words):
        raise ValueError(f"a block is {len(NUMBERS)} numbers")
    block = {name: int(word) for name, word in zip(NUMBERS, words, strict=True)}
    for name, values in NUMBERS.items():
        if block[name] not in values:
            raise ValueError(f"{name} is never {block[name]}")
    return block


def answer_check(words: Sequence[str]) -> str:
    return f"{check_of(parse_message(words)):08X}"


def answer_encode(words: Sequence[str]) -> str:
    return " ".join(["rows", *row_words(encode_block(parse_block(words)))])


def answer_decode(words: Sequence[str]) -> str:
    return " ".join(["block", *block_words(decode_block(parse_rows(words)))])


ANSWERS: Mapping[str, Callable[[Sequence[str]], str]] = {
    "check": answer_check,
    "encode": answer_encode,
    "decode": answer_decode,
}


def answer(case: str) -> str:
    """Return the answer to one line, both without their newline."""
    kind, *words = case.split(" ")
    if kind not in ANSWERS:
        raise ValueError(f"no case is called {kind!r}")
    try:
        return ANSWERS[kind](words)
    except Refused as refused:
        return f"refused {refused.refusal.value}"


def answer_all(cases: str) -> str:
    """Return what `vectors` prints for the text of its standard input."""
    lines = cases.split("\n")
    if lines.pop():
        raise ValueError("the last line has no newline")
    return "".join(answer(line) + "\n" for line in lines)


def main() -> int:
    parser = argparse.ArgumentParser(description="Do what the program vectors does.")
    parser.add_argument("input", help="file of cases, or - for standard input")
    options = parser.parse_args()
    try:
        source = sys.stdin.buffer if options.input == "-" else open(options.input, "rb")
        with source:
            answers = answer_all(source.read().decode("ascii"))
    except (OSError, ValueError) as failure:
        print(f"vectors: {failure}", file=sys.stderr)
        return 1
    sys.stdout.write(answers)
    return 0


if __name__ == "__main__":
    sys.exit(main())
