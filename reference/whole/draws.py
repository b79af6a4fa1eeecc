"""Random draws for cases, and kinds of cases."""

from __future__ import annotations

from collections.abc import Callable, Iterator, Sequence
from typing import NamedTuple, TypeVar

from answers_blocks import FLAG, NUMBERS
from block import (
    FIELDS,
    LINKED_FLAGS,
    RECORD,
    REFERENCE_LIMIT,
    Block,
    contradicts,
    fitting,
    zero_block,
)
from scrambling import BLOCK_ROW_BITS, BLOCK_ROWS, Rows

Item = TypeVar("Item")

FLAGS = tuple(field for field in NUMBERS if NUMBERS[field] == FLAG)


class Draws:
    """Numbers from a linear congruential generator, alike in every version of Python.

    The multiplier and increment are those of Knuth's MMIX; the high bits are used.
    """

    def __init__(self, seed: int) -> None:
        self.state = seed

    def bits(self, count: int) -> int:
        """Return a number of some bits, at most 32."""
        self.state = (self.state * 6364136223846793005 + 1442695040888963407) % (1 << 64)
        return self.state >> 64 - count

    def below(self, limit: int) -> int:
        """Return a number from 0 to limit - 1, where the limit is at most 2^32."""
        return self.bits(32) * limit >> 32

    def within(self, values: range) -> int:
        """Return a number of a range of step 1."""
        return values.start + self.below(values.stop - values.start)

    def message(self, length: int) -> bytes:
        """Return some random bytes."""
        return bytes(self.bits(8) for _ in range(length))

    def rows(self) -> Rows:
        """Return random rows."""
        return [self.bits(BLOCK_ROW_BITS) for _ in range(BLOCK_ROWS)]

    def plain_block(self) -> Block:
        """Return a block of random numbers that are decoded, with no flag set."""
        block = zero_block()
        for field in FIELDS:
            if field not in FLAGS:
                block[field] = self.within(fitting(field))
        block["reference"] = self.below(REFERENCE_LIMIT + 1)
        return block

    def flags(self, flags: Sequence[str] = FLAGS) -> dict[str, int]:
        """Return flags set at random."""
        return {flag: self.bits(1) for flag in flags}

    def block(self) -> Block:
        """Return a random block that is encoded and decoded."""
        while True:
            block = self.plain_block() | self.flags()
            if not contradicts(block):
                return block

    def contradiction(self) -> dict[str, int]:
        """Return a random setting of the flags that is refused."""
        while True:
            flags = self.flags(LINKED_FLAGS)
            if contradicts(flags):
                return flags

    def record(self) -> Block:
        """Return a random record that can be placed."""
        block = self.block()
        return {component: block[component] for component in RECORD}

    def one_of(self, items: Sequence[Item]) -> Item:
        """Return one of some items."""
        return items[self.below(len(items))]


class Kind(NamedTuple):
    """Cases of one kind, and the answers they have: all of these, and no other."""

    name: str
    make: Callable[[Draws], Iterator[str]]
    answers: set[str]
