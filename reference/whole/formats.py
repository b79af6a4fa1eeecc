"""Picture formats: their macroblocks, references, and which element each carries."""

from __future__ import annotations

from typing import NamedTuple

from raster import MACROBLOCK_WORDS, ROWS, Extent
from refusals import Refusal, Refused

ELEMENTS = 135
"""The elements of an image."""

REFERENCES = 65521
"""References are counted modulo this."""


class Format(NamedTuple):
    """A format: the macroblocks of a stripe, the stripes, and whether a picture is a frame.

    Carriers is how many macroblocks carry an element at the least.
    """

    number: int
    columns: int
    stripes: int
    carriers: int
    frame: bool

    @property
    def slab(self) -> Extent:
        """The extent of a slab."""
        return Extent(ROWS, MACROBLOCK_WORDS * self.columns)

    def position(self, stripe: int, column: int) -> int:
        """Return the place of a macroblock, counted along the stripes."""
        if stripe not in range(self.stripes) or column not in range(self.columns):
            raise Refused(Refusal.MACROBLOCK)
        return stripe * self.columns + column

    def reference(self, first: int, stripe: int, column: int) -> int:
        """Return the reference of a macroblock in a picture of this first reference."""
        return (first + self.position(stripe, column)) % REFERENCES

    def index(self, stripe: int, column: int) -> int:
        """Return which element a macroblock carries."""
        self.position(stripe, column)
        return (stripe % 3 * 45 + column + 27 * (stripe // 3)) % ELEMENTS

    def next_first(self, first: int) -> int:
        """Return the first reference of the picture that follows."""
        return (first + self.columns * self.stripes) % REFERENCES


FORMATS = (
    Format(1, 120, 68, 58, frame=True),
    Format(2, 120, 34, 29, frame=False),
    Format(3, 80, 45, 24, frame=True),
    Format(4, 45, 3, 1, frame=True),
)


def format_of(number: int) -> Format:
    """Return the format of a number."""
    for each in FORMATS:
        if each.number == number:
            return each
    raise Refused(Refusal.FORMAT)


def check_first(first: int) -> None:
    """Refuse a first reference that is no reference."""
    if first not in range(REFERENCES):
        raise Refused(Refusal.FIRST_REFERENCE)
