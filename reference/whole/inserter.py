"""The inserter: pictures one after the other, and placing blocks in them."""

from __future__ import annotations

from collections.abc import Mapping
from types import TracebackType

from block import RECORD, Block, check_record, encode_block
from formats import check_first, format_of
from image import CHROMA_422, FRAME, elements, value_of
from raster import Raster
from refusals import Refusal, Refused
from scrambling import embed_rows

Record = Mapping[str, int]
"""The value of every component of a record."""


class Inserter:
    """A format, and the first reference of the next picture."""

    def __init__(self, number: int, first: int) -> None:
        self.format = format_of(number)
        check_first(first)
        self.next = first

    def open(self) -> Picture:
        """Start a picture at the next reference."""
        return Picture(self)


class Picture:
    """An open picture; on every way out of it the inserter goes on after its last reference."""

    def __init__(self, inserter: Inserter) -> None:
        self.inserter = inserter
        self.format = inserter.format
        self.first = inserter.next

    def __enter__(self) -> Picture:
        return self

    def __exit__(
        self,
        kind: type[BaseException] | None,
        raised: BaseException | None,
        trace: TracebackType | None,
    ) -> None:
        self.close()

    def close(self) -> None:
        """End the picture."""
        self.inserter.next = self.format.next_first(self.first)

    def place(
        self, stripe: int, column: int, slab: Raster, image: bytes, record: Record
    ) -> None:
        """Write the block of a macroblock, with its element of a sealed image, into the slab."""
        if slab.extent != self.format.slab:
            raise Refused(Refusal.SLAB)
        self.format.position(stripe, column)
        check_record(record)
        if (value_of(image, "picture_structure") == FRAME) != self.format.frame:
            raise Refused(Refusal.STRUCTURE)
        embed_rows(slab, column, encode_block(self.block(stripe, column, image, record)))

    def block(self, stripe: int, column: int, image: bytes, record: Record) -> Block:
        """Return the block of a macroblock of this picture."""
        return {
            "fr_fl_srib": int(value_of(image, "picture_structure") == FRAME),
            "422_420_chroma": int(value_of(image, "chroma_format") == CHROMA_422),
            "top_field_first": value_of(image, "top_field_first"),
            "repeat_first_field": value_of(image, "repeat_first_field"),
            "q_scale_type": value_of(image, "q_scale_type"),
            "reference": self.format.reference(self.first, stripe, column),
            "element": elements(image)[self.format.index(stripe, column)],
            **{component: record[component] for component in RECORD},
        }
