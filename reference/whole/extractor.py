"""The extractor: reading blocks, gathering a picture's elements, delivering its image."""

from __future__ import annotations

from block import RECORD, Block, decode_block
from formats import ELEMENTS, check_first, format_of
from image import check_image, join
from inserter import Record
from raster import Raster
from refusals import Refusal, Refused
from scrambling import read_rows
from slots import State, Table


def read(number: int, column: int, slab: Raster) -> Block:
    """Return the block that a column of a slab carries."""
    picture_format = format_of(number)
    if slab.extent != picture_format.slab:
        raise Refused(Refusal.SLAB)
    picture_format.position(0, column)
    return decode_block(read_rows(slab, column))


class Gathering:
    """A started gathering of a picture of a format, from its first reference."""

    def __init__(self, number: int, first: int, table: Table[int]) -> None:
        self.format = format_of(number)
        check_first(first)
        self.first = first
        check_table(table)
        table.clear()

    def gather(
        self, stripe: int, column: int, slab: Raster, table: Table[int], sheet: Table[Record]
    ) -> Block:
        """Read a macroblock and offer its element to the table and its record to the sheet."""
        check_table(table)
        if len(sheet) != self.format.columns:
            raise Refused(Refusal.LENGTH)
        if slab.extent != self.format.slab:
            raise Refused(Refusal.SLAB)
        expected = self.format.reference(self.first, stripe, column)
        block = decode_block(read_rows(slab, column))
        if block["fr_fl_srib"] != self.format.frame:
            raise Refused(Refusal.STRUCTURE)
        if block["reference"] != expected:
            raise Refused(Refusal.FOREIGN)
        table.offer(self.format.index(stripe, column), block["element"])
        sheet.offer(column, {component: block[component] for component in RECORD})
        return block


def check_table(table: Table[int]) -> None:
    """Refuse an element table of another length."""
    if len(table) != ELEMENTS:
        raise Refused(Refusal.LENGTH)


def deliver(table: Table[int]) -> bytes:
    """Return the sealed image that the elements of a table make."""
    check_table(table)
    for state, refusal in ((State.EMPTY, Refusal.EMPTY), (State.DISPUTED, Refusal.DISPUTED)):
        lowest = table.lowest(state)
        if lowest is not None:
            raise Refused(refusal, lowest)
    image = join([table.slot(number).value for number in range(ELEMENTS)])
    check_image(image)
    return image
