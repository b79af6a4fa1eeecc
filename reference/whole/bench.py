"""The bench picture of the programs: three packed slabs of format 4."""

from __future__ import annotations

from formats import format_of
from raster import PackedBuffer, bytes_for

BENCH = format_of(4)
SLAB_BYTES = bytes_for(BENCH.slab)
PICTURE_BYTES = BENCH.stripes * SLAB_BYTES


def split_stripes(data: bytes) -> list[bytes]:
    """Return the three packed slabs: missing bytes are 0, bytes after the third are ignored."""
    picture = data[:PICTURE_BYTES].ljust(PICTURE_BYTES, b"\0")
    return [
        picture[start : start + SLAB_BYTES] for start in range(0, PICTURE_BYTES, SLAB_BYTES)
    ]


def slab_in(memory: bytearray) -> PackedBuffer:
    """Return the slab in packed memory."""
    return PackedBuffer(BENCH.slab, memory)
