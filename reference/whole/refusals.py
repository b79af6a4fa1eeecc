"""The refusals: why a call does nothing, by number."""

from __future__ import annotations

from enum import IntEnum


class Refusal(IntEnum):
    """Why a call refuses, in checking order."""

    FORMAT = 3
    FIRST_REFERENCE = 4
    LENGTH = 5
    SLOT = 6
    SLAB = 10
    MACROBLOCK = 11
    WIDTH = 12
    SYNC = 13
    CHECK = 14
    RESERVED = 15
    REFERENCE = 16
    FLAGS = 17
    STRUCTURE = 18
    FOREIGN = 19
    EMPTY = 20
    DISPUTED = 21
    IMAGE_CHECK = 22
    STANDARD = 23
    NO_STRUCTURE = 24
    CHROMA = 25
    SPARE = 26


class Refused(Exception):
    """A call that refuses; 20 and 21 name a slot."""

    def __init__(self, refusal: Refusal, slot: int | None = None) -> None:
        super().__init__(f"refused {refusal.value}")
        self.refusal = refusal
        self.slot = slot
