"""Answers to the cases of `vectors` about deliveries and whole pictures."""

from __future__ import annotations

import re
from collections import Counter
from collections.abc import Callable, Iterator, Mapping, Sequence
from contextlib import contextmanager

from answers_pictures import memory_of
from answers_slots import make_offer
from block import RECORD
from case_words import UNSIGNED_16, UNSIGNED_32, number, numbers, replaced, within
from extractor import Gathering, deliver
from formats import ELEMENTS
from image import DATA_BYTES, blank, elements, seal, with_check
from inserter import Inserter, Record
from raster import MACROBLOCK_WORDS, Raster
from refusals import Refused
from scrambling import BLOCK_ROW_BITS
from slots import State, Table


def delivered_words(table: Table[int]) -> list[str]:
    """Deliver over the blank image; end with the last four bytes that it has then."""
    image, said = blank(), ["delivered"]
    try:
        image = deliver(table)
    except Refused as refused:
        said = ["refused", str(refused.refusal.value)]
        if refused.slot is not None:
            said.append(str(refused.slot))
    return [*said, image[DATA_BYTES:].hex().upper()]


def prepare(table: Table[int], image: bytes, word: str) -> bytes:
    """Do what a word says before the delivery, and return the image after it."""
    if word == "mend":
        return with_check(image[:DATA_BYTES])
    if re.fullmatch("[0-9]+:[0-9]+", word):
        start, stop = numbers(word.split(":"), UNSIGNED_32, UNSIGNED_32)
        for index in range(start, stop):
            table.offer(index, elements(image)[index] if index < ELEMENTS else 0)
        return image
    if re.fullmatch(r"[0-9]+\^[0-9A-F]{2}", word):
        place, bits = word.split("^")
        changed = bytearray(image)
        changed[within(number(place, UNSIGNED_16), image)] ^= int(bits, 16)
        return bytes(changed)
    make_offer(table, word)
    return image


def answer_deliver(words: Sequence[str]) -> str:
    """Make offers to a table, many of them elements of an image, and deliver it."""
    length, *steps = words
    table: Table[int] = Table(number(length, UNSIGNED_16))
    image = blank()
    for word in steps:
        image = prepare(table, image, word)
    return " ".join(delivered_words(table))


class Scene:
    """A slab, a picture that is placed in it, and a gathering, which may be of another one."""

    def __init__(self, words: Sequence[str]) -> None:
        self.slab = memory_of(words[:4]).slab
        format_number, placed, gathered = numbers(words[4:7], *[UNSIGNED_32] * 3)
        self.picture = Inserter(format_number, placed).open()
        self.table: Table[int] = Table(ELEMENTS)
        self.sheet: Table = Table(number(words[2], UNSIGNED_16) // MACROBLOCK_WORDS)
        self.gathering = Gathering(format_number, gathered, self.table)
        self.image = blank()
        self.placed: Counter[int] = Counter()
        self.gathered: Counter[int] = Counter()

    def take(self, word: str) -> None:
        """Take one step."""
        act, *parts = word.split(":")
        if not parts:
            self.image = seal(replaced(self.image[:DATA_BYTES], [word]))
        elif act == "flip":
            column, row = numbers(parts[:2], UNSIGNED_16, UNSIGNED_16)
            flip_row(self.slab, column, row, *parts[2:])
        elif act == "place":
            self.place(*numbers(parts, *[UNSIGNED_16] * 3))
        elif act == "gather":
            self.gather(*numbers(parts, *[UNSIGNED_16] * 3))
        else:
            raise ValueError(f"no step is called {act!r}")

    def place(self, stripe: int, start: int, stop: int) -> None:
        """Place columns of a stripe."""
        for column in range(start, stop):
            record = record_at(stripe, column)
            with counted(self.placed):
                self.picture.place(stripe, column, self.slab, self.image, record)

    def gather(self, stripe: int, start: int, stop: int) -> None:
        """Clear the sheet and gather columns of a stripe."""
        self.sheet.clear()
        for column in range(start, stop):
            with counted(self.gathered):
                self.gathering.gather(stripe, column, self.slab, self.table, self.sheet)


@contextmanager
def counted(counts: Counter[int]) -> Iterator[None]:
    """Count how a call ends: with a refusal's number, or 0."""
    try:
        yield
    except Refused as refused:
        counts[refused.refusal.value] += 1
    else:
        counts[0] += 1


def record_at(stripe: int, column: int) -> Record:
    """Return the record of a macroblock: it counts the stripes and the columns."""
    given = {"mb_intra": column % 2, "q_scale_code": stripe % 32, "num_coef_bits": column % 16384}
    return dict.fromkeys(RECORD, 0) | given


def flip_row(slab: Raster, column: int, row: int, bits: str) -> None:
    """Flip what chroma words of a row of a column carry; words that are not there stay away."""
    if not re.fullmatch("[0-9A-F]{4}", bits):
        raise ValueError("the bits of a row are 4 hex digits")
    rows, words = slab.extent
    for k in range(BLOCK_ROW_BITS):
        place = MACROBLOCK_WORDS * column + 2 * k
        if int(bits, 16) >> BLOCK_ROW_BITS - 1 - k & 1 and row < rows and place < words:
            slab.set(row, place, 1 - slab.look(row, place) % 2)


def count_words(counts: Counter[int]) -> list[str]:
    """Return how many calls were accepted, and how many refused with each number."""
    refused = [f"!{number}={count}" for number, count in sorted(counts.items()) if number]
    return [str(counts[0]), *refused]


def state_words(table: Table) -> list[str]:
    """Return how many slots are held, disputed and empty."""
    return [str(table.count(state)) for state in (State.HELD, State.DISPUTED, State.EMPTY)]


def answer_scene(words: Sequence[str]) -> str:
    """Place, damage and gather macroblocks, and deliver what was gathered."""
    scene = Scene(words)
    for word in words[7:]:
        scene.take(word)
    return " ".join(
        [
            *("scene", "placed", *count_words(scene.placed)),
            *("gathered", *count_words(scene.gathered)),
            *("table", *state_words(scene.table)),
            *("sheet", *state_words(scene.sheet)),
            *delivered_words(scene.table),
        ]
    )


SCENES: Mapping[str, Callable[[Sequence[str]], str]] = {
    "deliver": answer_deliver,
    "scene": answer_scene,
}
