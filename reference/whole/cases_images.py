"""Cases of `vectors` about picture images."""

from __future__ import annotations

import itertools
from collections.abc import Iterator, Mapping

from case_words import change_words
from draws import Draws, Kind
from image import BY_NAME, DATA_BYTES, IMAGE_BYTES, PARAMETERS, blank, with_value

LAWFUL = {15: 0x40, 32: 0x06}
"""The data of the blank image."""

JUDGED = ("MPEG standard flag", "picture_structure", "chroma_format", "spare")


def case_data(kind: str, length: int, given: Mapping[int, int]) -> str:
    return " ".join([kind, str(length), *change_words(given)])


def case_bits(kind: str, given: Mapping[int, int]) -> str:
    return " ".join([kind, *change_words(given)])


def data_changes(data: bytes) -> dict[int, int]:
    """Return how data differs from zeros."""
    return {place: byte for place, byte in enumerate(data) if byte}


def bit_mask(bit: int) -> dict[int, int]:
    """Return the byte of a bit, and its mask."""
    return {bit // 8: 0x80 >> bit % 8}


def with_bit(given: Mapping[int, int], bit: int) -> dict[int, int]:
    """Return changes with one bit more inverted."""
    changed = dict(given)
    for place, mask in bit_mask(bit).items():
        changed[place] = changed.get(place, 0) ^ mask
    return changed


def edge_bits() -> list[int]:
    """Return the first and the last bit of every parameter but the check."""
    edges = {
        bit
        for parameter in PARAMETERS[:-1]
        for bit in (parameter.first, parameter.first + parameter.width - 1)
    }
    return sorted(edges)


def bits_of(name: str) -> range:
    parameter = BY_NAME[name]
    return range(parameter.first, parameter.first + parameter.width)


def settings() -> Iterator[bytes]:
    """Yield data with every value of the judged parameters, and two of the spare bits."""
    for flag, structure, chroma, spare in itertools.product(
        (0, 1), range(4), range(4), (0, 1, 1 << 40)
    ):
        data = bytes(DATA_BYTES)
        for name, value in zip(JUDGED, (flag, structure, chroma, spare), strict=True):
            data = with_value(data, name, value)
        yield data


def random_changes(draws: Draws, count: int) -> dict[int, int]:
    """Return random bytes at random places, of lawful data."""
    data = bytearray(DATA_BYTES)
    for _ in range(count):
        data[draws.below(DATA_BYTES)] = draws.bits(8)
    lawful = with_value(bytes(data), "MPEG standard flag", 0)
    lawful = with_value(lawful, "picture_structure", 1 + draws.below(3))
    lawful = with_value(lawful, "chroma_format", 1 + draws.below(2))
    return data_changes(with_value(lawful, "spare", 0))


def seal_settings(draws: Draws) -> Iterator[str]:
    yield case_data("seal", DATA_BYTES, {})
    yield case_data("seal", DATA_BYTES, LAWFUL)
    for data in settings():
        yield case_data("seal", DATA_BYTES, data_changes(data))


def seal_lengths(draws: Draws) -> Iterator[str]:
    for length in (0, 1, 4, 15, 32, 535, 537, 540, 1072):
        yield case_data("seal", length, {})
        fitting = {place: byte for place, byte in LAWFUL.items() if place < length}
        yield case_data("seal", length, fitting)


def seal_edge_bits(draws: Draws) -> Iterator[str]:
    for bit in edge_bits():
        yield case_data("seal", DATA_BYTES, with_bit(LAWFUL, bit))


def seal_spare_bits(draws: Draws) -> Iterator[str]:
    for bit in bits_of("spare"):
        yield case_data("seal", DATA_BYTES, with_bit(LAWFUL, bit))


def seal_random(draws: Draws) -> Iterator[str]:
    for _ in range(40):
        yield case_data("seal", DATA_BYTES, random_changes(draws, 24))


def elements_random(draws: Draws) -> Iterator[str]:
    yield case_data("elements", DATA_BYTES, LAWFUL)
    for count in (1, 8, 24, 100, 1000, 1000):
        yield case_data("elements", DATA_BYTES, random_changes(draws, count))


def elements_refused(draws: Draws) -> Iterator[str]:
    yield case_data("elements", DATA_BYTES - 1, LAWFUL)
    yield case_data("elements", DATA_BYTES, LAWFUL | {0: 0x80})
    yield case_data("elements", DATA_BYTES, {15: 0x40})
    yield case_data("elements", DATA_BYTES, {32: 0x06})
    yield case_data("elements", DATA_BYTES, LAWFUL | {327: 0x01})


def image_whole(draws: Draws) -> Iterator[str]:
    yield case_bits("image", {})


def image_bits(draws: Draws) -> Iterator[str]:
    for bit in [*edge_bits(), *bits_of("check")]:
        yield case_bits("image", bit_mask(bit))
    for _ in range(40):
        yield case_bits("image", bit_mask(draws.below(8 * IMAGE_BYTES)))


def image_random(draws: Draws) -> Iterator[str]:
    for _ in range(20):
        places = {draws.below(IMAGE_BYTES): 1 + draws.below(255) for _ in range(6)}
        yield case_bits("image", places)


def mended_settings(draws: Draws) -> Iterator[str]:
    zeros = blank()[:DATA_BYTES]
    for data in settings():
        changed = bytes(one ^ other for one, other in zip(data, zeros, strict=True))
        yield case_bits("mended", data_changes(changed))


def mended_bits(draws: Draws) -> Iterator[str]:
    for bit in [*edge_bits(), *bits_of("spare")]:
        yield case_bits("mended", bit_mask(bit))


R5, R22, R23, R24, R25, R26 = (f"refused {number}" for number in (5, 22, 23, 24, 25, 26))

IMAGE_KINDS: list[Kind] = [
    Kind("seal, all settings of what is judged", seal_settings, {"sealed", R23, R24, R25, R26}),
    Kind("seal, wrong lengths", seal_lengths, {R5}),
    Kind("seal, first and last bit of each parameter", seal_edge_bits, {"sealed", R23, R25, R26}),
    Kind("seal, each spare bit", seal_spare_bits, {R26}),
    Kind("seal, random data", seal_random, {"sealed"}),
    Kind("elements, random data", elements_random, {"elements"}),
    Kind("elements, refused", elements_refused, {R5, R23, R24, R25, R26}),
    Kind("image, blank", image_whole, {"lawful"}),
    Kind("image, a bit wrong", image_bits, {R22}),
    Kind("image, bytes wrong", image_random, {R22}),
    Kind("mended, all settings of what is judged", mended_settings, {"lawful", R23, R24, R25, R26}),
    Kind("mended, a bit changed", mended_bits, {"lawful", R23, R25, R26}),
]
