"""Cases of `vectors` about formats and references."""

from __future__ import annotations

from collections.abc import Iterator

from draws import Draws, Kind
from formats import FORMATS, REFERENCES

FIRST_EDGES = (0, 1, REFERENCES - 8160, REFERENCES - 2, REFERENCES - 1)
NO_REFERENCES = (REFERENCES, REFERENCES + 1, 65535, 65536, 65537, (1 << 32) - 1)
NO_FORMATS = (0, 5, 6, 255, 257, 260, 65537, 65540, (1 << 32) - 1)


def case_stripe(number: int, first: int, stripe: int) -> str:
    return f"stripe {number} {first} {stripe}"


def case_pictures(number: int, first: int) -> str:
    return f"pictures {number} {first}"


def all_stripes(draws: Draws) -> Iterator[str]:
    for each in FORMATS:
        for stripe in range(each.stripes):
            yield case_stripe(each.number, draws.below(REFERENCES), stripe)


def stripes_about_the_modulus(draws: Draws) -> Iterator[str]:
    """The modulus falls into each of these stripes; first references above it too."""
    for each in FORMATS:
        for _ in range(8):
            stripe = draws.below(each.stripes)
            before = each.columns * stripe + draws.below(each.columns)
            yield case_stripe(each.number, REFERENCES - 1 - before, stripe)
        for first in (REFERENCES, 65535):
            yield case_stripe(each.number, first, draws.below(each.stripes))


def stripes_outside(draws: Draws) -> Iterator[str]:
    for each in FORMATS:
        for stripe in (each.stripes, each.stripes + 1, 1000, (1 << 32) - 1):
            yield case_stripe(each.number, draws.below(REFERENCES), stripe)


def stripes_of_no_format(draws: Draws) -> Iterator[str]:
    for number in NO_FORMATS:
        for stripe in (0, 68):
            yield case_stripe(number, draws.below(REFERENCES), stripe)


def pictures(draws: Draws) -> Iterator[str]:
    for each in FORMATS:
        for first in (*FIRST_EDGES, 60000):
            yield case_pictures(each.number, first)
        for _ in range(10):
            yield case_pictures(each.number, draws.below(REFERENCES))


def pictures_from_no_reference(draws: Draws) -> Iterator[str]:
    for each in FORMATS:
        for first in NO_REFERENCES:
            yield case_pictures(each.number, first)


def pictures_of_no_format(draws: Draws) -> Iterator[str]:
    for number in NO_FORMATS:
        for first in (0, REFERENCES):
            yield case_pictures(number, first)


FORMAT_KINDS: list[Kind] = [
    Kind("stripe, all of all formats", all_stripes, {"stripe"}),
    Kind("stripe, references about the modulus", stripes_about_the_modulus, {"stripe"}),
    Kind("stripe, outside the format", stripes_outside, {"refused 11"}),
    Kind("stripe, 3 before 11", stripes_of_no_format, {"refused 3"}),
]

COUNTER_KINDS: list[Kind] = [
    Kind("pictures, first references", pictures, {"pictures"}),
    Kind("pictures, no first reference", pictures_from_no_reference, {"refused 4"}),
    Kind("pictures, 3 before 4", pictures_of_no_format, {"refused 3"}),
]
