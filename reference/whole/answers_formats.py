"""Answers to the cases of `vectors` about formats and references."""

from __future__ import annotations

from collections.abc import Callable, Mapping, Sequence

from case_words import UNSIGNED_16, UNSIGNED_32, numbers
from formats import format_of
from inserter import Inserter


def answer_stripe(words: Sequence[str]) -> str:
    """Return the reference and element index of each macroblock of a stripe."""
    number, first, stripe = numbers(words, UNSIGNED_32, UNSIGNED_16, UNSIGNED_32)
    picture_format = format_of(number)
    places = [
        f"{picture_format.reference(first, stripe, column)}:{picture_format.index(stripe, column)}"
        for column in range(picture_format.columns)
    ]
    return " ".join(["stripe", *places])


def answer_pictures(words: Sequence[str]) -> str:
    """Return the first references of three pictures of a new inserter."""
    inserter = Inserter(*numbers(words, UNSIGNED_32, UNSIGNED_32))
    firsts = []
    for _ in range(3):
        firsts.append(str(inserter.next))
        inserter.open().close()
    return " ".join(["pictures", *firsts])


FORMATS_AND_REFERENCES: Mapping[str, Callable[[Sequence[str]], str]] = {
    "stripe": answer_stripe,
    "pictures": answer_pictures,
}
