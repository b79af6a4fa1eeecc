"""Answers to the cases of `vectors` about picture images."""

from __future__ import annotations

from collections.abc import Callable, Mapping, Sequence

from case_words import UNSIGNED_16, inverted, number, replaced
from image import DATA_BYTES, blank, check_image, elements, seal, with_check
from refusals import Refused


def data_of(words: Sequence[str]) -> bytes:
    """Return zero bytes, as many as the first word says, with some replaced."""
    if not words:
        raise ValueError("data has a length")
    return replaced(bytes(number(words[0], UNSIGNED_16)), words[1:])


def answer_seal(words: Sequence[str]) -> str:
    """Seal data over the blank image; the answer ends with the last four bytes after it."""
    image, said = blank(), "sealed"
    try:
        image = seal(data_of(words))
    except Refused as refused:
        said = f"refused {refused.refusal.value}"
    return f"{said} {image[DATA_BYTES:].hex().upper()}"


def answer_elements(words: Sequence[str]) -> str:
    """Return the elements of a sealed image."""
    return " ".join(["elements", *(f"{part:08X}" for part in elements(seal(data_of(words))))])


def answer_image(words: Sequence[str]) -> str:
    """Judge the blank image with some bits inverted."""
    check_image(inverted(blank(), words))
    return "lawful"


def answer_mended(words: Sequence[str]) -> str:
    """Judge the blank image with some bits inverted and the check mended."""
    check_image(with_check(inverted(blank()[:DATA_BYTES], words)))
    return "lawful"


IMAGES: Mapping[str, Callable[[Sequence[str]], str]] = {
    "seal": answer_seal,
    "elements": answer_elements,
    "image": answer_image,
    "mended": answer_mended,
}
