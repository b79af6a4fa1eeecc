"""The words of a case: numbers, changes of bytes, and memory from a seed."""

from __future__ import annotations

import re
from collections.abc import Iterator, Mapping, Sequence
from functools import cache

UNSIGNED_8 = range(1 << 8)
UNSIGNED_16 = range(1 << 16)
UNSIGNED_32 = range(1 << 32)

MULTIPLIER = 1664525
INCREMENT = 1013904223


def number(word: str, values: range) -> int:
    """Return the number that a word spells, one of some values."""
    if not re.fullmatch("[0-9]+", word) or int(word) not in values:
        raise ValueError(f"{word!r} is no number below {values.stop}")
    return int(word)


def numbers(words: Sequence[str], *values: range) -> list[int]:
    """Return the numbers that as many words spell."""
    if len(words) != len(values):
        raise ValueError(f"{len(words)} words for {len(values)} numbers")
    return [number(word, each) for word, each in zip(words, values, strict=True)]


def changes(words: Sequence[str]) -> Iterator[tuple[int, int]]:
    """Yield the places and bytes that words such as 15=40 give."""
    for word in words:
        if not re.fullmatch("[0-9]+=[0-9A-F]{2}", word):
            raise ValueError(f"{word!r} is not a byte and its value in hex")
        place, byte = word.split("=")
        yield number(place, UNSIGNED_16), int(byte, 16)


def replaced(data: bytes, words: Sequence[str]) -> bytes:
    """Return bytes with some replaced."""
    changed = bytearray(data)
    for place, byte in changes(words):
        changed[within(place, changed)] = byte
    return bytes(changed)


def inverted(data: bytes, words: Sequence[str]) -> bytes:
    """Return bytes with some bits of them inverted."""
    changed = bytearray(data)
    for place, byte in changes(words):
        changed[within(place, changed)] ^= byte
    return bytes(changed)


def within(place: int, data: Sequence[int]) -> int:
    """Return a place of some bytes, or fail."""
    if place >= len(data):
        raise ValueError(f"byte {place} of {len(data)}")
    return place


def change_words(given: Mapping[int, int]) -> list[str]:
    """Return changes of bytes as the words of a line."""
    return [f"{place}={byte:02X}" for place, byte in given.items()]


def next_state(state: int) -> int:
    """Return the state of the generator of memory after one step."""
    return (MULTIPLIER * state + INCREMENT) % (1 << 32)


@cache
def generated(seed: int, count: int, bits: int) -> tuple[int, ...]:
    """Return the high bits of so many states of the generator, the first after the seed."""
    state, parts = seed, []
    for _ in range(count):
        state = next_state(state)
        parts.append(state >> 32 - bits)
    return tuple(parts)
