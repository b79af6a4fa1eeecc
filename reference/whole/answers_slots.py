"""Answers to the cases of `vectors` about slots."""

from __future__ import annotations

from collections.abc import Callable, Mapping, Sequence

from case_words import UNSIGNED_16, UNSIGNED_32, number
from refusals import Refused
from slots import Slot, State, Table

STATES = [state.value for state in State]


def slot_word(slot: Slot[int]) -> str:
    """Return a slot as a word: its value, - if it is empty, * if it is disputed."""
    if slot.state is State.HELD:
        return str(slot.value)
    return "-" if slot.state is State.EMPTY else "*"


def table_words(table: Table[int]) -> list[str]:
    """Return the slots of a table that are not empty as the words of a line."""
    return [
        f"{at}={slot_word(slot)}"
        for at, slot in enumerate(table.slots)
        if slot.state is not State.EMPTY
    ]


def make_offer(table: Table[int], word: str) -> None:
    """Make the offer that a word such as 5=70 gives."""
    at, value = word.split("=")
    table.offer(number(at, UNSIGNED_32), number(value, UNSIGNED_32))


def act(table: Table[int], word: str) -> str:
    """Do what a word says with a table, and answer with a word."""
    if word == "clear":
        table.clear()
        return "ok"
    if word in STATES:
        lowest = table.lowest(State(word))
        return "none" if lowest is None else str(lowest)
    try:
        if "=" in word:
            make_offer(table, word)
            return "ok"
        return slot_word(table.slot(number(word, UNSIGNED_32)))
    except Refused as refused:
        return f"!{refused.refusal.value}"


def answer_slots(words: Sequence[str]) -> str:
    """Answer each word with what it comes to on a table of empty slots."""
    length, *acts = words
    table: Table[int] = Table(number(length, UNSIGNED_16))
    return " ".join(["slots", *(act(table, word) for word in acts)])


SLOTS: Mapping[str, Callable[[Sequence[str]], str]] = {"slots": answer_slots}
