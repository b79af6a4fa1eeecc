"""Slots and tables of them: empty, held with a value, or disputed."""

from __future__ import annotations

from enum import Enum
from typing import Generic, NamedTuple, TypeVar

from refusals import Refusal, Refused

Value = TypeVar("Value")


class State(Enum):
    """What a slot is, whatever value it holds."""

    EMPTY = "empty"
    HELD = "held"
    DISPUTED = "disputed"


class Slot(NamedTuple, Generic[Value]):
    """A slot; only a held one has a value."""

    state: State
    value: Value | None = None


EMPTY: Slot = Slot(State.EMPTY)
DISPUTED: Slot = Slot(State.DISPUTED)


class Table(Generic[Value]):
    """So many slots, all empty at first."""

    def __init__(self, length: int) -> None:
        self.slots: list[Slot[Value]] = [EMPTY] * length

    def __len__(self) -> int:
        return len(self.slots)

    def clear(self) -> None:
        """Make every slot empty."""
        self.slots = [EMPTY] * len(self.slots)

    def slot(self, number: int) -> Slot[Value]:
        """Return the slot of a number."""
        if number not in range(len(self.slots)):
            raise Refused(Refusal.SLOT)
        return self.slots[number]

    def offer(self, number: int, value: Value) -> None:
        """Fill an empty slot; dispute one that holds another value."""
        slot = self.slot(number)
        held = Slot(State.HELD, value)
        if slot.state is State.EMPTY:
            self.slots[number] = held
        elif slot != held:
            self.slots[number] = DISPUTED

    def lowest(self, state: State) -> int | None:
        """Return the lowest slot in a state, or none."""
        for number, slot in enumerate(self.slots):
            if slot.state is state:
                return number
        return None

    def count(self, state: State) -> int:
        """Return how many slots are in a state."""
        return sum(slot.state is state for slot in self.slots)
