"""Cases of `vectors` about slots."""

from __future__ import annotations

from collections.abc import Iterator, Sequence

from draws import Draws, Kind

VALUES = (0, 1, 7, 8, 1 << 31, (1 << 32) - 1)
SEARCHES = ("empty", "held", "disputed")


def case_slots(length: int, acts: Sequence[str]) -> str:
    return " ".join(["slots", str(length), *acts])


def asked(length: int) -> list[str]:
    """Return words that ask for every slot and every search."""
    return [*(str(number) for number in range(length)), *SEARCHES]


def offers(draws: Draws) -> Iterator[str]:
    """An offer, equal ones, an unequal one, the first again; and clearing."""
    for at in range(3):
        for first in VALUES:
            for second in VALUES:
                acts = [f"{at}={first}", f"{at}={second}", *asked(3), f"{at}={first}", str(at)]
                yield case_slots(3, [*acts, "clear", *asked(3)])


def no_slots(draws: Draws) -> Iterator[str]:
    for length in (0, 1, 3, 135):
        acts = [str(length), f"{length}=7", f"{length + 1}=7", str((1 << 32) - 1), *SEARCHES]
        yield case_slots(length, [*acts, "clear", *SEARCHES])


def random_acts(draws: Draws) -> Iterator[str]:
    for _ in range(200):
        length = draws.below(7)
        yield case_slots(length, [random_act(draws, length) for _ in range(24)])


def random_act(draws: Draws, length: int) -> str:
    """Return an offer, mostly, or another act."""
    at = draws.below(length + 1)
    if draws.below(8) < 5:
        return f"{at}={draws.one_of(VALUES[:3])}"
    return draws.one_of([str(at), str(at), *SEARCHES, *SEARCHES, "clear"])


SLOT_KINDS: list[Kind] = [
    Kind("slots, offers to one", offers, {"slots"}),
    Kind("slots, numbers outside", no_slots, {"slots"}),
    Kind("slots, random acts", random_acts, {"slots"}),
]
