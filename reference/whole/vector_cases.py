"""The cases that the program `vectors` is given, from a fixed seed.

    python3 reference/whole/vector_cases.py            print the cases
    python3 reference/whole/vector_cases.py --count    print how many there are of each kind
"""

from __future__ import annotations

import argparse
import sys
from collections.abc import Mapping
from functools import cache

from cases_blocks import BLOCK_KINDS
from cases_formats import COUNTER_KINDS, FORMAT_KINDS
from cases_images import IMAGE_KINDS
from cases_pictures import GATHER_KINDS, PLACE_KINDS, READ_KINDS
from cases_scenes import SCENE_KINDS
from cases_slots import SLOT_KINDS
from draws import Draws, Kind

SEED = 20250

GROUPS: list[list[Kind]] = [
    BLOCK_KINDS,
    FORMAT_KINDS,
    COUNTER_KINDS,
    IMAGE_KINDS,
    SLOT_KINDS,
    PLACE_KINDS,
    READ_KINDS,
    GATHER_KINDS,
    SCENE_KINDS,
]
"""The kinds by subject; each subject has draws of its own."""


@cache
def make_cases() -> Mapping[str, list[str]]:
    """Return the cases of every kind, in order."""
    cases: dict[str, list[str]] = {}
    for kinds in GROUPS:
        draws = Draws(SEED)
        cases |= {kind.name: list(kind.make(draws)) for kind in kinds}
    return cases


def cases_text() -> str:
    """Return the cases as the standard input of `vectors`."""
    return "".join(case + "\n" for cases in make_cases().values() for case in cases)


def counts_text() -> str:
    """Return how many cases there are of each kind."""
    counts = {name: len(cases) for name, cases in make_cases().items()}
    lines = [f"{count:5} {name}\n" for name, count in counts.items()]
    return "".join([*lines, f"{sum(counts.values()):5} in all\n"])


def main() -> int:
    parser = argparse.ArgumentParser(description="Make the cases of the program vectors.")
    parser.add_argument("--count", action="store_true", help="count the cases instead")
    options = parser.parse_args()
    sys.stdout.write(counts_text() if options.count else cases_text())
    return 0


if __name__ == "__main__":
    sys.exit(main())
