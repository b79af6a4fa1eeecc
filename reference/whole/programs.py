"""Run the built programs on inputs that the gate does not store, and compare.

    python3 reference/whole/programs.py BIN

BIN is the folder of the built programs. `carry_picture` is run on the sample, on short
and long inputs and on random words, with and without a file name; what it
prints and what it writes have to be the reference's, byte for byte. `survey`
is run on pictures that the reference's inserter made, some of them damaged
(`pictures.py`); what it prints has to be the reference's too.
"""

from __future__ import annotations

import subprocess
import sys
import tempfile
from collections.abc import Callable, Mapping
from pathlib import Path

from bench import PICTURE_BYTES, SLAB_BYTES
from carry import carry
from draws import Draws
from pictures import survey_inputs
from survey import survey

ROOT = Path(__file__).resolve().parents[2]
SEED = 351


def carry_inputs(sample: bytes) -> dict[str, bytes]:
    """Return the inputs by name: the sample, short ones, a long one, random words."""
    return {
        "sample": sample,
        "empty": b"",
        "one byte into the second slab": sample[: SLAB_BYTES + 1],
        "one byte short of the third slab": sample[: 2 * SLAB_BYTES - 1],
        "longer than three slabs": sample + b"more",
        "random words": Draws(SEED).message(PICTURE_BYTES),
        "all ones": b"\xff" * PICTURE_BYTES,
    }


def run_carry(program: Path, name: str, data: bytes) -> list[str]:
    """Return what differs when `carry` is run on the data, with a file name and without."""
    expected = carry(data)
    faults: list[str] = []
    with tempfile.TemporaryDirectory() as folder:
        written = Path(folder) / "slabs"
        for arguments in ([], [str(written)]):
            faults += run_program(program, name, data, expected.text, *arguments)
        if not written.exists() or written.read_bytes() != expected.packed:
            faults.append(f"carry, {name}: the file differs")
    return faults


def run_survey(program: Path, name: str, data: bytes) -> list[str]:
    """Return what differs when `survey` is run on the data."""
    return run_program(program, name, data, survey(data))


def run_program(
    program: Path, name: str, data: bytes, expected: str, *arguments: str
) -> list[str]:
    """Return what differs from what a program is expected to print."""
    run = subprocess.run([program, *arguments], input=data, capture_output=True, check=False)
    printed = run.stdout.decode("utf-8", "backslashreplace")
    if run.returncode == 0 and printed == expected:
        return []
    return [f"{program.name}, {name}: status {run.returncode}, printed {printed!r}"]


def agrees(
    program: Path, run: Callable[[Path, str, bytes], list[str]], inputs: Mapping[str, bytes]
) -> bool:
    """Tell whether a program does what the reference does on all inputs, and print it."""
    faults = [fault for name, data in inputs.items() for fault in run(program, name, data)]
    for fault in faults:
        print(fault, file=sys.stderr)
    said = "differs" if faults else f"agrees with the reference on {len(inputs)} inputs"
    print(f"{program.name} {said}")
    return not faults


def main() -> int:
    """Run all inputs through the built programs; status 1 if anything differs."""
    programs = Path(sys.argv[1]).resolve()
    sample = (ROOT / "crates" / "carry_picture" / "stdin").read_bytes()
    alike = [
        agrees(programs / "carry_picture", run_carry, carry_inputs(sample)),
        agrees(programs / "survey", run_survey, survey_inputs(sample)),
    ]
    return 0 if all(alike) else 1


if __name__ == "__main__":
    sys.exit(main())
