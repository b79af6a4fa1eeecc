"""Run the built programs on inputs that the gate does not store, and compare.

    python3 reference/programs.py BIN

BIN is the folder of the built programs. `carry` is run on the sample, on short
and long inputs and on random words, with and without a file name; what it
prints and what it writes have to be the reference's, byte for byte.
"""

from __future__ import annotations

import subprocess
import sys
import tempfile
from pathlib import Path

from carry import PICTURE_BYTES, carry
from raster import SLAB_BYTES
from vector_cases import Draws

ROOT = Path(__file__).resolve().parent.parent
SEED = 351


def carry_inputs() -> dict[str, bytes]:
    """Return the inputs by name: the sample, short ones, a long one, random words."""
    sample = (ROOT / "crates" / "carry" / "stdin").read_bytes()
    return {
        "sample": sample,
        "empty": b"",
        "one byte into the second slab": sample[: SLAB_BYTES + 1],
        "one byte short of the third slab": sample[: 2 * SLAB_BYTES - 1],
        "longer than three slabs": sample + b"more",
        "random words": Draws(SEED).message(PICTURE_BYTES),
        "all ones": b"\xff" * PICTURE_BYTES,
    }


def run_carry(program: Path, name: str, data: bytes) -> list[str]:
    """Return what differs when `carry` is run on the data, with a file name and without."""
    expected = carry(data)
    faults: list[str] = []
    with tempfile.TemporaryDirectory() as folder:
        written = Path(folder) / "slabs"
        for arguments in ([], [str(written)]):
            run = subprocess.run([program, *arguments], input=data, capture_output=True, check=False)
            if run.returncode != 0 or run.stdout.decode() != expected.text:
                faults.append(f"carry, {name}: status {run.returncode}, printed {run.stdout.decode()!r}")
        if not written.exists() or written.read_bytes() != expected.packed:
            faults.append(f"carry, {name}: the file differs")
    return faults


def main() -> int:
    """Run all inputs through the built programs; status 1 if anything differs."""
    program = Path(sys.argv[1]).resolve() / "carry"
    inputs = carry_inputs()
    faults = [fault for name, data in inputs.items() for fault in run_carry(program, name, data)]
    for fault in faults:
        print(fault, file=sys.stderr)
    print(f"carry agrees with the reference on {len(inputs)} inputs" if not faults else "carry differs")
    return 1 if faults else 0


if __name__ == "__main__":
    sys.exit(main())
