"""The check of a message: CRC-32/MPEG-2, the register of ISO/IEC 13818-1 annex A.

The register starts as 32 ones, bits enter most significant first, and nothing
is inverted at the end.
"""

from __future__ import annotations

CHECK_BITS = 32
POLYNOMIAL = 0x04C11DB7
START = (1 << CHECK_BITS) - 1


def shift_in(register: int, bit: int) -> int:
    """Return the register once one more bit has entered."""
    leaving = register >> CHECK_BITS - 1
    shifted = (register << 1) % (1 << CHECK_BITS)
    return shifted if leaving == bit else shifted ^ POLYNOMIAL


def check_of(message: bytes) -> int:
    """Return the check of a message."""
    register = START
    for byte in message:
        for place in reversed(range(8)):
            register = shift_in(register, byte >> place & 1)
    return register
