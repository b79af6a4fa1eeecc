"""The picture image: 540 bytes of parameters, its table, its seal and its elements.

Bit 0 is the most significant of byte 0. The table is that of SMPTE 351M's
clause 8: every parameter with its first bit, width and category. The check at
the end is over all bits before it.
"""

from __future__ import annotations

from collections.abc import Sequence
from functools import cache
from typing import NamedTuple

from check_register import check_of
from formats import ELEMENTS
from refusals import Refusal, Refused


class Parameter(NamedTuple):
    """A row of the table; spare bits and the check have category 0."""

    first: int
    width: int
    category: int
    name: str


PARAMETERS = (
    Parameter(0, 1, 3, "MPEG standard flag"),
    Parameter(1, 1, 3, "red_bw_flag"),
    Parameter(2, 3, 3, "red_bw_indicator"),
    Parameter(5, 2, 3, "header present flags"),
    Parameter(7, 16, 3, "extension start code flags"),
    Parameter(23, 3, 3, "other start codes"),
    Parameter(26, 14, 2, "horizontal_size"),
    Parameter(40, 14, 2, "vertical_size"),
    Parameter(54, 4, 2, "aspect_ratio_information"),
    Parameter(58, 4, 2, "frame_rate_code"),
    Parameter(62, 30, 2, "bit_rate"),
    Parameter(92, 18, 2, "vbv_buffer_size"),
    Parameter(110, 1, 2, "constrained_parameters_flag"),
    Parameter(111, 8, 2, "profile_and_level_indication"),
    Parameter(119, 1, 2, "progressive_sequence"),
    Parameter(120, 2, 2, "chroma_format"),
    Parameter(122, 1, 2, "low_delay"),
    Parameter(123, 3, 2, "video_format"),
    Parameter(126, 1, 2, "color_description"),
    Parameter(127, 8, 2, "color_primaries"),
    Parameter(135, 8, 2, "transfer_characteristics"),
    Parameter(143, 8, 2, "matrix_coefficients"),
    Parameter(151, 14, 2, "display_horizontal_size"),
    Parameter(165, 14, 2, "display_vertical_size"),
    Parameter(179, 25, 2, "time_code"),
    Parameter(204, 1, 2, "closed_gop"),
    Parameter(205, 1, 2, "broken_link"),
    Parameter(206, 10, 1, "temporal_reference"),
    Parameter(216, 3, 1, "picture_coding_type"),
    Parameter(219, 16, 1, "vbv_delay"),
    Parameter(235, 1, 1, "full_pel_forward_vector"),
    Parameter(236, 3, 1, "forward_f_code"),
    Parameter(239, 1, 1, "full_pel_backward_vector"),
    Parameter(240, 3, 1, "backward_f_code"),
    Parameter(243, 4, 1, "forward_horizontal_f_code"),
    Parameter(247, 4, 1, "forward_vertical_f_code"),
    Parameter(251, 4, 1, "backward_horizontal_f_code"),
    Parameter(255, 4, 1, "backward_vertical_f_code"),
    Parameter(259, 2, 1, "intra_dc_precision"),
    Parameter(261, 2, 1, "picture_structure"),
    Parameter(263, 1, 1, "top_field_first"),
    Parameter(264, 1, 1, "frame_pred_frame_dct"),
    Parameter(265, 1, 1, "concealment_motion_vectors"),
    Parameter(266, 1, 1, "q_scale_type"),
    Parameter(267, 1, 1, "intra_vlc_format"),
    Parameter(268, 1, 1, "alternate_scan"),
    Parameter(269, 1, 1, "repeat_first_field"),
    Parameter(270, 1, 1, "chroma_420_type"),
    Parameter(271, 1, 1, "progressive_frame"),
    Parameter(272, 1, 1, "composite_display_flag"),
    Parameter(273, 1, 1, "v_axis"),
    Parameter(274, 3, 1, "field_sequence"),
    Parameter(277, 1, 1, "sub_carrier"),
    Parameter(278, 7, 1, "burst_amplitude"),
    Parameter(285, 8, 1, "sub_carrier_phase"),
    Parameter(293, 1, 1, "load_intra_quantizer_matrix"),
    Parameter(294, 1, 1, "load_non_intra_quantizer_matrix"),
    Parameter(295, 1, 1, "load_chroma_intra_quantizer_matrix"),
    Parameter(296, 1, 1, "load_chroma_non_intra_quantizer_matrix"),
    Parameter(297, 512, 2, "intra_quantizer_matrix"),
    Parameter(809, 512, 2, "non_intra_quantizer_matrix"),
    Parameter(1321, 512, 2, "chroma_intra_quantizer_matrix"),
    Parameter(1833, 512, 2, "chroma_non_intra_quantizer_matrix"),
    Parameter(2345, 16, 2, "frame_center_horizontal_offset_1"),
    Parameter(2361, 16, 2, "frame_center_vertical_offset_1"),
    Parameter(2377, 16, 2, "frame_center_horizontal_offset_2"),
    Parameter(2393, 16, 2, "frame_center_vertical_offset_2"),
    Parameter(2409, 16, 2, "frame_center_horizontal_offset_3"),
    Parameter(2425, 16, 2, "frame_center_vertical_offset_3"),
    Parameter(2441, 1, 2, "copyright flag"),
    Parameter(2442, 8, 2, "copyright identifier"),
    Parameter(2450, 1, 2, "original or copy"),
    Parameter(2451, 64, 2, "copyright number"),
    Parameter(2515, 2, 1, "PTS_DTS_flag"),
    Parameter(2517, 33, 2, "PTS value"),
    Parameter(2550, 33, 2, "DTS value"),
    Parameter(2583, 41, 0, "spare"),
    Parameter(2624, 1664, 2, "user data"),
    Parameter(4288, 32, 0, "check"),
)

BY_NAME = {parameter.name: parameter for parameter in PARAMETERS}

DATA_BYTES = 536
CHECK_BYTES = 4
IMAGE_BYTES = DATA_BYTES + CHECK_BYTES
ELEMENT_BYTES = IMAGE_BYTES // ELEMENTS

FRAME = 3
"""The picture_structure of a frame."""

CHROMA_420 = 1
CHROMA_422 = 2


def value_of(data: bytes, name: str) -> int:
    """Return the value of a parameter, in an image or in its data bytes."""
    parameter = BY_NAME[name]
    after = 8 * len(data) - parameter.first - parameter.width
    return (int.from_bytes(data, "big") >> after) % (1 << parameter.width)


def with_value(data: bytes, name: str, value: int) -> bytes:
    """Return an image, or its data bytes, with another value of a parameter."""
    parameter = BY_NAME[name]
    if value not in range(1 << parameter.width):
        raise ValueError(f"{name} does not take {value}")
    after = 8 * len(data) - parameter.first - parameter.width
    changed = int.from_bytes(data, "big") ^ (value_of(data, name) ^ value) << after
    return changed.to_bytes(len(data), "big")


def check_data(data: bytes) -> None:
    """Refuse data bytes that no sealed image has."""
    if value_of(data, "MPEG standard flag") == 1:
        raise Refused(Refusal.STANDARD)
    if value_of(data, "picture_structure") == 0:
        raise Refused(Refusal.NO_STRUCTURE)
    if value_of(data, "chroma_format") not in (CHROMA_420, CHROMA_422):
        raise Refused(Refusal.CHROMA)
    if value_of(data, "spare") != 0:
        raise Refused(Refusal.SPARE)


def with_check(data: bytes) -> bytes:
    """Return data bytes and their check."""
    return data + check_of(data).to_bytes(CHECK_BYTES, "big")


def seal(data: bytes) -> bytes:
    """Return the sealed image of 536 data bytes."""
    if len(data) != DATA_BYTES:
        raise Refused(Refusal.LENGTH)
    check_data(data)
    return with_check(data)


def check_image(image: bytes) -> None:
    """Refuse 540 bytes that are not a sealed image."""
    if len(image) != IMAGE_BYTES:
        raise ValueError(f"an image is {IMAGE_BYTES} bytes")
    data = image[:DATA_BYTES]
    if value_of(image, "check") != check_of(data):
        raise Refused(Refusal.IMAGE_CHECK)
    check_data(data)


@cache
def blank() -> bytes:
    """Return the sealed image of zeros but for chroma_format 1 and picture_structure 3."""
    data = with_value(bytes(DATA_BYTES), "chroma_format", CHROMA_420)
    return seal(with_value(data, "picture_structure", FRAME))


def elements(image: bytes) -> list[int]:
    """Return the 135 elements of an image."""
    return [
        int.from_bytes(image[start : start + ELEMENT_BYTES], "big")
        for start in range(0, IMAGE_BYTES, ELEMENT_BYTES)
    ]


def join(parts: Sequence[int]) -> bytes:
    """Return the 540 bytes that 135 elements make."""
    if len(parts) != ELEMENTS:
        raise ValueError(f"an image is {ELEMENTS} elements")
    return b"".join(part.to_bytes(ELEMENT_BYTES, "big") for part in parts)
