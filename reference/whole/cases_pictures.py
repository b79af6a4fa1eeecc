"""Cases of `vectors` about placing, reading and gathering."""

from __future__ import annotations

import itertools
from collections.abc import Iterator, Mapping, Sequence
from functools import partial

from answers_blocks import record_words, row_words
from block import LINKED_FLAGS, RECORD, REFERENCE_LIMIT, Block, encode_block, mend_check, zero_block
from case_words import change_words
from cases_blocks import (
    BLOCK_BITS,
    CHECKED_BITS,
    DECODER,
    PAIR_BITS,
    beyond,
    flip,
    flip_mask,
    places_of,
    refused_rows,
    rows_of,
    settings_of_linked_flags,
    with_sync,
)
from cases_formats import NO_FORMATS, NO_REFERENCES
from draws import Draws, Kind
from formats import ELEMENTS, FORMATS, REFERENCES, Format, format_of
from raster import Extent
from refusals import Refusal
from scrambling import BLOCK_ROW_BITS, BLOCK_ROWS, Rows

KINDS_OF_SLAB = ("word", "packed", "top", "bottom")
SEEDS = (0, 1, 351, 20250, 4294967295)
BENCH = format_of(4)
LARGE = (1 << 32) - 1

FIELD_IMAGE = {32: 0x04}
"""What makes the blank image one of a field: picture_structure 2."""


def slab_words(kind: str, extent: Extent, seed: int) -> list[str]:
    return [kind, *(str(number) for number in (*extent, seed))]


def any_slab(draws: Draws, each: Format) -> list[str]:
    """Return a slab of a format, of any kind."""
    return slab_words(draws.one_of(KINDS_OF_SLAB), each.slab, draws.one_of(SEEDS))


def wrong_extents(each: Format) -> list[Extent]:
    """Return extents that are not the format's, some of which no buffer has."""
    rows, words = each.slab
    other = format_of(3 if each.number != 3 else 1).slab
    return [
        Extent(rows - 1, words),
        Extent(rows + 1, words),
        Extent(rows, words - 4),
        Extent(rows, words - 32),
        Extent(rows, words - 1),
        Extent(0, words),
        Extent(rows, 0),
        Extent(1, 4),
        other,
    ]


def edges_of(each: Format) -> Iterator[tuple[int, int]]:
    """Yield the macroblocks in the corners of a picture."""
    return itertools.product((0, each.stripes - 1), (0, each.columns - 1))


def any_place(draws: Draws, each: Format) -> tuple[int, int]:
    """Return a macroblock of a format."""
    return draws.below(each.stripes), draws.below(each.columns)


def outside(each: Format) -> list[tuple[int, int]]:
    """Return stripes and columns that are not in a format."""
    return [
        (each.stripes, 0),
        (0, each.columns),
        (each.stripes, each.columns),
        (LARGE, 0),
        (0, LARGE),
        (each.stripes - 1, each.columns),
    ]


# Places.


def case_place(
    slab: Sequence[str],
    number: int,
    first: int,
    place: tuple[int, int],
    record: Mapping[str, int],
    image: Mapping[int, int],
) -> str:
    numbers = [str(each) for each in (number, first, *place)]
    return " ".join(["place", *slab, *numbers, *record_words(record), *change_words(image)])


def zero_record() -> Block:
    return dict.fromkeys(RECORD, 0)


def structure(each: Format) -> dict[int, int]:
    """Return what makes the blank image one of a format's frames or fields."""
    return {} if each.frame else FIELD_IMAGE


def random_image(draws: Draws, each: Format) -> dict[int, int]:
    """Return changes that give every parameter that place looks at some value."""
    given = {draws.within(range(328, 536)): draws.bits(8) for _ in range(4)}
    given[15] = draws.one_of((0x40, 0x80)) | draws.bits(6)
    given[32] = (0x06 if each.frame else draws.one_of((0x02, 0x04))) | draws.bits(1)
    given[33] = draws.bits(8)
    return given


def place_edges(draws: Draws) -> Iterator[str]:
    for each, kind in itertools.product(FORMATS, KINDS_OF_SLAB):
        for place in edges_of(each):
            slab = slab_words(kind, each.slab, draws.one_of(SEEDS))
            image = random_image(draws, each)
            first = draws.below(REFERENCES)
            yield case_place(slab, each.number, first, place, draws.record(), image)


def place_zeros(draws: Draws) -> Iterator[str]:
    for each, kind in itertools.product(FORMATS, KINDS_OF_SLAB):
        slab = slab_words(kind, each.slab, 0)
        yield case_place(slab, each.number, 0, (0, 0), zero_record(), structure(each))


def place_image_bits(draws: Draws) -> Iterator[str]:
    """Each bit of the bytes about the flags, in turn, where the image stays lawful."""
    for bit in (*range(122, 128), *range(256, 261), *range(263, 272)):
        image = {15: 0x40, 32: 0x06, bit // 8: 0x80 >> bit % 8}
        image[bit // 8] |= {15: 0x40, 32: 0x06}.get(bit // 8, 0)
        yield case_place(any_slab(draws, BENCH), 4, 0, (2, 44), zero_record(), image)
    for chroma in (0x40, 0x80):
        yield case_place(any_slab(draws, BENCH), 4, 0, (2, 44), zero_record(), {15: chroma})
    field = format_of(2)
    for code in (0x02, 0x04):
        yield case_place(any_slab(draws, field), 2, 0, (33, 119), zero_record(), {32: code})


def place_each_element(draws: Draws) -> Iterator[str]:
    """In the bench picture each macroblock has an element of its own."""
    for position in range(0, ELEMENTS - 1, 3):
        place = divmod(position, BENCH.columns)
        at = 4 * BENCH.index(*place)
        image = {place_: draws.bits(8) for place_ in range(max(at, 36), min(at + 4, 320))}
        image |= {draws.within(range(328, 536)): draws.bits(8)}
        yield case_place(any_slab(draws, BENCH), 4, position, place, draws.record(), image)


def place_references(draws: Draws) -> Iterator[str]:
    for each in FORMATS:
        for first in (0, REFERENCES - 1, REFERENCES - 2, REFERENCES - 8160, 60000):
            place = any_place(draws, each)
            image = structure(each)
            yield case_place(any_slab(draws, each), each.number, first, place, zero_record(), image)


def place_random(draws: Draws) -> Iterator[str]:
    for _ in range(60):
        each = draws.one_of(FORMATS)
        image, first = random_image(draws, each), draws.below(REFERENCES)
        place = any_place(draws, each)
        yield case_place(any_slab(draws, each), each.number, first, place, draws.record(), image)


def place_extents(draws: Draws) -> Iterator[str]:
    for each in FORMATS:
        for extent in wrong_extents(each):
            slab = slab_words(draws.one_of(KINDS_OF_SLAB), extent, draws.one_of(SEEDS))
            place = draws.one_of([(0, 0), *outside(each)])
            yield case_place(slab, each.number, 0, place, draws.record(), structure(each))


def place_outside(draws: Draws) -> Iterator[str]:
    for each in FORMATS:
        for place in outside(each):
            record = draws.one_of([draws.record(), zero_record() | {"mv000": 4096}])
            yield case_place(any_slab(draws, each), each.number, 0, place, record, structure(each))


def place_beyond(draws: Draws) -> Iterator[str]:
    for component in RECORD:
        for value in beyond(component):
            record = draws.record() | {component: value}
            yield case_place(any_slab(draws, BENCH), 4, 0, any_place(draws, BENCH), record, {})


def place_linked_flags(draws: Draws) -> Iterator[str]:
    for flags in itertools.islice(settings_of_linked_flags(), 0, None, 3):
        slab, place = any_slab(draws, BENCH), any_place(draws, BENCH)
        yield case_place(slab, 4, 0, place, draws.record() | flags, {})


def place_structures(draws: Draws) -> Iterator[str]:
    for each in FORMATS:
        for code in (0x02, 0x04, 0x06):
            if (code == 0x06) == each.frame:
                continue
            slab, place = any_slab(draws, each), any_place(draws, each)
            yield case_place(slab, each.number, 7, place, draws.record(), {32: code})


PLACE_FAULTS = (3, 4, 10, 11, 12, 17, 18)


def place_first(first: int, draws: Draws) -> Iterator[str]:
    """A refusal with each later one, and with all later ones."""
    later = [number for number in PLACE_FAULTS if number > first]
    for others in [*([number] for number in later), later]:
        faults = {first, *others}
        number = draws.one_of(NO_FORMATS) if 3 in faults else 4
        reference = draws.one_of(NO_REFERENCES) if 4 in faults else draws.below(REFERENCES)
        extent = draws.one_of(wrong_extents(BENCH)) if 10 in faults else BENCH.slab
        place = draws.one_of(outside(BENCH)) if 11 in faults else any_place(draws, BENCH)
        record = draws.record()
        if 17 in faults:
            record |= draws.contradiction()
        if 12 in faults:
            record |= {"mv001": 256}
        slab = slab_words(draws.one_of(KINDS_OF_SLAB), extent, draws.one_of(SEEDS))
        image = FIELD_IMAGE if 18 in faults else {}
        yield case_place(slab, number, reference, place, record, image)


# Reads.


def case_read(slab: Sequence[str], number: int, column: int, at: int, rows: Rows) -> str:
    return " ".join(["read", *slab, str(number), str(column), str(at), *row_words(rows)])


def read_there(draws: Draws, each: Format, rows: Rows) -> str:
    """Return a case that reads rows at some column of a format."""
    column = draws.below(each.columns)
    return case_read(any_slab(draws, each), each.number, column, column, rows)


def read_edges(draws: Draws) -> Iterator[str]:
    for each, kind in itertools.product(FORMATS, KINDS_OF_SLAB):
        for column in (0, each.columns - 1, draws.below(each.columns)):
            slab = slab_words(kind, each.slab, draws.one_of(SEEDS))
            yield case_read(slab, each.number, column, column, encode_block(draws.block()))


def read_random(draws: Draws) -> Iterator[str]:
    for _ in range(300):
        yield read_there(draws, draws.one_of(FORMATS), encode_block(draws.block()))


def read_elsewhere(draws: Draws) -> Iterator[str]:
    for each in FORMATS:
        for _ in range(10):
            at = draws.below(each.columns)
            column = (at + 1 + draws.below(each.columns - 1)) % each.columns
            rows = encode_block(draws.block())
            yield case_read(any_slab(draws, each), each.number, column, at, rows)


def read_each_bit(draws: Draws) -> Iterator[str]:
    rows = encode_block(draws.block())
    for bit in range(BLOCK_BITS):
        yield read_there(draws, BENCH, flip(rows, bit))


def read_each_bit_mended(draws: Draws) -> Iterator[str]:
    for bit in range(CHECKED_BITS):
        yield read_there(draws, BENCH, mend_check(flip(encode_block(zero_block()), bit)))


def burst_rows(draws: Draws, rows: Rows, row: int) -> Rows:
    """Return rows with a burst in two neighbouring ones."""
    length = draws.within(range(2, PAIR_BITS + 1))
    burst = draws.bits(length) | 1 << length - 1 | 1
    burst <<= draws.below(PAIR_BITS + 1 - length)
    wrong = flip_mask(rows, row, burst >> BLOCK_ROW_BITS)
    return flip_mask(wrong, row + 1, burst % (1 << BLOCK_ROW_BITS))


def read_bursts(draws: Draws) -> Iterator[str]:
    for row in range(BLOCK_ROWS - 1):
        for _ in range(16):
            wrong = burst_rows(draws, encode_block(draws.block()), row)
            yield read_there(draws, draws.one_of(FORMATS), wrong)


def fault_sets(first: Refusal) -> Iterator[set[Refusal]]:
    """Yield the sets of the decoder's refusals that have this one first."""
    later = [refusal for refusal in DECODER if refusal > first]
    for setting in itertools.product((False, True), repeat=len(later)):
        yield {first, *itertools.compress(later, setting)}


def read_first_refusal(first: Refusal, draws: Draws) -> Iterator[str]:
    for faults in fault_sets(first):
        for _ in range(3):
            yield read_there(draws, draws.one_of(FORMATS), refused_rows(faults, draws))


def read_linked_flags(draws: Draws) -> Iterator[str]:
    for flags in settings_of_linked_flags():
        yield read_there(draws, BENCH, rows_of(draws.block() | flags))


def read_references(draws: Draws) -> Iterator[str]:
    for reference in (0, REFERENCE_LIMIT - 1, REFERENCE_LIMIT, REFERENCE_LIMIT + 1, 65535):
        for each in FORMATS:
            rows = encode_block(draws.block() | {"reference": reference})
            yield read_there(draws, each, rows)


def read_of_no_format(draws: Draws) -> Iterator[str]:
    for number in NO_FORMATS:
        rows = encode_block(draws.block())
        yield case_read(any_slab(draws, BENCH), number, 0, 0, rows)
        slab = slab_words("word", Extent(4, 4), 0)
        yield case_read(slab, number, LARGE, 0, rows)


def read_extents(draws: Draws) -> Iterator[str]:
    for each in FORMATS:
        for extent in wrong_extents(each):
            slab = slab_words(draws.one_of(KINDS_OF_SLAB), extent, draws.one_of(SEEDS))
            column = draws.one_of((0, each.columns, LARGE))
            yield case_read(slab, each.number, column, 0, encode_block(draws.block()))


def read_outside(draws: Draws) -> Iterator[str]:
    for each in FORMATS:
        for column in (each.columns, each.columns + 1, 120 + each.columns, LARGE):
            rows = with_sync(encode_block(draws.block()), draws.below(32))
            yield case_read(any_slab(draws, each), each.number, column, each.columns - 1, rows)


# Starts.


def case_start(number: int, first: int, length: int, offers: Sequence[str]) -> str:
    return " ".join(["start", str(number), str(first), str(length), *offers])


def some_offers(draws: Draws, length: int) -> list[str]:
    """Return offers to slots of a table, some of which are disputed."""
    if not length:
        return []
    return [f"{draws.below(min(length, 40))}={draws.below(2)}" for _ in range(12)]


def starts(draws: Draws) -> Iterator[str]:
    for each in FORMATS:
        for first in (0, 1, REFERENCES - 1, draws.below(REFERENCES)):
            yield case_start(each.number, first, ELEMENTS, some_offers(draws, ELEMENTS))


def starts_refused(draws: Draws) -> Iterator[str]:
    """3 before 4 before 5; a refused start leaves the table."""
    for length in (ELEMENTS, 0, 134):
        offers = some_offers(draws, length)
        for number in NO_FORMATS:
            yield case_start(number, draws.one_of((0, REFERENCES)), length, offers)
        for first in NO_REFERENCES:
            yield case_start(1 + draws.below(4), first, length, offers)
    for length in (0, 1, 134, 136, 270, 540):
        yield case_start(1 + draws.below(4), 0, length, some_offers(draws, length))


# Gathers.


def case_gather(
    slab: Sequence[str],
    number: int,
    first: int,
    steps: Sequence[str],
    lengths: tuple[int, int] | None = None,
) -> str:
    table, sheet = lengths or (ELEMENTS, format_of(number).columns)
    numbers = [str(each) for each in (number, first, table, sheet)]
    return " ".join(["gather", *slab, *numbers, *steps])


def embed(column: int, rows: Rows) -> str:
    return f"{column}={''.join(row_words(rows))}"


def gather(place: tuple[int, int]) -> str:
    return f"{place[0]}:{place[1]}"


def due_block(draws: Draws, each: Format, first: int, place: tuple[int, int]) -> Block:
    """Return a random block that is due at a macroblock."""
    reference = each.reference(first, *place)
    return draws.block() | {"fr_fl_srib": int(each.frame), "reference": reference}


def due_rows(draws: Draws, each: Format, first: int, place: tuple[int, int]) -> Rows:
    return encode_block(due_block(draws, each, first, place))


def gather_edges(draws: Draws) -> Iterator[str]:
    for each, kind in itertools.product(FORMATS, KINDS_OF_SLAB):
        for place in edges_of(each):
            first = draws.below(REFERENCES)
            slab = slab_words(kind, each.slab, draws.one_of(SEEDS))
            rows = due_rows(draws, each, first, place)
            yield case_gather(slab, each.number, first, [embed(place[1], rows), gather(place)])


def gather_all_of_a_stripe(draws: Draws) -> Iterator[str]:
    for each in FORMATS:
        stripe, first = draws.below(each.stripes), draws.below(REFERENCES)
        steps = []
        for column in range(0, each.columns, 5):
            place = (stripe, column)
            steps += [embed(column, due_rows(draws, each, first, place)), gather(place)]
        yield case_gather(any_slab(draws, each), each.number, first, steps)


def after_a_good_one(draws: Draws, each: Format, first: int, wrong: Rows | None) -> str:
    """Gather a block that is due, then rows, then the block again; refused rows change nothing."""
    place = any_place(draws, each)
    good = due_rows(draws, each, first, place)
    rows = good if wrong is None else wrong
    steps = [embed(place[1], good), gather(place), embed(place[1], rows), gather(place)]
    return case_gather(any_slab(draws, each), each.number, first, steps)


def gather_each_bit(draws: Draws) -> Iterator[str]:
    for bit in range(BLOCK_BITS):
        first, place = draws.below(REFERENCES), any_place(draws, BENCH)
        good = due_rows(draws, BENCH, first, place)
        steps = [embed(place[1], flip(good, bit)), gather(place)]
        if bit % 4 == 0:
            steps += [embed(place[1], good), gather(place)]
        yield case_gather(any_slab(draws, BENCH), 4, first, steps)


def gather_bursts(draws: Draws) -> Iterator[str]:
    for row in range(BLOCK_ROWS - 1):
        for _ in range(16):
            each, first = draws.one_of(FORMATS), draws.below(REFERENCES)
            place = any_place(draws, each)
            wrong = burst_rows(draws, due_rows(draws, each, first, place), row)
            steps = [embed(place[1], wrong), gather(place)]
            yield case_gather(any_slab(draws, each), each.number, first, steps)


def gather_refused_rows(first: Refusal, draws: Draws) -> Iterator[str]:
    for faults in fault_sets(first):
        for _ in range(3):
            each = draws.one_of(FORMATS)
            yield after_a_good_one(draws, each, draws.below(REFERENCES), refused_rows(faults, draws))


def gather_structures(draws: Draws) -> Iterator[str]:
    """Frame for field and field for frame, with the reference that is due and with another."""
    for each in FORMATS:
        for off in (0, 0, 0, 1, 2):
            first, place = draws.below(REFERENCES), any_place(draws, each)
            block = due_block(draws, each, first, place) | {"fr_fl_srib": int(not each.frame)}
            block["reference"] = (block["reference"] + off) % REFERENCES
            steps = [embed(place[1], encode_block(block)), gather(place)]
            yield case_gather(any_slab(draws, each), each.number, first, steps)


def gather_foreign(draws: Draws) -> Iterator[str]:
    """References off by one, by a column, by a stripe, by a picture, and at random."""
    for each in FORMATS:
        macroblocks = each.columns * each.stripes
        for off in (1, -1, each.columns, -each.columns, macroblocks, 15, 32768, 65520):
            first, place = draws.below(REFERENCES), any_place(draws, each)
            block = due_block(draws, each, first, place)
            block["reference"] = (block["reference"] + off) % REFERENCES
            steps = [embed(place[1], encode_block(block)), gather(place)]
            yield case_gather(any_slab(draws, each), each.number, first, steps)


def gather_elsewhere(draws: Draws) -> Iterator[str]:
    """A block that is due in another stripe or another column."""
    for each in FORMATS:
        for _ in range(8):
            first, due = draws.below(REFERENCES), any_place(draws, each)
            asked = (draws.below(each.stripes), due[1])
            steps = [embed(due[1], due_rows(draws, each, first, due)), gather(asked), gather(due)]
            yield case_gather(any_slab(draws, each), each.number, first, steps)


def gather_about_the_modulus(draws: Draws) -> Iterator[str]:
    for each in FORMATS:
        for before in (0, 1, each.columns, each.columns * each.stripes - 1):
            first = REFERENCES - 1 - before
            for _ in range(4):
                place = any_place(draws, each)
                steps = [embed(place[1], due_rows(draws, each, first, place)), gather(place)]
                yield case_gather(any_slab(draws, each), each.number, first, steps)


def gather_lengths(draws: Draws) -> Iterator[str]:
    """Wrong tables and sheets; before 10 and 11, and with nothing else wrong."""
    for each in FORMATS:
        for lengths in [
            (0, each.columns),
            (134, each.columns),
            (136, each.columns),
            (540, each.columns),
            (ELEMENTS, 0),
            (ELEMENTS, each.columns - 1),
            (ELEMENTS, each.columns + 1),
            (ELEMENTS, ELEMENTS),
            (134, each.columns + 1),
        ]:
            place = any_place(draws, each)
            steps = [embed(place[1], due_rows(draws, each, 0, place)), gather(place)]
            steps += [gather((each.stripes, 0))]
            yield case_gather(any_slab(draws, each), each.number, 0, steps, lengths)
            small = slab_words("word", Extent(16, 1408), 0)
            yield case_gather(small, each.number, 0, [gather(place)], lengths)


def gather_extents(draws: Draws) -> Iterator[str]:
    for each in FORMATS:
        for extent in wrong_extents(each):
            slab = slab_words(draws.one_of(KINDS_OF_SLAB), extent, draws.one_of(SEEDS))
            steps = [embed(0, due_rows(draws, each, 0, (0, 0))), gather((0, 0))]
            yield case_gather(slab, each.number, 0, [*steps, gather((each.stripes, 0))])


def gather_outside(draws: Draws) -> Iterator[str]:
    for each in FORMATS:
        steps = [gather(place) for place in outside(each)]
        yield case_gather(any_slab(draws, each), each.number, 0, steps)


def gather_started_wrong(draws: Draws) -> Iterator[str]:
    for number in NO_FORMATS:
        yield case_gather(any_slab(draws, BENCH), number, 0, ["0:0"], (ELEMENTS, 45))
    for first in NO_REFERENCES:
        yield case_gather(any_slab(draws, BENCH), 4, first, ["0:0"], (ELEMENTS, 45))


def twins(draws: Draws, each: Format) -> tuple[tuple[int, int], tuple[int, int]]:
    """Return two macroblocks that carry the same element."""
    while True:
        one, other = any_place(draws, each), any_place(draws, each)
        if one != other and each.index(*one) == each.index(*other):
            return one, other


def gather_twins(draws: Draws) -> Iterator[str]:
    """Equal and unequal offers of one element by two macroblocks, and the first again."""
    for each in FORMATS[:3]:
        for unequal in (0, 1, 1 << 31, 0x5A5A5A5A):
            for _ in range(8):
                first, (one, other) = draws.below(REFERENCES), twins(draws, each)
                block = due_block(draws, each, first, one)
                twin = due_block(draws, each, first, other)
                twin["element"] = block["element"] ^ unequal
                steps = [embed(one[1], encode_block(block)), gather(one)]
                steps += [embed(other[1], encode_block(twin)), gather(other)]
                steps += [embed(one[1], encode_block(block)), gather(one)]
                yield case_gather(any_slab(draws, each), each.number, first, steps)


def gather_again(draws: Draws) -> Iterator[str]:
    """One macroblock again: the same block, another element, another component of the record."""
    for component in ("element", *RECORD):
        for _ in range(4):
            each, first = draws.one_of(FORMATS), draws.below(REFERENCES)
            place = any_place(draws, each)
            block = due_block(draws, each, first, place)
            if component in LINKED_FLAGS:
                block |= dict.fromkeys(LINKED_FLAGS, 0)
            changed = block | {component: block[component] ^ 1}
            steps = [embed(place[1], encode_block(block)), gather(place), gather(place)]
            steps += [embed(place[1], encode_block(changed)), gather(place)]
            yield case_gather(any_slab(draws, each), each.number, first, steps)


def gather_walks(draws: Draws) -> Iterator[str]:
    """Steps at random among few macroblocks: due, foreign, damaged and repeated ones."""
    for _ in range(400):
        each, first = draws.one_of(FORMATS), draws.below(REFERENCES)
        places = [any_place(draws, each) for _ in range(3)]
        steps = []
        for _ in range(5):
            place = draws.one_of(places)
            rows = due_rows(draws, each, first, place)
            if draws.below(4) == 0:
                rows = flip(rows, draws.below(BLOCK_BITS))
            steps += [embed(place[1], rows), gather(place)]
        yield case_gather(any_slab(draws, each), each.number, first, steps)


R = {number: f"refused {number}" for number in range(3, 27)}

PLACE_KINDS: list[Kind] = [
    Kind("place, corners of each format in each slab", place_edges, {"placed"}),
    Kind("place, zeros", place_zeros, {"placed"}),
    Kind("place, bits of the image", place_image_bits, {"placed"}),
    Kind("place, elements of the image", place_each_element, {"placed"}),
    Kind("place, references", place_references, {"placed"}),
    Kind("place, random", place_random, {"placed"}),
    Kind("place, extents", place_extents, {R[10]}),
    Kind("place, outside the format", place_outside, {R[11]}),
    Kind("place, components beyond their edges", place_beyond, {R[12]}),
    Kind("place, flags in 17", place_linked_flags, {"placed", R[17]}),
    Kind("place, frame and field", place_structures, {R[18]}),
    *(
        Kind(f"place, {number} before later ones", partial(place_first, number), {R[number]})
        for number in PLACE_FAULTS
    ),
]

READ_KINDS: list[Kind] = [
    Kind("read, edges of each format in each slab", read_edges, {"block"}),
    Kind("read, random blocks", read_random, {"block"}),
    Kind("read, another column", read_elsewhere, {R[13]}),
    Kind("read, each bit changed", read_each_bit, {R[13], R[14]}),
    Kind("read, each bit changed, mended", read_each_bit_mended, {"block", R[13], R[15]}),
    Kind("read, bursts in two rows", read_bursts, {R[13], R[14]}),
    *(
        Kind(f"read, {number.value} alone and first", partial(read_first_refusal, number), {R[number]})
        for number in DECODER
    ),
    Kind("read, all settings of the flags in 17", read_linked_flags, {"block", R[17]}),
    Kind("read, references at their edge", read_references, {"block", R[16]}),
    Kind("read, 3 before all", read_of_no_format, {R[3]}),
    Kind("read, 10 before 11", read_extents, {R[10]}),
    Kind("read, 11 before looks", read_outside, {R[11]}),
]

GATHER_KINDS: list[Kind] = [
    Kind("start, tables cleared", starts, {"started"}),
    Kind("start, refused", starts_refused, {R[3], R[4], R[5]}),
    Kind("gather, corners of each format in each slab", gather_edges, {"gather"}),
    Kind("gather, along a stripe", gather_all_of_a_stripe, {"gather"}),
    Kind("gather, each bit changed", gather_each_bit, {"gather"}),
    Kind("gather, bursts in two rows", gather_bursts, {"gather"}),
    *(
        Kind(f"gather, {number.value} alone and first", partial(gather_refused_rows, number), {"gather"})
        for number in DECODER
    ),
    Kind("gather, frame and field", gather_structures, {"gather"}),
    Kind("gather, foreign references", gather_foreign, {"gather"}),
    Kind("gather, due elsewhere", gather_elsewhere, {"gather"}),
    Kind("gather, references about the modulus", gather_about_the_modulus, {"gather"}),
    Kind("gather, wrong tables and sheets", gather_lengths, {"gather"}),
    Kind("gather, extents", gather_extents, {"gather"}),
    Kind("gather, outside the format", gather_outside, {"gather"}),
    Kind("gather, not started", gather_started_wrong, {R[3], R[4]}),
    Kind("gather, two macroblocks of one element", gather_twins, {"gather"}),
    Kind("gather, one macroblock again", gather_again, {"gather"}),
    Kind("gather, random walks", gather_walks, {"gather"}),
]
