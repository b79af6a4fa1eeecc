"""Cases of `vectors` about deliveries and whole pictures."""

from __future__ import annotations

import itertools
from collections.abc import Iterable, Iterator, Sequence
from typing import NamedTuple

from block import check_of_rows
from case_words import change_words
from cases_images import JUDGED, bit_mask, bits_of, edge_bits
from cases_pictures import BENCH, FIELD_IMAGE, KINDS_OF_SLAB, random_image, slab_words
from draws import Draws, Kind
from formats import ELEMENTS, FORMATS, REFERENCES, Format, format_of
from image import DATA_BYTES, IMAGE_BYTES, blank, elements, with_value
from scrambling import BLOCK_ROWS

ALL = f"0:{ELEMENTS}"


def case_deliver(steps: Sequence[str], length: int = ELEMENTS) -> str:
    return " ".join(["deliver", str(length), *steps])


def inversions(image: bytes) -> list[str]:
    """Return the words that make some data of the blank image's, with the check mended."""
    masks = [one ^ other for one, other in zip(image, blank()[:DATA_BYTES], strict=True)]
    return [*(f"{place}^{mask:02X}" for place, mask in enumerate(masks) if mask), "mend"]


def random_data(draws: Draws, count: int) -> bytes:
    """Return the data of an image that can be sealed, with random bytes at random places."""
    data = bytearray(DATA_BYTES)
    for _ in range(count):
        data[draws.below(DATA_BYTES)] = draws.bits(8)
    settings = (0, 1 + draws.below(3), 1 + draws.below(2), 0)
    changed = bytes(data)
    for name, value in zip(JUDGED, settings, strict=True):
        changed = with_value(changed, name, value)
    return changed


def all_but(*holes: int) -> list[str]:
    """Return the words that offer the elements of all slots but these."""
    edges = [-1, *sorted(set(holes)), ELEMENTS]
    spans = zip(edges, edges[1:])
    return [f"{hole + 1}:{stop}" for hole, stop in spans if hole + 1 < stop]


def single_offers(image: bytes) -> list[str]:
    return [f"{index}={element}" for index, element in enumerate(elements(image))]


def deliver_clean(draws: Draws) -> Iterator[str]:
    yield case_deliver([ALL])
    yield case_deliver(single_offers(blank()))
    yield case_deliver(["67:135", "0:67"])
    for count in (1, 8, 24, 100, 200, 300):
        yield case_deliver([*inversions(random_data(draws, count)), ALL])


def deliver_repeated(draws: Draws) -> Iterator[str]:
    """Equal offers, some of them often, settle nothing anew."""
    yield case_deliver([ALL, ALL, "100:135", "0:1", "0:1"])
    for _ in range(4):
        image = inversions(random_data(draws, 24))
        again = [f"{at}:{at + 1}" for at in (draws.below(ELEMENTS) for _ in range(6))]
        yield case_deliver([*image, *again, ALL, *again])


def deliver_holes(draws: Draws) -> Iterator[str]:
    yield case_deliver([])
    for hole in range(ELEMENTS):
        yield case_deliver(all_but(hole))
    for count in (2, 3, 8, 40, 100):
        holes = [draws.below(ELEMENTS) for _ in range(count)]
        yield case_deliver([*inversions(random_data(draws, 8)), *all_but(*holes)])


def deliver_disputes(draws: Draws) -> Iterator[str]:
    """A slot, or more, that two images differ in; the first image's value again changes nothing."""
    for at in range(ELEMENTS):
        yield case_deliver([ALL, f"{at}={elements(blank())[at] ^ 1 << draws.below(32)}"])
    for count in (1, 2, 5, 24):
        image = inversions(random_data(draws, count))
        yield case_deliver([ALL, *image, ALL])
        yield case_deliver([*image, ALL, *image, ALL, *image, ALL])
    yield case_deliver(["5=0", "5=1", "5=0", ALL])


def deliver_holes_and_disputes(draws: Draws) -> Iterator[str]:
    """An empty slot comes before a disputed one, whichever is lower."""
    for _ in range(24):
        hole, other, dispute = (draws.below(ELEMENTS) for _ in range(3))
        value = elements(blank())[dispute] ^ 1 + draws.below(1 << 31)
        yield case_deliver([*all_but(hole, other, dispute), f"{dispute}={value}", f"{dispute}=7"])


def deliver_lengths(draws: Draws) -> Iterator[str]:
    for length in (0, 1, 134, 136, 270):
        yield case_deliver([], length)
        yield case_deliver([f"0:{length}"], length)


def deliver_no_slot(draws: Draws) -> Iterator[str]:
    yield case_deliver([ALL, "135=0"])
    yield case_deliver([ALL], 134)


def deliver_spoilt(draws: Draws) -> Iterator[str]:
    """A bit of the image wrong, or a byte, and its check with it or not."""
    for _ in range(60):
        bit = draws.below(8 * IMAGE_BYTES)
        image = inversions(random_data(draws, draws.one_of((0, 24))))
        spoilt = [f"{place}^{mask:02X}" for place, mask in bit_mask(bit).items()]
        yield case_deliver([*image, *spoilt, ALL])
    yield case_deliver([ALL[:-1] + "4", "134=0"])
    yield case_deliver([f"{index}=0" for index in range(ELEMENTS)])
    yield case_deliver([f"{index}={(1 << 32) - 1}" for index in range(ELEMENTS)])
    # The two elements that are not zero, each in the other's slot.
    swapped = [f"3={elements(blank())[8]}", f"8={elements(blank())[3]}"]
    yield case_deliver([*all_but(3, 8), *swapped])


def deliver_mended(draws: Draws) -> Iterator[str]:
    """Bits that are judged, and others, with a check that fits."""
    for bit in [*edge_bits(), *bits_of("spare")[::8]]:
        changed = [f"{place}^{mask:02X}" for place, mask in bit_mask(bit).items()]
        yield case_deliver([*changed, "mend", ALL])


def deliver_settings(draws: Draws) -> Iterator[str]:
    """What is judged broken in several ways at once; the lowest number answers."""
    for flag in (0, 1):
        for structure in (0, 3):
            for chroma in range(4):
                for spare in (0, 1 << 40):
                    data = blank()[:DATA_BYTES]
                    for name, value in zip(JUDGED, (flag, structure, chroma, spare), strict=True):
                        data = with_value(data, name, value)
                    yield case_deliver([*inversions(data), ALL])


# Scenes.


class Stage(NamedTuple):
    """A format in a kind of slab, and first references of what is placed and gathered."""

    format: Format
    kind: str = "word"
    placed: int = 0
    gathered: int = 0
    seed: int = 351

    def scene(self, steps: Iterable[str]) -> str:
        slab = slab_words(self.kind, self.format.slab, self.seed)
        firsts = [str(number) for number in (self.format.number, self.placed, self.gathered)]
        image = [] if self.format.frame else change_words(FIELD_IMAGE)
        return " ".join(["scene", *slab, *firsts, *image, *steps])

    def place(self, stripe: int, *holes: int) -> list[str]:
        """Return the steps that place a stripe, but for holes."""
        edges = [-1, *sorted(set(holes)), self.format.columns]
        spans = zip(edges, edges[1:])
        return [f"place:{stripe}:{hole + 1}:{stop}" for hole, stop in spans if hole + 1 < stop]

    def gather(self, stripe: int) -> str:
        return f"gather:{stripe}:0:{self.format.columns}"

    def carry(self, stripes: Iterable[int]) -> Iterator[str]:
        """Yield the steps that place and gather whole stripes."""
        for stripe in stripes:
            yield from self.place(stripe)
            yield self.gather(stripe)

    def carriers_of(self, index: int, stripes: Iterable[int]) -> list[tuple[int, int]]:
        """Return the macroblocks of these stripes that carry an element."""
        columns = range(self.format.columns)
        places = itertools.product(stripes, columns)
        return [place for place in places if self.format.index(*place) == index]


def flip(column: int, row: int, bits: int) -> str:
    return f"flip:{column}:{row}:{bits:04X}"


def forged(column: int, row: int, bits: int) -> list[str]:
    """Return the flips of a row and of the check, so that it fits again, whatever the block."""
    rows = [0] * BLOCK_ROWS
    rows[row] = bits
    change = check_of_rows(rows) ^ check_of_rows([0] * BLOCK_ROWS)
    ends = [flip(column, 14, change >> 16), flip(column, 15, change % (1 << 16))]
    return [flip(column, row, bits), *ends]


def any_first(draws: Draws) -> int:
    """Return a first reference, some of which lead across the modulus."""
    return draws.one_of((0, 351, draws.below(REFERENCES), REFERENCES - 1, REFERENCES - 100))


def scene_clean(draws: Draws) -> Iterator[str]:
    """Stripes of each format that bring every element, in each kind of slab; one whole picture."""
    for each, kind in itertools.product(FORMATS, KINDS_OF_SLAB):
        if kind != "word" and each.number != BENCH.number:
            continue
        first = any_first(draws)
        yield Stage(each, kind, first, first, draws.bits(32)).scene(Stage(each).carry(range(3)))
    for each in FORMATS[:3]:
        yield Stage(each).scene(Stage(each).carry(range(each.stripes - 3, each.stripes)))
    whole = Stage(format_of(3), "word", 65000, 65000)
    yield whole.scene(whole.carry(range(whole.format.stripes)))


def scene_images(draws: Draws) -> Iterator[str]:
    """Pictures with images of their own."""
    for _ in range(6):
        stage = Stage(BENCH, draws.one_of(KINDS_OF_SLAB), seed=draws.bits(32))
        yield stage.scene([*change_words(random_image(draws, BENCH)), *stage.carry(range(3))])


def scene_holes(draws: Draws) -> Iterator[str]:
    """On the bench picture one hole is too many."""
    for hole in (0, 1, 44, 45, 89, 90, 134):
        stage = Stage(BENCH, draws.one_of(KINDS_OF_SLAB), seed=draws.bits(32))
        yield stage.scene(holed(stage, range(3), [divmod(hole, 45)]))
    stage = Stage(BENCH)
    yield stage.scene([])
    yield stage.scene(stage.gather(stripe) for stripe in range(3))
    yield stage.scene(stage.carry([0, 1]))
    yield stage.scene(holed(stage, range(3), [(0, 44), (1, 3), (2, 0)]))


def holed(stage: Stage, stripes: Iterable[int], holes: Sequence[tuple[int, int]]) -> Iterator[str]:
    """Yield the steps of stripes with holes."""
    for stripe in stripes:
        yield from stage.place(stripe, *(column for at, column in holes if at == stripe))
        yield stage.gather(stripe)


def scene_fewer_holes(draws: Draws) -> Iterator[str]:
    """All macroblocks that carry an element but one are holes: it is delivered all the same."""
    for number, stripes in ((1, 6), (2, 6), (3, 6)):
        stage = Stage(format_of(number), seed=draws.bits(32))
        holes = stage.carriers_of(draws.below(ELEMENTS), range(stripes))
        kept = draws.one_of(holes)
        yield stage.scene(holed(stage, range(stripes), [hole for hole in holes if hole != kept]))


def scene_all_holes(draws: Draws) -> Iterator[str]:
    """All macroblocks that carry an element are holes."""
    for number, stripes in ((1, 6), (2, 6), (3, 6)):
        stage = Stage(format_of(number), seed=draws.bits(32))
        holes = stage.carriers_of(draws.below(ELEMENTS), range(stripes))
        yield stage.scene(holed(stage, range(stripes), holes))


def scene_foreign(draws: Draws) -> Iterator[str]:
    """Gathered from another first reference than was placed from, or in other stripes."""
    for placed, gathered in ((0, 1), (1, 0), (0, 135), (65520, 0), (7, 65520)):
        stage = Stage(BENCH, draws.one_of(KINDS_OF_SLAB), placed, gathered)
        yield stage.scene(stage.carry(range(3)))
    stage = Stage(BENCH)
    yield stage.scene([*stage.place(0), stage.gather(1), *stage.place(1), stage.gather(2)])


def scene_turned(draws: Draws) -> Iterator[str]:
    """Placed as one stripe and gathered as another, where the first references make that right."""
    stage = Stage(BENCH, placed=45, gathered=0)
    yield stage.scene(
        [*stage.place(0), stage.gather(1), *stage.place(1), stage.gather(2), *stage.place(2)]
    )


def scene_bursts(draws: Draws) -> Iterator[str]:
    """Bits changed within two neighbouring rows, each pair in turn; other macroblocks are good."""
    for row in range(BLOCK_ROWS - 1):
        stage = Stage(BENCH, draws.one_of(KINDS_OF_SLAB), seed=draws.bits(32))
        column = draws.below(BENCH.columns)
        burst = [flip(column, row, 1 + draws.below(65535)), flip(column, row + 1, draws.bits(16))]
        stripe = draws.below(3)
        yield stage.scene(
            itertools.chain(
                stage.carry(range(stripe)),
                [*stage.place(stripe), *burst, stage.gather(stripe)],
                stage.carry(range(stripe + 1, 3)),
            )
        )
    stage = Stage(BENCH)
    twice = [flip(column, 7, 0x0180) for column in (3, 3)]
    bursts = [flip(column, column % 15, 1 << column % 16) for column in range(45)]
    yield stage.scene([*stage.place(0), *bursts, stage.gather(0), *stage.carry([1, 2])])
    yield stage.scene([*stage.place(0), *bursts, *stage.carry(range(3))])
    yield stage.scene([*stage.place(0), *twice, stage.gather(0), *stage.carry([1, 2])])


def scene_bursts_survived(draws: Draws) -> Iterator[str]:
    """A burst in each column of a stripe of a format with more carriers."""
    for number in (1, 2, 3):
        stage = Stage(format_of(number), seed=draws.bits(32))
        bursts = [
            flip(column, draws.below(15), 1 + draws.below(65535))
            for column in range(stage.format.columns)
        ]
        yield stage.scene([*stage.place(0), *bursts, stage.gather(0), *stage.carry(range(1, 6))])


def scene_unequal(draws: Draws) -> Iterator[str]:
    """A macroblock, or more, placed under another image, where an element has two carriers."""
    for number in (1, 2, 3):
        stage = Stage(format_of(number), seed=draws.bits(32))
        for _ in range(2):
            index = draws.one_of(range(90, 125))
            carriers = stage.carriers_of(index, range(3))
            (stripe, column), other = carriers[0], f"{4 * index + 3}={1 + draws.below(255):02X}"
            again = [other, f"place:{stripe}:{column}:{column + 1}", f"{4 * index + 3}=00"]
            yield stage.scene(
                itertools.chain(
                    stage.carry(range(stripe)),
                    [*stage.place(stripe), *again, stage.gather(stripe)],
                    stage.carry(range(stripe + 1, 3)),
                )
            )
    # The image changes between stripes, twice.
    stage = Stage(format_of(3))
    steps = [*stage.carry(range(3)), "400=55", *stage.carry([3]), "400=AA", *stage.carry([4, 5])]
    yield stage.scene(steps)


def scene_other_image(draws: Draws) -> Iterator[str]:
    """An element of another image, and no slot is disputed: the check does not fit."""
    stage = Stage(BENCH)
    for index in (0, 100, 133):
        (stripe, column), = stage.carriers_of(index, range(3))
        byte = 4 * index + 3
        again = [f"{byte}=01", f"place:{stripe}:{column}:{column + 1}", f"{byte}=00"]
        steps = [*stage.carry(range(stripe)), *stage.place(stripe), *again, stage.gather(stripe)]
        yield stage.scene([*steps, *stage.carry(range(stripe + 1, 3))])


def scene_structures(draws: Draws) -> Iterator[str]:
    """An image of a field in a format of frames, and the other way round: no place is accepted."""
    for each, image in ((BENCH, "32=04"), (BENCH, "32=02"), (format_of(2), "32=06")):
        stage = Stage(each)
        yield stage.scene([image, *stage.carry(range(2))])
    # Blocks with the other fr_fl_srib, whose check does not fit, and then does.
    for each in (BENCH, format_of(2)):
        stage, columns = Stage(each), range(each.columns)
        flips = [flip(column, 0, 0x0400) for column in columns]
        yield stage.scene([*stage.place(0), *flips, stage.gather(0), *stage.carry([1, 2])])
        forgeries = [step for column in columns for step in forged(column, 0, 0x0400)]
        yield stage.scene([*stage.place(0), *forgeries, stage.gather(0), *stage.carry([1, 2])])


def scene_forged(draws: Draws) -> Iterator[str]:
    """Rows changed and the check with them: each later refusal, or another element or record."""
    for row, bits in ((0, 0x8000), (1, 0x0001), (1, 0xFFFF), (2, 0x0100), (3, 0x0001), (6, 0x0001)):
        stage = Stage(BENCH, draws.one_of(KINDS_OF_SLAB), seed=draws.bits(32))
        columns = sorted({draws.below(BENCH.columns) for _ in range(4)})
        forgeries = [step for column in columns for step in forged(column, row, bits)]
        damaged = [*stage.place(1), *forgeries, stage.gather(1)]
        yield stage.scene([*stage.carry([0]), *damaged, *stage.carry([2])])
    # An intra macroblock with mb_pattern, a reference of 65535, another record, a reserved bit.
    stage = Stage(BENCH, placed=65500, gathered=65500)
    changes = ((1, 0, 0x0004), (3, 1, 0x0020), (5, 12, 0x0004), (7, 13, 0x0001))
    forgeries = [step for change in changes for step in forged(*change)]
    yield stage.scene([*stage.place(0), *forgeries, stage.gather(0), *stage.carry([1, 2])])
    # An element of format 3 whose macroblocks differ by a forged one.
    stage = Stage(format_of(3))
    damaged = [*stage.place(3), *forged(9, 3, 0x8001), stage.gather(3)]
    yield stage.scene([*stage.carry([0, 1, 2]), *damaged])


def scene_outside(draws: Draws) -> Iterator[str]:
    """Steps outside the format, and slabs of another extent."""
    stage = Stage(BENCH)
    yield stage.scene(["place:3:0:45", "gather:3:0:45", "place:0:44:47", "gather:0:44:47"])
    yield stage.scene(["flip:45:0:FFFF", "flip:0:16:FFFF", *stage.carry(range(3))])
    other = Stage(BENCH._replace(columns=44))
    yield other.scene(other.carry([0]))


R = {number: f"refused {number}" for number in (5, 6, 20, 21, 22, 23, 24, 25, 26)}

SCENE_KINDS: list[Kind] = [
    Kind("deliver, whole images", deliver_clean, {"delivered"}),
    Kind("deliver, equal offers again", deliver_repeated, {"delivered"}),
    Kind("deliver, slots empty", deliver_holes, {R[20]}),
    Kind("deliver, slots disputed", deliver_disputes, {R[21]}),
    Kind("deliver, empty before disputed", deliver_holes_and_disputes, {R[20]}),
    Kind("deliver, wrong lengths", deliver_lengths, {R[5]}),
    Kind("deliver, offers that are refused", deliver_no_slot, {R[6]}),
    Kind("deliver, checks that do not fit", deliver_spoilt, {R[22]}),
    Kind("deliver, a bit changed, mended", deliver_mended, {"delivered", R[23], R[25], R[26]}),
    Kind(
        "deliver, all settings of what is judged",
        deliver_settings,
        {"delivered", R[23], R[24], R[25], R[26]},
    ),
    Kind("scene, clean", scene_clean, {"delivered"}),
    Kind("scene, images of their own", scene_images, {"delivered"}),
    Kind("scene, holes", scene_holes, {R[20]}),
    Kind("scene, fewer holes than carriers", scene_fewer_holes, {"delivered"}),
    Kind("scene, as many holes as carriers", scene_all_holes, {R[20]}),
    Kind("scene, foreign references", scene_foreign, {R[20]}),
    Kind("scene, stripes in another place", scene_turned, {R[20]}),
    Kind("scene, bursts in two rows", scene_bursts, {"delivered", R[20]}),
    Kind("scene, bursts where there are more carriers", scene_bursts_survived, {"delivered"}),
    Kind("scene, unequal elements", scene_unequal, {R[21]}),
    Kind("scene, an element of another image", scene_other_image, {R[22]}),
    Kind("scene, frame and field", scene_structures, {"delivered", R[20]}),
    Kind("scene, checks forged", scene_forged, {R[20], R[21], R[22]}),
    Kind("scene, outside", scene_outside, {"delivered", R[20]}),
]
