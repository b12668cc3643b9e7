"""The stored script's sections on spots that are pooled."""

from chance import Chance
from lines import (
    AROUND_LIMITS, AT_THE_FRAME, OTHER, REPORT, TOO_BRIGHT, TOO_LARGE, UNKNOWN_SPACINGS,
    any_spectrum, changed, counted, flat, light, near_spectrum, preview, standard, tolerance, trial,
)
from pooling import SPOT_COUNTS, pooled
from tables import LENGTHS

# Cut to their low bits or low digits, most would be 2 to 16.
NO_SPOT_COUNTS = (
    0, 1, 17, 18, 32, 81, 258, 2**16 + 2, 2**31 + 2, 2**32 - 1, 2**32, 2**32 + 2, 2**32 + 16,
    2**64 + 2, TOO_LARGE,
)


def pooling(spacing, count, readings):
    return f"pool {spacing} {count} {counted(readings)}".encode()


def one_after_another(spots):
    return [reading for spot in spots for reading in spot]


def spots_pooled(spacing, spots):
    return pooling(spacing, len(spots), one_after_another(spots))


def every_remainder(spacing, count, floor=0):
    """Spots whose sums are 0, 1, 2 and so on from row to row, above so many times the floor: some
    spots have one more than the others, the first ones at 5 nm and the last ones at 10 nm."""
    rows = range(LENGTHS[spacing])
    spots = [[floor + row // count + (place < row % count) for row in rows]
             for place in range(count)]
    return spots if spacing == 5 else spots[::-1]


def orders_of_checks(spacing):
    """Each cause of a pooling in their order, alone and with the later ones failing too."""
    level, rows, other = flat(7, spacing), LENGTHS[spacing], OTHER[spacing]
    bright = changed(level * 2, rows, TOO_BRIGHT)
    said = [pooling(wrong, *rest) for wrong in UNKNOWN_SPACINGS
            for rest in ((2, level * 2), (17, []), (1, bright), (2, bright), (2, bright[1:]))]
    for count in NO_SPOT_COUNTS:
        said += [pooling(spacing, count, readings)
                 for readings in (level * min(count, 18), [], bright, bright[1:])]
    for count in (2, 3, 16):
        right = level * count
        lengths = {0, rows, len(right) - 1, len(right) + 1, len(right) + rows, len(right) - rows,
                   LENGTHS[other] * count}
        if count == 16:
            lengths |= {1_295, 1_296, 1_297, 1_298, 1_379, 3_000}
        for length in sorted(lengths):
            readings = [7] * length
            said.append(pooling(spacing, count, readings))
            said.append(pooling(spacing, count, changed(readings, length - 1, TOO_BRIGHT)))
    return said


def around_the_limits(spacing):
    """A reading around each limit in a first, a middle and a last row of the first and the last
    spot, and in all; and one far above."""
    said, rows = [], LENGTHS[spacing]
    for count in (2, 3):
        dim = flat(0, spacing) * count
        for reading in (*AROUND_LIMITS, 65_535, 65_536, TOO_LARGE):
            for at in (0, rows // 2, rows - 1, len(dim) - rows, len(dim) - 1):
                said.append(pooling(spacing, count, changed(dim, at, reading)))
    for count in (2, 16):
        said += [pooling(spacing, count, [reading] * (rows * count)) for reading in AROUND_LIMITS]
    return said


def rounding(chance, spacing):
    """Every remainder for every count, from 0 and at the frame's limit; equal spots; spots in other
    orders; spots of every kind."""
    said, top = [], AT_THE_FRAME[-1]
    for count in SPOT_COUNTS:
        sums = every_remainder(spacing, count)
        near_top = [[top - reading for reading in spot] for spot in sums]
        said += [spots_pooled(spacing, spots) for spots in (sums, near_top)]
    for count in (2, 3, 8, 16):
        said.append(spots_pooled(spacing, [any_spectrum(chance, spacing)] * count))
        spots = [any_spectrum(chance, spacing) for _ in range(count)]
        said += [spots_pooled(spacing, order) for order in (
            spots, spots[::-1], spots[1:] + spots[:1], chance.shuffled(spots))]
    return said


def beside_a_session(chance, spacing):
    """A pooling needs no session and moves none: the standard, the tolerance and the tallies stay.
    What it answers is tried as any spectrum is; at the other spacing it is short."""
    spots = [any_spectrum(chance, spacing) for _ in range(5)]
    own, other = pooled(spots), flat(1_250, OTHER[spacing])
    asked = spots_pooled(spacing, spots)
    said = [asked, light(1, OTHER[spacing]), asked, standard(own), asked, preview(1, own)]
    for opened in (light(2, spacing), light(2, OTHER[spacing])):
        said += [opened, asked, standard(own), standard(other), tolerance("lab", 900), asked]
        said += [trial(3, own), REPORT, asked, pooling(spacing, 1, own), trial(3, other), REPORT]
    return said


def any_pooling(chance, spacing, named):
    """Spots at a spacing, as the line names it: near each other or of any kind. Now and then a
    reading is bright, the length is wrong or the count is another."""
    count, one, near = chance.pick(SPOT_COUNTS), any_spectrum(chance, spacing), chance.one_in(2)
    readings = one_after_another(
        near_spectrum(chance, one) if near else any_spectrum(chance, spacing)
        for _ in range(count))
    if chance.one_in(8):
        bright = *AROUND_LIMITS, 65_535, 65_536, TOO_LARGE
        readings[chance.below(len(readings))] = chance.pick(bright)
    if chance.one_in(8):
        more = chance.pick((-82, -41, -1, 1, 41, 81))
        readings = (readings * 2)[:len(readings) + more]
    if chance.one_in(8):
        count = chance.pick((*NO_SPOT_COUNTS, count - 1, count + 1))
    return pooling(named, count, readings)


def poolings():
    said, chance = [], Chance(0)
    for spacing in LENGTHS:
        said += [*orders_of_checks(spacing), *around_the_limits(spacing)]
        said += [*rounding(chance, spacing), *beside_a_session(chance, spacing)]
    return said
