"""Spectra with sums at the limit of f and around it (216/24389 of the white, CIE 15:2004).

A part of a white is counted in 1/WHITE: in it the limit is whole, and so is each part at which the
straight piece of f, or L by it, is just a whole number.
"""

from bisect import bisect_left
from functools import lru_cache

from causes import FRAME_LIMIT
from colour import conditions, cube_root_down, f_step, lightness, sums
from lines import light, opening, smooth_spectrum
from published import filled
from tables import LENGTHS, light_tables

WHITE = 24_389 * 250_000
LIMIT = 216 * 250_000


def at_step(step):
    """The part at which 1,000,000 x the straight piece is just this step."""
    return 27 * (29 * step - 4_000_000)


def at_lightness(L):
    """The part at which L by the straight piece is just this."""
    return 675 * L


def at_root(step):
    """The first part at which 1,000,000 x the cube root has reached this step."""
    return -(-WHITE * step**3 // 10**18)


def at_root_lightness(L):
    """The first part at which L by the cube root has reached this."""
    return -(-WHITE * (L + 160_000)**3 // 1_160_000**3)


# The straight piece touches the cube root at the limit and is above it elsewhere, so at these parts
# the two come to different steps, or to a different L.
STEPS_BELOW, STEPS_ABOVE = range(206_894, 206_897), range(206_897, 206_900)
LIGHTNESS_BELOW, LIGHTNESS_ABOVE = range(79_996, 80_000), range(80_001, 80_004)


# Tables made for it

# Rows: an illuminant and a column's entry. All together have a multiple of 25 x 24,389, and none
# weighs more than the frame's limit times the next.
UNITS = (1, 20_000), (1, 4_388), (1, 1)
FINE = (24, 24_389), *UNITS
FULL = (123 * 24_389, 2_000_000), (24_000, 24_389), (999, 24_389), *UNITS


class AnySums:
    """An opening under which X, Y and Z can have any sums up to some: each has rows for itself, of
    falling weight, and they may share the rest. Each white is a multiple of WHITE.

    A point of X, Y or Z is a part of its white and so many units of the sum more."""

    def __init__(self, spacing, falling, rest=()):
        own = [(power, *(entry * (at == place) for at in range(3)))
               for place in range(3) for power, entry in falling]
        self.spacing, self.weights = spacing, [power * entry for power, entry in falling]
        rows = [*own, *rest][:LENGTHS[spacing]]
        self.tables = [filled(*column, spacing=spacing) for column in zip(*rows)]
        self.under = conditions(spacing, self.tables[0], self.tables[1:])
        assert all(white % WHITE == 0 for white in self.under.white)
        ones = [0] * len(own) + [1] * (LENGTHS[spacing] - len(own))
        self.shared = sums(ones, self.tables[0], self.tables[1:])  # by a reading of 1

    def sums(self, points):
        return [white // WHITE * part + more
                for white, (part, more) in zip(self.under.white, points)]

    def spectrum(self, *points, level=0):
        """With its sums at these points; the shared rows have the reading `level`."""
        readings = []
        for left, shared in zip(self.sums(points), self.shared):
            left -= level * shared
            assert left >= 0
            for weight in self.weights:
                readings.append(min(left // weight, FRAME_LIMIT))
                left -= readings[-1] * weight
            assert left == 0
        return readings + [level] * (LENGTHS[self.spacing] - len(readings))

    def any_spectrum(self, chance):
        """At points of note, some of the light perhaps in the rows that are shared."""
        points = [any_point(chance) for _ in range(3)]
        levels = [total // shared
                  for total, shared in zip(self.sums(points), self.shared) if shared]
        most = min([FRAME_LIMIT, *levels])
        return self.spectrum(*points, level=chance.pick((0, chance.below(most + 1), most)))


def fine_sums(spacing):
    """The smallest white, so the sums can be anything up to 1.2 times that."""
    return AnySums(spacing, FINE)


def full_sums(spacing):
    """Nearly the largest white."""
    power, entry = FULL[0]
    return AnySums(spacing, FULL, [(power, entry, entry, entry)] * LENGTHS[spacing])


def any_sums(chance):
    spacing = chance.pick((5, 10))
    rest = [(25 * 24_389 * chance.below(5), *(chance.below(2_000_001) for _ in range(3)))
            for _ in range(LENGTHS[spacing])]
    return chance.pick((lambda: fine_sums(spacing), lambda: full_sums(spacing),
                        lambda: AnySums(spacing, FULL, rest)))()


def part_near(chance):
    """The limit, or a whole step or L of the straight piece near it."""
    return chance.pick((
        LIMIT, LIMIT, at_step(chance.between(206_850, 206_950)),
        at_step(chance.pick((*STEPS_BELOW, *STEPS_ABOVE))),
        at_lightness(chance.between(79_950, 80_050)),
        at_lightness(chance.pick((*LIGHTNESS_BELOW, *LIGHTNESS_ABOVE))),
    ))


def any_point(chance):
    """Mostly near the limit; no brighter than twice the limit."""
    part = chance.pick((
        part_near(chance), part_near(chance), part_near(chance), chance.between(1, 2 * LIMIT),
        at_step(chance.between(137_932, 206_896)), at_lightness(chance.between(1, 79_999)),
    ))
    return (0, 0) if chance.one_in(12) else (part, chance.between(-1, 1))


# The built-in lights

@lru_cache(maxsize=None)
def moves(number, spacing, place):
    """What it adds to X, Y or Z to raise one row's reading by 1 to 3 and to lower another's, in
    rising order; and the rows and by how much."""
    weights = row_weights(number, spacing, place)
    found = sorted(
        (up * rising - down * falling, (at, up, to, -down))
        for at, rising in enumerate(weights) for to, falling in enumerate(weights) if at != to
        for up in (1, 2, 3) for down in (1, 2, 3))
    return tuple(zip(*found))


def row_weights(number, spacing, place):
    illuminant, *observer = light_tables(number, spacing)
    return list(map(int.__mul__, illuminant, observer[place]))


def spectrum_near(chance, number, spacing, place, part, reached):
    """A random dark spectrum under a light whose sum of X, Y or Z has just reached a part of the
    white, or just not."""
    weights = row_weights(number, spacing, place)
    target = -(-10_000 * sum(weights) * part // WHITE)
    shape = smooth_spectrum(chance, 100, 1_000, spacing)
    whole = sum(map(int.__mul__, shape, weights))
    readings = [reading * target // whole for reading in shape]
    left = target - sum(map(int.__mul__, readings, weights))
    for weight, row in sorted(((weight, row) for row, weight in enumerate(weights) if weight),
                              reverse=True):
        readings[row] += left // weight
        left %= weight
    for row, by in two_moves(chance, *moves(number, spacing, place), left, reached):
        readings[row] += by
    return readings


def two_moves(chance, amounts, rows, left, reached):
    """The two moves that together come nearest to what is left, from the side wanted: rows and by
    how much. Of one of them only some 3,000 are tried."""
    best, stride = None, len(amounts) // 3_000
    for one in range(chance.below(stride), len(amounts), stride):
        other = bisect_left(amounts, left - amounts[one]) - (not reached)
        if 0 <= other < len(amounts):
            found = abs(amounts[one] + amounts[other] - left), one, other
            best = min(best or found, found)
    both = rows[best[1]] + rows[best[2]]
    return zip(both[::2], both[1::2])


def each_near(chance, number, spacing):
    """Spectra under a light near the limit from either side, in X, Y and Z, and where the two
    pieces of f come to different steps or, in Y, to a different L."""
    steps = at_step(STEPS_BELOW[0]), at_step(STEPS_ABOVE[-1])
    lightnesses = at_lightness(LIGHTNESS_BELOW[0]), at_lightness(LIGHTNESS_ABOVE[-1])
    for place, parts in enumerate((steps, (*steps, *lightnesses), steps)):
        yield spectrum_near(chance, number, spacing, place, LIMIT, False)
        for part in (LIMIT, *parts):
            yield spectrum_near(chance, number, spacing, place, part, True)


def any_near(chance, number, spacing):
    return spectrum_near(
        chance, number, spacing, chance.below(3), part_near(chance), chance.one_in(2))


def near_the_limit(chance):
    """The line of an opening, by tables made for it or a built-in light, and four spectra."""
    made, number, spacing = any_sums(chance), chance.between(1, 2), chance.pick((5, 10))
    if chance.one_in(3):
        return light(number, spacing), *(any_near(chance, number, spacing) for _ in range(4))
    return opening(made.tables, made.spacing), *(made.any_spectrum(chance) for _ in range(4))


def check_told_apart():
    """The cube root misses these steps, and these L, which the straight piece has just reached."""
    for step in (*STEPS_BELOW, *STEPS_ABOVE):
        assert cube_root_down(10**18 * at_step(step) // WHITE) == step - 1
        assert f_step(at_step(step), WHITE, 1_000_000) == step - (step in STEPS_ABOVE)
    for L in (*LIGHTNESS_BELOW, *LIGHTNESS_ABOVE):
        assert cube_root_down(1_160_000**3 * at_lightness(L) // WHITE) == 160_000 + L - 1
        assert lightness(at_lightness(L), WHITE) == L - (L in LIGHTNESS_ABOVE)
