"""Spectra in order: under the same conditions no reading of one is above that of the other.

The one then has no larger L, X, Y or Z (document 02). Nothing of the kind is claimed for a, b, u
and v, and each of them is often larger.
"""

from collections import Counter, defaultdict
from itertools import permutations

from call_list import CallList
from causes import FRAME_LIMIT
from chance import Chance
from colour import above_limit, cube_root_down, sums
from expect import Difference
from ledger import Ledger
from lines import (
    any_spectrum, by_turns, changed, full_tables, light, opening, preview, standard, tolerance,
    trial,
)
from near_limit import (
    LIGHTNESS_ABOVE, LIGHTNESS_BELOW, LIMIT, STEPS_ABOVE, STEPS_BELOW, WHITE, any_sums,
    at_lightness, at_step, fine_sums, full_sums, near_the_limit, spectrum_near,
)
from published import flat
from replay import answer
from tables import LENGTHS, LIGHTS

CLAIMED, NOT_CLAIMED = ("L", "X", "Y", "Z"), ("a", "b", "u", "v")

# The limit of 1997, 0.008856, where L* by 903.3 x Y/Yn is above L* by the cube root.
LIMIT_OF_1997 = WHITE * 8_856 // 1_000_000


def in_order(one, other):
    return all(map(int.__le__, one, other))


def sum_of_y(spectrum, under):
    return sums(spectrum, under.illuminant, under.observer)[1]


# Rising series: each spectrum is in order with the next

def finest_row(under):
    """The row that counts least in Y, of those that count."""
    weights = map(int.__mul__, under.illuminant, under.observer[1])
    return min((weight, row) for row, weight in enumerate(weights) if weight)[1]


def raised(chance, spectrum):
    """One row, some or all by a little, or by more."""
    reach, share = chance.pick((1, 1, 1, 3, 200)), chance.pick((1, 8, len(spectrum)))
    sure = chance.below(len(spectrum))
    return [
        min(reading + chance.between(1, reach), FRAME_LIMIT)
        if row == sure or chance.one_in(share) else reading
        for row, reading in enumerate(spectrum)
    ]


def rising(chance, under, spectrum):
    """Seven spectra; half of the time Y rises by as little as it can."""
    row, finely, series = finest_row(under), chance.one_in(2), [spectrum]
    for _ in range(6):
        last = series[-1]
        finer = changed(last, row, min(last[row] + 1, FRAME_LIMIT))
        series.append(finer if finely else raised(chance, last))
    return series


def unit_by_unit(made, part):
    """X, Y and Z by turns a unit up, from two units below a part of their whites to three above."""
    series = [made.spectrum(*[(part, -2)] * 3)]
    units = [place * len(made.weights) - 1 for place in (1, 2, 3)]  # the rows of weight 1
    for row in units * 5:
        series.append(changed(series[-1], row, series[-1][row] + 1))
    return series


def parts_of_note():
    """The limits, and where the straight piece of f, or L by it, just reaches a whole number."""
    return (LIMIT, LIMIT_OF_1997, *map(at_step, (STEPS_BELOW[-1], STEPS_ABOVE[0])),
            *map(at_lightness, (LIGHTNESS_BELOW[-1], LIGHTNESS_ABOVE[0])))


# Lists of calls: an opening, and spectra measured under it

def ordered_list(opened, spectra):
    """Standards, trials and previews by turns, of these spectra under one opening."""
    made = CallList(0)
    for line in (opened, tolerance("lab", 1_000_000), standard(spectra[0])):
        made.say(line)
    for place, spectrum in enumerate(spectra[1:]):
        table_number = by_turns(place)
        made.say((standard(spectrum), trial(table_number, spectrum),
                  preview(table_number, spectrum))[place % 3])
    return made


def lists_of_note():
    """By name: levels from black on under each light, and unit by unit under tables made for it."""
    for spacing in LENGTHS:
        for number in LIGHTS:
            levels = [flat(level, spacing) for level in range(180)]
            yield f"levels, light {number} at {spacing} nm", light(number, spacing), levels
        for made in (fine_sums(spacing), full_sums(spacing)):
            spectra = [one for part in parts_of_note() for one in unit_by_unit(made, part)]
            name = f"unit by unit, white {made.under.white[1]} at {spacing} nm"
            yield name, opening(made.tables, spacing), spectra


def just_below(chance):
    """The line of an opening, and four spectra whose Y is just below the limit or that of 1997."""
    made, number, spacing = any_sums(chance), chance.between(1, 2), chance.pick((5, 10))
    parts = [chance.pick((LIMIT, LIMIT_OF_1997)) for _ in range(4)]
    if chance.one_in(2):
        return light(number, spacing), *(
            spectrum_near(chance, number, spacing, 1, part, False) for part in parts)
    return opening(made.tables, made.spacing), *(
        made.spectrum(*[(part, chance.between(-2, 0))] * 3) for part in parts)


def anywhere(chance):
    """The line of an opening, and any four spectra."""
    number, spacing = chance.between(1, 2), chance.pick((5, 10))
    opened = light(number, spacing), opening(full_tables(chance, spacing), spacing)
    return chance.pick(opened), *(any_spectrum(chance, spacing) for _ in range(4))


def random_list(seed):
    """Four series, most of them near the limit or near that of 1997."""
    chance, ledger = Chance(seed), Ledger()
    opened, *lowest = chance.pick((near_the_limit, just_below, just_below, anywhere))(chance)
    answer(ledger, opened)
    return opened, [one for spectrum in lowest
                    for one in rising(chance, ledger.conditions, spectrum)]


def larger_values(one, other):
    return {value for value in CLAIMED + NOT_CLAIMED if getattr(one, value) > getattr(other, value)}


def sides(one_bright, other_bright, rise):
    """The side of the limit that two Y are on; "next" too where L hardly rises across it."""
    if one_bright == other_bright:
        return ["above" if one_bright else "below"]
    return ["across", "next"] if rise <= 1 else ["across"]


def check_order(name, measured):
    """Of all pairs of spectra under the same conditions. Returns how many are in order, by the side
    of the limit, and how often each value that nothing is claimed for is larger."""
    times, together = Counter(), defaultdict(dict)
    for under, spectrum, own in measured:
        bright = above_limit(sum_of_y(spectrum, under), under.white[1])
        together[under][tuple(spectrum)] = own, bright
    for spectra in together.values():
        for one, other in permutations(spectra, 2):
            if in_order(one, other):
                (lower, one_bright), (upper, other_bright) = spectra[one], spectra[other]
                larger = larger_values(lower, upper)
                if not larger.isdisjoint(CLAIMED):
                    raise Difference(f"{name}: {larger} larger of\n  {one}\n  {lower}\n"
                                     f"  than of\n  {other}\n  {upper}")
                times.update(larger)
                times.update(sides(one_bright, other_bright, upper.L - lower.L))
    return times


def told(times):
    sides = ", ".join(f"{times[where]} {where}" for where in ("below", "above", "across"))
    larger = ", ".join(f"{value} {times[value]} times" for value in NOT_CLAIMED)
    return (f"{sides} the limit, {times['next']} of these with the same L or the next; "
            f"larger all the same {larger}")


def lightness_of_1997(n, d):
    if 1_000_000 * n > 8_856 * d:
        return cube_root_down(1_160_000**3 * n // d) - 160_000
    return 10_000 * 9_033 * n // (10 * d)


def by_constants_of_1997(one):
    L = lightness_of_1997(sum_of_y(one.spectrum, one.conditions), one.conditions.white[1])
    return one._replace(colour=one.colour._replace(L=L))


def check_fall_of_1997():
    """By the constants of 1997 L falls in the lists that go unit by unit, and is found to."""
    found = 0
    for name, opened, spectra in lists_of_note():
        try:
            check_order(name, map(by_constants_of_1997, ordered_list(opened, spectra).measured))
        except Difference:
            found += 1
    assert found == 2 * len(LENGTHS)
