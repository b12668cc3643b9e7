"""The stored script's sections on the limit of f: sums just at it, a unit above it and a unit below
it, and sums at which the two pieces of f are told apart."""

from itertools import product

from ledger import GUARD
from lines import by_turns, changed, guard_lines, opening, preview, standard, tolerance, trial
from near_limit import (
    LIGHTNESS_ABOVE, LIGHTNESS_BELOW, LIMIT, STEPS_ABOVE, STEPS_BELOW, WHITE, at_lightness,
    at_root, at_root_lightness, at_step, fine_sums, full_sums,
)
from published import flat

# Points, as AnySums has them.
BLACK, BRIGHT = (0, 0), (WHITE, 0)
AROUND = [(LIMIT, more) for more in (-1, 0, 1)]
EVERY_WAY = list(product(AROUND, repeat=3))  # for X, Y and Z


def each_way():
    """X, Y and Z below, at and above the limit in all 27 ways; then each of them alone, the others
    black or white."""
    alone = [changed([far] * 3, place, point)
             for place, point, far in product(range(3), AROUND, (BLACK, BRIGHT))]
    return EVERY_WAY + alone


def whole_steps():
    """A step of the straight piece, then of the cube root, just reached and missed by a unit: in X
    and Z, then in Y."""
    parts = [at_step(step) for step in (150_000, *STEPS_BELOW, *STEPS_ABOVE)]
    for part in (*parts, at_root(STEPS_ABOVE[0])):
        just, missed = (part, 0), (part, -1)
        yield from ((just, BRIGHT, missed), (missed, BRIGHT, just))
        yield from ((BRIGHT, just, BRIGHT), (BRIGHT, missed, BRIGHT))


def whole_lightness():
    """An L just reached and missed by a unit."""
    parts = [at_lightness(L) for L in (45_000, *LIGHTNESS_BELOW[::2], *LIGHTNESS_ABOVE[::2])]
    for part in (*parts, at_root_lightness(LIGHTNESS_ABOVE[0])):
        yield from ((BLACK, (part, 0), BLACK), (BLACK, (part, -1), BLACK))


def missed_by_a_unit(made):
    """A standard at which the straight piece has just reached a step or an L, and a swatch that
    misses it, at the edges of the guard: at 5 nm in X and Y, at 10 nm in Z and Y."""
    step = (0, at_step(STEPS_BELOW[1])) if made.spacing == 5 else (2, at_step(STEPS_ABOVE[1]))
    whole_L, said = (1, at_lightness(LIGHTNESS_BELOW[1])), []
    for (place, part), spaces in ((step, ("lab",)), (whole_L, ("lab", "luv"))):
        one, other = (made.spectrum(*changed([BRIGHT] * 3, place, (part, more)))
                      for more in (0, -1))
        said += [standard(one), *guard_lines(made.under, one, other, spaces)]
    return said


def three_missed():
    """Steps in X and Z and an L in Y, next below the limit: each just reached or missed by a unit,
    in all ways."""
    parts = at_step(STEPS_BELOW[-1]), at_lightness(LIGHTNESS_BELOW[-1]), at_step(STEPS_BELOW[-2])
    return product(*(((part, 0), (part, -1)) for part in parts))


def seen_from_white(made):
    """Swatches in all 27 ways at an edge of the guard: on one side of it where Y is below the
    limit, on the other elsewhere."""
    lab, luv, E = GUARD["lab"], GUARD["luv"], 920_000  # of L 1000000 and 80000
    edges = ("lab", E + lab), ("luv", E - luv + 1)
    if made.spacing == 10:
        edges = ("lab", E - lab + 1), ("luv", E + luv)
    said = [standard(flat(10_000, made.spacing))]
    for turn, edge in enumerate(edges):
        said.append(tolerance(*edge))
        for place, points in enumerate(EVERY_WAY):
            look = (preview, trial)[(turn + place) % 2]
            said.append(look(by_turns(place), made.spectrum(*points, level=88)))
    return said


def around_the_limit(spacing):
    """With the smallest weights, then with nearly the largest."""
    fine, full = fine_sums(spacing), full_sums(spacing)
    points = *each_way(), *whole_steps(), *whole_lightness()
    return [
        opening(fine.tables, spacing), *(standard(fine.spectrum(*each)) for each in points),
        *missed_by_a_unit(fine), opening(full.tables, spacing), standard(flat(0, spacing)),
        *(standard(full.spectrum(*each)) for each in three_missed()), *seen_from_white(full),
    ]
