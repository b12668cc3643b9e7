"""The stored script's sections on the rule of a search: the order of the shades, the best of them,
where it ends, and the gap that is left."""

from itertools import permutations, product

from book import book_bytes
from books import LAST_SHADE
from causes import FRAME_LIMIT, READER_LIMIT
from colour import colour, difference
from ledger import built_in
from lines import TOO_LARGE, light, nearest, opening
from near_books import Palette, near_grey
from published import filled, flat, three_rows
from tables import LENGTHS, LIGHTS

MOST = 2**32 - 1  # of a budget

# Eight shades that are all tried, most of them nearer than those before. As a palette has them:
# numbers, each with the difference of L, a and b.
ALL_TRIED = (
    (1, 7, 2_000, 0), (2, -1, 3_000, 0), (255, -4, 2_500, 0), (256, 4, 2_600, 0),
    (257, 0, 4_000, 0), (700, 2, 3_500, 0), (800, -7, 0, 1_000), (LAST_SHADE, 3, 2_500, 0),
)

# Cut to their low bits or low digits many would be 0 or a few.
BUDGETS = (
    0, "000", 1, 2, 3, 4, 5, 6, 7, 8, 9, "007", f"{0:040}", f"{3:040}", 10, 200, 2**8, 2**8 + 1,
    2**16, 2**16 + 1, 2**31, MOST, 2**32, 2**32 + 1, 2**64, 2**64 + 1, TOO_LARGE - 1, TOO_LARGE,
)

# Shades of a palette, and budgets. An E of 500 is that of 300 and 400, and of 400 and 300.
OF_NOTE = (
    # as much lighter as darker: by number, whichever is nearer
    (((3, 200, 500, 0), (8, -200, 100, 0)), (1, 2, 3)),
    (((3, -200, 100, 0), (8, 200, 500, 0)), (1, 2)),
    (((3, -200, 500, 0), (8, 200, 100, 0), (9, -200, 0, 0)), (1, 2, 3)),
    # the same spectrum under several numbers
    (((3, 200, 500, 0), (8, 200, 500, 0)), (1, 2)),
    (((255, -7, 0, 24), (256, -7, 0, 24), (LAST_SHADE, -7, 0, 24)), (1, 2, 3)),
    # the same E: the lowest number, though it is tried last, or first, or in the middle
    (((4, -400, 300, 0), (9, 300, 400, 0)), (1, 2)),
    (((4, 300, 400, 0), (9, -400, 300, 0)), (1, 2)),
    (((2, -400, 300, 0), (4, 480, 0, 140), (9, 300, -400, 0)), (1, 2, 3)),
    (((2, 480, 0, -140), (4, -400, 300, 0), (9, 300, 400, 0)), (1, 2, 3)),
    # and one that has it and is not tried
    (((2, 500, 0, 0), (4, -400, 300, 0), (9, 300, 400, 0)), (2, 3)),
    # the next difference is the best E, one less, one more
    (((2, -500, 0, 0), (9, 300, 400, 0)), (1, 2)),
    (((2, -499, 0, 0), (9, 300, 400, 0)), (1, 2)),
    (((2, 499, 0, 36), (9, 300, 400, 0)), (1, 2)),
    (((2, 499, 0, 60), (9, 300, 400, 0)), (1, 2)),
    (((2, 501, 0, 0), (9, 300, 400, 0)), (1, 2)),
    # E is rounded down to 500
    (((2, 500, 0, 0), (9, 301, 400, 0)), (1, 2)),
    (((2, 499, 0, 0), (9, 300, 400, 30)), (1, 2)),
    # a difference of 0
    (((5, 0, 0, 0),), (1, 2)),
    (((5, 0, 0, 0), (9, 0, 0, 0)), (1, 2)),
    (((3, 0, 5, 0), (5, 0, 0, 0), (9, 0, 0, 0)), (1, 2, 3)),
    (((3, 0, 5, 0), (5, 1, 0, 0), (9, 0, 0, 2)), (1, 2, 3)),
    (((3, 1, 0, 0), (5, -1, 0, 0), (9, 2, 0, 0)), (1, 3)),
    # nearer, then farther, then nearer
    (((1, 10, 1_000, 0), (2, -20, 100, 0), (3, 30, 400, 0), (4, -40, 90, 0), (5, 99, 0, 0)),
     (1, 2, 3, 4, 5)),
    # the last is the nearest, by as little as can be, or misses that
    (((1, 999, 0, 0), (2, -1, 1_000, 0), (3, 2, 1_005, 0), (4, -3, 0, 1_002)), (3, 4)),
    (((1, -1_000, 0, 0), (2, -1, 1_000, 0), (3, 2, 1_005, 0), (4, -3, 0, 1_002)), (3, 4)),
)


def of_note(spacing, cases):
    palette, said = Palette(spacing), []
    for shades, budgets in cases:
        data = palette.book(*shades)
        said += [nearest(budget, palette.swatch, data) for budget in budgets]
    return [palette.opened, *said]


def each_budget(spacing, budgets):
    palette = Palette(spacing)
    data, single = palette.book(*ALL_TRIED), palette.book((7, -300, 400, 0))
    return [palette.opened, *(nearest(budget, palette.swatch, data) for budget in budgets),
            *(nearest(budget, palette.swatch, single) for budget in (0, 1, 2, MOST, 2**32))]


def every_order():
    """Four shades that are tried one after another, in every order in the book."""
    palette, said = Palette(10), []
    places = (-100, 900, 0), (200, 800, 0), (300, 700, 0), (-400, 600, 0)
    for turn, order in enumerate(permutations(places)):
        shades = [(number, *place) for number, place in zip((3, 7, 300, LAST_SHADE), order)]
        said.append(nearest(2 + turn % 3, palette.swatch, palette.book(*shades)))
    return [palette.opened, *said]


def ends_under_lights():
    """A shade of another hue, and a grey one whose difference of L is just the E of that, one less
    or one more: under each light at each spacing."""
    said = []
    for number, spacing in product(LIGHTS, LENGTHS):
        under, rows = built_in(number, spacing), LENGTHS[spacing]
        swatch = flat(2_000, spacing)
        hued = [reading + 9 * (row < rows // 2) for row, reading in enumerate(swatch)]
        own = colour(swatch, under)
        E = difference("lab", own, colour(hued, under))
        said.append(light(number, spacing))
        for away in (E - 1, E, E + 1, 1 - E, -E, -1 - E):
            data = book_bytes([(3, near_grey(own.L + away, under)), (7, hued)])
            said.append(nearest(2, swatch, data))
    return said


def far_apart():
    """As far from each other as readings come, and black ones."""
    lit = ((READER_LIMIT, 0, 0), (0, 0, READER_LIMIT), (READER_LIMIT, 0, READER_LIMIT), (0, 0, 0),
           (0, READER_LIMIT, 0), (0, 0, 0))
    data = book_bytes([(number, filled(*readings, spacing=10))
                       for number, readings in enumerate(lit, 7)])
    swatches = (0, 0, 0), (0, FRAME_LIMIT, 0), (FRAME_LIMIT, 0, 0), (0, 0, FRAME_LIMIT)
    return [opening(three_rows(10), 10),
            *(nearest(budget, filled(*readings, spacing=10), data)
              for readings in swatches for budget in (1, 2, 5, 6))]


def search_ends():
    """Lines at 5 nm are long: fewer of them will do."""
    return [
        *of_note(5, OF_NOTE[::3]), *of_note(10, OF_NOTE), *each_budget(5, (0, 1, 7, 8, 9, MOST)),
        *each_budget(10, BUDGETS), *every_order(), *ends_under_lights(), *far_apart(),
    ]
