"""The stored script's sections on the nearest shade of a book."""

from itertools import product

from book import SHADE_LIMIT, book_bytes
from books import LAST_SHADE, books_of_note, mixed_books, rising_numbers
from causes import FRAME_LIMIT
from chance import Chance
from lines import (
    AROUND_LIMITS, IN_A_BOOK, OTHER, REPORT, TOO_BRIGHT, TOO_LARGE, changed, full_tables, light,
    nearest, opening, preview, seen_at, smooth_spectrum, standard, tolerance, trial,
)
from near_books import near_shades
from published import flat
from search_ends import MOST, search_ends
from strikes import AROUND_BOTH_LIMITS, broken_books
from tables import LENGTHS


def wrong_looks(spacing):
    """Every set of faults in the swatch, the book and the budget, and none."""
    good, other, empty = flat(1_250, spacing), flat(1_250, OTHER[spacing]), book_bytes([])
    swatches = (good, good[1:], changed(good, 0, TOO_BRIGHT), changed(good, 7, TOO_BRIGHT)[1:],
                other)
    data = book_bytes([(7, good)])
    books = data, data[:-1], empty, empty + b"\0", book_bytes([(7, other)])
    return [nearest(*call) for call in product((9, 0), swatches, books)]


def no_settings(spacing):
    """As long as there is no tolerance, without a standard or with one."""
    swatch, data = flat(1_250, spacing), book_bytes([(7, flat(1_300, spacing))])
    return [nearest(1, swatch, data), nearest(0, swatch, data)]


def around_the_limits(spacing):
    """Readings around each limit in a first, a middle and a last row of the swatch, then of the
    first or the last of two shades."""
    dim, rows = flat(1_250, spacing), LENGTHS[spacing]
    data, said = book_bytes([(7, flat(1_300, spacing))]), []
    for reading, row in product((*AROUND_LIMITS, 65_535, 65_536, TOO_LARGE),
                                (0, rows // 2, rows - 1)):
        said.append(nearest(1, changed(dim, row, reading), data))
    for reading, row in product((*AROUND_BOTH_LIMITS, 65_535), (0, rows // 2, rows - 1)):
        bright = changed(dim, row, reading)
        spectra = (bright, dim) if row else (dim, bright)
        said.append(nearest(2, dim, book_bytes(list(zip((7, 300), spectra)))))
    return said


def levels():
    """Flat shades, brighter than the frame takes them among them."""
    shades = enumerate((0, 1, 10_000, *IN_A_BOOK), 1)
    data = book_bytes([(number, flat(level, 10)) for number, level in shades])
    return [light(1, 10), *(nearest(MOST, flat(level, 10), data)
                            for level in (0, 1, 10_001, FRAME_LIMIT))]


def not_books(chance, spacing):
    """11 alone at 10 nm, and some with a budget of 0 at 5 nm."""
    swatch, broken = flat(1_250, spacing), list(broken_books(chance, spacing))
    if spacing == 10:
        return [nearest(2, swatch, data) for data in broken]
    return [nearest(0, swatch, data) for data in broken[::3]]


def at_the_other(chance):
    """Books of either spacing, mixed ones and empty ones under each."""
    note, said = books_of_note(), []
    mixed = list(mixed_books(chance, (10,)).values())
    books = [*(book_bytes([(7, flat(1_300, own))]) for own in LENGTHS), *mixed[::3],
             *(data for name, data in note.items() if "empty" in name or "counted" in name)]
    for spacing in LENGTHS:
        said += [light(1, spacing), *(nearest(1, flat(1_250, spacing), data) for data in books)]
    return said


def under_each_light(chance, spacing, sizes):
    """The same books, by their sizes and some budgets, under both lights and under tables."""
    asked = []
    for count, budgets in sizes:
        swatch = smooth_spectrum(chance, 500, 9_500, spacing)
        shades = zip(rising_numbers(chance, count), near_shades(chance, swatch, count))
        data = book_bytes(list(shades))
        asked += [nearest(budget, swatch, data) for budget in budgets]
    opened = light(1, spacing), light(2, spacing), opening(full_tables(chance, spacing), spacing)
    return [line for way in opened for line in (way, *asked)]


def long_book(spacing, count):
    """Of so many shades with the last numbers: nearly as light as a flat one of 5000, and bluer."""
    rows, shades = LENGTHS[spacing], []
    for place in range(count):
        bluer, level = 7_000 + (37 * place + 150) % 400, 4_990 + place % 13
        spectrum = [bluer if row < rows // 6 else level for row in range(rows)]
        shades.append((LAST_SHADE - count + 1 + place, spectrum))
    return book_bytes(shades)


def longest():
    """The longest book."""
    return [light(2), nearest(MOST, flat(5_000), long_book(5, SHADE_LIMIT))]


def long_searches():
    """Lines that are too long to be stored, and searches after them."""
    swatch, data, full = flat(5_000, 10), long_book(10, 2), long_book(10, SHADE_LIMIT)
    at_5 = long_book(5, SHADE_LIMIT)
    no_books = at_5 + b"\0", at_5 + bytes(1_000), long_book(5, SHADE_LIMIT + 1)
    longer = [nearest(1, readings, full + bytes(300_000)) + ending
              for readings in (swatch, [7] * 300_000) for ending in (b"", b"0", b"g0", b" ", b" 7")]
    return [
        longer[0], light(1), nearest(SHADE_LIMIT - 1, flat(5_000), at_5),
        *(nearest(1, flat(5_000), given) for given in no_books), light(1, 10), *longer,
        nearest(0, swatch, long_book(10, SHADE_LIMIT + 1)), nearest(1, [7] * 300_000, data),
        nearest(1, [TOO_LARGE] * 3_000, full), nearest("7" * 2**20, swatch, data),
        nearest(f"{'0' * 2**20}1", swatch, data), nearest("0" * 2**20, swatch, data),
        nearest(SHADE_LIMIT, swatch, full), nearest(1, swatch, data),
    ]


def among_calls(chance, spacing):
    """A search needs neither a standard nor a tolerance and moves nothing: what is in force and the
    tallies stay. At the other spacing its swatch is short."""
    own = smooth_spectrum(chance, 500, 9_500, spacing)
    (near, far), other = near_shades(chance, own, 2), flat(1_250, OTHER[spacing])
    data = book_bytes([(3, near), (7, far)])
    asked, most = nearest(1, own, data), nearest(MOST, far, data)
    refused = [nearest(*call) for call in (
        (0, own, data), (2, own[1:], data), (2, changed(own, 0, TOO_BRIGHT), data),
        (2, own, data[:-1]), (2, other, data))]
    said = [asked, light(1, OTHER[spacing]), asked, light(3, spacing), most, light(1, spacing)]
    for opened in (light(2, spacing), light(2, OTHER[spacing])):
        said += [asked, opened, asked, *seen_at(2, near), standard(own), standard(other), most]
        said += [tolerance("luv", 900), asked, preview(2, near), most, trial(2, near), *refused]
        said += [preview(2, far), asked, trial(2, far), REPORT, most, tolerance("lab", 9_000)]
        said += [asked, trial(2, own), light(0, spacing), most, *seen_at(2, near, other), REPORT]
    return said


# Books by their size, with budgets. Lines at 5 nm are long: fewer of them will do.
SIZES = {5: ((2, (2,)), (20, (MOST,))),
         10: ((1, (1,)), (2, (1, 2)), (3, (2, 3)), (6, (1, 3, 6)), (20, (MOST,)))}


def searches():
    chance = Chance(0)
    said = [*search_ends(), *longest(), *levels(), *at_the_other(chance)]
    for spacing in LENGTHS:
        said += [light(2, spacing), *wrong_looks(spacing), *around_the_limits(spacing)]
        said += not_books(chance, spacing)
        said += under_each_light(chance, spacing, SIZES[spacing])
        said += among_calls(chance, spacing)
    return said
