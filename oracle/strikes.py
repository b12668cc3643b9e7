"""The stored script's sections on shades that are struck from a book."""

from itertools import permutations, product

from book import ENTRY, HEAD, SHADE_LIMIT, body_length, body_offset, book_bytes, take
from books import (
    LAST_SHADE, books_of_note, damaged_book, made, mixed_books, overwrite, rising_numbers, wanted,
)
from causes import READER_LIMIT
from chance import Chance
from lines import (
    AROUND_LIMITS, OTHER, REPORT, TOO_LARGE, UNKNOWN_SPACINGS, any_spectrum, changed, flat, light,
    preview, standard, tolerance, trial,
)
from striking import strike
from tables import LENGTHS

AROUND_BOTH_LIMITS = *AROUND_LIMITS, READER_LIMIT - 1

# Each counts as the last number; cut to their low bits or low digits most would be 0, 1 or 7.
PAST_THE_LAST = 2**16, 2**16 + 7, 70_000, 100_007, 2**32 + 7, 2**64 + 7, TOO_LARGE

# Numbers of small books; the bytes of some resemble each other.
SMALL = (
    (1,), (LAST_SHADE,), (255, 256, 257), (255,), (1, 2), (1, 256), (255, 65_280),
    (1, 700, LAST_SHADE),
)


def striking(spacing, number, data):
    return f"strike {spacing} {number} {data.hex()}".encode()


def struck(spacing, number, data):
    """The book that a strike leaves, and the whole buffer."""
    buffer = bytearray(data)
    length = strike(spacing, number, buffer)
    return bytes(buffer[:length]), bytes(buffer)


def longest_books():
    """At 5 and at 10 nm; the last shade has the last number."""
    note = books_of_note()
    return (note[f"a book of {SHADE_LIMIT} shades at {spacing} nm"] for spacing in LENGTHS)


def longest():
    """The longest books, and the longest of all with one byte more, with many, and with many and
    half of one."""
    at_5, at_10 = longest_books()
    middle = LAST_SHADE - SHADE_LIMIT // 2
    longer = striking(5, middle, at_5 + bytes(1_000))
    return [striking(5, middle, at_5), striking(10, LAST_SHADE, at_10),
            striking(5, middle, at_5 + b"\0"), longer, longer + b"0"]


def long_strikes():
    """Lines that are too long to be stored, and a strike after them."""
    full, _ = longest_books()
    single, longer = made(Chance(0), [7], 10), striking(5, LAST_SHADE, full + bytes(300_000))
    return [
        longer, longer + b"0", longer[:-1] + b"g", longer + b" ", longer + b" 7",
        striking(6, LAST_SHADE, full + bytes(300_000)), striking(10, 7, single + bytes(2**16)),
        striking("7" * 2**20, 7, single), striking(10, "7" * 2**20, single),
        striking(f"{'0' * 2**20}10", f"{'0' * 2**20}7", single), striking(10, 7, single),
    ]


def numbers_near(numbers):
    """Those numbers, their neighbours, and each with its two bytes exchanged."""
    found = {number for held in numbers
             for number in (held - 1, held, held + 1, held % 256 * 256 + held // 256)}
    return sorted(found & set(range(LAST_SHADE + 1)))


def each_shade(chance, spacing, small):
    """Of small books, and numbers that are not in them."""
    said = []
    for numbers in small:
        data = made(chance, numbers, spacing)
        said += [striking(spacing, number, data) for number in numbers_near(numbers)]
    return said


def past_the_last(chance):
    """Numbers that are too large, with the last number in the book and without it, and numbers
    after zeros."""
    said = []
    for numbers in ((7, LAST_SHADE), (7,)):
        data = made(chance, numbers, 10)
        said += [striking(10, number, data)
                 for number in (*PAST_THE_LAST, "0", "000", "007", f"{7:040}", f"{LAST_SHADE:040}")]
    return said


def orders_of_checks(chance, spacing):
    """Each cause of a strike in their order, alone and with the later ones failing too."""
    empty, data = made(chance, []), made(chance, [7], spacing)
    no_book = overwrite(empty, 4, 1, 2)
    said = [striking(wrong, *rest) for wrong in UNKNOWN_SPACINGS
            for rest in ((7, data), (7, empty), (7, no_book), (0, b"\0"))]
    said += [striking(wrong, 8, data) for wrong in UNKNOWN_SPACINGS[::4]]
    said += [striking(wrong, number, data[:-1]) for wrong in (0, 6) for number in (7, 8)]
    for number in (0, 1, 7, LAST_SHADE, TOO_LARGE):
        said += [striking(spacing, number, lent) for lent in (empty, empty + b"\0", no_book, b"\0")]
    return said


def broken_books(chance, spacing):
    """Two shades with a rule of the book broken."""
    numbers, length, other = (7, 300), body_length(spacing), body_length(OTHER[spacing])
    data, bodies = made(chance, numbers, spacing), body_offset(spacing, len(numbers), 0)
    yield from (overwrite(data, at, data[at] + 1, 1) for at in range(4))
    yield from (overwrite(data, 4, count, 2) for count in (0, 1, 3, SHADE_LIMIT + 1, 258))
    yield from (made(chance, wrong, spacing) for wrong in ((7, 7), (300, 7), (0, 300), (7, 0)))
    for place in range(len(numbers)):
        entry, offset = HEAD + ENTRY * place, body_offset(spacing, len(numbers), place)
        for wrong in (0, length - 1, length + 1, length + 256, other):
            yield overwrite(data, entry + 2, wrong, 2)
        for wrong in (0, offset - ENTRY, offset - 1, offset + 1, offset + 2**16, offset + 2**24):
            yield overwrite(data, entry + 4, wrong, 4)
    yield overwrite(overwrite(data, HEAD + 4, bodies + length, 4), HEAD + ENTRY + 4, bodies, 4)
    yield from (data[:at] for at in (1, 4, 5, HEAD, HEAD + ENTRY, bodies, len(data) - length))
    yield from (data[:-1], data + b"\0", data + data[-2:], data[:bodies] + b"\0\0" + data[bodies:])
    yield made(chance, numbers, spacing, OTHER[spacing])
    yield made(chance, numbers, OTHER[spacing], spacing)


def not_books(chance, spacing):
    """11 alone at 5 nm, and with a number that is not there at 10 nm."""
    number = {5: 7, 10: 8}[spacing]
    return [striking(spacing, number, data) for data in broken_books(chance, spacing)]


def at_the_other(chance):
    """Books of one spacing struck at the other, and mixed ones at both."""
    note = books_of_note()
    said = [striking(10, 1, note["9 shades at 5 nm, counted 17"]),
            striking(5, 1, note["17 shades at 10 nm, counted 9"])]
    for spacing in LENGTHS:
        for numbers in ((7,), (7, 300)):
            said.append(striking(OTHER[spacing], 7, made(chance, numbers, spacing)))
    for data in mixed_books(chance, (10,)).values():
        said += [striking(spacing, take(data, HEAD, 2), data) for spacing in LENGTHS]
    return said


def around_the_limits(spacing):
    """A reading around each limit in a first, a middle and a last row of the shade that is struck
    and of the one that is left."""
    said, dim, rows = [], flat(1_250, spacing), LENGTHS[spacing]
    for reading, row in product(AROUND_BOTH_LIMITS, (0, rows // 2, rows - 1)):
        bright = changed(dim, row, reading)
        for spectra in ((bright, dim), (dim, bright)):
            data = book_bytes(list(zip((7, 300), spectra)))
            said.append(striking(spacing, 7 if spacing == 5 else 300, data))
    return said


def in_any_order(chance, spacing, numbers):
    """Shades struck one after another, in every order, until none is left. Each strike is lent what
    the one before it left. After each, the same again is 12, and with the zeros the next is 11."""
    said, data = [], made(chance, numbers, spacing)
    for order in permutations(numbers):
        left = data
        for number in order:
            said.append(striking(spacing, number, left))
            left, buffer = struck(spacing, number, left)
            said += [striking(spacing, number, left), striking(spacing, order[-1], buffer)]
    return said


def beside_a_session(chance, spacing):
    """A strike needs no session and moves none: the standard, the tolerance and the tallies stay.
    What it leaves is struck on; the shade that is left is tried as any spectrum is."""
    own, other = any_spectrum(chance, spacing), flat(1_250, OTHER[spacing])
    data = book_bytes([(3, own), (7, any_spectrum(chance, spacing, READER_LIMIT))])
    left, buffer = struck(spacing, 7, data)
    asked, again = striking(spacing, 7, data), striking(spacing, 3, left)
    refused = [striking(*call) for call in (
        (spacing, 7, left), (spacing, 3, buffer), (OTHER[spacing], 3, left), (6, 3, left))]
    said = [asked, light(1, OTHER[spacing]), again, standard(own), asked, preview(1, own)]
    for opened in (light(2, spacing), light(2, OTHER[spacing])):
        said += [opened, asked, standard(own), standard(other), tolerance("lab", 900), again]
        said += [trial(4, own), REPORT, *refused, asked, trial(4, other), again, REPORT]
    return said


def any_striking(chance, spacing, named):
    """Of a shade from a small book at a spacing, as the line names it. Now and then the book is
    damaged or there is something after it, and the number is not in it."""
    numbers = rising_numbers(chance, chance.pick((0, 1, 2, 3, 5, 20)))
    if chance.one_in(3):
        numbers[-1:] = [LAST_SHADE]
    data = made(chance, numbers, spacing)
    if chance.one_in(8):
        data = damaged_book(chance, spacing)[1]
    if chance.one_in(12):
        data += bytes(chance.pick((1, 2, ENTRY + body_length(spacing))))
    number = wanted(chance, data)
    if number == LAST_SHADE and chance.one_in(2):
        number = chance.pick(PAST_THE_LAST)
    return striking(named, f"00{number}" if chance.one_in(12) else number, data)


def struck_again(chance, spacing, left):
    """From the book that a strike left; now and then it is lent the zeros too."""
    data = left.buffer if chance.one_in(4) else left.buffer[:left.length]
    return striking(spacing, wanted(chance, data), data)


def strikes():
    chance = Chance(0)
    said = [*longest(), *past_the_last(chance), *at_the_other(chance)]
    # Lines at 5 nm are long: fewer of them will do.
    for spacing, small, numbers in ((5, SMALL[:3], (7, 300)), (10, SMALL, (7, 256, 300))):
        said += [*each_shade(chance, spacing, small), *orders_of_checks(chance, spacing)]
        said += [*not_books(chance, spacing), *around_the_limits(spacing)]
        said += [*in_any_order(chance, spacing, numbers), *beside_a_session(chance, spacing)]
    return said
