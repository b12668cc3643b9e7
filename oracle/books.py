"""Books of both spacings: whole, of note, damaged and mixed."""

from itertools import product

import book
import listing
from book import ENTRY, HEAD, SHADE_LIMIT
from causes import READER_LIMIT
from chance import Chance
from lines import AROUND_LIMITS, IN_A_BOOK, OTHER, any_spectrum, changed, flat
from near_limit import any_near
from tables import LENGTHS

LAST_SHADE = 2**16 - 1

# Spacings of a mixed book's shades, one after the other.
MIXTURES = ((10,), (5, 10), (10, 5), (5, 5, 10), (10, 5, 10))


def rising_numbers(chance, count):
    """At most 300 apart from each other and from 0."""
    numbers, number = [], 0
    for _ in range(count):
        number += chance.pick((1, 1, 2, 300))
        numbers.append(number)
    return numbers


def overwrite(data, at, value, size):
    return data[:at] + book.put(value, size) + data[at + size:]


def made(chance, numbers, *spacings):
    """A book of these numbers; the spacings go to the shades by turns."""
    return book.book_bytes([
        (number, any_spectrum(chance, spacings[place % len(spacings)], READER_LIMIT))
        for place, number in enumerate(numbers)])


def whole_book(chance, spacing):
    """With readings up to one around the limits; now and then a shade has a sum near the limit of
    f, under the light of the listing."""
    numbers = rising_numbers(chance, chance.pick((0, 1, 2, 5, 20, 200)))
    limit = chance.pick(IN_A_BOOK)
    return book.book_bytes([
        (number, any_near(chance, listing.LIGHT, spacing) if chance.one_in(20)
         else any_spectrum(chance, spacing, limit)) for number in numbers])


def bright_books():
    """By name: two shades, with a reading around the limits in the first row of the first or in the
    last row of the last."""
    found = {}
    for spacing, reading in product(LENGTHS, AROUND_LIMITS):
        dim, name = flat(1_250, spacing), f"a reading of {reading} at {spacing} nm"
        first, last = changed(dim, 0, reading), changed(dim, len(dim) - 1, reading)
        found[f"{name}, the first"] = book.book_bytes([(7, first), (LAST_SHADE, dim)])
        found[f"{name}, the last"] = book.book_bytes([(7, dim), (LAST_SHADE, last)])
    return found


def books_of_note():
    """By name: those with bright readings; books of the most shades and of one more, with a byte
    too many and one too few and with the other spacing's length; empty books; and 9 shades at 5 nm,
    which are as long as 17 at 10 nm, with the count of the others."""
    chance, found = Chance(0), bright_books()
    for spacing in LENGTHS:
        name = f"a book of {SHADE_LIMIT} shades at {spacing} nm"
        full = made(chance, range(LAST_SHADE - SHADE_LIMIT + 1, LAST_SHADE + 1), spacing)
        length = book.total(OTHER[spacing], SHADE_LIMIT)
        found |= {
            name: full, f"{name} and one byte more": full + b"\0",
            f"{name} and one byte less": full[:-1],
            f"{name}, {length} bytes": (full + bytes(length))[:length],
            f"{name} and one shade more": made(chance, range(1, SHADE_LIMIT + 2), spacing),
        }
    empty, single = made(chance, []), made(chance, [7], 10)
    nine, seventeen = made(chance, range(1, 10), 5), made(chance, range(1, 18), 10)
    return found | {
        "an empty book": empty, "an empty book and one byte more": empty + b"\0",
        "an empty book and one byte less": empty[:-1],
        "an empty book and a shade": overwrite(single, 4, 0, 2),
        "an empty book and an entry": overwrite(single, 4, 0, 2)[:HEAD + ENTRY],
        "9 shades at 5 nm, counted 17": overwrite(nine, 4, 17, 2),
        "17 shades at 10 nm, counted 9": overwrite(seventeen, 4, 9, 2),
    }


def mixed_books(chance, spacings):
    """By name, books of shades of these spacings in every sense: body lengths, offsets and bodies
    each as they are with the shades mixed, with all at 5 nm or with all at 10 nm. Two of them are
    books, where all three are of one spacing."""
    count, found = len(spacings), {}
    numbers = rising_numbers(chance, count)
    kinds, contents = (spacings, (5,) * count, (10,) * count), HEAD + ENTRY * count
    wholes = {kind: made(chance, numbers, *kind) for kind in kinds}
    for lengths, offsets, bodies in product(wholes, repeat=3):
        data = wholes[offsets][:contents] + wholes[bodies][contents:]
        for at in range(HEAD + 2, contents, ENTRY):
            data = overwrite(data, at, book.take(wholes[lengths], at, 2), 2)
        found[f"lengths {lengths}, offsets {offsets}, bodies {bodies}"] = data
    return found


def damaged_book(chance, spacing):
    """The kind of damage and the bytes; now and then the damage happens to leave a book."""
    count = chance.pick((1, 2, 5, 20, 200))
    numbers = rising_numbers(chance, count)
    data, length = made(chance, numbers, spacing), book.body_length(spacing)
    other = book.body_length(OTHER[spacing])
    place = chance.below(count)
    entry, body = HEAD + ENTRY * place, book.body_offset(spacing, count, place)
    bodies = book.body_offset(spacing, count, 0)
    any_row = body + 2 * chance.below(LENGTHS[spacing])
    wrong_count = chance.pick((0, count - 1, count + 1, 201, 65_535))
    wrong_length = chance.pick((0, length - 1, length + 1, length + 256, other, other, 65_535))
    wrong_offset = body + chance.pick((-2, -1, 1, length, other - length, 65_536, 2**24))
    mixture = [OTHER[spacing] if at == place else spacing for at in range(count)]
    return chance.pick((
        lambda: ("magic", overwrite(data, chance.below(4), chance.below(256), 1)),
        lambda: ("count", overwrite(data, 4, wrong_count, 2)),
        lambda: ("length", overwrite(data, entry + 2, wrong_length, 2)),
        lambda: ("offset", overwrite(data, entry + 4, wrong_offset % 2**32, 4)),
        lambda: ("order", overwrite(data, entry, chance.pick((numbers[0], 1, 65_535)), 2)),
        lambda: ("zero number", overwrite(data, HEAD, 0, 2)),
        lambda: ("gap", data[:bodies] + b"\0\0" + data[bodies:]),
        lambda: ("trailing", data + chance.bytes(chance.pick((1, 2, length, other, length + 8)))),
        lambda: ("truncated", data[:chance.below(len(data))]),
        lambda: ("reading", overwrite(data, any_row, chance.pick((READER_LIMIT + 1, 65_535)), 2)),
        lambda: ("too many", made(chance, range(1, 202), spacing)),
        lambda: ("mixed", made(chance, numbers, *mixture)),
        lambda: ("mixture", chance.pick(list(
            mixed_books(chance, chance.pick(MIXTURES)).values()))),
        lambda: ("any byte", overwrite(data, chance.below(len(data)), chance.below(256), 1)),
    ))()


def wanted(chance, data):
    """A shade number: mostly one that stands at the first, the last or another entry."""
    last = max(book.take(data, 4, 2), 1) - 1
    place = chance.pick((0, last, chance.below(last + 1)))
    there = book.take(data, HEAD + ENTRY * place, 2)
    near = chance.pick((there - 1, there + 1, 0, 65_535, chance.below(65_536)))
    return near % 65_536 if chance.one_in(4) else there
