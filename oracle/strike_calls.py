"""Cases of strikes as a C program makes them, and what each call gives back and leaves."""

from collections import namedtuple
from itertools import combinations, product

import striking
from book import ENTRY, HEAD, SHADE_LIMIT, body_length, book_bytes, take, total
from book_calls import REFUSAL, UNKNOWN
from books import (
    LAST_SHADE, MIXTURES, books_of_note, damaged_book, made, mixed_books, overwrite,
    rising_numbers, wanted, whole_book,
)
from causes import Refused
from expect import expect
from lines import OTHER, changed, flat
from strikes import AROUND_BOTH_LIMITS, SMALL, numbers_near
from tables import LENGTHS

# What is lent, as bytes: the buffer that a book should fill.
Strike = namedtuple("Strike", "spacing number lent")


def answer(call):
    """The length of the book that is left, or the refusal, and the buffer afterwards."""
    buffer = bytearray(call.lent)
    try:
        length = striking.strike(call.spacing, call.number, buffer)
    except Refused as refusal:
        return REFUSAL + refusal.cause, call.lent
    return length, bytes(buffer)


def outcome(call, number):
    """The cause's number, or `done` and the spacing."""
    return f"{number - REFUSAL}" if number >= REFUSAL else f"done at {call.spacing} nm"


def named(call):
    """What a call is, in few words."""
    return (f"shade {call.number} at {call.spacing} nm from {len(call.lent)} bytes "
            f"{call.lent[:30].hex()}..")


def numbers_in(data):
    """As its entries have them."""
    return [take(data, HEAD + ENTRY * place, 2) for place in range(take(data, 4, 2))]


def small_books(chance, spacing):
    """Books of none to three shades: each struck, and numbers that are not there. One of two shades
    is cut at and changed in every byte, and has bytes after it."""
    for numbers in ((), *SMALL, (1, 2, 3)):
        data = made(chance, numbers, spacing)
        for number in sorted({0, 1, LAST_SHADE, *numbers_near(numbers)}):
            yield Strike(spacing, number, data)
    pair, size = made(chance, [3, 700], spacing), ENTRY + body_length(spacing)
    for number, at in product((3, 700), range(len(pair))):
        yield Strike(spacing, number, pair[:at])
    for number, more in product((3, 700), (1, 2, ENTRY, size - 1, size, size + 1, 2**16)):
        yield Strike(spacing, number, pair + bytes(more))
        yield Strike(spacing, number, pair + chance.bytes(more))
    for at, byte in enumerate(pair):
        for other in sorted({byte ^ 1 << chance.below(8), 0, 255} - {byte}):
            yield Strike(spacing, chance.pick((3, 700)), overwrite(pair, at, other, 1))


def long_books(chance, spacing):
    """Of one shade less than the most, of the most and of one more."""
    for count in (SHADE_LIMIT - 1, SHADE_LIMIT, SHADE_LIMIT + 1):
        data = made(chance, rising_numbers(chance, count), spacing)
        held = numbers_in(data)
        for number in (held[0], held[1], held[count // 2], held[-2], held[-1]):
            yield Strike(spacing, number, data)
            yield Strike(spacing, number + 1, data)


def around_the_limits(spacing):
    """A reading around each limit in a first, a middle and a last row of each of three shades, each
    of which is struck."""
    dim, rows = flat(1_250, spacing), LENGTHS[spacing]
    for reading, row, bright in product(
            (*AROUND_BOTH_LIMITS, 65_535), (0, rows // 2, rows - 1), range(3)):
        spectra = changed([dim] * 3, bright, changed(dim, row, reading))
        data = book_bytes(list(zip((7, 8, 300), spectra)))
        yield from (Strike(spacing, number, data) for number in (7, 8, 300))


def at_both(chance):
    """Books of note and mixed ones at both spacings and an unknown one; then, at every unknown
    spacing, books of either with a number that is in them and one that is not, and no book."""
    kinds = [books_of_note(), *(mixed_books(chance, spacings) for spacings in MIXTURES)]
    for data in (data for kind in kinds for data in kind.values()):
        number = chance.pick((LAST_SHADE, *(take(data, at, 2) for at in (HEAD, HEAD + ENTRY))))
        for spacing in (*LENGTHS, chance.pick(UNKNOWN)):
            yield Strike(spacing, number, data)
    for spacing in UNKNOWN:
        for number, own in product((7, 8), LENGTHS):
            yield Strike(spacing, number, made(chance, [7], own))
        yield from (Strike(spacing, 7, data) for data in (b"", made(chance, [])))


def faulty(chance, faults):
    """A strike with any of the three faults, a bit for each, in the order of the checks."""
    spacing = chance.pick((5, 10))
    numbers = rising_numbers(chance, chance.pick((1, 2, 3, 20)))
    data, number = made(chance, numbers, spacing), chance.pick(numbers)
    if faults & 4:
        number = chance.pick([k for k in (0, number + 1, LAST_SHADE) if k not in numbers])
    if faults & 2:
        data = chance.pick((data[:-1], data + b"\0", overwrite(data, 0, 0, 1), b"",
                            made(chance, numbers, OTHER[spacing])))
    return Strike(chance.pick(UNKNOWN) if faults & 1 else spacing, number, data)


def in_either_order(spacing, data, one, other):
    """Two shades struck, the second from the book that the first left. It leaves the same book in
    either order."""
    ends = []
    for first, second in ((one, other), (other, one)):
        asked = Strike(spacing, first, data)
        length, left = answer(asked)
        again = Strike(spacing, second, left[:length])
        yield from (asked, again)
        ends.append(answer(again))
    name = f"shades {one} and {other} at {spacing} nm, struck in either order"
    expect(f"{name}; the length", total(spacing, take(data, 4, 2) - 2), ends[0][0])
    expect(name, *ends)


def one_by_one(chance, spacing, data):
    """All shades struck in a random order, each from what the one before left; and each from that
    with the zeros after it."""
    for number in chance.shuffled(numbers_in(data)):
        asked = Strike(spacing, number, data)
        length, left = answer(asked)
        yield from (asked, Strike(spacing, wanted(chance, left), left))
        data = left[:length]
    yield Strike(spacing, wanted(chance, data), data)


def in_orders(chance, spacing):
    """Every two shades of small books, and some of the longest."""
    for count in (2, 3, 5, SHADE_LIMIT):
        data = made(chance, rising_numbers(chance, count), spacing)
        held = numbers_in(data)
        few = held if count <= 5 else (held[0], held[count // 2], held[count // 2 + 1], held[-1])
        for one, other in combinations(few, 2):
            yield from in_either_order(spacing, data, one, other)
        if count <= 5:
            yield from one_by_one(chance, spacing, data)


def any_strike(chance, damaged):
    """Mostly at the book's own spacing."""
    own = chance.pick((5, 10))
    data = damaged_book(chance, own)[1] if damaged else whole_book(chance, own)
    spacing = OTHER[own] if chance.one_in(8) else own
    if chance.one_in(16):
        spacing = chance.pick(UNKNOWN)
    return Strike(spacing, wanted(chance, data), data)


def calls(chance, count):
    for spacing in LENGTHS:
        yield from small_books(chance, spacing)
        yield from long_books(chance, spacing)
        yield from around_the_limits(spacing)
        yield from in_orders(chance, spacing)
    yield from at_both(chance)
    for faults in range(8):
        for _ in range(8):
            yield faulty(chance, faults)
    for index in range(count):
        yield any_strike(chance, index % 2)
