"""The book's two calls: what each gives back and leaves, and cases of every kind."""

from array import array
from collections import namedtuple

import book
from book import ENTRY, HEAD, SHADE_LIMIT, total
from books import (
    LAST_SHADE, MIXTURES, books_of_note, damaged_book, made, mixed_books, overwrite,
    rising_numbers, wanted, whole_book,
)
from causes import FRAME_LIMIT, READER_LIMIT, Refused
from lines import (
    AROUND_LIMITS, AT_THE_FRAME, OTHER, TOO_BRIGHT, UNKNOWN_SPACINGS, any_spectrum, changed, flat,
)
from tables import LENGTHS

REFUSAL = 2**32  # above every count; the cause's number is added
UNKNOWN = [spacing for spacing in UNKNOWN_SPACINGS if spacing < 2**32]

# What is lent, as bytes: the buffer to write, or the places of 2 bytes each to read into.
Write = namedtuple("Write", "spacing numbers spectra lent")
Read = namedtuple("Read", "spacing data number lent")


def answer(call):
    """The number that the call gives back, and what it leaves of what is lent."""
    try:
        if isinstance(call, Write):
            buffer = bytearray(call.lent)
            number = book.write(call.spacing, call.numbers, call.spectra, buffer)
            return number, bytes(buffer)
        places = array("H", call.lent).tolist()
        book.read(call.spacing, call.data, call.number, places)
        return 0, array("H", places).tobytes()
    except Refused as refusal:
        above = REFUSAL if isinstance(call, Write) else 0
        return above + refusal.cause, call.lent


def outcome(call, number):
    """The call's kind, with the cause's number, or `done` and the spacing."""
    done = f"done at {call.spacing} nm"
    if isinstance(call, Write):
        return f"write {number - REFUSAL if number >= REFUSAL else done}"
    return f"read {number or done}"


def named(call):
    """What a call is, in few words."""
    if isinstance(call, Write):
        return (f"write at {call.spacing} nm of {len(call.numbers)} shades {call.numbers[:6]}.., "
                f"{len(call.spectra)} readings, into {len(call.lent)} bytes")
    return (f"read at {call.spacing} nm of shade {call.number} in {len(call.data)} bytes "
            f"{call.data[:30].hex()}.., into {len(call.lent) // 2} places")


# Writes

def fill(chance, count, spacing):
    """The readings of some shades; after twenty they repeat."""
    spectra = [any_spectrum(chance, spacing) for _ in range(min(count, 20))]
    return [reading for place in range(count) for reading in spectra[place % 20]]


def faulty_write(chance, faults):
    """A write with any of the six faults, a bit for each, in the order of the checks."""
    spacing = chance.pick((5, 10))
    count = chance.pick((201, 202, 250)) if faults & 4 else chance.pick((1, 2, 3, 20, 200))
    numbers, spectra = rising_numbers(chance, count), fill(chance, count, spacing)
    rows, other_rows, size = LENGTHS[spacing], LENGTHS[OTHER[spacing]], total(spacing, count)
    room = size + chance.pick((0, 1, 90, 170))
    if faults & 32:
        room = chance.pick((0, 5, size - 2 * rows, size - 1, min(size - 1, total(10, count))))
    readings = (TOO_BRIGHT, READER_LIMIT, READER_LIMIT + 1, 65_535) if faults & 16 else AT_THE_FRAME
    spectra[chance.pick((0, -1, chance.below(rows)))] = chance.pick(readings)
    if faults & 8:
        place = chance.below(count)
        numbers[place] = chance.pick((0, numbers[place - 1])) if place else 0
    if faults & 2:
        length = chance.pick((rows * (count - 1), rows * count - 1, rows * count + 1,
                              rows * (count + 1), other_rows * count))
        spectra = (spectra * 2)[:length]
    if faults & 1:
        spacing = chance.pick(UNKNOWN)
    return Write(spacing, numbers, spectra, chance.bytes(room))


def edge_writes(chance, spacing):
    """Each limit from both sides, and each fault alone in its first and last place."""
    def size(count):
        return total(spacing, count)

    rows = LENGTHS[spacing]
    for count in (0, 1, 2, 199, SHADE_LIMIT, SHADE_LIMIT + 1, 456):
        numbers, spectra = rising_numbers(chance, count), fill(chance, count, spacing)
        for room in (0, 5, size(count) - 1, size(count), size(count) + 1, size(count + 1),
                     total(OTHER[spacing], count)):
            yield Write(spacing, numbers, spectra, chance.bytes(room))
    # their count ends in 0 0
    yield Write(spacing, list(range(65_536)), flat(1, spacing) * 65_536, b"untouched")
    for numbers in ([0], [1], [65_535], [0, 1], [1, 1], [1, 2], [2, 1], [65_534, 65_535],
                    [65_535, 1], [256, 255], [255, 256], [1, 2, 2], [1, 3, 2], [2, 1, 3]):
        spectra = fill(chance, len(numbers), spacing)
        yield Write(spacing, numbers, spectra, chance.bytes(size(len(numbers))))
    upwards = list(range(1, SHADE_LIMIT + 1))
    level = flat(5, spacing) * SHADE_LIMIT
    for place, number in ((0, 0), (0, 2), (0, 3), (1, 1), (199, 199), (199, 200), (199, 1)):
        numbers = changed(upwards, place, number)
        yield Write(spacing, numbers, level, chance.bytes(size(SHADE_LIMIT)))
    for count in (0, 1, 2):
        for length in (0, 1, 40, 41, 42, 80, 81, 82, 83, 161, 162, 163, 243):
            yield Write(spacing, upwards[:count], [9] * length, chance.bytes(size(count)))
    for count in (1, 3, SHADE_LIMIT):
        for place in (0, 1, rows - 1, rows * count - 1):
            for reading in (*AROUND_LIMITS, 65_535):
                spectra = changed(flat(FRAME_LIMIT, spacing) * count, place, reading)
                yield Write(spacing, upwards[:count], spectra, chance.bytes(size(count) + 3))
    for count in (1, 41, 81, SHADE_LIMIT):  # as many readings as 41 shades have at 5 nm, 81 at 10
        room = chance.bytes(total(5, count))
        yield Write(spacing, upwards[:count], fill(chance, count, OTHER[spacing]), room)
        yield Write(spacing, upwards[:count], [9] * (41 * 81), room)


def unknown_writes(chance):
    """With nothing else wrong at either spacing, and with all else wrong."""
    for spacing in UNKNOWN:
        for rows in LENGTHS.values():
            yield Write(spacing, [1, 2], [9] * (2 * rows), chance.bytes(346))
        yield Write(spacing, [], [], chance.bytes(6))
        yield Write(spacing, [0] * 201, [TOO_BRIGHT], b"")


def writes(chance, count):
    for spacing in LENGTHS:
        yield from edge_writes(chance, spacing)
    yield from unknown_writes(chance)
    for faults in range(64):
        for _ in range(2):
            yield faulty_write(chance, faults)
    for _ in range(count):
        bits = [bit for bit in (1, 2, 4, 8, 16, 32) if chance.one_in(7)]
        yield faulty_write(chance, sum(bits))


# Reads

def places(chance, spacing):
    """As many as the spacing has rows; 81 where it is unknown."""
    return chance.bytes(2 * LENGTHS.get(spacing, 81))


def wrong_places(chance, spacing):
    others = {0, 1, 40, 41, 42, 80, 81, 82, 162} - {LENGTHS[spacing]}
    return chance.bytes(2 * chance.pick(sorted(others)))


def faulty_read(chance, faults):
    """A read with any of the four faults, a bit for each, in the order of the checks."""
    spacing = chance.pick((5, 10))
    numbers = rising_numbers(chance, chance.pick((1, 2, 20)))
    data, number = made(chance, numbers, spacing), chance.pick(numbers)
    if faults & 8:
        number = chance.pick([k for k in (0, number + 1, 65_535) if k not in numbers])
    if faults & 4:
        data = chance.pick((data[:-1], data + b"\0", overwrite(data, 0, 0, 1),
                            made(chance, numbers, OTHER[spacing])))
    lent = wrong_places(chance, spacing) if faults & 2 else places(chance, spacing)
    return Read(chance.pick(UNKNOWN) if faults & 1 else spacing, data, number, lent)


def edge_reads(chance, spacing):
    """Books of none, one and the most shades; one book cut at and changed in every byte."""
    def read(data, number):
        return Read(spacing, data, number, places(chance, spacing))

    for number in (0, 1, 65_535):
        yield read(made(chance, []), number)
    for held in (1, 7, 255, 256, 65_535):
        for number in (0, held - 1, held, (held + 1) % 65_536, held % 256, held // 256):
            yield read(made(chance, [held], spacing), number)
    full = made(chance, rising_numbers(chance, SHADE_LIMIT), spacing)
    for place in (0, 1, 99, 198, 199):
        number = book.take(full, HEAD + ENTRY * place, 2)
        yield read(full, number)
        yield read(full, number + 1)
    pair = made(chance, [3, 700], spacing)
    for length in range(164):
        yield Read(spacing, pair, 700, chance.bytes(2 * length))
    for at in range(len(pair) + 1):
        yield read(pair[:at], 700)
    for at, byte in enumerate(pair):
        for other in sorted({byte ^ 1 << chance.below(8), 0, 255} - {byte}):
            yield read(overwrite(pair, at, other, 1), 700)


def reads_of_both(chance):
    """Books of note and mixed ones at both spacings and an unknown one, with the places that fit
    the spacing, and with those that fit the other; then a book at every unknown spacing."""
    kinds = [books_of_note(), *(mixed_books(chance, spacings) for spacings in MIXTURES)]
    for data in (data for kind in kinds for data in kind.values()):
        number = chance.pick((LAST_SHADE, *(book.take(data, at, 2) for at in (HEAD, HEAD + ENTRY))))
        for spacing in LENGTHS:
            yield Read(spacing, data, number, places(chance, spacing))
            yield Read(spacing, data, number, places(chance, OTHER[spacing]))
        yield Read(chance.pick(UNKNOWN), data, number, places(chance, chance.pick((5, 10))))
    for spacing in UNKNOWN:
        for own in LENGTHS:
            yield Read(spacing, made(chance, [7], own), 7, places(chance, own))
        yield Read(spacing, b"", 0, b"")


def any_read(chance, damaged):
    """Mostly at the book's own spacing, with the places that fit."""
    own = chance.pick((5, 10))
    data = damaged_book(chance, own)[1] if damaged else whole_book(chance, own)
    spacing = OTHER[own] if chance.one_in(8) else own
    lent = wrong_places(chance, spacing) if chance.one_in(12) else places(chance, spacing)
    named_spacing = chance.pick(UNKNOWN) if chance.one_in(16) else spacing
    return Read(named_spacing, data, wanted(chance, data), lent)


def reads(chance, count):
    for spacing in LENGTHS:
        yield from edge_reads(chance, spacing)
    yield from reads_of_both(chance)
    for faults in range(16):
        for _ in range(6):
            yield faulty_read(chance, faults)
    for index in range(count):
        yield any_read(chance, index % 3 != 0)
