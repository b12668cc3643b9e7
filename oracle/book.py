"""The shade book: writing, the rules of a book, reading one shade."""

from causes import (
    FRAME_LIMIT, NO_SUCH_SHADE, NOT_A_BOOK, OUT_OF_ORDER, OVER_BRIGHT, READER_LIMIT, SHORT_BUFFER,
    SHORT_TABLE, TOO_MANY_SHADES, above, refuse_when, spacing_check,
)
from tables import LENGTHS

MAGIC = bytes.fromhex("53424B31")
HEAD = 6
ENTRY = 8
SHADE_LIMIT = 200


def put(value, size):
    return value.to_bytes(size, "little")


def take(data, at, size):
    return int.from_bytes(data[at:at + size], "little")


def readings(body):
    return [take(body, at, 2) for at in range(0, len(body), 2)]


def rising_from_one(numbers):
    return all(low < high for low, high in zip([0, *numbers], numbers))


def body_length(spacing):
    return 2 * LENGTHS[spacing]


def body_offset(spacing, count, place):
    return HEAD + ENTRY * count + body_length(spacing) * place


def total(spacing, count):
    return body_offset(spacing, count, count)


def book_bytes(shades):
    """The bytes of (number, spectrum) pairs as a book, without any check: each body is as long as
    its spectrum, and the bodies touch."""
    entries, bodies, offset = [], [], HEAD + ENTRY * len(shades)
    for number, spectrum in shades:
        entries.append(put(number, 2) + put(2 * len(spectrum), 2) + put(offset, 4))
        bodies += [put(reading, 2) for reading in spectrum]
        offset += 2 * len(spectrum)
    return b"".join([MAGIC, put(len(shades), 2), *entries, *bodies])


def write(spacing, numbers, spectra, buffer):
    """Writes a book into a bytearray and returns its total; spectra is one flat list."""
    count = len(numbers)
    refuse_when(
        spacing_check(spacing),
        (SHORT_TABLE, lambda: len(spectra) != LENGTHS[spacing] * count),
        (TOO_MANY_SHADES, lambda: count > SHADE_LIMIT),
        (OUT_OF_ORDER, lambda: not rising_from_one(numbers)),
        (OVER_BRIGHT, lambda: above(FRAME_LIMIT, spectra)),
        (SHORT_BUFFER, lambda: len(buffer) < total(spacing, count)),
    )
    rows = LENGTHS[spacing]
    buffer[:total(spacing, count)] = book_bytes([
        (number, spectra[rows * place:rows * (place + 1)]) for place, number in enumerate(numbers)
    ])
    return total(spacing, count)


def shades(data, spacing):
    """The (number, spectrum) pairs of a book of that spacing, or None when a rule is broken."""
    if len(data) < HEAD or data[:4] != MAGIC:
        return None
    count, body = take(data, 4, 2), body_length(spacing)
    if count > SHADE_LIMIT or len(data) != total(spacing, count):
        return None
    found = []
    for place in range(count):
        at, offset = HEAD + ENTRY * place, body_offset(spacing, count, place)
        if take(data, at + 2, 2) != body or take(data, at + 4, 4) != offset:
            return None
        found.append((take(data, at, 2), readings(data[offset:offset + body])))
    if not rising_from_one([number for number, _ in found]):
        return None
    if any(above(READER_LIMIT, spectrum) for _, spectrum in found):
        return None
    return found


def read(spacing, data, number, places):
    """Reads one shade into a list of places, as many as the spacing has rows."""
    refuse_when(spacing_check(spacing))
    held = shades(data, spacing)
    refuse_when(
        (SHORT_TABLE, lambda: len(places) != LENGTHS[spacing]),
        (NOT_A_BOOK, lambda: held is None),
        (NO_SUCH_SHADE, lambda: number not in dict(held)),
    )
    places[:] = dict(held)[number]
