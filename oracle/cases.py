"""The stored cases, made anew from a fixed seed: a dictionary of path (from the root) to bytes."""

from itertools import product

import book
import host
import listing
import replay
from bright import around
from causes import READER_LIMIT
from chance import Chance
from lines import AROUND_LIMITS, IN_A_BOOK, any_spectrum, changed, flat
from near_limit import any_near, each_near
from script import script
from tables import LENGTHS, LIGHTS

SEED = 1931
HOST_CASES = "oracle/host_cases.txt"


def shades(chance):
    """Some fifty: extremes of reading, the frame's limit, lots of every kind, and sums near the
    limit of f."""
    spectra = [flat(0), flat(READER_LIMIT), flat(1), flat(1_250), flat(88), flat(89), flat(10_000)]
    spectra += [changed(flat(0), 0, READER_LIMIT), changed(flat(READER_LIMIT), 80, 0)]
    spectra += [spectrum for reading in IN_A_BOOK for spectrum in around(reading, 5)]
    spectra += [any_spectrum(chance, 5, READER_LIMIT) for _ in range(11)]
    return spectra + list(each_near(Chance(0), listing.LIGHT, 5))


def stored_book(spectra):
    """With extremes of number."""
    numbers = [1, 2, 7, 255, 256, *(300 + 17 * place for place in range(len(spectra) - 7)),
               65_534, 65_535]
    return book.book_bytes(list(zip(numbers, spectra)))


def spectrum_bytes(spectrum):
    return b"".join(book.put(reading, 2) for reading in spectrum)


def host_case(chance):
    """A light, the spectrum's bytes and the lent buffer, mostly good."""
    spectrum = any_spectrum(chance, chance.pick((5, 10)), READER_LIMIT)
    if chance.one_in(6):
        row = chance.below(len(spectrum))
        spectrum = changed(spectrum, row, chance.pick((*AROUND_LIMITS, 65_535)))
    data = spectrum_bytes(spectrum)
    if chance.one_in(6):
        data = (data * 4)[:chance.pick((0, 1, 41, 80, 81, 83, 84, 160, 161, 163, 164, 324))]
    light = chance.pick((1, 2)) if chance.below(6) else chance.pick((0, 3, 257, 2**31, 2**32 - 1))
    length = chance.pick((20, 20, 21, 64)) if chance.below(6) else chance.below(20)
    return light, data, chance.bytes(length)


def host_case_near(chance):
    """A good call, with a sum near the limit of f."""
    light, spacing = chance.pick((1, 2)), chance.pick((5, 10))
    return light, spectrum_bytes(any_near(chance, light, spacing)), chance.bytes(20)


def host_faults(chance, data):
    """A spectrum's bytes with the light, the last reading and the buffer right and wrong in all
    eight ways."""
    bright = (data[:-2] + book.put(READER_LIMIT + 1, 2))[:len(data)]
    for faults in range(8):
        given = bright if faults & 2 else data
        yield 3 if faults & 1 else 2, given, chance.bytes(19 if faults & 4 else 23)


def host_lengths(chance):
    """Spectra of 0 to 164 bytes, each in all eight ways."""
    for length in range(165):
        yield from host_faults(chance, spectrum_bytes(flat(READER_LIMIT) * 2)[:length])


def host_cases(chance):
    """At each spacing the light, the length, the reading and the buffer wrong in all sixteen ways,
    then others, then sums near the limit of f."""
    for spacing in LENGTHS:
        data = spectrum_bytes(flat(READER_LIMIT, spacing))
        yield from host_faults(chance, data)
        yield from host_faults(chance, data[:-1])
        for light in (1, 2):
            for entry in (0, 1, 10_000):
                yield light, spectrum_bytes(flat(entry, spacing)), chance.bytes(20)
            for spectrum in (one for entry in AROUND_LIMITS for one in around(entry, spacing)):
                yield light, spectrum_bytes(spectrum), chance.bytes(20)
    for _ in range(80):
        yield host_case(chance)
    for light, spacing in product(LIGHTS, LENGTHS):
        for spectrum in each_near(chance, light, spacing):
            yield light, spectrum_bytes(spectrum), chance.bytes(20)


def host_text(cases):
    """A line for each case: light, spectrum, buffer, result, buffer afterwards; bytes in
    hexadecimal, `-` for none."""
    lines = []
    for light, spectrum, out in cases:
        result, left = host.shade_colour(light, spectrum, out)
        given, lent, after = (data.hex() or "-" for data in (spectrum, out, left))
        lines.append(f"{light} {given} {lent} {result} {after}\n")
    return "".join(lines).encode()


def stored():
    chance = Chance(SEED)
    spectra = shades(chance)
    calls, whole = script(chance, spectra), stored_book(spectra)
    return {
        "crates/replay/stdin": calls,
        "crates/replay/stdout": replay.output(calls),
        "crates/shadelist/stdin": whole,
        "crates/shadelist/stdout": listing.output(whole),
        HOST_CASES: host_text(host_cases(chance)),
    }
