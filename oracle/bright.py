"""The stored script's sections on the frame's limit: readings around both limits, and the shades of
the stored book as standards."""

from lines import (
    AROUND_LIMITS, REPORT, by_turns, changed, flat, light, seen_at, standard, tolerance,
)
from tables import LENGTHS


def around(reading, spacing):
    """Spectra with that reading in every row, and in the first, in a middle or in the last."""
    dim, rows = flat(1_250, spacing), LENGTHS[spacing]
    return flat(reading, spacing), *(changed(dim, row, reading) for row in (0, rows // 2, rows - 1))


def around_the_limits(spacing):
    """Each previewed and tried beside a standard that is not bright, then set as a standard. What
    is refused leaves the standard and the tallies as they were: the dim spectrum differs by 0."""
    dim, said = flat(1_250, spacing), [light(1, spacing), tolerance("luv", 12)]
    for reading in AROUND_LIMITS:
        for place, spectrum in enumerate(around(reading, spacing)):
            at = by_turns(place + spacing)
            said += [standard(dim), *seen_at(at, spectrum), standard(spectrum)]
            said += [*seen_at(at, dim), REPORT]
    return said


def shades_as_standards(spectra):
    """Those of a book at 5 nm, under the light of the listing: a shade that is bright there is
    refused here."""
    said = [light(2), tolerance("lab", 12)]
    for place, spectrum in enumerate(spectra):
        said += [standard(flat(1_250)), standard(spectrum), *seen_at(by_turns(place), spectrum)]
    return said + [REPORT]
