"""Pile fabric is measured at several spots, which are pooled into one spectrum."""

from causes import (
    FRAME_LIMIT, OVER_BRIGHT, SHORT_TABLE, SPOT_COUNT, above, refuse_when, spacing_check,
)
from tables import LENGTHS

SPOT_COUNTS = range(2, 17)


def pooled(spots):
    """One reading for each wavelength."""
    count = len(spots)
    return [(sum(readings) + count // 2) // count for readings in zip(*spots)]


def pool(spacing, count, readings, places):
    """Pools so many spots, one after another among the readings, into a list of places."""
    refuse_when(
        spacing_check(spacing),
        (SPOT_COUNT, lambda: count not in SPOT_COUNTS),
        (SHORT_TABLE, lambda: len(readings) != LENGTHS[spacing] * count
            or len(places) != LENGTHS[spacing]),
        (OVER_BRIGHT, lambda: above(FRAME_LIMIT, readings)),
    )
    rows = LENGTHS[spacing]
    places[:] = pooled([readings[rows * place:rows * (place + 1)] for place in range(count)])
