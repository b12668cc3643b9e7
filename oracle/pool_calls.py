"""Cases of the pooling of spots as a C program calls it, with places of any number, and what each
call gives back and leaves."""

from array import array
from collections import namedtuple

import pooling
from book_calls import UNKNOWN
from causes import FRAME_LIMIT, READER_LIMIT, Refused
from lines import AROUND_LIMITS, AT_THE_FRAME, OTHER, TOO_BRIGHT, any_spectrum, changed, flat
from pooling import SPOT_COUNTS
from spots import NO_SPOT_COUNTS, every_remainder, one_after_another
from tables import LENGTHS

NO_COUNTS = [count for count in NO_SPOT_COUNTS if count < 2**32]
BRIGHT = TOO_BRIGHT, READER_LIMIT, READER_LIMIT + 1, 65_535

# What is lent, as bytes: places of 2 bytes each.
Pool = namedtuple("Pool", "spacing count readings lent")


def answer(call):
    """0 or the cause, and what the call leaves in the places."""
    places = array("H", call.lent).tolist()
    try:
        pooling.pool(call.spacing, call.count, call.readings, places)
    except Refused as refusal:
        return refusal.cause, call.lent
    return 0, array("H", places).tobytes()


def outcome(call, number):
    """The cause's number, or `done` and the spacing."""
    return str(number or f"done at {call.spacing} nm")


def named(call):
    """What a call is, in few words."""
    return (f"{call.count} spots at {call.spacing} nm, {len(call.readings)} readings "
            f"{call.readings[:6]}.., into {len(call.lent) // 2} places")


def places(chance, spacing):
    return chance.bytes(2 * LENGTHS[spacing])


def spots(chance, spacing, count):
    return one_after_another(any_spectrum(chance, spacing) for _ in range(count))


def faulty(chance, faults):
    """A call with any of the five faults, a bit for each, in the order of the checks. A count that
    is off comes with as many readings, where they are not short."""
    spacing = chance.pick((5, 10))
    rows, other_rows = LENGTHS[spacing], LENGTHS[OTHER[spacing]]
    count = chance.pick(NO_COUNTS) if faults & 2 else chance.pick(SPOT_COUNTS)
    told = min(count, 18)
    readings, lent = spots(chance, spacing, told), places(chance, spacing)
    if faults & 4:
        lengths = {0, rows, rows * told - 1, rows * told + 1, rows * (told + 1),
                   other_rows * told, rows * told // 2} - {rows * told, -1}
        readings = (readings * 2 + flat(7))[:chance.pick(sorted(lengths))]
    if readings:
        reading = chance.pick(BRIGHT if faults & 16 else AT_THE_FRAME)
        readings[chance.pick((0, -1, chance.below(len(readings))))] = reading
    if faults & 8:
        lent = chance.bytes(2 * chance.pick((0, 1, rows - 1, rows + 1, other_rows, 2 * rows)))
    return Pool(chance.pick(UNKNOWN) if faults & 1 else spacing, count, readings, lent)


def edges(chance, spacing):
    """Each limit from both sides, and every remainder, with right places; then places of every
    number."""
    rows = LENGTHS[spacing]
    for count in (*range(20), *NO_COUNTS):
        yield Pool(spacing, count, flat(7, spacing) * min(count, 20), places(chance, spacing))
    for count in SPOT_COUNTS:
        for readings in (one_after_another(every_remainder(spacing, count)),
                         one_after_another(every_remainder(spacing, count, 9_999)),
                         [FRAME_LIMIT] * (rows * count), any_spectrum(chance, spacing) * count):
            yield Pool(spacing, count, readings, places(chance, spacing))
        dim = flat(88, spacing) * count
        for reading in (*AROUND_LIMITS, 65_535):
            for at in (0, rows - 1, rows, len(dim) - rows, len(dim) - 1):
                yield Pool(spacing, count, changed(dim, at, reading), places(chance, spacing))
        for length in (0, rows * (count - 1), len(dim) - 1, len(dim) + 1, rows * (count + 1),
                       LENGTHS[OTHER[spacing]] * count):
            yield Pool(spacing, count, (dim * 2)[:length], places(chance, spacing))
    for length in range(164):
        for count in (2, 16):
            yield Pool(spacing, count, flat(7, spacing) * count, chance.bytes(2 * length))


def unknown_spacings(chance):
    """With nothing else wrong at either spacing, and with all else wrong."""
    for spacing in UNKNOWN:
        for own, rows in LENGTHS.items():
            yield Pool(spacing, 2, flat(9, own) * 2, chance.bytes(2 * rows))
        yield Pool(spacing, 1, [TOO_BRIGHT], b"")


def calls(chance, count):
    for spacing in LENGTHS:
        yield from edges(chance, spacing)
    yield from unknown_spacings(chance)
    for faults in range(32):
        for _ in range(4):
            yield faulty(chance, faults)
    for _ in range(count):
        yield faulty(chance, sum(bit for bit in (1, 2, 4, 8, 16) if chance.one_in(8)))
