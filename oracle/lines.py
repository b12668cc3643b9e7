"""Lines of a replay script, and spectra and tables to fill them."""

from causes import FRAME_LIMIT, READER_LIMIT
from colour import colour, difference
from ledger import GUARD, INSPECTION_TABLES
from published import filled, flat
from tables import LENGTHS


def counted(entries):
    return " ".join(map(str, [len(entries), *entries]))


def light(number, spacing=5):
    return f"light {number} {spacing}".encode()


def opening(tables, spacing=5):
    return " ".join([f"open {spacing}", *map(counted, tables)]).encode()


def standard(spectrum):
    return f"standard {counted(spectrum)}".encode()


def tolerance(space, amount):
    return f"tolerance {space} {amount}".encode()


def trial(table_number, spectrum):
    return f"trial {table_number} {counted(spectrum)}".encode()


def preview(table_number, spectrum):
    return f"preview {table_number} {counted(spectrum)}".encode()


def nearest(budget, swatch, data):
    return f"nearest {budget} {counted(swatch)} {data.hex()}".encode()


REPORT = b"report"
TOO_LARGE = 10**64 + 1  # for every place; cut to its low bits or low digits it would be 1
OTHER = {5: 10, 10: 5}  # the other spacing

# Readings around both limits: those that the frame takes, those that only a book may hold and the
# host call takes, and one that is too bright for all.
AT_THE_FRAME = FRAME_LIMIT - 1, FRAME_LIMIT
IN_A_BOOK = *AT_THE_FRAME, FRAME_LIMIT + 1, READER_LIMIT
AROUND_LIMITS = *IN_A_BOOK, READER_LIMIT + 1
TOO_BRIGHT = FRAME_LIMIT + 1  # for the frame, by as little as can be

# Those from 261 on would be 5 or 10 if they were cut to their low bits or low digits.
UNKNOWN_SPACINGS = (
    0, 1, 4, 6, 9, 11, 15, 20, 41, 50, 81, 100, 261, 266, 2**16 + 5, 2**16 + 10, 2**32 - 1,
    2**32 + 5, 2**32 + 10, 2**64 + 5, 2**64 + 10, 10**64 + 5, 10**64 + 10,
)

# Cut to their low bits or low digits, or counted round from 8 to 1, most would be 1 to 8.
NO_SUCH_TABLES = (
    0, 9, 10, 16, 17, 18, 81, 100, 255, 256, 257, 2**16 + 8, 2**31 + 1, 2**32 - 8, 2**32 - 1,
    2**32, 2**32 + 1, 2**32 + 8, 2**64 - 1, 2**64, 2**64 + 1, TOO_LARGE,
)


def by_turns(place):
    """The number of the inspection table whose turn it is."""
    return INSPECTION_TABLES[place % len(INSPECTION_TABLES)]


def seen_at(table_number, *spectra):
    """Each spectrum previewed and then tried at one inspection table."""
    return [line(table_number, spectrum) for spectrum in spectra for line in (preview, trial)]


def seen_by_turns(*spectra):
    """Each spectrum previewed and then tried, at the inspection tables by turns."""
    return [line for place, spectrum in enumerate(spectra)
            for line in seen_at(by_turns(place), spectrum)]


def seen_nowhere(*spectra, numbers=(0, 9, 2**32 + 1)):
    """Each spectrum previewed and tried at every number, where there is no inspection table."""
    return [line for number in numbers for line in seen_at(number, *spectra)]


def guard_amounts(space, E):
    """Tolerances at and around both edges of the guard, and in between."""
    g = GUARD[space]
    around = {E + g + 1, E + g, E + g - 1, E, E - g + 1, E - g, E - g - 1}
    return sorted(amount for amount in around if 0 <= amount <= 1_000_000)


def guard_lines(under, one, other, spaces=("lab", "luv")):
    """A preview and a trial at each of those tolerances."""
    said = []
    for space in spaces:
        E = difference(space, colour(one, under), colour(other, under))
        for place, amount in enumerate(guard_amounts(space, E)):
            said += [tolerance(space, amount), *seen_at(by_turns(place), other)]
    return said


def changed(entries, at, entry):
    """A copy with one entry replaced."""
    return [*entries[:at], entry, *entries[at + 1:]]


def smooth_spectrum(chance, low, high, spacing):
    """Straight pieces between a few random readings."""
    rows, step = LENGTHS[spacing], chance.pick((10, 20, 40))
    knots = [chance.between(low, high) for _ in range(rows // step + 2)]
    return [
        (knots[row // step] * (step - row % step) + knots[row // step + 1] * (row % step)) // step
        for row in range(rows)
    ]


def rough_spectrum(chance, spacing, limit):
    return [chance.between(0, limit) for _ in range(LENGTHS[spacing])]


def spiky_spectrum(chance, spacing, limit):
    """Zero but for a few rows, some of them of the largest reading."""
    spectrum = flat(0, spacing)
    for _ in range(chance.between(1, 4)):
        row = chance.below(LENGTHS[spacing])
        spectrum[row] = chance.pick((1, chance.between(0, limit), limit))
    return spectrum


def any_spectrum(chance, spacing=5, limit=FRAME_LIMIT):
    return chance.pick((
        lambda: smooth_spectrum(chance, 0, limit, spacing),
        lambda: smooth_spectrum(chance, 0, 2_000, spacing),
        lambda: smooth_spectrum(chance, 0, 200, spacing),
        lambda: rough_spectrum(chance, spacing, limit),
        lambda: spiky_spectrum(chance, spacing, limit),
        lambda: flat(chance.pick((0, 1, 88, 89, 10_000, limit, chance.between(0, limit))), spacing),
    ))()


def near_spectrum(chance, spectrum):
    """Some rows moved a little, within the frame's limit."""
    reach = chance.pick((1, 3, 20, 200, 2_000))
    share = chance.pick((1, 4, 40))
    return [
        min(max(reading + chance.between(-reach, reach), 0), FRAME_LIMIT)
        if chance.one_in(share) else reading
        for reading in spectrum
    ]


def few_rows_tables(chance, spacing):
    """x, y and z lit by a row or two each; rows may be shared."""
    illuminant, *columns = (flat(0, spacing) for _ in range(4))
    for column in columns:
        for _ in range(chance.between(1, 2)):
            row = chance.below(LENGTHS[spacing])
            illuminant[row] = chance.pick((1, 1, 99, 3_000_000))
            column[row] = chance.pick((1, 1, 2, 99, 2_000_000))
    return (illuminant, *columns)


def full_tables(chance, spacing, floor=0):
    """Every row random; a floor near the limits gives the largest sums."""
    rows = range(LENGTHS[spacing])
    illuminant = [chance.between(floor, 3_000_000) for _ in rows]
    columns = [[chance.between(min(floor, 2_000_000), 2_000_000) for _ in rows] for _ in range(3)]
    return (illuminant, *columns)


def largest_tables(spacing):
    return (flat(3_000_000, spacing), *(flat(2_000_000, spacing) for _ in range(3)))


def millionths_tables(spacing):
    """x, y and z have two rows each, of weight 99 and 1, so a ratio is whole in 1/1,000,000."""
    return tuple(filled(*entries, spacing=spacing) for entries in (
        (1, 1, 1, 1, 1, 1), (99, 1), (0, 0, 99, 1), (0, 0, 0, 0, 99, 1)))


def millionths_spectrum(*ratios, spacing=5):
    """Readings that give X, Y and Z these ratios to the white, each in 1/1,000,000."""
    readings = []
    for ratio in ratios:
        heavy = ratio // 100
        readings += [heavy, ratio - 99 * heavy]
    return filled(*readings, spacing=spacing)
