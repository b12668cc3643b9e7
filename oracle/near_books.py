"""Books of shades near a swatch, made by their colours or by their readings."""

from book import book_bytes, take
from books import damaged_book, overwrite, rising_numbers
from causes import READER_LIMIT
from colour import colour, f_step
from lines import AROUND_LIMITS, OTHER, TOO_LARGE, opening, smooth_spectrum
from near_limit import WHITE, at_root, at_root_lightness, fine_sums
from published import flat
from tables import LENGTHS

MIDDLE = 500_000  # an L


class Palette:
    """At a spacing, an opening under which any colour that is near to grey has a spectrum."""

    def __init__(self, spacing):
        self.spacing, self.sums = spacing, fine_sums(spacing)
        self.opened = opening(self.sums.tables, spacing)
        self.swatch = self.spectrum(0, 0, 0)

    def spectrum(self, away, a, b):
        """With an L that is so much above the middle or below it, an a, which is a multiple of 5,
        and a b, which is even."""
        part = at_root_lightness(MIDDLE + away)
        step = f_step(part, WHITE, 1_000_000)
        points = at_root(step + a // 5), part, at_root(step - b // 2)
        made = self.sums.spectrum(*((point, 0) for point in points))
        own = colour(made, self.sums.under)
        assert (own.L, own.a, own.b) == (MIDDLE + away, a, b)
        return made

    def book(self, *shades):
        """Of numbers, each with the L, a and b of a spectrum."""
        return book_bytes([(number, self.spectrum(*place)) for number, *place in shades])


def near_grey(L, under):
    """A spectrum of that L, nearly the same in all rows."""
    readings = flat(10_000 * at_root_lightness(L) // WHITE, under.spacing)
    weights = map(int.__mul__, under.illuminant, under.observer[1])
    for _, row in sorted(((weight, row) for row, weight in enumerate(weights)), reverse=True):
        for _ in range(3):
            readings[row] += 1
            if colour(readings, under).L > L:
                readings[row] -= 1
    assert colour(readings, under).L == L
    return readings


def near_shades(chance, swatch, count):
    """Spectra that are lighter or darker than a swatch by a shift and of another hue by a wave,
    which hardly moves L where it has the blue rows alone. Now and then one is the swatch itself, or
    is there again."""
    spacing = {rows: spacing for spacing, rows in LENGTHS.items()}[len(swatch)]
    wave, rows = chance.pick((3, 30, 300, 2_000)), chance.pick((len(swatch), len(swatch) // 6))
    shift, found = wave * chance.pick((0, 1, 3, 10)) // 10, [swatch] * chance.one_in(12)
    while len(found) < count:
        by, waves = chance.between(-shift, shift), smooth_spectrum(chance, -wave, wave, spacing)
        moves = [by + up * (row < rows) for row, up in enumerate(waves)]
        near = [min(max(reading + move, 0), READER_LIMIT) for reading, move in zip(swatch, moves)]
        found.append(chance.pick(found) if found and chance.one_in(20) else near)
    return chance.shuffled(found)


def near_book(chance, swatch):
    count = chance.pick((1, 2, 5, 20, 20, 20, 20, 200 if chance.one_in(6) else 40))
    spectra = near_shades(chance, swatch, count)
    return book_bytes(list(zip(rising_numbers(chance, count), spectra)))


def tied_book(chance, palette):
    """Of colours so near to the swatch's that many differences are the same."""
    numbers = rising_numbers(chance, chance.pick((2, 3, 5, 8, 20, 20)))
    reach, within = chance.pick((0, 1, 4, 12)), chance.between
    return palette.book(*((number, within(-reach, reach), 5 * within(-2, 2), 2 * within(-3, 3))
                          for number in numbers))


def any_budget(chance, data):
    """Mostly for some shades of a book, or for all; now and then for none or for far more."""
    count = take(data, 4, 2)
    if chance.one_in(12):
        far = 2**32 - 1, 2**32, 2**32 + 1, 2**64, TOO_LARGE, f"{count:040}"
        return chance.pick((0, 0, 0, *far))
    return chance.pick((1, count, count + 1, 200, chance.between(1, count + 1)))


def maybe_no_book(chance, data, spacing):
    """Now and then a book without shades, one of the other spacing, with a reading around the
    limits, or none."""
    if not chance.one_in(10):
        return data
    return chance.pick((
        lambda: book_bytes([]), lambda: data + b"\0", lambda: data[:-1],
        lambda: overwrite(data, len(data) - 2, chance.pick(AROUND_LIMITS), 2),
        lambda: book_bytes([(7, flat(1_250, OTHER[spacing]))]),
        lambda: damaged_book(chance, spacing)[1],
    ))()
