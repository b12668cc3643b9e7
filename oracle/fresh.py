"""Fresh random lists of calls."""

from call_list import CallList, written_list
from colour import colour, difference
from inspection import old_trials
from ledger import GUARD, INSPECTION_TABLES
from lines import (
    AROUND_LIMITS, NO_SUCH_TABLES, OTHER, REPORT, TOO_LARGE, UNKNOWN_SPACINGS, any_spectrum,
    changed, few_rows_tables, full_tables, largest_tables, light, near_spectrum, nearest, opening,
    preview, smooth_spectrum, standard, tolerance, trial,
)
from near_books import Palette, any_budget, maybe_no_book, near_book, tied_book
from near_limit import near_the_limit
from published import flat, three_rows
from spacings import old_openings
from spots import any_pooling
from strikes import any_striking, struck_again
from tables import LENGTHS
from unreadable import unreadable

LIGHT_WORDS = (1, 2, 1, 2, 1, 2, 0, 3, "02", 2**32 - 1, 2**32 + 1, TOO_LARGE)
SPACING_WORDS = {5: (5, 5, 5, "05"), 10: (10, 10, 10, "00010")}
BRIGHT_READINGS = (*AROUND_LIMITS, 40_000, 65_535, 65_536, TOO_LARGE)
BAD_ENTRIES = (2_000_001, 3_000_001, 2**32, TOO_LARGE)


class RandomList(CallList):
    """Each of its moves says a line or a few."""

    def in_force(self):
        """The spacing in force, or either when nothing is opened."""
        held = self.ledger.conditions
        return held.spacing if held else self.chance.pick((5, 10))

    def named(self, spacing):
        """A spacing as an opening names it; now and then an unknown one or the other."""
        if self.chance.one_in(12):
            return self.chance.pick(UNKNOWN_SPACINGS)
        if self.chance.one_in(12):
            spacing = OTHER[spacing]
        return self.chance.pick(SPACING_WORDS[spacing])

    def table_number(self):
        """Of an inspection table; now and then there is none of that number."""
        if self.chance.one_in(12):
            return self.chance.pick(NO_SUCH_TABLES)
        number = self.chance.pick(INSPECTION_TABLES)
        return f"00{number}" if self.chance.one_in(12) else number

    def a_spectrum(self):
        """Mostly of the spacing in force."""
        spacing = self.in_force()
        return any_spectrum(self.chance, OTHER[spacing] if self.chance.one_in(12) else spacing)

    def maybe_bad(self, spectrum):
        """Now and then a reading around a limit or far above it, a wrong length, or both."""
        if self.chance.one_in(12):
            row = self.chance.below(len(spectrum))
            spectrum = changed(spectrum, row, self.chance.pick(BRIGHT_READINGS))
        if self.chance.one_in(12):
            lengths = (0, 1, 40, 41, 42, 80, 81, 82, 123, 162, 243)
            spectrum = (spectrum * 6)[:self.chance.pick(lengths)]
        return spectrum

    def open_light(self):
        spacing = self.chance.pick((5, 10))
        self.say(light(self.chance.pick(LIGHT_WORDS), self.named(spacing)))

    def open_tables(self):
        chance = self.chance
        spacing = chance.pick((5, 10))
        tables = list(chance.pick((
            lambda: few_rows_tables(chance, spacing),
            lambda: few_rows_tables(chance, spacing),
            lambda: full_tables(chance, spacing),
            lambda: full_tables(chance, spacing, 1_990_000),
            lambda: three_rows(spacing),
            lambda: largest_tables(spacing),
        ))())
        if chance.one_in(5):
            place, rows = chance.below(4), LENGTHS[spacing]
            lengths = (0, rows - 1, rows + 1, LENGTHS[OTHER[spacing]], 2 * rows)
            tables[place] = chance.pick((
                (tables[place] * 2)[:chance.pick(lengths)],
                changed(tables[place], chance.below(rows), chance.pick(BAD_ENTRIES)),
                flat(0, spacing),
            ))
        self.say(opening(tables, self.named(spacing)))

    def enter_standard(self):
        self.say(standard(self.maybe_bad(self.a_spectrum())))

    def enter_tolerance(self):
        amount = self.chance.pick((
            0, 1, 11, 12, 113, 114, 1_000_000, 1_000_001, 2**32, self.chance.below(1_000_001),
            self.chance.below(50_000), self.chance.below(50_000),
        ))
        self.say(tolerance(self.chance.pick(("lab", "luv")), amount))

    def swatch(self):
        """Often near the standard, and now and then bad."""
        spectrum = self.a_spectrum()
        if self.ledger.standard is not None and not self.chance.one_in(3):
            spectrum = near_spectrum(self.chance, self.ledger.standard)
        return self.maybe_bad(spectrum)

    def enter_trial(self):
        self.say(trial(self.table_number(), self.swatch()))

    def look(self):
        """A few previews, then perhaps the trial itself, and perhaps a report."""
        table_number, spectrum = self.table_number(), self.swatch()
        for _ in range(self.chance.between(1, 3)):
            self.say(preview(table_number, spectrum))
        if self.chance.one_in(2):
            self.say(trial(table_number, spectrum))
        if self.chance.one_in(2):
            self.say(REPORT)

    def pool_spots(self):
        """Mostly accepted; the pooled spectrum is then tried or set as the standard."""
        spacing = self.in_force()
        self.say(any_pooling(self.chance, spacing, self.named(spacing)))
        pooled = self.steps[-1].result
        if pooled and self.chance.one_in(2):
            self.say(standard(pooled.readings))
        elif pooled:
            self.say(trial(self.table_number(), pooled.readings))

    def strike_shades(self):
        """Often accepted; as long as it is, another may be struck from what is left."""
        spacing = self.in_force()
        self.say(any_striking(self.chance, spacing, self.named(spacing)))
        while self.steps[-1].result and not self.chance.one_in(3):
            self.say(struck_again(self.chance, spacing, self.steps[-1].result))

    def search_a_book(self):
        """By some budgets."""
        swatch = self.a_spectrum()
        data = maybe_no_book(self.chance, near_book(self.chance, swatch), self.in_force())
        for _ in range(self.chance.between(1, 3)):
            self.say(nearest(any_budget(self.chance, data), self.maybe_bad(swatch), data))

    def search_among_ties(self):
        """Under tables made for it."""
        palette = Palette(self.chance.pick((5, 10)))
        self.say(palette.opened)
        for _ in range(self.chance.between(1, 5)):
            data = tied_book(self.chance, palette)
            self.say(nearest(any_budget(self.chance, data), palette.swatch, data))

    def judge_at_the_guard(self):
        """A spectrum near the standard, tried and now and then previewed at tolerances at the
        edges of its difference."""
        held = self.ledger
        if held.conditions is None or held.standard is None:
            return self.enter_standard()
        spectrum = near_spectrum(self.chance, held.standard)
        for _ in range(self.chance.between(1, 4)):
            self.judge(spectrum)

    def judge_at_the_limit(self):
        """Spectra with sums at the limit of f or around it, judged by one of them."""
        opened, one, *others = near_the_limit(self.chance)
        self.say(opened)
        self.say(standard(one))
        for spectrum in others:
            self.judge(spectrum)

    def judge(self, spectrum):
        self.tolerance_near(spectrum)
        table_number = self.table_number()
        if self.chance.one_in(2):
            self.say(preview(table_number, spectrum))
        self.say(trial(table_number, spectrum))

    def tolerance_near(self, spectrum):
        """At an edge of the guard of the spectrum's difference."""
        held, space = self.ledger, self.chance.pick(("lab", "luv"))
        E = difference(space, *(colour(s, held.conditions) for s in (held.standard, spectrum)))
        edge = self.chance.pick((-GUARD[space], GUARD[space])) + self.chance.between(-1, 1)
        self.say(tolerance(space, max(E + edge, 0)))

    def say_report(self):
        self.say(REPORT)

    def say_unreadable(self):
        self.say(self.chance.pick(UNREADABLE))

    def damage_a_line(self):
        """An earlier line again with one byte changed, taken out or put in."""
        if not self.lines:
            return
        line = bytearray(self.chance.pick(self.lines))
        at = self.chance.below(len(line) + 1)
        put_in = self.chance.pick((b"", b" ", b"0", b"9", b"x", b"\r", b"\xff"))
        line[at:at + self.chance.below(2)] = put_in
        self.say(bytes(line))


UNREADABLE = unreadable() + old_openings() + old_trials()
MOVES = (
    [RandomList.open_light] * 3 + [RandomList.open_tables] * 2 + [RandomList.enter_standard] * 5
    + [RandomList.enter_tolerance] * 4 + [RandomList.enter_trial] * 10 + [RandomList.look] * 5
    + [RandomList.judge_at_the_guard] * 10 + [RandomList.judge_at_the_limit] * 2
    + [RandomList.pool_spots] * 2 + [RandomList.strike_shades] * 2 + [RandomList.search_a_book] * 4
    + [RandomList.search_among_ties] * 2 + [RandomList.say_report] * 2
    + [RandomList.say_unreadable] + [RandomList.damage_a_line]
)


def call_list(seed):
    """A list of 1 to some 150 calls; most begin with an accepted opening."""
    made = RandomList(seed)
    if not made.chance.one_in(5):
        made.say(light(made.chance.between(1, 2), made.chance.pick((5, 10))))
        made.enter_standard()
    for _ in range(made.chance.pick((1, 5, 40, 80))):
        made.chance.pick(MOVES)(made)
    return made


def reordered(seed):
    """Lists that are alike but for the order of the trials at their end, before a report. Some of
    these are refused."""
    made = call_list(seed)
    chance, spacing = made.chance, made.chance.pick((5, 10))
    one = smooth_spectrum(chance, 500, 9_500, spacing)
    near = near_spectrum(chance, one)
    made.say(light(chance.between(1, 2), spacing))
    made.say(standard(one))
    made.tolerance_near(near)
    trials = [trial(made.table_number(), chance.pick((one, near, made.swatch())))
              for _ in range(40)]
    orders = trials, trials[::-1], chance.shuffled(trials)
    return [written_list(b"\n".join([*made.lines, *order, REPORT])) for order in orders]
