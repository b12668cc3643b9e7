"""The ledger of document 01, with the calls of document 02: what a list of calls must answer.

Every call returns its answer or raises Refused; a refusal leaves the ledger as it was.
"""

from collections import namedtuple

from book import shades
from causes import (
    DARK_WHITE, EMPTY_LOOK, FRAME_LIMIT, LOPSIDED_WHITE, NO_CONDITIONS, NO_STANDARD, NO_SUCH_LIGHT,
    NO_SUCH_TABLE, NO_TOLERANCE, NOT_A_BOOK, OFF_SCALE_CONDITION, OVER_BRIGHT, SESSION_FULL,
    SHORT_TABLE, TOLERANCE_OFF_SCALE, above, refuse_when, spacing_check,
)
from colour import colour, conditions, difference
from nearest import search
from tables import LENGTHS, LIGHTS, light_tables

ILLUMINANT_LIMIT = 3_000_000
OBSERVER_LIMIT = 2_000_000
TOLERANCE_LIMIT = 1_000_000
TALLY_LIMIT = 100_000  # of one inspection table's three tallies together

INSPECTION_TABLES = range(1, 9)  # their numbers
GUARD = {"lab": 12, "luv": 114}  # g
VERDICTS = ("pass", "fail", "line")

Tolerance = namedtuple("Tolerance", "space amount")
Trial = namedtuple("Trial", "verdict difference colour")
Preview = namedtuple("Preview", "verdict difference colour")


def spectrum_checks(spectrum, under):
    """A spectrum's, for a call that names no spacing: it has the rows of the one in force."""
    return (
        (SHORT_TABLE, lambda: len(spectrum) != LENGTHS[under.spacing]),
        (OVER_BRIGHT, lambda: above(FRAME_LIMIT, spectrum)),
    )


def built_in(light, spacing):
    refuse_when(spacing_check(spacing), (NO_SUCH_LIGHT, lambda: light not in LIGHTS))
    illuminant, *observer = light_tables(light, spacing)
    return conditions(spacing, illuminant, observer)


def from_tables(spacing, illuminant, observer):
    tables = illuminant, *observer
    refuse_when(
        spacing_check(spacing),
        (SHORT_TABLE, lambda: any(len(table) != LENGTHS[spacing] for table in tables)),
        (OFF_SCALE_CONDITION, lambda: max(illuminant) > ILLUMINANT_LIMIT
            or any(max(column) > OBSERVER_LIMIT for column in observer)),
    )
    entered = conditions(spacing, illuminant, observer)
    Xn, Yn, Zn = entered.white
    refuse_when(
        (DARK_WHITE, lambda: 0 in (Xn, Yn, Zn)),
        (LOPSIDED_WHITE, lambda: Xn > 10 * Yn or Zn > 10 * Yn),
    )
    return entered


def judge(space, E, T):
    g = GUARD[space]
    if E + g <= T:
        return "pass"
    return "fail" if E >= T + g else "line"


class Ledger:
    def __init__(self):
        self.conditions = None
        self.standard = None
        self.tolerance = None
        self.counts = {number: dict.fromkeys(VERDICTS, 0) for number in INSPECTION_TABLES}

    def open_light(self, light, spacing):
        self.enter(built_in(light, spacing))

    def open_tables(self, spacing, illuminant, x, y, z):
        self.enter(from_tables(spacing, illuminant, (x, y, z)))

    def enter(self, entered):
        self.conditions, self.standard = entered, None

    def enter_standard(self, spectrum):
        refuse_when(
            (NO_CONDITIONS, lambda: self.conditions is None),
            *spectrum_checks(spectrum, self.conditions),
        )
        self.standard = tuple(spectrum)
        return colour(spectrum, self.conditions)

    def enter_tolerance(self, space, amount):
        refuse_when((TOLERANCE_OFF_SCALE, lambda: amount > TOLERANCE_LIMIT))
        self.tolerance = Tolerance(space, amount)

    def work_out(self, table_number, spectrum):
        """Verdict, E and colour of a trial at an inspection table, or of a preview of one; nothing
        is counted."""
        refuse_when(
            (NO_SUCH_TABLE, lambda: table_number not in INSPECTION_TABLES),
            (NO_CONDITIONS, lambda: self.conditions is None),
            (NO_STANDARD, lambda: self.standard is None),
            (NO_TOLERANCE, lambda: self.tolerance is None),
            (SESSION_FULL, lambda: sum(self.counts[table_number].values()) >= TALLY_LIMIT),
            *spectrum_checks(spectrum, self.conditions),
        )
        space, T = self.tolerance
        own = colour(spectrum, self.conditions)
        E = difference(space, colour(self.standard, self.conditions), own)
        return judge(space, E, T), E, own

    def trial(self, table_number, spectrum):
        done = Trial(*self.work_out(table_number, spectrum))
        self.counts[table_number][done.verdict] += 1
        return done

    def preview(self, table_number, spectrum):
        return Preview(*self.work_out(table_number, spectrum))

    def nearest(self, budget, swatch, data):
        """Of the shades of a book of the spacing in force; nothing is entered or counted."""
        refuse_when(
            (NO_CONDITIONS, lambda: self.conditions is None),
            *spectrum_checks(swatch, self.conditions),
        )
        held = shades(data, self.conditions.spacing)
        refuse_when(
            (NOT_A_BOOK, lambda: held is None),
            (EMPTY_LOOK, lambda: not held or budget == 0),
        )
        return search(budget, swatch, held, self.conditions)

    def report(self):
        """The tallies of all inspection tables, one table after the other."""
        return tuple(self.counts[number][verdict]
                     for number in INSPECTION_TABLES for verdict in VERDICTS)
