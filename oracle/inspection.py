"""The stored script's sections on inspection tables: numbered, unknown, tallied each for itself,
and trials in another order."""

from itertools import product

from chance import Chance
from ledger import INSPECTION_TABLES
from lines import (
    NO_SUCH_TABLES, REPORT, TOO_BRIGHT, TOO_LARGE, by_turns, changed, counted, light, preview,
    seen_at, seen_nowhere, standard, tolerance, trial,
)
from published import flat

READINGS = {"pass": 50, "fail": 60, "line": 51}  # E is 0, 9033 and 904, of flat spectra


def settings(spacing):
    """Under which the verdicts are as READINGS has them."""
    return [light(1, spacing), standard(flat(50, spacing)), tolerance("lab", 910)]


def swatches(spacing):
    """One for each verdict."""
    return [flat(reading, spacing) for reading in READINGS.values()]


def wrong_swatches(spacing):
    """Short, over-bright, and both."""
    good = flat(50, spacing)
    return [good[1:], changed(good, 0, TOO_BRIGHT), changed(good[1:], 0, TOO_BRIGHT)]


def no_such_table(spacing):
    """18 before 7, before 1, before 2, before all of them, and with nothing else wrong."""
    opened, *others = settings(spacing)
    good, wrong = flat(50, spacing), wrong_swatches(spacing)
    return [
        opened, REPORT, *seen_nowhere(good, *wrong), *others, *seen_nowhere(*wrong),
        *seen_nowhere(good, numbers=NO_SUCH_TABLES), REPORT,
    ]


def each_verdict():
    """At each inspection table, with a report after every trial."""
    said = settings(10)
    for table_number, spectrum in product(INSPECTION_TABLES, swatches(10)):
        said += [*seen_at(table_number, spectrum), REPORT]
    return said


def each_tally():
    """Trials that raise every tally by another number, 0 to 23."""
    said = settings(10)
    for times, (table_number, spectrum) in enumerate(product(INSPECTION_TABLES, swatches(10))):
        said += [trial(table_number, spectrum)] * times
    return said + [REPORT]


def previews_not_counted():
    """At whichever inspection table, with whichever verdict."""
    said = settings(5)
    for table_number in INSPECTION_TABLES:
        said += [*(preview(table_number, spectrum) for spectrum in swatches(5)), REPORT]
    return said


def refused_not_counted():
    """At whichever inspection table: spectra that are wrong, then no standard in force."""
    said = settings(10)
    for table_number in INSPECTION_TABLES:
        said += [*seen_at(table_number, *wrong_swatches(10)), REPORT]
    said.append(light(2, 10))
    for table_number in INSPECTION_TABLES:
        said += seen_at(table_number, flat(50, 10))
    return said + [REPORT]


def reordered():
    """The same trials in several orders, refused ones among them. Every round raises the tallies
    by the same."""
    chance, good, said = Chance(0), swatches(10), settings(10)
    tried = [trial(table_number, spectrum)
             for table_number, spectrum in product(INSPECTION_TABLES, good)]
    tried += [trial(table_number, good[table_number % 3]) for table_number in INSPECTION_TABLES]
    tried += [trial(by_turns(place), spectrum)
              for place, spectrum in enumerate(wrong_swatches(10) * 2)]
    tried += [trial(number, good[0]) for number in (0, 9, 2**32 + 1)]
    shuffled = [chance.shuffled(tried) for _ in range(3)]
    for order in (tried, tried[::-1], sorted(tried), *shuffled):
        said += [*order, REPORT]
    return said


def old_trials():
    """Lines as they were before a trial or preview named its inspection table: no calls, but where
    the numbers happen to come out."""
    no_calls = (
        flat(50), flat(50, 10), flat(0), flat(1, 10), flat(20_001), flat(79), flat(81),
        flat(39, 10), flat(41, 10), [], [1], [7], [2, 5], [1, 5, 5], [0, 0], [TOO_LARGE], [7] * 7,
        [8] * 8,
    )
    calls = flat(80), flat(40, 10), [0], [7] * 8, [1, 7], [8] * 9  # 18, 18, 1, 1, 1, 18
    return [f"{word} {counted(spectrum)}".encode()
            for spectrum in (*no_calls, *calls) for word in ("trial", "preview")]
