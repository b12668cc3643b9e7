"""The printed figures: 002's tables, 000's equal-energy point, and document 01's marked examples,
as document 02 has them for the constants of CIE 15:2004.

The tables are compared through a session: rows one, two and three carry x, y and z alone, so a
reading is a ratio in 1/10,000, and with Z at its white b gives the f step of Y.
"""

from pathlib import Path

from colour import f_step, lightness, uv_prime
from ledger import Ledger
from tables import LENGTHS, LIGHTS, OBSERVER, light_tables

HERE = Path(__file__).parent

# Entries that disagree with 002's own formulas, by the ratio in 1/1,000: printed and right.
# No entry differs because the constants are those of CIE 15:2004 and no longer 002's.
LIGHTNESS_MISPRINTS = {101: (3302, 3802), 755: (8968, 8963), 784: (9196, 9096), 863: (9441, 9444)}
ROOT_MISPRINTS = {6: (1817, 1847), 48: (3631, 3634), 870: (9516, 9546)}

# Tables 3 and 4: the white of a light at a spacing.
WHITES = {
    (1, 5): (10985, 10000, 3558, 2560, 5243), (2, 5): (9504, 10000, 10888, 1978, 4683),
    (1, 10): (10983, 10000, 3555, 2559, 5243), (2, 10): (9502, 10000, 10881, 1978, 4684),
}
EQUAL_ENERGY = (333_334, 333_331)


def filled(*entries, spacing=5):
    """As many entries as the spacing has rows: those given, then zeros."""
    return [*entries, *[0] * (LENGTHS[spacing] - len(entries))]


def flat(entry, spacing=5):
    return [entry] * LENGTHS[spacing]


def three_rows(spacing):
    return tuple(filled(*entries, spacing=spacing)
                 for entries in ((1, 1, 1), (1,), (0, 1), (0, 0, 1)))


THREE_ROWS = three_rows(5)
EQUAL_ENERGY_TABLES = (flat(10_000), *OBSERVER)


def dark_between_tables(light):
    """81 rows, every second one dark: the sums of 10 nm."""
    kept = [power if row % 2 == 0 else 0 for row, power in enumerate(LIGHTS[light])]
    return (kept, *OBSERVER)


def ratio_spectrum(thousandths):
    return filled(10 * thousandths, 10 * thousandths, 10_000)


def printed(name):
    """The entries of a printed table, at ratios 0.000 to 1.000, without their decimal point."""
    rows = (HERE / name).read_text().split("\n")
    entries = [int(word.replace(".", "")) for row in rows for word in row.split()[1:]]
    assert len(entries) == 1001
    return entries


def agrees(printed_entry, counted, unit):
    """The printed entry is the counted value, given down, rounded to the printed unit."""
    return abs(printed_entry * unit - counted) * 2 <= unit


def opened(tables, spacing=5):
    ledger = Ledger()
    ledger.open_tables(spacing, *tables)
    return ledger


def check_printed_tables():
    """Every entry agrees or is a named misprint, and every named misprint is one."""
    ledger = opened(THREE_ROWS)
    lightness_wrong, root_wrong = {}, {}
    pairs = zip(printed("printed_lightness.txt"), printed("printed_roots.txt"))
    for thousandths, (printed_L, printed_f) in enumerate(pairs):
        own = ledger.enter_standard(ratio_spectrum(thousandths))
        step = 1_000_000 + own.b // 2
        if not agrees(printed_L, own.L, 100):
            lightness_wrong[thousandths] = (printed_L, (own.L + 50) // 100)
        if not agrees(printed_f, step, 100):
            root_wrong[thousandths] = (printed_f, (step + 50) // 100)
    assert lightness_wrong == LIGHTNESS_MISPRINTS, lightness_wrong
    assert root_wrong == ROOT_MISPRINTS, root_wrong


def check_white(ledger, expected):
    own = ledger.enter_standard(flat(10_000, ledger.conditions.spacing))
    coordinates = uv_prime(*ledger.conditions.white)
    for entry, counted in zip(expected[:3], own[:3]):
        assert agrees(entry, counted, 100), (expected, own)
    for entry, counted in zip(expected[3:], coordinates):
        assert agrees(entry, counted, 1000), (expected, coordinates)
    assert (own.L, own.a, own.b, own.u, own.v) == (1_000_000, 0, 0, 0, 0)


def check_whites():
    for (light, spacing), expected in WHITES.items():
        ledger, by_tables = Ledger(), opened(light_tables(light, spacing), spacing)
        ledger.open_light(light, spacing)
        assert ledger.conditions == by_tables.conditions
        check_white(ledger, expected)
        check_white(by_tables, expected)
    for light in LIGHTS:
        check_white(opened(dark_between_tables(light)), WHITES[light, 10])
    own = opened(EQUAL_ENERGY_TABLES).enter_standard(flat(10_000))
    assert (own.x, own.y) == EQUAL_ENERGY, own


def check_marked_examples():
    steps = {(0, 1): 137931, (8856, 10**6): 206893, (8857, 10**6): 206900,
             (1, 8): 500000, (2, 1): 1259921}
    for ratio, step in steps.items():
        assert f_step(*ratio, 1_000_000) == step, ratio
    lightnesses = {(1, 1000): 9032, (8856, 10**6): 79995, (216, 24389): 80000,
                   (8857, 10**6): 80004, (1, 1): 1000000, (2, 1): 1301508}
    for ratio, L in lightnesses.items():
        assert lightness(*ratio) == L, ratio
    for spacing in LENGTHS:
        check_three_rows(spacing)


def check_lightness_by_f():
    """L* is 116 f - 16 on both sides of the limit: the two are worked out apart, and agree."""
    fine = 10**9
    for n in range(500):
        by_f = 116 * f_step(n, 24_389, 10_000 * fine) - 160_000 * fine
        assert 0 <= lightness(n, 24_389, fine) - by_f < 116, n


def check_three_rows(spacing):
    """Groups 3 and 4; rows past the third are dark, so they are the same at each spacing."""
    ledger = opened(three_rows(spacing), spacing)
    own = ledger.enter_standard(filled(10_000, 1_250, 270, spacing=spacing))
    assert (own.L, own.a, own.b, own.u, own.v) == (420000, 2500000, 400000, 6238888, -508339)
    assert (own.x, own.y, own.chroma_ab) == (868055, 108506, 2531797)
    ledger.enter_standard(flat(1_250, spacing))
    verdicts = {232012: "pass", 232011: "line", 231989: "line", 231988: "fail"}
    for amount, verdict in verdicts.items():
        ledger.enter_tolerance("lab", amount)
        judged = ledger.trial(2, flat(270, spacing))
        assert (judged.difference, judged.verdict) == (232000, verdict), amount
    assert ledger.report() == (0, 0, 0, 1, 1, 2, *[0] * 18)


def check_all():
    check_marked_examples()
    check_lightness_by_f()
    check_whites()
    check_printed_tables()
