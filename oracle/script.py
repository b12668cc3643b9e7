"""The stored replay script, section by section. Each section is a list of lines."""

from functools import partial

from bright import around_the_limits, shades_as_standards
from causes import FRAME_LIMIT
from inspection import (
    each_tally, each_verdict, no_such_table, old_trials, previews_not_counted, refused_not_counted,
    reordered,
)
from ledger import built_in, from_tables
from limit import around_the_limit
from lines import (
    NO_SUCH_TABLES, OTHER, REPORT, TOO_BRIGHT, TOO_LARGE, any_spectrum, by_turns, changed,
    few_rows_tables, full_tables, guard_lines, largest_tables, light, millionths_spectrum,
    millionths_tables, near_spectrum, opening, preview, seen_at, seen_by_turns, seen_nowhere,
    smooth_spectrum, standard, tolerance, trial,
)
from published import (
    EQUAL_ENERGY_TABLES, THREE_ROWS, dark_between_tables, filled, flat, ratio_spectrum, three_rows,
)
from searches import no_settings, searches, wrong_looks
from spacings import (
    changes, every_length, left_in_force, old_openings, refused_openings, unknown_spacings,
)
from spots import poolings
from strikes import strikes
from tables import LENGTHS, LIGHTS, light_tables
from unreadable import unreadable

SHORT_AND_BRIGHT = flat(TOO_BRIGHT)[1:]  # at both spacings


def nothing_opened():
    """And nothing is, after openings that are refused."""
    shades = flat(1_250), flat(1_250, 10), SHORT_AND_BRIGHT
    return [
        REPORT, b"", *map(standard, shades), *seen_by_turns(*shades), *wrong_looks(10),
        *seen_nowhere(*shades), *seen_nowhere([], numbers=NO_SUCH_TABLES),
        tolerance("lab", 1_000_001), tolerance("luv", TOO_LARGE),
        *(light(number) for number in (0, 3, 2**32 - 1, 2**32, 2**32 + 1, 2**64 + 1, TOO_LARGE)),
        *refused_openings(5), *refused_openings(10), *map(standard, shades),
        *seen_by_turns(*shades), *seen_nowhere([]), *no_settings(5), *no_settings(10), REPORT,
    ]


def wrong_tables(spacing):
    """Tables refused, alone and with several faults at once: 1 before 3 before 4 before 5."""
    good, rows = three_rows(spacing), LENGTHS[spacing]
    part, level = partial(filled, spacing=spacing), partial(flat, spacing=spacing)

    def opened(*tables):
        return opening(tables, spacing)

    said = [opened(*three_rows(OTHER[spacing]))]
    for place in range(4):
        limit = 3_000_000 if place == 0 else 2_000_000
        for length in (0, 1, rows - 1, rows + 1, LENGTHS[OTHER[spacing]], 2 * rows):
            short = (good[place] * 2)[:length]
            said.append(opened(*changed(good, place, short)))
        said.append(opened(*changed(good, place, level(limit + 1)[1:])))
        for row, entry in ((0, limit + 1), (rows // 2, 2**32 - 1), (rows - 1, 2**32),
                           (rows - 1, TOO_LARGE)):
            said.append(opened(*changed(good, place, changed(good[place], row, entry))))
        said.append(opened(*changed(good, place, level(0))))
        other = (place + 1) % 4
        dark_and_off = changed(good, place, level(0))
        said.append(opened(*changed(dark_and_off, other, changed(good[other], 7, 3_000_001))))
    return said + [
        opened(part(1, 0, 1), *good[1:]),
        opened(level(0), level(0), level(0), level(0)),
        opened(*changed(good, 1, part(11))),
        opened(*changed(good, 3, part(0, 0, 11))),
        opened(*changed(good, 1, part(11)[:-1])),
        opened(*changed(good, 1, part(2_000_001))),
        opened(good[0], part(1_000_001), part(0, 100_000), good[3]),
        opened(good[0], good[1], part(0, 100_000), part(0, 0, 1_000_001)),
        opened(level(3_000_000), part(2_000_000), part(0, 199_999), part(0, 0, 2_000_000)),
        opened(good[0], part(2_000_000), level(0), part(0, 0, 2_000_000)),
    ]


def edge_tables(chance, spacing):
    """Tables at their limits, accepted; each is used once."""
    good, said = three_rows(spacing), []
    part, level = partial(filled, spacing=spacing), partial(flat, spacing=spacing)
    for place, tables in enumerate((
        changed(good, 1, part(10)),
        changed(good, 3, part(0, 0, 10)),
        (good[0], part(1_000_000), part(0, 100_000), part(0, 0, 1_000_000)),
        (level(3_000_000), part(2_000_000), part(0, 200_000), part(0, 0, 2_000_000)),
        largest_tables(spacing),
        few_rows_tables(chance, spacing),
        full_tables(chance, spacing),
        [table[::-1] for table in good],
    )):
        said += [opening(tables, spacing), standard(level(FRAME_LIMIT))]
        said += [trial(by_turns(place), part(FRAME_LIMIT, 0, FRAME_LIMIT))]
        said += [standard(any_spectrum(chance, spacing)), REPORT]
    return said


def no_tolerance():
    """At 10 nm, as long as none was ever set."""
    shade = flat(1_250, 10)
    swatches = shade, flat(1_250), SHORT_AND_BRIGHT, flat(TOO_BRIGHT, 10)
    return [light(2, 10), *seen_at(8, flat(TOO_BRIGHT)), *seen_nowhere(shade, flat(TOO_BRIGHT)),
            *no_settings(5), *no_settings(10), standard(shade), *no_settings(10),
            *seen_by_turns(*swatches), *seen_nowhere(*swatches), REPORT]


def order_of_checks(spacing, table_number):
    """Each cause of the trial and of its preview in their order, the later ones failing too."""
    level, other = partial(flat, spacing=spacing), OTHER[spacing]
    last, seen = LENGTHS[spacing] - 1, partial(seen_at, table_number)
    wrong, most = (SHORT_AND_BRIGHT, flat(TOO_BRIGHT, other)), level(FRAME_LIMIT)
    return [
        *seen(*wrong), light(1, spacing), *seen(*wrong), *seen_nowhere(*wrong, level(0)),
        *map(standard, wrong), standard(level(TOO_BRIGHT)), *seen(*wrong),
        standard(changed(most, last, TOO_BRIGHT)),
        standard(changed(level(0), 0, 65_535)), standard(changed(level(0), 0, 65_536)),
        standard(changed(level(0), last // 2, TOO_LARGE)), standard([]), standard(level(0) * 3),
        standard(flat(0, other)), *seen(level(0)),
        standard(most), *seen(*wrong, most), REPORT,
        tolerance("luv", 1_000_001), *seen(most), tolerance("luv", 1_000_000),
        *seen(*wrong, level(TOO_BRIGHT), [], level(1)[1:], level(1) + [1], flat(1, other)),
        *seen(changed(level(1), last, TOO_BRIGHT), most), *seen_nowhere(*wrong),
        tolerance("lab", 1_000_001), tolerance("lab", TOO_LARGE), *seen(most),
        light(3, other), *seen(most),
        opening(changed(three_rows(other), 2, flat(0, other)), other),
        *seen(most), light(2, spacing), *seen(most, *wrong), REPORT,
    ]


def previews_between_trials():
    """However many previews stand between trials, a report counts the trials alone, and a preview
    is judged against the standard, not against the trial before it."""
    one, near, far = flat(5_000), flat(5_005), flat(9_000)
    said = [light(1), standard(one), tolerance("lab", 2_000)]
    for table_number, spectrum in ((2, near), (8, far), (5, one)):
        looks = [preview(2, near), preview(5, far), preview(table_number, one), REPORT]
        said += [*looks, trial(table_number, spectrum), REPORT, *looks]
    said += [standard(far), *seen_at(2, one, far), tolerance("luv", 0), *seen_at(8, far), REPORT]
    return said + [light(2), preview(8, far), REPORT]


def marked_examples(spacing):
    """Document 01's groups 3 and 4, and 1 and 2 by their ratios; a ratio of 2 is over-bright."""
    part, level = partial(filled, spacing=spacing), partial(flat, spacing=spacing)
    said = [opening(three_rows(spacing), spacing), standard(part(10_000, 1_250, 270)),
            standard(level(1_250))]
    for place, amount in enumerate((232_012, 232_011, 231_989, 231_988)):
        said += [tolerance("lab", amount), trial(by_turns(place + spacing), level(270))]
    tables, at_ratios = millionths_tables(spacing), partial(millionths_spectrum, spacing=spacing)
    said.append(opening(tables, spacing))
    for ratio in (0, 1, 1_000, 8_855, 8_856, 8_857, 125_000, 999_999, 1_000_000, 1_200_000,
                  2_000_000):
        said.append(standard(at_ratios(ratio, ratio, 1_000_000)))
        said.append(standard(at_ratios(1_000_000, ratio, ratio)))
    above, below = at_ratios(8_857, 8_857, 8_857), at_ratios(8_856, 8_856, 8_856)
    under = from_tables(spacing, tables[0], tables[1:])
    return said + [standard(above), *guard_lines(under, above, below)]


def printed_tables():
    """A ratio for every entry of 002's tables 1 and 2."""
    said = [opening(THREE_ROWS), standard(flat(10_000)), tolerance("lab", 500_000)]
    for thousandths in range(1001):
        said.append(trial(by_turns(thousandths), ratio_spectrum(thousandths)))
    return said + [REPORT]


def whites():
    """Of both lights at both spacings, as tables 3 and 4 have them, and of equal energy."""
    said = []
    for spacing in LENGTHS:
        opened = [light(number, spacing) for number in LIGHTS]
        opened += [opening(light_tables(number, spacing), spacing) for number in LIGHTS]
        if spacing == 5:
            opened += [opening(dark_between_tables(number)) for number in LIGHTS]
            opened.append(opening(EQUAL_ENERGY_TABLES))
        for line in opened:
            said += [line, *(standard(flat(entry, spacing)) for entry in (10_000, FRAME_LIMIT, 0))]
    return said


def lots(chance):
    """Lots under both lights at both spacings, with either or both changed between them."""
    said = [light("0001", "005")]
    for place, (number, spacing) in enumerate((
        (1, 5), (2, 5), (2, 10), (1, 10), (1, 5), (2, 10), (2, 5), (1, 10),
    )):
        under = built_in(number, spacing)
        one = smooth_spectrum(chance, 500, 9_500, spacing)
        other = near_spectrum(chance, one)
        said += [light(number, spacing), *seen_at(by_turns(place), other), standard(one)]
        said += [*guard_lines(under, one, other), REPORT]
    for spacing in LENGTHS:
        said += black_and_bright(spacing)
        for number in LIGHTS:
            said.append(light(number, spacing))
            said += [standard(any_spectrum(chance, spacing)) for _ in range(20)]
    return said


def black_and_bright(spacing):
    """Trials far from the standard and equal to it, at tolerances of note."""
    said, black, bright, dim = [], *(flat(entry, spacing) for entry in (0, FRAME_LIMIT, 1))
    for one, other in ((black, black), (black, bright), (bright, black), (black, dim)):
        said += [light(2, spacing), standard(one)]
        for place, (space, amount) in enumerate((
            ("lab", 0), ("luv", 0), ("lab", 11), ("lab", 12), ("luv", 113), ("luv", 114),
            ("lab", 1_000_000), ("luv", 1_000_000),
        )):
            said += [tolerance(space, amount), trial(by_turns(place), other)]
        said.append(REPORT)
    return said


def script(chance, shades):
    """The whole script, with the shades of a book as standards; its last line has no line feed."""
    said = [
        *nothing_opened(), *wrong_tables(5), *wrong_tables(10), *unknown_spacings(),
        standard(flat(1)), *no_tolerance(), *order_of_checks(5, 3), *order_of_checks(10, 6),
        *no_such_table(5), *no_such_table(10), *each_verdict(), *each_tally(),
        *previews_not_counted(), *refused_not_counted(), *reordered(),
        light(1), standard(flat(1_250)), *wrong_tables(5), trial(4, flat(1_250)),
        *left_in_force(5), *left_in_force(10), *every_length(5), *every_length(10),
        *changes(chance), *previews_between_trials(),
        *around_the_limits(5), *around_the_limits(10), *shades_as_standards(shades),
        *edge_tables(chance, 5), *edge_tables(chance, 10), *marked_examples(5),
        *marked_examples(10), *around_the_limit(5), *around_the_limit(10), *whites(),
        *printed_tables(), *lots(chance), *poolings(), *strikes(),
        *searches(), *old_trials(), *old_openings(), *unreadable(), REPORT,
    ]
    return b"\n".join(said)
