"""The stored script's sections on the spacing: named, unknown, in force, left and changed."""

from lines import (
    OTHER, REPORT, TOO_BRIGHT, TOO_LARGE, UNKNOWN_SPACINGS, any_spectrum, by_turns, changed,
    counted, full_tables, largest_tables, light, near_spectrum, opening, preview, seen_at,
    seen_by_turns, standard, tolerance, trial,
)
from published import THREE_ROWS, filled, flat, three_rows
from tables import LENGTHS, light_tables

NO_TABLES = [[], [], [], []]


def faulty_tables(spacing):
    """Tables with one fault each (1, 3, 4 and 5), and with all of them."""
    good = three_rows(spacing)
    bright = changed(good[0], 0, 3_000_001)
    return (
        changed(good, 3, good[3][1:]),
        changed(good, 0, bright),
        changed(good, 2, flat(0, spacing)),
        changed(good, 1, filled(11, spacing=spacing)),
        (bright, filled(11, spacing=spacing), flat(0, spacing), good[3][1:]),
    )


def refused_openings(spacing):
    """An opening at a spacing for each cause, and at unknown spacings."""
    return [
        light(3, spacing), light(2, 0), light(1, spacing + 1), light(0, 2**32 + spacing),
        *(opening(tables, spacing) for tables in faulty_tables(spacing)),
        opening(three_rows(OTHER[spacing]), spacing), opening(three_rows(spacing), 15),
    ]


def unknown_spacings():
    """17 before every other cause of an opening: with nothing else wrong, with each other fault
    alone and with all of them."""
    said = []
    for spacing in UNKNOWN_SPACINGS:
        said += [light(number, spacing) for number in (1, 2, 0, 3, TOO_LARGE)]
        said += [opening(NO_TABLES, spacing), opening([[TOO_LARGE]] * 4, spacing)]
    for rows in LENGTHS:
        for spacing in (0, rows + 1, 2**32 + rows):
            said.append(opening(three_rows(rows), spacing))
            said += [opening(tables, spacing) for tables in faulty_tables(rows)]
    return said


def left_in_force(spacing):
    """A refused opening leaves conditions, spacing and standard as they were."""
    shade, near, wrong = flat(50, spacing), flat(51, spacing), flat(50, OTHER[spacing])
    said = [light(1, spacing), standard(shade), tolerance("lab", 910)]
    refused = *refused_openings(OTHER[spacing]), *refused_openings(spacing)
    for place, line in enumerate(refused):
        said += [line, trial(by_turns(place), near), preview(by_turns(place), wrong)]
    return said + [standard(wrong), *seen_at(7, shade), standard(near), *seen_at(8, near), REPORT]


def every_length(spacing):
    """Standards of 0 to 83 readings, one of them accepted; then trials and previews. A reading
    too bright is no cause while the length is wrong."""
    said = [tolerance("lab", 5_000), light(2, spacing)]
    said += [standard([7] * length) for length in range(84)]
    for place, length in enumerate((1, 2, 40, 41, 42, 80, 81, 82, 83, 122, 123, 162, 163)):
        wrong = changed([7] * length, length - 1, TOO_BRIGHT)
        said += seen_at(by_turns(place), [7] * length, wrong)
    return said + [*seen_at(4, []), REPORT]


def changes(chance):
    """The light, the spacing or both change between lots. Each time the standard is gone, and a
    spectrum of the other spacing is short, before a standard is set and after."""
    said = [tolerance("lab", 20_000)]
    for place, (spacing, line) in enumerate((
        (5, light(1, 5)), (10, light(1, 10)), (10, light(2, 10)), (5, light(2, 5)),
        (10, light(1, 10)), (5, light(2, 5)), (5, light(1, "0005")), (10, light(1, "010")),
        (10, light(1, 10)), (5, opening(full_tables(chance, 5))),
        (10, opening(full_tables(chance, 10), 10)), (10, light(2, 10)),
        (5, opening(largest_tables(5))), (10, opening(largest_tables(10), 10)),
        (5, opening(three_rows(5))), (10, opening(three_rows(10), "00010")),
        (10, opening(light_tables(1, 10), 10)), (5, opening(light_tables(1, 5))),
    )):
        one, wrong = any_spectrum(chance, spacing), flat(7, OTHER[spacing])
        near, at = near_spectrum(chance, one), by_turns(place)
        said += [line, trial(at, one), preview(at, wrong), standard(wrong), preview(at, one)]
        said += [trial(at, wrong), standard(one), *seen_by_turns(near, wrong), standard(wrong)]
        said += [trial(at, one), REPORT]
    return said


def old_form(tables):
    return " ".join(["open", *map(counted, tables)]).encode()


def old_openings():
    """Lines as they were before an opening named its spacing: no calls, but where the numbers
    happen to come out."""
    fits_81 = (changed(flat(0), 0, 323), flat(0), flat(0), flat(0))
    fits_5 = changed(THREE_ROWS, 0, changed(THREE_ROWS[0], 4, 320))
    return [
        b"light 1", b"light 2", b"light 3", b"light 10", b"light 25", f"light {TOO_LARGE}".encode(),
        old_form(NO_TABLES), old_form(THREE_ROWS), old_form(three_rows(10)),
        old_form(light_tables(2, 5)), old_form(light_tables(2, 10)), old_form(largest_tables(5)),
        # and these are calls: 17, 17, 1, 1, and one that is accepted
        b"open 1 0 0 0 0", old_form(fits_81), b"open 5 1 7 1 7 2 0 0 0",
        b"open 10 9" + b" 0" * 12, opening(fits_5),
    ]
