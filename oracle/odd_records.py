"""Records of calls of every odd kind: words that nobody meant, numbers of no inspection table,
parts at the end of a slice and past it, budgets of every size, buffers that are too short."""

from array import array
from functools import partial
from itertools import product

from book import book_bytes, total
from ledger import INSPECTION_TABLES
from lines import NO_SUCH_TABLES, OTHER, any_spectrum, by_turns, changed
from near_books import near_book, near_shades
from published import flat, three_rows
from records import (
    ANSWER_WORDS, BYTE, CALL_WORDS, NEAREST, OPEN_TABLES, PREVIEW, READING, STANDARD, TRIAL, WORD,
    WORD_BYTES, WORD_LIMIT, Recorder, Run, answers_size, any_words, call_count, put,
)
from tables import LENGTHS


def empty_lists(chance):
    """No record, or no whole one, with and without a buffer."""
    for records in (array(WORD), any_words(chance, CALL_WORDS - 1)):
        for lent in (b"", chance.bytes(WORD_BYTES * ANSWER_WORDS)):
            yield Run(records, array(WORD), array(READING), array(BYTE), lent)


def ends(size, rows):
    """Parts that end with a slice of that size, and parts that run past its end."""
    last, far = size - rows, WORD_LIMIT - 1
    return ((last, rows), (last + 1, rows), (last, rows + 1), (size, 0), (size + 1, 0),
            (size, rows), (size + 1, rows), (WORD_LIMIT - rows, rows), (far, rows),
            (last, far), (far, far))


def parts_at_the_end(chance, spacing):
    """Standards, trials, previews and each of an opening's tables, as parts at the end of their
    slice, with the rows of that spacing and of the other."""
    held = Recorder(chance)
    whole = [put(held.tables, table) for table in three_rows(spacing)]
    for _ in range(4):
        put(held.spectra, any_spectrum(chance, spacing))
    held.open_light(2, spacing)
    held.enter_tolerance("luv", 1_000_000)
    rows, other = LENGTHS[spacing], LENGTHS[OTHER[spacing]]
    spectra = *ends(len(held.spectra), rows), *ends(len(held.spectra), other)
    for place, words in enumerate(spectra):
        held.write(STANDARD, *words)
        held.write(TRIAL, *words, by_turns(place))
        held.write(PREVIEW, *words, by_turns(place))
    for place in range(len(whole)):
        for words in (*ends(len(held.tables), rows), *ends(len(held.tables), other)):
            parts = changed(whole, place, words)
            held.write(OPEN_TABLES, *(word for table in parts for word in table), spacing)
    return held.run()


def searches_at_the_end(chance, spacing):
    """Books that stand one after another; the swatch, then the book, as parts at the end of their
    slice, with the length of that spacing and of the other; budgets of every size."""
    held, rows, other = Recorder(chance), LENGTHS[spacing], OTHER[spacing]
    swatch = any_spectrum(chance, spacing)
    own, _ = (put(held.spectra, swatch) for _ in range(2))
    shades = list(enumerate(near_shades(chance, swatch, 3), 1))
    books = [put(held.books, book_bytes(shades[:count])) for count in (1, 0, 2, 3)]
    parts = [(own, words) for words in books]
    parts += [(words, books[-1]) for count in (rows, LENGTHS[other])
              for words in ends(len(held.spectra), count)]
    parts += [(own, words) for length in (total(spacing, 3), total(other, 3), total(spacing, 0))
              for words in ends(len(held.books), length)]
    held.write(NEAREST, *own, *books[0], 7)
    held.open_light(1, spacing)
    for (readings, data), budget in product(parts, (0, 7)):
        held.write(NEAREST, *readings, *data, budget)
    for budget in (1, 2, 3, 4, 2**8, 2**16, 2**16 + 1, 2**31, WORD_LIMIT - 1):
        held.write(NEAREST, *own, *books[-1], budget)
    return held.run()


def at_every_table(chance):
    """A short and a whole spectrum previewed and tried at each inspection table and at words that
    are none: with nothing opened, no standard, no tolerance, and then all of them."""
    held = Recorder(chance)
    start, rows = put(held.spectra, flat(50, 10))
    numbers = *INSPECTION_TABLES, *(number for number in NO_SUCH_TABLES if number < WORD_LIMIT)
    for settle in (
        held.report, partial(held.open_light, 1, 10), partial(held.write, STANDARD, start, rows),
        partial(held.enter_tolerance, "lab", 12),
    ):
        settle()
        for number in numbers:
            for count in (rows - 1, rows):
                held.write(PREVIEW, start, count, number)
                held.write(TRIAL, start, count, number)
            held.report()
    return held.run()


def disturbed(chance, run):
    """A list with a word changed here and there, and some words after its last record."""
    def other(word):
        known = chance.pick((*LENGTHS, *LENGTHS.values()))
        near = chance.pick((word - 1, word + 1, chance.below(CALL_WORDS), known, chance.word()))
        return near % WORD_LIMIT

    words = [other(word) if chance.one_in(25) else word for word in run.records]
    return run._replace(records=array(WORD, words) + any_words(chance, chance.below(CALL_WORDS)))


def any_run(chance, limit):
    """Words and entries of any kind below a limit."""
    held = Recorder(chance)
    held.records.extend(chance.below(limit) for _ in range(100 * CALL_WORDS + 1))
    held.tables.extend(chance.below(limit) for _ in range(4 * LENGTHS[5]))
    swatch = any_spectrum(chance)
    put(held.spectra, swatch)
    put(held.books, near_book(chance, swatch))
    return held.run()


def odd_runs(chance, runs):
    """Also every third of the runs disturbed, and with a buffer one word too short."""
    yield from empty_lists(chance)
    for spacing in LENGTHS:
        yield parts_at_the_end(chance, spacing)
        yield searches_at_the_end(chance, spacing)
    yield at_every_table(chance)
    for limit in (CALL_WORDS + 1, LENGTHS[5] + 1, WORD_LIMIT):
        yield any_run(chance, limit)
    for run in runs[::3]:
        yield disturbed(chance, run)
        if call_count(run):
            yield run._replace(lent=run.lent[:answers_size(run) - WORD_BYTES])
