"""Lists of calls held in slices, and their answers, as crates/calls/specs/Records.antt and
crates/answers/specs/Answers.antt lay them out: ten words a call, its tables, spectra and book as
parts of three slices, thirty-two words an answer."""

from array import array
from collections import namedtuple

import replay
from book_calls import REFUSAL
from causes import SHORT_BUFFER, Refused
from colour import Colour
from ledger import INSPECTION_TABLES, VERDICTS, Ledger, Preview, Trial
from nearest import Nearest

CALL_WORDS, ANSWER_WORDS, COLOUR_WORDS = 10, 32, 13
TALLY_WORDS = len(INSPECTION_TABLES) * len(VERDICTS)
OPEN_TABLES, OPEN_LIGHT, STANDARD, TOLERANCE_LAB, TOLERANCE_LUV = range(1, 6)
TRIAL, PREVIEW, NEAREST = range(6, 9)
ACCEPTED, COLOURED, TRIED, COUNTED, REFUSED, PREVIEWED, FOUND = range(7)
JUDGED = {TRIED: Trial, PREVIEWED: Preview}
SPACES = ("lab", "luv")

WORD, READING, BYTE = "I", "H", "B"  # array's letters for 32, 16 and 8 bits
WORD_BYTES = 4
WORD_LIMIT = 2**32

# The records and the three slices as arrays; the buffer that is lent, as bytes.
Run = namedtuple("Run", "records tables spectra books lent")


def any_words(chance, count):
    return array(WORD, chance.bytes(WORD_BYTES * count))


def call_count(run):
    return len(run.records) // CALL_WORDS


def answers_size(run):
    """In bytes."""
    return WORD_BYTES * ANSWER_WORDS * call_count(run)


def named(run):
    """What a run is, in few words."""
    words = run.records[:2 * CALL_WORDS].tolist()
    return (f"{len(run.records)} words {words}.., {len(run.tables)} entries, {len(run.spectra)} "
            f"readings, {len(run.books)} bytes of books, into {len(run.lent)} bytes")


# Laying calls out

class Recorder:
    """Stands in a ledger's place, and writes each call down as a record."""

    def __init__(self, chance):
        self.chance, self.records = chance, array(WORD)
        self.tables, self.spectra, self.books = array(WORD), array(READING), array(BYTE)

    def write(self, kind, *words):
        """Words that a call does not name may hold anything."""
        unnamed = any_words(self.chance, CALL_WORDS - 1 - len(words))
        self.records.extend([kind, *words, *unnamed])

    def open_light(self, light, spacing):
        self.write(OPEN_LIGHT, light, spacing)

    def open_tables(self, spacing, *tables):
        parts = [word for table in tables for word in put(self.tables, table)]
        self.write(OPEN_TABLES, *parts, spacing)

    def enter_standard(self, spectrum):
        self.write(STANDARD, *put(self.spectra, spectrum))

    def enter_tolerance(self, space, amount):
        self.write(TOLERANCE_LAB if space == "lab" else TOLERANCE_LUV, amount)

    def trial(self, table_number, spectrum):
        self.write(TRIAL, *put(self.spectra, spectrum), table_number)

    def preview(self, table_number, spectrum):
        self.write(PREVIEW, *put(self.spectra, spectrum), table_number)

    def nearest(self, budget, swatch, data):
        self.write(NEAREST, *put(self.spectra, swatch), *put(self.books, data), budget)

    def report(self):
        self.write(self.chance.pick((0, NEAREST + 1, WORD_LIMIT - 1)))

    def run(self, spare=0):
        """The list so far, with a buffer that has room for its answers and some words to spare."""
        held = Run(self.records, self.tables, self.spectra, self.books, b"")
        return held._replace(lent=self.chance.bytes(answers_size(held) + WORD_BYTES * spare))


def put(held, entries):
    """Puts a table or a book into its slice, and says where it starts and how long it is."""
    held.extend(entries)
    return len(held) - len(entries), len(entries)


def recorded(chance, steps):
    """The calls of a script's lines as a run, and the steps that are calls."""
    held, made = Recorder(chance), []
    for step in steps:
        if replay.beside_the_session(step.line):
            continue
        try:
            replay.call(held, step.line)
        except replay.Unreadable:
            continue
        made.append(step)
    return held.run(chance.pick((0, 1, ANSWER_WORDS, 100))), made


def repeated(chance, head, times, tail):
    """The lines of a script as a run, the last of its head made so many times more."""
    held = Recorder(chance)
    for line in head:
        replay.call(held, line)
    held.records.extend(list(held.records[-CALL_WORDS:]) * times)
    for line in tail:
        replay.call(held, line)
    return held.run()


# What a run gives back and leaves

def part(held, start, count):
    """Nothing where it runs past the end."""
    return held[start:start + count] if start + count <= len(held) else []


def call(ledger, run, at):
    """Makes the call whose record begins at a place."""
    kind, *words = run.records[at:at + CALL_WORDS]
    if kind == OPEN_TABLES:
        tables = (part(run.tables, *words[k:k + 2]) for k in (0, 2, 4, 6))
        return ledger.open_tables(words[8], *tables)
    if kind == OPEN_LIGHT:
        return ledger.open_light(*words[:2])
    if kind == STANDARD:
        return ledger.enter_standard(part(run.spectra, *words[:2]))
    if kind == TOLERANCE_LAB:
        return ledger.enter_tolerance("lab", words[0])
    if kind == TOLERANCE_LUV:
        return ledger.enter_tolerance("luv", words[0])
    if kind == TRIAL:
        return ledger.trial(words[2], part(run.spectra, *words[:2]))
    if kind == PREVIEW:
        return ledger.preview(words[2], part(run.spectra, *words[:2]))
    if kind == NEAREST:
        swatch, data = part(run.spectra, *words[:2]), bytes(part(run.books, *words[2:4]))
        return ledger.nearest(words[4], swatch, data)
    return ledger.report()


def colour_words(own):
    place = (0, 0, 0) if own.x is None else (1, own.x, own.y)
    rest = (own.L, own.a, own.b, own.u, own.v, own.chroma_ab, own.chroma_uv)
    return [value % WORD_LIMIT for value in (own.X, own.Y, own.Z, *place, *rest)]


def answer_words(result, space):
    """The answer of what a call returned, or of its refusal; E is in that space."""
    if result is None:
        words = [ACCEPTED]
    elif isinstance(result, Refused):
        words = [REFUSED, result.cause]
    elif isinstance(result, (Trial, Preview)):
        kind = TRIED if isinstance(result, Trial) else PREVIEWED
        words = [kind, *colour_words(result.colour), SPACES.index(space), result.difference,
                 VERDICTS.index(result.verdict)]
    elif isinstance(result, Colour):
        words = [COLOURED, *colour_words(result)]
    elif isinstance(result, Nearest):
        words = [FOUND, *result]
    else:
        words = [COUNTED, *result]
    return words + [0] * (ANSWER_WORDS - len(words))


def answer(run):
    """How many calls are answered, or the refusal, and the buffer's bytes afterwards."""
    size = answers_size(run)
    if len(run.lent) < size:
        return REFUSAL + SHORT_BUFFER, run.lent
    ledger, words = Ledger(), array(WORD)
    for number in range(call_count(run)):
        try:
            result = call(ledger, run, CALL_WORDS * number)
        except Refused as refusal:
            result = refusal
        words.extend(answer_words(result, ledger.tolerance and ledger.tolerance.space))
    return call_count(run), words.tobytes() + run.lent[size:]


# Taking answers apart

def colour_of(words):
    X, Y, Z, has_place, x, y, L, *signed, chroma_ab, chroma_uv = words
    place = (x, y) if has_place else (None, None)
    a, b, u, v = (word - WORD_LIMIT if word >= WORD_LIMIT // 2 else word for word in signed)
    return Colour(X, Y, Z, *place, L, a, b, u, v, chroma_ab, chroma_uv)


def result_of(words):
    """What the call returned, or its refusal, and the space of E. Words that are no answer give
    something whose answer is not these words."""
    kind, *told = words
    if kind == COLOURED:
        return colour_of(told[:COLOUR_WORDS]), None
    if kind in JUDGED:
        space, E, verdict = told[COLOUR_WORDS:COLOUR_WORDS + 3]
        judged = JUDGED[kind](VERDICTS[verdict % len(VERDICTS)], E, colour_of(told[:COLOUR_WORDS]))
        return judged, SPACES[space % len(SPACES)]
    if kind == COUNTED:
        return tuple(told[:TALLY_WORDS]), None
    if kind == FOUND:
        return Nearest(*told[:len(Nearest._fields)]), None
    return (Refused(told[0]) if kind == REFUSED else None), None


def text(words):
    """An answer as `replay` says it."""
    result, space = result_of(words)
    if answer_words(result, space) != words:
        return f"no answer: {words}"
    if isinstance(result, Refused):
        return f"refused {result.cause}"
    return replay.answer_text(result)


def texts(left):
    """All answers of a buffer as text; one that repeats the answer before it is not read again."""
    said, last = [], None
    for words in apart(left):
        said.append(said[-1] if words == last else text(words))
        last = words
    return said


def apart(left):
    """A buffer's words, answer by answer."""
    words = array(WORD, left).tolist()
    return [words[at:at + ANSWER_WORDS] for at in range(0, len(words), ANSWER_WORDS)]
