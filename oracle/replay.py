"""The text format of the program `replay`: a script of calls in, a line of answer for each out.

Rules where the design's text is silent:
- Bytes are arbitrary. A line ends at byte 10 and at nothing else; the last may lack it. An empty
  line is passed over.
- Words are apart by exactly one space; no leading or trailing space, no extra word.
- A number is one or more of the digits 0 to 9; leading zeros are allowed, signs are not. One too
  large for its place counts as the largest that fits there: readings and shade numbers have 16
  bits; entries of an opening's tables, the tolerance's amount, the light number, the spacing, the
  number of an inspection table, the number of spots and a budget have 32; a length has 64.
- An opening's table, a spectrum or the spots of a pooling have any length, 0 included, but as many
  numbers must follow as it says.
- The buffer of a strike and the book of a search are one word of hexadecimal digits, 0 to 9 and a
  to f, two for each byte; it has any length, but at least one byte.
- A pooling and a strike are no calls of the session, and may stand anywhere. The places that a
  pooling is lent have the rows of its spacing.
- A line that was a call in the form of an earlier job is read in the form of today: where its
  numbers happen to fit that, it is the call that they say.
Any other line is unreadable and is no call.
"""

from collections import namedtuple

from causes import Refused
from colour import Colour
from ledger import Ledger, Preview, Trial
from nearest import Nearest
from pooling import pool
from striking import strike
from tables import LENGTHS

READING_BITS, SHADE_BITS, LENGTH_BITS = 16, 16, 64
ENTRY_BITS = 32  # also of an amount, a light, a spacing, an inspection table, a number of spots
                 # and a budget

HEX_DIGITS = b"0123456789abcdef"

# result is what the ledger returned: None, a Colour, a Trial, a Preview, a Nearest or the tallies;
# or the Spectrum of a pooling, or what is Struck: the length of the book that is left, and the
# buffer.
Step = namedtuple("Step", "number line answer result")
Spectrum = namedtuple("Spectrum", "readings")
Struck = namedtuple("Struck", "length buffer")


class Unreadable(Exception):
    pass


def number(word, bits):
    if not word.isdigit():  # of bytes: true for ASCII digits only, and false for an empty word
        raise Unreadable
    largest = 2**bits - 1
    digits = word.lstrip(b"0")
    return largest if len(digits) > 20 else min(int(digits or b"0"), largest)


def table(words, bits):
    """Takes a length and its numbers off the front of the words; also returns the rest."""
    if not words:
        raise Unreadable
    length = number(words[0], LENGTH_BITS)
    if length > len(words) - 1:
        raise Unreadable
    return [number(word, bits) for word in words[1:1 + length]], words[1 + length:]


def whole_table(words, bits):
    entries, rest = table(words, bits)
    if rest:
        raise Unreadable
    return entries


def so_many(count, words):
    """The numbers that the words are, which must be so many."""
    if len(words) != count:
        raise Unreadable
    return [number(word, ENTRY_BITS) for word in words]


def at_table(words):
    """The inspection table's number and the spectrum of a trial or preview."""
    return *so_many(1, words[:1]), whole_table(words[1:], READING_BITS)


def four_tables(words):
    tables = []
    for _ in range(4):
        entries, words = table(words, ENTRY_BITS)
        tables.append(entries)
    if words:
        raise Unreadable
    return tables


def buffer_bytes(word):
    """The bytes that the digits of a word are."""
    if not word or len(word) % 2 or word.translate(None, HEX_DIGITS):
        raise Unreadable
    return bytearray.fromhex(word.decode())


def searching(words):
    """The budget, the swatch and the bytes of the book of a search."""
    budget = so_many(1, words[:1])
    swatch, rest = table(words[1:], READING_BITS)
    if len(rest) != 1:
        raise Unreadable
    return *budget, swatch, bytes(buffer_bytes(rest[0]))


def pooling(words):
    spacing, count = so_many(2, words[:2])
    readings = whole_table(words[2:], READING_BITS)
    places = [0] * LENGTHS.get(spacing, 0)
    pool(spacing, count, readings, places)
    return Spectrum(places)


def striking(words):
    if len(words) != 3:
        raise Unreadable
    spacing, shade = number(words[0], ENTRY_BITS), number(words[1], SHADE_BITS)
    buffer = buffer_bytes(words[2])
    length = strike(spacing, shade, buffer)
    return Struck(length, bytes(buffer))


BESIDE = {b"pool": pooling, b"strike": striking}


def beside_the_session(line):
    """Whether a line asks for no call of the session, if it is readable."""
    return line.split(b" ", 1)[0] in BESIDE


def call(ledger, line):
    """Reads a line whole before the ledger sees it, then makes its call."""
    name, *words = line.split(b" ")
    if beside_the_session(line):
        return BESIDE[name](words)
    if name == b"light":
        return ledger.open_light(*so_many(2, words))
    if name == b"open":
        return ledger.open_tables(*so_many(1, words[:1]), *four_tables(words[1:]))
    if name == b"standard":
        return ledger.enter_standard(whole_table(words, READING_BITS))
    if name == b"tolerance" and words[:1] in ([b"lab"], [b"luv"]):
        return ledger.enter_tolerance(words[0].decode(), *so_many(1, words[1:]))
    if name == b"trial":
        return ledger.trial(*at_table(words))
    if name == b"preview":
        return ledger.preview(*at_table(words))
    if name == b"nearest":
        return ledger.nearest(*searching(words))
    if name == b"report" and not words:
        return ledger.report()
    raise Unreadable


def numbers(values):
    return " ".join("none" if value is None else str(value) for value in values)


def answer_text(result):
    if result is None:
        return "ok"
    if isinstance(result, (Trial, Preview)):
        return f"{result.verdict} {result.difference} {numbers(result.colour)}"
    if isinstance(result, Colour):
        return f"colour {numbers(result)}"
    if isinstance(result, Nearest):
        return f"nearest {numbers(result)}"
    if isinstance(result, Spectrum):
        return f"spectrum {numbers([len(result.readings), *result.readings])}"
    if isinstance(result, Struck):
        return f"struck {result.length} {result.buffer.hex()}"
    return f"tallies {numbers(result)}"


def answer(ledger, line):
    """The answer to one line that is not empty, and what the ledger returned."""
    try:
        result = call(ledger, line)
    except Refused as refusal:
        return f"refused {refusal.cause}", None
    except Unreadable:
        return "unreadable", None
    return answer_text(result), result


def steps(script, ledger=None):
    ledger = ledger or Ledger()
    for at, line in enumerate(script.split(b"\n"), 1):
        if line:
            yield Step(at, line, *answer(ledger, line))


def output(script):
    return "".join(f"{step.answer}\n" for step in steps(script)).encode()
