"""What the program `shadelist` prints for the bytes on its standard input."""

import book
from colour import colour
from ledger import built_in
from tables import LENGTHS

LIGHT = 2


def spacing_of(data):
    """The spacing that the first body length tells. Where it tells none, either will do: the data
    is an empty book, the same at both, or no book at all."""
    first = book.take(data, book.HEAD + 2, 2)
    told = [spacing for spacing in LENGTHS if book.body_length(spacing) == first]
    return told[0] if told else 5


def output(data):
    spacing = spacing_of(data)
    held = book.shades(data, spacing)
    if held is None:
        return f"refused {book.NOT_A_BOOK}\n".encode()
    under = built_in(LIGHT, spacing)
    lines = ["shade L a b u v\n"]
    for number, spectrum in held:
        own = colour(spectrum, under)
        lines.append(f"{number} {own.L} {own.a} {own.b} {own.u} {own.v}\n")
    return "".join(lines).encode()
