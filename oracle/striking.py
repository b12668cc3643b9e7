"""Mills drop shades each season: a shade is struck from a book, in place."""

from book import book_bytes, shades
from causes import NO_SUCH_SHADE, NOT_A_BOOK, refuse_when, spacing_check


def strike(spacing, number, buffer):
    """Leaves the book of the remaining shades in a bytearray that a book fills, then zeros, and
    returns that book's length."""
    refuse_when(spacing_check(spacing))
    held = shades(buffer, spacing)
    refuse_when(
        (NOT_A_BOOK, lambda: held is None),
        (NO_SUCH_SHADE, lambda: number not in dict(held)),
    )
    left = book_bytes([shade for shade in held if shade[0] != number])
    buffer[:] = left + bytes(len(buffer) - len(left))
    return len(left)
