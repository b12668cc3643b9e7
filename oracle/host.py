"""What the C call shade_colour returns, and what it leaves in the lent buffer."""

from book import body_length, readings
from causes import (
    NO_SUCH_LIGHT, OVER_BRIGHT, READER_LIMIT, SHORT_BUFFER, SHORT_TABLE, Refused, above,
    refuse_when,
)
from colour import colour
from ledger import built_in
from tables import LENGTHS, LIGHTS

ANSWER = 20
SPACINGS = {body_length(spacing): spacing for spacing in LENGTHS}  # by the spectrum's bytes


def shade_colour(light, spectrum, out):
    """The result and the buffer's bytes afterwards, from the light, the bytes and the buffer."""
    try:
        refuse_when(
            (NO_SUCH_LIGHT, lambda: light not in LIGHTS),
            (SHORT_TABLE, lambda: len(spectrum) not in SPACINGS),
            (OVER_BRIGHT, lambda: above(READER_LIMIT, readings(spectrum))),
            (SHORT_BUFFER, lambda: len(out) < ANSWER),
        )
    except Refused as refusal:
        return refusal.cause, out
    own = colour(readings(spectrum), built_in(light, SPACINGS[len(spectrum)]))
    answer = b"".join(
        value.to_bytes(4, "little", signed=True)
        for value in (own.L, own.a, own.b, own.u, own.v)
    )
    return 0, answer + out[ANSWER:]
