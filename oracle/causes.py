"""The causes of a refusal by their numbers, the limits of readings, and how checks run."""

from tables import LENGTHS

SHORT_TABLE, OVER_BRIGHT, OFF_SCALE_CONDITION, DARK_WHITE, LOPSIDED_WHITE = 1, 2, 3, 4, 5
NO_CONDITIONS, NO_STANDARD, NO_TOLERANCE, TOLERANCE_OFF_SCALE, SESSION_FULL = 6, 7, 8, 9, 10
NOT_A_BOOK, NO_SUCH_SHADE, TOO_MANY_SHADES, OUT_OF_ORDER, SHORT_BUFFER = 11, 12, 13, 14, 15
NO_SUCH_LIGHT, UNKNOWN_SPACING, NO_SUCH_TABLE, SPOT_COUNT, EMPTY_LOOK = 16, 17, 18, 19, 20

FRAME_LIMIT = 12_000  # of readings measured in a session, written into a book or pooled
READER_LIMIT = 20_000  # in a book that is read, listed, struck or searched, and in a host call


class Refused(Exception):
    def __init__(self, cause):
        super().__init__(cause)
        self.cause = cause


def refuse_when(*checks):
    """Runs (cause, condition) pairs in order; the first condition that holds refuses."""
    for cause, condition in checks:
        if condition():
            raise Refused(cause)


def spacing_check(spacing):
    """The first check of every call that names a spacing."""
    return UNKNOWN_SPACING, lambda: spacing not in LENGTHS


def above(limit, readings):
    return any(reading > limit for reading in readings)
