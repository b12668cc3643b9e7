"""From readings to a colour, as document 01 defines it. Whole numbers only."""

from collections import namedtuple
from math import isqrt

WHITE_READING = 10_000

# What an opening enters: the spacing, the illuminant, the three observer columns and the white's
# sums.
Conditions = namedtuple("Conditions", "spacing illuminant observer white")
Colour = namedtuple("Colour", "X Y Z x y L a b u v chroma_ab chroma_uv")


def cube_root_down(number):
    """The largest whole root whose cube is at most the number."""
    if number == 0:
        return 0
    root = 1 << (number.bit_length() + 2) // 3
    while True:
        lower = (2 * root + number // (root * root)) // 3
        if lower >= root:
            return root
        root = lower


def towards_zero(numerator, denominator):
    quotient = abs(numerator) // denominator
    return quotient if numerator >= 0 else -quotient


def sums(spectrum, illuminant, observer):
    """X, Y and Z: over the rows, reading x illuminant x column."""
    assert all(len(table) == len(spectrum) for table in (illuminant, *observer))
    lit = [reading * power for reading, power in zip(spectrum, illuminant)]
    return tuple(sum(map(int.__mul__, lit, column)) for column in observer)


def conditions(spacing, illuminant, observer):
    white = sums([WHITE_READING] * len(illuminant), illuminant, observer)
    return Conditions(spacing, tuple(illuminant), tuple(map(tuple, observer)), white)


# The constants of f and L* are those of CIE 15:2004.

def above_limit(n, d):
    """n/d > 24/116 cubed, which is 216/24389."""
    return n * 116**3 > 24**3 * d


def f_step(n, d, scale):
    """scale x f(n/d), down."""
    if above_limit(n, d):
        return cube_root_down(scale**3 * n // d)
    # 841/108 n/d + 16/116, over the common denominator 108 x 116 d
    return scale * (841 * 116 * n + 16 * 108 * d) // (108 * 116 * d)


def lightness(n, d, times=1):
    """times x 10,000 x L*, down. L* = 116 f - 16, worked out from n/d and not from f_step, so that
    a slip there does not pass on to L."""
    if above_limit(n, d):
        return cube_root_down((times * 1_160_000) ** 3 * n // d) - times * 160_000
    # 116 x 841/108 is 24389/27
    return times * 10_000 * 24_389 * n // (27 * d)


def uv_denominator(X, Y, Z):
    return X + 15 * Y + 3 * Z


def uv_prime(X, Y, Z):
    """u' and v' x 10,000,000, each down."""
    whole = uv_denominator(X, Y, Z)
    return 10_000_000 * 4 * X // whole, 10_000_000 * 9 * Y // whole


def uv(L, sample, white):
    if uv_denominator(*sample) == 0:
        return 0, 0
    return tuple(
        towards_zero(13 * L * (prime - prime_n), 10_000_000)
        for prime, prime_n in zip(uv_prime(*sample), uv_prime(*white))
    )


def chromaticity(X, Y, Z):
    whole = X + Y + Z
    if whole == 0:
        return None, None
    return 1_000_000 * X // whole, 1_000_000 * Y // whole


def colour(spectrum, under):
    """The colour of a spectrum under conditions that were accepted."""
    sample, white = sums(spectrum, under.illuminant, under.observer), under.white
    tristimulus = tuple(1_000_000 * n // white[1] for n in sample)
    pX, pY, pZ = (f_step(n, d, 1_000_000) for n, d in zip(sample, white))
    L = lightness(sample[1], white[1])
    a, b = 5 * (pX - pY), 2 * (pY - pZ)
    u, v = uv(L, sample, white)
    return Colour(
        *tristimulus, *chromaticity(*sample), L, a, b, u, v,
        isqrt(a * a + b * b), isqrt(u * u + v * v),
    )


def difference(space, one, other):
    """E between two colours in "lab" or "luv", down."""
    if space == "lab":
        pairs = (one.L, other.L), (one.a, other.a), (one.b, other.b)
    else:
        pairs = (one.L, other.L), (one.u, other.u), (one.v, other.v)
    return isqrt(sum((p - q) ** 2 for p, q in pairs))
