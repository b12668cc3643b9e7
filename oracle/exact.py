"""The exact difference of document 01 at a given scale M, and what a verdict must mean by it."""

from colour import f_step, lightness, sums, towards_zero, uv_denominator

SLACK = {"lab": 11, "luv": 108}  # c
REACH = {"lab": 24, "luv": 228}  # h
SCALE = 10**6  # the M used by the check


def components(space, spectrum, under, M):
    """l and the other two components of a spectrum at scale M."""
    sample, white = sums(spectrum, under.illuminant, under.observer), under.white
    l = lightness(sample[1], white[1], M)
    if space == "lab":
        fX, fY, fZ = (f_step(n, d, M * 1_000_000) for n, d in zip(sample, white))
        return l, 5 * (fX - fY), 2 * (fY - fZ)
    whole, whole_n = uv_denominator(*sample), uv_denominator(*white)
    if whole == 0:
        return l, 0, 0
    return (
        l,
        towards_zero(13 * l * 4 * (sample[0] * whole_n - white[0] * whole), whole * whole_n),
        towards_zero(13 * l * 9 * (sample[1] * whole_n - white[1] * whole), whole * whole_n),
    )


def squared_difference(space, standard, trial, under, M):
    """Q."""
    one, other = (components(space, spectrum, under, M) for spectrum in (standard, trial))
    return sum((p - q) ** 2 for p, q in zip(one, other))


def at_most(space, Q, T, M):
    return Q <= (M * T + SLACK[space]) ** 2


def exceeds(space, Q, T, M):
    return not at_most(space, Q, T, M)


def below(space, Q, T, M):
    """At most T and not equal to it, shown by this M."""
    edge = M * T - SLACK[space]
    return edge > 0 and edge * edge > Q


def near(space, Q, T, M):
    """Less than h from T."""
    h = REACH[space]
    over = T < h or exceeds(space, Q, T - h, M)
    return over and at_most(space, Q, T + h, M) and below(space, Q, T + h, M)


MEANING = {"pass": at_most, "fail": exceeds, "line": near}


def verdict_holds(verdict, space, T, standard, trial, under, M=SCALE):
    Q = squared_difference(space, standard, trial, under, M)
    return MEANING[verdict](space, Q, T, M)
