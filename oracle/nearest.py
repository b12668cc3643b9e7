"""The closest shade of a book to a swatch in CIELAB, in the time there is."""

from collections import namedtuple

from colour import colour, difference

Nearest = namedtuple("Nearest", "count shade gap difference")


def search(budget, swatch, shades, under):
    """Of (number, spectrum) pairs, at least one, by a budget of at least one full comparison."""
    own = colour(swatch, under)
    colours = {number: colour(spectrum, under) for number, spectrum in shades}
    # by rising difference of L, then by number
    waiting = sorted((abs(one.L - own.L), number) for number, one in colours.items())
    tried = []  # E and the number, so that the least is the best: the lowest number among equals
    while waiting and len(tried) < budget:
        away, number = waiting[0]
        if tried and away >= min(tried)[0]:
            break
        tried.append((difference("lab", own, colours[number]), number))
        waiting.pop(0)
    E, best = min(tried)
    gap = max(E - waiting[0][0], 0) if waiting else 0
    return Nearest(len(tried), best, gap, E)
