"""What document 02 promises of a search, and its count, worked out without going through shades in
an order."""

from collections import Counter, namedtuple

from causes import EMPTY_LOOK, NO_CONDITIONS, NOT_A_BOOK, OVER_BRIGHT, SHORT_TABLE
from colour import colour, difference

CAUSES = NO_CONDITIONS, SHORT_TABLE, OVER_BRIGHT, NOT_A_BOOK, EMPTY_LOOK
COUNTS = {"1": 1, "2 to 5": 5, "6 to 19": 19, "20 and more": 200}  # and the most of each

# A shade: the size of its difference of L, its number, and E.
Seen = namedtuple("Seen", "away number E")


def ended(found, budget, swatch, shades, under):
    """How a search came to its end, or None when its answer breaks the promise."""
    own = colour(swatch, under)
    pairs = [(number, colour(spectrum, under)) for number, spectrum in shades]
    seen = [Seen(abs(one.L - own.L), number, difference("lab", own, one)) for number, one in pairs]
    tried = [one for one in seen if is_tried(one, [other for other in seen if other < one], budget)]
    left = [one.away for one in seen if one not in tried]
    if not (keeps_promise(found, budget, seen) and found.count == len(tried)
            and (found.difference, found.shade) == min((one.E, one.number) for one in tried)
            and found.gap == max([0, *(found.difference - away for away in left)])):
        return None
    if not left:
        return "none left"
    if found.gap:
        return "the budget"
    return "just at E" if min(left) == found.difference else "the difference"


def keeps_promise(found, budget, seen):
    """The E is the shade's, no shade's is below it by more than the gap, and so with no gap none is
    nearer; the count is within the budget."""
    E = {one.number: one.E for one in seen}
    return (E.get(found.shade) == found.difference
            and min(E.values()) >= found.difference - found.gap
            and 1 <= found.count <= budget)


def is_tried(one, before, budget):
    """The budget reaches it, and of those that come before each has an E above its difference of
    L: of each of these the same is then true."""
    return len(before) < budget and all(other.E > one.away for other in before)


def counted(found, how):
    """A search that was answered, for the totals."""
    size = next(name for name, most in COUNTS.items() if found.count <= most)
    return Counter({"searches": 1, how: 1, size: 1})


def told(times):
    ends = ", ".join(f"{times[how]} by {how}" for how in ("the budget", "the difference"))
    sizes = ", ".join(f"{name}: {times[name]}" for name in COUNTS)
    refused = ", ".join(f"{cause}: {times[f'refused {cause}']}" for cause in CAUSES)
    return (f"{times['searches']}; ended {ends}, {times['just at E']} by one that is the best E, "
            f"{times['none left']} with no shade left; comparisons {sizes}; refused {refused}")
