"""A session in which one inspection table is filled with trials and the others go on."""

import replay
from book import book_bytes
from causes import NO_STANDARD, NO_SUCH_TABLE, OVER_BRIGHT, SESSION_FULL, SHORT_TABLE
from inspection import READINGS, settings, swatches, wrong_swatches
from ledger import INSPECTION_TABLES, TALLY_LIMIT
from lines import REPORT, nearest, preview, seen_at, seen_nowhere, trial


def answers(lines):
    return replay.output(b"\n".join(lines)).decode().splitlines()


def refused(cause, lines):
    return [(line, f"refused {cause}") for line in lines]


class FullSession:
    """Lines, each with its answer: a head, whose last trial is made so many times more, and a
    tail."""

    times = TALLY_LIMIT - 4  # the head has three trials, and the tail begins with one missing

    def __init__(self, table_number, spacing):
        opened = settings(spacing)
        self.full = table_number
        self.others = [number for number in INSPECTION_TABLES if number != table_number]
        self.settings = list(zip(opened, answers(opened)))
        self.swatches = dict(zip(READINGS, swatches(spacing)))
        self.wrong = wrong_swatches(spacing)
        passing, failing = self.swatches["pass"], self.swatches["fail"]
        book = book_bytes([(7, failing), (300, passing)])
        self.search = nearest(1, passing, book), "nearest 1 300 0 0"
        self.verdicts = {verdict: answers([*opened, trial(table_number, swatch)])[-1]
                         for verdict, swatch in self.swatches.items()}
        self.head = [*self.settings, *(self.tried(self.full, verdict)
                                       for verdict in ("fail", "line", "pass"))]
        self.tail = [*self.before(), *self.refusals(), *self.elsewhere(), *self.opened_again()]

    def said(self):
        return [*self.head, *self.head[-1:] * self.times, *self.tail]

    def tried(self, number, verdict):
        return trial(number, self.swatches[verdict]), self.verdicts[verdict]

    def seen(self, number, verdict):
        return preview(number, self.swatches[verdict]), self.verdicts[verdict]

    def tallies(self, full, other):
        """A report, of the full table's set and the same set for each of the others."""
        sets = [full if number == self.full else other for number in INSPECTION_TABLES]
        return REPORT, " ".join(["tallies", *(str(tally) for tallies in sets for tally in tallies)])

    def before(self):
        """One trial is missing. All tables together have more than one can have; none is full, and
        previews do not fill it."""
        almost = TALLY_LIMIT - 3, 1, 1
        return [
            self.tallies(almost, (0, 0, 0)),
            *(self.tried(number, "pass") for number in self.others),
            self.tallies(almost, (1, 0, 0)), self.seen(self.full, "pass"),
            self.seen(self.full, "line"), self.tallies(almost, (1, 0, 0)),
            self.search, self.tried(self.full, "fail"),
            self.tallies((TALLY_LIMIT - 3, 2, 1), (1, 0, 0)),
        ]

    def refusals(self):
        """At the full table whatever the spectrum is; a number that is like its own is none. A
        search is none of a table's calls."""
        given, full = (*self.swatches.values(), *self.wrong), self.full
        like = 0, 9, full + 8, full + 2**8, full + 2**32, full + 2**64
        return [*refused(SESSION_FULL, seen_at(full, *given)), self.search,
                *refused(NO_SUCH_TABLE, seen_nowhere(*given, numbers=like))]

    def elsewhere(self):
        """The other tables go on."""
        said, (short, bright, both) = [], self.wrong
        for number in self.others:
            said += [self.seen(number, "fail"), self.tried(number, "fail")]
            said += [self.seen(number, "line"), self.tried(number, "line")]
            said += refused(SHORT_TABLE, seen_at(number, short, both))
            said += refused(OVER_BRIGHT, seen_at(number, bright))
        return [*said, self.tallies((TALLY_LIMIT - 3, 2, 1), (1, 1, 1))]

    def opened_again(self):
        """Without a standard that comes first; with one the table is as full as before."""
        opened, *others = self.settings
        swatch = self.swatches["pass"]
        return [
            opened, self.search,
            *refused(NO_STANDARD, seen_at(self.full, swatch, *self.wrong)),
            *refused(NO_SUCH_TABLE, seen_nowhere(swatch)),
            *others, *refused(SESSION_FULL, seen_at(self.full, swatch, *self.wrong)),
            *(self.tried(number, "pass") for number in self.others),
            self.tallies((TALLY_LIMIT - 3, 2, 1), (2, 1, 1)),
        ]
