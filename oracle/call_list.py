"""A list of calls as it grows, with what the ledger answers."""

from collections import Counter, namedtuple

import exact
import promise
from book import shades
from chance import Chance
from colour import Colour
from ledger import Ledger, Preview, Trial
from nearest import Nearest
from replay import READING_BITS, Step, answer, at_table, searching, whole_table

Measured = namedtuple("Measured", "conditions spectrum colour")


class CallList:
    """A script as it grows, with the expected step of every line that is not empty."""

    def __init__(self, seed):
        self.chance = Chance(seed)
        self.ledger = Ledger()
        self.lines, self.steps, self.misjudged, self.misled = [], [], [], []
        self.judged = Counter()  # trials and previews, by verdict, spacing and inspection table
        self.searched = Counter()  # searches: how they ended, by what count, and why refused
        self.measured = []  # the spectra that were accepted

    def say(self, line):
        self.lines.append(line)
        if not line:
            return
        step = Step(len(self.lines), line, *answer(self.ledger, line))
        self.steps.append(step)
        words = line.split(b" ")[1:]
        if isinstance(step.result, Colour):
            self.measure(whole_table(words, READING_BITS), step.result)
        if isinstance(step.result, (Trial, Preview)):
            table_number, spectrum = at_table(words)
            self.measure(spectrum, step.result.colour)
            self.weigh(step, table_number, spectrum)
        if line.startswith(b"nearest "):
            self.follow(step, words)

    def measure(self, spectrum, own):
        self.measured.append(Measured(self.ledger.conditions, spectrum, own))

    def weigh(self, step, table_number, spectrum):
        """Counts a verdict; it is misjudged unless the exact difference bears it out."""
        held, verdict = self.ledger, step.result.verdict
        self.judged[verdict, held.conditions.spacing, table_number] += 1
        if not exact.verdict_holds(
                verdict, *held.tolerance, held.standard, spectrum, held.conditions):
            self.misjudged.append(step)

    def follow(self, step, words):
        """Counts a search; one that is answered is misled unless document 02's promise holds."""
        if not isinstance(step.result, Nearest):
            self.searched[step.answer] += 1
            return
        budget, swatch, data = searching(words)
        under = self.ledger.conditions
        held = shades(data, under.spacing)
        how = promise.ended(step.result, budget, swatch, held, under)
        if how is None:
            self.misled.append(step)
        else:
            self.searched += promise.counted(step.result, how)

    def script(self):
        ending = b"" if self.chance.one_in(4) else b"\n"
        return b"\n".join(self.lines) + ending


def written_list(script):
    """A list that is already written."""
    made = CallList(0)
    for line in script.split(b"\n"):
        made.say(line)
    return made
