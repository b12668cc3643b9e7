"""Repeatable chance (SplitMix64), the same under every version of Python."""

MASK = 2**64 - 1


class Chance:
    def __init__(self, seed):
        self.state = seed & MASK

    def word(self):
        self.state = (self.state + 0x9E3779B97F4A7C15) & MASK
        mixed = self.state
        mixed = (mixed ^ mixed >> 30) * 0xBF58476D1CE4E5B9 & MASK
        mixed = (mixed ^ mixed >> 27) * 0x94D049BB133111EB & MASK
        return mixed ^ mixed >> 31

    def below(self, limit):
        return self.word() % limit

    def between(self, low, high):
        return low + self.below(high - low + 1)

    def one_in(self, times):
        return self.below(times) == 0

    def pick(self, choices):
        return choices[self.below(len(choices))]

    def shuffled(self, things):
        left = list(things)
        return [left.pop(self.below(len(left))) for _ in things]

    def bytes(self, count):
        words = [self.word().to_bytes(8, "little") for _ in range(count // 8 + 1)]
        return b"".join(words)[:count]
