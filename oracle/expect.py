"""What a comparison says when it fails."""


class Difference(Exception):
    """Something is not as the oracle has it; the text names the case."""


def expect(name, expected, got):
    if expected != got:
        raise Difference(f"{name}\n  expected {expected!r}\n  got      {got!r}")
