"""Servers by the rules: the figures Z, L and r in exact whole numbers, and ticks one by one."""

CEILING = 1_000_000_000_000


def up(part, whole):
    """part ÷ whole, rounded up."""
    return -(-part // whole)


class Own:
    lead = 0

    def worst(self, n):
        return n

    def pace(self, n):
        return n

    def tick(self, claimed):
        return True


class Fixed:
    def __init__(self, period, slice, phase):
        self.period, self.slice, self.position = period, slice, phase
        self.lead = period - slice

    def worst(self, n):
        return n + (self.period - self.slice) * up(n, self.slice)

    def pace(self, n):
        return up(n * self.period, self.slice)

    def tick(self, claimed):
        granted = self.position < self.slice
        self.position = (self.position + 1) % self.period
        return granted


class Float:
    def __init__(self, period, slice):
        self.period, self.slice = period, slice
        self.passed = self.got = 0
        self.lead = 2 * (period - slice)

    def worst(self, n):
        return n and n + (self.period - self.slice) * (up(n, self.slice) + 1)

    def pace(self, n):
        return up(n * self.period, self.slice)

    def tick(self, claimed):
        forced = self.slice - self.got == self.period - self.passed
        granted = self.got < self.slice and (not claimed or forced)
        self.got += granted
        self.passed += 1
        if self.passed == self.period:
            self.passed = self.got = 0
        return granted


class Inner:
    """A fixed slice of its own, whose position moves only on ticks granted below."""

    def __init__(self, below, slice):
        self.below, self.slice = below, slice
        self.lead = below.lead + below.pace(slice.lead)

    def worst(self, n):
        return self.below.worst(self.slice.worst(n))

    def pace(self, n):
        return self.below.pace(self.slice.pace(n))

    def tick(self, claimed):
        return self.below.tick(claimed) and self.slice.tick(claimed)
