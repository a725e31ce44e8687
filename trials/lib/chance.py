"""Pseudo-random numbers that are the same in every run."""


class Chance:
    """A linear congruential generator; its upper bits are the better ones."""

    def __init__(self, state):
        self.state = state

    def below(self, bound):
        self.state = (self.state * 6364136223846793005 + 1442695040888963407) % 2**64
        return (self.state >> 33) % bound

    def pick(self, things):
        return things[self.below(len(things))]
