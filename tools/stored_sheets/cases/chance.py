"""Chance that is the same in every run."""


class Chance:
    """A fixed sequence of numbers, the same in every run."""

    def __init__(self, seed):
        self.state = seed

    def below(self, limit):
        factor, term = 6_364_136_223_846_793_005, 1_442_695_040_888_963_407
        self.state = (self.state * factor + term) % 2 ** 64
        return (self.state >> 33) % limit

    def one_of(self, choices):
        return choices[self.below(len(choices))]
