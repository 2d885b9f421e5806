"""A small seeded generator: the same seed gives the same numbers everywhere."""

MULTIPLIER = 6364136223846793005
INCREMENT = 1442695040888963407


class Dice:
    def __init__(self, seed):
        self.state = seed
        # The first numbers of neighbouring seeds look alike; pass over them.
        for _ in range(4):
            self.below(1)

    def below(self, limit):
        """A number from 0 to limit - 1."""
        self.state = (self.state * MULTIPLIER + INCREMENT) % 2**64
        return (self.state >> 32) % limit

    def between(self, least, most):
        return least + self.below(most - least + 1)

    def one_in(self, chances):
        return self.below(chances) == 0

    def pick(self, items):
        return items[self.below(len(items))]

    def shuffled(self, items):
        rest = list(items)
        return [rest.pop(self.below(len(rest))) for _ in range(len(rest))]

    def mask(self, core_count, most):
        """A mask of 1 to `most` different cores."""
        cores = self.shuffled(range(core_count))[: self.between(1, min(most, core_count))]
        return sum(1 << core for core in cores)
