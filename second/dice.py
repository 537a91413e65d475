"""Random numbers that are the same on every machine, and the digest of the trials."""

WORD = (1 << 64) - 1


class Dice:
    """The splitmix64 generator."""

    def __init__(self, seed):
        self.state = seed

    def word(self):
        self.state = (self.state + 0x9E3779B97F4A7C15) & WORD
        z = self.state
        z = ((z ^ (z >> 30)) * 0xBF58476D1CE4E5B9) & WORD
        z = ((z ^ (z >> 27)) * 0x94D049BB133111EB) & WORD
        return z ^ (z >> 31)

    def below(self, n):
        return self.word() % n

    def between(self, low, high):
        return low + self.word() % (high - low + 1)

    def one_of(self, choices):
        return choices[self.word() % len(choices)]

    def chance(self, percent):
        return self.word() % 100 < percent

    def bytes(self, n):
        return bytes([self.word() & 255 for _ in range(n)])


DIGEST_OF_NOTHING = 0


def digest(numbers, so_far=DIGEST_OF_NOTHING):
    """A 64-bit digest, one number at a time; sums and shifts drop what passes 64 bits."""
    h = so_far
    for number in numbers:
        h ^= (number + 0x9E3779B97F4A7C15 + (h << 6) + (h >> 2)) & WORD
    return h
