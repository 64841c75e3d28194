"""The generator xoshiro256++ of Blackman and Vigna, by which the program draws."""
MASK = (1 << 64) - 1


def rotated(word: int, places: int) -> int:
    return ((word << places) | (word >> (64 - places))) & MASK


class Generator:
    """xoshiro256++, with a state that SplitMix64 makes of a number."""

    def __init__(self, seed: int) -> None:
        self.state = []
        for _ in range(4):
            seed = (seed + 0x9E3779B97F4A7C15) & MASK
            mixed = ((seed ^ (seed >> 30)) * 0xBF58476D1CE4E5B9) & MASK
            mixed = ((mixed ^ (mixed >> 27)) * 0x94D049BB133111EB) & MASK
            self.state.append(mixed ^ (mixed >> 31))

    def word(self) -> int:
        s = self.state
        drawn = (rotated((s[0] + s[3]) & MASK, 23) + s[0]) & MASK
        shifted = (s[1] << 17) & MASK
        s[2] ^= s[0]
        s[3] ^= s[1]
        s[1] ^= s[2]
        s[0] ^= s[3]
        s[2] ^= shifted
        s[3] = rotated(s[3], 45)
        return drawn
