"""The words of a seed (docs/FORMATS.md, "The words of a seed"): PCG's XSH RR 64/32, seeded as `Pcg32::seed_from_u64` of Rust's `rand_pcg`."""

MULTIPLIER, SEEDING = 0x5851F42D4C957F2D, 0xA17654E46FBE17F3
LAST_64, LAST_32 = (1 << 64) - 1, (1 << 32) - 1


def output(state):
    word = ((state >> 18 ^ state) >> 27) & LAST_32
    turn = state >> 59
    return (word >> turn | word << (32 - turn)) & LAST_32


class Words:
    """The words of a seed by their numbers from 0 on, each worked out when it is asked for."""

    def __init__(self, seed):
        state, drawn = seed, []
        for _ in range(4):
            state = (state * MULTIPLIER + SEEDING) & LAST_64
            drawn.append(output(state))
        self.increment = drawn[2] | drawn[3] << 32 | 1
        self.state = self.stepped((drawn[0] | drawn[1] << 32) + self.increment)
        self.words = []

    def stepped(self, state):
        return (state * MULTIPLIER + self.increment) & LAST_64

    def __getitem__(self, number):
        while len(self.words) <= number:
            self.words.append(output(self.state))
            self.state = self.stepped(self.state)
        return self.words[number]
