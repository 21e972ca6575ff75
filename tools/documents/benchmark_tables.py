"""The tables of tools/compare's measurement of speed (its src/rng.rs and src/bin/speed.rs), drawn again in Python.

Weights that fall over two and a half orders of magnitude, mu uniform from -0.5 to 0.5, targets uniform from -100 to 100.
"""

MASK = 2**64 - 1


class Rng:
    """SplitMix64, started for one case of a seed."""

    def __init__(self, seed, case):
        self.state = seed ^ 0x6A09E667F3BCC908
        self.state = self.bits() ^ (case * 0xD1342543DE82EF95 & MASK)

    def bits(self):
        self.state = (self.state + 0x9E3779B97F4A7C15) & MASK
        z = (self.state ^ (self.state >> 30)) * 0xBF58476D1CE4E5B9 & MASK
        z = (z ^ (z >> 27)) * 0x94D049BB133111EB & MASK
        return z ^ (z >> 31)

    def uniform(self, low, high):
        return low + (high - low) * ((self.bits() >> 11) / 9007199254740992.0)


def power(base, exponent):
    """A whole power by repeated squaring, rounded as Rust's powi rounds it."""
    result = 1.0
    while True:
        if exponent % 2 == 1:
            result *= base
        exponent //= 2
        if exponent == 0:
            return result
        base *= base


def table(n, number):
    """Weights, mu, target of the case with this number, and the generator after them; n is 2 or more."""
    rng = Rng(n, number)
    fall = 10.0 ** (-2.5 / (n - 1))
    weights = [power(fall, i) * rng.uniform(0.8, 1.25) for i in range(n)]
    mu = [rng.uniform(-0.5, 0.5) if k // n > k % n else 0.0 for k in range(n * n)]
    target = [rng.uniform(-100.0, 100.0) for _ in range(n)]
    return weights, mu, target, rng


def near_target(n, weights, mu, rng, size):
    """A target near an integer vector: their distance is about `size`, spread evenly over the levels."""
    target = [0.0] * n
    gaps = [0.0] * n
    for i in reversed(range(n)):
        residual = rng.uniform(-1.0, 1.0) * (3.0 * size / (n * weights[i])) ** 0.5
        gaps[i] = residual - sum(gaps[j] * mu[j * n + i] for j in range(i + 1, n))
        target[i] = float(round(rng.uniform(-100.0, 100.0))) + gaps[i]
    return target
