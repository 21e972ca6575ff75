"""The table of a covariance matrix Q: weights w and entries mu with

    (a - z)^T Q^-1 (a - z) = sum over i of w[i] (c[i] - z[i])^2
    c[i] = a[i] + sum over j > i of mu[j][i] (a[j] - z[j])

for all a and z. That is Q^-1 = L D L^T, with w on the diagonal of D and mu below the unit diagonal of L.

The factors are worked out in whole numbers and without rounding, from the doubles of Q; each is then rounded once.
"""

import fractions


class NotPositiveDefinite(Exception):
    """The index of the first variance, from the last one down, that is not above 0 given those behind it."""


def _whole(q):
    """The matrix times 2^shift, in whole numbers, and the shift."""
    ratios = [[fractions.Fraction(entry) for entry in row] for row in q]
    shift = max((ratio.denominator.bit_length() - 1 for row in ratios for ratio in row), default=0)
    return [[int(ratio * 2**shift) for ratio in row] for row in ratios], shift


def exact_factors(q):
    """The weights and the rows of mu, each number as a pair: numerator and denominator, which is above 0.

    Elimination with whole numbers, from the last index down (Bareiss; every division is exact). At index k, `minor` is
    the determinant of the rows and columns above k, rows[k][k] that from k on, and rows[j][k] / minor, for j > k,
    solves the system whose matrix is the block above k and whose right side is column k.
    """
    rows, shift = _whole(q)
    n = len(q)
    weights, mu = [None] * n, [[None] * j for j in range(n)]
    minor = 1
    for k in reversed(range(n)):
        pivot = rows[k]
        if pivot[k] <= 0:
            raise NotPositiveDefinite(k)
        weights[k] = (minor << shift, pivot[k])
        for j in range(k + 1, n):
            mu[j][k] = (-rows[j][k], minor)
        for r in range(n):
            if r != k:
                factor = rows[r][k]
                rows[r] = [(pivot[k] * x - factor * y) // minor for x, y in zip(rows[r], pivot)]
        minor = pivot[k]
    return weights, mu


def rounded(pair):
    """The nearest double of a ratio; infinity where it overflows."""
    numerator, denominator = pair
    try:
        return numerator / denominator  # of whole numbers, Python rounds the exact ratio once
    except OverflowError:
        return float("inf") if numerator > 0 else float("-inf")


def factors(q):
    """The weights and the rows of mu as doubles."""
    weights, mu = exact_factors(q)
    return [rounded(pair) for pair in weights], [[rounded(pair) for pair in row] for row in mu]
