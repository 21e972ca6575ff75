"""The distance and the nearest-plane point of a table, bit for bit as docs/SPECIFICATION.md has them: Python's floats
are IEEE 754 doubles with one rounding an operation.

`mu` is the triangle as rows: mu[j][i] with i < j. `weights`, `target` are lists of floats, a point one of integers.
"""

import math

SMALLEST, LARGEST = -(2**63), 2**63 - 1


def round_away(value):
    """The nearest 64-bit integer, halves away from zero."""
    if not math.isfinite(value):
        return 0 if math.isnan(value) else SMALLEST if value < 0 else LARGEST
    size = abs(value)
    whole = math.floor(size)
    whole += size - whole >= 0.5  # the difference is exact
    return max(SMALLEST, min(LARGEST, -whole if value < 0 else whole))


def _center(mu, start, rest, level):
    total = start
    for j in range(level + 1, len(rest)):
        total += rest[j] * mu[j][level]
    return total


def distance(weights, mu, target, point):
    """The computed squared distance of a point; infinity where it overflows."""
    rest = [t - float(z) for t, z in zip(target, point)]
    partial = 0.0
    for level in reversed(range(len(weights))):
        d = _center(mu, target[level], rest, level) - float(point[level])
        partial += weights[level] * d * d
    return partial


def nearest_plane(mu, target):
    """Babai's nearest-plane point: from the last coordinate down, each is the integer nearest to its centre."""
    rest = list(target)
    point = [0] * len(target)
    for i in reversed(range(len(target))):
        point[i] = round_away(_center(mu, rest[i], rest, i))
        rest[i] -= float(point[i])
    return point
