"""The ratio's settings and its verdict, as docs/SPECIFICATION.md has them: Python's floats are IEEE 754 doubles with
one rounding an operation, and a product that overflows is infinite.

Distances and radii are squares.
"""

import collections
import math

LARGEST_FACTOR, LARGEST_PLACES = 1000, 256

Settings = collections.namedtuple("Settings", "p q places")
DEFAULT = Settings(3, 1, LARGEST_PLACES)  # of a job without a sixth section


def fault(settings):
    """The index of the first setting that is out of range, or None. Where p is below q it is p."""
    p, q, places = settings
    if not 1 <= p <= LARGEST_FACTOR or p < q:
        return 0
    if not 1 <= q <= LARGEST_FACTOR:
        return 1
    return None if 1 <= places <= LARGEST_PLACES else 2


def times(p, q):
    """p/q as a word."""
    return str(p) if q == 1 else f"{p}/{q}"


def is_met(second, first, p, q):
    """Whether q·second is at least p·first, each product rounded once. A p·first that overflows is never met."""
    return math.isfinite(p * first) and q * second >= p * first


def verdict(distances, radius, p, q):
    """The verdict on the distances that are listed at the radius."""
    if not distances:
        return "none"
    if len(distances) == 1:
        return "holds" if is_met(radius, distances[0], p, q) else "open"
    return "holds" if is_met(distances[1], distances[0], p, q) else "fails"


def deciding_radius(first, p, q):
    """The least radius above the first distance that meets the test: a list there makes the ratio hold or fail.

    Where p is q that is the next double: at the first distance itself its vector need not be admitted. It is 0 where
    the first distance is 0, and infinite where there is none.
    """
    least = p * first
    if least == 0 or least == math.inf:
        return least
    radius = least / q
    while q * radius < least:
        radius = math.nextafter(radius, math.inf)
    while q * math.nextafter(radius, 0.0) >= least:
        radius = math.nextafter(radius, 0.0)
    return max(radius, math.nextafter(first, math.inf))
