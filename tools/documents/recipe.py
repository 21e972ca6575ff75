"""The recipe of docs/RADIUS.md: the nearest vector of an epoch and a ratio verdict that is conclusive."""

import collections
import math

import library

LIST_FULL = 18

# second is None where no other vector is listed: then each is at a distance of at least `radius`.
Verdict = collections.namedtuple("Verdict", "point distance second verdict radius nodes")


def crowded(table, radius, budget):
    """Whether more than one vector is admitted at the radius."""
    try:
        return len(library.list_points(*table, radius, budget)[0]) > 1
    except library.Refused as refusal:
        if refusal.number == LIST_FULL:
            return True
        raise


def least_met(first, p, q):
    """The least double R with q·R at least p·first, both rounded. Only a list that is full needs it."""
    limit = p * first
    radius = limit / q
    while q * radius < limit:
        radius = math.nextafter(radius, math.inf)
    while q * math.nextafter(radius, 0.0) >= limit:
        radius = math.nextafter(radius, 0.0)
    return radius


def fix(weights, mu, target, budget, p=3, q=1):
    """Raises library.Refused where a call is refused: 15 says that the budget is too small for a verdict."""
    table = weights, mu, target
    point, nodes, distance = library.nearest_ml(*table, budget)
    # above p/q times the distance, and above the distance itself where p is q
    radius = math.nextafter(max(p * distance / q, distance), math.inf)
    try:
        listed, more = library.list_points(*table, radius, budget)
    except library.Refused as refusal:
        # more points than places: all that counts is whether a second one is below the limit
        if refusal.number != LIST_FULL or distance == 0.0 or p == q:
            raise
        if not crowded(table, math.nextafter(least_met(distance, p, q), 0.0), budget):
            raise
        return Verdict(point, distance, None, "fails", radius, nodes)
    second = listed[1][0] if len(listed) > 1 else None
    verdict = library.ratio([d for d, _ in listed], radius, p, q)
    return Verdict(point, distance, second, verdict, radius, nodes + more)
