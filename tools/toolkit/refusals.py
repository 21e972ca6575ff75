"""The numbered refusals of docs/SPECIFICATION.md: of each its name, what it means and what to do about it."""

import collections
import math

from toolkit import ratio

COORD_LIMIT = 2.0**52
LARGEST_BUDGET = 2**60
LIST_FULL, SETTING_RANGE = 18, 21

# `{places}` in a meaning is how many places the list has, with the word.
Refusal = collections.namedtuple("Refusal", "name meaning remedy")

REFUSALS = {
    1: Refusal("JobLayout", "the bytes are no job: a count is wrong, they end early or some are left over",
               "make the job file again by `tools/jobfile to-job`; `tools/jobfile to-text` says where it is wrong"),
    2: Refusal("TableSize", "n is above 23, in the library's nearest and list above 64, or mu is not n·n long",
               "take at most 23 ambiguities, in these two calls 64, and the whole of mu"),
    3: Refusal("MuNonFinite", "an entry of mu is infinite or not a number", "correct the table where it is made"),
    4: Refusal("MuRange", "an entry of mu is above 2^52 in magnitude", "reduce (decorrelate) the table first"),
    5: Refusal("WeightRange", "a weight is not finite or not above 0",
               "correct the table where it is made: a weight is one over a conditional variance"),
    6: Refusal("LengthMismatch", "the target or the output is not n long", "give one number for each weight"),
    7: Refusal("NonFinite", "a target is not finite, or above 2^52 in magnitude",
               "if it is too large, take a whole number off it and add that to the fixed integer"),
    8: Refusal("InvalidRadius", "the radius is negative or not finite", "give a squared distance, 0 or more"),
    9: Refusal("BudgetRange", "the budget is above 2^60", "give at most 1152921504606846976 nodes"),
    10: Refusal("CandidateLength", "the candidate is not n long", "give one integer for each weight"),
    11: Refusal("CandidateDistance", "the candidate's squared distance overflows",
                "give a nearer candidate, or smaller weights"),
    12: Refusal("CandidateOutside", "the candidate is farther away than the radius", "give a larger radius"),
    13: Refusal("WidenedRadius", "the widened radius is not finite", "give a smaller radius, or smaller weights"),
    14: Refusal("ListSize", "more than 4,096 places, or points that are not n times as many",
                "lend slices of these lengths"),
    15: Refusal("BudgetExhausted", "the search took all nodes of the budget and had not ended",
                "give a larger budget, a smaller radius or a reduced table"),
    16: Refusal("OutsideRadius", "no vector of integers is inside the radius", "give a larger radius"),
    # 17 is free: no call is refused by it, and no other refusal is to get it
    18: Refusal("ListFull", "the radius has more vectors than the list's {places}", "give a smaller radius"),
    19: Refusal("ReferenceIndex", "the new reference satellite's index is not below the point's length",
                "give the index of a coordinate"),
    20: Refusal("ChangedRange", "a coordinate against the new reference satellite is no 64-bit integer",
                "correct the point where it is made, or take another reference satellite"),
    21: Refusal("SettingRange", "a setting is out of range",
                "give p and q from 1 to 1000 with p at least q, and places from 1 to 256"),
    22: Refusal("MatrixRange", "a matrix is not n·n long, or an element of one is above 2^52 in magnitude",
                "give n·n integers of each matrix, row by row, up to 2^52"),
    23: Refusal("NotInverse", "transform and inverse are not inverse to each other",
                "give a matrix of determinant 1 or -1 and its inverse, both row by row"),
    24: Refusal("MappedRange", "a coordinate of the mapped point is no 64-bit integer",
                "see that the table is reduced, and that transform and inverse are its own"),
    25: Refusal("NameRange", "the name of a search is not from 1 to 8", "give one of these"),
    26: Refusal("NameEmpty", "the name holds no search",
                "make one under it first; if its budget runs out it is kept there, until a pickup ends it"),
    27: Refusal("SumRange", "the budgets of a search that is picked up sum up to more than 2^60",
                "give a smaller budget"),
    28: Refusal("SliceRange", "the slice of a turn is not from 1 to 2^20", "give from 1 to 1048576 nodes"),
    29: Refusal("NoneHeld", "no name holds a search that a turn could serve",
                "make one under a name first; if its budget runs out it is kept there, until turns or pickups end it"),
}


def meaning(number, settings):
    places = "1 place" if settings.places == 1 else f"{settings.places} places"
    return REFUSALS[number].meaning.format(places=places)


def remedy(number, settings):
    """What to do. Of a list that is full, more places are one way where more can be had."""
    more = number == LIST_FULL and settings.places < ratio.LARGEST_PLACES
    return REFUSALS[number].remedy + (f", or more places, {ratio.LARGEST_PLACES} at most" if more else "")


def _first(values, wrong, name):
    return next((f"{name(i)} is {value!r}" for i, value in enumerate(values) if wrong(value)), None)


def setting(settings):
    """Which setting is out of range, the first of them, or None."""
    p, q, places = settings
    index = ratio.fault(settings)
    if index == 0 and 1 <= p <= ratio.LARGEST_FACTOR:
        return f"p of the ratio is {p}, below q, which is {q}"
    named = f"p of the ratio is {p}", f"q of the ratio is {q}", f"places is {places}"
    return None if index is None else named[index]


def place(number, weights, mu, target, radius, budget, settings):
    """Which number of the table the refusal is about, or None. `mu` is the triangle as rows."""
    places = [(j, i) for j, row in enumerate(mu) for i in range(len(row))]
    flat = [mu[j][i] for j, i in places]

    def entry(k):
        return "mu[%d,%d]" % places[k]

    if number == 3:
        return _first(flat, lambda x: not math.isfinite(x), entry)
    if number == 4:
        return _first(flat, lambda x: abs(x) > COORD_LIMIT, entry)
    if number == 5:
        return _first(weights, lambda x: not 0 < x < math.inf, lambda i: f"weights[{i}]")
    if number == 7:
        return _first(target, lambda x: not abs(x) <= COORD_LIMIT, lambda i: f"target[{i}]")
    if number in (8, 16, LIST_FULL):
        return f"the radius is {radius!r}"
    if number in (9, 15):
        return f"the budget is {budget}"
    if number == SETTING_RANGE:
        return setting(settings)
    return None
