"""The nearest integer vector to a target in a triangular table's metric, and the list of all within a radius.

For n weights w, entries mu and a target t each search is over the vectors z of n signed 64-bit integers, by the least

    distance(z) = sum over i of  w[i] * (c[i] - z[i])**2
    c[i]        = t[i] + sum over j > i of  mu[j][i] * (t[j] - z[j])

This is (t-z)' L W L' (t-z) with W = diag(w) and L the unit lower triangular matrix that has mu[j][i] in row j and
column i. DISTANCE AND RADIUS ARE SQUARES, as this sum is. Both are computed in doubles, and "nearest" is by the
computed distance. n is 0 to 64 in `nearest` and `list_points`, and 0 to 23 in every other function with a table.

FROM n = 24 ON the centres c are not computed anew at each node: they are kept, and changed by what one coordinate
changed by (docs/SPECIFICATION.md, "Running centres"). So their roundings depend on the path of the search. NOT PROMISED
there, and not so at every input:

    - that no vector is nearer than the point found, or that its distance is the formula's, computed as above
    - that a list begins at the distance that `nearest` tells
    - that a list has every vector inside the radius, or no other
    - that no vector is inside the radius where nothing is found, by OutsideRadius or an empty list
    - that a verdict of `ratio` says anything of vectors that are not listed

Promised there: the answers are those of that search, for all inputs; a point is n integers, and its distance from 0 to
the radius; a list is strictly in its order, and has no vector twice; the nodes are at most the budget; an answer other
than BudgetExhausted is that of every larger budget. The roundings are those of the largest centre on the path. With a
reduced table and targets of a few cycles they are in the last digits of a distance. So take whole cycles off a large
target first, and add them to the point.

Arguments, which mean the same in every function that takes them:

    weights  n numbers, finite and above 0
    mu       n rows of n numbers, or the n*n numbers flat, row by row. Only mu[j][i] with j > i, below the diagonal, is
             read; the rest may hold anything. A transposed table gives another table's nearest point, unnoticed
    target   n numbers, up to 2**52 in magnitude
    radius   the square of the largest length that is searched, finite and not negative; minus zero counts as 0
    budget   how many nodes the search may try, up to 2**60; a search with more to try is refused. A call can't be
             interrupted, so choose one that ends in time

A sequence is a list, a tuple, an array or the like. Numbers that are no double exactly, integers beyond 64 bits, bools
and strings raise ValueError or TypeError, and so do arrays of a wrong shape or in column-major order. What the library
refuses raises a `Refusal`, which has a class for each number.

    >>> weights, mu, target = [1, 1], [[0, 0], [0.5, 0]], [0.25, 0.5]
    >>> nearest(weights, mu, target, radius=2, budget=100)
    Nearest(point=(0, 1), nodes=5, distance=0.25)
    >>> list_points(weights, mu, target, radius=0.5, budget=100).points[0]
    ListedPoint(distance=0.25, point=(0, 1))
    >>> try:
    ...     nearest(weights, mu, target, radius=2, budget=4)
    ... except BudgetExhausted as refusal:
    ...     print(refusal.number, refusal.name, refusal.values)
    15 BudgetExhausted {'nodes': 4, 'radius': 0.25}

`ratio` says whether the first point of a list stands out, q times the second distance being at least p times the first:

    >>> listed = list_points(weights, mu, target, radius=2, budget=100)
    >>> ratio([each.distance for each in listed.points], radius=2, p=3, q=1)
    <Ratio.FAILS: 'fails'>

`prepared_nearest_ml` takes a target in the receiver's coordinates, and gives the point in them, by a table of
reduced ones.

`Names` keeps searches whose budget ran out, each under a name from 1 to 8, and goes on with them:

    >>> names = Names()
    >>> try:
    ...     names.nearest(3, weights, mu, target, radius=2, budget=2)
    ... except BudgetExhausted as refusal:
    ...     print(refusal.values)
    {'nodes': 2, 'radius': 0.25}
    >>> names.pick_up(3, budget=3)
    Nearest(point=(0, 1), nodes=5, distance=0.25)

Where several of them share one computer, `Names.turn` serves one after the other, each with a slice of nodes.

In positioning a point's integers are cycles relative to a reference satellite. If that is lost, take another:

    >>> change_reference((0, 1), reference=1)
    (-1, -1)

A `TriangleCheck` checks a table while it arrives, entry by entry, from a file or over a radio link.
"""

import ctypes
import enum
import math
import threading
from typing import NamedTuple, Optional, Tuple

from . import library as _library
from . import values as _values
from .refusals import (
    BudgetExhausted, BudgetRange, CandidateDistance, CandidateLength, CandidateOutside, ChangedRange, InvalidRadius,
    LengthMismatch, ListFull, ListSize, MappedRange, MatrixRange, MuNonFinite, MuRange, NameEmpty, NameRange, NoneHeld,
    NonFinite, NotInverse, OutsideRadius, ReferenceIndex, Refusal, SettingRange, SliceRange, SumRange, TableSize,
    WeightRange, WidenedRadius)
from .refusals import refusal as _refusal

__version__ = "0.12.0"

LARGEST_DIMENSION = 23  #: the largest n of every function with a table but `nearest` and `list_points`
LARGEST_SEARCHED = 64  #: the largest n of these two; since 0.10.0, before it was 23
LARGEST_LIST = 4096
LARGEST_BUDGET = 2**60
LARGEST_FACTOR = 1000
NAMES = 8  #: the largest name of a search in a `Names`; the smallest is 1
LARGEST_SLICE = 2**20  #: of `Names.turn`; the smallest is 1. Since 0.12.0
NAMES_SIZE = 53384  #: how many bytes `Names.to_bytes` gives; before 0.12.0 8 fewer, without the name last served

__all__ = [
    "nearest", "nearest_seeded", "nearest_ml", "prepared_nearest_ml", "list_points", "triangular_distance",
    "nearest_plane", "round_coefficients", "round_away", "change_reference", "ratio", "Names", "TriangleCheck",
    "Nearest", "Turn", "Listed", "ListedPoint", "Plane", "Ratio", "LARGEST_DIMENSION", "LARGEST_SEARCHED",
    "LARGEST_LIST", "LARGEST_BUDGET", "LARGEST_FACTOR", "LARGEST_SLICE", "NAMES", "NAMES_SIZE",
    "Refusal", "TableSize", "MuNonFinite", "MuRange", "WeightRange", "LengthMismatch", "NonFinite", "InvalidRadius",
    "BudgetRange", "CandidateLength", "CandidateDistance", "CandidateOutside", "WidenedRadius", "ListSize",
    "BudgetExhausted", "OutsideRadius", "ListFull", "ReferenceIndex", "ChangedRange", "SettingRange", "MatrixRange",
    "NotInverse", "MappedRange", "NameRange", "NameEmpty", "SumRange", "SliceRange", "NoneHeld",
]

_loaded = _library.load()


class Nearest(NamedTuple):
    """What a nearest search gives. Since 0.3.0 with the distance, so that it unpacks into three."""

    point: Tuple[int, ...]  #: the nearest vector, coordinate 0 first
    nodes: int  #: how many nodes the search tried; where it was picked up, all since its start
    #: the vector's computed distance, a square: exactly its `triangular_distance`; of `prepared_nearest_ml` that of the
    #: vector before mapping, in the table's coordinates; from n = 24 on the sum that the search came to
    distance: float


class Turn(NamedTuple):
    """What `Names.turn` gives: which search it served, and what came of it. Since 0.12.0."""

    name: int  #: the name that was served
    n: int  #: the n of its search
    found: Optional[Nearest]  #: what the search has found, if it ended with a point, and else None
    #: None if a point was found; else BudgetExhausted, or OutsideRadius if no vector is inside the radius. It is not
    #: raised
    refusal: Optional[Refusal]
    #: whether the name still holds the search. If not, the search has ended: with a point, with OutsideRadius, or with
    #: BudgetExhausted because with this slice its nodes would have passed 2**60
    kept: bool


class ListedPoint(NamedTuple):
    """A vector of a list."""

    distance: float  #: its computed distance, a square
    point: Tuple[int, ...]  #: its coordinates


class Listed(NamedTuple):
    """What a list gives."""

    #: every vector that is admitted, by distance and then coordinates; from n = 24 on those that the search came to
    points: Tuple[ListedPoint, ...]
    nodes: int  #: how many nodes the search tried


class Plane(NamedTuple):
    """What the nearest plane gives."""

    point: Tuple[int, ...]  #: the nearest-plane point z
    residual: Tuple[float, ...]  #: t - z, rounded


class Ratio(enum.Enum):
    """The verdict on a list, by its first distances d1 and d2, its radius and the factors p and q of `ratio`.

    "Other" is every vector of n integers but the list's first point, listed or not. Every product is rounded once, to a
    double, and where p*d1 overflows the test is not met. What is said here is promised of the distances that a list at
    this radius gave, with n up to 23. Of a list with n from 24 on a verdict compares the distances, and says nothing of
    vectors that are not listed. A member's value, and its str, is the word that the job program prints. Since 0.7.0.
    """

    #: there is no distance: no list, or no vector that is admitted at the radius
    NONE = "none"
    #: q*radius >= p*d1, and q times the computed distance of every other vector is no less than p*d1 either. A first
    #: distance of 0 always holds, and then says nothing of how far the second vector is
    HOLDS = "holds"
    #: another vector is listed at d2, and no other is nearer; q*d2 < p*d1, or p*d1 overflows
    FAILS = "fails"
    #: one point alone is listed, so no other vector is nearer than the radius; q*radius < p*d1, or p*d1 overflows.
    #: Whether another one is too near is not known: unless p*d1 overflows, a radius above p*d1/q decides it
    OPEN = "open"

    def __str__(self):
        return self.value


# by the library's numbers
_VERDICTS = Ratio.NONE, Ratio.HOLDS, Ratio.FAILS, Ratio.OPEN


class _Table:
    """A table and a target as the library takes them."""

    def __init__(self, weights, mu, target, target_name="target"):
        self.weights = _values.doubles("weights", weights)
        self.n = len(self.weights)
        self.mu = _values.square("mu", mu, self.n)
        self.target = _values.doubles(target_name, target)

    def slices(self):
        return self.weights, self.mu, self.target

    def point(self):
        """A point for the library to write."""
        return (ctypes.c_int64 * self.n)()


def _lent(slices):
    """Slices as the library takes them, each with its length."""
    return [part for each in slices for part in (each, len(each))]


def _answer(name, slices, *numbers):
    """Calls the library with slices, each with its length, and numbers; gives its answer and its report."""
    report = ctypes.c_uint64(), ctypes.c_uint64(), ctypes.c_double()
    number = getattr(_loaded, f"snowgimmer_{name}")(*_lent(slices), *numbers, *map(ctypes.byref, report))
    return (number, *(each.value for each in report))


def _call(name, slices, *numbers):
    """The same; gives the report, or raises the refusal."""
    number, *report = _answer(name, slices, *numbers)
    if number != 0:
        raise _refusal(number, *report)
    return report


def _budget(budget):
    return _values.whole("budget", budget, 0, 2**64 - 1)


def _factor(name, factor):
    return _values.whole(name, factor, 0, 2**64 - 1)


def nearest(weights, mu, target, radius, budget):
    """The nearest integer vector inside the radius, as a `Nearest`. The radius and the distance are squares.

    Its distance is also the first of `list_points` at the same radius, whose first point may be another one as near.
    n is at most 64. FROM n = 24 ON it is not promised that the point is the nearest, nor that its distance is its
    computed one or the first of a list, as the module says.
    Raises 2 to 9 for the table and the arguments, 2 if n is above 64, BudgetExhausted, and OutsideRadius if no vector
    is found inside the radius.
    """
    table = _Table(weights, mu, target)
    radius, budget, out = _values.double("radius", radius), _budget(budget), table.point()
    nodes, _, distance = _call("nearest", (*table.slices(), out), radius, budget)
    return Nearest(tuple(out), nodes, distance)


def nearest_seeded(weights, mu, target, candidate, radius, budget):
    """The nearest integer vector, a candidate inside the radius being known, as a `Nearest`.

    The radius and the distance are squares. The search is inside radius + (2**-52 * max(radius, 1)) * 4n, the widened
    radius, so that the candidate itself is found at least. Once the checks have passed it ends with a point or with
    BudgetExhausted, and always with a point if the budget is at least the number of nodes that `list_points` takes at
    the widened radius.
    Raises 2 to 9 for the table and the arguments, 10 to 13 for the candidate and its radius, and BudgetExhausted.
    """
    table = _Table(weights, mu, target)
    candidate = _values.integers("candidate", candidate)
    radius, budget, out = _values.double("radius", radius), _budget(budget), table.point()
    nodes, _, distance = _call("nearest_seeded", (*table.slices(), out, candidate), radius, budget)
    return Nearest(tuple(out), nodes, distance)


def nearest_ml(weights, mu, target, budget):
    """The nearest integer vector of all, from the nearest-plane point as candidate, as a `Nearest`.

    The distance is a square. The search is inside the candidate's distance, widened as in `nearest_seeded`. Once the
    checks have passed it ends with a point or with BudgetExhausted, and always with a point if the budget is at least
    the number of nodes that `list_points` takes at the widened radius.
    Raises 2 to 7 and 9 for the table and the arguments, 11 and 13 if a distance overflows, and BudgetExhausted.
    """
    table = _Table(weights, mu, target)
    budget, out = _budget(budget), table.point()
    nodes, _, distance = _call("nearest_ml", (*table.slices(), out), budget)
    return Nearest(tuple(out), nodes, distance)


def prepared_nearest_ml(weights, mu, transform, inverse, target, budget):
    """The nearest integer vector of all to a target in the receiver's coordinates, in them, as a `Nearest`.

    weights and mu are the table of reduced (decorrelated) coordinates. transform maps these to the receiver's, and
    inverse maps the receiver's back to them. Each is n rows of n integers, or the n*n integers flat, row by row:

        receiver[column] = sum over rows of  reduced[row] * transform[row][column]
        reduced[column]  = sum over rows of  receiver[row] * inverse[row][column]

    For float ambiguities a with the covariance matrix Q and the Z-transform z = Z'a, inverse is Z, transform Z^-1, and
    the table is that of the covariance matrix Z'QZ. For a lattice basis with the rows B, reduced to U*B, transform is
    U, inverse U^-1, and the table is that of U*B. Two matrices that are both transposed, or exchanged with each other,
    are still inverse to each other: no check can tell, and the answer is another point.

        >>> weights = [0.23201003429164407, 0.8808564288448116, 1.597444089456869]
        >>> mu = [[0, 0, 0], [-0.2676677848571493, 0, 0], [-0.33235022626471844, -0.13099041533546327, 0]]
        >>> inverse = [[-2, 3, 1], [3, -3, -1], [-1, 1, 0]]
        >>> transform = [[1, 1, 0], [1, 1, 1], [0, -1, -3]]
        >>> found = prepared_nearest_ml(weights, mu, transform, inverse, target=[5.45, 3.1, 2.97], budget=100)
        >>> found.point, found.nodes, round(found.distance, 6)
        ((5, 3, 4), 3, 0.218331)

    The transformed target is computed in doubles: for each column the sum over the rows, from row 0 on, of the row's
    target times inverse[row][column], starting at +0; each product and each sum is rounded. The search is that of
    `nearest_ml` from the transformed target, and its point is mapped by transform in whole numbers, exactly. THE
    DISTANCE IS THAT IN THE TABLE'S COORDINATES, from the transformed target, and "nearest" is by it: no vector of
    reduced coordinates has a smaller one than the vector that was mapped, and inverse maps the point back to that
    vector. Once the checks have passed it ends with a point, with BudgetExhausted or with MappedRange. Beside the
    search it makes the two products of the matrices, 2*n**3 multiplications.
    Raises, in this order, 2 to 5 for the table, MatrixRange, NotInverse, 6, 7 and 9 for the arguments, 7 also of the
    transformed target, 11 and 13 if a distance overflows, BudgetExhausted, and MappedRange if a coordinate of the point
    is no signed 64-bit integer. Since 0.9.0.
    """
    table = _Table(weights, mu, target)
    transform = _values.integer_square("transform", transform, table.n)
    inverse = _values.integer_square("inverse", inverse, table.n)
    budget, out = _budget(budget), table.point()
    slices = table.weights, table.mu, transform, inverse, table.target, out
    nodes, _, distance = _call("prepared_nearest_ml", slices, budget)
    return Nearest(tuple(out), nodes, distance)


def _judged(name, value):
    """A name or slice for the library to judge; 0, which it refuses, for one that is no unsigned 64-bit integer."""
    found = _values.whole(name, value, -math.inf, math.inf)
    return found if 0 <= found < 2**64 else 0


class _Block(ctypes.Structure):
    """struct snowgimmer_names of the header. It starts as zeros, which are eight empty names."""

    # the last is an array of one, so that it can be lent
    _fields_ = [("reals", ctypes.c_double * 5168), ("integers", ctypes.c_int64 * 736),
                ("counts", ctypes.c_uint64 * 768), ("last", ctypes.c_uint64 * 1)]

    def slices(self):
        return self.reals, self.integers, self.counts


class Names:
    """Eight names, 1 to 8, each of which holds a nearest search whose budget ran out, or is empty.

    A search that is kept goes on when there is time for it, and others may be made in between. A call can't be
    interrupted, but a long search can be stopped between two of its pickups:

        >>> def tried(call, *arguments):
        ...     try:
        ...         return call(*arguments)
        ...     except BudgetExhausted as refusal:
        ...         print(refusal.nodes, "nodes so far")
        >>> names, table = Names(), ([1, 1], [[0, 0], [0.5, 0]], [0.25, 0.5])
        >>> tried(names.nearest, 3, *table, 2, 2)
        2 nodes so far
        >>> tried(names.pick_up, 3, 2)
        4 nodes so far
        >>> names.held()
        {3: 2}
        >>> tried(names.pick_up, 3, 2)
        Nearest(point=(0, 1), nodes=5, distance=0.25)
        >>> names.held()
        {}

    Each has its own copy of table and target. `to_bytes` stores them all, and `from_bytes` brings them back, also on
    another machine of the same byte order; `examples/long_search.py` does so. What is in the bytes is for the library
    to read and write. A name is empty if its numbers fail a test: n is at most 23, the nodes are at most 2**60, at
    least one level is open, the open levels rise and are below n, and none has made more steps than the nodes allow.
    Any other contents, whoever wrote them, are run safely as the search that they say, and a call tries at most as many
    nodes as its budget says. But what is found then is only what these numbers say.

    A refusal leaves everything as it was. THE EXCEPTIONS: BudgetExhausted keeps the search, and OutsideRadius from
    `pick_up` empties the name; a `turn` does the same, and raises neither. Where two threads use the same `Names`, one
    waits for the other's call to end. If tables and targets are confidential, `clear` it after use. Since 0.11.0.
    """

    __slots__ = ("_block", "_lock")

    def __init__(self):
        self._block, self._lock = _Block(), threading.Lock()

    def _call(self, function, name, slices, *numbers):
        """Calls the library with the block, a name, slices and numbers; gives the report, or raises the refusal."""
        return _call(function, self._block.slices(), name, *_lent(slices), *numbers)

    def _dimension(self, name):
        """n of the search that a name holds: it is told where the output has no element, which is refused, since no
        search with n = 0 is kept."""
        try:
            self._call("pick_up", name, [(ctypes.c_int64 * 0)()], 0)
        except LengthMismatch as refusal:
            return refusal.expected
        raise AssertionError("the library keeps no search with n = 0")

    def _is_held(self, name):
        try:
            self._dimension(name)
        except NameEmpty:
            return False
        return True

    def nearest(self, name, weights, mu, target, radius, budget):
        """The nearest integer vector inside the radius, as a `Nearest`, by a search under a name. n is at most 23.

        The answer is that of the function `nearest`. If the budget runs out, BudgetExhausted is raised, and the search
        is kept under the name, in the place of what that held: `pick_up` goes on with it. If the search ends otherwise,
        the name holds what it held, also an older search. With n = 0 nothing is ever kept, since the empty point is
        found without a node.
        Raises, in this order, NameRange if the name is not from 1 to 8, 2 to 9 for the table and the arguments, 2 if n
        is above 23, BudgetExhausted, and OutsideRadius if no vector is inside the radius.
        """
        name, table = _judged("name", name), _Table(weights, mu, target)
        radius, budget, out = _values.double("radius", radius), _budget(budget), table.point()
        with self._lock:
            nodes, _, distance = self._call("nearest_named", name, (*table.slices(), out), radius, budget)
        return Nearest(tuple(out), nodes, distance)

    def pick_up(self, name, budget):
        """Goes on with the search that a name holds, with a further budget, and gives a `Nearest`.

        After any number of pickups the answer, the point, the nodes and the distance are those of one search that has
        the sum of all budgets. A pickup takes the time of its own nodes, not that of the walk from its start. If the
        budget runs out, BudgetExhausted is raised with all nodes so far, and the search is kept again. If it ends with
        a point or with OutsideRadius, the name is empty then. A budget of 0 is taken, and tells how far the search is.
        Raises, in this order, NameRange if the name is not from 1 to 8, NameEmpty if it holds no search, SumRange if
        the sum of the budgets is above 2**60, BudgetExhausted, and OutsideRadius if no vector is inside the radius.
        """
        name, budget = _judged("name", name), _budget(budget)
        with self._lock:
            out = (ctypes.c_int64 * self._dimension(name))()
            nodes, _, distance = self._call("pick_up", name, [out], budget)
        return Nearest(tuple(out), nodes, distance)

    def turn(self, slice):
        """Goes on with one of the kept searches by a slice of nodes, and by the next call with another; gives a `Turn`.

        Of the names behind `last_served` the first that holds a search is served, with a slice of 1 to 2**20 nodes.
        After 8 comes 1, and empty names are passed over; the first turn looks from 1 on. The name comes with
        every outcome: neither BudgetExhausted nor OutsideRadius is raised. They are the `refusal` of what is given.

            >>> names, table = Names(), ([1, 1], [[0, 0], [0.5, 0]], [0.25, 0.5])
            >>> for name, radius in (2, 2), (7, 0.5):
            ...     try:
            ...         names.nearest(name, *table, radius, budget=1)
            ...     except BudgetExhausted:
            ...         pass  # it is kept, and its turn comes
            >>> while names.held():
            ...     turn = names.turn(2)
            ...     if turn.found:
            ...         print(turn.name, "has found", turn.found.point, "at", turn.found.distance)
            ...     elif not turn.kept:
            ...         print(turn.name, "has ended:", turn.refusal)
            7 has found (0, 1) at 0.25
            2 has found (0, 1) at 0.25

        No search waits for ever. One for which k more slices are enough has ended with the 8*k-th accepted turn, if all
        turns have that slice, whatever is kept, picked up or emptied under other names meanwhile; it may be picked up
        itself. It takes that no other search is kept in its place, and that no slice is due that would take it past
        2**60 nodes. Only an accepted turn, one that gives a `Turn`, changes `last_served`: the name stays the last one
        where it is emptied, filled again or picked up otherwise. If it alone is held, it is served again.
        If the nodes of a search and the slice are above 2**60 together, its turn gives BudgetExhausted as the search
        stands, with its nodes and its standing radius, and empties the name; `Turn.kept` is False then.
        Raises SliceRange if the slice is not from 1 to 2**20, and NoneHeld if no name holds a search. Both leave
        everything as it was. Since 0.12.0.
        """
        slice, out = _judged("slice", slice), (ctypes.c_int64 * LARGEST_DIMENSION)()
        served, dimension = ctypes.c_uint64(), ctypes.c_uint64()
        numbers = self._block.last, *_lent([out]), slice, ctypes.byref(served), ctypes.byref(dimension)
        with self._lock:
            number, *report = _answer("turn", self._block.slices(), *numbers)
            name, n = served.value, dimension.value
            kept = number == BudgetExhausted.number and self._is_held(name)
        if number == 0:
            nodes, _, distance = report
            return Turn(name, n, Nearest(tuple(out[:n]), nodes, distance), None, False)
        refusal = _refusal(number, *report)
        if name == 0:
            # a check refused the turn
            raise refusal
        return Turn(name, n, None, refusal, kept)

    @property
    def last_served(self):
        """The name last served by a turn, or None before the first. It is stored in the bytes of `to_bytes`; a number
        there that is no name counts as none. Since 0.12.0."""
        with self._lock:
            last = self._block.last[0]
        return last if 1 <= last <= NAMES else None

    def held(self):
        """The names that hold a search, with the n of each, as a dictionary."""
        with self._lock:
            return {name: self._dimension(name) for name in range(1, NAMES + 1) if self._is_held(name)}

    def clear(self):
        """Empties every name, by zeros, and makes the next turn the first."""
        with self._lock:
            ctypes.memset(ctypes.byref(self._block), 0, NAMES_SIZE)

    def to_bytes(self):
        """All names as NAMES_SIZE bytes, in the machine's byte order, as struct snowgimmer_names has them in C."""
        with self._lock:
            return bytes(self._block)

    @classmethod
    def from_bytes(cls, data):
        """The names of bytes that `to_bytes` gave. Raises ValueError if they are not NAMES_SIZE in number.

        Those of 0.11.0, which are 8 fewer, are taken too: there were no turns.
        """
        try:
            data = bytes(memoryview(data))
        except TypeError:
            raise TypeError(f"data is of type {type(data).__name__}: bytes are expected, as Names.to_bytes gives "
                            "them") from None
        if len(data) == NAMES_SIZE - 8:
            data += bytes(8)
        if len(data) != NAMES_SIZE:
            raise ValueError(f"data has {len(data)} bytes: {NAMES_SIZE} are expected, as Names.to_bytes gives them")
        names = cls()
        names._block = _Block.from_buffer_copy(data)
        return names

    def __reduce__(self):
        return type(self).from_bytes, (self.to_bytes(),)

    def __repr__(self):
        return f"<Names held={self.held()}>"


def list_points(weights, mu, target, radius, budget, places=256):
    """Every integer vector that is admitted at the radius, by distance and then coordinates, as a `Listed`.

    The radius and the distances are squares. `places` is how many points the list has room for, up to 4096. n is at
    most 64. FROM n = 24 ON it is not promised that every such vector is listed, or no other, as the module says.
    The call needs up to 1 MB of stack, which Python's threads have if threading.stack_size is left alone. Where the
    points have more than 94,208 coordinates together, as 1,473 points with n = 64 have, the search is made twice, so
    that its time doubles, and the sort takes some milliseconds, up to a second where thousands of points are equally
    near.
    Raises 2 to 9 for the table and the arguments, 2 if n is above 64, BudgetExhausted, and ListFull if there are more
    points than places.
    """
    table = _Table(weights, mu, target)
    radius, budget = _values.double("radius", radius), _budget(budget)
    places = _values.whole("places", places, 0, LARGEST_LIST)
    distances, points = (ctypes.c_double * places)(), (ctypes.c_int64 * (places * table.n))()
    nodes, count, _ = _call("list", (*table.slices(), distances, points), radius, budget)
    n = table.n
    return Listed(tuple(ListedPoint(distances[i], tuple(points[i * n:(i + 1) * n])) for i in range(count)), nodes)


def triangular_distance(weights, mu, target, point):
    """The computed distance of a point from the target, a square.

    Raises 2 to 7 for the table and the arguments, and CandidateDistance if it overflows.
    """
    table = _Table(weights, mu, target)
    _, _, distance = _call("distance", (*table.slices(), _values.integers("point", point)))
    return distance


def nearest_plane(weights, mu, coefficients):
    """Babai's nearest plane to the coefficients t, as a `Plane`: the point z, near but not always nearest, and t - z.

    Raises 2 to 7 for the table and the coefficients, which may be above 2**52 here.
    """
    table = _Table(weights, mu, coefficients, "coefficients")
    out = table.point()
    _call("nearest_plane", (*table.slices(), out))
    return Plane(tuple(out), tuple(table.target))


def round_coefficients(coefficients):
    """`round_away` of each number, as a tuple. Raises NonFinite for an infinity or a NaN."""
    found = _values.doubles("coefficients", coefficients)
    out = (ctypes.c_int64 * len(found))()
    _call("round", (found, out))
    return tuple(out)


def round_away(x):
    """The nearest integer, of two the larger in magnitude; within -2**63 and 2**63-1, and 0 of a NaN."""
    return _loaded.snowgimmer_round_away(_values.double("x", x))


def change_reference(point, reference):
    """The point with the satellite of coordinate `reference` as its reference satellite, as a tuple.

    Coordinate `reference` becomes -point[reference], now the former reference satellite's, and each other point[i]
    becomes point[i] - point[reference], exactly. The point may have any length. The same change once more brings the
    first point back. Give only coordinates that are counted against the one satellite. A table and a target stay those
    of the former reference satellite: with them a changed point has a distance that means nothing.
    Raises ReferenceIndex if `reference` is not below the point's length, and ChangedRange if a coordinate becomes no
    signed 64-bit integer.
    """
    changed, reference = _values.integers("point", point), _values.whole("reference", reference, 0, 2**64 - 1)
    _call("change_reference", (changed,), reference)
    return tuple(changed)


def ratio(distances, radius, p=3, q=1):
    """Whether the first point of a list stands out: q*d2 >= p*d1 of its first distances d1 and d2, as a `Ratio`.

    Where one point alone is listed, the radius stands for d2. `distances` are those of `list_points`, in its order, and
    `radius` is the one that it was given; of a list that was refused, give none. p and q are from 1 to 1000, and p is
    at least q. Any numbers are taken for distances and radius, NaN too, in any order, and only the first two distances
    count; but what a `Ratio` says of the vectors is promised only of the distances that a list at this radius gave,
    with n up to 23.

        >>> [str(ratio([0.25, 0.5], 2, p, q)) for p, q in ((3, 1), (2, 1), (5, 2))]
        ['fails', 'holds', 'fails']
        >>> [str(ratio(distances, radius=0.5)) for distances in ([], [0.25], [0.125])]
        ['none', 'open', 'holds']

    Raises SettingRange if p or q is not from 1 to 1000, or p is below q. Since 0.7.0.
    """
    found, radius = _values.doubles("distances", distances), _values.double("radius", radius)
    verdict, _, _ = _call("ratio", (found,), radius, _factor("p", p), _factor("q", q))
    return _VERDICTS[verdict]


class TriangleCheck:
    """The check of a table's entries, refusals 3 and 4, one at a time, so that a table can be checked while it arrives.

    Feed the entries mu[j][i] with j > i, which are those that the calls read, and no others, by rising index j*n + i:
    row 1, then row 2, and so on. A check is a value, and `feed` gives the next one:

        >>> n, check = 3, TriangleCheck()
        >>> arriving = iter([0.5, 2.0**53, float("nan")])
        >>> for j in range(1, n):
        ...     for i in range(j):
        ...         check = check.feed(j*n + i, next(arriving))
        ...         print(check.refusal)
        None
        refused 4, MuRange: mu[6], counted row by row, is above 2^52 in magnitude
        refused 3, MuNonFinite: mu[7], counted row by row, is not finite

    After the last entry the verdict is the refusal, 3, 4 or none, that every call on the table raises once its lengths
    are right: 2 comes before them and the others after. These stay the calls' own, and each call still checks the whole
    table. Since 0.4.0.
    """

    __slots__ = ("_number", "_first")

    def __init__(self):
        # what the library answered and told in first: 0 and 0, or 3 or 4 and an index
        self._number, self._first = 0, 0

    def feed(self, index, entry):
        """The check with one more entry: its index j*n + i among the n*n, and its value, an infinity or a NaN too."""
        index, entry = _values.whole("index", index, 0, 2**64 - 1), _values.double("entry", entry)
        fed = TriangleCheck()
        fed._number, fed._first, _, _ = _answer("check_entry", (), self._number, self._first, index, entry)
        return fed

    @property
    def refusal(self):
        """The verdict on the entries so far: None, or the refusal, which is not raised.

        MuNonFinite if an entry is not finite: it is final, and the rest of the table need not be received. MuRange if
        all are finite and one is above 2**52 in magnitude: it becomes MuNonFinite if a later entry is not finite. Each
        has the index of the first such entry; if the indices did not rise, of the first that was fed.
        """
        return _refusal(self._number, self._first, 0, 0.0) if self._number else None

    def __repr__(self):
        return f"<TriangleCheck refusal={self.refusal!r}>"

    def __eq__(self, other):
        if not isinstance(other, TriangleCheck):
            return NotImplemented
        return (self._number, self._first) == (other._number, other._first)

    def __hash__(self):
        return hash((self._number, self._first))
