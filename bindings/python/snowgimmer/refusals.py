"""The numbered refusals as exceptions. Each carries its number, its name and its values."""


class Refusal(Exception):
    """A call that the library refused.

    `number` is the refusal's number, `name` its name and `values` what it carries, by name; each value is also an
    attribute. Each number has a class of its own below; 17 is free, and no refusal has it.

    No value is minus zero, but for a pickup or a turn from bytes that this module has not written: where 12, 15 and 16
    gave a radius of minus zero back before 0.5.0, they give 0.0.
    """

    number = 0
    #: the names of the values, in the order of the library's report
    fields = ()
    #: the sentence of the message, with the values by name
    sentence = ""

    def __init__(self, **values):
        self.name = type(self).__name__
        self.values = values
        for field in self.fields:
            setattr(self, field, values[field])
        super().__init__(f"refused {self.number}, {self.name}: {self.text()}")

    def text(self):
        return self.sentence.format(**self.values)

    def __reduce__(self):
        return _again, (type(self), self.values)


def _again(kind, values):
    """The refusal, as pickle and copy make it again."""
    return kind(**values)


class TableSize(Refusal):
    """2: n is above 23, in `nearest` and `list_points` above 64, or mu is not n·n long."""

    number = 2
    fields = ("weights",)

    def text(self):
        n = self.values["weights"]
        if n > 64:
            return (f"the table has {n} weights: nearest and list_points take at most 64, every other function at most "
                    "23")
        if n > 23:
            return (f"the table has {n} weights: nearest and list_points alone take more than 23, and need {n * n} "
                    "entries of mu for them")
        return f"mu does not have the {n * n} entries that {n} weights need"


class MuNonFinite(Refusal):
    """3: an entry of mu that is read is not finite; its index in the n·n entries."""

    number = 3
    fields = ("index",)
    sentence = "mu[{index}], counted row by row, is not finite"


class MuRange(Refusal):
    """4: an entry of mu that is read is above 2^52 in magnitude; its index in the n·n entries."""

    number = 4
    fields = ("index",)
    sentence = "mu[{index}], counted row by row, is above 2^52 in magnitude"


class WeightRange(Refusal):
    """5: a weight is not finite or not above 0; its index."""

    number = 5
    fields = ("index",)
    sentence = "weights[{index}] is not a finite number above 0"


class LengthMismatch(Refusal):
    """6: the target, or a point in the output's place, is not n long."""

    number = 6
    fields = ("expected", "found")
    sentence = "{expected} numbers are expected, as many as there are weights, and {found} were given"


class NonFinite(Refusal):
    """7: a target or coefficient is not finite or, in a search, above 2^52 in magnitude; its index.

    In `prepared_nearest_ml`, where the given target is sound, it is the column of the transformed one.
    """

    number = 7
    fields = ("index",)
    sentence = ("number {index} of the target or coefficients, given or transformed, is not finite, or above 2^52 in "
                "magnitude")


class InvalidRadius(Refusal):
    """8: the radius is negative or not finite."""

    number = 8
    fields = ("radius",)
    sentence = "the radius {radius} is negative or not finite"


class BudgetRange(Refusal):
    """9: the budget is above 2^60."""

    number = 9
    fields = ("budget",)
    sentence = "the budget {budget} is above 2^60"


class CandidateLength(Refusal):
    """10: the candidate is not n long."""

    number = 10
    fields = ("expected", "found")
    sentence = "the candidate has {found} coordinates, and {expected} are expected"


class CandidateDistance(Refusal):
    """11: the distance of the candidate, or of the point, overflows."""

    number = 11
    fields = ("total",)
    sentence = "the distance of the candidate or point overflows to {total}"


class CandidateOutside(Refusal):
    """12: the candidate's distance is above the radius."""

    number = 12
    fields = ("radius",)
    sentence = "the candidate's distance is above the radius {radius}"


class WidenedRadius(Refusal):
    """13: the widened radius is not finite."""

    number = 13
    fields = ("radius",)
    sentence = "the widened radius is {radius}, and has to be finite"


class ListSize(Refusal):
    """14: a list was lent over 4,096 places."""

    number = 14
    fields = ("distances",)
    sentence = "the list was lent {distances} places, and at most 4096 are taken, with n coordinates for each"


class BudgetExhausted(Refusal):
    """15: the budget ran out; the nodes tried and the radius that stood then.

    A search of `Names` is kept then; its nodes are all since its start. The exception is a turn by which they would
    pass 2^60: `Turn.kept` tells.
    """

    number = 15
    fields = ("nodes", "radius")

    def text(self):
        told = "the budget ran out after {nodes} nodes, with the radius at {radius}: ".format(**self.values)
        # the last of them may have been a turn's, whose next slice would pass the limit
        if self.values["nodes"] > 2**60 - 2**20:
            return told + "a search may try 2^60 at most; a smaller radius or a reduced table may do"
        return told + "a larger budget may do; a search under a name is kept, and pick_up or turn goes on with it"


class OutsideRadius(Refusal):
    """16: no vector is inside the radius; from n = 24 on, none was found inside it."""

    number = 16
    fields = ("radius",)
    sentence = "no vector is inside the radius {radius}: a larger one may do"


class ListFull(Refusal):
    """18: the list has more points than places."""

    number = 18
    fields = ("points",)
    sentence = "the list has {points} points, more than there are places: give as many places, 4096 at most, or a smaller radius"


class ReferenceIndex(Refusal):
    """19: the index of the new reference satellite is not below the point's length."""

    number = 19
    sentence = "the new reference satellite's index is not below the point's length: give that of a coordinate"


class ChangedRange(Refusal):
    """20: a coordinate against the new reference satellite is no signed 64-bit integer; its index."""

    number = 20
    fields = ("index",)
    sentence = "coordinate {index} against the new reference satellite is no 64-bit integer: another satellite may do"


class SettingRange(Refusal):
    """21: a factor of a ratio is not from 1 to 1,000, or p is below q; index 0 is p's, and 1 that of a q of 0."""

    number = 21
    fields = ("index",)

    def text(self):
        if self.values["index"] == 0:
            return "p is not from 1 to 1000, or it is below q: give p and q from 1 to 1000, p at least q"
        return "q is not from 1 to 1000: give one from 1 to p"


class MatrixRange(Refusal):
    """22: transform or inverse is not n·n long, index 0; or an element of them is above 2^52 in magnitude, its index.

    The elements of the inverse are counted from n·n on.
    """

    number = 22
    fields = ("index",)

    def text(self):
        index = self.values["index"]
        if index == 0:
            return ("transform or inverse is not n·n long, or transform[0] is above 2^52 in magnitude: give n·n "
                    "elements of each, row by row, up to 2^52")
        return (f"element {index} of transform and inverse, counted on from the one to the other, is above 2^52 in "
                "magnitude: correct it where it is made")


class NotInverse(Refusal):
    """23: transform and inverse are not inverse to each other."""

    number = 23
    sentence = ("transform and inverse are not inverse to each other: give a matrix of determinant 1 or -1 and its "
                "inverse, both row by row")


class MappedRange(Refusal):
    """24: a coordinate of the mapped point is no signed 64-bit integer; its column."""

    number = 24
    fields = ("column",)
    sentence = ("coordinate {column} of the mapped point is no 64-bit integer: see that the table is reduced, and that "
                "transform and inverse are its own")


class NameRange(Refusal):
    """25: the name is not from 1 to 8."""

    number = 25
    sentence = "the name is not from 1 to 8: give one of these"


class NameEmpty(Refusal):
    """26: the name holds no search."""

    number = 26
    sentence = ("the name holds no search, or its search has ended: Names.nearest keeps one there if its budget runs "
                "out")


class SumRange(Refusal):
    """27: the sum of a kept search's budgets, that of this pickup too, is above 2^60; the sum, or 2^64-1 if larger."""

    number = 27
    fields = ("sum",)

    def text(self):
        total = self.values["sum"]
        told = "2^64-1 or more" if total == 2**64 - 1 else total
        return f"the budgets of the search sum up to {told}, above 2^60: give a smaller one"


class SliceRange(Refusal):
    """28: the slice of a turn is not from 1 to 2^20."""

    number = 28
    sentence = "the slice is not from 1 to 2^20 nodes: give one of these"


class NoneHeld(Refusal):
    """29: no name holds a search that a turn could serve."""

    number = 29
    sentence = "no name holds a search, so there is none to serve: Names.nearest keeps one if its budget runs out"


BY_NUMBER = {kind.number: kind for kind in Refusal.__subclasses__()}


def refusal(number, first, second, real):
    """The exception of a number, from the library's report: whole values come first, doubles last."""
    kind = BY_NUMBER[number]
    doubles = [field for field in kind.fields if field in ("radius", "total")]
    whole = [field for field in kind.fields if field not in doubles]
    return kind(**dict(zip(whole, (first, second))), **{field: real for field in doubles})
