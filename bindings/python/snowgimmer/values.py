"""From Python's values to the library's: doubles, signed 64-bit integers, row-major tables.

No value is changed. What is no exact double or 64-bit integer is a TypeError or a ValueError that names it.
"""

import ctypes
import operator
from collections.abc import Mapping
from reprlib import repr as shown

SMALLEST, LARGEST = -2**63, 2**63 - 1


def is_bool(value):
    """A bool of Python's or numpy's."""
    return type(value).__name__ in ("bool", "bool_")


def is_number(value):
    return not is_bool(value) and not hasattr(value, "__len__")


def whole(name, value, smallest, largest):
    """An integer inside the limits. A bool or a float is none, not even 2.0."""
    if not is_number(value) or not hasattr(value, "__index__"):
        raise TypeError(f"{name} is {shown(value)}, of type {type(value).__name__}: an integer is expected")
    value = operator.index(value)
    if not smallest <= value <= largest:
        raise ValueError(f"{name} is {shown(value)}: it has to be from {smallest} to {largest}")
    return value


def double(name, value):
    """A double that is exactly the value; infinities and NaN pass, for the library to judge."""
    if type(value) is float:
        return value
    if not is_number(value) or not hasattr(value, "__float__"):
        raise TypeError(f"{name} is {shown(value)}, of type {type(value).__name__}: a real number is expected")
    if hasattr(value, "__index__"):
        # an integer of Python's, which compares with a double exactly; numpy's would be rounded first
        value = operator.index(value)
    try:
        result = float(value)
    except OverflowError:
        raise ValueError(f"{name} is an integer above the largest double") from None
    if result != value and value == value:
        raise ValueError(f"{name} is {shown(value)}, which is no double: give float(..) of it if rounding is meant")
    return result


def members(name, value):
    """The members of a sequence, or of an array of one or two dimensions."""
    refused = isinstance(value, (str, bytes, bytearray, Mapping))
    if refused or not (hasattr(value, "__len__") and hasattr(value, "__getitem__")):
        raise TypeError(f"{name} is of type {type(value).__name__}: a sequence of numbers is expected, as a list")
    try:
        # an array's own list has Python's numbers, whatever its type in memory
        found = value.tolist() if hasattr(value, "tolist") else list(value)
    except NotImplementedError:
        raise TypeError(f"{name} holds what is no number of Python's: give a list of numbers") from None
    if not isinstance(found, list):
        raise TypeError(f"{name} has no dimension: a sequence of numbers is expected, as a list")
    return found


def check_shape(name, value, shapes):
    """An array, as numpy's, has one of these shapes and is not column-major."""
    shape = getattr(value, "shape", None)
    if shape is None:
        return
    if tuple(shape) not in shapes:
        expected = " or ".join(str(each) for each in shapes)
        raise ValueError(f"{name} has the shape {tuple(shape)}: {expected} is expected")
    strides = getattr(value, "strides", None)
    if len(shape) == 2 and shape[0] > 1 and strides is not None and 0 < abs(strides[0]) < abs(strides[1]):
        raise ValueError(f"{name} is column-major (Fortran order), and the library reads rows: if {name}[j, i] is the "
                         f"entry of row j, give numpy.ascontiguousarray({name}); if {name} is transposed, {name}.T")


def doubles(name, value):
    """A sequence as an array of doubles."""
    found = members(name, value)
    check_shape(name, value, [(len(found),)])
    return array(ctypes.c_double, [double(f"{name}[{i}]", each) for i, each in enumerate(found)])


def integer(name, value):
    """A signed 64-bit integer."""
    return whole(name, value, SMALLEST, LARGEST)


def integers(name, value):
    """A sequence as an array of signed 64-bit integers."""
    found = members(name, value)
    check_shape(name, value, [(len(found),)])
    return array(ctypes.c_int64, [integer(f"{name}[{i}]", each) for i, each in enumerate(found)])


def is_row(value):
    return hasattr(value, "__len__") and not isinstance(value, (str, bytes))


def square(name, value, n):
    """A matrix as an array of doubles, row by row: given flat, or as n rows of n."""
    return array(ctypes.c_double, entries(name, value, n, double))


def integer_square(name, value, n):
    """The same of signed 64-bit integers."""
    return array(ctypes.c_int64, entries(name, value, n, integer))


def entries(name, value, n, number):
    """A matrix's numbers, each as `number` makes it, row by row."""
    found = members(name, value)
    if getattr(value, "ndim", 1) == 2 or (found and is_row(found[0])):
        check_shape(name, value, [(n, n)])
        return from_rows(name, found, n, number)
    check_shape(name, value, [(len(found),)])
    return [number(f"{name}[{i}]", each) for i, each in enumerate(found)]


def from_rows(name, rows, n, number):
    """The entries of n rows of n, one row after the other."""
    if len(rows) != n:
        raise ValueError(f"{name} has {len(rows)} rows: {n} are expected, as many as there are weights")
    found = []
    for j, row in enumerate(rows):
        row = members(f"{name}[{j}]", row)
        if len(row) != n:
            raise ValueError(f"{name}[{j}] has {len(row)} entries: {n} are expected, as many as there are weights")
        found += [number(f"{name}[{j}][{i}]", each) for i, each in enumerate(row)]
    return found


def array(kind, found):
    return (kind * len(found))(*found)
