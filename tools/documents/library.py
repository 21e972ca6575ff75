"""The library's calls for the scripts of this folder, through ctypes.

The shared library is made from target/staticlib/libsnowgimmer.a in a temporary folder. Where the archive or the program is
not there yet, it is built first, which proves it and takes some minutes.
"""

import ctypes
import pathlib
import shutil
import subprocess
import sys
import tempfile

REPOSITORY = pathlib.Path(__file__).resolve().parents[2]
ARCHIVE = REPOSITORY / "target" / "staticlib" / "libsnowgimmer.a"
PROGRAM = REPOSITORY / "target" / "bin" / "job"
LARGEST_BUDGET = 2**60
LARGEST_LIST = 4096
VERDICTS = "none", "holds", "fails", "open"  # by their numbers


class Missing(Exception):
    """What can't be run here, and what to do about it."""


class Refused(Exception):
    """A refusal: its number and the three values that the call tells."""

    def __init__(self, number, first, second, real):
        super().__init__(f"refusal {number} ({first}, {second}, {real})")
        self.number, self.first, self.second, self.real = number, first, second, real


def run(command, hint):
    """Runs a command of the build, which must succeed."""
    if shutil.which(command[0]) is None:
        raise Missing(f"{command[0]} is not installed: {hint}")
    done = subprocess.run(command, cwd=REPOSITORY, stdout=subprocess.PIPE, stderr=subprocess.STDOUT, text=True)
    if done.returncode != 0:
        raise Missing(f"{' '.join(map(str, command))} failed:\n{done.stdout.strip()}")


def built(product, name):
    """The path of a product of rt, which is made where it is missing, under its name for tools/build."""
    if not product.exists():
        print(f"building {product.relative_to(REPOSITORY)} (some minutes)", file=sys.stderr)
        if shutil.which("rt") is None:
            raise Missing("rt is not installed: it is the toolchain's command, see README.md")
        run([REPOSITORY / "tools" / "build", name], "it is a command of this repository")
    return product


def archive():
    return built(ARCHIVE, "library")


def program():
    return built(PROGRAM, "job")


def load():
    """The library, loaded."""
    with tempfile.TemporaryDirectory() as folder:
        shared = pathlib.Path(folder) / "libsnowgimmer.so"
        whole = ["-Wl,--whole-archive", archive(), "-Wl,--no-whole-archive"]
        run(["cc", "-shared", *whole, "-o", shared], "it makes the shared library")
        return ctypes.CDLL(str(shared))


LOADED = []


def loaded():
    """The library, loaded once."""
    if not LOADED:
        LOADED.append(load())
    return LOADED[0]


def call(name, *arguments):
    """Calls a function; an array is passed with its length. Answers the three values that it tells."""
    first, second, real = ctypes.c_uint64(), ctypes.c_uint64(), ctypes.c_double()
    passed = []
    for argument in arguments:
        if isinstance(argument, ctypes.Array):
            passed += [argument, ctypes.c_size_t(len(argument))]
        else:
            passed.append(argument)
    function = getattr(loaded(), f"snowgimmer_{name}")
    function.restype = ctypes.c_uint32
    number = function(*passed, ctypes.byref(first), ctypes.byref(second), ctypes.byref(real))
    if number != 0:
        raise Refused(number, first.value, second.value, real.value)
    return first.value, second.value, real.value


def doubles(values):
    return (ctypes.c_double * len(values))(*values)


def integers(values):
    return (ctypes.c_int64 * len(values))(*values)


def nearest_ml(weights, mu, target, budget=LARGEST_BUDGET):
    """The point, its nodes and its distance."""
    out = integers([0] * len(weights))
    nodes, _, d = call("nearest_ml", doubles(weights), doubles(mu), doubles(target), out, ctypes.c_uint64(budget))
    return list(out), nodes, d


def prepared_nearest_ml(weights, mu, transform, inverse, target, budget=LARGEST_BUDGET):
    """The point in the receiver's coordinates, its nodes and its distance before mapping; the matrices are flat."""
    out = integers([0] * len(weights))
    matrices = integers(transform), integers(inverse)
    table = doubles(weights), doubles(mu)
    nodes, _, d = call("prepared_nearest_ml", *table, *matrices, doubles(target), out, ctypes.c_uint64(budget))
    return list(out), nodes, d


def distance(weights, mu, target, point):
    """The computed distance of a point."""
    return call("distance", doubles(weights), doubles(mu), doubles(target), integers(point))[2]


def ratio(distances, radius, p, q):
    """The verdict on a list's distances, by its word."""
    numbers = ctypes.c_double(radius), ctypes.c_uint64(p), ctypes.c_uint64(q)
    return VERDICTS[call("ratio", doubles(distances), *numbers)[0]]


def list_points(weights, mu, target, radius, budget=LARGEST_BUDGET, places=LARGEST_LIST):
    """The points as (distance, point) in the list's order, and the nodes."""
    n = len(weights)
    distances, points = (ctypes.c_double * places)(), (ctypes.c_int64 * (places * n))()
    table = doubles(weights), doubles(mu), doubles(target)
    nodes, count, _ = call("list", *table, distances, points, ctypes.c_double(radius), ctypes.c_uint64(budget))
    return [(distances[k], points[k * n:k * n + n]) for k in range(count)], nodes
