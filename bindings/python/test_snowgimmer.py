"""Tests of the Python module: cases A to L, every refusal that a call can give, and what is refused before a call.

    cd bindings/python && python3 -m unittest

Arrays are numpy's where it is there, and else those of CPython's own buffer tests, where they are.
"""

import array
import copy
import ctypes
import doctest
import math
import os
import pickle
import random
import re
import struct
import subprocess
import sys
import tempfile
import threading
import unittest
from decimal import Decimal
from fractions import Fraction

import snowgimmer
from snowgimmer import (
    BudgetExhausted, BudgetRange, CandidateDistance, CandidateLength, CandidateOutside, ChangedRange, InvalidRadius,
    LengthMismatch, ListFull, MappedRange, MatrixRange, MuNonFinite, MuRange, NameEmpty, NameRange, Names, NoneHeld,
    NonFinite, NotInverse, OutsideRadius, Ratio, ReferenceIndex, SettingRange, SliceRange, SumRange, TableSize,
    TriangleCheck, WeightRange, WidenedRadius, change_reference, list_points, nearest, nearest_ml, nearest_plane,
    nearest_seeded, prepared_nearest_ml, ratio, round_away, round_coefficients, triangular_distance)

HERE = os.path.dirname(os.path.abspath(__file__))

# weights, mu and target
B = [4.0], [0.0], [0.75]
E = [1.0], [0.0], [0.5]
G = [1.0, 1.0], [[0.0, 0.0], [0.5, 0.0]], [0.25, 0.5]
H = [2.0**-51, 4.0], [[0.0, 0.0], [0.0, 0.0]], [0.5, 0.5]

LARGEST = sys.float_info.max


def load_tests(loader, tests, pattern):
    tests.addTests(doctest.DocTestSuite(snowgimmer))
    return tests


class Test(unittest.TestCase):
    def refused(self, kind, values, call, *arguments):
        """The call raises this refusal with these values; gives the refusal."""
        with self.assertRaises(kind) as caught:
            call(*arguments)
        self.assertEqual(caught.exception.values, values)
        self.assertEqual(caught.exception.name, kind.__name__)
        return caught.exception

    def wrong(self, kind, text, call, *arguments):
        """The call raises a plain error whose message has this text."""
        with self.assertRaises(kind) as caught:
            call(*arguments)
        self.assertIs(type(caught.exception), kind)
        self.assertIn(text, str(caught.exception))


class Cases(Test):
    """Cases A to L of docs/SPECIFICATION.md."""

    def test_a_no_dimension(self):
        self.assertEqual(nearest([], [], [], 0, 0), ((), 0, 0.0))
        self.assertEqual(list_points([], [], [], 0, 0), (((0.0, ()),), 0))
        self.assertEqual(nearest_seeded([], [], [], [], 4, 0), ((), 0, 0.0))
        self.assertEqual(nearest_ml([], [], [], 0), ((), 0, 0.0))

    def test_b_to_d_one_weight(self):
        self.assertEqual(nearest(*B, 0.25, 1), ((1,), 1, 0.25))
        self.refused(OutsideRadius, {"radius": 0.125}, nearest, *B, 0.125, 0)
        self.refused(BudgetExhausted, {"nodes": 0, "radius": 0.25}, nearest, *B, 0.25, 0)

    def test_e_and_f_a_half(self):
        self.assertEqual(nearest(*E, 1, 2), ((0,), 2, 0.25))
        self.refused(BudgetExhausted, {"nodes": 1, "radius": 0.25}, nearest, *E, 1, 1)
        self.refused(BudgetExhausted, {"nodes": 1, "radius": 1.0}, list_points, *E, 1, 1)

    def test_g_two_weights(self):
        found = nearest(*G, 2, 100)
        self.assertEqual((found.point, found.nodes, found.distance), ((0, 1), 5, 0.25))
        self.assertEqual(repr(found), "Nearest(point=(0, 1), nodes=5, distance=0.25)")
        listed = list_points(*G, 2, 100)
        self.assertEqual(listed.nodes, 7)
        points = ((0.25, (0, 1)), (0.5, (0, 0)), (0.5, (1, 0)), (1.25, (-1, 1)), (1.25, (1, 1)))
        self.assertEqual(listed.points, points)
        self.assertEqual((listed.points[0].distance, listed.points[0].point), points[0])
        self.assertEqual(nearest_ml(*G, 100), ((0, 1), 3, 0.25))

    def test_h_and_i_equal_distances(self):
        self.refused(OutsideRadius, {"radius": 1.0}, nearest, *H, 1, 2)
        for z in (0, 0), (0, 1), (1, 0), (1, 1):
            self.assertEqual(triangular_distance(*H, z), 1.0)
        radius = 1 + 2.0**-52
        self.assertEqual(nearest(*H, radius, 4), ((0, 1), 4, 1.0))
        listed = list_points(*H, radius, 6)
        self.assertEqual((len(listed.points), listed.nodes), (4, 6))

    def test_h_a_candidate_at_the_radius(self):
        """The candidate is at the radius 1, inside which `nearest` finds nothing. Widened it opens 10 prefixes, of
        which the search, whose radius shrinks, tries 6."""
        self.assertEqual(list_points(*H, 1 + 2.0**-49, 10).nodes, 10)
        for budget in 10, 6, 100:
            self.assertEqual(nearest_seeded(*H, [0, 0], 1, budget), ((0, 1), 6, 1.0))
            self.assertEqual(nearest_ml(*H, budget), ((0, 1), 6, 1.0))
        self.refused(BudgetExhausted, {"nodes": 5, "radius": 1.0}, nearest_seeded, *H, [0, 0], 1, 5)
        self.refused(BudgetExhausted, {"nodes": 5, "radius": 1.0}, nearest_ml, *H, 5)

    def test_j_rounding(self):
        self.assertEqual([round_away(x) for x in (0.5, -0.5, -2.5, 2.0**63)], [1, -1, -3, 2**63 - 1])
        self.assertEqual(round_coefficients((0.5, -0.5, -2.5, 2.0**63)), (1, -1, -3, 2**63 - 1))
        self.assertEqual([round_away(x) for x in (-math.inf, math.nan)], [-2**63, 0])

    def test_k_the_largest_target(self):
        self.assertEqual(nearest([1], [0], [2**52], 0, 1), ((2**52,), 1, 0.0))
        self.refused(NonFinite, {"index": 0}, nearest, [1], [0], [2**52 + 1], 0, 1)

    def test_l_a_candidate(self):
        self.refused(CandidateOutside, {"radius": 2.0}, nearest_seeded, *E, [2], 2, 100)
        self.assertEqual(nearest_seeded(*E, [2], 2.25, 100), ((0,), 4, 0.25))
        self.refused(BudgetRange, {"budget": 2**60 + 1}, nearest_seeded, *E, [2], 2.25, 2**60 + 1)


def bits(x):
    """A double's bits as the job program prints them: 16 hexadecimal digits."""
    return struct.pack(">d", x).hex().upper()


def read_job(name):
    """Weights, mu, target, radius and budget of an example's job, and its p, q and places; 3, 1 and 256 if none."""
    with open(os.path.join(HERE, "../../examples", f"{name}.job"), "rb") as file:
        data = file.read()
    parts, at = [], 0
    for kind in "ddddQQ":
        if at == len(data):
            break
        count = struct.unpack_from("<I", data, at)[0]
        parts.append(struct.unpack_from(f"<{count}{kind}", data, at + 4))
        at += 4 + 8 * count
    weights, entries, target, (radius,), (budget,) = parts[:5]
    settings = parts[5] if len(parts) > 5 else (3, 1, 256)
    n = len(weights)
    mu = [[0.0] * n for _ in range(n)]
    for j in range(n):
        mu[j][:j] = entries[j * (j - 1) // 2:j * (j + 1) // 2]
    return (weights, mu, target, radius, budget), settings


class Examples(Test):
    """The examples' jobs, against what the job program prints of them."""

    def lines(self, job, settings):
        """The program's lines, where no search is refused but by 15, 16 or 18."""
        (p, q, places), points = settings, ()
        try:
            found = nearest(*job)
            yield " ".join(map(str, ("nearest", found.nodes, bits(found.distance), *found.point)))
        except snowgimmer.Refusal as refusal:
            yield f"nearest refused {refusal.number} search"
        try:
            points, nodes = list_points(*job, places)
            yield f"list {nodes} {len(points)}"
        except snowgimmer.Refusal as refusal:
            yield f"list refused {refusal.number} search"
        for each in points:
            yield " ".join(map(str, (bits(each.distance), *each.point)))
        yield f"ratio {ratio([each.distance for each in points], job[3], p, q)}"

    def test_as_printed(self):
        names = [file[:-4] for file in os.listdir(os.path.join(HERE, "../../examples")) if file.endswith(".job")]
        self.assertGreaterEqual(len(names), 5)
        for name in names:
            with self.subTest(name=name):
                with open(os.path.join(HERE, "../../examples", f"{name}.out"), encoding="ascii") as file:
                    printed = file.read()
                self.assertEqual("".join(f"{line}\n" for line in self.lines(*read_job(name))), printed)


class Distances(Test):
    def test_what_is_minimised(self):
        """The formula of the head, in fractions, where no operation rounds; and a search over a box."""
        draw = random.Random(3)
        n = 3
        weights = [draw.randint(1, 8) / 4 for _ in range(n)]
        mu = [[draw.randint(-4, 4) / 8 for _ in range(n)] for _ in range(n)]
        target = [draw.randint(-16, 16) / 8 for _ in range(n)]

        def distance(z):
            gap = [Fraction(target[i]) - z[i] for i in range(n)]
            center = [gap[i] + sum(Fraction(mu[j][i]) * gap[j] for j in range(i + 1, n)) for i in range(n)]
            return sum(Fraction(weights[i]) * center[i]**2 for i in range(n))

        box = [(x, y, z) for x in range(-5, 6) for y in range(-5, 6) for z in range(-5, 6)]
        for z in box[::37]:
            self.assertEqual(triangular_distance(weights, mu, target, z), distance(z))
        found = nearest_ml(weights, mu, target, 10000)
        self.assertEqual(distance(found.point), min(map(distance, box)))

    def told(self, weights, mu, target, radius, candidate):
        """All three searches tell their point's distance, which is the list's first; bit for bit."""
        table = weights, mu, target
        first = list_points(*table, radius, 10000, 4096).points[0].distance
        for found in (nearest(*table, radius, 10000), nearest_seeded(*table, candidate, radius, 10000),
                      nearest_ml(*table, 10000)):
            self.assertEqual(bits(found.distance), bits(triangular_distance(*table, found.point)))
            self.assertEqual(bits(found.distance), bits(first))
            self.assertEqual((found[0], found[1], found[2]), (found.point, found.nodes, found.distance))
        return first

    def test_what_a_search_tells(self):
        self.told(*E, 1, [1])
        self.told(*G, 2, [1, 1])
        draw = random.Random(4)
        for n in list(range(1, 7)) * 20:
            weights = [draw.uniform(0.5, 4.5) for _ in range(n)]
            mu = [draw.uniform(-0.5, 0.5) for _ in range(n * n)]
            target = [draw.uniform(-10, 10) for _ in range(n)]
            plane = nearest_plane(weights, mu, target).point
            self.told(weights, mu, target, 1.5 * triangular_distance(weights, mu, target, plane), plane)

    def test_the_order_of_the_sum(self):
        # the terms are 2^-53, 2^-53 and 1: summed from level 2 down they give 1, from level 0 up 1 + 2^-52
        self.assertEqual(self.told([2.0**-51, 2.0**-51, 4.0], [0.0] * 9, [0.5] * 3, 1 + 2.0**-52, [1, 1, 1]), 1.0)

    def test_the_radius_is_not_told(self):
        self.assertEqual(nearest(*E, 1, 2).distance, 0.25)
        self.assertEqual(nearest_seeded(*E, [2], 2.25, 100).distance, 0.25)
        for radius in 0.0, -0.0:
            found = nearest([1], [0], [1], radius, 1)
            self.assertEqual((found.point, found.nodes, bits(found.distance)), ((1,), 1, "0" * 16))
        for radius in 0.0, -0.0, 4.0:
            self.assertEqual(bits(nearest([], [], [], radius, 0).distance), "0" * 16)
            self.assertEqual(bits(nearest_seeded([], [], [], [], radius, 0).distance), "0" * 16)
        self.assertEqual(bits(nearest_ml([], [], [], 0).distance), "0" * 16)

    def test_plane(self):
        plane = nearest_plane(*G)
        self.assertEqual((plane.point, plane.residual), ((0, 1), (0.25, -0.5)))
        self.assertEqual(G[2], [0.25, 0.5])


def through(point, matrix):
    """A point through a matrix of rows, exactly."""
    return tuple(sum(z * row[column] for z, row in zip(point, matrix)) for column in range(len(point)))


class Prepared(Test):
    """The search in the receiver's coordinates."""

    # case G: the transformed target is 0.25, 0.5, and the nearest vector there is 0, 1
    TABLE, TARGET = ([1, 1], [[0, 0], [0.5, 0]]), [0.75, 2]
    TRANSFORM, INVERSE = [[1, 2], [1, 3]], [[3, -2], [-1, 1]]

    def g(self, transform=TRANSFORM, inverse=INVERSE, target=TARGET, budget=100):
        return prepared_nearest_ml(*self.TABLE, transform, inverse, target, budget)

    def far(self, transform, inverse, target, budget=100):
        """The nearest vector is 2^50, 0 before mapping; the transformed target is 0, 0.25."""
        return prepared_nearest_ml([1, 1], [0, 0, 2**52, 0], transform, inverse, target, budget)

    def test_found(self):
        self.assertEqual(self.g(), ((1, 3), 3, 0.25))
        flat = array.array("q", [1, 2, 1, 3])
        for transform in [1, 2, 1, 3], ((1, 2), (1, 3)), flat, memoryview(flat), (ctypes.c_int64 * 4)(*flat):
            self.assertEqual(self.g(transform, (3, -2, -1, 1)), ((1, 3), 3, 0.25))
        self.assertEqual(prepared_nearest_ml([], [], [], [], [], 0), ((), 0, 0.0))
        self.assertEqual(self.g([[1, 0], [0, 1]], [[1, 0], [0, 1]]), nearest_ml(*self.TABLE, self.TARGET, 100))
        # both transposed, and exchanged with each other, they are inverse to each other
        self.assertEqual(self.g([[1, 1], [2, 3]], [[3, -1], [-2, 1]]), ((0, 1), 2, 0.203125))
        self.assertEqual(self.g(self.INVERSE, self.TRANSFORM), ((2, 1), 5, 0.25))

    def test_matrices(self):
        for length in 0, 3, 5:
            self.refused(MatrixRange, {"index": 0}, self.g, [2**53] * length)
            self.refused(MatrixRange, {"index": 0}, self.g, [1, 2, 1, 3], [2**53] * length)
        for large in 2**52 + 1, -2**52 - 1, 2**63 - 1, -2**63:
            self.refused(MatrixRange, {"index": 0}, self.g, [large, 2, 1, 3])
            self.refused(MatrixRange, {"index": 3}, self.g, [1, 2, 1, large], [large] * 4)
            self.refused(MatrixRange, {"index": 5}, self.g, [1, 2, 1, 3], [3, large, -1, 1])
        # 2^52 itself is taken, and the products are exact
        for most in 2**52, -2**52:
            self.assertEqual(self.g([[1, most], [0, 1]], [[1, -most], [0, 1]], [1, 0]), ((1, 0), 2, 0.0))
        for inverse in [3, -2, -1, 2], [3, -1, -2, 1], [-3, 2, 1, -1], [0] * 4:
            self.refused(NotInverse, {}, self.g, self.TRANSFORM, inverse)
        # the product is 2^64 + 1, not 1
        self.refused(NotInverse, {}, prepared_nearest_ml, [1], [0], [274177], [67280421310721], [0.5], 9)

    def test_targets(self):
        matrices = self.TRANSFORM, self.INVERSE
        for target in [0], [0] * 3:
            self.refused(LengthMismatch, {"expected": 2, "found": len(target)}, self.g, *matrices, target)
        for index, target in (0, [math.nan, 0]), (1, [2**52, math.inf]), (1, [0, 2**52 + 1]):
            self.refused(NonFinite, {"index": index}, self.g, *matrices, target)
        # of the transformed one: 3 times 2^52, and a sum of 2^52 + 1
        self.refused(NonFinite, {"index": 0}, self.g, *matrices, [2**52, 0])
        sums = [[1, -1], [0, 1]], [[1, 1], [0, 1]]
        self.assertEqual(self.g(*sums, [2**52, 0]), ((2**52, 0), 2, 0.0))
        self.refused(NonFinite, {"index": 1}, self.g, *sums, [2**52, 1])

    def test_searches(self):
        matrices = self.TRANSFORM, self.INVERSE
        self.refused(BudgetRange, {"budget": 2**60 + 1}, self.g, *matrices, self.TARGET, 2**60 + 1)
        self.refused(BudgetExhausted, {"nodes": 2, "radius": 0.25}, self.g, *matrices, self.TARGET, 2)
        for n, kind, name in (5, CandidateDistance, "total"), (4, WidenedRadius, "radius"):
            forth = [[int((row + 1) % n == column) for column in range(n)] for row in range(n)]
            table, back = ([LARGEST] * n, [0] * (n * n)), [list(column) for column in zip(*forth)]
            self.refused(kind, {name: math.inf}, prepared_nearest_ml, *table, forth, back, [0.5] * n, 9)

    def test_mapped(self):
        """2^50 by factors at the ends of 64 bits: -2^63 is mapped, 2^63 is not."""
        for k in 1, 2**13 - 1, -2**13:
            self.assertEqual(self.far([1, k, 0, 1], [1, -k, 0, 1], [0, 0.25]), ((2**50, 2**50 * k), 2, 0.0625))
            self.assertEqual(self.far([k, 1, 1, 0], [0, 1, 1, -k], [0.25, 0]), ((2**50 * k, 2**50), 2, 0.0625))
        for k in 2**13, -2**13 - 1, 2**14, 2**52:
            self.refused(MappedRange, {"column": 1}, self.far, [1, k, 0, 1], [1, -k, 0, 1], [0, 0.25])
            self.refused(MappedRange, {"column": 0}, self.far, [k, 1, 1, 0], [0, 1, 1, -k], [0.25, 0])
        # 15 goes before 24
        standing = {"nodes": 1, "radius": 0.0625 + 2.0**-49}
        self.refused(BudgetExhausted, standing, self.far, [1, 2**13, 0, 1], [1, -2**13, 0, 1], [0, 0.25], 1)

    def test_the_order_of_the_checks(self):
        """22 and 23 come behind 5 and before 6."""
        matrices, short, faulty = (self.TRANSFORM, self.INVERSE), [math.nan], [2**53] * 4
        self.refused(WeightRange, {"index": 1}, prepared_nearest_ml, [1, 0], [0] * 4, faulty, faulty, short, 2**61)
        self.refused(MatrixRange, {"index": 0}, self.g, faulty, faulty, short, 2**61)
        self.refused(NotInverse, {}, self.g, self.TRANSFORM, self.TRANSFORM, short, 2**61)
        self.refused(LengthMismatch, {"expected": 2, "found": 1}, self.g, *matrices, short, 2**61)
        self.refused(NonFinite, {"index": 0}, self.g, *matrices, [2**52, 0], 2**61)

    def test_drawn_tables(self):
        """The answer is that of `nearest_ml` from the transformed target, mapped; and it is mapped back."""
        draw = random.Random(6)
        for n in list(range(1, 7)) * 20:
            transform, inverse = ([[int(i == j) for i in range(n)] for j in range(n)] for _ in range(2))
            for _ in range(3 * n if n > 1 else 0):
                to, from_, factor = *draw.sample(range(n), 2), draw.randrange(-2, 3)
                transform[to] = [x + factor * y for x, y in zip(transform[to], transform[from_])]
                for row in inverse:
                    row[from_] -= factor * row[to]
            table = [draw.uniform(0.5, 4.5) for _ in range(n)], [draw.uniform(-0.5, 0.5) for _ in range(n * n)]
            target, transformed = [draw.uniform(-10, 10) for _ in range(n)], [0.0] * n
            for x, row in zip(target, inverse):
                transformed = [total + x * float(factor) for total, factor in zip(transformed, row)]
            reduced = nearest_ml(*table, transformed, 10**6)
            found = prepared_nearest_ml(*table, transform, inverse, target, 10**6)
            self.assertEqual((found.nodes, bits(found.distance)), (reduced.nodes, bits(reduced.distance)))
            self.assertEqual(found.point, through(reduced.point, transform))
            self.assertEqual(through(found.point, inverse), reduced.point)


class Named(Test):
    """With names. 2 nodes of case G at the radius 2 find its point, and 5 end the search."""

    FOUND = (0, 1), 5, 0.25

    def setUp(self):
        self.names = Names()

    def exhausted(self, nodes, radius, call, *arguments):
        """The budget of the call runs out."""
        self.refused(BudgetExhausted, {"nodes": nodes, "radius": radius}, call, *arguments)

    def keep(self, name, budget, names=None):
        """Keeps case G under a name."""
        radius = 2.0 if budget < 2 else 0.25
        self.exhausted(budget, radius, (names or self.names).nearest, name, *G, 2, budget)

    def unchanged(self, kind, values, call, *arguments):
        """The call raises this refusal, and leaves the names as they were."""
        before = self.names.to_bytes()
        self.refused(kind, values, call, *arguments)
        self.assertEqual(self.names.to_bytes(), before)

    def drawn(self, draw, n=12):
        """A table whose weights fall, with a target and a radius: a search of some thousand nodes."""
        weights = [2.0**(9 - 9 * i // (n - 1)) * draw.uniform(1, 2) for i in range(n)]
        return weights, [draw.uniform(-0.5, 0.5) for _ in range(n * n)], [draw.uniform(-10, 10) for _ in range(n)], 80


class Kept(Named):
    """Searches under names."""

    def test_picked_up(self):
        pick_up = self.names.pick_up
        self.keep(3, 2)
        self.assertEqual(self.names.held(), {3: 2})
        self.assertEqual(pick_up(3, 3), self.FOUND)
        self.assertEqual((self.names.held(), self.names.to_bytes()), ({}, bytes(snowgimmer.NAMES_SIZE)))
        self.unchanged(NameEmpty, {}, pick_up, 3, 3)
        self.keep(3, 2)
        self.exhausted(4, 0.25, pick_up, 3, 2)
        self.unchanged(BudgetExhausted, {"nodes": 4, "radius": 0.25}, pick_up, 3, 0)
        found = pick_up(3, budget=1)
        self.assertEqual((found.point, found.nodes, found.distance), self.FOUND)
        # one by one
        self.keep(3, 0)
        for nodes in range(1, 5):
            self.exhausted(nodes, 2.0 if nodes < 2 else 0.25, pick_up, 3, 1)
        self.assertEqual(pick_up(3, 1), self.FOUND)

    def test_nothing_inside_the_radius(self):
        self.exhausted(1, 1.0, self.names.nearest, 8, *H, 1, 1)
        self.refused(OutsideRadius, {"radius": 1.0}, self.names.pick_up, 8, 1)
        self.assertEqual(self.names.to_bytes(), bytes(snowgimmer.NAMES_SIZE))
        self.unchanged(NameEmpty, {}, self.names.pick_up, 8, 1)

    def test_an_older_search(self):
        self.keep(3, 2)
        before = self.names.to_bytes()
        self.assertEqual(self.names.nearest(3, *G, 2, 5), self.FOUND)
        self.assertEqual(self.names.nearest(3, [], [], [], 2, 0), ((), 0, 0.0))
        self.assertEqual(self.names.to_bytes(), before)
        self.unchanged(OutsideRadius, {"radius": 0.125}, self.names.nearest, 3, *G, 0.125, 9)
        self.exhausted(2, 0.25, self.names.pick_up, 3, 0)
        # one that is kept takes its place
        self.keep(3, 4)
        self.exhausted(4, 0.25, self.names.pick_up, 3, 0)
        self.exhausted(1, 1.0, self.names.nearest, 3, *H, 1, 1)
        self.exhausted(1, 1.0, self.names.pick_up, 3, 0)

    def test_names_apart(self):
        for name in range(1, 9):
            self.keep(name, name % 5)
        self.assertEqual(self.names.held(), dict.fromkeys(range(1, 9), 2))
        for name in range(8, 0, -1):
            self.assertEqual(self.names.pick_up(name, 100), self.FOUND)
            self.assertEqual(self.names.held(), dict.fromkeys(range(1, name), 2))

    def test_its_own_copy(self):
        weights, mu, target = array.array("d", G[0]), [list(row) for row in G[1]], array.array("d", G[2])
        self.exhausted(2, 0.25, self.names.nearest, 1, weights, mu, target, 2, 2)
        weights[0], mu[1][0], target[1] = math.nan, math.nan, math.nan
        self.assertEqual(self.names.pick_up(1, 3), self.FOUND)

    def test_no_dimension(self):
        self.assertEqual(self.names.nearest(1, [], [], [], 2, 0), ((), 0, 0.0))
        self.assertEqual(self.names.held(), {})

    def test_names_that_are_none(self):
        self.keep(3, 2)
        for name in 0, 9, 2**32 + 3, 2**64 - 1, 2**64 + 3, -1, -2**70:
            self.unchanged(NameRange, {}, self.names.nearest, name, [1, 0], [0] * 3, [math.nan], -1, 2**61)
            self.unchanged(NameRange, {}, self.names.pick_up, name, 2**64 - 1)
        for name in set(range(1, 9)) - {3}:
            self.unchanged(NameEmpty, {}, self.names.pick_up, name, 2**64 - 1)

    def test_tables(self):
        self.keep(3, 2)
        weights, mu, target = G
        for kind, values, arguments in (
            (TableSize, {"weights": 2}, ([1, 0], [0] * 3, [math.nan], -1, 2**61)),
            (MuNonFinite, {"index": 2}, ([1, 0], [0, 0, math.inf, 0], [math.nan], -1, 2**61)),
            (MuRange, {"index": 2}, ([1, 0], [0, 0, 1e16, 0], [math.nan], -1, 2**61)),
            (WeightRange, {"index": 1}, ([1, 0], mu, [math.nan], -1, 2**61)),
            (LengthMismatch, {"expected": 2, "found": 1}, (weights, mu, [math.nan], -1, 2**61)),
            (NonFinite, {"index": 0}, (weights, mu, [math.nan, 0], -1, 2**61)),
            (InvalidRadius, {"radius": -1.0}, (weights, mu, target, -1, 2**61)),
            (BudgetRange, {"budget": 2**61}, (weights, mu, target, 2, 2**61)),
        ):
            self.unchanged(kind, values, self.names.nearest, 3, *arguments)
        self.assertEqual(self.names.pick_up(3, 3), self.FOUND)

    def test_sums(self):
        self.keep(3, 2)
        for budget in 2**60 - 1, 2**60, 2**64 - 4, 2**64 - 3, 2**64 - 2, 2**64 - 1:
            self.unchanged(SumRange, {"sum": min(2 + budget, 2**64 - 1)}, self.names.pick_up, 3, budget)
        # exactly 2^60
        self.assertEqual(self.names.pick_up(3, 2**60 - 2), self.FOUND)

    def test_slices(self):
        """In slices of the budget a search gives what it gives in one, bit for bit."""
        draw = random.Random(7)
        for budget in 7, 100, 1000:
            search = self.drawn(draw)
            whole = nearest(*search, 10**5)
            self.assertGreater(whole.nodes, 1000)
            spent, call = budget, lambda: self.names.nearest(5, *search, budget)
            while spent < whole.nodes:
                with self.assertRaises(BudgetExhausted) as caught:
                    call()
                self.assertEqual(caught.exception.nodes, spent)
                spent, call = spent + budget, lambda: self.names.pick_up(5, budget)
            found = call()
            self.assertEqual((found.point, found.nodes), (whole.point, whole.nodes))
            self.assertEqual(bits(found.distance), bits(whole.distance))
        self.assertEqual(self.names.held(), {})

    def test_bytes(self):
        self.keep(3, 2)
        self.exhausted(1, 1.0, self.names.nearest, 8, *H, 1, 1)
        stored = self.names.to_bytes()
        self.assertEqual((type(stored), len(stored)), (bytes, snowgimmer.NAMES_SIZE))
        for data in stored, bytearray(stored), memoryview(stored), array.array("Q", stored):
            again = Names.from_bytes(data)
            self.assertEqual((again.held(), again.to_bytes()), ({3: 2, 8: 2}, stored))
            self.assertEqual(again.pick_up(3, 3), self.FOUND)
            self.refused(OutsideRadius, {"radius": 1.0}, again.pick_up, 8, 1)
        for again in copy.copy(self.names), copy.deepcopy(self.names), pickle.loads(pickle.dumps(self.names)):
            self.assertEqual(again.pick_up(3, 3), self.FOUND)
        self.assertEqual(self.names.to_bytes(), stored)
        self.assertEqual(repr(self.names), "<Names held={3: 2, 8: 2}>")
        self.names.clear()
        self.assertEqual((self.names.held(), self.names.to_bytes()), ({}, bytes(snowgimmer.NAMES_SIZE)))

    def run_contents(self, names, name, n):
        """Whatever is in it, a name ends as a search, and tries at most as many nodes as the budget says."""
        self.assertIn(n, range(1, 24))
        with self.assertRaises(BudgetExhausted) as caught:
            names.pick_up(name, 0)
        nodes = caught.exception.nodes
        try:
            self.assertIn(names.pick_up(name, 50).nodes, range(nodes, nodes + 51))
        except BudgetExhausted as refusal:
            self.assertEqual(refusal.nodes, nodes + 50)
        except SumRange as refusal:
            self.assertEqual(refusal.sum, nodes + 50)
        except OutsideRadius:
            pass

    def test_other_contents(self):
        """Contents that the library has not written: bytes of one kind, and searches with elements that are drawn."""
        for byte in 0, 1, 0x7F, 0xFF:
            self.assertEqual(Names.from_bytes(bytes([byte]) * snowgimmer.NAMES_SIZE).held(), {})
        draw, run = random.Random(8), 0
        search = self.drawn(draw)
        for name in range(1, 9):
            with self.assertRaises(BudgetExhausted):
                self.names.nearest(name, *search, 100 * name)
        ends = [0, 1, 2, 11, 12, 22, 23, 24, 2**60, 2**63 - 1, 2**63, 2**64 - 1, 0x7FF8000000000000]
        for _ in range(200):
            elements = array.array("Q", self.names.to_bytes())
            for _ in range(60):
                elements[draw.randrange(len(elements))] = draw.choice(ends)
            names = Names.from_bytes(elements)
            for name, n in names.held().items():
                self.run_contents(names, name, n)
                run += 1
        self.assertGreater(run, 400)

    def test_block_lengths(self):
        """6 of the block comes behind 25 and before 2 and 26, and tells the first slice that is wrong."""
        right, kinds = [5168, 736, 768], [ctypes.c_double, ctypes.c_int64, ctypes.c_uint64]
        table = [snowgimmer._values.doubles("", each) for each in ([1, 1], [0] * 3, [0, 0])]
        lent = snowgimmer._lent([*table, (ctypes.c_int64 * 2)()])
        for wrong, expected in enumerate(right):
            for found in 0, expected - 1, expected + 1:
                lengths = [*right[:wrong], found, *[0] * (2 - wrong)]
                block = [(kind * length)() for kind, length in zip(kinds, lengths)]
                for name, answer in (1, (6, expected, found, 0.0)), (0, (25, 0, 0, 0.0)), (9, (25, 0, 0, 0.0)):
                    self.assertEqual(snowgimmer._answer("nearest_named", block, name, *lent, 2.0, 2), answer)
                    self.assertEqual(snowgimmer._answer("pick_up", block, name, *lent[-2:], 2), answer)

    def test_side_by_side(self):
        """Threads that share the names wait for each other."""
        whole = [(name, self.drawn(random.Random(name))) for name in range(1, 9)]
        found = {}

        def run(name, search):
            try:
                found[name] = self.names.nearest(name, *search, 10)
            except BudgetExhausted:
                while name not in found:
                    try:
                        found[name] = self.names.pick_up(name, 10)
                    except BudgetExhausted:
                        pass

        threads = [threading.Thread(target=run, args=each) for each in whole]
        for each in threads:
            each.start()
        for each in threads:
            each.join()
        self.assertEqual(found, {name: nearest(*search, 10**5) for name, search in whole})
        self.assertEqual(self.names.held(), {})


class Turns(Named):
    """Turns of kept searches."""

    # where the places of the counts and the name last served begin, in elements of a block
    COUNTS, LAST = 5168 + 736, 5168 + 736 + 768

    def hold(self, names, budget):
        for name in names:
            self.keep(name, budget)

    def set(self, kind, place, value):
        """Sets a number of the block by hand."""
        data = bytearray(self.names.to_bytes())
        struct.pack_into(kind, data, 8 * place, value)
        self.names = Names.from_bytes(data)

    def others(self, name):
        """The parts of the other names."""
        data, found = memoryview(self.names.to_bytes()), []
        for begin, size in (0, 646), (5168, 92), (self.COUNTS, 96):
            for each in set(range(1, 9)) - {name}:
                found.append(bytes(data[8 * (begin + (each - 1) * size):8 * (begin + each * size)]))
        return found

    def serve(self, slice, name, outcome):
        """The turn serves this name with n = 2, and leaves the others as they were. The outcome is what it found, or
        the values of its refusal."""
        before = self.others(name)
        turn = self.names.turn(slice)
        self.assertEqual((turn.name, turn.n, self.names.last_served), (name, 2, name))
        self.assertEqual(turn.refusal.values if turn.found is None else turn.found, outcome)
        self.assertTrue(turn.found is None or turn.refusal is None)
        self.assertIs(turn.kept, name in self.names.held())
        self.assertEqual(self.others(name), before)
        return turn

    def exhausts(self, slice, name, nodes, radius=0.25):
        turn = self.serve(slice, name, {"nodes": nodes, "radius": radius})
        self.assertIs(type(turn.refusal), BudgetExhausted)
        return turn

    def test_slice_range(self):
        for held in [], [3]:
            self.hold(held, 2)
            for last in 0, 5, 3:
                self.set("Q", self.LAST, last)
                for slice in 0, 2**20 + 1, 2**32 + 1, 2**64 - 1, 2**64 + 1, -1, -2**70:
                    self.unchanged(SliceRange, {}, self.names.turn, slice)
        self.exhausts(1, 3, 3)
        self.serve(snowgimmer.LARGEST_SLICE, 3, self.FOUND)

    def test_none_held(self):
        for slice in 1, 3, 2**20:
            self.unchanged(NoneHeld, {}, self.names.turn, slice)
        self.assertIsNone(self.names.last_served)
        self.keep(3, 2)
        self.serve(3, 3, self.FOUND)
        self.unchanged(NoneHeld, {}, self.names.turn, 3)
        self.assertEqual(self.names.last_served, 3)

    def test_one_after_the_other(self):
        for held in (1, 2), (2, 5, 8):
            self.names.clear()
            self.hold(held, 0)
            for nodes in 1, 2, 3:
                for name in held:
                    self.exhausts(1, name, nodes, 2.0 if nodes < 2 else 0.25)

    def test_before_the_first(self):
        self.hold(range(1, 9), 2)
        stored = self.names.to_bytes()
        for last, name in (0, 1), (8, 1), (9, 1), (2**32, 1), (2**64 - 1, 1), (1, 2), (4, 5), (7, 8):
            self.names = Names.from_bytes(stored)
            self.set("Q", self.LAST, last)
            self.assertEqual(self.names.last_served, last if last in range(1, 9) else None)
            self.exhausts(1, name, 3)

    def test_last_served(self):
        """A program that looks from 1 on again would serve name 1."""
        self.hold(range(1, 5), 2)
        self.exhausts(1, 1, 3)
        self.serve(3, 2, self.FOUND)
        # emptied by its turn
        self.exhausts(1, 3, 3)
        # emptied by a pickup
        self.assertEqual(self.names.pick_up(3, 2), self.FOUND)
        self.assertEqual(self.names.last_served, 3)
        self.exhausts(1, 4, 3)
        # emptied and filled again
        self.names.clear()
        self.hold([1, 2, 3], 2)
        self.serve(3, 1, self.FOUND)
        self.keep(1, 2)
        self.exhausts(1, 2, 3)
        # replaced
        self.keep(2, 0)
        self.exhausts(1, 3, 3)
        # a pickup is no turn, nor is one that is refused
        self.exhausted(4, 0.25, self.names.pick_up, 1, 2)
        self.unchanged(SliceRange, {}, self.names.turn, 0)
        self.serve(1, 1, self.FOUND)
        self.exhausts(1, 2, 1, 2.0)

    def test_alone(self):
        self.keep(5, 2)
        self.exhausts(1, 5, 3)
        self.exhausts(1, 5, 4)
        self.serve(1, 5, self.FOUND)
        self.assertEqual(self.names.held(), {})

    def test_eight_searches(self):
        """Each needs 3 nodes more, and the eighth ends by turn 8*k, where k slices are 3 nodes or more."""
        self.hold(range(1, 9), 2)
        for name in range(1, 9):
            self.serve(3, name, self.FOUND)
        self.unchanged(NoneHeld, {}, self.names.turn, 3)
        self.hold(range(1, 9), 2)
        for name in range(1, 9):
            self.exhausts(2, name, 4)
        for name in range(1, 9):
            self.serve(2, name, self.FOUND)
        # also if the other names are filled again at once
        self.hold(range(1, 8), 4)
        self.keep(8, 2)
        for outcome in {"nodes": 4, "radius": 0.25}, self.FOUND:
            for name in range(1, 8):
                self.serve(2, name, self.FOUND)
                self.keep(name, 4)
            self.serve(2, 8, outcome)

    def test_outcomes(self):
        self.exhausted(1, 1.0, self.names.nearest, 8, *H, 1, 1)
        turn = self.names.turn(1)
        self.assertEqual((turn.name, turn.n, turn.found, turn.kept), (8, 2, None, False))
        self.assertEqual((type(turn.refusal), turn.refusal.values), (OutsideRadius, {"radius": 1.0}))
        self.assertEqual(self.names.held(), {})
        for n in 1, 2, 22, 23:
            table = [1] * n, [0] * (n * n), [i - 0.25 for i in range(n)], 2
            self.exhausted(0, 2.0, self.names.nearest, 4, *table, 0)
            turn = self.names.turn(slice=2**20)
            self.assertEqual(turn, (4, n, nearest(*table, 2**60), None, False))
            self.assertEqual(turn.found.point, tuple(range(n)))

    def test_the_limit(self):
        """The nodes of name 3 are set by hand, with so many left up to 2^60."""
        for left in range(5):
            for slice in range(1, 6):
                self.names.clear()
                self.hold([3, 4], 2)
                nodes = 2**60 - left
                self.set("Q", self.COUNTS + 2 * 96 + 1, nodes)
                if slice > left:
                    # so that it is seen which radius is told: what is kept is 0.25
                    self.set("d", 2 * 646 + 576, 0.1875)
                    self.assertFalse(self.exhausts(slice, 3, nodes, 0.1875).kept)
                    self.unchanged(NameEmpty, {}, self.names.pick_up, 3, 0)
                elif slice < 3:
                    self.assertTrue(self.exhausts(slice, 3, nodes + slice).kept)
                    self.exhausted(nodes + slice, 0.25, self.names.pick_up, 3, 0)
                else:
                    self.serve(slice, 3, ((0, 1), nodes + 3, 0.25))
                self.serve(3, 4, self.FOUND)

    def test_bytes(self):
        self.hold([2, 6], 0)
        self.exhausts(1, 2, 1, 2.0)
        stored = self.names.to_bytes()
        self.assertEqual(stored[8 * self.LAST:], struct.pack("Q", 2))
        for again in Names.from_bytes(stored), copy.copy(self.names), pickle.loads(pickle.dumps(self.names)):
            self.assertEqual((again.last_served, again.turn(1).name, again.last_served), (2, 6, 6))
        # those of 0.11.0 end before the name last served
        again = Names.from_bytes(stored[:53376])
        self.assertEqual((again.last_served, again.held(), again.turn(1).name), (None, {2: 2, 6: 2}, 2))
        self.names.clear()
        self.assertEqual((self.names.last_served, self.names.to_bytes()), (None, bytes(snowgimmer.NAMES_SIZE)))
        with self.assertRaises(AttributeError):
            self.names.last_served = 3

    def test_lengths(self):
        """28, 6 of the block's slices, 29, 6 of the output; none of them changes anything."""
        right, kinds = [5168, 736, 768], [ctypes.c_double, ctypes.c_int64, ctypes.c_uint64]
        self.keep(3, 2)

        def told(lengths, places, slice):
            block = [(kind * length)() for kind, length in zip(kinds, lengths)]
            for lent, whole in zip(block, self.names._block.slices()):
                ctypes.memmove(lent, whole, min(ctypes.sizeof(lent), ctypes.sizeof(whole)))
            last, name, n = (ctypes.c_uint64(each) for each in (5, 77, 77))
            out = (ctypes.c_int64 * places)(*[7] * places)
            before = [bytes(each) for each in (*block, last, out)]
            answer = snowgimmer._answer("turn", block, ctypes.byref(last), out, places, slice, ctypes.byref(name),
                                        ctypes.byref(n))
            self.assertEqual((name.value, n.value), (0, 0))
            self.assertEqual([bytes(each) for each in (*block, last, out)], before)
            return answer

        for places in 0, 22, 23, 24:
            for wrong, expected in enumerate(right):
                for found in 0, expected - 1, expected + 1:
                    lengths = [*right[:wrong], found, *[0] * (2 - wrong)]
                    self.assertEqual(told(lengths, places, 0), (28, 0, 0, 0.0))
                    self.assertEqual(told(lengths, places, 3), (6, expected, found, 0.0))
            self.assertEqual(told(right, places, 0), (28, 0, 0, 0.0))
            if places != 23:
                self.assertEqual(told(right, places, 3), (6, 23, places, 0.0))
        self.names.clear()
        for places in 0, 22, 23, 24:
            self.assertEqual(told(right, places, 3), (29, 0, 0, 0.0))

    def test_drawn(self):
        """Eight searches served in turns give what each gives in one, and each within 8*k turns."""
        draw, slice = random.Random(9), 100
        searches = {name: self.drawn(draw, draw.randrange(6, 13)) for name in range(1, 9)}
        for name, search in searches.items():
            with self.assertRaises(BudgetExhausted):
                self.names.nearest(name, *search, 0)
        turns = 0
        while self.names.held():
            turn = self.names.turn(slice)
            turns += 1
            if not turn.kept:
                self.assertEqual(turn.found, nearest(*searches[turn.name], 10**6))
                self.assertLessEqual(turns, 8 * -(-turn.found.nodes // slice))
                del searches[turn.name]
        self.assertEqual(searches, {})

    def test_side_by_side(self):
        """Threads that share the names serve them together."""
        draw, found = random.Random(10), {}
        searches = {name: self.drawn(draw) for name in range(1, 9)}
        for name, search in searches.items():
            with self.assertRaises(BudgetExhausted):
                self.names.nearest(name, *search, 0)

        def run():
            try:
                while True:
                    turn = self.names.turn(50)
                    if turn.found:
                        found[turn.name] = turn.found
            except NoneHeld:
                pass

        threads = [threading.Thread(target=run) for _ in range(4)]
        for each in threads:
            each.start()
        for each in threads:
            each.join()
        self.assertEqual(found, {name: nearest(*search, 10**6) for name, search in searches.items()})


class Running(Test):
    """n from 24 to 64, where the centres are kept from node to node."""

    # the running centre of level 0 is off by 3e-6; 0.09 is the computed distance of 0, 2^40, 0, ..
    FIRST = [1] * 24, [0.1 if k == 24 else 0 for k in range(576)], [0.3, 2.0**40] + [0] * 22

    def test_centres_that_are_kept(self):
        self.refused(OutsideRadius, {"radius": 0.09}, nearest, *self.FIRST, 0.09, 1000)
        self.assertEqual(list_points(*self.FIRST, 0.09, 1000), ((), 23))
        found = nearest(*self.FIRST, 0.25, 24)
        self.assertEqual((found.point, found.nodes), ((0, 2**40) + (0,) * 22, 24))
        self.assertEqual(bits(found.distance), "3FB70A5C29000000")
        self.assertEqual(list_points(*self.FIRST, 0.25, 24), (((found.distance, found.point),), 24))
        for call in nearest, list_points:
            self.refused(BudgetExhausted, {"nodes": 23, "radius": 0.25}, call, *self.FIRST, 0.25, 23)
        self.refused(ListFull, {"points": 1}, list_points, *self.FIRST, 0.25, 24, 0)

    def test_the_largest(self):
        rows = [[0.5 if (j, i) == (1, 0) else 0 for i in range(64)] for j in range(64)]
        table, point = ([1] * 64, rows, [2, 3] + [0] * 62), (2, 3) + (0,) * 62
        self.assertEqual(nearest(*table, 0.5, 64), (point, 64, 0.0))
        self.assertEqual(list_points(*table, 0.5, 64), (((0.0, point),), 64))

    def test_long_lists(self):
        """All points whose first coordinates are 0 or 1: up to 94,208 coordinates together with 10, more with 11."""
        for halves in 10, 11:
            weights, target = [1] * halves + [4] * (64 - halves), [0.5] * halves + [0] * (64 - halves)
            table, count = (weights, [0] * 4096, target, 0.25 * halves, 10**5), 2**halves
            digits = [tuple(k >> bit & 1 for bit in reversed(range(halves))) for k in range(count)]
            for places in count, 4096:
                listed = list_points(*table, places).points
                expected = tuple((0.25 * halves, each + (0,) * (64 - halves)) for each in digits)
                self.assertTrue(listed == expected, (halves, places))
            self.refused(ListFull, {"points": count}, list_points, *table, count - 1)

    def test_sizes(self):
        """2 comes with 65 weights, and in every other function with 24."""
        for n in 24, 65:
            table, zero = ([1] * n, [0] * (n * n)), [0] * n
            calls = [(nearest_seeded, *table, zero, zero, 1, 100), (nearest_ml, *table, zero, 100),
                     (prepared_nearest_ml, *table, [0] * (n * n), [0] * (n * n), zero, 100),
                     (Names().nearest, 1, *table, zero, 1, 2),
                     (nearest_plane, *table, zero), (triangular_distance, *table, zero, zero)]
            if n > 64:
                calls += [(nearest, *table, zero, 1, 100), (list_points, *table, zero, 1, 100)]
            for call, *arguments in calls:
                self.refused(TableSize, {"weights": n}, call, *arguments)
        self.assertEqual((snowgimmer.LARGEST_DIMENSION, snowgimmer.LARGEST_SEARCHED), (23, 64))

    def test_a_verdict(self):
        """It compares distances, whatever list they are of."""
        listed = list_points(*self.FIRST, 0.25, 1000)
        self.assertIs(ratio([each.distance for each in listed.points], 0.25), Ratio.OPEN)
        self.assertIs(ratio([], 0.09), Ratio.NONE)


class References(Test):
    def test_taken(self):
        point = [1, 2]
        self.assertEqual(change_reference(point, 0), (-1, 1))
        self.assertEqual(point, [1, 2])
        self.assertEqual(change_reference([0, -1, 2**63 - 1], 2), (1 - 2**63, -2**63, 1 - 2**63))
        self.assertEqual(change_reference(nearest(*G, 2, 100).point, reference=1), (-1, -1))

    def test_one_after_another(self):
        point = tuple(i * i - 1000 for i in range(65))
        for r, s in (0, 64), (64, 0), (2, 30):
            once = change_reference(point, r)
            self.assertEqual((once[r], once[s]), (-point[r], point[s] - point[r]))
            self.assertEqual(change_reference(once, r), point)
            straight = list(change_reference(point, s))
            straight[r], straight[s] = straight[s], straight[r]
            self.assertEqual(change_reference(once, s), tuple(straight))

    def test_refused(self):
        for point, r in ([], 0), ([0, -2**63], 2), ([1, 2], 2**64 - 1):
            self.refused(ReferenceIndex, {}, change_reference, point, r)
        for index, point, r in (0, [0, -2**63], 1), (1, [1, -2**63], 0), (0, [-2**63], 0), (2, [-1, 5, 2**63 - 1], 0):
            before = list(point)
            self.refused(ChangedRange, {"index": index}, change_reference, point, r)
            self.assertEqual(point, before)


class Entries(Test):
    """The check of entries one at a time."""

    def verdict(self, check):
        """The number and the index of a check's refusal, or 0 and None."""
        if check.refusal is None:
            return 0, None
        self.assertIsInstance(check.refusal, (MuNonFinite, MuRange))
        return check.refusal.number, check.refusal.index

    def verdicts(self, *entries):
        """The verdict after each of the entries."""
        found, check = [], TriangleCheck()
        for index, entry in entries:
            check = check.feed(index, entry)
            found.append(self.verdict(check))
        return found

    def test_one_entry(self):
        self.assertIsNone(TriangleCheck().refusal)
        for index in 0, 3, 2**64 - 1:
            for entry in 0.0, -0.0, 0.5, 2.0**52, -2.0**52, 2**52, Fraction(1, 2):
                self.assertEqual(self.verdicts((index, entry)), [(0, None)])
            for entry in 4503599627370497.0, -4503599627370497.0, 2**52 + 1, 2.0**53, LARGEST, -LARGEST:
                self.assertEqual(self.verdicts((index, entry)), [(4, index)])
            for entry in math.inf, -math.inf, math.nan, -math.nan:
                self.assertEqual(self.verdicts((index, entry)), [(3, index)])

    def test_one_after_another(self):
        self.assertEqual(self.verdicts((3, 2.0**53), (6, 0), (7, math.nan)), [(4, 3), (4, 3), (3, 7)])
        self.assertEqual(self.verdicts((12, math.nan), (13, math.inf)), [(3, 12), (3, 12)])
        self.assertEqual(self.verdicts((3, 0.5), (6, -2.0**53), (7, 1e300)), [(0, None), (4, 6), (4, 6)])
        self.assertEqual(self.verdicts((3, math.nan), (6, 1e300), (7, 0)), [(3, 3)] * 3)
        self.assertEqual(self.verdicts((3, 1e300), (6, -math.inf), (7, 1e300)), [(4, 3), (3, 6), (3, 6)])
        self.assertEqual(self.verdicts((2**64 - 1, 1e300), (5, 0)), [(4, 2**64 - 1)] * 2)

    def test_in_another_order(self):
        self.assertEqual(self.verdicts((7, 1e300), (3, 1e300)), [(4, 7), (4, 7)])
        self.assertEqual(self.verdicts((7, math.nan), (3, math.nan)), [(3, 7), (3, 7)])

    def test_a_value(self):
        start = TriangleCheck()
        before = start.feed(3, 1e300)
        after = before.feed(6, math.nan)
        self.assertEqual([self.verdict(check) for check in (start, before, after)], [(0, None), (4, 3), (3, 6)])
        self.assertEqual({start, TriangleCheck(), start.feed(1, 0.5)}, {start})
        self.assertEqual(len({start, before, after, before.feed(6, math.inf)}), 3)
        self.assertNotEqual(after, (3, 6))
        for again in copy.copy(after), pickle.loads(pickle.dumps(after)):
            self.assertEqual(again, after)
        for name in "refusal", "number":
            with self.assertRaises(AttributeError):
                setattr(after, name, None)
        self.wrong(TypeError, "argument", TriangleCheck, 3)
        self.assertEqual(repr(start), "<TriangleCheck refusal=None>")
        self.assertIn("mu[6], counted row by row, is not finite", repr(after))
        self.refused(MuNonFinite, {"index": 6}, self.raised, after)
        self.refused(MuRange, {"index": 3}, self.raised, before)

    def raised(self, check):
        raise check.refusal

    def told(self, mu, n):
        """The verdict of two calls on a table whose other values pass."""
        found = []
        for call in (lambda: nearest([1] * n, mu, [0] * n, 0, 100)), (lambda: nearest_plane([1] * n, mu, [0] * n)):
            try:
                call()
                found.append((0, None))
            except (MuNonFinite, MuRange) as refusal:
                found.append((refusal.number, refusal.index))
        self.assertEqual(found[0], found[1])
        return found[0]

    def test_drawn_tables(self):
        """After each entry the verdict is that on the table whose later entries are 0; some not read are faulty."""
        draw = random.Random(5)
        faults = math.nan, math.inf, -math.inf, 1e300, -1e16, 2.0**52, -2.0**52
        last = []
        for n in list(range(2, 7)) * 40:
            faulty = draw.choice((0.02, 0.1, 0.5))
            mu = [draw.choice(faults) if draw.random() < faulty else draw.uniform(-0.5, 0.5) for _ in range(n * n)]
            below = [j * n + i for j in range(n) for i in range(j)]
            so_far, check = [0.0 if k in below else entry for k, entry in enumerate(mu)], TriangleCheck()
            for index in below:
                so_far[index] = mu[index]
                check = check.feed(index, mu[index])
                self.assertEqual(self.verdict(check), self.told(so_far, n))
            last.append(self.verdict(check)[0])
        for number in 0, 3, 4:
            self.assertGreater(last.count(number), 10)


class Ratios(Test):
    """The verdict on a list."""

    def listed(self, weights, mu, target, radius, places=256):
        """That on a list by 3 and 1; on no distances where it is refused."""
        try:
            points = list_points(weights, mu, target, radius, 100, places).points
        except snowgimmer.Refusal:
            points = ()
        return ratio([each.distance for each in points], radius)

    def test_lists(self):
        self.assertIs(self.listed([], [], [], 0), Ratio.HOLDS)
        verdicts = [self.listed(*B, radius) for radius in (0.125, 0.25, 0.75 - 2.0**-53, 0.75)]
        self.assertEqual(verdicts, [Ratio.NONE, Ratio.OPEN, Ratio.OPEN, Ratio.HOLDS])
        self.assertEqual([self.listed([1], [0], [0.4375], r) for r in (0.25, 1)], [Ratio.OPEN, Ratio.FAILS])
        self.assertEqual([self.listed(*E, 1, places) for places in (2, 1)], [Ratio.FAILS, Ratio.NONE])
        self.assertEqual([self.listed([1], [0], [0], radius) for radius in (0.0, -0.0)], [Ratio.HOLDS] * 2)
        self.assertIs(self.listed([5e-324], [0], [0.5], 0), Ratio.HOLDS)
        # 3·d1 overflows
        verdicts = [self.listed([LARGEST] * 3, [0] * 9, [0.4375] * 3, r) for r in (5 * 2.0**1021, 3 * 2.0**1022)]
        self.assertEqual(verdicts, [Ratio.OPEN, Ratio.FAILS])

    def test_factors(self):
        """Every p and q at the ends of their range: the index of 21, or a verdict."""
        ends = 0, 1, 2, 999, 1000, 1001, 2000, 2**32 + 1, 2**63 + 3, 2**64 - 1
        for p, q in ((p, q) for p in ends for q in ends):
            with self.subTest(p=p, q=q):
                if not 1 <= p <= 1000 or p < q:
                    self.refused(SettingRange, {"index": 0}, ratio, [1, 3], 9, p, q)
                elif q == 0:
                    self.refused(SettingRange, {"index": 1}, ratio, [math.nan], 9, p, q)
                else:
                    self.assertIs(ratio([1, 1000], 9, p, q), Ratio.HOLDS)
        self.assertEqual([ratio([0.25, 0.5], 2, p, q) for p, q in ((1000, 499), (1000, 500), (1, 1))],
                         [Ratio.FAILS, Ratio.HOLDS, Ratio.HOLDS])
        self.assertEqual([ratio([1, 3], 9), ratio([1, 3], 9, 4), ratio([1, 3], 9, q=2)],
                         [Ratio.HOLDS, Ratio.FAILS, Ratio.HOLDS])

    def met(self, d1, other, p, q):
        """Whether the test is met, of doubles by their bits: as the second distance, and as a lone point's radius."""
        d1, other = (struct.unpack(">d", bytes.fromhex(each))[0] for each in (d1, other))
        two, lone = ratio([d1, other], LARGEST, p, q), ratio([d1], other, p, q)
        self.assertIn((two, lone), ((Ratio.HOLDS, Ratio.HOLDS), (Ratio.FAILS, Ratio.OPEN)))
        # a weight of 16·d1 has its nearest point at d1 from 0.25, and the next one at 9·d1
        listed = list_points([16 * d1], [0], [0.25], other, 9).points
        self.assertEqual([each.distance for each in listed], [d1])
        return two is Ratio.HOLDS

    def test_roundings(self):
        """Each product is rounded once, and nothing is divided."""
        # 3·d1 is above the other one, and rounds to it
        self.assertTrue(self.met("3FF0000000000003", "4008000000000004", 3, 1))
        self.assertFalse(self.met("3FF0000000000003", "4008000000000003", 3, 1))
        # a third of the other one rounds to d1, and its quotient by d1 to 3
        self.assertFalse(self.met("3FF0000000000001", "4008000000000001", 3, 1))
        # (p/q)·d1 is above the other one; p·d1/q is not; the other one's quotient by d1 is below p/q
        self.assertTrue(self.met("3FFAEEB0F8A83510", "4006719379E1818D", 5, 3))
        self.assertFalse(self.met("3FF4B430798D66C4", "400140D30FF5D5A3", 5, 3))
        self.assertTrue(self.met("3FF57FC9618F0ECE", "40001FD7092B4B1A", 3, 2))

    def test_infinite_products(self):
        """p·d1 must not overflow; the other product may."""
        # 3 times it is halfway between the largest double and 2^1024, and rounds to infinity
        third = LARGEST / 3
        below = third - 2.0**970
        self.assertEqual([ratio([below, LARGEST], 0, 3, q) for q in (1, 3)], [Ratio.HOLDS] * 2)
        self.assertEqual([ratio([third, LARGEST], 0, 3, q) for q in (1, 3)], [Ratio.FAILS] * 2)
        self.assertEqual([ratio([d1], LARGEST, 3, 3) for d1 in (below, third)], [Ratio.HOLDS, Ratio.OPEN])
        distances = [each.distance for each in list_points([LARGEST], [0], [0.5], LARGEST, 100).points]
        self.assertEqual(distances, [LARGEST / 4] * 2)
        self.assertEqual([ratio(distances, LARGEST, p, p) for p in (4, 5)], [Ratio.HOLDS, Ratio.FAILS])

    def test_no_list_has_them(self):
        """Any doubles are taken, and only the first two distances are read."""
        nan, inf = math.nan, math.inf
        for radius in nan, -1, 0, inf:
            self.assertIs(ratio([], radius), Ratio.NONE)
            for d1 in nan, inf, -inf:
                self.assertIs(ratio([d1], radius), Ratio.OPEN)
                self.assertEqual([ratio([d1, d2], radius) for d2 in (nan, d1, 0, inf)], [Ratio.FAILS] * 4)
            for d1 in 0, 1, -1:
                verdicts = [ratio([d1, d2], radius) for d2 in (nan, -inf, inf)]
                self.assertEqual(verdicts, [Ratio.FAILS, Ratio.FAILS, Ratio.HOLDS])
        self.assertEqual([ratio([0], radius) for radius in (nan, -1, inf)], [Ratio.OPEN, Ratio.OPEN, Ratio.HOLDS])
        self.assertEqual([ratio([3, 1], 9, 1), ratio([-1, -3], 9)], [Ratio.FAILS, Ratio.HOLDS])
        self.assertIs(ratio([1, 3, 0, nan], nan), Ratio.HOLDS)
        self.assertIs(ratio(range(1, 5001), 9), Ratio.FAILS)

    def test_words(self):
        self.assertEqual([str(each) for each in Ratio], ["none", "holds", "fails", "open"])
        self.assertEqual(f"{ratio([1, 3], 9)} {ratio([1, 2], 9)}", "holds fails")
        self.assertEqual([Ratio(word).name for word in ("none", "open")], ["NONE", "OPEN"])
        for again in copy.copy(Ratio.OPEN), pickle.loads(pickle.dumps(Ratio.OPEN)):
            self.assertIs(again, Ratio.OPEN)


class Refusals(Test):
    def test_tables(self):
        self.refused(TableSize, {"weights": 65}, nearest, [1] * 65, [0] * 4225, [0] * 65, 1, 9)
        self.refused(TableSize, {"weights": 24}, nearest, [1] * 24, [0] * 575, [0] * 24, 1, 9)
        self.refused(TableSize, {"weights": 2}, nearest, [1, 1], [0] * 3, [0, 0], 1, 9)
        self.refused(MuNonFinite, {"index": 2}, nearest, [1, 1], [0, 0, math.nan, 0], [0, 0], 1, 9)
        self.refused(MuRange, {"index": 2}, nearest, [1, 1], [[0, 0], [-1e16, 0]], [0, 0], 1, 9)
        self.refused(WeightRange, {"index": 1}, nearest, [1, -0.0], [0] * 4, [0, 0], 1, 9)
        self.assertEqual(nearest([1, 1], [math.nan, math.inf, 0, 1e300], [0, 0], 1, 9).point, (0, 0))

    def test_calls(self):
        self.refused(LengthMismatch, {"expected": 1, "found": 0}, nearest, [1], [0], [], 1, 9)
        self.refused(LengthMismatch, {"expected": 1, "found": 2}, triangular_distance, *E, [0, 0])
        self.refused(NonFinite, {"index": 0}, nearest, [1], [0], [math.inf], 1, 9)
        self.refused(NonFinite, {"index": 1}, round_coefficients, [0.5, math.nan])
        self.refused(InvalidRadius, {"radius": -1.0}, nearest, *E, -1, 9)
        self.refused(BudgetRange, {"budget": 2**64 - 1}, nearest_ml, *E, 2**64 - 1)
        self.refused(CandidateLength, {"expected": 1, "found": 2}, nearest_seeded, *E, [0, 0], 1, 9)
        self.refused(CandidateDistance, {"total": math.inf}, nearest_seeded, [LARGEST], [0], [0.5], [2**40], 1, 9)
        self.refused(WidenedRadius, {"radius": math.inf}, nearest_seeded, *E, [0], LARGEST, 9)
        self.refused(ListFull, {"points": 5}, list_points, *G, 2, 100, 4)
        self.refused(ListFull, {"points": 1}, list_points, [], [], [], 0, 0, 0)

    def radius_refused(self, kind, radius, call, *arguments, **others):
        """The call raises this refusal with this radius, bit for bit, since -0.0 == 0.0, and these other values."""
        with self.subTest(call=call.__name__, kind=kind.__name__):
            refusal = self.refused(kind, {**others, "radius": radius}, call, *arguments)
            self.assertEqual(bits(refusal.radius), bits(radius))

    def test_a_radius_of_minus_zero(self):
        """It counts as 0 and comes back from no refusal. -2^-1074, the largest double below 0, is refused as it is."""
        one, below = ([1], [0], [1]), -5e-324
        self.radius_refused(OutsideRadius, 0.0, nearest, *E, -0.0, 9)
        self.radius_refused(BudgetExhausted, 0.0, nearest, *one, -0.0, 0, nodes=0)
        self.radius_refused(BudgetExhausted, 0.0, list_points, *one, -0.0, 0, nodes=0)
        self.radius_refused(CandidateOutside, 0.0, nearest_seeded, *E, [0], -0.0, 9)
        self.radius_refused(InvalidRadius, below, nearest, *one, below, 9)
        self.radius_refused(InvalidRadius, below, nearest_seeded, *one, [1], below, 9)
        self.radius_refused(InvalidRadius, below, list_points, *one, below, 9)

    def test_one_class_a_number(self):
        kinds = snowgimmer.Refusal.__subclasses__()
        self.assertEqual(sorted(kind.number for kind in kinds), [*range(2, 17), *range(18, 30)])
        for kind in kinds:
            self.assertIs(getattr(snowgimmer, kind.__name__), kind)
            self.assertIn(kind.__name__, snowgimmer.__all__)

    def test_17_is_free(self):
        self.assertNotIn(17, snowgimmer.refusals.BY_NUMBER)

    def test_names_of_the_header(self):
        with open(os.path.join(HERE, "../../include/snowgimmer.h"), encoding="utf-8") as file:
            header = file.read()
        names = dict(re.findall(r'case (SNOWGIMMER_[A-Z_]+): return "(\w+)"', header))

        def named(enum):
            """The name of each number of an enum of the header."""
            body = re.search(rf"enum {enum} {{(.*?)}}", header, re.S).group(1)
            return {int(number): names[key] for key, number in re.findall(r"(SNOWGIMMER_[A-Z_]+) = ([0-9]+)", body)}

        kinds = {kind.number: kind.__name__ for kind in snowgimmer.Refusal.__subclasses__()}
        self.assertEqual(named("snowgimmer_refusal"), {0: "Success", **kinds})
        self.assertEqual(named("snowgimmer_verdict"), {k: str(each) for k, each in enumerate(snowgimmer._VERDICTS)})
        self.assertIn(f'SNOWGIMMER_VERSION "{snowgimmer.__version__}"', header)
        for name in ("LARGEST_DIMENSION", "LARGEST_SEARCHED", "LARGEST_LIST", "LARGEST_FACTOR", "LARGEST_SLICE",
                     "NAMES", "NAMES_SIZE"):
            self.assertIn(f"SNOWGIMMER_{name} {getattr(snowgimmer, name)}\n", header)
        *slices, (last, _) = snowgimmer._Block._fields_
        for name, kind in slices:
            self.assertIn(f"SNOWGIMMER_NAMES_{name.upper()} {kind._length_}\n", header)
        self.assertIn(f"    uint64_t {last};", header)
        self.assertEqual(ctypes.sizeof(snowgimmer._Block), snowgimmer.NAMES_SIZE)

    def test_messages(self):
        with self.assertRaises(snowgimmer.Refusal) as caught:
            nearest(*G, 2, 4)
        refusal = caught.exception
        self.assertEqual((refusal.number, refusal.nodes, refusal.radius), (15, 4, 0.25))
        self.assertEqual(str(refusal), "refused 15, BudgetExhausted: the budget ran out after 4 nodes, with the radius "
                                       "at 0.25: a larger budget may do; a search under a name is kept, and pick_up "
                                       "or turn goes on with it")
        self.assertEqual(str(BudgetExhausted(nodes=2**60, radius=0.25)),
                         "refused 15, BudgetExhausted: the budget ran out after 1152921504606846976 nodes, with the "
                         "radius at 0.25: a search may try 2^60 at most; a smaller radius or a reduced table may do")
        self.assertEqual(str(TableSize(weights=65)), "refused 2, TableSize: the table has 65 weights: nearest and "
                                                     "list_points take at most 64, every other function at most 23")
        self.assertEqual(str(TableSize(weights=24)), "refused 2, TableSize: the table has 24 weights: nearest and "
                                                     "list_points alone take more than 23, and need 576 entries of mu "
                                                     "for them")
        self.assertIn("the 4 entries that 2 weights need", str(TableSize(weights=2)))
        self.assertEqual(str(ReferenceIndex()), "refused 19, ReferenceIndex: the new reference satellite's index is "
                                                "not below the point's length: give that of a coordinate")
        self.assertEqual(str(ChangedRange(index=1)), "refused 20, ChangedRange: coordinate 1 against the new reference "
                                                     "satellite is no 64-bit integer: another satellite may do")
        self.assertEqual(str(SettingRange(index=0)), "refused 21, SettingRange: p is not from 1 to 1000, or it is "
                                                     "below q: give p and q from 1 to 1000, p at least q")
        self.assertEqual(str(SettingRange(index=1)), "refused 21, SettingRange: q is not from 1 to 1000: give one from "
                                                     "1 to p")
        self.assertEqual(str(MatrixRange(index=0)), "refused 22, MatrixRange: transform or inverse is not n·n long, or "
                                                    "transform[0] is above 2^52 in magnitude: give n·n elements of "
                                                    "each, row by row, up to 2^52")
        self.assertEqual(str(MatrixRange(index=5)), "refused 22, MatrixRange: element 5 of transform and inverse, "
                                                    "counted on from the one to the other, is above 2^52 in magnitude: "
                                                    "correct it where it is made")
        self.assertEqual(str(NotInverse()), "refused 23, NotInverse: transform and inverse are not inverse to each "
                                            "other: give a matrix of determinant 1 or -1 and its inverse, both row by "
                                            "row")
        self.assertEqual(str(MappedRange(column=1)), "refused 24, MappedRange: coordinate 1 of the mapped point is no "
                                                     "64-bit integer: see that the table is reduced, and that "
                                                     "transform and inverse are its own")
        self.assertEqual(str(NameRange()), "refused 25, NameRange: the name is not from 1 to 8: give one of these")
        self.assertEqual(str(NameEmpty()), "refused 26, NameEmpty: the name holds no search, or its search has ended: "
                                           "Names.nearest keeps one there if its budget runs out")
        self.assertEqual(str(SumRange(sum=2**60 + 1)), "refused 27, SumRange: the budgets of the search sum up to "
                                                       "1152921504606846977, above 2^60: give a smaller one")
        self.assertEqual(str(SumRange(sum=2**64 - 1)), "refused 27, SumRange: the budgets of the search sum up to "
                                                       "2^64-1 or more, above 2^60: give a smaller one")
        self.assertEqual(str(SliceRange()), "refused 28, SliceRange: the slice is not from 1 to 2^20 nodes: give one "
                                            "of these")
        self.assertEqual(str(NoneHeld()), "refused 29, NoneHeld: no name holds a search, so there is none to serve: "
                                          "Names.nearest keeps one if its budget runs out")
        self.assertIn("number 1 of the target or coefficients, given or transformed,", str(NonFinite(index=1)))
        for again in copy.copy(refusal), pickle.loads(pickle.dumps(refusal)):
            self.assertEqual((type(again), str(again), again.values), (BudgetExhausted, str(refusal), refusal.values))


class Plain(Test):
    """What ctypes would bend without a word."""

    def test_integers(self):
        self.wrong(ValueError, "candidate[0] is 9223372036854775808", nearest_seeded, *E, [2**63], 1, 9)
        self.wrong(ValueError, "candidate[0]", nearest_seeded, *E, [-2**63 - 1], 1, 9)
        self.wrong(TypeError, "candidate[0] is 0.5, of type float", nearest_seeded, *E, [0.5], 1, 9)
        self.wrong(TypeError, "an integer is expected", nearest_seeded, *E, [2.0], 1, 9)
        self.wrong(TypeError, "of type bool", triangular_distance, *E, [True])
        self.wrong(TypeError, "of type str", triangular_distance, *E, ["1"])
        self.assertEqual(triangular_distance([1], [0], [0.0], [-2**63]), 2.0**126)

    def test_budgets_and_places(self):
        self.wrong(ValueError, "budget is -1", nearest, *E, 1, -1)
        self.wrong(ValueError, "budget is 18446744073709551616", nearest, *E, 1, 2**64)
        for budget in 9.0, True, "9", None, [9]:
            self.wrong(TypeError, "budget is", nearest, *E, 1, budget)
        for places in -1, 4097, 10**30:
            self.wrong(ValueError, f"places is {places}"[:20], list_points, *E, 1, 9, places)
        self.wrong(TypeError, "places is", list_points, *E, 1, 9, 2.5)

    def test_references(self):
        for reference in -1, 2**64:
            self.wrong(ValueError, f"reference is {reference}", change_reference, [1, 2], reference)
        for reference in 0.0, True, "0", None, [0]:
            self.wrong(TypeError, "reference is", change_reference, [1, 2], reference)
        self.wrong(ValueError, "point[1] is 9223372036854775808", change_reference, [0, 2**63], 0)
        self.wrong(TypeError, "point[0] is 1.0, of type float", change_reference, [1.0, 2], 0)
        self.wrong(TypeError, "point is of type str", change_reference, "12", 0)

    def test_matrices(self):
        for name in "transform", "inverse":
            for kind, text, matrix in (
                (ValueError, f"{name} has 1 rows: 2 are expected", [[1, 0, 0, 1]]),
                (ValueError, f"{name}[1] has 3 entries: 2 are expected", [[1, 0], [0, 1, 0]]),
                (ValueError, f"{name}[1][0] is 9223372036854775808", [[1, 0], [2**63, 1]]),
                (ValueError, f"{name}[3] is -9223372036854775809", [1, 0, 0, -2**63 - 1]),
                (TypeError, f"{name}[0][0] is 1.0, of type float: an integer is expected", [[1.0, 0], [0, 1]]),
                (TypeError, f"{name}[3] is True", [1, 0, 0, True]),
                (TypeError, f"{name} is of type str", "1001"),
            ):
                matrices = {"transform": [1, 0, 0, 1], "inverse": [1, 0, 0, 1], name: matrix}
                self.wrong(kind, text, lambda: prepared_nearest_ml([1, 1], [0] * 4, **matrices, target=[0, 0], budget=9))

    def test_names(self):
        names = Names()
        for name in 3.0, True, "3", None, [3]:
            self.wrong(TypeError, "name is", names.nearest, name, *G, 2, 2)
            self.wrong(TypeError, "name is", names.pick_up, name, 2)
        for budget in -1, 2**64:
            self.wrong(ValueError, f"budget is {budget}", names.nearest, 3, *G, 2, budget)
            self.wrong(ValueError, f"budget is {budget}", names.pick_up, 3, budget)
        for budget in 9.0, True, "9", None, [9]:
            self.wrong(TypeError, "budget is", names.pick_up, 3, budget)
        self.wrong(TypeError, "radius is", names.nearest, 3, *G, None, 2)
        self.wrong(ValueError, "mu has 1 rows: 2 are expected", names.nearest, 3, [1, 1], [[0] * 4], [0, 0], 2, 2)
        for slice in 9.0, True, "9", None, [9]:
            self.wrong(TypeError, "slice is", names.turn, slice)
        for data in b"", bytes(53375), bytearray(53377), bytes(53383), bytearray(53385):
            self.wrong(ValueError, f"data has {len(data)} bytes: 53384 are expected", Names.from_bytes, data)
        for data in 53384, "", None, [0] * 53384:
            self.wrong(TypeError, "bytes are expected", Names.from_bytes, data)
        self.wrong(TypeError, "argument", Names, 3)
        with self.assertRaises(AttributeError):
            names.name = 3
        self.assertEqual(names.held(), {})

    def test_ratios(self):
        for name in "p", "q":
            for factor in -1, 2**64:
                self.wrong(ValueError, f"{name} is {factor}", lambda: ratio([1, 3], 9, **{name: factor}))
            for factor in 3.0, True, "3", None, [3]:
                self.wrong(TypeError, f"{name} is", lambda: ratio([1, 3], 9, **{name: factor}))
        for radius in "9", None, True, [9]:
            self.wrong(TypeError, "radius is", ratio, [1, 3], radius)
        self.wrong(ValueError, "radius is 9007199254740993", ratio, [1, 3], 2**53 + 1)
        self.wrong(TypeError, "distances is of type float", ratio, 1.0, 9)
        self.wrong(TypeError, "distances[0] is ListedPoint", ratio, list_points(*E, 1, 9).points, 1)
        self.wrong(ValueError, "distances[1] is Decimal('0.1')", ratio, [0, Decimal("0.1")], 9)

    def test_entries(self):
        check = TriangleCheck()
        for index in -1, 2**64:
            self.wrong(ValueError, f"index is {index}", check.feed, index, 0.5)
        for index in 3.0, True, "3", None, [3]:
            self.wrong(TypeError, "index is", check.feed, index, 0.5)
        for entry in "0.5", None, True, [0.5]:
            self.wrong(TypeError, "entry is", check.feed, 3, entry)
        self.wrong(ValueError, "entry is 9007199254740993", check.feed, 3, 2**53 + 1)
        self.wrong(ValueError, "entry is Decimal('0.1')", check.feed, 3, Decimal("0.1"))
        self.wrong(ValueError, "above the largest double", check.feed, 3, 10**400)
        self.assertEqual(check, TriangleCheck())

    def test_doubles(self):
        for radius in "1", None, 1j, True, [1.0]:
            self.wrong(TypeError, "radius is", nearest, *E, radius, 9)
        self.wrong(ValueError, "target[0] is 9007199254740993", nearest, [1], [0], [2**53 + 1], 1, 9)
        self.wrong(ValueError, "above the largest double", nearest, *E, 10**400, 9)
        self.wrong(ValueError, "weights[0] is Decimal('0.1')", nearest, [Decimal("0.1")], [0], [0], 1, 9)
        self.wrong(TypeError, "weights[0] is True", nearest, [True], [0], [0], 1, 9)
        self.wrong(TypeError, "mu[0] is 'a'", nearest, [1], "a".split(), [0], 1, 9)
        self.assertEqual(nearest([Decimal("0.5")], [0], [Fraction(1, 2)], 1, 9).point, (0,))

    def test_an_integer_that_compares_as_a_double(self):
        class Integer(int):
            """Equal to the doubles near it, as numpy's are."""
            def __eq__(self, other):
                return float(self) == float(other)

            def __ne__(self, other):
                return float(self) != float(other)

        self.assertEqual(Integer(2**53 + 1), 2.0**53)
        self.wrong(ValueError, "target[0] is 9007199254740993", nearest, [1], [0], [Integer(2**53 + 1)], 1, 9)

    def test_no_sequences(self):
        for value in "12", b"12", {0: 1.0}, {1.0}, 1.0, None, iter([1.0]):
            self.wrong(TypeError, "weights is of type", nearest, value, [0], [0], 1, 9)

    def test_rows(self):
        self.wrong(ValueError, "mu has 1 rows: 2 are expected", nearest, [1, 1], [[0, 0, 0.5, 0]], [0, 0], 1, 9)
        self.wrong(ValueError, "mu has 4 rows: 2 are expected", nearest, [1, 1], [[0], [0], [0.5], [0]], [0, 0], 1, 9)
        self.wrong(ValueError, "mu[1] has 1 entries", nearest, [1, 1], [[0, 0], [0.5]], [0, 0], 1, 9)
        self.wrong(TypeError, "mu[1]", nearest, [1, 1], [[0, 0], 0.5], [0, 0], 1, 9)
        self.wrong(TypeError, "mu[1]", nearest, [1, 1], [0, [0, 0.5]], [0, 0], 1, 9)

    def test_sequences(self):
        flat = [0.0, 0.0, 0.5, 0.0]
        numbers = array.array("d", flat)
        for mu in flat, tuple(flat), numbers, memoryview(numbers), (ctypes.c_double * 4)(*flat):
            self.assertEqual(nearest(array.array("d", G[0]), mu, tuple(G[2]), 2, 100), ((0, 1), 5, 0.25))
        self.assertEqual(nearest_seeded(*E, array.array("q", [2]), 2.25, 100).point, (0,))
        integers = array.array("q", [1, 2])
        for point in (1, 2), range(1, 3), integers, memoryview(integers), (ctypes.c_int32 * 2)(1, 2):
            self.assertEqual(change_reference(point, 0), (-1, 1))
            self.assertEqual(list(point), [1, 2])
        self.assertEqual(nearest(array.array("f", [1]), array.array("i", [0]), range(1), 2, 100).point, (0,))


def numpy_or_stand_in():
    """A maker of arrays of a shape, in an order, of doubles or of integers, "q"; None if there is neither."""
    try:
        import numpy
        return lambda flat, shape, order="C", kind="d": numpy.array(flat, dtype=kind).reshape(shape, order=order)
    except ImportError:
        pass
    try:
        import _testbuffer
    except ImportError:
        return None
    flags = {"C": 0, "F": _testbuffer.ND_FORTRAN}
    return lambda flat, shape, order="C", kind="d": memoryview(
        _testbuffer.ndarray(flat, shape=list(shape), format=kind, flags=flags[order]))


ARRAY = numpy_or_stand_in()


@unittest.skipIf(ARRAY is None, "neither numpy nor CPython's _testbuffer is there")
class Arrays(Test):
    def test_taken(self):
        weights, target = ARRAY([1.0, 1.0], (2,)), ARRAY([0.25, 0.5], (2,))
        for mu in ARRAY([0.0, 0.0, 0.5, 0.0], (2, 2)), ARRAY([0.0, 0.0, 0.5, 0.0], (4,)):
            self.assertEqual(nearest(weights, mu, target, 2, 100), ((0, 1), 5, 0.25))
        self.assertEqual(nearest(ARRAY([1.0], (1,)), ARRAY([0.0], (1, 1), "F"), [0.5], 1, 2), ((0,), 2, 0.25))

    def test_column_major(self):
        mu = ARRAY([0.0, 0.0, 0.5, 0.0], (2, 2), "F")
        self.wrong(ValueError, "column-major", nearest, [1, 1], mu, [0.25, 0.5], 2, 100)

    def test_shapes(self):
        for shape in (1, 4), (4, 1), (2, 2, 1):
            mu = ARRAY([0.0, 0.0, 0.5, 0.0], shape)
            self.wrong(ValueError, f"mu has the shape {shape}: (2, 2)", nearest, [1, 1], mu, [0.25, 0.5], 2, 100)
        weights = ARRAY([1.0, 1.0], (2, 1))
        self.wrong(ValueError, "weights has the shape (2, 1)", nearest, weights, [0] * 4, [0, 0], 2, 100)

    def test_no_doubles(self):
        with self.assertRaises(TypeError):
            nearest_seeded(*E, ARRAY([2.0], (1,)), 2.25, 100)

    def test_matrices(self):
        def search(transform, inverse):
            return prepared_nearest_ml([1, 1], [0, 0, 0.5, 0], transform, inverse, [0.75, 2], 100)

        transform, inverse = [1, 2, 1, 3], [3, -2, -1, 1]
        for shape in (2, 2), (4,):
            matrices = ARRAY(transform, shape, kind="q"), ARRAY(inverse, shape, kind="q")
            self.assertEqual(search(*matrices), ((1, 3), 3, 0.25))
        self.wrong(ValueError, "transform is column-major", search, ARRAY(transform, (2, 2), "F", "q"), inverse)
        self.wrong(ValueError, "inverse is column-major", search, transform, ARRAY(inverse, (2, 2), "F", "q"))
        self.wrong(ValueError, "inverse has the shape (1, 4): (2, 2)", search, transform, ARRAY(inverse, (1, 4), kind="q"))
        self.wrong(TypeError, "an integer is expected", search, ARRAY([1.0, 2.0, 1.0, 3.0], (2, 2)), inverse)


@unittest.skipUnless("numpy" in sys.modules, "numpy is not there")
class Numpy(Test):
    def test_types(self):
        import numpy
        table = numpy.ones(2, "f"), numpy.zeros((2, 2), ">f8"), numpy.zeros(2, "i")
        self.assertEqual(nearest(*table, 1, 9).point, (0, 0))
        self.assertEqual(nearest_seeded(*E, numpy.array([2]), numpy.float64(2.25), numpy.int64(100)).point, (0,))
        self.assertEqual(change_reference(numpy.array([1, 2]), numpy.int64(0)), (-1, 1))
        self.assertEqual(TriangleCheck().feed(numpy.int64(3), numpy.float64("nan")).refusal.index, 3)
        self.assertIs(ratio(numpy.array([1.0, 3.0]), numpy.float64(9), numpy.int64(3), numpy.int64(1)), Ratio.HOLDS)
        names = Names()
        self.assertEqual(names.nearest(numpy.int64(3), *table, 1, numpy.int64(9)).point, (0, 0))
        self.assertRaises(BudgetExhausted, names.nearest, 3, *table, 1, 0)
        self.assertEqual(names.turn(numpy.int64(9)).found.point, (0, 0))
        self.wrong(TypeError, "of type bool", nearest, numpy.array([True]), [0], [0], 1, 9)
        self.wrong(TypeError, "real number", nearest, [numpy.True_], [0], [0], 1, 9)
        self.wrong(TypeError, "no dimension", nearest, numpy.array(1.0), [0], [0], 1, 9)
        mu = numpy.array([[0.0, 0.0], [0.5, 0.0]])
        self.wrong(ValueError, "column-major", nearest, [1, 1], mu.T, [0.25, 0.5], 2, 100)
        self.assertEqual(nearest([1, 1], numpy.ascontiguousarray(mu), [0.25, 0.5], 2, 100).point, (0, 1))


class Threads(Test):
    def test_side_by_side(self):
        found = []
        threads = [threading.Thread(target=lambda: found.append(list_points(*G, 2, 100))) for _ in range(8)]
        for each in threads:
            each.start()
        for each in threads:
            each.join()
        self.assertEqual(found, [list_points(*G, 2, 100)] * 8)


class Finding(Test):
    def run_with(self, library, folder=HERE):
        """Python in a process of its own, with SNOWGIMMER_LIB as given."""
        environment = {**os.environ, "PYTHONPATH": folder, "PYTHONDONTWRITEBYTECODE": "1"}
        environment.pop("SNOWGIMMER_LIB", None)
        if library is not None:
            environment["SNOWGIMMER_LIB"] = library
        code = "import snowgimmer\nprint(snowgimmer.nearest_ml([1], [0], [0.75], 9))"
        return subprocess.run([sys.executable, "-c", code], env=environment, capture_output=True, text=True, cwd="/")

    def test_the_variable(self):
        with tempfile.TemporaryDirectory() as folder:
            link = os.path.join(folder, "libsnowgimmer.so")
            os.symlink(os.path.realpath(snowgimmer.library.find()), link)
            self.assertIn("point=(1,)", self.run_with(folder).stdout)
            self.assertIn("point=(1,)", self.run_with(link).stdout)

    def test_beside_the_module(self):
        with tempfile.TemporaryDirectory() as folder:
            os.symlink(os.path.join(HERE, "snowgimmer"), os.path.join(folder, "snowgimmer"))
            os.symlink(os.path.realpath(snowgimmer.library.find()), os.path.join(folder, "libsnowgimmer.so"))
            self.assertIn("point=(1,)", self.run_with(None, folder).stdout)

    def test_missing(self):
        with tempfile.TemporaryDirectory() as folder:
            error = self.run_with(folder).stderr.strip().split("\n")[-1]
            self.assertIn("ImportError: SNOWGIMMER_LIB names", error)
            wrong = os.path.join(folder, "libsnowgimmer.a")
            with open(wrong, "wb") as file:
                file.write(b"!<arch>\n")
            error = self.run_with(wrong).stderr.strip().split("\n")[-1]
            self.assertIn("can't be loaded", error)
            self.assertIn("tools/install --build", error)

    def test_another_library(self):
        import _ctypes
        file = getattr(_ctypes, "__file__", None)
        if file is None:
            self.skipTest("this Python has no library of its own in a file")
        self.assertIn("is not this library", self.run_with(file).stderr)


if __name__ == "__main__":
    unittest.main()
