"""docs/SPECIFICATION.md read as a program, section by section: plain and slow, to be compared with the library."""

import fractions
import math
import struct

LARGEST, SMALLEST = 2**63 - 1, -(2**63)
COORD_LIMIT = 2.0**52
LARGEST_DIMENSION, LARGEST_BUDGET, LARGEST_LIST = 23, 2**60, 4096
LARGEST_SEARCHED = 64  # of `nearest` and `list`
LARGEST_FACTOR, LARGEST_PLACES = 1000, 256
LARGEST_ELEMENT = 2**52
DEFAULT_SETTINGS = 3, 1, 256  # p, q and places of a job that ends after the budget
VERDICTS = "none", "holds", "fails", "open"  # by the C interface's numbers


class Refusal(Exception):
    """A number and the values that it carries."""

    def __init__(self, number, *values):
        super().__init__(number, values)
        self.number, self.values = number, values


# ---- Rounding

def round_away(x):
    if math.isnan(x):
        return 0
    if math.isinf(x):
        return LARGEST if x > 0 else SMALLEST
    whole = math.floor(abs(fractions.Fraction(x)) + fractions.Fraction(1, 2))
    return min(whole, LARGEST) if x >= 0 else max(-whole, SMALLEST)


# ---- Distance

def center(mu, target, n, level, z):
    """z has the coordinates above the level."""
    c = target[level]
    for j in range(level + 1, n):
        c = c + (target[j] - float(z[j])) * mu[j * n + level]
    return c


def term(weight, c, z):
    d = c - float(z)
    return (weight * d) * d


def distance(weights, mu, target, z):
    partial = 0.0
    for level in reversed(range(len(weights))):
        partial = partial + term(weights[level], center(mu, target, len(weights), level, z), z[level])
    return partial


# ---- Zigzag

class Children:
    def __init__(self, c, remaining, weight):
        self.center, self.remaining, self.weight = c, remaining, weight
        self.nearest, self.step = round_away(c), 1
        self.emitted_nearest = self.positive_done = self.negative_done = False
        self.none = not self.passes(self.nearest)

    def passes(self, z):
        return term(self.weight, self.center, z) <= self.remaining

    def one_step(self):
        """A child or None."""
        s = self.step
        self.step += 1
        upward = (s % 2 == 1) == (self.center >= float(self.nearest))
        if self.positive_done if upward else self.negative_done:
            return None
        z = self.nearest + (s + 1) // 2 if upward else self.nearest - (s + 1) // 2
        if SMALLEST <= z <= LARGEST and self.passes(z):
            return z
        self.positive_done |= upward
        self.negative_done |= not upward
        return None

    def next(self):
        if not self.emitted_nearest:
            self.emitted_nearest = True
            return self.nearest
        while not (self.positive_done and self.negative_done):
            child = self.one_step()
            if child is not None:
                return child
        return None


# ---- Nearest, List

class Walk:
    """`leaf` is called with the walk, a point and its distance."""

    def __init__(self, weights, mu, target, radius, budget, leaf):
        self.weights, self.mu, self.target, self.budget, self.leaf = weights, mu, target, budget, leaf
        self.standing, self.nodes, self.best, self.found = radius, 0, None, []
        self.point = [0] * len(weights)
        self.start()
        self.enter(len(weights), 0.0)

    def start(self):
        """Before the first level is entered."""

    def center(self, level):
        """Of a level that is entered."""
        return center(self.mu, self.target, len(self.weights), level, self.point)

    def take(self, level, z):
        """The level takes z."""
        self.point[level] = z

    def enter(self, levels, partial):
        if levels == 0:
            self.leaf(self, list(self.point), partial)
            return
        level = levels - 1
        c = self.center(level)
        children = Children(c, self.standing - partial, self.weights[level])
        if children.none:
            return
        child = children.next()
        while child is not None:
            if self.nodes >= self.budget:
                raise Refusal(15, self.nodes, self.standing)
            self.nodes += 1
            self.take(level, child)
            total = partial + term(self.weights[level], c, child)
            if total <= self.standing:
                self.enter(level, total)
            child = children.next()


def consider(walk, point, d):
    if walk.best is None or d < walk.standing or (d == walk.standing and point < walk.best):
        walk.best, walk.standing = point, d


def collect(walk, point, d):
    walk.found.append((d, point))


# ---- Running centres

class RunningWalk(Walk):
    """Each level's centre is kept from node to node."""

    def start(self):
        self.centers = list(self.target)
        for j in range(len(self.target)):
            self.add_row(j, self.target[j])

    def add_row(self, row, factor):
        n = len(self.target)
        for lower in range(row):
            self.centers[lower] = self.centers[lower] + factor * self.mu[row * n + lower]

    def center(self, level):
        return self.centers[level]

    def take(self, level, z):
        old = self.point[level]
        if old != z:
            self.add_row(level, float(old) - float(z))
            self.point[level] = z


def walk_of(n):
    """The walk of `nearest` and `list`."""
    return Walk if n <= LARGEST_DIMENSION else RunningWalk


# ---- Seeds

def plane(mu, coefficients):
    n = len(coefficients)
    left, z = list(coefficients), [0] * n
    for i in reversed(range(n)):
        total = left[i]
        for j in range(i + 1, n):
            total = total + left[j] * mu[j * n + i]
        z[i] = round_away(total)
        left[i] = left[i] - float(z[i])
    return z, left


def widened(n, radius):
    return radius + (2.0**-52 * max(radius, 1.0)) * float(4 * n)


# ---- Prepared

def transformed(inverse, target):
    """The target in the table's coordinates."""
    n, found = len(target), []
    for column in range(n):
        total = 0.0
        for row in range(n):
            total = total + target[row] * float(inverse[row * n + column])
        found.append(total)
    return found


def mapped(point, matrix):
    """In whole numbers."""
    n = len(point)
    return [sum(point[row] * matrix[row * n + column] for row in range(n)) for column in range(n)]


# ---- Reference

def changed(point, r):
    """The cycles against the satellite of coordinate r."""
    return [-point[r] if i == r else cycles - point[r] for i, cycles in enumerate(point)]


# ---- The numbered refusals: each call's checks

def first_fault(number, values, fault, indices):
    for i in indices:
        if fault(values[i]):
            raise Refusal(number, i)


def check_entries(entries):
    """3, then 4, of entries mu, each with its index, in the order in which they are read."""
    for number, fault in (3, lambda x: not math.isfinite(x)), (4, lambda x: abs(x) > COORD_LIMIT):
        for index, entry in entries:
            if fault(entry):
                raise Refusal(number, index)


def check_table(weights, mu, largest=LARGEST_DIMENSION):
    n = len(weights)
    if n > largest or len(mu) != n * n:
        raise Refusal(2, n)
    check_entries([(j * n + i, mu[j * n + i]) for j in range(n) for i in range(j)])
    first_fault(5, weights, lambda w: not (math.isfinite(w) and w > 0), range(n))


def check_length(expected, found):
    if expected != found:
        raise Refusal(6, expected, found)


def check_target(target):
    first_fault(7, target, lambda x: not math.isfinite(x) or abs(x) > COORD_LIMIT, range(len(target)))


def check_radius(radius):
    """The radius that it hands on: plus zero where it is minus zero."""
    if not math.isfinite(radius) or radius < 0:
        raise Refusal(8, radius)
    return 0.0 if radius == 0 else radius


def check_budget(budget):
    if budget > LARGEST_BUDGET:
        raise Refusal(9, budget)


def check_factors(p, q):
    """21 of p and q. The first is at fault where it is below the second, whatever that is."""
    if not 1 <= p <= LARGEST_FACTOR or p < q:
        raise Refusal(21, 0)
    if not 1 <= q <= LARGEST_FACTOR:
        raise Refusal(21, 1)


def check_settings(p, q, places):
    check_factors(p, q)
    if not 1 <= places <= LARGEST_PLACES:
        raise Refusal(21, 2)


def check_matrices(n, transform, inverse):
    if len(transform) != n * n or len(inverse) != n * n:
        raise Refusal(22, 0)
    first_fault(22, transform + inverse, lambda z: abs(z) > LARGEST_ELEMENT, range(2 * n * n))
    for a, b in (transform, inverse), (inverse, transform):
        for row in range(n):
            if mapped(a[row * n:row * n + n], b) != [int(row == column) for column in range(n)]:
                raise Refusal(23)


def check_index(length, r):
    if r >= length:
        raise Refusal(19)


def check_integers(number, point):
    """20 and 24: each must be an i64."""
    first_fault(number, point, lambda z: not SMALLEST <= z <= LARGEST, range(len(point)))


def check_target_and_output(n, target, out):
    check_length(n, len(target))
    check_length(n, len(out))
    check_target(target)


def check_search(weights, mu, target, out, largest=LARGEST_DIMENSION):
    check_table(weights, mu, largest)
    check_target_and_output(len(weights), target, out)


def check_distance(total):
    if not math.isfinite(total):
        raise Refusal(11, total)


def check_widened(radius):
    if not math.isfinite(radius):
        raise Refusal(13, radius)


# ---- the calls: each answers what it tells, and writes to the lists it is lent

def search_within(weights, mu, target, out, radius, budget):
    """The search of all three nearest calls, from the radius. A seeded or ml call never comes to 16."""
    walk = walk_of(len(weights))(weights, mu, target, radius, budget, consider)
    if walk.best is None:
        raise Refusal(16, radius)
    out[:] = walk.best
    # the radius that stands is the best's distance
    return walk.nodes, walk.standing


def nearest(weights, mu, target, out, radius, budget):
    check_search(weights, mu, target, out, LARGEST_SEARCHED)
    radius = check_radius(radius)
    check_budget(budget)
    return search_within(weights, mu, target, out, radius, budget)


def nearest_seeded(weights, mu, target, out, candidate, radius, budget):
    check_search(weights, mu, target, out)
    radius = check_radius(radius)
    check_budget(budget)
    n = len(weights)
    if len(candidate) != n:
        raise Refusal(10, n, len(candidate))
    total = distance(weights, mu, target, candidate)
    check_distance(total)
    if total > radius:
        raise Refusal(12, radius)
    wide = widened(n, radius)
    check_widened(wide)
    return search_within(weights, mu, target, out, wide, budget)


def search_from_plane(weights, mu, target, out, budget):
    check_budget(budget)
    total = distance(weights, mu, target, plane(mu, target)[0])
    check_distance(total)
    wide = widened(len(weights), total)
    check_widened(wide)
    return search_within(weights, mu, target, out, wide, budget)


def nearest_ml(weights, mu, target, out, budget):
    check_search(weights, mu, target, out)
    return search_from_plane(weights, mu, target, out, budget)


def prepared_nearest_ml(weights, mu, transform, inverse, target, out, budget):
    check_table(weights, mu)
    n = len(weights)
    check_matrices(n, transform, inverse)
    check_target_and_output(n, target, out)
    transformed_target, point = transformed(inverse, target), [0] * n
    check_target(transformed_target)
    told = search_from_plane(weights, mu, transformed_target, point, budget)
    receiver = mapped(point, transform)
    check_integers(24, receiver)
    out[:] = receiver
    return told


def list_points(weights, mu, target, distances, points, radius, budget):
    check_table(weights, mu, LARGEST_SEARCHED)
    n = len(weights)
    check_length(n, len(target))
    check_target(target)
    radius = check_radius(radius)
    check_budget(budget)
    if len(distances) > LARGEST_LIST or len(points) != n * len(distances):
        raise Refusal(14, len(distances))
    walk = walk_of(n)(weights, mu, target, radius, budget, collect)
    if len(walk.found) > len(distances):
        raise Refusal(18, len(walk.found))
    for k, (d, point) in enumerate(sorted(walk.found)):
        distances[k] = d
        points[k * n:k * n + n] = point
    return walk.nodes, len(walk.found)


def rounding(coefficients, out):
    check_length(len(coefficients), len(out))
    first_fault(7, coefficients, lambda x: not math.isfinite(x), range(len(coefficients)))
    out[:] = [round_away(x) for x in coefficients]
    return ()


def nearest_plane(weights, mu, coefficients, out):
    check_table(weights, mu)
    n = len(weights)
    if len(coefficients) != n or len(out) != n:
        raise Refusal(6, n, len(coefficients))
    first_fault(7, coefficients, lambda x: not math.isfinite(x), range(n))
    out[:], coefficients[:] = plane(mu, coefficients)
    return ()


def point_distance(weights, mu, target, point):
    check_search(weights, mu, target, point)
    total = distance(weights, mu, target, point)
    check_distance(total)
    return (total,)


def change_reference(point, r):
    check_index(len(point), r)
    check_integers(20, changed(point, r))
    point[:] = changed(point, r)
    return ()


def check_entry(number, at, index, entry):
    """3 and 4 of one entry more. Of those so far the one that the verdict names is enough, if it names one."""
    if number not in (0, 3, 4):
        raise Refusal(number, at)
    named = {0: [], 3: [(at, math.nan)], 4: [(at, 2 * COORD_LIMIT)]}
    check_entries(named[number] + [(index, entry)])
    return ()


# ---- The ratio

def meets(second, first, p, q):
    """q·second ≥ p·first, each product rounded once; no second meets a p·first that is not finite."""
    least = float(p) * first
    return math.isfinite(least) and float(q) * second >= least


def verdict(distances, radius, p, q):
    """Of the distances in the list's order. With a lone point the radius stands for the second."""
    if len(distances) == 0:
        return "none"
    if len(distances) == 1:
        return "holds" if meets(radius, distances[0], p, q) else "open"
    return "holds" if meets(distances[1], distances[0], p, q) else "fails"


def ratio(distances, radius, p, q):
    check_factors(p, q)
    return (VERDICTS.index(verdict(distances, radius, p, q)),)


# ---- Job program

def read_section(data, at, right):
    """The items' bits and the offset behind them."""
    if len(data) < at + 4:
        raise Refusal(1, len(data))
    count = int.from_bytes(data[at:at + 4], "little")
    if not right(count):
        raise Refusal(1, at)
    end = at + 4 + 8 * count
    if len(data) < end:
        raise Refusal(1, len(data))
    return [int.from_bytes(data[k:k + 8], "little") for k in range(at + 4, end, 8)], end


def as_double(bits):
    return struct.unpack("<d", struct.pack("<Q", bits))[0]


def read_job(data):
    """The table, target, radius and budget; and the settings."""
    weights, at = read_section(data, 0, lambda count: count <= LARGEST_DIMENSION)
    n = len(weights)
    entries, at = read_section(data, at, lambda count: count == n * (n - 1) // 2)
    target, at = read_section(data, at, lambda count: count == n)
    radius, at = read_section(data, at, lambda count: count == 1)
    budget, at = read_section(data, at, lambda count: count == 1)
    settings = DEFAULT_SETTINGS
    if at < len(data):
        settings, at = read_section(data, at, lambda count: count == 3)
    if at < len(data):
        raise Refusal(1, at)
    mu = [0.0] * (n * n)
    for j in range(n):
        mu[j * n:j * n + j] = map(as_double, entries[j * (j - 1) // 2:j * (j + 1) // 2])
    job = list(map(as_double, weights)), mu, list(map(as_double, target)), as_double(radius[0]), budget[0]
    return job, tuple(settings)


def refusal_line(word, number):
    group = "table" if number <= 5 else "call" if number <= 14 else "search"
    if number in (1, 21):
        group = "layout"
    return f"{word} refused {number} {group}\n"


def point_text(d, point):
    """A distance by its bits, and the point."""
    return " ".join([struct.pack(">d", d).hex().upper(), *map(str, point)]) + "\n"


def nearest_line(weights, mu, target, radius, budget):
    out = [0] * len(weights)
    try:
        nodes, d = nearest(weights, mu, target, out, radius, budget)
    except Refusal as refusal:
        return refusal_line("nearest", refusal.number)
    return f"nearest {nodes} " + point_text(d, out)


def list_lines(weights, mu, target, radius, budget, p, q, places):
    n = len(weights)
    distances, points = [0.0] * places, [0] * (places * n)
    try:
        nodes, count = list_points(weights, mu, target, distances, points, radius, budget)
    except Refusal as refusal:
        return refusal_line("list", refusal.number) + "ratio none\n"
    text = f"list {nodes} {count}\n"
    for k in range(count):
        text += point_text(distances[k], points[k * n:k * n + n])
    return text + f"ratio {verdict(distances[:count], radius, p, q)}\n"


def job_text(data):
    try:
        job, settings = read_job(data)
        check_settings(*settings)
    except Refusal as refusal:
        return refusal_line("job", refusal.number)
    return nearest_line(*job) + list_lines(*job, *settings)
