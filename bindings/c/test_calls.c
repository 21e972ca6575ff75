/* Every function and every refusal through the header as C99 and as C++. It prints what differs; tools/test_install
 * compiles and runs it. */
#include <float.h>
#include <math.h>
#include <stdio.h>
#include <string.h>

#include "snowgimmer.h"

#define N 2
#define LEVELS 3
#define MOST_LEVELS 6
#define PLACES 256
#define MOST (SNOWGIMMER_LARGEST_LIST + 1)
#define LONG 65
#define LARGE (SNOWGIMMER_LARGEST_DIMENSION + 1)
#define DRAWN 12
#define TURN SNOWGIMMER_LARGEST_DIMENSION
/* how many elements of each slice of a block are a name's */
#define PART_REALS 646
#define PART_INTEGERS 92
#define PART_COUNTS 96

static const double weights[N] = {1.0, 1.0};
static const double mu[N * N] = {0.0, 0.0, 0.5, 0.0};
static const double target[N] = {0.25, 0.5};

static uint64_t first, second;
static double real;
static int differences;

static double distances[MOST];
static int64_t points[SNOWGIMMER_LARGEST_LIST * SNOWGIMMER_LARGEST_SEARCHED];

/* What a call told is what was expected of it. */
static void expect(const char *what, uint32_t number, uint32_t expected, uint64_t one, uint64_t two, double three) {
    if (number == expected && first == one && second == two && real == three) return;
    printf("%s: %u %s (%llu, %llu, %g), expected %u %s (%llu, %llu, %g)\n", what, (unsigned)number,
        snowgimmer_refusal_name(number), (unsigned long long)first, (unsigned long long)second, real,
        (unsigned)expected, snowgimmer_refusal_name(expected), (unsigned long long)one, (unsigned long long)two, three);
    differences++;
}

static void expect_true(const char *what, int holds) {
    if (holds) return;
    printf("%s: differs\n", what);
    differences++;
}

static void expect_point(const char *what, const int64_t *point, int64_t one, int64_t two) {
    expect_true(what, point[0] == one && point[1] == two);
}

static void expect_name(uint32_t number, const char *name) {
    expect_true(name, strcmp(snowgimmer_refusal_name(number), name) == 0);
}

/* The same bits: 0 and -0 are not. */
static int same(double one, double two) { return memcmp(&one, &two, sizeof one) == 0; }

static double from_bits(uint64_t bits) {
    double x;
    memcpy(&x, &bits, sizeof x);
    return x;
}

/* nearest over a table and target of n = 2, into an output that a refusal must leave alone */
static uint32_t nearest(const double *w, const double *m, size_t m_len, const double *t, double radius,
    uint64_t budget) {
    int64_t out[N] = {7, 8};
    uint32_t number = snowgimmer_nearest(w, N, m, m_len, t, N, out, N, radius, budget, &first, &second, &real);
    if (number == SNOWGIMMER_SUCCESS) expect_point("nearest", out, 0, 1);
    else expect_point("nearest, refused", out, 7, 8);
    return number;
}

static void searches(void) {
    expect("nearest", nearest(weights, mu, 4, target, 2.0, 100), SNOWGIMMER_SUCCESS, 5, 0, 0.25);
    expect("budget", nearest(weights, mu, 4, target, 2.0, 4), SNOWGIMMER_BUDGET_EXHAUSTED, 4, 0, 0.25);
    expect("outside", nearest(weights, mu, 4, target, 0.125, 100), SNOWGIMMER_OUTSIDE_RADIUS, 0, 0, 0.125);
    expect("radius", nearest(weights, mu, 4, target, -1.0, 100), SNOWGIMMER_INVALID_RADIUS, 0, 0, -1.0);
    const uint64_t most = SNOWGIMMER_LARGEST_BUDGET;
    expect("largest budget", nearest(weights, mu, 4, target, 2.0, most), SNOWGIMMER_SUCCESS, 5, 0, 0.25);
    expect("larger budget", nearest(weights, mu, 4, target, 2.0, most + 1), SNOWGIMMER_BUDGET_RANGE, most + 1, 0, 0.0);
    int64_t out[N];
    uint32_t number = snowgimmer_nearest_ml(weights, N, mu, N * N, target, N, out, N, 100, &first, &second, &real);
    expect("ml", number, SNOWGIMMER_SUCCESS, 3, 0, 0.25);
    expect_point("ml", out, 0, 1);
    const int64_t candidate[N] = {1, 1};
    out[1] = 7;
    number = snowgimmer_nearest_seeded(weights, N, mu, N * N, target, N, out, N, candidate, N, 2.0, 100, &first,
        &second, &real);
    expect("seeded, two levels", number, SNOWGIMMER_SUCCESS, 5, 0, 0.25);
    expect_point("seeded, two levels", out, 0, 1);
}

static void tables(void) {
    const double zero[N] = {1.0, 0.0}, far[N] = {0.25, SNOWGIMMER_COORD_LIMIT + 1.0};
    const double infinite[N * N] = {0.0, 0.0, HUGE_VAL, 0.0}, large[N * N] = {0.0, 0.0, -1e16, 0.0};
    expect("mu too short", nearest(weights, mu, 3, target, 2.0, 100), SNOWGIMMER_TABLE_SIZE, 2, 0, 0.0);
    expect("mu infinite", nearest(weights, infinite, 4, target, 2.0, 100), SNOWGIMMER_MU_NON_FINITE, 2, 0, 0.0);
    expect("mu large", nearest(weights, large, 4, target, 2.0, 100), SNOWGIMMER_MU_RANGE, 2, 0, 0.0);
    expect("weight 0", nearest(zero, mu, 4, target, 2.0, 100), SNOWGIMMER_WEIGHT_RANGE, 1, 0, 0.0);
    expect("target", nearest(weights, mu, 4, far, 2.0, 100), SNOWGIMMER_NON_FINITE, 1, 0, 0.0);
    int64_t out[3] = {7, 8, 9};
    expect("output", snowgimmer_nearest(weights, N, mu, 4, target, N, out, 3, 2.0, 9, &first, &second, &real),
        SNOWGIMMER_LENGTH_MISMATCH, 2, 3, 0.0);
}

/* nearest_seeded over one weight with target 0.5 */
static uint32_t seeded(double weight, int64_t candidate, size_t len, double radius) {
    const double zero = 0.0, half = 0.5;
    int64_t out = 7;
    const int64_t candidates[N] = {candidate, 0};
    return snowgimmer_nearest_seeded(&weight, 1, &zero, 1, &half, 1, &out, 1, candidates, len, radius, 100, &first,
        &second, &real);
}

static void candidates(void) {
    expect("seeded", seeded(1.0, 2, 1, 2.25), SNOWGIMMER_SUCCESS, 4, 0, 0.25);
    expect("candidate's length", seeded(1.0, 2, 2, 2.25), SNOWGIMMER_CANDIDATE_LENGTH, 1, 2, 0.0);
    expect("distance overflows", seeded(DBL_MAX, 1 << 30, 1, 1.0), SNOWGIMMER_CANDIDATE_DISTANCE, 0, 0, HUGE_VAL);
    expect("candidate outside", seeded(1.0, 2, 1, 2.0), SNOWGIMMER_CANDIDATE_OUTSIDE, 0, 0, 2.0);
    expect("widened radius", seeded(1.0, 0, 1, DBL_MAX), SNOWGIMMER_WIDENED_RADIUS, 0, 0, HUGE_VAL);
}

/* Case H, with a candidate at the radius 1, inside which nearest finds nothing; widened it opens 10 prefixes, of which
 * the search, whose radius shrinks, tries 6. A smaller budget must leave the output alone. */
static void expect_case_h(const char *what, uint32_t number, uint64_t budget, const int64_t *out) {
    if (budget < 6) {
        expect(what, number, SNOWGIMMER_BUDGET_EXHAUSTED, budget, 0, 1.0);
        expect_point(what, out, 7, 8);
    } else {
        expect(what, number, SNOWGIMMER_SUCCESS, 6, 0, 1.0);
        expect_point(what, out, 0, 1);
    }
}

static void candidate_at_the_radius(void) {
    const double w[N] = {2 * DBL_EPSILON, 4.0}, zero[N * N] = {0.0}, halves[N] = {0.5, 0.5};
    const int64_t candidate[N] = {0, 0};
    const uint64_t budgets[] = {100, 10, 6, 5};
    expect("case H, nearest", nearest(w, zero, 4, halves, 1.0, 2), SNOWGIMMER_OUTSIDE_RADIUS, 0, 0, 1.0);
    for (int i = 0; i < 4; i++) {
        int64_t out[N] = {7, 8};
        uint32_t number = snowgimmer_nearest_seeded(w, N, zero, N * N, halves, N, out, N, candidate, N, 1.0,
            budgets[i], &first, &second, &real);
        expect_case_h("case H, seeded", number, budgets[i], out);
        out[0] = 7;
        out[1] = 8;
        number = snowgimmer_nearest_ml(w, N, zero, N * N, halves, N, out, N, budgets[i], &first, &second, &real);
        expect_case_h("case H, ml", number, budgets[i], out);
    }
}

/* A search in the receiver's coordinates over two weights of 1, but for its output. */
struct prepared {
    double entry; /* mu[2] */
    int64_t transform[5], inverse[5];
    size_t transform_len, inverse_len;
    double target[N + 1];
    size_t target_len;
    uint64_t budget;
};

/* Case G: the transformed target is 0.25, 0.5, and the nearest vector there is 0, 1. */
static const struct prepared case_g = {0.5, {1, 2, 1, 3}, {3, -2, -1, 1}, 4, 4, {0.75, 2.0}, 2, 100};

/* The call, whose output of so many places holds these numbers then. */
static void expect_prepared(const char *what, struct prepared p, size_t places, uint32_t expected, uint64_t one,
    uint64_t two, double three, int64_t z0, int64_t z1) {
    const double entries[N * N] = {NAN, NAN, p.entry, NAN};
    const struct prepared given = p;
    int64_t out[N + 1] = {7, 8, 9};
    first = second = 77;
    real = 77.0;
    uint32_t number = snowgimmer_prepared_nearest_ml(weights, N, entries, N * N, p.transform, p.transform_len,
        p.inverse, p.inverse_len, p.target, p.target_len, out, places, p.budget, &first, &second, &real);
    expect(what, number, expected, one, two, three);
    expect_point(what, out, z0, z1);
    expect_true(what, out[2] == 9 && memcmp(&given, &p, sizeof p) == 0);
}

/* The call is refused, and its output is as it was. */
static void refuse_prepared(const char *what, struct prepared p, uint32_t expected, uint64_t one, uint64_t two,
    double three) {
    expect_prepared(what, p, N, expected, one, two, three, 7, 8);
}

/* 22 and 23. */
static void matrices(void) {
    const int64_t most = (int64_t)1 << 52;
    struct prepared p = case_g;
    p.transform_len = 3;
    refuse_prepared("transform too short", p, SNOWGIMMER_MATRIX_RANGE, 0, 0, 0.0);
    p = case_g;
    p.inverse_len = 5;
    p.transform[3] = INT64_MIN;
    refuse_prepared("inverse too long", p, SNOWGIMMER_MATRIX_RANGE, 0, 0, 0.0);
    for (size_t k = 0; k < N * N; k++) {
        p = case_g;
        p.transform[k] = most + 1;
        p.inverse[0] = INT64_MIN;
        refuse_prepared("an element of transform", p, SNOWGIMMER_MATRIX_RANGE, k, 0, 0.0);
        p = case_g;
        p.inverse[k] = -most - 1;
        refuse_prepared("an element of inverse", p, SNOWGIMMER_MATRIX_RANGE, N * N + k, 0, 0.0);
        p = case_g;
        p.inverse[k]++;
        refuse_prepared("not inverse", p, SNOWGIMMER_NOT_INVERSE, 0, 0, 0.0);
    }
    const struct prepared largest = {0.5, {1, most, 0, 1}, {1, -most, 0, 1}, 4, 4, {1.0, 0.0}, 2, 100};
    expect_prepared("elements of 2^52", largest, N, SNOWGIMMER_SUCCESS, 2, 0, 0.0, 1, 0);
    /* the product is 2^64 + 1, not 1 */
    const int64_t a = 274177, b = INT64_C(67280421310721);
    int64_t out = 7;
    uint32_t number = snowgimmer_prepared_nearest_ml(weights, 1, mu, 1, &a, 1, &b, 1, target, 1, &out, 1, 9, &first,
        &second, &real);
    expect("a product modulo 2^64", number, SNOWGIMMER_NOT_INVERSE, 0, 0, 0.0);
    expect_true("a product modulo 2^64", out == 7);
}

/* 6, 7 of either target, 9 and 15. */
static void prepared_calls(void) {
    struct prepared p = case_g;
    p.target_len = 3;
    refuse_prepared("target's length", p, SNOWGIMMER_LENGTH_MISMATCH, 2, 3, 0.0);
    expect_prepared("output's length", case_g, 3, SNOWGIMMER_LENGTH_MISMATCH, 2, 3, 0.0, 7, 8);
    p.transform[0] = 2;
    refuse_prepared("23 before 6", p, SNOWGIMMER_NOT_INVERSE, 0, 0, 0.0);
    p = case_g;
    p.target[1] = HUGE_VAL;
    refuse_prepared("target", p, SNOWGIMMER_NON_FINITE, 1, 0, 0.0);
    p.target[0] = SNOWGIMMER_COORD_LIMIT;
    p.target[1] = 0.0;
    p.budget = SNOWGIMMER_LARGEST_BUDGET + 1;
    refuse_prepared("transformed target", p, SNOWGIMMER_NON_FINITE, 0, 0, 0.0);
    const double limit = SNOWGIMMER_COORD_LIMIT;
    const struct prepared sum = {0.5, {1, -1, 0, 1}, {1, 1, 0, 1}, 4, 4, {limit, 1.0}, 2, 100};
    refuse_prepared("column 1 of the transformed target", sum, SNOWGIMMER_NON_FINITE, 1, 0, 0.0);
    p = case_g;
    p.budget = SNOWGIMMER_LARGEST_BUDGET + 1;
    refuse_prepared("budget", p, SNOWGIMMER_BUDGET_RANGE, p.budget, 0, 0.0);
    p.budget = 2;
    refuse_prepared("budget of 2", p, SNOWGIMMER_BUDGET_EXHAUSTED, 2, 0, 0.25);
    p.budget = 0;
    refuse_prepared("budget of 0", p, SNOWGIMMER_BUDGET_EXHAUSTED, 0, 0, 0.25 + 8 * DBL_EPSILON);
}

/* 11 with five levels, 13 with four; the matrices exchange the coordinates in a cycle. */
static void prepared_overflow(size_t n, uint32_t expected) {
    double most[MOST_LEVELS], halves[MOST_LEVELS], entries[MOST_LEVELS * MOST_LEVELS] = {0.0};
    int64_t forth[MOST_LEVELS * MOST_LEVELS] = {0}, back[MOST_LEVELS * MOST_LEVELS] = {0}, out[MOST_LEVELS] = {0};
    for (size_t i = 0; i < n; i++) {
        most[i] = DBL_MAX;
        halves[i] = 0.5;
        forth[i * n + (i + 1) % n] = back[(i + 1) % n * n + i] = 1;
    }
    uint32_t number = snowgimmer_prepared_nearest_ml(most, n, entries, n * n, forth, n * n, back, n * n, halves, n, out,
        n, 100, &first, &second, &real);
    expect("distance or radius overflows", number, expected, 0, 0, HUGE_VAL);
}

/* The nearest vector is 2^50, 0 before mapping: -2^63 is mapped, 2^63 is not. */
static void mapped(void) {
    const double limit = SNOWGIMMER_COORD_LIMIT;
    const int64_t far = (int64_t)1 << 50;
    struct prepared p = {limit, {1, 8191, 0, 1}, {1, -8191, 0, 1}, 4, 4, {0.0, 0.25}, 2, 100};
    expect_prepared("below 2^63", p, N, SNOWGIMMER_SUCCESS, 2, 0, 0.0625, far, far * 8191);
    p.transform[1] = -8192;
    p.inverse[1] = 8192;
    expect_prepared("-2^63", p, N, SNOWGIMMER_SUCCESS, 2, 0, 0.0625, far, INT64_MIN);
    p.transform[1] = 8192;
    p.inverse[1] = -8192;
    refuse_prepared("2^63", p, SNOWGIMMER_MAPPED_RANGE, 1, 0, 0.0);
    p.budget = 1;
    refuse_prepared("15 before 24", p, SNOWGIMMER_BUDGET_EXHAUSTED, 1, 0, 0.0625 + 8 * DBL_EPSILON);
    const struct prepared column_0 = {limit, {8192, 1, 1, 0}, {0, 1, 1, -8192}, 4, 4, {0.25, 0.0}, 2, 100};
    refuse_prepared("2^63 in column 0", column_0, SNOWGIMMER_MAPPED_RANGE, 0, 0, 0.0);
}

static void receiver_coordinates(void) {
    expect_prepared("prepared", case_g, N, SNOWGIMMER_SUCCESS, 3, 0, 0.25, 1, 3);
    /* both transposed, they are inverse to each other too: -1.75, 1.25 is the transformed target, -2, 1 its point */
    const struct prepared transposed = {0.5, {1, 1, 2, 3}, {3, -1, -2, 1}, 4, 4, {0.75, 2.0}, 2, 100};
    expect_prepared("transposed", transposed, N, SNOWGIMMER_SUCCESS, 2, 0, 0.203125, 0, 1);
    matrices();
    prepared_calls();
    prepared_overflow(5, SNOWGIMMER_CANDIDATE_DISTANCE);
    prepared_overflow(4, SNOWGIMMER_WIDENED_RADIUS);
    mapped();
    int64_t out = 7;
    uint32_t number = snowgimmer_prepared_nearest_ml(weights, 0, mu, 0, points, 0, points, 0, target, 0, &out, 0, 0,
        &first, &second, &real);
    expect("n = 0, prepared", number, SNOWGIMMER_SUCCESS, 0, 0, 0.0);
    number = snowgimmer_prepared_nearest_ml(weights, 0, mu, 0, points, 0, points, 1, target, 0, &out, 0, 0, &first,
        &second, &real);
    expect("n = 0, a matrix of 1", number, SNOWGIMMER_MATRIX_RANGE, 0, 0, 0.0);
    expect_true("n = 0, prepared", out == 7);
}

/* list at radius 2 into so many places */
static uint32_t list(size_t places) {
    return snowgimmer_list(weights, N, mu, N * N, target, N, distances, places, points, places * N, 2.0, 100, &first,
        &second, &real);
}

static void lists(void) {
    expect("list", list(8), SNOWGIMMER_SUCCESS, 7, 5, 0.0);
    expect_point("list, nearest", points, 0, 1);
    expect_point("list, farthest", points + 4 * N, 1, 1);
    expect("list full", list(4), SNOWGIMMER_LIST_FULL, 5, 0, 0.0);
    expect("list size", list(MOST), SNOWGIMMER_LIST_SIZE, MOST, 0, 0.0);
}

/* A table of n weights of 1 with mu 0, but for the entry (1, 0), and a target of 0, but for its first two numbers. */
struct large {
    size_t n;
    double weights[LONG], mu[LONG * LONG], target[LONG];
};

static const struct large *large_table(size_t n, double entry, double t0, double t1) {
    static struct large t;
    t.n = n;
    for (size_t i = 0; i < n; i++) {
        t.weights[i] = 1.0;
        t.target[i] = i == 0 ? t0 : i == 1 ? t1 : 0.0;
    }
    for (size_t k = 0; k < n * n; k++) t.mu[k] = k / n > k % n ? 0.0 : NAN;
    t.mu[n] = entry;
    return &t;
}

/* nearest over the table, into an output that holds these two numbers and zeros then, or is as it was */
static uint32_t large_nearest(const struct large *t, double radius, uint64_t budget, int64_t z0, int64_t z1) {
    int64_t out[LONG];
    for (size_t i = 0; i < t->n; i++) out[i] = -7;
    uint32_t number = snowgimmer_nearest(t->weights, t->n, t->mu, t->n * t->n, t->target, t->n, out, t->n, radius,
        budget, &first, &second, &real);
    const int found = number == SNOWGIMMER_SUCCESS;
    for (size_t i = 0; i < t->n; i++) {
        const int64_t z = i == 0 ? z0 : i == 1 ? z1 : 0;
        expect_true("output of a large table", out[i] == (found ? z : -7));
    }
    return number;
}

static uint32_t large_list(const struct large *t, double radius, uint64_t budget, size_t places) {
    for (size_t k = 0; k < places; k++) distances[k] = -7.0;
    for (size_t k = 0; k < places * t->n; k++) points[k] = -7;
    return snowgimmer_list(t->weights, t->n, t->mu, t->n * t->n, t->target, t->n, distances, places, points,
        places * t->n, radius, budget, &first, &second, &real);
}

/* From n = 24 on the centres are kept from node to node: that of level 0 is off by 3e-6 here, where the target is 2^40,
 * and so 0.09, which is the computed distance of 0, 2^40, 0, .., does not hold it. */
static void running_centres(void) {
    const double far = 1099511627776.0;
    const struct large *t = large_table(LARGE, 0.1, 0.3, far);
    expect("running, outside", large_nearest(t, 0.09, 1000, 0, 0), SNOWGIMMER_OUTSIDE_RADIUS, 0, 0, 0.09);
    expect("running, list", large_list(t, 0.09, 1000, 4), SNOWGIMMER_SUCCESS, 23, 0, 0.0);
    expect_true("running, empty list", distances[0] == -7.0 && points[0] == -7);
    const double told = from_bits(0x3FB70A5C29000000);
    expect("running", large_nearest(t, 0.25, 24, 0, (int64_t)far), SNOWGIMMER_SUCCESS, 24, 0, told);
    expect("running, budget", large_nearest(t, 0.25, 23, 0, 0), SNOWGIMMER_BUDGET_EXHAUSTED, 23, 0, 0.25);
    expect("running, one point", large_list(t, 0.25, 24, 4), SNOWGIMMER_SUCCESS, 24, 1, 0.0);
    expect_true("running, one point", same(distances[0], told) && distances[1] == -7.0);
    expect_true("running, one point", points[0] == 0 && points[1] == (int64_t)far && points[LARGE] == -7);
    expect("running, no place", large_list(t, 0.25, 24, 0), SNOWGIMMER_LIST_FULL, 1, 0, 0.0);
    expect("running, budget", large_list(t, 0.25, 23, 4), SNOWGIMMER_BUDGET_EXHAUSTED, 23, 0, 0.25);
}

/* 2 comes with 65 weights, and in every other call with 24. */
static void sizes(void) {
    const size_t most = SNOWGIMMER_LARGEST_SEARCHED;
    const struct large *t = large_table(most, 0.5, 2.0, 3.0);
    expect("64 weights", large_nearest(t, 0.5, 100, 2, 3), SNOWGIMMER_SUCCESS, 64, 0, 0.0);
    expect("64 weights, list", large_list(t, 0.5, 100, 2), SNOWGIMMER_SUCCESS, 64, 1, 0.0);
    expect_true("64 weights, list", distances[0] == 0.0 && points[0] == 2 && points[1] == 3 && points[most] == -7);
    t = large_table(LONG, 0.0, 2.0, 3.0);
    expect("65 weights", large_nearest(t, 0.5, 100, 0, 0), SNOWGIMMER_TABLE_SIZE, 65, 0, 0.0);
    expect("65 weights, list", large_list(t, 0.5, 100, 2), SNOWGIMMER_TABLE_SIZE, 65, 0, 0.0);
    t = large_table(LARGE, 0.0, 2.0, 3.0);
    const size_t n = LARGE;
    int64_t out[LARGE] = {0};
    double coefficients[LARGE] = {0.0};
    expect("24 weights, mu too short", snowgimmer_nearest(t->weights, n, t->mu, n * n - 1, t->target, n, out, n, 0.5,
        100, &first, &second, &real), SNOWGIMMER_TABLE_SIZE, 24, 0, 0.0);
    expect("24 weights, seeded", snowgimmer_nearest_seeded(t->weights, n, t->mu, n * n, t->target, n, out, n, out, n,
        99.0, 100, &first, &second, &real), SNOWGIMMER_TABLE_SIZE, 24, 0, 0.0);
    expect("24 weights, ml", snowgimmer_nearest_ml(t->weights, n, t->mu, n * n, t->target, n, out, n, 100, &first,
        &second, &real), SNOWGIMMER_TABLE_SIZE, 24, 0, 0.0);
    expect("24 weights, prepared", snowgimmer_prepared_nearest_ml(t->weights, n, t->mu, n * n, points, n * n, points,
        n * n, t->target, n, out, n, 100, &first, &second, &real), SNOWGIMMER_TABLE_SIZE, 24, 0, 0.0);
    static struct snowgimmer_names names;
    expect("24 weights, named", snowgimmer_nearest_kept(&names, 1, t->weights, n, t->mu, n * n, t->target, n, out, n,
        0.5, 2, &first, &second, &real), SNOWGIMMER_TABLE_SIZE, 24, 0, 0.0);
    expect("24 weights, plane", snowgimmer_nearest_plane(t->weights, n, t->mu, n * n, coefficients, n, out, n, &first,
        &second, &real), SNOWGIMMER_TABLE_SIZE, 24, 0, 0.0);
    expect("24 weights, distance", snowgimmer_distance(t->weights, n, t->mu, n * n, t->target, n, out, n, &first,
        &second, &real), SNOWGIMMER_TABLE_SIZE, 24, 0, 0.0);
}

/* A list with n = 64 of all 2^count points whose first coordinates are 0 or 1 and whose others are 0, all as near. */
static void halves(size_t count) {
    struct large t = *large_table(SNOWGIMMER_LARGEST_SEARCHED, 0.0, 0.0, 0.0);
    for (size_t i = 0; i < t.n; i++) {
        t.target[i] = i < count ? 0.5 : 0.0;
        if (i >= count) t.weights[i] = 4.0;
    }
    const size_t all = (size_t)1 << count, most = SNOWGIMMER_LARGEST_LIST;
    const double radius = 0.25 * (double)count;
    expect("halves, too few places", large_list(&t, radius, 100000, all - 1), SNOWGIMMER_LIST_FULL, all, 0, 0.0);
    expect_true("halves, too few places", distances[0] == -7.0 && points[0] == -7);
    uint32_t number = large_list(&t, radius, 100000, most);
    const uint64_t nodes = first;
    expect("halves", number, SNOWGIMMER_SUCCESS, nodes, all, 0.0);
    int right = 1;
    for (size_t k = 0; k < most; k++) {
        right = right && distances[k] == (k < all ? radius : -7.0);
        for (size_t i = 0; i < t.n; i++) {
            const int64_t z = i < count ? (int64_t)(k >> (count - 1 - i) & 1) : 0;
            right = right && points[k * t.n + i] == (k < all ? z : -7);
        }
    }
    expect_true("halves, the points", right);
    expect("halves, its nodes", large_list(&t, radius, nodes, all), SNOWGIMMER_SUCCESS, nodes, all, 0.0);
    number = large_list(&t, radius, nodes - 1, all);
    expect("halves, a node less", number, SNOWGIMMER_BUDGET_EXHAUSTED, nodes - 1, 0, radius);
    expect_true("halves, a node less", distances[0] == -7.0 && points[0] == -7);
}

/* Two tables of three weights, each with a target, a radius and a candidate inside it. In the first the nearest
 * point's terms are 2^-53, 2^-53 and 1, and their sum depends on its order. */
struct table {
    double weights[LEVELS], mu[LEVELS * LEVELS], target[LEVELS], radius;
    int64_t candidate[LEVELS];
};

static const struct table rounded[2] = {
    {{2 * DBL_EPSILON, 2 * DBL_EPSILON, 4.0}, {0.0}, {0.5, 0.5, 0.5}, 1.0 + DBL_EPSILON, {1, 1, 1}},
    {{0.3, 0.7, 1.3}, {0.0, 0.0, 0.0, 0.3, 0.0, 0.0, -0.4, 0.1, 0.0}, {0.1, 2.7, -3.3}, 5.0, {1, 2, -3}},
};

/* What a search told is its point's distance, and the first of the list. */
static void expect_distance(const char *what, uint32_t number, const struct table *t, const int64_t *out) {
    const double told = real;
    const size_t n = LEVELS;
    expect_true(what, number == SNOWGIMMER_SUCCESS);
    number = snowgimmer_distance(t->weights, n, t->mu, n * n, t->target, n, out, n, &first, &second, &real);
    expect_true(what, number == SNOWGIMMER_SUCCESS && same(told, real));
    number = snowgimmer_list(t->weights, n, t->mu, n * n, t->target, n, distances, PLACES, points, PLACES * n,
        t->radius, 1000, &first, &second, &real);
    expect_true(what, number == SNOWGIMMER_SUCCESS && second > 1 && same(told, distances[0]));
}

static void found_distances(const struct table *t) {
    const size_t n = LEVELS;
    int64_t out[LEVELS];
    uint32_t number = snowgimmer_nearest(t->weights, n, t->mu, n * n, t->target, n, out, n, t->radius, 1000, &first,
        &second, &real);
    expect_distance("distance of nearest", number, t, out);
    number = snowgimmer_nearest_seeded(t->weights, n, t->mu, n * n, t->target, n, out, n, t->candidate, n, t->radius,
        1000, &first, &second, &real);
    expect_distance("distance of seeded", number, t, out);
    number = snowgimmer_nearest_ml(t->weights, n, t->mu, n * n, t->target, n, out, n, 1000, &first, &second, &real);
    expect_distance("distance of ml", number, t, out);
}

/* With n = 0 the distance is +0, whatever the radius. */
static void no_dimension(void) {
    int64_t out = 7;
    uint32_t number = snowgimmer_nearest(weights, 0, mu, 0, target, 0, &out, 0, 4.0, 0, &first, &second, &real);
    expect("n = 0", number, SNOWGIMMER_SUCCESS, 0, 0, 0.0);
    expect_true("n = 0", same(real, 0.0));
    number = snowgimmer_nearest(weights, 0, mu, 0, target, 0, &out, 0, -0.0, 0, &first, &second, &real);
    expect_true("n = 0, radius -0", number == SNOWGIMMER_SUCCESS && same(real, 0.0));
    number = snowgimmer_nearest_seeded(weights, 0, mu, 0, target, 0, &out, 0, points, 0, 4.0, 0, &first, &second,
        &real);
    expect("n = 0, seeded", number, SNOWGIMMER_SUCCESS, 0, 0, 0.0);
    expect_true("n = 0, seeded", same(real, 0.0));
    number = snowgimmer_nearest_ml(weights, 0, mu, 0, target, 0, &out, 0, 0, &first, &second, &real);
    expect("n = 0, ml", number, SNOWGIMMER_SUCCESS, 0, 0, 0.0);
    expect_true("n = 0, ml", same(real, 0.0) && out == 7);
}

/* What a call told, with real bit for bit. */
static void expect_bits(const char *what, uint32_t number, uint32_t expected, uint64_t nodes, double three) {
    expect(what, number, expected, nodes, 0, three);
    expect_true(what, same(real, three));
}

/* nearest over one weight, 1, into an output that holds this number then */
static uint32_t nearest_of_one(double t, double radius, uint64_t budget, int64_t after) {
    const double one = 1.0, zero = 0.0;
    int64_t out = 7;
    uint32_t number = snowgimmer_nearest(&one, 1, &zero, 1, &t, 1, &out, 1, radius, budget, &first, &second, &real);
    expect_true("nearest of one", out == after);
    return number;
}

/* list over one weight, 1 */
static uint32_t list_of_one(double t, double radius, uint64_t budget) {
    const double one = 1.0, zero = 0.0;
    return snowgimmer_list(&one, 1, &zero, 1, &t, 1, distances, PLACES, points, PLACES, radius, budget, &first,
        &second, &real);
}

/* A radius of minus zero counts as 0 and comes back from no refusal. The largest double below 0 is refused as it is. */
static void minus_zero(void) {
    const double below = -5e-324; /* -2^-1074 */
    expect_bits("-0, nearest", nearest_of_one(1.0, -0.0, 1, 1), SNOWGIMMER_SUCCESS, 1, 0.0);
    expect_bits("-0, outside", nearest_of_one(0.5, -0.0, 100, 7), SNOWGIMMER_OUTSIDE_RADIUS, 0, 0.0);
    expect_bits("-0, budget", nearest_of_one(1.0, -0.0, 0, 7), SNOWGIMMER_BUDGET_EXHAUSTED, 0, 0.0);
    expect_bits("-0, budget of list", list_of_one(1.0, -0.0, 0), SNOWGIMMER_BUDGET_EXHAUSTED, 0, 0.0);
    expect_bits("-0, candidate outside", seeded(1.0, 0, 1, -0.0), SNOWGIMMER_CANDIDATE_OUTSIDE, 0, 0.0);
    expect_bits("below 0, nearest", nearest_of_one(1.0, below, 100, 7), SNOWGIMMER_INVALID_RADIUS, 0, below);
    expect_bits("below 0, seeded", seeded(1.0, 0, 1, below), SNOWGIMMER_INVALID_RADIUS, 0, below);
    expect_bits("below 0, list", list_of_one(1.0, below, 100), SNOWGIMMER_INVALID_RADIUS, 0, below);
}

static void seeds(void) {
    double coefficients[N] = {0.25, 0.5};
    int64_t out[N];
    uint32_t number = snowgimmer_round(coefficients, N, out, N, &first, &second, &real);
    expect("round", number, SNOWGIMMER_SUCCESS, 0, 0, 0.0);
    expect_point("round", out, 0, 1);
    number = snowgimmer_nearest_plane(weights, N, mu, N * N, coefficients, N, out, N, &first, &second, &real);
    expect("nearest plane", number, SNOWGIMMER_SUCCESS, 0, 0, 0.0);
    expect_point("nearest plane", out, 0, 1);
    expect_true("coefficients", coefficients[0] == 0.25 && coefficients[1] == -0.5);
    number = snowgimmer_distance(weights, N, mu, N * N, target, N, out, N, &first, &second, &real);
    expect("distance", number, SNOWGIMMER_SUCCESS, 0, 0, 0.25);
    expect_true("round_away", snowgimmer_round_away(-2.5) == -3);
}

/* change_reference of a copy of the point, which is then as given in after */
static void change(const char *what, const int64_t *point, size_t len, size_t r, uint32_t expected, uint64_t index,
    const int64_t *after) {
    int64_t copy[LONG];
    memcpy(copy, point, len * sizeof *copy);
    first = second = 7;
    real = 7.0;
    uint32_t number = snowgimmer_change_reference(copy, len, r, &first, &second, &real);
    expect(what, number, expected, index, 0, 0.0);
    expect_true(what, memcmp(copy, after, len * sizeof *copy) == 0);
}

static void references(void) {
    const int64_t point[N] = {1, 2}, changed[N] = {-1, 1}, zero[N] = {0, INT64_MIN}, one[N] = {1, INT64_MIN};
    const int64_t largest[N] = {-1, INT64_MAX}, least[N] = {INT64_MIN, -INT64_MAX};
    change("reference", point, N, 0, SNOWGIMMER_SUCCESS, 0, changed);
    change("reference, twice", changed, N, 0, SNOWGIMMER_SUCCESS, 0, point);
    change("to the least", largest, N, 1, SNOWGIMMER_SUCCESS, 0, least);
    change("to the least, twice", least, N, 1, SNOWGIMMER_SUCCESS, 0, largest);
    change("no coordinate", point, 0, 0, SNOWGIMMER_REFERENCE_INDEX, 0, point);
    change("index 2 of 2", zero, N, 2, SNOWGIMMER_REFERENCE_INDEX, 0, zero);
    change("largest index", point, N, SIZE_MAX, SNOWGIMMER_REFERENCE_INDEX, 0, point);
    change("above the largest", zero, N, 1, SNOWGIMMER_CHANGED_RANGE, 0, zero);
    change("below the least", one, N, 0, SNOWGIMMER_CHANGED_RANGE, 1, one);
    change("coordinate r itself", zero + 1, 1, 0, SNOWGIMMER_CHANGED_RANGE, 0, zero + 1);
    int64_t before[LONG], after[LONG];
    for (int i = 0; i < LONG; i++) {
        before[i] = i;
        after[i] = i == 2 ? -2 : i - 2;
    }
    change("65 coordinates", before, LONG, 2, SNOWGIMMER_SUCCESS, 0, after);
    change("65 coordinates, twice", after, LONG, 2, SNOWGIMMER_SUCCESS, 0, before);
}

/* check_entry, which writes its report whatever it held */
static uint32_t check_entry(uint32_t number, uint64_t at, size_t index, double entry) {
    first = second = 7;
    real = 7.0;
    return snowgimmer_check_entry(number, at, index, entry, &first, &second, &real);
}

/* One entry after a verdict of this check, at the ends of the ranges. */
static void verdicts(void) {
    const double limit = SNOWGIMMER_COORD_LIMIT;
    const double passing[] = {0.0, -0.0, 0.5, limit, -limit}, not_finite[] = {HUGE_VAL, -HUGE_VAL, NAN};
    const double above[] = {4503599627370497.0, -4503599627370497.0, 2.0 * limit, DBL_MAX, -DBL_MAX};
    const size_t indices[] = {0, 7, SIZE_MAX};
    for (int i = 0; i < 3; i++) {
        const size_t index = indices[i];
        for (int k = 0; k < 5; k++) {
            expect("passes", check_entry(0, 99, index, passing[k]), SNOWGIMMER_SUCCESS, 0, 0, 0.0);
            expect("passes after 4", check_entry(4, 3, index, passing[k]), SNOWGIMMER_MU_RANGE, 3, 0, 0.0);
            expect("passes after 3", check_entry(3, 3, index, passing[k]), SNOWGIMMER_MU_NON_FINITE, 3, 0, 0.0);
            expect("above", check_entry(0, 99, index, above[k]), SNOWGIMMER_MU_RANGE, index, 0, 0.0);
            expect("above after 4", check_entry(4, 3, index, above[k]), SNOWGIMMER_MU_RANGE, 3, 0, 0.0);
            expect("above after 3", check_entry(3, 3, index, above[k]), SNOWGIMMER_MU_NON_FINITE, 3, 0, 0.0);
        }
        for (int k = 0; k < 3; k++) {
            expect("not finite", check_entry(0, 99, index, not_finite[k]), SNOWGIMMER_MU_NON_FINITE, index, 0, 0.0);
            expect("and after 4", check_entry(4, 3, index, not_finite[k]), SNOWGIMMER_MU_NON_FINITE, index, 0, 0.0);
            expect("and after 3", check_entry(3, 3, index, not_finite[k]), SNOWGIMMER_MU_NON_FINITE, 3, 0, 0.0);
        }
    }
}

/* Any other number comes back, with at, whatever the entry; also 17, which is no refusal. */
static void other_numbers(void) {
    const uint32_t numbers[] = {1, 2, 5, 17, UINT32_MAX};
    const double values[] = {0.5, 1e300, HUGE_VAL, NAN};
    for (int i = 0; i < 5; i++) {
        for (int k = 0; k < 4; k++) {
            expect("another number", check_entry(numbers[i], 99, 3, values[k]), numbers[i], 99, 0, 0.0);
            expect("largest at", check_entry(numbers[i], UINT64_MAX, 3, values[k]), numbers[i], UINT64_MAX, 0, 0.0);
        }
    }
}

/* What a call tells is what the next one is handed. */
static void one_after_another(void) {
    first = 0;
    uint32_t number = snowgimmer_check_entry(0, first, 3, 9007199254740992.0, &first, &second, &real);
    expect("n = 3, 2^53", number, SNOWGIMMER_MU_RANGE, 3, 0, 0.0);
    number = snowgimmer_check_entry(number, first, 6, 0.0, &first, &second, &real);
    expect("n = 3, 0", number, SNOWGIMMER_MU_RANGE, 3, 0, 0.0);
    number = snowgimmer_check_entry(number, first, 7, NAN, &first, &second, &real);
    expect("n = 3, NaN", number, SNOWGIMMER_MU_NON_FINITE, 7, 0, 0.0);
    number = snowgimmer_check_entry(0, 0, 12, NAN, &first, &second, &real);
    expect("n = 4, NaN", number, SNOWGIMMER_MU_NON_FINITE, 12, 0, 0.0);
    number = snowgimmer_check_entry(number, first, 13, HUGE_VAL, &first, &second, &real);
    expect("n = 4, infinity", number, SNOWGIMMER_MU_NON_FINITE, 12, 0, 0.0);
}

/* A number below the limit, of a simple generator. */
static uint32_t draw(uint32_t limit) {
    static uint64_t state = 1;
    state = state * UINT64_C(6364136223846793005) + UINT64_C(1442695040888963407);
    return (uint32_t)(state >> 33) % limit;
}

/* The verdict is what two calls on the table tell, whose other values pass. */
static void expect_told(uint32_t verdict, uint64_t at, size_t n, const double *entries) {
    const double ones[MOST_LEVELS] = {1.0, 1.0, 1.0, 1.0, 1.0, 1.0}, zero[MOST_LEVELS] = {0.0};
    double coefficients[MOST_LEVELS] = {0.0};
    int64_t out[MOST_LEVELS];
    uint32_t number = snowgimmer_nearest(ones, n, entries, n * n, zero, n, out, n, 0.0, 100, &first, &second, &real);
    expect_true("verdict of nearest", number == verdict && (number == SNOWGIMMER_SUCCESS || first == at));
    number = snowgimmer_nearest_plane(ones, n, entries, n * n, coefficients, n, out, n, &first, &second, &real);
    expect("verdict of nearest plane", number, verdict, at, 0, 0.0);
}

/* A table with faults, also where it is not read: after each entry the verdict is that on the table whose later entries
 * are 0. Gives the last verdict. */
static uint32_t drawn_table(size_t n) {
    const double faults[] = {NAN, HUGE_VAL, -HUGE_VAL, 1e300, -1e16, SNOWGIMMER_COORD_LIMIT, -SNOWGIMMER_COORD_LIMIT};
    const uint32_t sound = 1 + draw(20);
    double all[MOST_LEVELS * MOST_LEVELS], so_far[MOST_LEVELS * MOST_LEVELS];
    for (size_t k = 0; k < n * n; k++) {
        all[k] = draw(sound) == 0 ? faults[draw(7)] : draw(1000) / 1000.0 - 0.5;
        so_far[k] = k / n > k % n ? 0.0 : all[k];
    }
    uint32_t verdict = SNOWGIMMER_SUCCESS;
    uint64_t at = 0;
    for (size_t j = 1; j < n; j++) {
        for (size_t i = 0; i < j; i++) {
            const size_t index = j * n + i;
            so_far[index] = all[index];
            verdict = check_entry(verdict, at, index, all[index]);
            at = first;
            expect_told(verdict, at, n, so_far);
        }
    }
    expect_told(verdict, at, n, all);
    return verdict;
}

static void entries(void) {
    verdicts();
    other_numbers();
    one_after_another();
    int told[5] = {0};
    for (size_t i = 0; i < 2000; i++) told[drawn_table(2 + i % 5)]++;
    expect_true("each verdict comes often", told[0] > 100 && told[3] > 100 && told[4] > 100);
}

/* A block of names, and what was in it when it was last remembered. */
static struct snowgimmer_names block, remembered;

static void remember(void) { remembered = block; }

static void expect_unchanged(const char *what) {
    expect_true(what, memcmp(&block, &remembered, sizeof block) == 0);
}

static void expect_empty(const char *what) {
    static struct snowgimmer_names zeros;
    expect_true(what, memcmp(&block, &zeros, sizeof block) == 0);
}

/* nearest under a name, over a table of n = 2 whose nearest point is 0, 1; a refusal must leave the output alone */
static uint32_t named(uint64_t name, const double *w, const double *m, const double *t, double radius,
    uint64_t budget) {
    int64_t out[N] = {7, 8};
    first = second = 77;
    real = 77.0;
    uint32_t number = snowgimmer_nearest_kept(&block, name, w, N, m, N * N, t, N, out, N, radius, budget, &first,
        &second, &real);
    if (number == SNOWGIMMER_SUCCESS) expect_point("named", out, 0, 1);
    else expect_point("named, refused", out, 7, 8);
    return number;
}

/* the same over case G */
static uint32_t named_g(uint64_t name, uint64_t budget) { return named(name, weights, mu, target, 2.0, budget); }

/* pick_up into so many places, which gives 0, 1 or must leave them alone */
static uint32_t pick_up_into(size_t places, uint64_t name, uint64_t budget) {
    int64_t out[N + 1] = {7, 8, 9};
    first = second = 77;
    real = 77.0;
    uint32_t number = snowgimmer_pick_up_kept(&block, name, out, places, budget, &first, &second, &real);
    if (number == SNOWGIMMER_SUCCESS) expect_point("picked up", out, 0, 1);
    else expect_point("picked up, refused", out, 7, 8);
    expect_true("picked up", out[2] == 9);
    return number;
}

static uint32_t pick_up(uint64_t name, uint64_t budget) { return pick_up_into(N, name, budget); }

/* What pickups come to: 2 nodes of case G have found its point, and 5 end it. */
static void pickups(void) {
    snowgimmer_names_clear(&block);
    expect_empty("cleared");
    expect("kept", named_g(3, 2), SNOWGIMMER_BUDGET_EXHAUSTED, 2, 0, 0.25);
    expect("picked up", pick_up(3, 3), SNOWGIMMER_SUCCESS, 5, 0, 0.25);
    expect_empty("a point empties the name");
    expect("picked up again", pick_up(3, 3), SNOWGIMMER_NAME_EMPTY, 0, 0, 0.0);
    expect("kept with 2", named_g(3, 2), SNOWGIMMER_BUDGET_EXHAUSTED, 2, 0, 0.25);
    expect("2 more", pick_up(3, 2), SNOWGIMMER_BUDGET_EXHAUSTED, 4, 0, 0.25);
    remember();
    expect("none more", pick_up(3, 0), SNOWGIMMER_BUDGET_EXHAUSTED, 4, 0, 0.25);
    expect_unchanged("none more");
    expect("1 more", pick_up(3, 1), SNOWGIMMER_SUCCESS, 5, 0, 0.25);
    expect("kept with none", named_g(3, 0), SNOWGIMMER_BUDGET_EXHAUSTED, 0, 0, 2.0);
    for (uint64_t nodes = 1; nodes < 5; nodes++)
        expect("one by one", pick_up(3, 1), SNOWGIMMER_BUDGET_EXHAUSTED, nodes, 0, nodes < 2 ? 2.0 : 0.25);
    expect("the last", pick_up(3, 1), SNOWGIMMER_SUCCESS, 5, 0, 0.25);
    /* case H at the radius 1, inside which there is nothing */
    const double w[N] = {2 * DBL_EPSILON, 4.0}, zero[N * N] = {0.0}, half[N] = {0.5, 0.5};
    expect("case H, kept", named(8, w, zero, half, 1.0, 1), SNOWGIMMER_BUDGET_EXHAUSTED, 1, 0, 1.0);
    expect("case H, outside", pick_up(8, 1), SNOWGIMMER_OUTSIDE_RADIUS, 0, 0, 1.0);
    expect_empty("16 empties the name");
}

/* What stays under a name, and what takes its place. */
static void what_is_kept(void) {
    double w[N] = {1.0, 1.0}, m[N * N] = {NAN, NAN, 0.5, NAN}, t[N] = {0.25, 0.5};
    snowgimmer_names_clear(&block);
    expect("kept", named(1, w, m, t, 2.0, 2), SNOWGIMMER_BUDGET_EXHAUSTED, 2, 0, 0.25);
    for (int i = 0; i < N; i++) w[i] = m[N] = t[i] = NAN;
    remember();
    expect("a point", named_g(1, 5), SNOWGIMMER_SUCCESS, 5, 0, 0.25);
    expect("outside", named(1, weights, mu, target, 0.125, 9), SNOWGIMMER_OUTSIDE_RADIUS, 0, 0, 0.125);
    expect_unchanged("searches that end leave an older one");
    expect("another name", named_g(8, 4), SNOWGIMMER_BUDGET_EXHAUSTED, 4, 0, 0.25);
    expect("the first", pick_up(1, 0), SNOWGIMMER_BUDGET_EXHAUSTED, 2, 0, 0.25);
    expect("the other", pick_up(8, 1), SNOWGIMMER_SUCCESS, 5, 0, 0.25);
    expect_unchanged("the other name is empty again");
    expect("replaced", named_g(1, 4), SNOWGIMMER_BUDGET_EXHAUSTED, 4, 0, 0.25);
    expect("what took its place", pick_up(1, 0), SNOWGIMMER_BUDGET_EXHAUSTED, 4, 0, 0.25);
    block = remembered;
    expect("a copy, with its own table", pick_up(1, 3), SNOWGIMMER_SUCCESS, 5, 0, 0.25);
    expect_empty("a copy, with its own table");
    int64_t out = 7;
    uint32_t number = snowgimmer_nearest_kept(&block, 1, weights, 0, mu, 0, target, 0, &out, 0, 2.0, 0, &first, &second,
        &real);
    expect("n = 0, named", number, SNOWGIMMER_SUCCESS, 0, 0, 0.0);
    expect_empty("n = 0 is not kept");
}

/* 25, 26, 27 and the checks of the table under a name, none of which changes the block. */
static void refused_names(void) {
    const uint64_t none[] = {0, 9, (uint64_t)1 << 32, UINT64_MAX}, most = SNOWGIMMER_LARGEST_BUDGET;
    const double zero[N] = {1.0, 0.0};
    snowgimmer_names_clear(&block);
    expect("kept", named_g(3, 2), SNOWGIMMER_BUDGET_EXHAUSTED, 2, 0, 0.25);
    remember();
    for (int i = 0; i < 4; i++) {
        expect("no name", named(none[i], zero, mu, target, -1.0, most + 1), SNOWGIMMER_NAME_RANGE, 0, 0, 0.0);
        expect("no name, picked up", pick_up_into(1, none[i], UINT64_MAX), SNOWGIMMER_NAME_RANGE, 0, 0, 0.0);
    }
    for (uint64_t name = 1; name <= SNOWGIMMER_NAMES; name++) {
        if (name != 3) expect("empty", pick_up_into(1, name, UINT64_MAX), SNOWGIMMER_NAME_EMPTY, 0, 0, 0.0);
    }
    expect("weight 0", named(3, zero, mu, target, -1.0, most + 1), SNOWGIMMER_WEIGHT_RANGE, 1, 0, 0.0);
    expect("radius", named(3, weights, mu, target, -1.0, most + 1), SNOWGIMMER_INVALID_RADIUS, 0, 0, -1.0);
    expect("budget", named_g(3, most + 1), SNOWGIMMER_BUDGET_RANGE, most + 1, 0, 0.0);
    for (size_t places = 0; places < 4; places++)
        if (places != N) expect("output", pick_up_into(places, 3, most), SNOWGIMMER_LENGTH_MISMATCH, 2, places, 0.0);
    expect("the sum", pick_up(3, most - 1), SNOWGIMMER_SUM_RANGE, most + 1, 0, 0.0);
    expect("a sum of 2^64-2", pick_up(3, UINT64_MAX - 3), SNOWGIMMER_SUM_RANGE, UINT64_MAX - 1, 0, 0.0);
    expect("a sum of 2^64-1", pick_up(3, UINT64_MAX - 2), SNOWGIMMER_SUM_RANGE, UINT64_MAX, 0, 0.0);
    expect("a larger sum", pick_up(3, UINT64_MAX - 1), SNOWGIMMER_SUM_RANGE, UINT64_MAX, 0, 0.0);
    expect("the largest", pick_up(3, UINT64_MAX), SNOWGIMMER_SUM_RANGE, UINT64_MAX, 0, 0.0);
    expect_unchanged("refusals leave the block as it was");
    expect("2^60 itself", pick_up(3, most - 2), SNOWGIMMER_SUCCESS, 5, 0, 0.25);
}

/* The functions by slices: lengths of a block that are wrong, after 25 and before 2 and 26. */
static void block_lengths(void) {
    static double reals[SNOWGIMMER_NAMES_REALS + 1];
    static int64_t integers[SNOWGIMMER_NAMES_INTEGERS + 1];
    static uint64_t counts[SNOWGIMMER_NAMES_COUNTS + 1];
    const size_t right[3] = {SNOWGIMMER_NAMES_REALS, SNOWGIMMER_NAMES_INTEGERS, SNOWGIMMER_NAMES_COUNTS};
    int64_t out[N] = {7, 8};
    for (int wrong = 0; wrong < 3; wrong++) {
        const size_t found[3] = {0, right[wrong] - 1, right[wrong] + 1};
        for (int k = 0; k < 3; k++) {
            /* those behind the wrong one are wrong too */
            size_t len[3] = {right[0], wrong < 1 ? 0 : right[1], 0};
            len[wrong] = found[k];
            for (uint64_t name = 0; name < 2; name++) {
                const uint32_t expected = name == 0 ? SNOWGIMMER_NAME_RANGE : SNOWGIMMER_LENGTH_MISMATCH;
                const uint64_t one = name == 0 ? 0 : right[wrong], two = name == 0 ? 0 : found[k];
                expect("length, named", snowgimmer_nearest_named(reals, len[0], integers, len[1], counts, len[2], name,
                    weights, N, mu, 3, target, N, out, N, 2.0, 2, &first, &second, &real), expected, one, two, 0.0);
                expect("length, picked up", snowgimmer_pick_up(reals, len[0], integers, len[1], counts, len[2], name,
                    out, N, 2, &first, &second, &real), expected, one, two, 0.0);
            }
        }
    }
    uint32_t number = snowgimmer_nearest_named(reals, right[0], integers, right[1], counts, right[2], 1, weights, N, mu,
        N * N, target, N, out, N, 2.0, 2, &first, &second, &real);
    expect("slices of zeros", number, SNOWGIMMER_BUDGET_EXHAUSTED, 2, 0, 0.25);
    expect_point("slices of zeros", out, 7, 8);
    number = snowgimmer_pick_up(reals, right[0], integers, right[1], counts, right[2], 1, out, N, 3, &first, &second,
        &real);
    expect("slices", number, SNOWGIMMER_SUCCESS, 5, 0, 0.25);
    expect_point("slices", out, 0, 1);
}

/* A drawn table whose weights fall, for a search of some thousand nodes at the radius 80. */
static void drawn_search(double *w, double *m, double *t) {
    for (size_t k = 0; k < DRAWN * DRAWN; k++) m[k] = draw(1001) / 1000.0 - 0.5;
    for (size_t i = 0; i < DRAWN; i++) {
        w[i] = (double)(1 << (9 - 9 * i / (DRAWN - 1))) * (1.0 + draw(1000) / 1000.0);
        t[i] = draw(20001) / 1000.0 - 10.0;
    }
}

/* A search in slices of the budget gives what it gives in one. */
static void slices(void) {
    const uint64_t budgets[] = {1, 7, 100, 1000};
    for (int k = 0; k < 4; k++) {
        double w[DRAWN], m[DRAWN * DRAWN], t[DRAWN];
        int64_t whole[DRAWN], out[DRAWN] = {0};
        drawn_search(w, m, t);
        uint32_t number = snowgimmer_nearest(w, DRAWN, m, DRAWN * DRAWN, t, DRAWN, whole, DRAWN, 80.0, 100000, &first,
            &second, &real);
        const uint64_t nodes = first;
        const double distance = real;
        expect_true("a search of some thousand nodes", number == SNOWGIMMER_SUCCESS && nodes > 1000);
        number = snowgimmer_nearest_kept(&block, 5, w, DRAWN, m, DRAWN * DRAWN, t, DRAWN, out, DRAWN, 80.0, budgets[k],
            &first, &second, &real);
        for (uint64_t spent = budgets[k]; spent < nodes; spent += budgets[k]) {
            expect_true("spent", number == SNOWGIMMER_BUDGET_EXHAUSTED && first == spent && out[0] == 0);
            number = snowgimmer_pick_up_kept(&block, 5, out, DRAWN, budgets[k], &first, &second, &real);
        }
        expect("in slices", number, SNOWGIMMER_SUCCESS, nodes, 0, distance);
        expect_true("in slices", same(real, distance) && memcmp(out, whole, sizeof out) == 0);
    }
    expect_empty("in slices");
}

/* A name with these contents ends as a search or is empty, and tries at most as many nodes as the budget says. */
static void run_contents(uint64_t name) {
    int64_t out[SNOWGIMMER_LARGEST_DIMENSION];
    uint32_t number = snowgimmer_pick_up_kept(&block, name, out, 0, 50, &first, &second, &real);
    if (number == SNOWGIMMER_NAME_EMPTY) return;
    expect_true("n of contents", number == SNOWGIMMER_LENGTH_MISMATCH && first > 0 && first <= 23 && second == 0);
    const size_t n = (size_t)first;
    number = snowgimmer_pick_up_kept(&block, name, out, n, 0, &first, &second, &real);
    expect_true("nodes of contents", number == SNOWGIMMER_BUDGET_EXHAUSTED);
    const uint64_t nodes = first;
    number = snowgimmer_pick_up_kept(&block, name, out, n, 50, &first, &second, &real);
    if (number == SNOWGIMMER_SUCCESS || number == SNOWGIMMER_BUDGET_EXHAUSTED)
        expect_true("nodes of contents", first >= nodes && first <= nodes + 50);
    else expect_true("contents", number == SNOWGIMMER_OUTSIDE_RADIUS || number == SNOWGIMMER_SUM_RANGE);
}

/* Contents that the library has not written: bytes of one kind, and kept searches with elements that are drawn. */
static void other_contents(void) {
    const int bytes[] = {0, 1, 0x7F, 0xFF};
    for (int k = 0; k < 4; k++) {
        memset(&block, bytes[k], sizeof block);
        for (uint64_t name = 1; name <= SNOWGIMMER_NAMES; name++)
            expect("bytes of one kind", pick_up(name, 9), SNOWGIMMER_NAME_EMPTY, 0, 0, 0.0);
    }
    double w[DRAWN], m[DRAWN * DRAWN], t[DRAWN];
    int64_t out[DRAWN];
    snowgimmer_names_clear(&block);
    drawn_search(w, m, t);
    for (uint64_t name = 1; name <= SNOWGIMMER_NAMES; name++)
        snowgimmer_nearest_kept(&block, name, w, DRAWN, m, DRAWN * DRAWN, t, DRAWN, out, DRAWN, 80.0, 100 * name,
            &first, &second, &real);
    remember();
    const double reals[] = {NAN, HUGE_VAL, -HUGE_VAL, DBL_MAX, -0.0, -1.0, 0.5};
    const int64_t integers[] = {INT64_MIN, INT64_MAX, -1, 0, 1};
    const uint64_t counts[] = {0, 1, 2, 7, 8, 22, 23, 24, (uint64_t)1 << 60, ((uint64_t)1 << 63) - 1, UINT64_MAX};
    for (int k = 0; k < 2000; k++) {
        block = remembered;
        for (int i = 0; i < 20; i++) {
            block.reals[draw(SNOWGIMMER_NAMES_REALS)] = reals[draw(7)];
            block.integers[draw(SNOWGIMMER_NAMES_INTEGERS)] = integers[draw(5)];
            if (i < 8) block.counts[draw(SNOWGIMMER_NAMES_COUNTS)] = counts[draw(11)];
        }
        for (uint64_t name = 1; name <= SNOWGIMMER_NAMES; name++) run_contents(name);
    }
    snowgimmer_names_clear(&block);
    expect_empty("cleared");
}

/* What the last turn told beside its report, and the places that it was lent, with one more behind them. */
static uint64_t served, dimension;
static int64_t lent[TURN + 2];

/* a turn into so many places, of which only those of a point may change */
static uint32_t turn_into(size_t places, uint64_t slice) {
    for (int i = 0; i < TURN + 2; i++) lent[i] = -7 - i;
    first = second = served = dimension = 77;
    real = 77.0;
    uint32_t number = snowgimmer_turn_kept(&block, lent, places, slice, &served, &dimension, &first, &second, &real);
    for (int i = number == SNOWGIMMER_SUCCESS ? (int)dimension : 0; i < TURN + 2; i++)
        expect_true("places of a turn", lent[i] == -7 - i);
    return number;
}

/* The turn is refused by a check: it serves no name, and changes nothing. */
static void refuse_turn(const char *what, size_t places, uint64_t slice, uint32_t expected, uint64_t one,
    uint64_t two) {
    remember();
    expect(what, turn_into(places, slice), expected, one, two, 0.0);
    expect_true(what, served == 0 && dimension == 0);
    expect_unchanged(what);
}

/* What the block holds is what it held when it was remembered, but for one name. */
static void expect_others(const char *what, uint64_t name) {
    for (size_t k = 0; k < SNOWGIMMER_NAMES; k++) {
        if (k + 1 == name) continue;
        const size_t r = k * PART_REALS, i = k * PART_INTEGERS, c = k * PART_COUNTS;
        expect_true(what, memcmp(block.reals + r, remembered.reals + r, PART_REALS * sizeof *block.reals) == 0);
        expect_true(what,
            memcmp(block.integers + i, remembered.integers + i, PART_INTEGERS * sizeof *block.integers) == 0);
        expect_true(what, memcmp(block.counts + c, remembered.counts + c, PART_COUNTS * sizeof *block.counts) == 0);
    }
}

/* The turn serves this name with n = 2, and changes nothing of another; a point is 0, 1. */
static void serve(const char *what, uint64_t slice, uint64_t name, uint32_t expected, uint64_t nodes, double three) {
    remember();
    expect(what, turn_into(TURN, slice), expected, nodes, 0, three);
    expect_true(what, served == name && dimension == N && block.last == name);
    if (expected == SNOWGIMMER_SUCCESS) expect_point(what, lent, 0, 1);
    expect_others(what, name);
}

/* Case G under the names from one to another, each with this budget: 2 nodes have found its point, and 5 end it. */
static void hold(uint64_t from, uint64_t to, uint64_t budget) {
    for (uint64_t name = from; name <= to; name++)
        expect("held", named_g(name, budget), SNOWGIMMER_BUDGET_EXHAUSTED, budget, 0, budget < 2 ? 2.0 : 0.25);
}

/* 28, 29, 6 of the output, and their order. */
static void refused_turns(void) {
    const uint64_t most = SNOWGIMMER_LARGEST_SLICE, wrong[] = {0, most + 1, (uint64_t)1 << 32, UINT64_MAX};
    const size_t places[] = {0, TURN - 1, TURN + 1};
    snowgimmer_names_clear(&block);
    block.last = 5;
    for (int held = 0; held < 2; held++) {
        for (int i = 0; i < 4; i++) {
            refuse_turn("slice", TURN, wrong[i], SNOWGIMMER_SLICE_RANGE, 0, 0);
            refuse_turn("slice, before the rest", 0, wrong[i], SNOWGIMMER_SLICE_RANGE, 0, 0);
        }
        for (int i = 0; i < 3; i++) {
            if (held) refuse_turn("places", places[i], 1, SNOWGIMMER_LENGTH_MISMATCH, TURN, places[i]);
            else refuse_turn("none held, before places", places[i], 1, SNOWGIMMER_NONE_HELD, 0, 0);
        }
        if (held) continue;
        refuse_turn("none held", TURN, 1, SNOWGIMMER_NONE_HELD, 0, 0);
        refuse_turn("none held", TURN, most, SNOWGIMMER_NONE_HELD, 0, 0);
        hold(3, 3, 2);
    }
    /* the ends of the slices that are taken */
    serve("least slice", 1, 3, SNOWGIMMER_BUDGET_EXHAUSTED, 3, 0.25);
    serve("largest slice", most, 3, SNOWGIMMER_SUCCESS, 5, 0.25);
    refuse_turn("none held any more", TURN, 1, SNOWGIMMER_NONE_HELD, 0, 0);
    expect_true("the last stays", block.last == 3);
}

/* The function by slices, over a block that holds a search: wrong lengths of these come after 28 and before out's. */
static void turn_lengths(void) {
    static double reals[SNOWGIMMER_NAMES_REALS + 1];
    static int64_t integers[SNOWGIMMER_NAMES_INTEGERS + 1];
    static uint64_t counts[SNOWGIMMER_NAMES_COUNTS + 1];
    const size_t right[3] = {SNOWGIMMER_NAMES_REALS, SNOWGIMMER_NAMES_INTEGERS, SNOWGIMMER_NAMES_COUNTS};
    uint64_t last = 5, name, n;
    int64_t out[TURN] = {7, 8, 9};
    snowgimmer_names_clear(&block);
    hold(3, 3, 2);
    memcpy(reals, block.reals, sizeof block.reals);
    memcpy(integers, block.integers, sizeof block.integers);
    memcpy(counts, block.counts, sizeof block.counts);
    for (int wrong = 0; wrong < 3; wrong++) {
        const size_t found[3] = {0, right[wrong] - 1, right[wrong] + 1};
        for (int k = 0; k < 3; k++) {
            /* those behind the wrong one are wrong too */
            size_t len[3] = {right[0], wrong < 1 ? 0 : right[1], 0};
            len[wrong] = found[k];
            for (uint64_t slice = 0; slice < 2; slice++) {
                name = n = 77;
                uint32_t number = snowgimmer_turn(reals, len[0], integers, len[1], counts, len[2], &last, out, 0, slice,
                    &name, &n, &first, &second, &real);
                if (slice == 0) expect("28 before lengths", number, SNOWGIMMER_SLICE_RANGE, 0, 0, 0.0);
                else expect("length, turn", number, SNOWGIMMER_LENGTH_MISMATCH, right[wrong], found[k], 0.0);
                expect_true("length, turn", name == 0 && n == 0 && last == 5);
            }
        }
    }
    expect_true("lengths leave the slices", memcmp(reals, block.reals, sizeof block.reals) == 0
        && memcmp(integers, block.integers, sizeof block.integers) == 0
        && memcmp(counts, block.counts, sizeof block.counts) == 0);
    uint32_t number = snowgimmer_turn(reals, right[0], integers, right[1], counts, right[2], &last, out, TURN, 3, &name,
        &n, &first, &second, &real);
    expect("slices", number, SNOWGIMMER_SUCCESS, 5, 0, 0.25);
    expect_point("slices", out, 0, 1);
    expect_true("slices", name == 3 && n == N && last == 3 && out[2] == 9);
}

/* Which name comes next. */
static void next_names(void) {
    const uint64_t before_the_first[] = {0, 8, 9, UINT64_MAX};
    snowgimmer_names_clear(&block);
    hold(1, 2, 0);
    for (uint64_t nodes = 1; nodes < 3; nodes++)
        for (uint64_t name = 1; name < 3; name++)
            serve("1, 2, 1, 2", 1, name, SNOWGIMMER_BUDGET_EXHAUSTED, nodes, nodes < 2 ? 2.0 : 0.25);
    snowgimmer_names_clear(&block);
    hold(1, 8, 2);
    const struct snowgimmer_names all = block;
    for (int i = 0; i < 4; i++) {
        block = all;
        block.last = before_the_first[i];
        serve("from 1 on", 1, 1, SNOWGIMMER_BUDGET_EXHAUSTED, 3, 0.25);
    }
    for (uint64_t last = 1; last < 8; last++) {
        block = all;
        block.last = last;
        serve("the next", 1, last + 1, SNOWGIMMER_BUDGET_EXHAUSTED, 3, 0.25);
    }
    /* empty names are passed over, and 1 follows 8 */
    const uint64_t held[] = {2, 5, 8};
    snowgimmer_names_clear(&block);
    for (int i = 0; i < 3; i++) hold(held[i], held[i], 0);
    for (int i = 0; i < 6; i++)
        serve("2, 5, 8, 2", 1, held[i % 3], SNOWGIMMER_BUDGET_EXHAUSTED, i < 3 ? 1 : 2, i < 3 ? 2.0 : 0.25);
    /* the last alone */
    snowgimmer_names_clear(&block);
    hold(5, 5, 2);
    serve("alone", 1, 5, SNOWGIMMER_BUDGET_EXHAUSTED, 3, 0.25);
    serve("alone, again", 1, 5, SNOWGIMMER_BUDGET_EXHAUSTED, 4, 0.25);
    serve("alone, its end", 1, 5, SNOWGIMMER_SUCCESS, 5, 0.25);
    refuse_turn("nobody", TURN, 1, SNOWGIMMER_NONE_HELD, 0, 0);
    snowgimmer_names_clear(&block);
    expect_empty("cleared, with its last");
}

/* The name last served stays the last, whatever becomes of it otherwise: a program that looks from 1 on again would
 * serve name 1. */
static void last_served(void) {
    snowgimmer_names_clear(&block);
    hold(1, 4, 2);
    serve("the first", 1, 1, SNOWGIMMER_BUDGET_EXHAUSTED, 3, 0.25);
    serve("its end", 3, 2, SNOWGIMMER_SUCCESS, 5, 0.25);
    serve("emptied by its turn", 1, 3, SNOWGIMMER_BUDGET_EXHAUSTED, 3, 0.25);
    expect("picked up", pick_up(3, 2), SNOWGIMMER_SUCCESS, 5, 0, 0.25);
    expect_true("a pickup leaves the last", block.last == 3);
    serve("emptied by a pickup", 1, 4, SNOWGIMMER_BUDGET_EXHAUSTED, 3, 0.25);
    snowgimmer_names_clear(&block);
    hold(1, 3, 2);
    serve("its end", 3, 1, SNOWGIMMER_SUCCESS, 5, 0.25);
    hold(1, 1, 2);
    serve("emptied and filled again", 1, 2, SNOWGIMMER_BUDGET_EXHAUSTED, 3, 0.25);
    hold(2, 2, 0);
    serve("replaced", 1, 3, SNOWGIMMER_BUDGET_EXHAUSTED, 3, 0.25);
    expect("picked up", pick_up(1, 2), SNOWGIMMER_BUDGET_EXHAUSTED, 4, 0, 0.25);
    serve("a pickup is no turn", 1, 1, SNOWGIMMER_SUCCESS, 5, 0.25);
    refuse_turn("refused", 0, 1, SNOWGIMMER_LENGTH_MISMATCH, TURN, 0);
    serve("a refused turn is none", 1, 2, SNOWGIMMER_BUDGET_EXHAUSTED, 1, 2.0);
}

/* Eight searches that need 3 nodes more: the eighth ends by turn 8*k, where k slices are 3 nodes or more, also if the
 * other names are filled again at once. */
static void eight_searches(void) {
    snowgimmer_names_clear(&block);
    hold(1, 8, 2);
    for (uint64_t name = 1; name < 9; name++) serve("k = 1", 3, name, SNOWGIMMER_SUCCESS, 5, 0.25);
    refuse_turn("k = 1", TURN, 3, SNOWGIMMER_NONE_HELD, 0, 0);
    hold(1, 8, 2);
    for (uint64_t name = 1; name < 9; name++) serve("k = 2", 2, name, SNOWGIMMER_BUDGET_EXHAUSTED, 4, 0.25);
    for (uint64_t name = 1; name < 9; name++) serve("k = 2", 2, name, SNOWGIMMER_SUCCESS, 5, 0.25);
    refuse_turn("k = 2", TURN, 2, SNOWGIMMER_NONE_HELD, 0, 0);
    hold(1, 7, 4);
    hold(8, 8, 2);
    for (uint64_t turns = 1; turns < 16; turns++) {
        if (turns == 8) {
            serve("k = 2, others come", 2, 8, SNOWGIMMER_BUDGET_EXHAUSTED, 4, 0.25);
        } else {
            serve("others come", 2, turns % 8, SNOWGIMMER_SUCCESS, 5, 0.25);
            hold(turns % 8, turns % 8, 4);
        }
    }
    serve("k = 2, others come", 2, 8, SNOWGIMMER_SUCCESS, 5, 0.25);
}

/* 16, and searches of 1, 2 and 23 levels: a point fills the first n places. */
static void turns_of_any_n(void) {
    const double w[N] = {2 * DBL_EPSILON, 4.0}, zero[N * N] = {0.0}, half[N] = {0.5, 0.5}, quarter = 0.25;
    snowgimmer_names_clear(&block);
    expect("case H", named(8, w, zero, half, 1.0, 1), SNOWGIMMER_BUDGET_EXHAUSTED, 1, 0, 1.0);
    serve("case H", 1, 8, SNOWGIMMER_OUTSIDE_RADIUS, 0, 1.0);
    block.last = 0;
    expect_empty("16 empties the name");
    const struct large *t = large_table(TURN, 0.0, 20.0, 21.0);
    int64_t out[TURN];
    uint32_t number = snowgimmer_nearest_kept(&block, 4, t->weights, TURN, t->mu, TURN * TURN, t->target, TURN, out,
        TURN, 0.5, 9, &first, &second, &real);
    expect("n = 23", number, SNOWGIMMER_BUDGET_EXHAUSTED, 9, 0, 0.5);
    number = snowgimmer_nearest_kept(&block, 6, weights, 1, mu, 1, &quarter, 1, out, 1, 1.0, 1, &first, &second, &real);
    expect("n = 1", number, SNOWGIMMER_BUDGET_EXHAUSTED, 1, 0, 0.0625);
    hold(5, 5, 2);
    expect("n = 23", turn_into(TURN, 100), SNOWGIMMER_SUCCESS, 23, 0, 0.0);
    expect_true("n = 23", served == 4 && dimension == 23 && lent[0] == 20 && lent[1] == 21);
    for (int i = 2; i < TURN; i++) expect_true("n = 23", lent[i] == 0);
    serve("n = 2", 100, 5, SNOWGIMMER_SUCCESS, 5, 0.25);
    expect("n = 1", turn_into(TURN, 100), SNOWGIMMER_SUCCESS, 2, 0, 0.0625);
    expect_true("n = 1", served == 6 && dimension == 1 && lent[0] == 0);
    block.last = 0;
    expect_empty("each end empties its name");
}

/* A search whose sum would pass 2^60: the nodes under name 3 are set by hand. */
static void turns_at_the_limit(void) {
    for (uint64_t left = 0; left < 5; left++) {
        for (uint64_t slice = 1; slice < 6; slice++) {
            const uint64_t nodes = SNOWGIMMER_LARGEST_BUDGET - left;
            const int passes = slice > left, ends = slice >= 3;
            snowgimmer_names_clear(&block);
            hold(3, 4, 2);
            block.counts[2 * PART_COUNTS + 1] = nodes;
            /* so that it is seen which radius is told: what is kept is 0.25 */
            if (passes) block.reals[2 * PART_REALS + 576] = 0.1875;
            if (passes) serve("above 2^60", slice, 3, SNOWGIMMER_BUDGET_EXHAUSTED, nodes, 0.1875);
            else if (ends) serve("up to 2^60", slice, 3, SNOWGIMMER_SUCCESS, nodes + 3, 0.25);
            else serve("up to 2^60", slice, 3, SNOWGIMMER_BUDGET_EXHAUSTED, nodes + slice, 0.25);
            if (passes || ends) expect("emptied", pick_up(3, 0), SNOWGIMMER_NAME_EMPTY, 0, 0, 0.0);
            else expect("kept", pick_up(3, 0), SNOWGIMMER_BUDGET_EXHAUSTED, nodes + slice, 0, 0.25);
            serve("the other name", 3, 4, SNOWGIMMER_SUCCESS, 5, 0.25);
            if (!passes && !ends) continue;
            block.last = 0;
            expect_empty("nothing is left");
        }
    }
}

/* A turn is a pickup of the next held name, whatever the block holds: it tells and leaves what the pickup does in a
 * copy. Gives whether a name was served. */
static int expect_as_pick_up(uint64_t slice) {
    static struct snowgimmer_names copy;
    int64_t out[TURN];
    remember();
    copy = block;
    uint64_t name = block.last < 8 ? block.last : 0, n = 0;
    for (int tried = 0; tried < 8 && n == 0; tried++) {
        name = name % 8 + 1;
        if (snowgimmer_pick_up_kept(&copy, name, out, 0, 0, &first, &second, &real) == SNOWGIMMER_LENGTH_MISMATCH)
            n = first;
    }
    if (n == 0) {
        refuse_turn("nothing held", TURN, slice, SNOWGIMMER_NONE_HELD, 0, 0);
        return 0;
    }
    for (int i = 0; i < TURN; i++) out[i] = -7 - i;
    const uint32_t expected = snowgimmer_pick_up_kept(&copy, name, out, (size_t)n, slice, &first, &second, &real);
    const uint64_t one = first;
    const double three = real;
    const uint32_t number = turn_into(TURN, slice);
    expect_others("as a pickup", name);
    expect_true("as a pickup", served == name && dimension == n && block.last == name);
    if (expected == SNOWGIMMER_SUM_RANGE) {
        expect_true("above 2^60", number == SNOWGIMMER_BUDGET_EXHAUSTED && first == one - slice);
        expect_true("above 2^60", same(real, remembered.reals[(name - 1) * PART_REALS + 576]));
        return 1;
    }
    expect_true("as a pickup", number == expected && first == one && second == 0 && same(real, three));
    expect_true("as a pickup", memcmp(lent, out, sizeof out) == 0);
    copy.last = name;
    expect_true("as a pickup", memcmp(&block, &copy, sizeof block) == 0);
    return 1;
}

/* Rows of calls that fill, pick up and serve names, some of which hold what the library has not written. */
static void drawn_turns(void) {
    double w[DRAWN], m[DRAWN * DRAWN], t[DRAWN];
    int64_t out[DRAWN];
    int count = 0;
    snowgimmer_names_clear(&block);
    for (int k = 0; k < 3000; k++) {
        const uint64_t name = 1 + draw(SNOWGIMMER_NAMES);
        const uint32_t kind = draw(16);
        if (kind == 0) {
            drawn_search(w, m, t);
            const size_t n = 1 + draw(DRAWN);
            snowgimmer_nearest_kept(&block, name, w, n, m, n * n, t, n, out, n, 20.0 * (double)n, draw(20), &first,
                &second, &real);
        } else if (kind == 1) {
            const size_t n = (size_t)block.counts[(name - 1) * PART_COUNTS];
            snowgimmer_pick_up_kept(&block, name, out, n <= DRAWN ? n : 0, draw(200), &first, &second, &real);
        } else if (kind == 2) {
            block.counts[(name - 1) * PART_COUNTS + draw(5)] = draw(24);
            block.counts[draw(SNOWGIMMER_NAMES_COUNTS)] = SNOWGIMMER_LARGEST_BUDGET - draw(100);
            block.last = draw(12);
        } else {
            count += expect_as_pick_up(1 + draw(100));
        }
    }
    expect_true("most turns serve a name", count > 1000);
    snowgimmer_names_clear(&block);
}

static void turns(void) {
    refused_turns();
    turn_lengths();
    next_names();
    last_served();
    eight_searches();
    turns_of_any_n();
    turns_at_the_limit();
    drawn_turns();
}

static void kept_searches(void) {
    expect_true("size", sizeof(struct snowgimmer_names) == SNOWGIMMER_NAMES_SIZE);
    expect_empty("a static block");
    pickups();
    what_is_kept();
    refused_names();
    block_lengths();
    slices();
    other_contents();
    turns();
}

/* ratio, which writes its report whatever it held, by so many of these distances */
static void ratio(const char *what, double d1, double d2, size_t len, double radius, uint64_t p, uint64_t q,
    uint32_t expected, uint64_t verdict) {
    const double given[3] = {d1, d2, NAN};
    double lent[3];
    memcpy(lent, given, sizeof lent);
    first = second = 7;
    real = 7.0;
    uint32_t number = snowgimmer_ratio(lent, len, radius, p, q, &first, &second, &real);
    expect(what, number, expected, verdict, 0, 0.0);
    expect_true(what, same(real, 0.0) && memcmp(lent, given, sizeof lent) == 0);
}

/* The test of d1 against another double, as the second distance and as the radius of a lone one. */
static void met(const char *what, double d1, double other, uint64_t p, uint64_t q, int expected) {
    ratio(what, d1, other, 2, 0.0, p, q, SNOWGIMMER_SUCCESS, expected ? SNOWGIMMER_HOLDS : SNOWGIMMER_FAILS);
    ratio(what, d1, other, 3, 0.0, p, q, SNOWGIMMER_SUCCESS, expected ? SNOWGIMMER_HOLDS : SNOWGIMMER_FAILS);
    ratio(what, d1, 0.0, 1, other, p, q, SNOWGIMMER_SUCCESS, expected ? SNOWGIMMER_HOLDS : SNOWGIMMER_OPEN);
}

/* The verdict by 3 and 1 on the list of one weight, lent so many places, as the header's example asks for it. */
static void ratio_of_list(const char *what, double weight, double t, size_t places, double radius, uint64_t verdict) {
    const double zero = 0.0;
    uint32_t number = snowgimmer_list(&weight, 1, &zero, 1, &t, 1, distances, places, points, places, radius, 100,
        &first, &second, &real);
    const size_t found = number == SNOWGIMMER_SUCCESS ? (size_t)second : 0;
    number = snowgimmer_ratio(distances, found, radius, 3, 1, &first, &second, &real);
    expect(what, number, SNOWGIMMER_SUCCESS, verdict, 0, 0.0);
}

static void ratios_of_lists(void) {
    ratio_of_list("no point", 4.0, 0.75, PLACES, 0.125, SNOWGIMMER_NONE);
    ratio_of_list("a lone point", 4.0, 0.75, PLACES, 0.25, SNOWGIMMER_OPEN);
    ratio_of_list("a radius below 3 times", 4.0, 0.75, PLACES, from_bits(0x3FE7FFFFFFFFFFFF), SNOWGIMMER_OPEN);
    ratio_of_list("a radius of 3 times", 4.0, 0.75, PLACES, 0.75, SNOWGIMMER_HOLDS);
    ratio_of_list("two points", 1.0, 0.4375, PLACES, 1.0, SNOWGIMMER_FAILS);
    ratio_of_list("two points in one place", 1.0, 0.4375, 1, 1.0, SNOWGIMMER_NONE);
    ratio_of_list("one point at 0", 1.0, 0.0, PLACES, -0.0, SNOWGIMMER_HOLDS);
    ratio_of_list("two points at 0", from_bits(1), 0.5, PLACES, 0.0, SNOWGIMMER_HOLDS);
    expect("list", list(8), SNOWGIMMER_SUCCESS, 7, 5, 0.0);
    uint32_t number = snowgimmer_ratio(distances, 5, 2.0, 3, 1, &first, &second, &real);
    expect("5 points, 3 and 1", number, SNOWGIMMER_SUCCESS, SNOWGIMMER_FAILS, 0, 0.0);
    number = snowgimmer_ratio(distances, 5, 2.0, 2, 1, &first, &second, &real);
    expect("5 points, 2 and 1", number, SNOWGIMMER_SUCCESS, SNOWGIMMER_HOLDS, 0, 0.0);
}

/* Where a rounding or an overflow decides. A third of the largest double, times 3, rounds to infinity. */
static void products(void) {
    const double third = DBL_MAX / 3.0, below = from_bits(0x7FD5555555555554);
    met("3 times, rounded", from_bits(0x3FF0000000000003), from_bits(0x4008000000000004), 3, 1, 1);
    met("below 3 times, rounded", from_bits(0x3FF0000000000003), from_bits(0x4008000000000003), 3, 1, 0);
    met("a third that is d1", from_bits(0x3FF0000000000001), from_bits(0x4008000000000001), 3, 1, 0);
    met("no p/q", from_bits(0x3FFAEEB0F8A83510), from_bits(0x4006719379E1818D), 5, 3, 1);
    met("no product divided", from_bits(0x3FF4B430798D66C4), from_bits(0x400140D30FF5D5A3), 5, 3, 0);
    met("no quotient", from_bits(0x3FF57FC9618F0ECE), from_bits(0x40001FD7092B4B1A), 3, 2, 1);
    met("finite", DBL_MAX, DBL_MAX, 1, 1, 1);
    met("both infinite", DBL_MAX, DBL_MAX, 2, 2, 0);
    met("the other infinite", below, DBL_MAX, 3, 3, 1);
    met("a tie to infinity", third, DBL_MAX, 3, 3, 0);
    met("0", 0.0, 0.0, 1000, 1, 1);
    met("0 and -0", 0.0, -0.0, 1000, 1, 1);
    met("a smallest one", from_bits(1), from_bits(999), 1000, 1, 0);
    met("1000 of the smallest", from_bits(1), from_bits(1000), 1000, 1, 1);
}

/* Doubles that no list has. */
static void other_doubles(void) {
    const double nothing[] = {NAN, HUGE_VAL, -HUGE_VAL}, sound[] = {0.0, 1.0, -1.0};
    for (int i = 0; i < 3; i++) {
        ratio("no distance", nothing[i], nothing[i], 0, nothing[i], 3, 1, SNOWGIMMER_SUCCESS, SNOWGIMMER_NONE);
        for (int k = 0; k < 3; k++) {
            met("not finite against it", nothing[i], nothing[k], 3, 1, 0);
            met("not finite", nothing[i], sound[k], 3, 1, 0);
            met("against not finite", sound[i], nothing[k], 3, 1, nothing[k] > 0.0);
        }
    }
    met("falling", 3.0, 1.0, 1, 1, 0);
    met("negative", -1.0, -3.0, 3, 1, 1);
    met("negative, falling", -1.0, -4.0, 3, 1, 0);
}

/* p and q at the ends of their range, beside 0 to 3 distances. */
static void factors(void) {
    const uint64_t ends[] = {0, 1, 2, 999, SNOWGIMMER_LARGEST_FACTOR, 1001, ((uint64_t)1 << 32) + 1, UINT64_MAX};
    const uint64_t verdict[] = {SNOWGIMMER_NONE, SNOWGIMMER_HOLDS, SNOWGIMMER_HOLDS, SNOWGIMMER_HOLDS};
    for (int i = 0; i < 8; i++) {
        for (int k = 0; k < 8; k++) {
            const uint64_t p = ends[i], q = ends[k];
            for (size_t len = 0; len < 4; len++) {
                if (p < 1 || p > 1000 || p < q)
                    ratio("p", 1.0, 1000.0, len, 1000.0, p, q, SNOWGIMMER_SETTING_RANGE, 0);
                else if (q < 1)
                    ratio("q", 1.0, 1000.0, len, 1000.0, p, q, SNOWGIMMER_SETTING_RANGE, 1);
                else
                    ratio("p and q", 1.0, 1000.0, len, 1000.0, p, q, SNOWGIMMER_SUCCESS, verdict[len]);
            }
        }
    }
}

static void ratios(void) {
    ratios_of_lists();
    products();
    other_doubles();
    factors();
    static const char *const words[] = {"none", "holds", "fails", "open", "unknown"};
    for (uint64_t k = 0; k < 5; k++) expect_true(words[k], strcmp(snowgimmer_verdict_name(k), words[k]) == 0);
    expect_true("verdict 2^32", strcmp(snowgimmer_verdict_name((uint64_t)1 << 32), "unknown") == 0);
}

/* 1 and 17 are no refusal of a function. */
static void names(void) {
    static const char *const all[] = {"Success", "Unknown", "TableSize", "MuNonFinite", "MuRange", "WeightRange",
        "LengthMismatch", "NonFinite", "InvalidRadius", "BudgetRange", "CandidateLength", "CandidateDistance",
        "CandidateOutside", "WidenedRadius", "ListSize", "BudgetExhausted", "OutsideRadius", "Unknown", "ListFull",
        "ReferenceIndex", "ChangedRange", "SettingRange", "MatrixRange", "NotInverse", "MappedRange", "NameRange",
        "NameEmpty", "SumRange", "SliceRange", "NoneHeld", "Unknown"};
    for (uint32_t number = 0; number < 31; number++) expect_name(number, all[number]);
    expect_name(UINT32_MAX, "Unknown");
}

int main(void) {
    searches();
    tables();
    candidates();
    candidate_at_the_radius();
    receiver_coordinates();
    lists();
    running_centres();
    sizes();
    /* 64 coordinates for each: below 94,208 together, and above */
    halves(10);
    halves(11);
    for (int i = 0; i < 2; i++) found_distances(&rounded[i]);
    no_dimension();
    minus_zero();
    seeds();
    references();
    entries();
    kept_searches();
    ratios();
    names();
    if (differences == 0) printf("all as expected\n");
    return differences != 0;
}
