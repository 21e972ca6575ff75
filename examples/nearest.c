/* The nearest integer vector and the list of all within a radius, over a table of two weights. From the repository:
 *
 *     cc -Iinclude examples/nearest.c target/staticlib/libsnowgimmer.a -o nearest && ./nearest
 *
 * or with what tools/install has put where pkg-config looks:
 *
 *     cc examples/nearest.c $(pkg-config --cflags --libs snowgimmer) -o nearest && ./nearest
 */
#include <inttypes.h>
#include <stdio.h>

#include "snowgimmer.h"

#define N 2
#define PLACES 256

static const double weights[N] = {1.0, 1.0};
/* row by row: only mu[1*N+0] is read */
static const double mu[N * N] = {0.0, 0.0, 0.5, 0.0};
static const double target[N] = {0.25, 0.5};

/* What the last call told beside its slices. */
static uint64_t first, second;
static double real;

static void print_point(const int64_t *point) {
    for (size_t i = 0; i < N; i++) printf(" %" PRId64, point[i]);
    printf("\n");
}

static int refused(const char *call, uint32_t number) {
    printf("%s refused %" PRIu32 " %s (%" PRIu64 ", %" PRIu64 ", %g)\n", call, number, snowgimmer_refusal_name(number),
        first, second, real);
    return 1;
}

/* The radius and the distances are squares. */
static int nearest(double radius, uint64_t budget) {
    int64_t out[N];
    uint32_t number =
        snowgimmer_nearest(weights, N, mu, N * N, target, N, out, N, radius, budget, &first, &second, &real);
    if (number != SNOWGIMMER_SUCCESS) return refused("nearest", number);
    printf("nearest: %" PRIu64 " nodes, distance %g, point", first, real);
    print_point(out);
    return 0;
}

static int list(double radius, uint64_t budget) {
    static double distances[PLACES];
    static int64_t points[PLACES * N];
    uint32_t number = snowgimmer_list(weights, N, mu, N * N, target, N, distances, PLACES, points, PLACES * N, radius,
        budget, &first, &second, &real);
    if (number != SNOWGIMMER_SUCCESS) return refused("list", number);
    printf("list: %" PRIu64 " nodes, %" PRIu64 " points\n", first, second);
    for (uint64_t i = 0; i < second; i++) {
        printf("  distance %g, point", distances[i]);
        print_point(points + i * N);
    }
    return 0;
}

int main(void) {
    int failed = nearest(2.0, 100) + list(2.0, 100);
    /* a budget of 4 nodes is too small by one */
    int refusals = nearest(2.0, 4);
    return failed != 0 || refusals != 1;
}
