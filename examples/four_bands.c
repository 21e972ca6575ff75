/* Fixes the 40 float ambiguities of ten satellites on four bands, and lists the vectors within a radius. From the
 * repository:
 *
 *     cc -Iinclude examples/four_bands.c target/staticlib/libsnowgimmer.a -o four_bands && ./four_bands
 *
 * or with what tools/install has put where pkg-config looks:
 *
 *     cc examples/four_bands.c $(pkg-config --cflags --libs snowgimmer) -o four_bands && ./four_bands
 *
 * A table of more than 23 weights is for snowgimmer_nearest and snowgimmer_list alone, and there the centres are kept
 * from node to node. So it is NOT promised
 *
 *   - that no vector is nearer than the one found, or that its distance is the formula's: the program computes that
 *     anew beside it, and here the two differ in the last digits that it prints
 *   - that the list has every vector within the radius, or no other, or begins at the distance of the nearest search
 *   - that snowgimmer_ratio of such a list says anything of a vector that is not listed
 *
 * include/snowgimmer.h says what is promised. The numbers of the table mean nothing outside of this program. It is like
 * a reduced one: mu is at most 1/4 in magnitude.
 */
#include <inttypes.h>
#include <stdio.h>

#include "snowgimmer.h"

#define SATELLITES 10
#define BANDS 4
#define N (BANDS * SATELLITES)
#define PLACES 8

/* Level 10 * band + satellite. mu is row by row, and read below the diagonal. */
static double weights[N], mu[N * N], target[N];

/* What the last call told beside its slices. */
static uint64_t first, second;
static double real;

/* The float ambiguities are up to 0.1 off whole cycles. */
static void make_table(void) {
    static const double of_band[BANDS] = {30.0, 18.0, 10.0, 6.0};
    for (int j = 0; j < N; j++) {
        weights[j] = of_band[j / SATELLITES];
        target[j] = 37 * j % 101 - 50 + (29 * j % 41 - 20) / 200.0;
        for (int i = 0; i < j; i++) mu[j * N + i] = ((7 * j + 13 * i) % 17 - 8) / 32.0;
    }
}

/* The formula of include/snowgimmer.h: snowgimmer_distance takes no table of this size. */
static double formula(const int64_t *point) {
    double sum = 0.0;
    for (int i = N - 1; i >= 0; i--) {
        double center = target[i];
        for (int j = i + 1; j < N; j++) center += (target[j] - (double)point[j]) * mu[j * N + i];
        const double d = center - (double)point[i];
        sum += weights[i] * d * d;
    }
    return sum;
}

static int refused(const char *call, uint32_t number) {
    printf("%s refused %" PRIu32 " %s (%" PRIu64 ", %" PRIu64 ", %g)\n", call, number, snowgimmer_refusal_name(number),
        first, second, real);
    return 1;
}

/* The radius and the distances are squares. */
static int nearest(double radius, uint64_t budget, int64_t *fixed) {
    uint32_t number =
        snowgimmer_nearest(weights, N, mu, N * N, target, N, fixed, N, radius, budget, &first, &second, &real);
    if (number != SNOWGIMMER_SUCCESS) return refused("nearest", number);
    printf("nearest: %" PRIu64 " nodes, distance %.15g, by the formula %.15g\n", first, real, formula(fixed));
    for (int i = 0; i < N; i++) {
        if (i % SATELLITES == 0) printf("  band %d:", i / SATELLITES);
        printf(" %" PRId64 "%s", fixed[i], i % SATELLITES == SATELLITES - 1 ? "\n" : "");
    }
    return 0;
}

/* Prints where a listed vector differs from the fixed one. */
static void print_other(const int64_t *point, const int64_t *fixed) {
    int same = 1;
    for (int i = 0; i < N; i++) {
        if (point[i] == fixed[i]) continue;
        printf(", band %d, satellite %d: %+" PRId64, i / SATELLITES, i % SATELLITES, point[i] - fixed[i]);
        same = 0;
    }
    printf("%s\n", same ? ", the fixed vector" : "");
}

static int list(double radius, uint64_t budget, const int64_t *fixed) {
    double distances[PLACES];
    int64_t points[PLACES * N];
    uint32_t number = snowgimmer_list(weights, N, mu, N * N, target, N, distances, PLACES, points, PLACES * N, radius,
        budget, &first, &second, &real);
    if (number != SNOWGIMMER_SUCCESS) return refused("list", number);
    printf("list: %" PRIu64 " nodes, %" PRIu64 " points\n", first, second);
    for (uint64_t k = 0; k < second; k++) {
        printf("  distance %g", distances[k]);
        print_other(points + k * N, fixed);
    }
    return 0;
}

int main(void) {
    int64_t fixed[N];
    make_table();
    if (nearest(16.0, 100000, fixed) != 0) return 1;
    return list(16.0, 100000, fixed);
}
