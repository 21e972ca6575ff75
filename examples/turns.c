/* Eight searches share one computer: each goes on by a slice of nodes when its turn comes. From the repository:
 *
 *     cc -Iinclude examples/turns.c target/staticlib/libsnowgimmer.a -o turns && ./turns
 *
 * or with what tools/install has put where pkg-config looks:
 *
 *     cc examples/turns.c $(pkg-config --cflags --libs snowgimmer) -o turns && ./turns
 *
 * A search that is begun with a budget of 0 is kept at once, with its own copy of table and target, and the turns do
 * the rest. A search that needs k slices ends at turn 8*k at the latest, so a short one does not wait for the long ones
 * to end. Between two turns there is time for what can't wait, also to begin a search under a name that has become
 * empty. The block of names is the program's own, and static: 53 kB may be too much for a stack. The numbers of the
 * tables mean nothing outside of this program.
 */
#include <inttypes.h>
#include <stdio.h>

#include "snowgimmer.h"

#define MOST 12
#define SLICE 250

/* The n and the radius of each search. Radii and distances are squares; inside the fourth radius there is no vector. */
static const int dimensions[SNOWGIMMER_NAMES] = {12, 5, 9, 7, 11, 6, 10, 8};
static const double radii[SNOWGIMMER_NAMES] = {100, 100, 100, 1, 100, 100, 100, 100};

/* mu is row by row, and read below the diagonal */
static double weights[MOST], mu[MOST * MOST], target[MOST];

/* It starts as zeros, which are eight empty names, of which none has been served. */
static struct snowgimmer_names names;

/* What the last call told beside its slices. */
static uint64_t first, second;
static double real;

/* Begins the search of a name, which is kept there: its number is that of a budget that has run out. */
static uint32_t begin(int name) {
    const int n = dimensions[name - 1];
    for (int j = 0; j < n; j++) {
        const int k = j + name;
        weights[j] = (double)(1 << (9 - 9 * j / (n - 1))) * (1.0 + 5 * k % 8 / 8.0);
        target[j] = 37 * k % 101 - 50 + (29 * k % 41 - 20) / 40.0;
        for (int i = 0; i < j; i++) mu[j * n + i] = ((7 * k + 13 * i) % 17 - 8) / 16.0;
    }
    const size_t size = (size_t)n;
    int64_t out[MOST];
    return snowgimmer_nearest_kept(&names, (uint64_t)name, weights, size, mu, size * size, target, size, out, size,
        radii[name - 1], 0, &first, &second, &real);
}

/* Prints how a search ended, which is with a point of n coordinates or by 16. */
static void print_end(uint32_t number, const int64_t *out, uint64_t n) {
    if (number == SNOWGIMMER_SUCCESS) {
        printf("%" PRIu64 " nodes, distance %g, point", first, real);
        for (uint64_t i = 0; i < n; i++) printf(" %" PRId64, out[i]);
        printf("\n");
    } else {
        printf("no vector is inside the radius %g\n", real);
    }
}

int main(void) {
    for (int name = 1; name <= SNOWGIMMER_NAMES; name++) {
        uint32_t number = begin(name);
        if (number != SNOWGIMMER_BUDGET_EXHAUSTED) {
            printf("name %d is not kept: %" PRIu32 " %s\n", name, number, snowgimmer_refusal_name(number));
            return 1;
        }
    }
    int64_t out[SNOWGIMMER_LARGEST_DIMENSION];
    int turns = 0, slices[SNOWGIMMER_NAMES + 1] = {0};
    for (;;) {
        uint64_t name, n;
        uint32_t number = snowgimmer_turn_kept(&names, out, SNOWGIMMER_LARGEST_DIMENSION, SLICE, &name, &n, &first,
            &second, &real);
        if (name == 0) {
            printf("after %d turns: refused %" PRIu32 " %s\n", turns, number, snowgimmer_refusal_name(number));
            snowgimmer_names_clear(&names);
            return number != SNOWGIMMER_NONE_HELD;
        }
        turns++;
        slices[name]++;
        /* it is kept, and goes on at its next turn */
        if (number == SNOWGIMMER_BUDGET_EXHAUSTED) continue;
        printf("name %" PRIu64 " ends with its slice %d, turn %d of at most %d: ", name, slices[name], turns,
            SNOWGIMMER_NAMES * slices[name]);
        print_end(number, out, n);
    }
}
