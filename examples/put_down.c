/* Puts a long search down when its budget runs out, fixes another epoch, and picks the first search up again where it
 * stopped. From the repository:
 *
 *     cc -Iinclude examples/put_down.c target/staticlib/libsnowgimmer.a -o put_down && ./put_down
 *
 * or with what tools/install has put where pkg-config looks:
 *
 *     cc examples/put_down.c $(pkg-config --cflags --libs snowgimmer) -o put_down && ./put_down
 *
 * The block of names is the program's own, and static: 53 kB may be too much for a stack. The search that is kept there
 * has its own copy of table and target, so the program uses its arrays for the next epoch. A pickup takes the time of
 * its own nodes, and what comes out in the end is what one search with the sum of the budgets gives. The numbers of the
 * table mean nothing outside of this program.
 */
#include <inttypes.h>
#include <stdio.h>

#include "snowgimmer.h"

#define N 12
#define RADIUS 100.0
#define BUDGET 1000

/* the name of the first epoch's search, one of 1 to 8 */
#define FIRST_EPOCH 1

/* mu is row by row, and read below the diagonal */
static double weights[N], mu[N * N], target[N];

/* It starts as zeros, which are eight empty names. */
static struct snowgimmer_names names;

/* What the last call told beside its slices. */
static uint64_t first, second;
static double real;

/* The float ambiguities are up to `off` cycles off whole ones. */
static void make_epoch(double off) {
    for (int j = 0; j < N; j++) {
        weights[j] = (double)(1 << (9 - 9 * j / (N - 1))) * (1.0 + 5 * j % 8 / 8.0);
        target[j] = 37 * j % 101 - 50 + (29 * j % 41 - 20) / 20.0 * off;
        for (int i = 0; i < j; i++) mu[j * N + i] = ((7 * j + 13 * i) % 17 - 8) / 16.0;
    }
}

/* Prints how a search ended; gives 1 if that is by another refusal than 15. The radius and the distance are squares. */
static int print_end(const char *what, uint32_t number, const int64_t *out) {
    if (number == SNOWGIMMER_BUDGET_EXHAUSTED) {
        printf("%s: %" PRIu64 " nodes, radius %g, not ended\n", what, first, real);
    } else if (number != SNOWGIMMER_SUCCESS) {
        printf("%s: refused %" PRIu32 " %s (%" PRIu64 ", %" PRIu64 ", %g)\n", what, number,
            snowgimmer_refusal_name(number), first, second, real);
        return 1;
    } else {
        printf("%s: %" PRIu64 " nodes, distance %g, point", what, first, real);
        for (int i = 0; i < N; i++) printf(" %" PRId64, out[i]);
        printf("\n");
    }
    return 0;
}

static uint32_t nearest(uint64_t budget, int64_t *out) {
    return snowgimmer_nearest(weights, N, mu, N * N, target, N, out, N, RADIUS, budget, &first, &second, &real);
}

int main(void) {
    int64_t out[N];
    make_epoch(0.5);
    uint32_t number = snowgimmer_nearest_kept(&names, FIRST_EPOCH, weights, N, mu, N * N, target, N, out, N, RADIUS,
        BUDGET, &first, &second, &real);
    int failed = print_end("first epoch, put down", number, out);

    /* the next epoch comes in, in the place of the first, and is fixed at once */
    make_epoch(0.05);
    int64_t next[N];
    failed += print_end("next epoch", nearest(BUDGET, next), next);

    while (number == SNOWGIMMER_BUDGET_EXHAUSTED) {
        number = snowgimmer_pick_up_kept(&names, FIRST_EPOCH, out, N, BUDGET, &first, &second, &real);
        failed += print_end("first epoch, picked up", number, out);
    }

    /* the same in one search */
    make_epoch(0.5);
    failed += print_end("first epoch, in one search", nearest(100 * BUDGET, out), out);
    snowgimmer_names_clear(&names);
    return failed != 0;
}
