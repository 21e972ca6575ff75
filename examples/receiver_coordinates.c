/* Fixes a receiver's float ambiguities by a search over reduced (decorrelated) ones. What is fixed comes back in the
 * receiver's coordinates. From the repository:
 *
 *     cc -Iinclude examples/receiver_coordinates.c target/staticlib/libsnowgimmer.a -o receiver_coordinates
 *     ./receiver_coordinates
 *
 * or with what tools/install has put where pkg-config looks:
 *
 *     cc examples/receiver_coordinates.c $(pkg-config --cflags --libs snowgimmer) -o receiver_coordinates
 *     ./receiver_coordinates
 *
 * The ambiguities a, in cycles, and their covariance matrix Q are those of examples/three-ambiguities.cov, and Z is a
 * Z-transform that decorrelates them:
 *
 *         6.290  5.978  0.544           -2   3   1              4.476  0.334  0.230
 *     Q = 5.978  6.292  2.340       Z =  3  -3  -1       Z'QZ = 0.334  1.146  0.082
 *         0.544  2.340  6.288           -1   1   0              0.230  0.082  0.626
 *
 * The reduced ambiguities are Z'a, and Z'QZ is their covariance matrix. So the arguments belong together:
 *
 *     inverse    Z, from the receiver's coordinates to the reduced ones:
 *                reduced[column] = sum over rows of  receiver[row] * inverse[row*n+column]
 *     transform  Z^-1, back to the receiver's:
 *                receiver[column] = sum over rows of  reduced[row] * transform[row*n+column]
 *     table      that of the REDUCED ambiguities, (Z'QZ)^-1 = L W L': the weights are W's diagonal, and mu is what L
 *                has below its diagonal
 *     target     a as it is
 *
 * tools/documents/test_relations checks these numbers in exact fractions: but for the rounding of weights and mu, each
 * vector of integers has one and the same distance in both coordinates.
 */
#include <inttypes.h>
#include <stdio.h>

#include "snowgimmer.h"

#define N 3

/* the receiver's float ambiguities, in cycles */
static const double target[N] = {5.45, 3.10, 2.97};

/* row by row */
static const int64_t inverse[N * N] = {
    -2, 3, 1,
    3, -3, -1,
    -1, 1, 0,
};
static const int64_t transform[N * N] = {
    1, 1, 0,
    1, 1, 1,
    0, -1, -3,
};

/* of the reduced ambiguities; mu row by row, read below the diagonal */
static const double weights[N] = {0.23201003429164407, 0.8808564288448116, 1.597444089456869};
static const double mu[N * N] = {
    0.0, 0.0, 0.0,
    -0.2676677848571493, 0.0, 0.0,
    -0.33235022626471844, -0.13099041533546327, 0.0,
};

/* Prints the float ambiguities, and the reduced ones from which the search starts. */
static void print_float(void) {
    printf("float ambiguities:");
    for (int i = 0; i < N; i++) printf(" %g", target[i]);
    printf("\n          reduced:");
    for (int column = 0; column < N; column++) {
        double sum = 0.0;
        for (int row = 0; row < N; row++) sum += target[row] * (double)inverse[row * N + column];
        printf(" %g", sum);
    }
    printf("\n");
}

/* Prints the fixed ambiguities, and the vector that they were mapped from: inverse maps them back to it. */
static void print_fixed(const int64_t *fixed) {
    printf("fixed ambiguities:");
    for (int i = 0; i < N; i++) printf(" %" PRId64, fixed[i]);
    printf("\n          reduced:");
    for (int column = 0; column < N; column++) {
        int64_t sum = 0;
        for (int row = 0; row < N; row++) sum += fixed[row] * inverse[row * N + column];
        printf(" %" PRId64, sum);
    }
    printf("\n");
}

int main(void) {
    int64_t fixed[N];
    uint64_t first, second;
    double real;
    uint32_t number = snowgimmer_prepared_nearest_ml(weights, N, mu, N * N, transform, N * N, inverse, N * N, target, N,
        fixed, N, 100, &first, &second, &real);
    if (number != SNOWGIMMER_SUCCESS) {
        printf("refused %" PRIu32 " %s (%" PRIu64 ", %" PRIu64 ", %g)\n", number, snowgimmer_refusal_name(number),
            first, second, real);
        return 1;
    }
    print_float();
    print_fixed(fixed);
    printf("squared distance: %g, by the table of the reduced ones\nnodes: %" PRIu64 "\n", real, first);
    return 0;
}
