/* Checks a table while it is being received: n, and then the entries below the diagonal, row by row, as text from
 * standard input. From the repository:
 *
 *     cc -Iinclude examples/receive.c target/staticlib/libsnowgimmer.a -o receive
 *     echo "3   0.5   -0.25 0.125" | ./receive
 *
 * An entry that is not finite ends it at once, since no later one can change that verdict. The exit status is 0 if the
 * entries pass, 1 if the calls refuse the table for them, and 2 if the text is no table.
 */
#include <inttypes.h>
#include <stdio.h>

#include "snowgimmer.h"

/* a table of more than 23 weights is for snowgimmer_nearest and snowgimmer_list alone */
#define MOST SNOWGIMMER_LARGEST_SEARCHED

/* mu as the calls take it. Only what is received is read. */
static double mu[MOST * MOST];

/* The verdict so far: what the last call answered and told in first; at the start both are 0. */
static uint32_t number;
static uint64_t first;

static int print_verdict(uint64_t n) {
    if (number == SNOWGIMMER_SUCCESS) {
        printf("passed: %" PRIu64 " entries; hand the table to a call, which checks the rest of it\n", n * (n - 1) / 2);
        return 0;
    }
    printf("refused %" PRIu32 " %s: mu[%" PRIu64 "], row %" PRIu64 ", column %" PRIu64
           ", is %s; correct it and send the table again\n", number, snowgimmer_refusal_name(number), first, first / n,
        first % n, number == SNOWGIMMER_MU_RANGE ? "above 2^52 in magnitude" : "not finite");
    return 1;
}

int main(void) {
    unsigned n;
    if (scanf("%u", &n) != 1 || n > MOST) {
        printf("no table: send n first, from 0 to %d\n", MOST);
        return 2;
    }
    for (size_t j = 1; j < n; j++) {
        for (size_t i = 0; i < j; i++) {
            const size_t index = j * n + i;
            if (scanf("%lf", &mu[index]) != 1) {
                printf("no table: row %zu, column %zu is missing or no number; send the table again\n", j, i);
                return 2;
            }
            uint64_t second;
            double real;
            number = snowgimmer_check_entry(number, first, index, mu[index], &first, &second, &real);
            if (number == SNOWGIMMER_MU_NON_FINITE) return print_verdict(n);
        }
    }
    return print_verdict(n);
}
