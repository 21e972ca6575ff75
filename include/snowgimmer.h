/* Snowgimmer, a search by a triangular table: the vector of 64-bit integers that is nearest to a target.
 *
 * WHAT IS MINIMISED. For a table of n weights w and entries mu and a target t, all doubles, the vector z of n signed
 * 64-bit integers with the least
 *
 *     distance(z) = sum over i of  w[i] * (c[i] - z[i])^2
 *     c[i]        = t[i] + sum over j > i of  mu[j*n+i] * (t[j] - z[j])
 *
 * which is (t-z)' L W L' (t-z) with W = diag(w) and L the unit lower triangular matrix that has mu[j*n+i] in row j and
 * column i. So for the estimate t of whole cycles with the covariance matrix Q, the table is the factorization
 * Q^-1 = L W L'; for the basis of a lattice it is the squared lengths and the coefficients of Gram and Schmidt.
 *
 * DISTANCE AND RADIUS ARE SQUARES, as this sum is: a radius of 4 holds the vectors at a length of up to 2. They are
 * computed in IEEE 754 doubles, each operation rounded to nearest-even, and "nearest" is by the computed distance.
 *
 * FROM n = 24 ON, up to 64, which snowgimmer_nearest and snowgimmer_list alone take, the centres c[i] are not
 * computed anew at each node: they are kept, and changed by what one coordinate changed by (docs/SPECIFICATION.md,
 * "Running centres"). So their roundings depend on the path of the search. NOT PROMISED there, and not so at every
 * input:
 *
 *   - that no vector is nearer than the point found, or that its distance is the formula's, computed as above
 *   - that a list begins at the distance that snowgimmer_nearest tells
 *   - that a list has every vector inside the radius, or no other
 *   - that no vector is inside the radius where nothing is found, by refusal 16 or an empty list
 *   - that a verdict of snowgimmer_ratio says anything of vectors that are not listed
 *
 * Promised there: the answers are those of that search, for all inputs; a point is n integers, and its distance from
 * 0 to the radius; a list is strictly in its order, and has no vector twice; the nodes are at most the budget; an
 * answer other than 15 is that of every larger budget; a refusal changes nothing. The roundings are those of the
 * largest c[i] on the path. With a reduced table and targets of a few cycles they are in the last digits of a
 * distance. So take whole cycles off a large target first, and add them to the point.
 *
 * A TABLE has n weights and n*n entries mu, ROW BY ROW. n is 0 to 64 in snowgimmer_nearest and snowgimmer_list, and 0
 * to 23 in every other function. Only entries below the diagonal are read; the others, the diagonal's ones too, may
 * hold anything. For n = 4:
 *
 *              i = 0    i = 1    i = 2    i = 3
 *     j = 0      .        .        .        .
 *     j = 1    mu[4]      .        .        .          entry (j, i) is mu[j*n+i], read where j > i
 *     j = 2    mu[8]    mu[9]      .        .
 *     j = 3    mu[12]   mu[13]   mu[14]     .
 *
 * WARNING. A matrix stored column by column, as in Fortran, MATLAB and Eigen, has its entries above the diagonal of
 * this picture. No check can tell: the call succeeds, with the nearest point of another table. Transpose it first.
 *
 * ANSWERS. Every function but snowgimmer_round_away answers 0 if it succeeded, and else the number of the refusal, and
 * always writes its report through first, second and real. Where a function or a refusal has no use for one of them it
 * holds 0. snowgimmer_check_entry answers a verdict so far, 0, 3 or 4, or another number that it is handed.
 *
 *   number                  first              second   real
 *    0                      as each function says below
 *    2 TableSize            weights' length                       more than 23 weights, in nearest and list more than
 *                                                                 64, or mu of a length not n*n
 *    3 MuNonFinite          its index                             an entry that is read is not finite
 *    4 MuRange              its index                             an entry that is read is above 2^52 in magnitude
 *    5 WeightRange          its index                             a weight is not finite or not above 0
 *    6 LengthMismatch       expected           found              target, then output, is not n long, in a turn the
 *                                                                 output not 23; before them, a slice of a block of
 *                                                                 names has another length
 *    7 NonFinite            its index                             a target is not finite, or above 2^52 in magnitude
 *    8 InvalidRadius                                    radius    negative or not finite; minus zero counts as 0
 *    9 BudgetRange          budget                                it is above 2^60; in a pickup 27 is in its place
 *   10 CandidateLength      expected           found              the candidate is not n long
 *   11 CandidateDistance                                total     the candidate's distance overflows
 *   12 CandidateOutside                                 radius    the candidate's distance is above it
 *   13 WidenedRadius                                    it        it is not finite
 *   14 ListSize             distances' length                     over 4096, or points not n times as many
 *   15 BudgetExhausted      nodes                       radius    the one that stood when the walk stopped
 *   16 OutsideRadius                                    radius    no vector is inside it; from n = 24 on none is found
 *   17 is free: nothing is refused by it, and no refusal will be given it
 *   18 ListFull             points                                more points than places
 *   19 ReferenceIndex                                             r is not below the point's length
 *   20 ChangedRange         its index                             a coordinate becomes no int64_t
 *   21 SettingRange         its index                             0: p is not from 1 to 1000, or below q; 1: q is 0
 *   22 MatrixRange          its index                             an element is above 2^52 in magnitude, the inverse's
 *                                                                 counted from n*n on; also 0: one is not n*n long
 *   23 NotInverse                                                 transform and inverse are not inverse to each other
 *   24 MappedRange          its column                            a coordinate of the mapped point is no int64_t
 *   25 NameRange                                                  the name is not from 1 to 8
 *   26 NameEmpty                                                  the name holds no search
 *   27 SumRange             the sum                               of a kept search's budgets, this one too, is above
 *                                                                 2^60; 2^64-1 stands for every larger sum
 *   28 SliceRange                                                 the slice of a turn is not from 1 to 2^20
 *   29 NoneHeld                                                   no name holds a search that a turn could serve
 *
 * The first number that fits is the answer; snowgimmer_prepared_nearest_ml, snowgimmer_nearest_named,
 * snowgimmer_pick_up and snowgimmer_turn alone have other orders, which they say. A refusal leaves every slice that it
 * is lent as it was. THE EXCEPTION is a block of names, which is lent too: refusal 15 of snowgimmer_nearest_named,
 * snowgimmer_pick_up and snowgimmer_turn changes it, since the search is kept there, and so does 16 of the latter two,
 * which empties the name. 15 of a turn may empty it too, as snowgimmer_turn says, and 15 and 16 of a turn change its
 * last. The output is never changed by a refusal.
 *
 * A RADIUS of minus zero, as a computed one may be, counts as 0: the answer is that at 0, and after a refusal real is
 * never minus zero, but for a pickup or a turn from a block that these functions have not written. Before 0.5.0 it came
 * back in 12, 15 and 16.
 *
 * A BUDGET is the number of nodes that a search may try, up to 2^60. A search with more to try ends with 15. Under a
 * name it is kept then, and can be picked up with a further budget: struct snowgimmer_names.
 *
 * POINTERS. Each is aligned and not null, also where its length is 0, and there are as many elements as its length
 * says, also where the call refuses that length. What a function writes overlaps nothing else that it is passed. Nothing
 * is allocated, and nothing is kept between calls but in a block of names and the last of its turns, which the caller
 * lends. So calls may run side by side, unless they are lent the same block. The floating-point unit rounds to nearest
 * and keeps subnormal numbers, as a C program starts.
 */
#ifndef SNOWGIMMER_H
#define SNOWGIMMER_H

#include <stddef.h>
#include <stdint.h>

#define SNOWGIMMER_VERSION_MAJOR 0
#define SNOWGIMMER_VERSION_MINOR 12
#define SNOWGIMMER_VERSION_PATCH 0
#define SNOWGIMMER_VERSION "0.12.0"

/* The largest n of every function with a table but the two below, and of a kept search: a turn's output has so many
 * places. */
#define SNOWGIMMER_LARGEST_DIMENSION 23
/* The largest n of snowgimmer_nearest and snowgimmer_list. Since 0.10.0; before it was 23. */
#define SNOWGIMMER_LARGEST_SEARCHED 64
/* The most places that a list may be lent. */
#define SNOWGIMMER_LARGEST_LIST 4096
/* The largest budget, 2^60. */
#define SNOWGIMMER_LARGEST_BUDGET ((uint64_t)1 << 60)
/* The largest p and q of a ratio. */
#define SNOWGIMMER_LARGEST_FACTOR 1000
/* The largest magnitude of an entry of mu, of a target and of an element of transform and inverse, 2^52. */
#define SNOWGIMMER_COORD_LIMIT 4503599627370496.0
/* The largest name under which a search is kept; the smallest is 1. */
#define SNOWGIMMER_NAMES 8
/* The largest slice of a turn, 2^20; the smallest is 1. Since 0.12.0. */
#define SNOWGIMMER_LARGEST_SLICE 1048576
/* How many elements the slices of a block of names have, and how many bytes a struct snowgimmer_names. Before 0.12.0 it
 * had 8 bytes less, since it was without its last. */
#define SNOWGIMMER_NAMES_REALS 5168
#define SNOWGIMMER_NAMES_INTEGERS 736
#define SNOWGIMMER_NAMES_COUNTS 768
#define SNOWGIMMER_NAMES_SIZE 53384

#ifdef __cplusplus
extern "C" {
#endif

/* The answers of the functions: success and the numbered refusals. Number 1, JobLayout, is the job program's alone. */
enum snowgimmer_refusal {
    SNOWGIMMER_SUCCESS = 0,
    SNOWGIMMER_TABLE_SIZE = 2,
    SNOWGIMMER_MU_NON_FINITE = 3,
    SNOWGIMMER_MU_RANGE = 4,
    SNOWGIMMER_WEIGHT_RANGE = 5,
    SNOWGIMMER_LENGTH_MISMATCH = 6,
    SNOWGIMMER_NON_FINITE = 7,
    SNOWGIMMER_INVALID_RADIUS = 8,
    SNOWGIMMER_BUDGET_RANGE = 9,
    SNOWGIMMER_CANDIDATE_LENGTH = 10,
    SNOWGIMMER_CANDIDATE_DISTANCE = 11,
    SNOWGIMMER_CANDIDATE_OUTSIDE = 12,
    SNOWGIMMER_WIDENED_RADIUS = 13,
    SNOWGIMMER_LIST_SIZE = 14,
    SNOWGIMMER_BUDGET_EXHAUSTED = 15,
    SNOWGIMMER_OUTSIDE_RADIUS = 16,
    SNOWGIMMER_LIST_FULL = 18,
    SNOWGIMMER_REFERENCE_INDEX = 19,
    SNOWGIMMER_CHANGED_RANGE = 20,
    SNOWGIMMER_SETTING_RANGE = 21,
    SNOWGIMMER_MATRIX_RANGE = 22,
    SNOWGIMMER_NOT_INVERSE = 23,
    SNOWGIMMER_MAPPED_RANGE = 24,
    SNOWGIMMER_NAME_RANGE = 25,
    SNOWGIMMER_NAME_EMPTY = 26,
    SNOWGIMMER_SUM_RANGE = 27,
    SNOWGIMMER_SLICE_RANGE = 28,
    SNOWGIMMER_NONE_HELD = 29
};

/* The name of an answer as in the table above, "Success" of 0, and "Unknown" of a number that is not there. */
static inline const char *snowgimmer_refusal_name(uint32_t number) {
    switch (number) {
    case SNOWGIMMER_SUCCESS: return "Success";
    case SNOWGIMMER_TABLE_SIZE: return "TableSize";
    case SNOWGIMMER_MU_NON_FINITE: return "MuNonFinite";
    case SNOWGIMMER_MU_RANGE: return "MuRange";
    case SNOWGIMMER_WEIGHT_RANGE: return "WeightRange";
    case SNOWGIMMER_LENGTH_MISMATCH: return "LengthMismatch";
    case SNOWGIMMER_NON_FINITE: return "NonFinite";
    case SNOWGIMMER_INVALID_RADIUS: return "InvalidRadius";
    case SNOWGIMMER_BUDGET_RANGE: return "BudgetRange";
    case SNOWGIMMER_CANDIDATE_LENGTH: return "CandidateLength";
    case SNOWGIMMER_CANDIDATE_DISTANCE: return "CandidateDistance";
    case SNOWGIMMER_CANDIDATE_OUTSIDE: return "CandidateOutside";
    case SNOWGIMMER_WIDENED_RADIUS: return "WidenedRadius";
    case SNOWGIMMER_LIST_SIZE: return "ListSize";
    case SNOWGIMMER_BUDGET_EXHAUSTED: return "BudgetExhausted";
    case SNOWGIMMER_OUTSIDE_RADIUS: return "OutsideRadius";
    case SNOWGIMMER_LIST_FULL: return "ListFull";
    case SNOWGIMMER_REFERENCE_INDEX: return "ReferenceIndex";
    case SNOWGIMMER_CHANGED_RANGE: return "ChangedRange";
    case SNOWGIMMER_SETTING_RANGE: return "SettingRange";
    case SNOWGIMMER_MATRIX_RANGE: return "MatrixRange";
    case SNOWGIMMER_NOT_INVERSE: return "NotInverse";
    case SNOWGIMMER_MAPPED_RANGE: return "MappedRange";
    case SNOWGIMMER_NAME_RANGE: return "NameRange";
    case SNOWGIMMER_NAME_EMPTY: return "NameEmpty";
    case SNOWGIMMER_SUM_RANGE: return "SumRange";
    case SNOWGIMMER_SLICE_RANGE: return "SliceRange";
    case SNOWGIMMER_NONE_HELD: return "NoneHeld";
    default: return "Unknown";
    }
}

/* The verdicts of snowgimmer_ratio, which it gives in first. */
enum snowgimmer_verdict {
    SNOWGIMMER_NONE = 0,
    SNOWGIMMER_HOLDS = 1,
    SNOWGIMMER_FAILS = 2,
    SNOWGIMMER_OPEN = 3
};

/* The word that the job program prints for a verdict, and "unknown" of a number that is none. */
static inline const char *snowgimmer_verdict_name(uint64_t verdict) {
    switch (verdict) {
    case SNOWGIMMER_NONE: return "none";
    case SNOWGIMMER_HOLDS: return "holds";
    case SNOWGIMMER_FAILS: return "fails";
    case SNOWGIMMER_OPEN: return "open";
    default: return "unknown";
    }
}

/* The nearest integer; of two equally near ones that with the larger magnitude. A value too large for an int64_t gives
 * INT64_MAX, one too small INT64_MIN, and a NaN 0. */
int64_t snowgimmer_round_away(double x);

/* Finds the nearest integer vector inside the radius and writes it to out, coordinate 0 first: first is the number of
 * nodes, and real the point's computed distance, a square: exactly the double that snowgimmer_distance gives for it,
 * and the first distance of a snowgimmer_list at the same radius. It is finite, and +0 where n is 0. n is at most 64.
 * FROM n = 24 ON neither "nearest" nor what is said of real is promised, as the head says: real is the sum that the
 * search came to, from 0 to the radius. Refused: 2, if n is above 64; 3 to 9, 15, 16. Stack: 60 kB, and 42 kB with
 * n = 64. Before 0.3.0 real was 0 after a success, in all three searches; before 0.10.0 n was at most 23. */
uint32_t snowgimmer_nearest(const double *weights, size_t weights_len, const double *mu, size_t mu_len,
    const double *target, size_t target_len, int64_t *out, size_t out_len, double radius, uint64_t budget,
    uint64_t *first, uint64_t *second, double *real);

/* The same inside the widened radius, radius + (2^-52 * max(radius, 1)) * 4n, a candidate inside the radius being
 * known; real is the distance of the point written. Once the checks have passed it ends with a point or with 15, and
 * always with a point if the budget is at least the number of nodes that snowgimmer_list takes at the widened radius.
 * Refused: 2 to 13, 15. Stack: 61 kB. */
uint32_t snowgimmer_nearest_seeded(const double *weights, size_t weights_len, const double *mu, size_t mu_len,
    const double *target, size_t target_len, int64_t *out, size_t out_len, const int64_t *candidate,
    size_t candidate_len, double radius, uint64_t budget, uint64_t *first, uint64_t *second, double *real);

/* The same; the candidate is the nearest-plane point, and the radius that point's distance; real is the distance of the
 * point written. It too ends with a point or with 15 once the checks have passed, and always with a point if the budget
 * is at least the number of nodes that a list takes at the widened radius. Refused: 2 to 7, 9, 11, 13, 15. Stack:
 * 61 kB. */
uint32_t snowgimmer_nearest_ml(const double *weights, size_t weights_len, const double *mu, size_t mu_len,
    const double *target, size_t target_len, int64_t *out, size_t out_len, uint64_t budget, uint64_t *first,
    uint64_t *second, double *real);

/* The nearest integer vector to a target in the receiver's coordinates, by a table of reduced (decorrelated) ones.
 * transform and inverse are n*n integers each, ROW BY ROW. transform maps reduced coordinates to the receiver's, and
 * inverse maps them back:
 *
 *     receiver[column] = sum over rows of  reduced[row] * transform[row*n+column]
 *     reduced[column]  = sum over rows of  receiver[row] * inverse[row*n+column]
 *
 * For float ambiguities a with the covariance matrix Q and the Z-transform z = Z'a, inverse is Z, transform Z^-1, and
 * the table is that of the covariance matrix Z'QZ. For a lattice basis with the rows B, reduced to U*B, transform is U,
 * inverse is U^-1, and the table is that of U*B. target is a as it is, and out gets the fixed ambiguities in the same
 * coordinates, as examples/receiver_coordinates.c shows.
 *
 * The transformed target is computed in doubles: for each column the sum over the rows, from row 0 on, of the row's
 * target times inverse[row*n+column], starting at +0; each product and each sum is rounded. The search is that of
 * snowgimmer_nearest_ml from the transformed target, and its point is mapped by transform to out, in whole numbers and
 * so exactly. first is the number of nodes, and real the point's computed distance before mapping. THE DISTANCE IS THAT
 * IN THE TABLE'S COORDINATES, from the transformed target, and "nearest" is by it: no vector of reduced coordinates has
 * a smaller one than the vector that was mapped, and inverse maps out back to that vector.
 *
 * WARNING. Two matrices that are both transposed, as those stored column by column are, or that are exchanged with each
 * other, are still inverse to each other. No check can tell: the call succeeds, with another point.
 *
 * Refused, in this order: 2 to 5; 22; 23, if either product of the matrices, in whole numbers, is not the identity; 6;
 * 7, with the index in the given target or, where that is sound, the column of the transformed one; 9, 11, 13, 15; 24.
 * Once the checks have passed it ends with a point, with 15 or with 24, and not with 15 if the budget is at least the
 * number of nodes that snowgimmer_list takes from the transformed target at the widened radius. Beside the search it
 * makes the two products of the matrices, 2*n^3 multiplications. Stack: 62 kB. Since 0.9.0. */
uint32_t snowgimmer_prepared_nearest_ml(const double *weights, size_t weights_len, const double *mu, size_t mu_len,
    const int64_t *transform, size_t transform_len, const int64_t *inverse, size_t inverse_len, const double *target,
    size_t target_len, int64_t *out, size_t out_len, uint64_t budget, uint64_t *first, uint64_t *second, double *real);

/* A block of eight names, 1 to 8. Each holds a nearest search whose budget ran out, or is empty. The caller owns the
 * block and lends it to the calls: a search that is kept there goes on when there is time for it, and others may be
 * made in between. Zeros are eight empty names, so a static block starts empty, and so does one by = {0} or calloc:
 *
 *     static struct snowgimmer_names names;
 *     number = snowgimmer_nearest_kept(&names, 3, weights, n, mu, n * n, target, n, out, n, radius, 100000, ..);
 *     while (number == SNOWGIMMER_BUDGET_EXHAUSTED) {
 *         .. what can't wait ..
 *         number = snowgimmer_pick_up_kept(&names, 3, out, n, 100000, &first, &second, &real);
 *     }
 *
 * as examples/put_down.c shows. Where several searches share one computer, snowgimmer_turn_kept serves one after the
 * other; last is the name that it served last, and 0 before the first turn. The block takes 53 kB, which a small stack
 * may not have.
 *
 * WHAT IS IN IT is for the library to read and write. It may be copied, stored and moved as bytes, also to another
 * machine of the same byte order. One of 0.11.0 is without last: put 8 bytes of zeros behind it. A name is empty if its
 * numbers fail a test: n is at most 23, the nodes are at most 2^60, at least one level is open, the open levels rise
 * and are below n, and none has made more steps than the nodes allow. Any other contents, whoever wrote them, are run
 * safely as the search that they say: no index is out of range, no integer overflows, no loop is endless, and a call
 * tries at most as many nodes as its budget says. But what is found then is only what these numbers say.
 *
 * THE BLOCK HOLDS THE TABLES AND TARGETS of the searches that are kept. If they are confidential, clear it after use.
 * One block must not be used by two threads at once; different blocks may. Since 0.11.0. */
struct snowgimmer_names {
    double reals[SNOWGIMMER_NAMES_REALS];
    int64_t integers[SNOWGIMMER_NAMES_INTEGERS];
    uint64_t counts[SNOWGIMMER_NAMES_COUNTS];
    uint64_t last; /* since 0.12.0 */
};

#if defined(__cplusplus) && __cplusplus >= 201103L
static_assert(sizeof(struct snowgimmer_names) == SNOWGIMMER_NAMES_SIZE, "a block of names has other elements here");
#elif defined(__STDC_VERSION__) && __STDC_VERSION__ >= 201112L
_Static_assert(sizeof(struct snowgimmer_names) == SNOWGIMMER_NAMES_SIZE, "a block of names has other elements here");
#endif

/* The search of snowgimmer_nearest, with n up to 23, under a name from 1 to 8 of a block. Its answer, out, first and
 * real are those of snowgimmer_nearest. If it ends with 15, it is kept under the name in the place of what that held,
 * with its own copy of table and target and with its walk where it stopped: snowgimmer_pick_up goes on from there. If
 * it ends otherwise, the block is as it was, also where the name holds an older search. With n = 0 nothing is ever
 * kept, since the empty point is found without a node.
 *
 * reals, integers and counts are the slices of the block; snowgimmer_nearest_kept takes it as a whole. Refused, in this
 * order: 25; 6, if reals, integers or counts does not have its 5168, 736 or 768 elements; 2, if n is above 23; 3 to 9;
 * 15, which keeps the search; 16. Any refusal but 15 leaves the block as it was. Stack: 18 kB. Since 0.11.0. */
uint32_t snowgimmer_nearest_named(double *reals, size_t reals_len, int64_t *integers, size_t integers_len,
    uint64_t *counts, size_t counts_len, uint64_t name, const double *weights, size_t weights_len, const double *mu,
    size_t mu_len, const double *target, size_t target_len, int64_t *out, size_t out_len, double radius,
    uint64_t budget, uint64_t *first, uint64_t *second, double *real);

/* Goes on with the search that a name holds, with a further budget. After any number of pickups the answer, out, first
 * and real are those of one search that has the sum of all budgets: first counts the nodes of all of them. A pickup
 * takes the time of its own nodes, not that of the walk from its start. Table and target are the copies that were kept,
 * whatever has become of the caller's own.
 *
 * If it ends with a point or with 16, the name is empty then. If it ends with 15, the search is kept again where it
 * stopped: first is the number of nodes so far, which is the sum of the budgets, and real the standing radius. A budget
 * of 0 is taken, and answers 15 with the same numbers again. 16 tells the radius that the search was given at first.
 *
 * Refused, in this order: 25; 6, if reals, integers or counts does not have its 5168, 736 or 768 elements; 26; 6, if
 * out does not have the n elements of the search that is kept; 27, in the place of 9, if the sum of its budgets, this
 * one too, is above 2^60; 15; 16. 25, 6, 26 and 27 leave the block as it was. Where n is not known, out_len 0 asks for
 * it: the answer is then 26, or 6 with n in first. Stack: 16 kB. Since 0.11.0. */
uint32_t snowgimmer_pick_up(double *reals, size_t reals_len, int64_t *integers, size_t integers_len, uint64_t *counts,
    size_t counts_len, uint64_t name, int64_t *out, size_t out_len, uint64_t budget, uint64_t *first,
    uint64_t *second, double *real);

/* Goes on with one of the kept searches by a slice of nodes, and by the next call with another: of the names behind
 * last the first that holds a search is served, and becomes the last. After 8 comes 1, and empty names are passed over.
 * Before the first turn last is 0, which stands for 8, as does every number that is no name; so the first turn looks
 * from 1 on.
 *
 * name is the name served, and n the n of its search. The answer, first and real are those of snowgimmer_pick_up with
 * the slice for its budget. A point goes to the first n places of out, and the others stay as they were. out has 23
 * places, whatever n is, since it is not known before which search comes next:
 *
 *     for (;;) {
 *         number = snowgimmer_turn_kept(&names, out, 23, 100000, &name, &n, &first, &second, &real);
 *         if (name == 0) break;
 *         if (number == SNOWGIMMER_SUCCESS) .. this name's search has ended with out[0] to out[n-1] ..
 *         .. what can't wait ..
 *     }
 *
 * as examples/turns.c shows. After it number is 29, or 28 or 6 if the slice or a length is wrong.
 *
 * NO SEARCH WAITS FOR EVER. One for which k more slices are enough has ended with the 8*k-th accepted turn, if all turns
 * have that slice, whatever is kept, picked up or emptied under other names meanwhile; it may be picked up itself. It
 * takes that no other search is kept in its place, and that no slice is due that would take it past 2^60 nodes. Only an
 * accepted turn, which answers 0, 15 or 16, changes last: the name stays the last one where it is emptied, filled again
 * or picked up otherwise. If it alone is held, it is served again.
 *
 * THE LIMIT. If the nodes of a search and the slice are above 2^60 together, its turn answers 15 as the search stands,
 * with its nodes and its standing radius, and empties the name. This 15 looks like one that keeps the search: a pickup
 * of the name with a budget of 0 answers 26 if it was emptied, and else 15 again.
 *
 * Refused, in this order: 28, if the slice is not from 1 to 2^20; 6, if reals, integers or counts does not have its
 * 5168, 736 or 768 elements; 29, if no name is held; 6, with 23 in first, if out does not have 23 places; 15; 16. 28, 6
 * and 29 leave the block and last as they were, and name and n are 0 then. An accepted turn changes nothing of another
 * name. Stack: 16 kB. Since 0.12.0. */
uint32_t snowgimmer_turn(double *reals, size_t reals_len, int64_t *integers, size_t integers_len, uint64_t *counts,
    size_t counts_len, uint64_t *last, int64_t *out, size_t out_len, uint64_t slice, uint64_t *name, uint64_t *n,
    uint64_t *first, uint64_t *second, double *real);

/* Empties every name of a block, by zeros that no compiler leaves out, and makes its next turn the first. */
static inline void snowgimmer_names_clear(struct snowgimmer_names *names) {
    volatile double *reals = names->reals;
    volatile int64_t *integers = names->integers;
    volatile uint64_t *counts = names->counts, *last = &names->last;
    for (size_t k = 0; k < SNOWGIMMER_NAMES_REALS; k++) reals[k] = 0.0;
    for (size_t k = 0; k < SNOWGIMMER_NAMES_INTEGERS; k++) integers[k] = 0;
    for (size_t k = 0; k < SNOWGIMMER_NAMES_COUNTS; k++) counts[k] = 0;
    *last = 0;
}

/* snowgimmer_nearest_named with a whole block, whose lengths can't be wrong. */
static inline uint32_t snowgimmer_nearest_kept(struct snowgimmer_names *names, uint64_t name, const double *weights,
    size_t weights_len, const double *mu, size_t mu_len, const double *target, size_t target_len, int64_t *out,
    size_t out_len, double radius, uint64_t budget, uint64_t *first, uint64_t *second, double *real) {
    return snowgimmer_nearest_named(names->reals, SNOWGIMMER_NAMES_REALS, names->integers, SNOWGIMMER_NAMES_INTEGERS,
        names->counts, SNOWGIMMER_NAMES_COUNTS, name, weights, weights_len, mu, mu_len, target, target_len, out,
        out_len, radius, budget, first, second, real);
}

/* snowgimmer_pick_up with a whole block, whose lengths can't be wrong. */
static inline uint32_t snowgimmer_pick_up_kept(struct snowgimmer_names *names, uint64_t name, int64_t *out,
    size_t out_len, uint64_t budget, uint64_t *first, uint64_t *second, double *real) {
    return snowgimmer_pick_up(names->reals, SNOWGIMMER_NAMES_REALS, names->integers, SNOWGIMMER_NAMES_INTEGERS,
        names->counts, SNOWGIMMER_NAMES_COUNTS, name, out, out_len, budget, first, second, real);
}

/* snowgimmer_turn with a whole block, whose lengths can't be wrong, and its last. */
static inline uint32_t snowgimmer_turn_kept(struct snowgimmer_names *names, int64_t *out, size_t out_len,
    uint64_t slice, uint64_t *name, uint64_t *n, uint64_t *first, uint64_t *second, double *real) {
    return snowgimmer_turn(names->reals, SNOWGIMMER_NAMES_REALS, names->integers, SNOWGIMMER_NAMES_INTEGERS,
        names->counts, SNOWGIMMER_NAMES_COUNTS, &names->last, out, out_len, slice, name, n, first, second, real);
}

/* Lists every integer vector admitted at the radius, by distance and then coordinates: the distances go to distances,
 * at most 4096, and n coordinates for each to points, which is n times as long. first is the number of nodes, second
 * that of points; what lies behind the last point stays as it was. n is at most 64. FROM n = 24 ON it is not promised
 * that every such vector is listed, or no other, as the head says: the list has the points that the search came to.
 * Refused: 2, if n is above 64; 3 to 9, 14, 15, 18; 18 tells how many points there are, and so many places would do
 * if they are at most 4096. Where the points have more than 94208 coordinates together, as 1473 points with n = 64
 * have, the search is made twice, so that its time doubles, and the sort takes some milliseconds, up to a second
 * where thousands of points are equally near. Stack: with at most 256 places and 5888 coordinates in points, as 92
 * places have with n = 64, 0.15 MB; with at most 32768 coordinates 0.5 MB; else 1 MB. Before 0.10.0 n was at most 23,
 * and the stack always 0.95 MB. */
uint32_t snowgimmer_list(const double *weights, size_t weights_len, const double *mu, size_t mu_len,
    const double *target, size_t target_len, double *distances, size_t distances_len, int64_t *points,
    size_t points_len, double radius, uint64_t budget, uint64_t *first, uint64_t *second, double *real);

/* Writes snowgimmer_round_away of each coefficient to out. Refused: 6, out not as long as coefficients; 7, without the
 * limit. Stack: below 1 kB. */
uint32_t snowgimmer_round(const double *coefficients, size_t coefficients_len, int64_t *out, size_t out_len,
    uint64_t *first, uint64_t *second, double *real);

/* Babai's nearest plane: the point z goes to out, and t - z to the coefficients, which hold t. Refused: 2 to 7,
 * 7 without the limit; 6 tells the coefficients' length also where out is the wrong one. Stack: below 1 kB. */
uint32_t snowgimmer_nearest_plane(const double *weights, size_t weights_len, const double *mu, size_t mu_len,
    double *coefficients, size_t coefficients_len, int64_t *out, size_t out_len, uint64_t *first, uint64_t *second,
    double *real);

/* The computed distance of a point, in real. Refused: 2 to 7, the point in the output's place, and 11. Stack: below
 * 1 kB. */
uint32_t snowgimmer_distance(const double *weights, size_t weights_len, const double *mu, size_t mu_len,
    const double *target, size_t target_len, const int64_t *point, size_t point_len, uint64_t *first,
    uint64_t *second, double *real);

/* Changes the reference satellite, against which a point's cycles are counted, to that of coordinate r: coordinate r
 * becomes -a(r), now the former reference satellite's, and each other a(i) becomes a(i) - a(r), exactly. The point may
 * have any length. The same change once more brings the first point back. Lend only coordinates that are counted against
 * the one satellite. The table and the target stay those of the former reference satellite: with them a changed point has
 * a distance that means nothing. Refused: 19; 20, for coordinate r too. Stack: below 1 kB. Since 0.2.0. */
uint32_t snowgimmer_change_reference(int64_t *point, size_t point_len, size_t r, uint64_t *first, uint64_t *second,
    double *real);

/* Checks a table's entries, refusals 3 and 4, one at a time, so that a table can be checked while it is being received.
 * number and at are the verdict so far: what the call for the entry before answered and told in first; 0 and 0 at the
 * start. index is the entry's, j*n+i, and entry its value:
 *
 *     uint32_t number = 0;
 *     uint64_t first = 0, second;
 *     double real;
 *     for each entry that arrives:
 *         number = snowgimmer_check_entry(number, first, j*n+i, entry, &first, &second, &real);
 *
 * The answer is the verdict on all entries so far: 0, they pass; 3, one is not finite; 4, all are finite and one is
 * above 2^52 in magnitude. first is the index of the first such entry, and 0 with an answer 0. Hand over the entries
 * with j > i and no others, by rising index: then the verdict after the last one is the refusal, 3, 4 or none, that
 * every call on the table gives once its lengths are right. 2 comes before them and the others after: these stay the
 * calls' own, and each call still checks the whole table. A 3 is final: the rest need not be received. A 4 becomes 3 if
 * a later entry is not finite. If the indices do not rise, first is that of the first such entry handed over.
 *
 * Any other number is no verdict of this check: it is answered again, with at in first, so that no refusal that is
 * handed in gets lost. Where number is 0, at is not looked at, and no index is out of range. Stack: below 1 kB. Since
 * 0.4.0. */
uint32_t snowgimmer_check_entry(uint32_t number, uint64_t at, size_t index, double entry, uint64_t *first,
    uint64_t *second, double *real);

/* Whether the first point of a list stands out: q*d2 >= p*d1 of its first distances d1 and d2. Pass the distances that
 * snowgimmer_list wrote, as many as it told in second, and the radius that it was given; of a list that was refused,
 * pass 0 distances. p and q are from 1 to 1000, and p is at least q. With 3 and 1, d2 has to be 3 times d1 or more:
 *
 *     number = snowgimmer_list(.., distances, places, .., radius, budget, &first, &second, &real);
 *     points = number == SNOWGIMMER_SUCCESS ? second : 0;
 *     number = snowgimmer_ratio(distances, points, radius, 3, 1, &first, &second, &real);
 *     if (number == SNOWGIMMER_SUCCESS) puts(snowgimmer_verdict_name(first));
 *
 * first is the verdict. Every product is rounded once, to a double, and where p*d1 overflows the test is not met.
 * "Other" is every vector of n integers but the first point, listed or not:
 *
 *     HOLDS   q*radius >= p*d1, and q times the computed distance of every other vector is no less than p*d1 either
 *     FAILS   another vector is listed at d2, and no other is nearer; q*d2 < p*d1, or p*d1 overflows
 *     OPEN    one point alone is listed, so no other vector is nearer than the radius; q*radius < p*d1, or p*d1
 *             overflows. Whether another one is too near is not known: unless p*d1 overflows, a radius above p*d1/q
 *             decides it
 *     NONE    there is no distance: the list was refused, or no vector is admitted at the radius
 *
 * A FIRST DISTANCE OF 0 ALWAYS HOLDS in a list, since q*d2 >= p*0, and says nothing of how far the second vector is.
 * Any doubles are taken, NaNs too, in any order, and only the first two are read; but what a verdict means is
 * promised only of the distances that a list at this radius wrote, with n up to 23. OF A LIST WITH n FROM 24 ON it
 * compares the two distances, or the first with the radius, and says nothing of vectors that are not listed. Refused:
 * 21. Stack: below 1 kB. Since 0.7.0. */
uint32_t snowgimmer_ratio(const double *distances, size_t distances_len, double radius, uint64_t p, uint64_t q,
    uint64_t *first, uint64_t *second, double *real);

#ifdef __cplusplus
}
#endif

#endif
