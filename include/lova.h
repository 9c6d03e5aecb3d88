/* Lova folding at q = 2^64, proved: the functions of liblova.a (`bindings/archive` builds it).
 *
 * A setting is its five numbers n, m, t, b, bound; lova_listed, lova_next_fold and lova_count_zeros have none. A slice
 * is two arguments: a pointer to its first element, then how many elements it has. Matrices are stored by rows. With
 * N = 2kt (k is what lova_setting writes first) the lengths are
 *
 *   A  n m      S  m t      T  n t      D  t t      V  t t      C  N t
 *   S~ m N      T~ n N      D~ N (N + 1) / 2        joined T  n 2t          joined D  2t 2t
 *
 * D~ is symmetric, and its lower triangle alone is stored, by rows: entry (i, j), j <= i, stands at i (i + 1) / 2 + j.
 *
 * The second witness of a fold may be fresh: one vector that stands for t equal columns. For it there are the functions
 * with _fresh, in which these lengths differ:
 *
 *   vector  m   its T  n    its D  1    V  t        S~ m (kt + k)       T~ n (kt + k)       D~ (kt + k) (kt + k + 1) / 2
 *
 * They answer as the functions without _fresh do when all that is fresh is repeated t times, and so repeated, what they
 * write is what those write.
 *
 * h is b/2 rounded down, and H is h^2 m. S~ has the k digits of each entry of [S1 S2], lowest first, by the digit rule:
 * the digits of a size lie above -b/2 and are at most b/2, and a negative entry has the negated digits of its size.
 *
 * An instance is its T and D and the number of leaves under it, at most 2^32 - 1. That count is lent as a number, leaves1 or
 * leaves2, and handed back in *leaves_out: 1 by lova_commit, and the sum of both by lova_join and by a yes of lova_verify.
 *
 * Eight groups, with the numbers 1 to 8, take turns on the machine by weights from 1 to 16, and lova_next_fold names
 * the one whose fold is next. A turn is its group and the folds used in it. It ends at its weight or when its group has
 * none waiting, which is judged by the counts of the next call, and passes to the next waiting group: upwards, after 8
 * from 1 on, its own group last. While the weights stay and each call gets the turn that the last one wrote, a group
 * that keeps waiting sees at most the sum of the others' weights served before it, whatever arrives between the calls.
 * The first turn may be any that is not refused: used folds 0 if it has not begun, its weight if it is over.
 *
 * What a cheating prover can count on is how many vectors c of n entries -1, 0 and 1 have c-transposed E c = 0, for a
 * symmetric matrix E with n rows. lova_count_zeros counts them, c and -c both, and c = 0 too. E is stored as its lower
 * triangle, as D~ is, so that an entry beside the diagonal counts twice; n is E's own, from 1 to 12. For E = 0 the
 * count is 3^n, all vectors that there are, and for every other E at most two thirds of that.
 *
 * Each function returns a code of `enum lova_code`. Of the refusals the first that applies is given, in the order that
 * each function names. A refusal leaves every output as it was, and so does LOVA_NONE. LOVA_LONG, LOVA_NORM and
 * LOVA_COMMITMENT of the verdict leave T and D as they were and set *leaves_out to 0, a count that no call takes. There
 * is no call that is not allowed, as long as each pointer is aligned, is not null and has as many elements behind it as
 * its length says (leaves_out one), and no output overlaps anything else that is lent to the same call.
 *
 * The archive is for any x86-64 processor and the System V calling convention. Nothing is allocated, and nothing
 * is kept between calls: any number of threads may call at once, as long as what one call writes is lent to no other at the
 * time. A call takes no more stack than `enum lova_stack` says.
 */
#ifndef LOVA_H
#define LOVA_H

#include <stddef.h>
#include <stdint.h>

#ifdef __cplusplus
extern "C" {
#endif

enum lova_code {
    LOVA_DONE = 0,           /* done; verify: yes; test_relation: member; next_fold: a group is named */

    /* refusals */
    LOVA_SHAPE = 1,          /* n, m or t out of range */
    LOVA_BASE = 2,           /* b out of range */
    LOVA_BOUND = 3,          /* bound out of range */
    LOVA_COLUMNS = 4,        /* N above 512 */
    LOVA_GROWTH = 5,         /* (N h)^2 m above bound */
    LOVA_WIDTH = 6,          /* H ((b^k - 1)/(b - 1))^2 above 2^62 */
    LOVA_LENGTH = 7,         /* a slice, outputs included, has not the length of its matrix */
    LOVA_LONG_COLUMN = 8,    /* a column of a witness has a squared length above bound */
    LOVA_CHALLENGE = 9,      /* a byte of the challenge is above 2 */
    LOVA_DIGIT_PRODUCT = 10, /* an entry of D~ is above H in size */
    LOVA_DIGIT = 11,         /* an entry of S~ is above h in size */
    LOVA_UNLISTED = 12,      /* a number outside 1..4 asked of the house list */
    LOVA_LEAVES = 15,        /* leaves1 or leaves2 is 0, or their sum is above 2^32 - 1 */
    LOVA_OTHER_DIGITS = 16,  /* S~ has digits other than those of the digit rule */
    LOVA_TURN = 20,          /* a weight outside 1..16, a turn's group outside 1..8, or used folds above its weight */
    LOVA_ROWS = 24,          /* count_zeros: n outside 1..12 */
    LOVA_ENTRY = 25,         /* count_zeros: an entry of E above 2^52 or below -2^52 */

    /* words of the verdict, of the relation test and of the turns */
    LOVA_NORM = 100,         /* verify: the first equation, of the products, fails, and no diagonal entry is long */
    LOVA_COMMITMENT = 101,   /* verify: the second equation alone fails; test_relation: A S is not T */
    LOVA_LONG = 102,         /* verify: a diagonal entry of D1 or D2 is above bound; test_relation: a column of S has a
                                squared length above bound */
    LOVA_PRODUCTS = 103,     /* test_relation: S-transposed S is not D */
    LOVA_NONE = 104          /* next_fold: nobody waits */
};

/* The stack that a call of each function takes at most, in bytes: measured at the largest setting, or at 12 rows of E,
 * and rounded up to whole pages of 4096 (`comparisons/stack.c`). */
enum lova_stack {
    LOVA_COMMIT_STACK = 4096,
    LOVA_MESSAGE_STACK = 36864,
    LOVA_FOLD_WITNESS_STACK = 20480,
    LOVA_RECOMPOSE_STACK = 4096,
    LOVA_JOIN_STACK = 4096,
    LOVA_VERIFY_STACK = 24576,
    LOVA_TEST_RELATION_STACK = 12288,
    LOVA_COMMIT_FRESH_STACK = 4096,
    LOVA_MESSAGE_FRESH_STACK = 36864,
    LOVA_FOLD_WITNESS_FRESH_STACK = 20480,
    LOVA_RECOMPOSE_FRESH_STACK = 4096,
    LOVA_JOIN_FRESH_STACK = 4096,
    LOVA_VERIFY_FRESH_STACK = 24576,
    LOVA_SETTING_STACK = 4096,
    LOVA_LISTED_STACK = 4096,
    LOVA_NEXT_FOLD_STACK = 4096,
    LOVA_COUNT_ZEROS_STACK = 4096
};

/* T = A S modulo 2^64, D = S-transposed S and one leaf. Refusals 1 to 6, 7, 8. */
uint8_t lova_commit(uint64_t n, uint64_t m, uint64_t t, uint64_t b, uint64_t bound,
                    const uint64_t *a, size_t a_len, const int64_t *s, size_t s_len,
                    uint64_t *t_out, size_t t_out_len, int64_t *d_out, size_t d_out_len, uint32_t *leaves_out);

/* V, T~ (tt), D~ (dd) and the digit witness S~ (ss) of the witnesses S1 and S2. Refusals 1 to 6, 7, 8. */
uint8_t lova_message(uint64_t n, uint64_t m, uint64_t t, uint64_t b, uint64_t bound,
                     const uint64_t *a, size_t a_len, const int64_t *s1, size_t s1_len, const int64_t *s2, size_t s2_len,
                     int64_t *v, size_t v_len, uint64_t *tt, size_t tt_len, int64_t *dd, size_t dd_len,
                     int64_t *ss, size_t ss_len);

/* The folded witness S' = S~ C. Refusals 1 to 6, 7, 9, 11. */
uint8_t lova_fold_witness(uint64_t n, uint64_t m, uint64_t t, uint64_t b, uint64_t bound,
                          const int64_t *ss, size_t ss_len, const uint8_t *c, size_t c_len,
                          int64_t *s, size_t s_len);

/* S1 and S2 of the digit witness S~, from S~ alone: done exactly where lova_message writes this S~ for some S1 and S2,
 * which are then written. Refusals 1 to 6, 7, 11, 8 for a column that S~ stands for, 16. */
uint8_t lova_recompose(uint64_t n, uint64_t m, uint64_t t, uint64_t b, uint64_t bound,
                       const int64_t *ss, size_t ss_len, int64_t *s1, size_t s1_len, int64_t *s2, size_t s2_len);

/* [T1 T2], [D1 V; V-transposed D2] and leaves1 + leaves2. Refusals 1 to 6, 7, 15. */
uint8_t lova_join(uint64_t n, uint64_t m, uint64_t t, uint64_t b, uint64_t bound,
                  const uint64_t *t1, size_t t1_len, const int64_t *d1, size_t d1_len, uint32_t leaves1,
                  const uint64_t *t2, size_t t2_len, const int64_t *d2, size_t d2_len, uint32_t leaves2,
                  const int64_t *v, size_t v_len,
                  uint64_t *t_out, size_t t_out_len, int64_t *d_out, size_t d_out_len, uint32_t *leaves_out);

/* The verdict: yes (LOVA_DONE) with T', D' and leaves1 + leaves2 where no diagonal entry of D1 or D2 is above bound and both
 * equations hold; else LOVA_LONG, LOVA_NORM or LOVA_COMMITMENT, the first that applies. Entries and bound are compared as
 * signed numbers, so a negative entry is not long. Since D~ is symmetric, a D1 or D2 that is not fails the first equation.
 * Refusals 1 to 6, 7, 15, 9, 10. */
uint8_t lova_verify(uint64_t n, uint64_t m, uint64_t t, uint64_t b, uint64_t bound,
                    const uint64_t *t1, size_t t1_len, const int64_t *d1, size_t d1_len, uint32_t leaves1,
                    const uint64_t *t2, size_t t2_len, const int64_t *d2, size_t d2_len, uint32_t leaves2,
                    const int64_t *v, size_t v_len, const uint64_t *tt, size_t tt_len, const int64_t *dd, size_t dd_len,
                    const uint8_t *c, size_t c_len,
                    uint64_t *t_out, size_t t_out_len, int64_t *d_out, size_t d_out_len, uint32_t *leaves_out);

/* Whether S is a witness of T, D: member (LOVA_DONE), else LOVA_LONG, LOVA_PRODUCTS or LOVA_COMMITMENT, the first that
 * applies. Refusals 1 to 6, 7. */
uint8_t lova_test_relation(uint64_t n, uint64_t m, uint64_t t, uint64_t b, uint64_t bound,
                           const uint64_t *a, size_t a_len, const uint64_t *t_in, size_t t_in_len,
                           const int64_t *d_in, size_t d_in_len, const int64_t *s, size_t s_len);

/* T and D of a fresh witness, and one leaf. Refusals 1 to 6, 7, 8. */
uint8_t lova_commit_fresh(uint64_t n, uint64_t m, uint64_t t, uint64_t b, uint64_t bound,
                          const uint64_t *a, size_t a_len, const int64_t *vector, size_t vector_len,
                          uint64_t *t_out, size_t t_out_len, int64_t *d_out, size_t d_out_len, uint32_t *leaves_out);

/* V, T~, D~ and S~ of the witness S1 and a fresh one; its digits are the last k columns of S~. Refusals 1 to 6, 7, 8. */
uint8_t lova_message_fresh(uint64_t n, uint64_t m, uint64_t t, uint64_t b, uint64_t bound,
                           const uint64_t *a, size_t a_len, const int64_t *s1, size_t s1_len,
                           const int64_t *vector, size_t vector_len,
                           int64_t *v, size_t v_len, uint64_t *tt, size_t tt_len, int64_t *dd, size_t dd_len,
                           int64_t *ss, size_t ss_len);

/* The folded witness S' of a fresh S~ and C, which is N by t. Refusals 1 to 6, 7, 9, 11. */
uint8_t lova_fold_witness_fresh(uint64_t n, uint64_t m, uint64_t t, uint64_t b, uint64_t bound,
                                const int64_t *ss, size_t ss_len, const uint8_t *c, size_t c_len,
                                int64_t *s, size_t s_len);

/* S1 and the vector of a fresh S~, as lova_recompose gives S1 and S2. Refusals 1 to 6, 7, 11, 8, 16. */
uint8_t lova_recompose_fresh(uint64_t n, uint64_t m, uint64_t t, uint64_t b, uint64_t bound,
                             const int64_t *ss, size_t ss_len, int64_t *s1, size_t s1_len,
                             int64_t *vector, size_t vector_len);

/* The joined T, n by 2t, D, 2t by 2t, and leaves1 + leaves2 of an instance and a fresh one. Refusals 1 to 6, 7, 15. */
uint8_t lova_join_fresh(uint64_t n, uint64_t m, uint64_t t, uint64_t b, uint64_t bound,
                        const uint64_t *t1, size_t t1_len, const int64_t *d1, size_t d1_len, uint32_t leaves1,
                        const uint64_t *t2, size_t t2_len, const int64_t *d2, size_t d2_len, uint32_t leaves2,
                        const int64_t *v, size_t v_len,
                        uint64_t *t_out, size_t t_out_len, int64_t *d_out, size_t d_out_len, uint32_t *leaves_out);

/* The verdict on a fold with a fresh instance, as lova_verify gives it; C is N by t. Refusals 1 to 6, 7, 15, 9, 10. */
uint8_t lova_verify_fresh(uint64_t n, uint64_t m, uint64_t t, uint64_t b, uint64_t bound,
                          const uint64_t *t1, size_t t1_len, const int64_t *d1, size_t d1_len, uint32_t leaves1,
                          const uint64_t *t2, size_t t2_len, const int64_t *d2, size_t d2_len, uint32_t leaves2,
                          const int64_t *v, size_t v_len, const uint64_t *tt, size_t tt_len,
                          const int64_t *dd, size_t dd_len, const uint8_t *c, size_t c_len,
                          uint64_t *t_out, size_t t_out_len, int64_t *d_out, size_t d_out_len, uint32_t *leaves_out);

/* The setting of five numbers: writes k, N and the 33 powers of b (b^p for p < k, then 0), 35 places. Refusals 1 to 6, 7. */
uint8_t lova_setting(uint64_t n, uint64_t m, uint64_t t, uint64_t b, uint64_t bound, uint64_t *out, size_t out_len);

/* A row of the house list, 1 to 4: writes n, m, t, b and bound, 5 places. Refusals 12, 7. */
uint8_t lova_listed(uint64_t number, uint64_t *out, size_t out_len);

/* The group of the next fold, by the weights and the waiting folds of the groups, 8 places each, and the turn, 2
 * places: its group and the folds used. Writes the new turn, whose group is the one named, with this fold counted, and
 * the waiting counts, one less for that group; LOVA_NONE where nobody waits. Refusals 7, 20. */
uint8_t lova_next_fold(const uint64_t *weights, size_t weights_len, uint32_t *waiting, size_t waiting_len,
                       uint64_t *turn, size_t turn_len);

/* How many vectors c of n entries -1, 0 and 1 have c-transposed E c = 0, for the symmetric matrix E with n rows. Its
 * lower triangle is lent, n (n + 1) / 2 entries, and the count has one place. Refusals 24, 7, 25, in this order. */
uint8_t lova_count_zeros(uint64_t n, const int64_t *e, size_t e_len, uint64_t *count, size_t count_len);

#ifdef __cplusplus
}
#endif

#endif
