/* One fold in setting 1 of the house list: commits 7 and -5 under A = 3, folds them and prints T', D', the number of leaves
 * under them and S', that is 15 25 2 5.
 *
 *   bindings/archive
 *   gcc -Iinclude examples/fold.c target/lova/liblova.a -o target/fold && target/fold
 */
#include <inttypes.h>
#include <stdio.h>

#include "lova.h"

static int failed(const char *call, uint8_t code)
{
    if (code != LOVA_DONE)
        fprintf(stderr, "%s: %d\n", call, (int)code);
    return code != LOVA_DONE;
}

int main(void)
{
    uint64_t p[5];
    if (failed("listed", lova_listed(1, p, 5)))
        return 1;

    const uint64_t a[1] = {3};
    const int64_t s1[1] = {7}, s2[1] = {-5};
    const uint8_t c[10] = {1, 1, 1, 0, 0, 2, 0, 2, 0, 0};
    uint64_t t1[1], t2[1], tt[10], t[1];
    int64_t d1[1], d2[1], v[1], dd[55], ss[10], d[1], s[1];
    uint32_t leaves1, leaves2, leaves;

    if (failed("commit", lova_commit(p[0], p[1], p[2], p[3], p[4], a, 1, s1, 1, t1, 1, d1, 1, &leaves1))
        || failed("commit", lova_commit(p[0], p[1], p[2], p[3], p[4], a, 1, s2, 1, t2, 1, d2, 1, &leaves2))
        || failed("message", lova_message(p[0], p[1], p[2], p[3], p[4], a, 1, s1, 1, s2, 1, v, 1, tt, 10, dd, 55, ss, 10))
        || failed("fold_witness", lova_fold_witness(p[0], p[1], p[2], p[3], p[4], ss, 10, c, 10, s, 1))
        || failed("verify", lova_verify(p[0], p[1], p[2], p[3], p[4], t1, 1, d1, 1, leaves1, t2, 1, d2, 1, leaves2,
                                        v, 1, tt, 10, dd, 55, c, 10, t, 1, d, 1, &leaves))
        || failed("test_relation", lova_test_relation(p[0], p[1], p[2], p[3], p[4], a, 1, t, 1, d, 1, s, 1)))
        return 1;

    /* A witness with an entry above 10 is too long, and a C of 9 bytes too short. */
    const int64_t above[1] = {11};
    if (lova_commit(p[0], p[1], p[2], p[3], p[4], a, 1, above, 1, t1, 1, d1, 1, &leaves1) != LOVA_LONG_COLUMN
        || lova_fold_witness(p[0], p[1], p[2], p[3], p[4], ss, 10, c, 9, s, 1) != LOVA_LENGTH) {
        fprintf(stderr, "a call was not refused\n");
        return 1;
    }

    printf("%" PRIu64 " %" PRId64 " %" PRIu32 " %" PRId64 "\n", t[0], d[0], leaves, s[0]);
    return 0;
}
