/* Measures how much stack each C function takes, at the largest setting and at the first of the house list, or at 12
 * rows of E: the call is made on a painted stack, and the paint tells how far down it went. Fails where that is more
 * than lova.h says. */
#include <stdio.h>
#include <string.h>
#include <ucontext.h>

#include "lova.h"

#define PAINT 0xA5

static const uint64_t settings[2][5] = {{64, 4096, 16, 3, 22876792454961}, {1, 1, 1, 2, 100}};

/* Room for the matrices of the largest setting, N = 512. */
static uint64_t a[64 * 4096], t1[64 * 16], t2[64 * 16], tt[64 * 512], t_out[64 * 16], joined_t[64 * 32], out[35];
static int64_t s1[4096 * 16], s2[4096 * 16], s[4096 * 16], ss[4096 * 512], dd[512 * 513 / 2];
static int64_t d1[16 * 16], d2[16 * 16], v[16 * 16], d_out[16 * 16], joined_d[32 * 32];
static uint8_t c[512 * 16];
static uint32_t leaves1, leaves2, leaves_out;

static const uint64_t weights[8] = {16, 16, 16, 16, 16, 16, 16, 16};
static uint32_t waiting[8];
static uint64_t turn[2];

static int64_t e[12 * 13 / 2];
static uint64_t zeros;

static uint64_t n, m, t, b, bound, columns, fresh_columns;
static uint8_t code;

/* Entries of a lower triangle with so many rows. */
static size_t triangle(size_t rows) { return rows * (rows + 1) / 2; }

static void setting(void) { code = lova_setting(n, m, t, b, bound, out, 35); }
static void listed(void) { code = lova_listed(4, out, 5); }
static void next_fold(void) { code = lova_next_fold(weights, 8, waiting, 8, turn, 2); }
static void count_zeros(void) { code = lova_count_zeros(12, e, triangle(12), &zeros, 1); }
static void commit(void) { code = lova_commit(n, m, t, b, bound, a, n * m, s1, m * t, t1, n * t, d1, t * t, &leaves1); }

static void message(void)
{
    code = lova_message(n, m, t, b, bound, a, n * m, s1, m * t, s2, m * t,
                        v, t * t, tt, n * columns, dd, triangle(columns), ss, m * columns);
}

static void fold_witness(void)
{
    code = lova_fold_witness(n, m, t, b, bound, ss, m * columns, c, columns * t, s, m * t);
}

/* S1 and S2 are written as they were. */
static void recompose(void)
{
    code = lova_recompose(n, m, t, b, bound, ss, m * columns, s1, m * t, s2, m * t);
}

static void join(void)
{
    code = lova_join(n, m, t, b, bound, t1, n * t, d1, t * t, leaves1, t2, n * t, d2, t * t, leaves2, v, t * t,
                     joined_t, 2 * n * t, joined_d, 4 * t * t, &leaves_out);
}

static void verify(void)
{
    code = lova_verify(n, m, t, b, bound, t1, n * t, d1, t * t, leaves1, t2, n * t, d2, t * t, leaves2, v, t * t,
                       tt, n * columns, dd, triangle(columns), c, columns * t, t_out, n * t, d_out, t * t, &leaves_out);
}

static void test_relation(void)
{
    code = lova_test_relation(n, m, t, b, bound, a, n * m, t_out, n * t, d_out, t * t, s, m * t);
}

/* The fresh calls; the first m entries of S2 are the vector. */
static void commit_fresh(void)
{
    code = lova_commit_fresh(n, m, t, b, bound, a, n * m, s2, m, t2, n, d2, 1, &leaves2);
}

static void message_fresh(void)
{
    code = lova_message_fresh(n, m, t, b, bound, a, n * m, s1, m * t, s2, m, v, t, tt, n * fresh_columns,
                              dd, triangle(fresh_columns), ss, m * fresh_columns);
}

static void fold_witness_fresh(void)
{
    code = lova_fold_witness_fresh(n, m, t, b, bound, ss, m * fresh_columns, c, columns * t, s, m * t);
}

static void recompose_fresh(void)
{
    code = lova_recompose_fresh(n, m, t, b, bound, ss, m * fresh_columns, s1, m * t, s2, m);
}

static void join_fresh(void)
{
    code = lova_join_fresh(n, m, t, b, bound, t1, n * t, d1, t * t, leaves1, t2, n, d2, 1, leaves2, v, t,
                           joined_t, 2 * n * t, joined_d, 4 * t * t, &leaves_out);
}

static void verify_fresh(void)
{
    code = lova_verify_fresh(n, m, t, b, bound, t1, n * t, d1, t * t, leaves1, t2, n, d2, 1, leaves2, v, t,
                             tt, n * fresh_columns, dd, triangle(fresh_columns), c, columns * t,
                             t_out, n * t, d_out, t * t, &leaves_out);
}

/* The calls in an order in which each finds what it reads, and what the header says of them. */
static const struct {
    const char *name;
    void (*call)(void);
    size_t most;
} calls[] = {
    {"setting", setting, LOVA_SETTING_STACK},
    {"listed", listed, LOVA_LISTED_STACK},
    {"next_fold", next_fold, LOVA_NEXT_FOLD_STACK},
    {"count_zeros", count_zeros, LOVA_COUNT_ZEROS_STACK},
    {"commit", commit, LOVA_COMMIT_STACK},
    {"message", message, LOVA_MESSAGE_STACK},
    {"fold_witness", fold_witness, LOVA_FOLD_WITNESS_STACK},
    {"recompose", recompose, LOVA_RECOMPOSE_STACK},
    {"join", join, LOVA_JOIN_STACK},
    {"verify", verify, LOVA_VERIFY_STACK},
    {"test_relation", test_relation, LOVA_TEST_RELATION_STACK},
    {"commit_fresh", commit_fresh, LOVA_COMMIT_FRESH_STACK},
    {"message_fresh", message_fresh, LOVA_MESSAGE_FRESH_STACK},
    {"fold_witness_fresh", fold_witness_fresh, LOVA_FOLD_WITNESS_FRESH_STACK},
    {"recompose_fresh", recompose_fresh, LOVA_RECOMPOSE_FRESH_STACK},
    {"join_fresh", join_fresh, LOVA_JOIN_FRESH_STACK},
    {"verify_fresh", verify_fresh, LOVA_VERIFY_FRESH_STACK},
};

/* How many bytes of a fresh stack a call changes, from its top down. */
static size_t taken(void (*call)(void))
{
    static unsigned char stack[1 << 20];
    static ucontext_t here, there;
    size_t low = 0;
    memset(stack, PAINT, sizeof stack);
    getcontext(&there);
    there.uc_stack.ss_sp = stack;
    there.uc_stack.ss_size = sizeof stack;
    there.uc_link = &here;
    makecontext(&there, call, 0);
    swapcontext(&here, &there);
    while (low < sizeof stack && stack[low] == PAINT)
        low++;
    return sizeof stack - low;
}

/* A setting, witnesses of -1, 0 and 1 that are each other's negatives, a challenge, a turn that is over and whose group
 * alone waits, and a matrix of -1, 0 and 1. */
static void fill(const uint64_t p[5])
{
    n = p[0], m = p[1], t = p[2], b = p[3], bound = p[4];
    lova_setting(n, m, t, b, bound, out, 35);
    columns = out[1];
    fresh_columns = out[0] * (t + 1);
    for (size_t i = 0; i < n * m; i++)
        a[i] = i * 0x9E3779B97F4A7C15;
    for (size_t i = 0; i < m * t; i++) {
        s1[i] = (int64_t)(i % 3) - 1;
        s2[i] = -s1[i];
    }
    for (size_t i = 0; i < columns * t; i++)
        c[i] = i % 3;
    waiting[0] = 1, turn[0] = 1, turn[1] = weights[0];
    for (size_t i = 0; i < sizeof e / sizeof *e; i++)
        e[i] = (int64_t)(i % 3) - 1;
    lova_commit(n, m, t, b, bound, a, n * m, s2, m * t, t2, n * t, d2, t * t, &leaves2);
}

int main(void)
{
    int failed = 0;
    for (size_t i = 0; i < sizeof settings / sizeof *settings; i++) {
        fill(settings[i]);
        for (size_t j = 0; j < sizeof calls / sizeof *calls; j++) {
            size_t bytes = taken(calls[j].call);
            printf("%s: %zu bytes of %zu, code %d\n", calls[j].name, bytes, calls[j].most, code);
            failed |= code != LOVA_DONE || bytes > calls[j].most;
        }
    }
    return failed;
}
