// Times the contestants in turn on the same random elements, sees that they agree, and prints the table.
#include "contestants.h"
#include <alloca.h>
#include <stdio.h>
#include <stdlib.h>
#include <string.h>
#include <time.h>

enum { ROUNDS = 500, CALLS = 4 };

// What the static library has; a slice is a pointer and a length.
uint8_t fordkettle_q821_times(const uint16_t *, size_t, const uint16_t *, size_t, uint16_t *, size_t);
uint8_t fordkettle_t821_times(const uint16_t *, size_t, const uint16_t *, size_t, uint16_t *, size_t);

static void served(uint8_t answer) {
    if (answer != 0) {
        printf("refused with %d\n", answer);
        exit(1);
    }
}

static void ours_q(const uint16_t *x, const uint16_t *y, uint16_t *out) { served(fordkettle_q821_times(x, N, y, N, out, N)); }

static void ours_t(const uint16_t *x, const uint16_t *y, uint16_t *out) { served(fordkettle_t821_times(x, N, y, N, out, N)); }

times_fn flint_q, flint_t;
times_fn gcc_q16, gcc_t16, gcc_q32, gcc_t32, gcc_q64, gcc_t64;

// Not there where the machine has no clang.
#pragma weak clang_q16
#pragma weak clang_t16
#pragma weak clang_q32
#pragma weak clang_t32
#pragma weak clang_q64
#pragma weak clang_t64
times_fn clang_q16, clang_t16, clang_q32, clang_t32, clang_q64, clang_t64;

enum { OURS, FLINT, FIRST_C, COUNT = 8 };

static struct {
    const char *name;
    times_fn *times[2];
    double best[2];
} table[COUNT] = {
    {"ours", {ours_q, ours_t}},
    {"FLINT", {flint_q, flint_t}},
    {"plain C, 16-bit sums, gcc", {gcc_q16, gcc_t16}},
    {"plain C, 32-bit sums, gcc", {gcc_q32, gcc_t32}},
    {"plain C, 64-bit sums, gcc", {gcc_q64, gcc_t64}},
    {"plain C, 16-bit sums, clang", {clang_q16, clang_t16}},
    {"plain C, 32-bit sums, clang", {clang_q32, clang_t32}},
    {"plain C, 64-bit sums, clang", {clang_q64, clang_t64}},
};

static double now_us(void) {
    struct timespec t;
    clock_gettime(CLOCK_MONOTONIC, &t);
    return t.tv_sec * 1e6 + t.tv_nsec * 1e-3;
}

// µs for one call. The stack starts at another place each round, since some places are slower.
static double timed(times_fn *times, int round, const uint16_t *x, const uint16_t *y, uint16_t *out) {
    volatile char *shift = alloca(16 + round % 64 * 64);
    shift[0] = 0;
    double start = now_us();
    for (int i = 0; i < CALLS; i++)
        times(x, y, out);
    return (now_us() - start) / CALLS;
}

static void draw(uint16_t *words, int m) {
    for (int i = 0; i < N; i++)
        words[i] = random() % m;
}

// One round for a kind: every contestant on the same two elements.
static void compete(int round, int kind) {
    static const int moduli[2] = {4096, 3};
    static uint16_t x[N], y[N], expected[N], out[N];
    draw(x, moduli[kind]);
    draw(y, moduli[kind]);
    table[FLINT].times[kind](x, y, expected);
    for (int c = 0; c < COUNT; c++) {
        if (!table[c].times[kind])
            continue;
        memset(out, 0xff, sizeof out);
        double us = timed(table[c].times[kind], round, x, y, out);
        if (memcmp(out, expected, sizeof out) != 0) {
            printf("%s disagrees with FLINT\n", table[c].name);
            exit(1);
        }
        if (round == 0 || us < table[c].best[kind])
            table[c].best[kind] = us;
    }
}

static double quickest_c(int kind) {
    double best = table[FIRST_C].best[kind];
    for (int c = FIRST_C; c < COUNT; c++)
        if (table[c].times[kind] && table[c].best[kind] < best)
            best = table[c].best[kind];
    return best;
}

static void line(const char *name, double q, double t) { printf("%-28s %10.2f %10.2f\n", name, q, t); }

int main(void) {
    for (int round = 0; round < ROUNDS; round++) {
        compete(round, 0);
        compete(round, 1);
    }
    printf("%-28s %10s %10s\n", "us for a product", "Q(821,12)", "T(821)");
    for (int c = 0; c < COUNT; c++)
        if (table[c].times[0])
            line(table[c].name, table[c].best[0], table[c].best[1]);
    double *ours = table[OURS].best, *flint = table[FLINT].best;
    line("ours / quickest plain C", ours[0] / quickest_c(0), ours[1] / quickest_c(1));
    line("ours / FLINT", ours[0] / flint[0], ours[1] / flint[1]);
    printf("%d rounds of %d calls, the quickest round of each; all agreed on every round\n", ROUNDS, CALLS);
    return 0;
}
