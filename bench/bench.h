/* One operation beside the same work in plain C: the answers compared, the time in short alternating rounds, and for callgrind the
   calls alone. */
#ifndef BENCH_H
#define BENCH_H
#define _POSIX_C_SOURCE 200809L
#include <stdint.h>
#include <stdio.h>
#include <stdlib.h>
#include <string.h>
#include <time.h>

/* Keeps a function a call, as ours is. */
#define PLAIN __attribute__((noipa)) static

enum { ROUNDS = 600 };
static const double ROUND = 30e-6; /* seconds */

/* Calls number `from` to `past` of one side; answers the sum of all answers. */
typedef uint64_t side(size_t from, size_t past);

#define SIDE(name, call, ...)                                                                                                                      \
    static uint64_t name(size_t from, size_t past)                                                                                                 \
    {                                                                                                                                              \
        uint64_t all = 0;                                                                                                                          \
        for (size_t i = from; i < past; i++) {                                                                                                     \
            all += call(__VA_ARGS__);                                                                                                              \
        }                                                                                                                                          \
        return all;                                                                                                                                \
    }

/* The two sides of a row: call number i, with the same arguments. */
#define SIDES(row, ours, plain, ...)                                                                                                               \
    SIDE(row##_ours, ours, __VA_ARGS__)                                                                                                            \
    SIDE(row##_plain, plain, __VA_ARGS__)

/* A row of `calls` different calls; what they write is in the array `lent`. */
#define ROW(name, row, calls, lent) bench_row(name, row##_ours, row##_plain, calls, lent, NULL, sizeof lent)

/* The same, where `lent` holds what is in the array `start` before the first call of a side, and before each one compared. */
#define ROW_FROM(name, row, calls, lent, start) bench_row(name, row##_ours, row##_plain, calls, lent, start, sizeof lent)

static volatile uint64_t bench_sink;

static inline double bench_round(side *run, size_t calls)
{
    struct timespec a, b;
    clock_gettime(CLOCK_MONOTONIC, &a);
    bench_sink += run(0, calls);
    clock_gettime(CLOCK_MONOTONIC, &b);
    return (double)(b.tv_sec - a.tv_sec) + (double)(b.tv_nsec - a.tv_nsec) * 1e-9;
}

/* callgrind counts what runs in here, and writes a file for each time. */
PLAIN void bench_count(side *run, size_t calls)
{
    bench_sink += run(0, calls);
}

/* Makes what is lent as `start` has it, or all one byte. */
static inline void bench_fill(void *lent, const void *start, int byte, size_t size)
{
    if (start) {
        memcpy(lent, start, size);
    } else {
        memset(lent, byte, size);
    }
}

static inline void bench_compare(const char *name, side *ours, side *plain, size_t calls, void *lent, const void *start, size_t size)
{
    uint8_t *left = malloc(size);
    for (size_t i = 0; i < calls; i++) {
        bench_fill(lent, start, 0xA5, size);
        uint64_t answer = ours(i, i + 1);
        memcpy(left, lent, size);
        bench_fill(lent, start, 0xA5, size);
        if (answer != plain(i, i + 1) || memcmp(left, lent, size) != 0) {
            fprintf(stderr, "%s: the two sides differ at call %zu\n", name, i);
            exit(1);
        }
    }
    free(left);
}

static inline void bench_row(const char *name, side *ours, side *plain, size_t calls, void *lent, const void *start, size_t size)
{
    if (getenv("BENCH_COUNT")) {
        bench_fill(lent, start, 0, size);
        bench_count(ours, calls);
        bench_fill(lent, start, 0, size);
        bench_count(plain, calls);
        return;
    }
    bench_compare(name, ours, plain, calls, lent, start, size);
    bench_fill(lent, start, 0, size);
    size_t times = 1;
    while (bench_round(ours, times) < ROUND) {
        times *= 2;
    }
    double least_ours = 1, least_plain = 1;
    for (int i = 0; i < ROUNDS; i++) {
        double a = bench_round(ours, times), b = bench_round(plain, times);
        least_ours = a < least_ours ? a : least_ours;
        least_plain = b < least_plain ? b : least_plain;
    }
    printf("%s\t%zu\t%g\t%g\n", name, calls, least_ours / (double)times * 1e9, least_plain / (double)times * 1e9);
}

#endif
