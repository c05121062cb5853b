/* Checks for the tests in C: counts, and lent buffers between canary bytes. */
#ifndef CHECK_H
#define CHECK_H
#include <stdint.h>
#include <stdio.h>
#include <stdlib.h>
#include <string.h>

static unsigned long check_passed, check_failed;

static inline void check_that(int ok, const char *file, int line, const char *what)
{
    if (ok) {
        check_passed++;
    } else if (check_failed++ < 20) {
        printf("%s:%d: %s\n", file, line, what);
    }
}

#define CHECK(ok) check_that((ok), __FILE__, __LINE__, #ok)

static inline void check_same(uint64_t got, uint64_t want, const char *file, int line, const char *what)
{
    if (got != want && check_failed < 20) {
        printf("%s:%d: got %#llx, want %#llx\n", file, line, (unsigned long long)got, (unsigned long long)want);
    }
    check_that(got == want, file, line, what);
}

#define SAME(got, want) check_same((got), (want), __FILE__, __LINE__, #got)

/* Ends a test: its last line and its exit status. */
static inline int check_end(void)
{
    printf("%lu passed, %lu failed\n", check_passed, check_failed);
    return check_failed != 0;
}

/* A lent buffer of len bytes with canary bytes on both sides, and a copy of it as it was lent. */
enum { LENT_MAX = 8192, CANARIES = 32, CANARY = 0xC5 };

struct lent {
    uint8_t all[CANARIES + LENT_MAX + CANARIES];
    uint8_t before[LENT_MAX];
    size_t len;
};

/* Lends len bytes filled with a pattern; the bytes are at the returned pointer. */
static inline uint8_t *lend(struct lent *l, size_t len)
{
    memset(l->all, CANARY, sizeof l->all);
    l->len = len;
    for (size_t i = 0; i < len; i++) {
        l->all[CANARIES + i] = (uint8_t)(i * 37 + 11);
    }
    memcpy(l->before, l->all + CANARIES, len);
    return l->all + CANARIES;
}

/* Lends a copy of some bytes. */
static inline uint8_t *lend_copy(struct lent *l, const void *bytes, size_t len)
{
    lend(l, len);
    if (len) {
        memcpy(l->all + CANARIES, bytes, len);
        memcpy(l->before, bytes, len);
    }
    return l->all + CANARIES;
}

/* Whether the canaries stand and the bytes from `from` on are as they were lent. */
static inline int kept_from(const struct lent *l, size_t from)
{
    for (size_t i = 0; i < CANARIES; i++) {
        if (l->all[i] != CANARY || l->all[CANARIES + l->len + i] != CANARY) {
            return 0;
        }
    }
    return from >= l->len || memcmp(l->all + CANARIES + from, l->before + from, l->len - from) == 0;
}

/* The answer number and the fields above it, by their place in bits. */
static inline unsigned answer_of(uint64_t packed) { return packed & 0xFF; }

static inline uint64_t bits_of(uint64_t packed, unsigned from, unsigned count)
{
    return packed >> from & ((UINT64_C(1) << count) - 1);
}

#endif
