/* The stack of a call: a thread's own, filled with a pattern, and how much of it the call changed. At most 8 KiB, also for the
   largest capture. */
#ifndef STACK_H
#define STACK_H
#include "check.h"
#include <pthread.h>

enum { STACK = 1 << 20, STACK_LIMIT = 8192 };
static _Alignas(4096) uint8_t stack[STACK];

static size_t stack_used(void *(*work)(void *))
{
    pthread_attr_t attr;
    pthread_t thread;
    memset(stack, 0xA5, sizeof stack);
    pthread_attr_init(&attr);
    CHECK(pthread_attr_setstack(&attr, stack, sizeof stack) == 0);
    CHECK(pthread_create(&thread, &attr, work, NULL) == 0);
    CHECK(pthread_join(thread, NULL) == 0);
    pthread_attr_destroy(&attr);
    size_t kept = 0;
    while (kept < sizeof stack && stack[kept] == 0xA5) {
        kept++;
    }
    return sizeof stack - kept;
}

static void *stack_nothing(void *unused) { return unused; }

static void stack_stays_small(void *(*call)(void *), const char *what)
{
    size_t bytes = stack_used(call) - stack_used(stack_nothing);
    printf("stack of %s: %zu bytes\n", what, bytes);
    CHECK(bytes <= STACK_LIMIT);
}

#endif
