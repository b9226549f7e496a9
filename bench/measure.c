/* measure.c: see measure.h. */
#define _GNU_SOURCE
#include "measure.h"

#include <stdint.h>
#include <stdio.h>
#include <stdlib.h>
#include <string.h>
#include <time.h>
#include <ucontext.h>

/* ---- time */

static double now_ns(void) {
    struct timespec t;
    clock_gettime(CLOCK_MONOTONIC, &t);
    return 1e9 * (double)t.tv_sec + (double)t.tv_nsec;
}

static double sample(const struct cell *c, unsigned long times) {
    double start = now_ns();
    for (unsigned long i = 0; i < times; i++)
        c->does(c->with);
    return (now_ns() - start) / (double)times;
}

static unsigned long calls_in_a_sample(const struct cell *c) {
    unsigned long times = 1;
    double each = sample(c, times);
    while (each * (double)times < SAMPLE_NS / 4) {
        times *= 2;
        each = sample(c, times);
    }
    return 1 + (unsigned long)(SAMPLE_NS / each);
}

static void measure_round(struct cell *cells, size_t count) {
    for (size_t i = 0; i < count; i++) {
        double ns = sample(&cells[i], cells[i].times);
        if (ns < cells[i].least)
            cells[i].least = ns;
    }
}

void measure_time(struct cell *cells, size_t count) {
    for (size_t i = 0; i < count; i++) {
        cells[i].times = calls_in_a_sample(&cells[i]);
        cells[i].least = 1e18;
    }
    for (int round = 0; round < ROUNDS; round++)
        measure_round(cells, count);
}

/* ---- stack: a call on a stack of its own, filled with a pattern before */

enum { STACK_BYTES = 1 << 18, KNOWN = 3000 };

static _Alignas(64) uint8_t own_stack[STACK_BYTES];
static ucontext_t here, there;
static work *volatile stack_work;
static const void *stack_with;

static void nothing(const void *with) {
    (void)with;
    settle();
}

static void known(const void *with) {
    uint8_t bytes[KNOWN];
    (void)with;
    memset(bytes, 1, sizeof bytes);
    __asm__ volatile("" ::"r"(bytes) : "memory");
}

static void on_own_stack(void) {
    stack_work(stack_with);
    settle();
}

static size_t touched(work *f, const void *with, uint8_t pattern) {
    size_t untouched = 0;
    stack_work = f;
    stack_with = with;
    memset(own_stack, pattern, sizeof own_stack);
    getcontext(&there);
    there.uc_stack.ss_sp = own_stack;
    there.uc_stack.ss_size = sizeof own_stack;
    there.uc_link = &here;
    makecontext(&there, on_own_stack, 0);
    swapcontext(&here, &there);
    while (untouched < sizeof own_stack && own_stack[untouched] == pattern)
        untouched++;
    return sizeof own_stack - untouched;
}

/* The deeper of two: a byte that is written with one pattern's value differs from the other's. */
static size_t deepest(work *f, const void *with) {
    size_t one = touched(f, with, 0xa5), other = touched(f, with, 0x5a);
    return one > other ? one : other;
}

void measure_stack(struct cell *cells, size_t count) {
    size_t frame = deepest(nothing, NULL), check = deepest(known, NULL) - frame;
    if (check < KNOWN || check > KNOWN + 200) {
        printf("the stack is measured wrongly: %zu bytes for %d\n", check, KNOWN);
        exit(1);
    }
    for (size_t i = 0; i < count; i++)
        cells[i].stack = deepest(cells[i].does, cells[i].with) - frame;
}
