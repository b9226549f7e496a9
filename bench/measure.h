/*
 * measure.h: the time and the stack of calls, for the benchmarks.
 *
 * A cell is one function that makes a call, with what it is handed. Time: each cell runs once in each round, the cells in turn; the least of its
 * rounds counts, since what else the machine does can only add to a time. Stack: the deepest byte touched below the caller of the cell's function.
 */
#ifndef MEASURE_H
#define MEASURE_H

#include <stddef.h>

enum {
    ROUNDS = 60,
    SAMPLE_NS = 2500000 /* how long a cell runs in a round */
};

typedef void work(const void *with);

struct cell {
    work *does;
    const void *with;
    double least;        /* ns a call */
    size_t stack;        /* bytes */
    unsigned long times; /* calls in a round */
};

void measure_time(struct cell *cells, size_t count);

/* Ends the program if a known depth is measured wrongly. */
void measure_stack(struct cell *cells, size_t count);

/* Keeps a call from becoming its function's tail, and its results from being thought unused. */
static inline void settle(void) {
    __asm__ volatile("" ::: "memory");
}

#endif
