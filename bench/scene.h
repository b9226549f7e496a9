/*
 * scene.h: what the benchmark of the lent calls reads: the largest book, a state with all its hosts open, and packets.
 *
 * The calls name the last host and the last interface. The entry is one in the middle: beside it stand others, of other groups.
 */
#ifndef SCENE_H
#define SCENE_H

#include <stdbool.h>

#include "../include/deebqoshaan.h"

enum {
    HOSTS = 32,
    INTERFACES = 8,
    ENTRIES = 16,
    HOST = 32,
    INTERFACE = 8,
    ENTRY = 8,
    GROUP = 7,
    COMMAND = 33,     /* permitted by the entry and by every narrowing */
    NOT_COMMAND = 34, /* permitted by the entry, and by no narrowing */
    SEQUENCE = 6
};

/*
 * Where the names of a book differ: in two bytes alone, which stand first, in the middle, or last. They have letters of every kind, but those of
 * ONE_LETTER, which differ last: there a loader's branches are always foreseen.
 */
enum where { FIRST, MIDDLE, LAST, ONE_LETTER, BOOKS };

/* A book of so many hosts and interfaces, every other count and every name's length at its limit; the result is its length. */
size_t write_book(uint8_t book[DQ_BOOK_MOST], unsigned hosts, unsigned interfaces, enum where where);

/* Every host asks and proves. */
void open_all(dq_state *state);

/* The capability of ENTRY, narrowed so often. */
void write_capability(uint8_t capability[DQ_CAPABILITY], const dq_state *state, unsigned narrowings);

/* A command of HOST, with a payload of n bytes; the result is the packet's length. */
size_t write_command(uint8_t *packet, const dq_state *state, unsigned narrowings, uint8_t command, size_t n);

void put16(uint8_t *p, unsigned v);
void put32(uint8_t *p, uint32_t v);

/* n bytes that look like any others, the same in every run. */
void fill(uint8_t *p, size_t n);

/* Ends the program with status 1 if something that must hold doesn't. */
void must(bool holds, const char *what);

#endif
