/* lines.h: what a person types: lines of standard input, their words, and numbers in them; and small files. */
#ifndef LINES_H
#define LINES_H

#include <stdbool.h>
#include <stddef.h>
#include <stdint.h>
#include <stdio.h>

enum { LINE_MOST = 20000 }; /* a line with the longest payload and its newline, and more */

struct lines {
    size_t have;
    bool lost;             /* the beginning of the line that comes was dropped: it is too long */
    char bytes[LINE_MOST]; /* what has come and isn't handed on yet */
    char line[LINE_MOST];  /* the one that is handed on */
};

/*
 * Reads once from a file that has something to read, and hands each whole line to `take`, without its newline, until that says false. At the end of
 * the file a last line without a newline is handed on too. A line that has more than LINE_MOST bytes with its newline is handed on as an empty one:
 * no part of it is obeyed. False if `take` said so, or at the end of the file.
 */
bool lines_read(int file, struct lines *lines, bool (*take)(char *line));

/* Cuts a line into words, up to `most`; the last one is the rest of the line, spaces and all. How many there are; those beyond are "". */
size_t split(char *line, char **words, size_t most);

/* The number that a word stands for, if it is one and at most `most`. Digits alone: no sign, no space. */
bool decimal(const char *word, unsigned long most, unsigned long *value);
bool hexadecimal(const char *word, uint64_t *value);

/* Reads a file of up to `most` bytes; of a longer one, the first `most`. No copy is left but that in the room. False if it can't be read. */
bool file_read(const char *file, uint8_t *room, size_t most, size_t *length);

/*
 * Opens a file to be written anew. Whatever rights an earlier one under that name gave, its owner alone can open it from here on; who has it open
 * already keeps it. What is written isn't buffered, so no copy is left. NULL if it can't be had.
 */
FILE *file_secret(const char *file);

/* Writes bytes to a file that is opened so. */
bool file_write(const char *file, const uint8_t *bytes, size_t length);

/* Prints bytes that somebody sent, with a dot for each that isn't a printable letter. */
void print_bytes(const uint8_t *bytes, size_t length);

#endif
