#include "lines.h"

#include <errno.h>
#include <fcntl.h>
#include <stdio.h>
#include <stdlib.h>
#include <string.h>
#include <sys/stat.h>
#include <unistd.h>

/* ---- lines */

/* Hands the first `length` bytes on as a line, or an empty one if its beginning is lost, and moves up what comes after the first `used`. */
static bool hand_on(struct lines *lines, size_t length, size_t used, bool (*take)(char *line)) {
    memcpy(lines->line, lines->bytes, length);
    lines->line[lines->lost ? 0 : length] = '\0';
    lines->lost = false;
    memmove(lines->bytes, lines->bytes + used, lines->have - used);
    lines->have -= used;
    return take(lines->line);
}

/* Hands the first whole line on, if there is one. *more: there was one. */
static bool take_one(struct lines *lines, bool (*take)(char *line), bool *more) {
    char *end = memchr(lines->bytes, '\n', lines->have);
    *more = end != NULL;
    if (end != NULL) {
        size_t length = (size_t)(end - lines->bytes);
        return hand_on(lines, length, length + 1, take);
    }
    if (lines->have == LINE_MOST) {
        lines->lost = true;
        lines->have = 0;
    }
    return true;
}

bool lines_read(int file, struct lines *lines, bool (*take)(char *line)) {
    ssize_t got = read(file, lines->bytes + lines->have, LINE_MOST - lines->have);
    if (got < 0)
        return errno == EAGAIN || errno == EINTR;
    if (got == 0) {
        if (lines->have > 0 || lines->lost)
            hand_on(lines, lines->have, lines->have, take);
        return false;
    }
    lines->have += (size_t)got;
    bool more = true, going = true;
    while (more && going)
        going = take_one(lines, take, &more);
    return going;
}

size_t split(char *line, char **words, size_t most) {
    size_t count = 0;
    for (size_t i = 0; i < most; i++) {
        line += strspn(line, " ");
        words[i] = line;
        count += *line != '\0';
        char *end = i + 1 < most ? strchr(line, ' ') : NULL;
        if (end != NULL)
            *end = '\0';
        line = end != NULL ? end + 1 : line + strlen(line);
    }
    return count;
}

/* ---- numbers */

bool decimal(const char *word, unsigned long most, unsigned long *value) {
    size_t length = strlen(word);
    if (length == 0 || length > 9 || strspn(word, "0123456789") != length)
        return false;
    *value = strtoul(word, NULL, 10);
    return *value <= most;
}

bool hexadecimal(const char *word, uint64_t *value) {
    if (strncmp(word, "0x", 2) == 0)
        word += 2;
    size_t length = strlen(word);
    if (length == 0 || length > 16 || strspn(word, "0123456789abcdefABCDEF") != length)
        return false;
    *value = strtoull(word, NULL, 16);
    return true;
}

/* ---- files */

bool file_read(const char *file, uint8_t *room, size_t most, size_t *length) {
    FILE *from = fopen(file, "rb");
    if (from == NULL)
        return false;
    bool done = setvbuf(from, NULL, _IONBF, 0) == 0;
    *length = fread(room, 1, most, from);
    done = ferror(from) == 0 && done;
    return fclose(from) == 0 && done;
}

/* The rights are set before anything is written: open() gives them to a new file alone. */
FILE *file_secret(const char *file) {
    int made = open(file, O_WRONLY | O_CREAT | O_TRUNC, S_IRUSR | S_IWUSR);
    if (made < 0)
        return NULL;
    FILE *to = fchmod(made, S_IRUSR | S_IWUSR) == 0 ? fdopen(made, "wb") : NULL;
    if (to == NULL)
        close(made);
    else
        setvbuf(to, NULL, _IONBF, 0);
    return to;
}

bool file_write(const char *file, const uint8_t *bytes, size_t length) {
    FILE *to = file_secret(file);
    if (to == NULL)
        return false;
    bool done = fwrite(bytes, 1, length, to) == length;
    return fclose(to) == 0 && done;
}

void print_bytes(const uint8_t *bytes, size_t length) {
    for (size_t i = 0; i < length; i++)
        putchar(bytes[i] >= ' ' && bytes[i] <= '~' ? bytes[i] : '.');
}
