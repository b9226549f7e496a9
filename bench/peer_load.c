/*
 * peer_load.c: loading a book in plain C (document 01, "The book"): the benchmark's peer.
 *
 * The contents list is judged first, row by row. Then each body is judged and copied into the state, so that a name is compared with those that
 * already stand there. A fault on the way empties the state again.
 */
#include <stdbool.h>
#include <string.h>

#include "peer.h"

enum { HEAD = 8, ROW = 12, HOSTS_MOST = 32, INTERFACES_MOST = 8, ROWS_MOST = 40, NAME_MOST = 256, ENTRIES_MOST = 16 };

struct fault {
    uint8_t number;
    size_t offset;
};

struct row {
    uint16_t kind, id;
    uint32_t start, length;
};

static struct fault fault(uint8_t number, size_t offset) {
    return (struct fault){number, offset};
}

static struct row row_at(const uint8_t *book, size_t i) {
    const uint8_t *p = book + HEAD + ROW * i;
    return (struct row){get16(p), get16(p + 2), get32(p + 4), get32(p + 8)};
}

static struct fault judge_head(const uint8_t *book, size_t n) {
    if (n < HEAD || n > DQ_BOOK_MOST)
        return fault(DQ_SIZE, 0);
    if (get32(book + 4) != n)
        return fault(DQ_SIZE, 4);
    if (get16(book) != 1)
        return fault(DQ_FORMAT, 0);
    size_t rows = get16(book + 2);
    if (rows == 0 || rows > ROWS_MOST || HEAD + ROW * rows > n)
        return fault(DQ_ROWS, 2);
    return fault(DQ_ACCEPTED, 0);
}

/* Hosts first, 1 to 32; then interfaces, 0 to 8. */
static bool kind_fits(const dq_rights *so_far, uint16_t kind) {
    if (kind == 1)
        return so_far->interfaces == 0 && so_far->hosts < HOSTS_MOST;
    return kind == 2 && so_far->hosts > 0 && so_far->interfaces < INTERFACES_MOST;
}

static bool length_fits(const struct row *row) {
    if (row->kind == 1)
        return row->length >= 3 && row->length <= 2 + NAME_MOST;
    return row->length >= 31 && row->length <= 20 + 10 * ENTRIES_MOST + NAME_MOST;
}

/* One row, whose body must start at `from`; counts it. */
static struct fault judge_row(dq_rights *so_far, const struct row *row, size_t at, size_t from, size_t total, bool last) {
    if (!kind_fits(so_far, row->kind))
        return fault(DQ_KIND_OR_ID, at);
    uint16_t *count = row->kind == 1 ? &so_far->hosts : &so_far->interfaces;
    if (row->id != *count + 1)
        return fault(DQ_KIND_OR_ID, at + 2);
    if (row->start != from)
        return fault(DQ_START_OR_LENGTH, at + 4);
    size_t end = from + row->length;
    if (!length_fits(row) || end > total || (last && end != total))
        return fault(DQ_START_OR_LENGTH, at + 8);
    *count += 1;
    return fault(DQ_ACCEPTED, 0);
}

static struct fault judge_rows(dq_rights *so_far, const uint8_t *book, size_t n) {
    size_t rows = get16(book + 2), from = HEAD + ROW * rows;
    for (size_t i = 0; i < rows; i++) {
        struct row row = row_at(book, i);
        struct fault f = judge_row(so_far, &row, HEAD + ROW * i, from, n, i + 1 == rows);
        if (f.number != DQ_ACCEPTED)
            return f;
        from += row.length;
    }
    return fault(DQ_ACCEPTED, 0);
}

static bool is_letter(uint8_t c) {
    if ((c >= 'a' && c <= 'z') || (c >= 'A' && c <= 'Z') || (c >= '0' && c <= '9'))
        return true;
    return c == '-' || c == '_' || c == '+' || c == '.' || c == '/';
}

/* How many of a name's bytes fit before the first that doesn't: a space fits inside only. */
static size_t fitting(const uint8_t *name, size_t n) {
    size_t i = 0;
    while (i < n && (is_letter(name[i]) || (name[i] == ' ' && i > 0 && i + 1 < n)))
        i++;
    return i;
}

static bool used_before(const uint8_t *names, const uint16_t *sizes, size_t count, const uint8_t *name, size_t n) {
    for (size_t i = 0; i < count; i++)
        if (sizes[i] == n && memcmp(names + NAME_MOST * i, name, n) == 0)
            return true;
    return false;
}

/* The name at `at`: judged, and placed as that of thing i of its kind. */
static struct fault load_name(uint8_t *names, uint16_t *sizes, size_t i, const uint8_t *book, size_t at, size_t n) {
    size_t good = fitting(book + at, n);
    if (good < n)
        return fault(DQ_LETTER, at + good);
    if (used_before(names, sizes, i, book + at, n))
        return fault(DQ_NAME_USED, at);
    memcpy(names + NAME_MOST * i, book + at, n);
    sizes[i] = (uint16_t)n;
    return fault(DQ_ACCEPTED, 0);
}

static struct fault load_entries(dq_rights *rights, size_t i, const uint8_t *book, size_t at) {
    uint64_t beyond = rights->commands[i] < 64 ? ~(uint64_t)0 << rights->commands[i] : 0;
    for (size_t j = 0; j < rights->entries[i]; j++, at += 10) {
        uint64_t word = get64(book + at + 2);
        if ((word & beyond) != 0)
            return fault(DQ_PERMITTED, at + 2);
        rights->words[ENTRIES_MOST * i + j] = word;
        rights->owners[ENTRIES_MOST * i + j] = get16(book + at);
    }
    return fault(DQ_ACCEPTED, 0);
}

static struct fault load_host(dq_state *state, size_t i, const uint8_t *book, const struct row *row) {
    state->rights.groups[i] = get16(book + row->start);
    return load_name(state->names, state->rights.sizes, i, book, row->start + 2, row->length - 2);
}

static struct fault load_interface(dq_state *state, size_t i, const uint8_t *book, const struct row *row) {
    dq_rights *rights = &state->rights;
    const uint8_t *body = book + row->start;
    uint16_t commands = get16(body + 16), entries = get16(body + 18);
    if (commands == 0 || commands > 64)
        return fault(DQ_COUNTS, row->start + 16);
    size_t lead = 20 + 10 * (size_t)entries;
    if (entries == 0 || entries > ENTRIES_MOST || row->length <= lead || row->length - lead > NAME_MOST)
        return fault(DQ_COUNTS, row->start + 18);
    rights->commands[i] = commands;
    rights->entries[i] = entries;
    memcpy(rights->secrets + 16 * i, body, 16);
    struct fault f = load_entries(rights, i, book, row->start + 20);
    if (f.number != DQ_ACCEPTED)
        return f;
    return load_name(state->labels, rights->spans, i, book, row->start + lead, row->length - lead);
}

static struct fault load_bodies(dq_state *state, const uint8_t *book) {
    size_t hosts = state->rights.hosts, rows = hosts + state->rights.interfaces;
    for (size_t i = 0; i < rows; i++) {
        struct row row = row_at(book, i);
        struct fault f = i < hosts ? load_host(state, i, book, &row) : load_interface(state, i - hosts, book, &row);
        if (f.number != DQ_ACCEPTED)
            return f;
    }
    return fault(DQ_ACCEPTED, 0);
}

static struct fault load(dq_state *state, const uint8_t *book, size_t n) {
    struct fault f = judge_head(book, n);
    if (f.number != DQ_ACCEPTED)
        return f;
    f = judge_rows(&state->rights, book, n);
    if (f.number != DQ_ACCEPTED)
        return f;
    return load_bodies(state, book);
}

uint8_t peer_load(dq_state *state, const uint8_t *book, size_t book_length, size_t *offset, size_t *blocks) {
    memset(state, 0, sizeof *state);
    struct fault f = load(state, book, book_length);
    if (f.number != DQ_ACCEPTED)
        memset(state, 0, sizeof *state);
    *offset = f.offset;
    *blocks = 0;
    return f.number;
}
