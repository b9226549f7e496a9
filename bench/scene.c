/* scene.c: see scene.h. */
#include "scene.h"

#include <stdio.h>
#include <stdlib.h>
#include <string.h>

enum { HEAD = 8, ROW = 12, NAME = 256, HOST_BODY = 2 + NAME, INTERFACE_BODY = 20 + 10 * ENTRIES + NAME };

void must(bool holds, const char *what) {
    if (holds)
        return;
    printf("it does not hold that %s\n", what);
    exit(1);
}

void put16(uint8_t *p, unsigned v) {
    p[0] = (uint8_t)v;
    p[1] = (uint8_t)(v >> 8);
}

void put32(uint8_t *p, uint32_t v) {
    put16(p, v & 0xffff);
    put16(p + 2, v >> 16);
}

static uint8_t any_byte(void) {
    static uint32_t state = 1;
    state = state * 1664525 + 1013904223;
    return (uint8_t)(state >> 24);
}

void fill(uint8_t *p, size_t n) {
    for (size_t i = 0; i < n; i++)
        p[i] = any_byte();
}

/* ---- the book */

/* What all names share: letters of every kind, and spaces, but for the ends. */
static const uint8_t *shared_name(void) {
    static const char letters[] = "abcdefghijklmnopqrstuvwxyzABCDEFGHIJKLMNOPQRSTUVWXYZ0123456789-_+./ ";
    static uint8_t name[NAME];
    for (size_t i = 0; name[NAME - 1] == 0; i++)
        name[i] = i < 2 || i >= NAME - 2 ? 'x' : (uint8_t)letters[any_byte() % (sizeof letters - 1)];
    return name;
}

static void write_name(uint8_t *p, unsigned id, enum where where) {
    uint8_t *differs = where == FIRST ? p : where == MIDDLE ? p + NAME / 2 : p + NAME - 2;
    if (where == ONE_LETTER)
        memset(p, 'x', NAME);
    else
        memcpy(p, shared_name(), NAME);
    differs[0] = (uint8_t)('0' + id / 10);
    differs[1] = (uint8_t)('0' + id % 10);
}

static void write_row(uint8_t *book, unsigned row, unsigned kind, unsigned id, size_t start, size_t length) {
    uint8_t *p = book + HEAD + ROW * row;
    put16(p, kind);
    put16(p + 2, id);
    put32(p + 4, (uint32_t)start);
    put32(p + 8, (uint32_t)length);
}

static void write_host(uint8_t *body, unsigned id, enum where where) {
    put16(body, GROUP);
    write_name(body + 2, id, where);
}

static void write_interface(uint8_t *body, unsigned id, enum where where) {
    fill(body, 16);
    put16(body + 16, 64);
    put16(body + 18, ENTRIES);
    for (unsigned j = 0; j < ENTRIES; j++) {
        uint8_t *entry = body + 20 + 10 * j;
        put16(entry, j + 1 == ENTRY ? GROUP : j);
        memset(entry + 2, 0xff, 8);
    }
    write_name(body + 20 + 10 * ENTRIES, id, where);
}

size_t write_book(uint8_t book[DQ_BOOK_MOST], unsigned hosts, unsigned interfaces, enum where where) {
    size_t at = HEAD + ROW * (hosts + interfaces);
    for (unsigned i = 0; i < hosts + interfaces; i++) {
        bool host = i < hosts;
        unsigned id = host ? i + 1 : i - hosts + 1;
        size_t length = host ? HOST_BODY : INTERFACE_BODY;
        write_row(book, i, host ? 1 : 2, id, at, length);
        if (host)
            write_host(book + at, id, where);
        else
            write_interface(book + at, id, where);
        at += length;
    }
    put16(book, 1);
    put16(book + 2, hosts + interfaces);
    put32(book + 4, (uint32_t)at);
    return at;
}

/* ---- the connections */

static void open_one(dq_state *state, uint16_t id) {
    uint8_t request[DQ_REQUEST_MOST], fresh[DQ_SECRET], requested[DQ_REQUESTED], proof[DQ_PROOF], proved[DQ_PROVED], key[16];
    uint16_t host;
    size_t blocks;
    request[0] = 1;
    request[1] = 0;
    put16(request + 2, NAME);
    fill(request + 4, DQ_SECRET);
    memcpy(request + 20, state->names + NAME * (id - 1), NAME);
    fill(fresh, sizeof fresh);
    must(dq_request(state, request, sizeof request, fresh, sizeof fresh, requested, sizeof requested, &host, &blocks) == DQ_ACCEPTED &&
             host == id,
         "a request is accepted");
    memcpy(proof, requested + 16, 16);
    fill(proof + 16, 16);
    must(dq_proof(state, host, proof, sizeof proof, proved, sizeof proved, &blocks) == DQ_ACCEPTED, "a proof is accepted");
    dq_connection_key(proof, proof + 16, key);
    must(memcmp(key, state->records.keys + 16 * (id - 1), 16) == 0, "both ends have the same key");
}

void open_all(dq_state *state) {
    for (uint16_t id = 1; id <= HOSTS; id++)
        open_one(state, id);
}

/* ---- packets */

void write_capability(uint8_t capability[DQ_CAPABILITY], const dq_state *state, unsigned narrowings) {
    uint8_t wider[DQ_CAPABILITY];
    size_t blocks;
    must(dq_issue(state->rights.secrets + 16 * (INTERFACE - 1), 16, ENTRY, capability, DQ_CAPABILITY, &blocks) == DQ_ACCEPTED,
         "a capability is issued");
    for (unsigned i = 0; i < narrowings; i++) {
        memcpy(wider, capability, sizeof wider);
        must(dq_narrow(wider, sizeof wider, ((uint64_t)1 << COMMAND) + i, capability, DQ_CAPABILITY, &blocks) == DQ_ACCEPTED,
             "a capability is narrowed");
    }
}

size_t write_command(uint8_t *packet, const dq_state *state, unsigned narrowings, uint8_t command, size_t n) {
    static uint8_t payload[DQ_PAYLOAD_MOST];
    uint8_t capability[DQ_CAPABILITY], vector[DQ_VECTOR_BYTES];
    size_t blocks;
    fill(vector, sizeof vector);
    vector[0] &= 127;
    fill(payload, n);
    write_capability(capability, state, narrowings);
    must(dq_seal_command(state->records.keys + 16 * (HOST - 1), 16, vector, sizeof vector, capability, sizeof capability, HOST, SEQUENCE,
                         GROUP, INTERFACE, command, payload, n, packet, DQ_PACKET_MOST, &blocks) == DQ_ACCEPTED,
         "a command is sealed");
    return 96 + n;
}
