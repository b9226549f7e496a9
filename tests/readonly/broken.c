/*
 * broken.c: faults of the server's calls, for selftest. The linker's --wrap puts the functions below before those that readonly.c calls, and each
 * passes the call on to the archive. The environment variable FAULT, three words, names the fault: a call, the number it has to have answered, and
 *
 *   state, room, input, fresh  a byte there is stored back as it is
 *   number, blocks, answer     another number, another count, or a field of the answer that isn't 0
 *   nothing                    neither the state nor the room that was lent is written
 */
#include <stdbool.h>
#include <stdio.h>
#include <stdlib.h>
#include <string.h>

#include "deebqoshaan.h"

struct lent {
    dq_state *state;
    uint8_t *room;
    const uint8_t *input, *fresh;
    uint8_t *answer;
    size_t *blocks;
};

/* Whether FAULT has that call, that number and that word. */
static bool fault(const char *call, unsigned number, const char *word) {
    const char *chosen = getenv("FAULT");
    char named[64];
    snprintf(named, sizeof named, "%s %u %s", call, number, word);
    return chosen != NULL && strcmp(chosen, named) == 0;
}

static void store_back(const void *at) {
    volatile uint8_t *byte = (uint8_t *)(uintptr_t)at;
    *byte = *byte;
}

/* Puts the fault in; the result is the number to answer. */
static uint8_t spoilt(const char *call, uint8_t number, const struct lent *l) {
    if (fault(call, number, "state"))
        store_back((uint8_t *)l->state + sizeof *l->state - 1);
    if (fault(call, number, "room"))
        store_back(l->room);
    if (fault(call, number, "input"))
        store_back(l->input);
    if (fault(call, number, "fresh"))
        store_back(l->fresh);
    if (fault(call, number, "answer"))
        *l->answer |= 1;
    if (fault(call, number, "blocks"))
        *l->blocks += 1;
    return fault(call, number, "number") ? 24 : number;
}

static dq_state *state_of(const char *call, dq_state *state) {
    static dq_state other;
    if (!fault(call, DQ_ACCEPTED, "nothing"))
        return state;
    other = *state;
    return &other;
}

static uint8_t *room_of(const char *call, uint8_t *room) {
    static uint8_t other[DQ_PACKET_MOST];
    return fault(call, DQ_ACCEPTED, "nothing") ? other : room;
}

uint8_t __real_dq_request(dq_state *state, const uint8_t *request, size_t request_length, const uint8_t *fresh, size_t fresh_length,
                          uint8_t *room, size_t room_length, uint16_t *host, size_t *blocks);
uint8_t __wrap_dq_request(dq_state *state, const uint8_t *request, size_t request_length, const uint8_t *fresh, size_t fresh_length,
                          uint8_t *room, size_t room_length, uint16_t *host, size_t *blocks) {
    struct lent lent = {state, room, request, fresh, (uint8_t *)host, blocks};
    return spoilt("request", __real_dq_request(state_of("request", state), request, request_length, fresh, fresh_length,
                                               room_of("request", room), room_length, host, blocks), &lent);
}

uint8_t __real_dq_proof(dq_state *state, uint16_t host, const uint8_t *proof, size_t proof_length, uint8_t *room, size_t room_length,
                        size_t *blocks);
uint8_t __wrap_dq_proof(dq_state *state, uint16_t host, const uint8_t *proof, size_t proof_length, uint8_t *room, size_t room_length,
                        size_t *blocks) {
    struct lent lent = {.state = state, .room = room, .input = proof, .blocks = blocks};
    return spoilt("proof", __real_dq_proof(state_of("proof", state), host, proof, proof_length, room_of("proof", room), room_length, blocks),
                  &lent);
}

uint8_t __real_dq_command(dq_state *state, const uint8_t *packet, size_t packet_length, uint8_t *room, size_t room_length, dq_order *order,
                          size_t *blocks);
uint8_t __wrap_dq_command(dq_state *state, const uint8_t *packet, size_t packet_length, uint8_t *room, size_t room_length, dq_order *order,
                          size_t *blocks) {
    struct lent lent = {.state = state, .room = room, .input = packet, .answer = order->secret, .blocks = blocks};
    return spoilt("command", __real_dq_command(state_of("command", state), packet, packet_length, room_of("command", room), room_length, order,
                                               blocks), &lent);
}

uint8_t __real_dq_reply(dq_state *state, uint16_t host, uint16_t sequence, const uint8_t *payload, size_t payload_length, uint8_t *room,
                        size_t room_length, size_t *blocks);
uint8_t __wrap_dq_reply(dq_state *state, uint16_t host, uint16_t sequence, const uint8_t *payload, size_t payload_length, uint8_t *room,
                        size_t room_length, size_t *blocks) {
    struct lent lent = {.state = state, .room = room, .input = payload, .blocks = blocks};
    return spoilt("reply", __real_dq_reply(state_of("reply", state), host, sequence, payload, payload_length, room_of("reply", room),
                                           room_length, blocks), &lent);
}

uint8_t __real_dq_close(dq_state *state, uint16_t host, size_t *blocks);
uint8_t __wrap_dq_close(dq_state *state, uint16_t host, size_t *blocks) {
    struct lent lent = {.state = state, .blocks = blocks};
    return spoilt("close", __real_dq_close(state_of("close", state), host, blocks), &lent);
}

uint8_t __real_dq_revoke(dq_state *state, uint16_t interface_id, uint16_t entry, uint64_t word, size_t *blocks);
uint8_t __wrap_dq_revoke(dq_state *state, uint16_t interface_id, uint16_t entry, uint64_t word, size_t *blocks) {
    struct lent lent = {.state = state, .blocks = blocks};
    return spoilt("revoke", __real_dq_revoke(state_of("revoke", state), interface_id, entry, word, blocks), &lent);
}
