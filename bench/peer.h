/*
 * peer.h: the gateway's loading and command check once more, in plain C, as the benchmark's peer. The same numbers, the same answers, the same state.
 */
#ifndef PEER_H
#define PEER_H

#include "../include/deebqoshaan.h"

uint8_t peer_load(dq_state *state, const uint8_t *book, size_t book_length, size_t *offset, size_t *blocks);

uint8_t peer_command(dq_state *state, const uint8_t *packet, size_t packet_length, uint8_t *room, size_t room_length,
                     dq_order *order, size_t *blocks);

/* Numbers of ours are little-endian. */
static inline uint16_t get16(const uint8_t *p) {
    return (uint16_t)(p[0] | p[1] << 8);
}

static inline uint32_t get32(const uint8_t *p) {
    return get16(p) | (uint32_t)get16(p + 2) << 16;
}

static inline uint64_t get64(const uint8_t *p) {
    return get32(p) | (uint64_t)get32(p + 4) << 32;
}

#endif
