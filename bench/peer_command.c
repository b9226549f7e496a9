/*
 * peer_command.c: the check of a command in plain C over BearSSL's small AES and its 64-bit GHASH (document 01, "Command: 39, then 1 to 19"):
 * the benchmark's peer.
 *
 * The tag is judged over the ciphertext, then the first 64 bytes are deciphered and judged; the payload is deciphered into the room at the end.
 * So nothing is written for a refusal, and no byte is deciphered twice.
 */
#include <stdbool.h>
#include <string.h>

#include <bearssl.h>

#include "peer.h"

enum { OPEN_PART = 32, TEXT_LEAD = 64, PACKET_LEAST = OPEN_PART + TEXT_LEAD };

static bool within(unsigned most, unsigned v) {
    return v >= 1 && v <= most;
}

/* ---- 39 */

static bool words_sound(const uint64_t *words, unsigned entries, unsigned commands) {
    uint64_t beyond = commands < 64 ? ~(uint64_t)0 << commands : 0;
    for (unsigned j = 0; j < entries; j++)
        if ((words[j] & beyond) != 0)
            return false;
    return true;
}

static bool interfaces_sound(const dq_rights *r) {
    for (unsigned i = 0; i < r->interfaces; i++)
        if (!within(256, r->spans[i]) || !within(64, r->commands[i]) || !within(16, r->entries[i]) ||
            !words_sound(r->words + 16 * i, r->entries[i], r->commands[i]))
            return false;
    return true;
}

static bool hosts_sound(const dq_rights *r) {
    for (unsigned i = 0; i < r->hosts; i++)
        if (!within(256, r->sizes[i]))
            return false;
    return true;
}

static bool sound(const dq_rights *r) {
    return r->hosts <= 32 && r->interfaces <= 8 && hosts_sound(r) && interfaces_sound(r);
}

/* ---- AES and GCM by BearSSL */

/* block := its encryption under the key */
static void encipher(const uint8_t key[16], uint8_t block[16]) {
    br_aes_small_cbcenc_keys keys;
    uint8_t zeros[16] = {0};
    br_aes_small_cbcenc_init(&keys, key, 16);
    br_aes_small_cbcenc_run(&keys, zeros, block, 16);
}

/* No early exit. */
static bool same16(const uint8_t *a, const uint8_t *b) {
    unsigned differ = 0;
    for (int i = 0; i < 16; i++)
        differ |= a[i] ^ b[i];
    return differ == 0;
}

static bool tag_right(const br_aes_small_ctr_keys *keys, const uint8_t *packet, size_t n) {
    static const uint8_t no_vector[12];
    uint8_t h[16] = {0}, y[16] = {0}, lengths[16] = {0};
    size_t bits = 8 * (n - OPEN_PART);
    br_aes_small_ctr_run(keys, no_vector, 0, h, 16);
    lengths[7] = 32;
    lengths[13] = (uint8_t)(bits >> 16);
    lengths[14] = (uint8_t)(bits >> 8);
    lengths[15] = (uint8_t)bits;
    br_ghash_ctmul64(y, h, packet, 4);
    br_ghash_ctmul64(y, h, packet + OPEN_PART, n - OPEN_PART);
    br_ghash_ctmul64(y, h, lengths, 16);
    br_aes_small_ctr_run(keys, packet + 4, 1, y, 16);
    return same16(y, packet + 16);
}

/* ---- the rows of the table */

static uint8_t judge_open_part(const dq_state *state, const uint8_t *packet, size_t n, size_t room_length) {
    if (!sound(&state->rights))
        return DQ_UNSOUND;
    if (n < PACKET_LEAST)
        return DQ_BELOW;
    if (n > DQ_PACKET_MOST)
        return DQ_ABOVE;
    if (get16(packet + 2) != 0)
        return DQ_ZEROS;
    unsigned client = get16(packet);
    if (!within(state->rights.hosts, client))
        return DQ_NO_HOST;
    if (packet[4] >= 128)
        return DQ_VECTOR;
    if (state->records.tags[client - 1] != 2 && state->records.tags[client - 1] != 3)
        return DQ_NOT_OPEN;
    if (room_length < n - PACKET_LEAST)
        return DQ_ROOM_SHORT;
    return DQ_ACCEPTED;
}

static void read_order(dq_order *o, const uint8_t *text) {
    o->client = get16(text);
    o->sequence = get16(text + 2);
    o->group = get16(text + 4);
    o->interface_id = get16(text + 6);
    o->capability = get16(text + 8);
    o->length = get16(text + 10);
    o->command = text[12];
    o->zeros = get32(text + 12) >> 8;
    for (int i = 0; i < 4; i++)
        o->words[i] = get64(text + 16 + 8 * i);
    memcpy(o->secret, text + 48, 16);
}

static uint8_t judge_rights(const dq_rights *r, const dq_order *o) {
    unsigned i = o->interface_id - 1u;
    if (!within(r->entries[i], o->capability))
        return DQ_NO_ENTRY;
    unsigned entry = 16 * i + o->capability - 1u;
    if (r->owners[entry] != 0 && r->owners[entry] != o->group)
        return DQ_ENTRY_GROUP;
    if (o->command >= r->commands[i])
        return DQ_NO_COMMAND;
    uint64_t permitted = r->words[entry] & o->words[0] & o->words[1] & o->words[2] & o->words[3];
    if ((permitted >> o->command & 1) == 0)
        return DQ_NOT_PERMITTED;
    return DQ_ACCEPTED;
}

static uint8_t judge_order(const dq_state *state, const dq_order *o, unsigned client, size_t payload) {
    const dq_rights *r = &state->rights;
    if (o->client != client)
        return DQ_CLIENT_DIFFERS;
    if (o->zeros != 0)
        return DQ_INNER_ZEROS;
    if (o->length != payload)
        return DQ_LENGTH_FIELD;
    if (o->sequence <= state->records.lasts[client - 1])
        return DQ_NOT_FRESH;
    if (o->group != 0 && o->group != r->groups[client - 1])
        return DQ_GROUP;
    if (!within(r->interfaces, o->interface_id))
        return DQ_NO_INTERFACE;
    return judge_rights(r, o);
}

/* secret := the next one in the chain */
static void chain(uint8_t secret[16], uint64_t word) {
    uint8_t block[16] = {0};
    for (int i = 0; i < 8; i++)
        block[i] = (uint8_t)(word >> 8 * i);
    encipher(secret, block);
    memcpy(secret, block, 16);
}

/* The right secret of the capability that the order shows; the result is how many blocks it took. */
static size_t right_secret(uint8_t secret[16], const uint8_t master[16], const dq_order *o) {
    size_t words = 0;
    memset(secret, 0, 16);
    secret[0] = (uint8_t)o->capability;
    secret[1] = (uint8_t)(o->capability >> 8);
    encipher(master, secret);
    while (words < 4 && o->words[words] != UINT64_MAX)
        chain(secret, o->words[words++]);
    return 1 + words;
}

/* ---- the call */

static uint8_t judge(dq_state *state, const uint8_t *packet, size_t n, uint8_t *room, size_t room_length, dq_order *o, size_t *blocks) {
    uint8_t number = judge_open_part(state, packet, n, room_length);
    if (number != DQ_ACCEPTED)
        return number;
    unsigned client = get16(packet);
    br_aes_small_ctr_keys keys;
    br_aes_small_ctr_init(&keys, state->records.keys + 16 * (client - 1), 16);
    *blocks = 2;
    if (!tag_right(&keys, packet, n))
        return DQ_TAG_WRONG;
    uint8_t text[TEXT_LEAD], secret[16];
    memcpy(text, packet + OPEN_PART, TEXT_LEAD);
    br_aes_small_ctr_run(&keys, packet + 4, 2, text, TEXT_LEAD);
    read_order(o, text);
    *blocks += (n - OPEN_PART + 15) / 16;
    number = judge_order(state, o, client, n - PACKET_LEAST);
    if (number != DQ_ACCEPTED)
        return number;
    *blocks += right_secret(secret, state->rights.secrets + 16 * (o->interface_id - 1), o);
    if (!same16(secret, o->secret))
        return DQ_SECRET_WRONG;
    memcpy(room, packet + PACKET_LEAST, n - PACKET_LEAST);
    br_aes_small_ctr_run(&keys, packet + 4, 6, room, n - PACKET_LEAST);
    state->records.tags[client - 1] = 3;
    state->records.lasts[client - 1] = o->sequence;
    return DQ_ACCEPTED;
}

uint8_t peer_command(dq_state *state, const uint8_t *packet, size_t packet_length, uint8_t *room, size_t room_length,
                     dq_order *order, size_t *blocks) {
    *blocks = 0;
    uint8_t number = judge(state, packet, packet_length, room, room_length, order, blocks);
    if (number != DQ_ACCEPTED)
        memset(order, 0, sizeof *order);
    return number;
}
