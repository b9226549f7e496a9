/* agree.c: see agree.h. */
#include "agree.h"

#include <stdio.h>
#include <string.h>

#include <bearssl.h>

#include "peer.h"
#include "scene.h"

enum { PAYLOAD = 5, LENGTH = 96 + PAYLOAD };

static bool seen[256];

/* All numbers from `first` to `last` have come up. */
static void must_have_seen(unsigned first, unsigned last) {
    for (unsigned n = first; n <= last; n++)
        must(seen[n], "every number of the call comes up");
}

/* Field by field: what the compiler leaves between fields may differ. */
static bool same_rights(const dq_rights *a, const dq_rights *b) {
    return memcmp(a, b, offsetof(dq_rights, secrets)) == 0 && memcmp(a->secrets, b->secrets, sizeof a->secrets) == 0;
}

static bool same_state(const dq_state *a, const dq_state *b) {
    return same_rights(&a->rights, &b->rights) && memcmp(&a->records, &b->records, sizeof a->records) == 0 &&
           memcmp(a->names, b->names, sizeof a->names) == 0 && memcmp(a->labels, b->labels, sizeof a->labels) == 0;
}

static bool same_order(const dq_order *a, const dq_order *b) {
    return memcmp(a, b, offsetof(dq_order, command) + 1) == 0 && a->zeros == b->zeros &&
           memcmp(a->words, b->words, sizeof a->words) == 0 && memcmp(a->secret, b->secret, sizeof a->secret) == 0;
}

/* ---- books */

static void agree_on_book(const uint8_t *book, size_t n) {
    static dq_state ours, theirs;
    size_t offset[2], blocks[2];
    memset(&ours, 0xa5, sizeof ours);
    memset(&theirs, 0x5a, sizeof theirs);
    uint8_t number = dq_load(&ours, book, n, &offset[0], &blocks[0]);
    must(peer_load(&theirs, book, n, &offset[1], &blocks[1]) == number && offset[0] == offset[1] && blocks[0] == blocks[1],
         "both loaders give the same number and place");
    must(same_state(&ours, &theirs), "both loaders give the same state");
    seen[number] = true;
}

/* The book with one byte changed, each byte in turn. */
static void agree_on_changed(uint8_t *book, size_t n, uint8_t change) {
    for (size_t i = 0; i < n; i++) {
        book[i] ^= change;
        agree_on_book(book, n);
        book[i] ^= change;
    }
}

/* A space in place of each byte in turn. */
static void agree_on_spaces(uint8_t *book, size_t n) {
    for (size_t i = 0; i < n; i++) {
        uint8_t byte = book[i];
        book[i] = ' ';
        agree_on_book(book, n);
        book[i] = byte;
    }
}

/* The book cut, with the total that fits what is left. */
static void agree_on_cut(uint8_t *book, size_t n) {
    for (size_t left = 0; left < n; left++) {
        put32(book + 4, (uint32_t)left);
        agree_on_book(book, left);
    }
    put32(book + 4, (uint32_t)n);
}

static void agree_on_small(void) {
    static const uint8_t changes[] = {1, 3, 0x1f, 0x80, 0xff};
    static uint8_t book[DQ_BOOK_MOST];
    size_t n = write_book(book, 2, 2, FIRST);
    for (size_t i = 0; i < sizeof changes; i++)
        agree_on_changed(book, n, changes[i]);
    agree_on_spaces(book, n);
    agree_on_cut(book, n);
}

/* The largest, one byte more than it, and the largest with the name of host 1 for host 32 too. */
static void agree_on_largest(enum where where) {
    enum { BODIES = 8 + 12 * 40, BODY = 258 };
    static uint8_t book[DQ_BOOK_MOST + 1];
    size_t n = write_book(book, HOSTS, INTERFACES, where);
    must(n == DQ_BOOK_MOST, "the largest book has 12,232 bytes");
    agree_on_book(book, n);
    agree_on_changed(book, n, 1);
    put32(book + 4, DQ_BOOK_MOST + 1);
    agree_on_book(book, DQ_BOOK_MOST + 1);
    put32(book + 4, DQ_BOOK_MOST);
    memcpy(book + BODIES + 31 * BODY + 2, book + BODIES + 2, BODY - 2);
    agree_on_book(book, n);
}

void agree_on_books(void) {
    memset(seen, 0, sizeof seen);
    agree_on_largest(FIRST);
    agree_on_largest(MIDDLE);
    agree_on_largest(LAST);
    agree_on_largest(ONE_LETTER);
    agree_on_small();
    must(seen[DQ_ACCEPTED], "a good book is accepted");
    must_have_seen(DQ_SIZE, DQ_NAME_USED);
}

/* ---- commands */

static void agree_on_command(const dq_state *before, const uint8_t *packet, size_t n, size_t room_length) {
    static dq_state ours, theirs;
    static uint8_t room[2][DQ_PAYLOAD_MOST];
    dq_order order[2];
    size_t blocks[2];
    memset(order, 0xa5, sizeof order);
    memset(room, 0xa5, sizeof room);
    ours = theirs = *before;
    uint8_t number = dq_command(&ours, packet, n, room[0], room_length, &order[0], &blocks[0]);
    must(peer_command(&theirs, packet, n, room[1], room_length, &order[1], &blocks[1]) == number && blocks[0] == blocks[1],
         "both give a command the same number and count of blocks");
    must(same_order(&order[0], &order[1]), "both give the same fields of a command");
    must(memcmp(room[0], room[1], sizeof room[0]) == 0, "both write the same into the room");
    must(same_state(&ours, &theirs), "both leave the same state");
    seen[number] = true;
}

/* Seals a text in the packet where it stands, tag and all, by BearSSL. */
static void seal(uint8_t *packet, const uint8_t key[16], size_t n) {
    br_aes_small_ctr_keys keys;
    br_gcm_context gcm;
    br_aes_small_ctr_init(&keys, key, 16);
    br_gcm_init(&gcm, &keys.vtable, br_ghash_ctmul64);
    br_gcm_reset(&gcm, packet + 4, 12);
    br_gcm_aad_inject(&gcm, packet, 4);
    br_gcm_flip(&gcm);
    br_gcm_run(&gcm, 1, packet + 32, n - 32);
    br_gcm_get_tag(&gcm, packet + 16);
}

/* The packet with one bit of it changed, each of the first 96 bytes; in the text: changed before it is sealed. */
static void agree_on_bits(const dq_state *open, const uint8_t *plain, unsigned bit) {
    const uint8_t *key = open->records.keys + 16 * (HOST - 1);
    for (size_t i = 0; i < 96; i++) {
        uint8_t packet[LENGTH];
        memcpy(packet, plain, LENGTH);
        if (i >= 32)
            packet[i] ^= (uint8_t)(1u << bit);
        seal(packet, key, LENGTH);
        if (i < 32)
            packet[i] ^= (uint8_t)(1u << bit);
        agree_on_command(open, packet, LENGTH, PAYLOAD);
    }
}

/* Packets that are cut, and the longest and one byte more. */
static void agree_on_lengths(const dq_state *open, const uint8_t *packet) {
    static uint8_t longer[DQ_PACKET_MOST + 1];
    memcpy(longer, packet, LENGTH);
    agree_on_command(open, longer, DQ_PACKET_MOST, DQ_PAYLOAD_MOST);
    agree_on_command(open, longer, DQ_PACKET_MOST + 1, DQ_PAYLOAD_MOST);
    for (size_t n = 0; n <= LENGTH; n++)
        agree_on_command(open, packet, n, PAYLOAD);
}

static void agree_on_rooms(const dq_state *open, const uint8_t *packet) {
    for (size_t room = 0; room <= PAYLOAD + 1; room++)
        agree_on_command(open, packet, LENGTH, room);
}

/* States with one byte changed of the numbers that the book gave. */
static void agree_on_rights(const dq_state *open, const uint8_t *packet, uint8_t change) {
    for (size_t i = 0; i < offsetof(dq_rights, secrets); i++) {
        dq_state changed = *open;
        ((uint8_t *)&changed.rights)[i] ^= change;
        agree_on_command(&changed, packet, LENGTH, PAYLOAD);
    }
}

static void agree_on_tags(const dq_state *open, const uint8_t *packet) {
    for (unsigned tag = 0; tag < 5; tag++) {
        dq_state changed = *open;
        changed.records.tags[HOST - 1] = (uint8_t)tag;
        agree_on_command(&changed, packet, LENGTH, PAYLOAD);
    }
}

/* The text of a packet that is sealed, where it stands: sealing once more takes the key stream away. */
static void uncover(uint8_t *packet, const dq_state *open) {
    seal(packet, open->records.keys + 16 * (HOST - 1), LENGTH);
}

static void agree_on_all_bits(const dq_state *open, const uint8_t *plain) {
    for (unsigned bit = 0; bit < 8; bit++)
        agree_on_bits(open, plain, bit);
}

/* Changes that leave counts in range among them: an interface, an entry or a command less. */
static void agree_on_all_rights(const dq_state *open, const uint8_t *packet) {
    static const uint8_t changes[] = {1, 0x0f, 0x17, 0x7f, 0x81};
    for (size_t i = 0; i < sizeof changes; i++)
        agree_on_rights(open, packet, changes[i]);
}

void agree_on_commands(const dq_state *open) {
    static uint8_t packet[DQ_PACKET_MOST], plain[DQ_PACKET_MOST];
    dq_state before = *open;
    before.records.lasts[HOST - 1] = SEQUENCE - 2;
    memset(seen, 0, sizeof seen);
    write_command(packet, open, 1, COMMAND, PAYLOAD);
    memcpy(plain, packet, LENGTH);
    uncover(plain, open);
    agree_on_all_bits(&before, plain);
    agree_on_lengths(&before, packet);
    agree_on_rooms(&before, packet);
    agree_on_all_rights(&before, packet);
    agree_on_tags(&before, packet);
    must_have_seen(DQ_ACCEPTED, DQ_SECRET_WRONG);
    must(seen[DQ_UNSOUND], "a state that isn't sound comes up");
}
