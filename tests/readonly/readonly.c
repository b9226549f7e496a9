/*
 * readonly.c: a refused server call stores nothing in what it was lent, not even the value that stands there already.
 *
 * The state, the room and what a call reads stand on pages of their own. For each refusal of each server call but load all of them are made
 * read-only, and the call has to come back with its number and its count of blocks: a store into them ends in a signal, which is told as a fault.
 * What a call answers with (*blocks, *host, *order) is written always and stands elsewhere.
 *
 * An accepted call is made three times: with what it reads on read-only pages, which it has to bear; then with the state there, and then the room,
 * where it has to end in the signal, or else the pages wouldn't show a store.
 *
 * Exit status: 0 all is so; 1 it isn't, or a refusal was never tried; 2 the pages or the scene can't be made.
 */
#define _DEFAULT_SOURCE
#include <setjmp.h>
#include <signal.h>
#include <stdbool.h>
#include <stdio.h>
#include <stdlib.h>
#include <string.h>
#include <sys/mman.h>

#include "../differential/peer.h"
#include "deebqoshaan.h"

static void must(bool holds, const char *what) {
    if (holds)
        return;
    fprintf(stderr, "readonly: it does not hold that %s\n", what);
    exit(2);
}

/* ---- the pages */

enum place { STATE, ROOM, INPUT, FRESH, PLACES };

static struct {
    const char *name;
    size_t size;
    uint8_t *start;
} pages[PLACES] = {
    [STATE] = {.name = "the state", .size = sizeof(dq_state)},
    [ROOM] = {.name = "the room", .size = DQ_PACKET_MOST},
    [INPUT] = {.name = "its input", .size = DQ_PACKET_MOST + 1}, /* a request, a proof, a packet or a payload */
    [FRESH] = {.name = "the fresh bytes", .size = DQ_SECRET},
};

static void make_pages(void) {
    for (int i = 0; i < PLACES; i++) {
        pages[i].start = mmap(NULL, pages[i].size, PROT_READ | PROT_WRITE, MAP_PRIVATE | MAP_ANONYMOUS, -1, 0);
        must(pages[i].start != MAP_FAILED, "there is memory for pages");
    }
}

static void protect(enum place place, bool read_only) {
    int to = read_only ? PROT_READ : PROT_READ | PROT_WRITE;
    must(mprotect(pages[place].start, pages[place].size, to) == 0, "pages can be made read-only");
}

/* ---- the signal */

static sigjmp_buf back;
static const uint8_t *volatile stored_at;

static void on_signal(int signal, siginfo_t *info, void *context) {
    (void)signal;
    (void)context;
    stored_at = info->si_addr;
    siglongjmp(back, 1);
}

static void catch_stores(void) {
    struct sigaction action = {.sa_sigaction = on_signal, .sa_flags = SA_SIGINFO};
    must(sigaction(SIGSEGV, &action, NULL) == 0 && sigaction(SIGBUS, &action, NULL) == 0, "a signal can be caught");
}

static bool within(enum place place) {
    return stored_at >= pages[place].start && stored_at < pages[place].start + pages[place].size;
}

/* ---- what a call is made with, and what it answers */

static dq_state *state;
static uint8_t *room, *input, *fresh;
static size_t room_length, input_length, fresh_length;
static uint16_t host, sequence, interface_id, entry;

static struct {
    uint8_t number;
    uint16_t host;
    dq_order order;
    size_t blocks;
} answer;

/* ---- the scene: a book of two hosts and an interface, and the states of host 1 */

enum { PAYLOAD = 1000, COMMANDS = 3, LAST = 5, GROUP = 7, OTHER_GROUP = 9, OFTEN = 2 + (64 + PAYLOAD + 15) / 16 };

static const uint8_t book[] = {
    /* format, rows, total length */ 1, 0, 3, 0, 120, 0, 0, 0,
    /* row of host 1 */ 1, 0, 1, 0, 44, 0, 0, 0, 3, 0, 0, 0,
    /* row of host 2 */ 1, 0, 2, 0, 47, 0, 0, 0, 4, 0, 0, 0,
    /* row of interface 1 */ 2, 0, 1, 0, 51, 0, 0, 0, 69, 0, 0, 0,
    /* host 1 */ GROUP, 0, 'a',
    /* host 2 */ 0, 0, 'b', 'c',
    /* interface 1: master secret */ 1, 2, 3, 4, 5, 6, 7, 8, 9, 10, 11, 12, 13, 14, 15, 16,
    /* commands, entries */ COMMANDS, 0, 3, 0,
    /* entry 1, anyone's: commands 0 and 2 */ 0, 0, 5, 0, 0, 0, 0, 0, 0, 0,
    /* entry 2 */ GROUP, 0, 7, 0, 0, 0, 0, 0, 0, 0,
    /* entry 3 */ OTHER_GROUP, 0, 7, 0, 0, 0, 0, 0, 0, 0,
    /* name */ 'v', 'a', 'l', 'v', 'e', 's', ' ', 'a', 'n', 'd', ' ', 'p', 'u', 'm', 'p', 's', ' ', '1', '9',
};
static const uint8_t challenge2[DQ_SECRET] = "the second one.", challenge3[DQ_SECRET] = "and a third one";
static dq_state loaded, waiting, opened, owing;
static uint8_t key[DQ_SECRET];

/* By the header's fields, so that no call but load has to be right before it is tried. */
static void make_states(void) {
    size_t offset, blocks;
    must(dq_load(&loaded, book, sizeof book, &offset, &blocks) == DQ_ACCEPTED, "the book is good");
    peer_block(challenge2, challenge3, key);
    waiting = opened = loaded;
    waiting.records.tags[0] = 1;
    memcpy(waiting.records.challenges, challenge2, 16);
    opened.records.tags[0] = 2;
    opened.records.lasts[0] = LAST;
    memcpy(opened.records.keys, key, 16);
    owing = opened;
    owing.records.tags[0] = 3;
}

static void put(uint8_t *at, uint64_t number, size_t width) {
    for (size_t i = 0; i < width; i++)
        at[i] = (uint8_t)(number >> 8 * i);
}

/* ---- a command packet, sealed by libcrypto */

static struct {
    uint16_t client, zeros;
    uint8_t vector[12], spoils_tag;
    dq_order inner;
} packet;

/* The secret of entry `id` of the interface, narrowed once by `word`. */
static void right_secret(uint8_t secret[16], uint16_t id, uint64_t word) {
    uint8_t first[16], block[16] = {0};
    put(block, id, 2);
    peer_block(loaded.rights.secrets, block, first);
    put(block, word, 8);
    peer_block(first, block, secret);
}

static void write_inner(uint8_t text[64]) {
    const dq_order *o = &packet.inner;
    const uint16_t fields[6] = {o->client, o->sequence, o->group, o->interface_id, o->capability, o->length};
    for (int i = 0; i < 6; i++)
        put(text + 2 * i, fields[i], 2);
    put(text + 12, o->command | (uint64_t)o->zeros << 8, 4);
    for (int i = 0; i < 4; i++)
        put(text + 16 + 8 * i, o->words[i], 8);
    memcpy(text + 48, o->secret, 16);
}

static void seal_packet(void) {
    uint8_t text[64 + PAYLOAD] = {0};
    write_inner(text);
    put(input, packet.client, 2);
    put(input + 2, packet.zeros, 2);
    memcpy(input + 4, packet.vector, 12);
    peer_seal(key, packet.vector, input, 4, text, sizeof text, input + 32, input + 16);
    input[16] ^= packet.spoils_tag;
}

/* ---- the calls: how each is made, and what it is accepted with */

enum call { REQUEST, PROOF, COMMAND, REPLY, CLOSE, REVOKE, CALLS };

static uint8_t make_request(void) {
    return dq_request(state, input, input_length, fresh, fresh_length, room, room_length, &answer.host, &answer.blocks);
}

static uint8_t make_proof(void) {
    return dq_proof(state, host, input, input_length, room, room_length, &answer.blocks);
}

static uint8_t make_command(void) {
    return dq_command(state, input, input_length, room, room_length, &answer.order, &answer.blocks);
}

static uint8_t make_reply(void) {
    return dq_reply(state, host, sequence, input, input_length, room, room_length, &answer.blocks);
}

static uint8_t make_close(void) {
    return dq_close(state, host, &answer.blocks);
}

static uint8_t make_revoke(void) {
    return dq_revoke(state, interface_id, entry, 4, &answer.blocks);
}

static void good_request(void) {
    *state = opened;
    put(input, 1, 2);
    put(input + 2, 1, 2);
    input[20] = 'a';
    input_length = 21;
    room_length = DQ_REQUESTED;
}

static void good_proof(void) {
    *state = waiting;
    memcpy(input, challenge2, 16);
    memcpy(input + 16, challenge3, 16);
    input_length = DQ_PROOF;
    room_length = DQ_PROVED;
}

static void good_command(void) {
    dq_order *o = &packet.inner;
    *state = opened;
    memset(&packet, 0, sizeof packet);
    packet.client = o->client = 1;
    o->sequence = LAST + 1;
    o->group = GROUP;
    o->interface_id = o->capability = 1;
    o->length = PAYLOAD;
    memset(o->words, 0xff, sizeof o->words);
    o->words[0] = 1;
    right_secret(o->secret, 1, 1);
    input_length = 96 + PAYLOAD;
    room_length = PAYLOAD;
}

static void good_reply(void) {
    *state = owing;
    sequence = LAST;
    input_length = PAYLOAD;
    room_length = 32 + PAYLOAD;
}

static void good_close(void) {
    *state = opened;
}

static void good_revoke(void) {
    *state = opened;
    interface_id = entry = 1;
}

static void nothing_more(void) {}

struct made {
    const char *name;
    void (*good)(void);   /* sets all up for acceptance */
    void (*finish)(void); /* after that, or after a change to it */
    uint8_t (*make)(void);
    bool writes;               /* to the room */
    size_t blocks;             /* if it is accepted */
    const uint8_t refusals[21]; /* document 01, "Order"; 0 ends them */
};

static const struct made calls[CALLS] = {
    [REQUEST] = {"request", good_request, nothing_more, make_request, true, 0, {39, 28, 20, 21, 22, 23, 7}},
    [PROOF] = {"proof", good_proof, nothing_more, make_proof, true, 1, {39, 4, 25, 26, 27, 7}},
    [COMMAND] = {"command", good_command, seal_packet, make_command, true, OFTEN + 2,
                 {39, 1, 2, 3, 4, 5, 6, 7, 8, 9, 10, 11, 12, 13, 14, 15, 16, 17, 18, 19}},
    [REPLY] = {"reply", good_reply, nothing_more, make_reply, true, 2 + (4 + PAYLOAD + 15) / 16, {39, 4, 6, 29, 30, 7}},
    [CLOSE] = {"close", good_close, nothing_more, make_close, false, 0, {39, 4}},
    [REVOKE] = {"revoke", good_revoke, nothing_more, make_revoke, false, 0, {39, 14, 15}},
};

/* How many blocks document 01 counts for that refusal. */
static size_t counted(enum call call, uint8_t number) {
    if (call != COMMAND || number < DQ_TAG_WRONG || number == DQ_UNSOUND)
        return 0;
    return number == DQ_TAG_WRONG ? 2 : number == DQ_SECRET_WRONG ? OFTEN + 2 : OFTEN;
}

/* ---- one call */

static unsigned wrong;
static unsigned tried[CALLS][256];

/* Everything writable, the room a pattern, all else as the call is accepted with. */
static void set_up(enum call call) {
    for (int i = 0; i < PLACES; i++)
        protect(i, false);
    memset(room, 0xa5, pages[ROOM].size);
    memset(input, 0, pages[INPUT].size);
    memcpy(fresh, challenge3, DQ_SECRET);
    fresh_length = DQ_SECRET;
    host = 1;
    calls[call].good();
}

/* False: it ended in the signal. */
static bool comes_back(enum call call) {
    memset(&answer, 0xa5, sizeof answer);
    if (sigsetjmp(back, 1) != 0)
        return false;
    answer.number = calls[call].make();
    return true;
}

static void told(enum call call, uint8_t number, const char *change, const char *fault) {
    printf("readonly: %s, %u (%s): %s\n", calls[call].name, number, change, fault);
    wrong++;
}

static void told_store(enum call call, uint8_t number, const char *change) {
    for (int i = 0; i < PLACES; i++)
        if (within(i)) {
            char fault[64];
            snprintf(fault, sizeof fault, "it stores into %s, at byte %td", pages[i].name, stored_at - pages[i].start);
            told(call, number, change, fault);
            return;
        }
    told(call, number, change, "it reads or stores where nothing was lent");
}

static bool order_is_zero(const dq_order *o) {
    static const dq_order none;
    return memcmp(o, &none, offsetof(dq_order, command) + 1) == 0 && o->zeros == 0 && memcmp(o->words, none.words, sizeof none.words) == 0 &&
           memcmp(o->secret, none.secret, sizeof none.secret) == 0;
}

static void judge_refusal(enum call call, uint8_t number, const char *change) {
    if (answer.number != number)
        told(call, number, change, "another number");
    if (answer.blocks != counted(call, number))
        told(call, number, change, "another count of blocks");
    if ((call == REQUEST && answer.host != 0) || (call == COMMAND && !order_is_zero(&answer.order)))
        told(call, number, change, "an answer that isn't 0");
}

static void refused(enum call call, uint8_t number, const char *change) {
    tried[call][number]++;
    calls[call].finish();
    for (int i = 0; i < PLACES; i++)
        protect(i, true);
    if (comes_back(call))
        judge_refusal(call, number, change);
    else
        told_store(call, number, change);
}

/* The call is refused with that number once that is changed in what it is accepted with. */
#define REFUSED(call, number, change) (set_up(call), (void)(change), refused(call, number, #change))

/* ---- every refusal */

static void unsound(enum call call) {
    REFUSED(call, DQ_UNSOUND, state->rights.hosts = 33);
    REFUSED(call, DQ_UNSOUND, state->rights.interfaces = 9);
    REFUSED(call, DQ_UNSOUND, state->rights.sizes[0] = 0);
    REFUSED(call, DQ_UNSOUND, state->rights.sizes[1] = 257);
    REFUSED(call, DQ_UNSOUND, state->rights.spans[0] = 257);
    REFUSED(call, DQ_UNSOUND, state->rights.commands[0] = 65);
    REFUSED(call, DQ_UNSOUND, state->rights.entries[0] = 17);
    REFUSED(call, DQ_UNSOUND, state->rights.words[2] = 1 << COMMANDS);
}

static void no_host(enum call call) {
    REFUSED(call, DQ_NO_HOST, host = 0);
    REFUSED(call, DQ_NO_HOST, host = 3);
}

static void refused_requests(void) {
    unsound(REQUEST);
    REFUSED(REQUEST, DQ_LENGTH_WRONG, fresh_length = 15);
    REFUSED(REQUEST, DQ_REQUEST_LENGTH, input_length = 20);
    REFUSED(REQUEST, DQ_REQUEST_LENGTH, input_length = 277);
    REFUSED(REQUEST, DQ_VERSION, input[0] = 2);
    REFUSED(REQUEST, DQ_VERSION, input[1] = 1);
    REFUSED(REQUEST, DQ_NAME_LENGTH, input[2] = 2);
    REFUSED(REQUEST, DQ_NO_NAME, input[20] = 'b');
    REFUSED(REQUEST, DQ_ROOM_SHORT, room_length = 31);
    REFUSED(REQUEST, DQ_ROOM_SHORT, room_length = 0);
}

static void refused_proofs(void) {
    unsound(PROOF);
    no_host(PROOF);
    REFUSED(PROOF, DQ_PROOF_LENGTH, input_length = 31);
    REFUSED(PROOF, DQ_PROOF_LENGTH, input_length = 33);
    REFUSED(PROOF, DQ_NOT_WAITING, *state = loaded);
    REFUSED(PROOF, DQ_NOT_WAITING, *state = opened);
    REFUSED(PROOF, DQ_CHALLENGE_DIFFERS, input[0] ^= 1);
    REFUSED(PROOF, DQ_CHALLENGE_DIFFERS, input[15] ^= 128);
    REFUSED(PROOF, DQ_ROOM_SHORT, room_length = 19);
    REFUSED(PROOF, DQ_ROOM_SHORT, room_length = 0);
}

/* 39 and 1 to 8: before the text is read. */
static void refused_packets(void) {
    unsound(COMMAND);
    REFUSED(COMMAND, DQ_BELOW, input_length = 95);
    REFUSED(COMMAND, DQ_BELOW, input_length = 0);
    REFUSED(COMMAND, DQ_ABOVE, input_length = DQ_PACKET_MOST + 1);
    REFUSED(COMMAND, DQ_ZEROS, packet.zeros = 1);
    REFUSED(COMMAND, DQ_ZEROS, packet.zeros = 256);
    REFUSED(COMMAND, DQ_NO_HOST, packet.client = 0);
    REFUSED(COMMAND, DQ_NO_HOST, packet.client = 3);
    REFUSED(COMMAND, DQ_VECTOR, packet.vector[0] = 128);
    REFUSED(COMMAND, DQ_NOT_OPEN, *state = loaded);
    REFUSED(COMMAND, DQ_NOT_OPEN, *state = waiting);
    REFUSED(COMMAND, DQ_ROOM_SHORT, room_length = PAYLOAD - 1);
    REFUSED(COMMAND, DQ_ROOM_SHORT, room_length = 0);
    REFUSED(COMMAND, DQ_TAG_WRONG, packet.spoils_tag = 1);
    REFUSED(COMMAND, DQ_TAG_WRONG, state->records.keys[15] ^= 1);
}

/* 9 to 19: after a right tag. */
static void refused_orders(void) {
    REFUSED(COMMAND, DQ_CLIENT_DIFFERS, packet.inner.client = 2);
    REFUSED(COMMAND, DQ_INNER_ZEROS, packet.inner.zeros = 1);
    REFUSED(COMMAND, DQ_LENGTH_FIELD, packet.inner.length = PAYLOAD - 1);
    REFUSED(COMMAND, DQ_LENGTH_FIELD, packet.inner.length = PAYLOAD + 1);
    REFUSED(COMMAND, DQ_NOT_FRESH, packet.inner.sequence = LAST);
    REFUSED(COMMAND, DQ_NOT_FRESH, packet.inner.sequence = 0);
    REFUSED(COMMAND, DQ_GROUP, packet.inner.group = OTHER_GROUP);
    REFUSED(COMMAND, DQ_NO_INTERFACE, packet.inner.interface_id = 0);
    REFUSED(COMMAND, DQ_NO_INTERFACE, packet.inner.interface_id = 2);
    REFUSED(COMMAND, DQ_NO_ENTRY, packet.inner.capability = 0);
    REFUSED(COMMAND, DQ_NO_ENTRY, packet.inner.capability = 4);
    REFUSED(COMMAND, DQ_ENTRY_GROUP, packet.inner.capability = 3);
    REFUSED(COMMAND, DQ_NO_COMMAND, packet.inner.command = COMMANDS);
    REFUSED(COMMAND, DQ_NOT_PERMITTED, packet.inner.command = 1);
    REFUSED(COMMAND, DQ_NOT_PERMITTED, packet.inner.words[3] = 6);
    REFUSED(COMMAND, DQ_NOT_PERMITTED, state->rights.words[0] = 4);
    REFUSED(COMMAND, DQ_SECRET_WRONG, packet.inner.secret[0] ^= 1);
    REFUSED(COMMAND, DQ_SECRET_WRONG, packet.inner.secret[15] ^= 128);
}

static void refused_replies(void) {
    unsound(REPLY);
    no_host(REPLY);
    REFUSED(REPLY, DQ_NOT_OPEN, *state = loaded);
    REFUSED(REPLY, DQ_NOT_OPEN, *state = waiting);
    REFUSED(REPLY, DQ_NOT_OWED, *state = opened);
    REFUSED(REPLY, DQ_NOT_OWED, sequence = LAST - 1);
    REFUSED(REPLY, DQ_PAYLOAD_ABOVE, input_length = DQ_PAYLOAD_MOST + 1);
    REFUSED(REPLY, DQ_ROOM_SHORT, room_length = 31 + PAYLOAD);
    REFUSED(REPLY, DQ_ROOM_SHORT, room_length = 0);
}

static void refused_closes_and_revocations(void) {
    unsound(CLOSE);
    no_host(CLOSE);
    unsound(REVOKE);
    REFUSED(REVOKE, DQ_NO_INTERFACE, interface_id = 0);
    REFUSED(REVOKE, DQ_NO_INTERFACE, interface_id = 2);
    REFUSED(REVOKE, DQ_NO_ENTRY, entry = 0);
    REFUSED(REVOKE, DQ_NO_ENTRY, entry = 4);
}

/* ---- accepted calls */

/* All is writable but what the call reads. */
static void accepted(enum call call) {
    set_up(call);
    calls[call].finish();
    protect(INPUT, true);
    protect(FRESH, true);
    if (!comes_back(call))
        told_store(call, DQ_ACCEPTED, "accepted");
    else if (answer.number != DQ_ACCEPTED || answer.blocks != calls[call].blocks)
        told(call, DQ_ACCEPTED, "accepted", "another number, or another count of blocks");
}

/* And that is read-only which it has to write. */
static void stores(enum call call, enum place place) {
    set_up(call);
    calls[call].finish();
    protect(place, true);
    if (!comes_back(call) && within(place))
        return;
    printf("readonly: %s, accepted: it does not store into %s, read-only, where it has to\n", calls[call].name, pages[place].name);
    wrong++;
}

static void accepted_calls(void) {
    for (int i = 0; i < CALLS; i++) {
        accepted(i);
        stores(i, STATE);
        if (calls[i].writes)
            stores(i, ROOM);
    }
}

/* ---- the whole */

static unsigned all_tried(void) {
    unsigned sum = 0;
    for (int i = 0; i < CALLS; i++)
        for (const uint8_t *number = calls[i].refusals; *number != 0; number++) {
            sum += tried[i][*number];
            if (tried[i][*number] == 0)
                told(i, *number, "no change", "never tried");
        }
    return sum;
}

int main(void) {
    make_pages();
    state = (dq_state *)pages[STATE].start;
    room = pages[ROOM].start;
    input = pages[INPUT].start;
    fresh = pages[FRESH].start;
    make_states();
    catch_stores();
    refused_requests();
    refused_proofs();
    refused_packets();
    refused_orders();
    refused_replies();
    refused_closes_and_revocations();
    accepted_calls();
    unsigned refusals = all_tried();
    if (wrong == 0)
        printf("readonly: %u refusals, every number of the six calls among them, come back from read-only pages\n", refusals);
    else
        printf("readonly: %u faults in %u refusals and %d accepted calls\n", wrong, refusals, CALLS);
    return wrong == 0 ? 0 : 1;
}
