/*
 * layout: that the archive reads and writes each field where the header says.
 *
 * The largest book, every number and byte in it different from its neighbours, is loaded; then each call is made that changes something. After each,
 * every field of the state is compared with what this program expects there by the header's names, and so are the bytes beside the state and beside a command's
 * fields. What is read is seen by what the calls answer.
 */
#include <stdio.h>
#include <string.h>

#include "deebqoshaan.h"

enum { HOSTS = 32, INTERFACES = 8, ENTRIES = 16, NAME = 256, BESIDE = 64, FILL = 0xa5 };

static struct { uint8_t before[BESIDE]; dq_state lent; uint8_t after[BESIDE]; } guarded;
static struct { uint8_t before[BESIDE]; dq_order lent; uint8_t after[BESIDE]; } ordered;
static dq_state expected;
static uint8_t book[DQ_BOOK_MOST], packet[DQ_PACKET_MOST], room[DQ_PACKET_MOST], capability[DQ_CAPABILITY];
static size_t filled, blocks;
static int wrong;

static void say(const char *when, const char *what) {
    printf("layout: after %s: %s isn't where or what the header says\n", when, what);
    wrong = 1;
}

static int all_filled(const uint8_t *bytes) {
    for (size_t i = 0; i < BESIDE; i++)
        if (bytes[i] != FILL) return 0;
    return 1;
}

#define SAME(field) \
    if (memcmp(&guarded.lent.field, &expected.field, sizeof expected.field) != 0) say(when, #field)

/* Field by field, so that bytes between fields don't count. */
static void compare(const char *when) {
    SAME(rights.words);
    SAME(rights.hosts);
    SAME(rights.interfaces);
    SAME(rights.groups);
    SAME(rights.sizes);
    SAME(rights.spans);
    SAME(rights.commands);
    SAME(rights.entries);
    SAME(rights.owners);
    SAME(rights.secrets);
    SAME(records.tags);
    SAME(records.lasts);
    SAME(records.challenges);
    SAME(records.keys);
    SAME(names);
    SAME(labels);
    if (!all_filled(guarded.before) || !all_filled(guarded.after)) say(when, "the state's end");
    if (!all_filled(ordered.before) || !all_filled(ordered.after)) say(when, "the end of a command's fields");
}

static void number(const char *when, unsigned is, unsigned should) {
    if (is == should) return;
    printf("layout: %s: number %u, should be %u\n", when, is, should);
    wrong = 1;
}

static void put(uint64_t n, size_t width) {
    for (size_t i = 0; i < width; i++) book[filled++] = (uint8_t)(n >> (8 * i));
}

/* A name of 256 letters, with its number in the first two. */
static void put_name(unsigned n, uint8_t *copy) {
    for (unsigned i = 0; i < NAME; i++)
        copy[i] = (uint8_t)(i < 2 ? "0123456789"[i == 0 ? n / 10 : n % 10] : "abcdefghijklmnopqrstuvwxyz"[(i + n) % 26]);
    memcpy(book + filled, copy, NAME);
    filled += NAME;
}

static void put_rows(void) {
    size_t start = 8 + 12 * (HOSTS + INTERFACES);
    for (unsigned i = 0; i < HOSTS + INTERFACES; i++) {
        size_t length = i < HOSTS ? 2 + NAME : 20 + 10 * ENTRIES + NAME;
        put(i < HOSTS ? 1 : 2, 2);
        put(i < HOSTS ? i + 1 : i - HOSTS + 1, 2);
        put(start, 4);
        put(length, 4);
        start += length;
    }
}

static void put_host(unsigned i) {
    expected.rights.groups[i] = (uint16_t)(1000 + i);
    expected.rights.sizes[i] = NAME;
    put(expected.rights.groups[i], 2);
    put_name(i, expected.names + NAME * i);
}

static void put_entries(unsigned i) {
    for (unsigned j = i * ENTRIES; j < (i + 1) * ENTRIES; j++) {
        expected.rights.owners[j] = (uint16_t)(j % 2 == 0 ? 0 : 2000 + j);
        /* 57 commands: the bits 50 to 56, and in the lowest the entry's place. */
        expected.rights.words[j] = (UINT64_C(127) << 50) + j;
        put(expected.rights.owners[j], 2);
        put(expected.rights.words[j], 8);
    }
}

static void put_interface(unsigned i) {
    for (unsigned k = 0; k < DQ_SECRET; k++) book[filled++] = expected.rights.secrets[DQ_SECRET * i + k] = (uint8_t)(16 * i + k + 1);
    expected.rights.commands[i] = (uint16_t)(57 + i);
    expected.rights.entries[i] = ENTRIES;
    expected.rights.spans[i] = NAME;
    put(expected.rights.commands[i], 2);
    put(ENTRIES, 2);
    put_entries(i);
    put_name(50 + i, expected.labels + NAME * i);
}

static void load(void) {
    size_t offset = 1;
    put(1, 2);
    put(HOSTS + INTERFACES, 2);
    put(DQ_BOOK_MOST, 4);
    put_rows();
    for (unsigned i = 0; i < HOSTS; i++) put_host(i);
    for (unsigned i = 0; i < INTERFACES; i++) put_interface(i);
    expected.rights.hosts = HOSTS;
    expected.rights.interfaces = INTERFACES;
    number("load", dq_load(&guarded.lent, book, filled, &offset, &blocks), DQ_ACCEPTED);
    if (offset != 0) say("load", "the offset");
    compare("load");
}

static const uint8_t fresh[16] = "second challenge", third[16] = "third challenge.";

/* The last host asks for a connection and proves the challenge. */
static void connect(void) {
    uint8_t request[DQ_REQUEST_MOST] = {1, 0, NAME % 256, NAME / 256}, proof[DQ_PROOF];
    uint16_t host = 0;
    memcpy(request + 20, expected.names + NAME * (HOSTS - 1), NAME);
    number("request", dq_request(&guarded.lent, request, sizeof request, fresh, 16, room, DQ_REQUESTED, &host, &blocks), DQ_ACCEPTED);
    if (host != HOSTS) say("request", "the host number");
    expected.records.tags[HOSTS - 1] = 1;
    memcpy(expected.records.challenges + 16 * (HOSTS - 1), fresh, 16);
    compare("request");
    memcpy(proof, fresh, 16);
    memcpy(proof + 16, third, 16);
    number("proof", dq_proof(&guarded.lent, HOSTS, proof, sizeof proof, room, DQ_PROVED, &blocks), DQ_ACCEPTED);
    expected.records.tags[HOSTS - 1] = 2;
    memset(expected.records.challenges + 16 * (HOSTS - 1), 0, 16);
    dq_connection_key(fresh, third, expected.records.keys + 16 * (HOSTS - 1));
    compare("proof");
}

/* Entry 15 of interface 7, which is anyone's, asked for command 52 by number 4660. */
static size_t seal(uint16_t sequence, uint8_t command, size_t payload) {
    static const uint8_t vector[DQ_VECTOR_BYTES] = {1, 2, 3}, text[8] = "payload.";
    number("seal", dq_seal_command(expected.records.keys + 16 * (HOSTS - 1), 16, vector, sizeof vector, capability, sizeof capability,
                                   HOSTS, sequence, expected.rights.groups[HOSTS - 1], 7, command, text, payload, packet, sizeof packet, &blocks),
           DQ_ACCEPTED);
    return 96 + payload;
}

static void capability_of(void) {
    uint8_t issued[DQ_CAPABILITY];
    number("issue", dq_issue(expected.rights.secrets + 16 * 6, 16, 15, issued, sizeof issued, &blocks), DQ_ACCEPTED);
    number("narrow", dq_narrow(issued, sizeof issued, UINT64_C(0x0810000000000000), capability, sizeof capability, &blocks), DQ_ACCEPTED);
}

static void compare_order(void) {
    const dq_order *o = &ordered.lent;
    const char *when = "command";
    if (o->client != HOSTS) say(when, "client");
    if (o->sequence != 4660) say(when, "sequence");
    if (o->group != 1031) say(when, "group");
    if (o->interface_id != 7) say(when, "interface_id");
    if (o->capability != 15) say(when, "capability");
    if (o->length != 8) say(when, "length");
    if (o->command != 52) say(when, "command");
    if (o->zeros != 0) say(when, "zeros");
    if (o->words[0] != UINT64_C(0x0810000000000000) || o->words[3] != UINT64_MAX) say(when, "words");
    if (memcmp(o->secret, capability + 34, 16) != 0) say(when, "secret");
}

static void command(void) {
    size_t length = seal(4660, 52, 8);
    number("command", dq_command(&guarded.lent, packet, length, room, sizeof room, &ordered.lent, &blocks), DQ_ACCEPTED);
    compare_order();
    expected.records.tags[HOSTS - 1] = 3;
    expected.records.lasts[HOSTS - 1] = 4660;
    compare("command");
    number("reply", dq_reply(&guarded.lent, HOSTS, 4660, room, 8, packet, sizeof packet, &blocks), DQ_ACCEPTED);
    expected.records.tags[HOSTS - 1] = 2;
    compare("reply");
}

/* Entry 15 of interface 7 stands at 110. */
static void revoke_and_close(void) {
    number("revoke", dq_revoke(&guarded.lent, 7, 15, ~(UINT64_C(1) << 52), &blocks), DQ_ACCEPTED);
    expected.rights.words[16 * 6 + 14] &= ~(UINT64_C(1) << 52);
    compare("revoke");
    number("command without right", dq_command(&guarded.lent, packet, seal(4661, 52, 0), room, sizeof room, &ordered.lent, &blocks), DQ_NOT_PERMITTED);
    compare("a refused command");
    number("close", dq_close(&guarded.lent, HOSTS, &blocks), DQ_ACCEPTED);
    expected.records.tags[HOSTS - 1] = 0;
    expected.records.lasts[HOSTS - 1] = 0;
    memset(expected.records.keys + 16 * (HOSTS - 1), 0, 16);
    compare("close");
}

/* What the soundness of a state is judged by, changed here and seen there. */
static void unsound(void) {
    uint16_t *judged[] = {&guarded.lent.rights.hosts, &guarded.lent.rights.interfaces, &guarded.lent.rights.sizes[31],
                          &guarded.lent.rights.spans[7], &guarded.lent.rights.commands[7], &guarded.lent.rights.entries[7]};
    for (size_t i = 0; i < sizeof judged / sizeof *judged; i++) {
        uint16_t was = *judged[i];
        *judged[i] = 300;
        number("close in an unsound state", dq_close(&guarded.lent, 1, &blocks), DQ_UNSOUND);
        *judged[i] = was;
    }
    number("close", dq_close(&guarded.lent, 1, &blocks), DQ_ACCEPTED);
    compare("all");
}

int main(void) {
    memset(&guarded, FILL, sizeof guarded);
    memset(&ordered, FILL, sizeof ordered);
    load();
    connect();
    capability_of();
    command();
    revoke_and_close();
    unsound();
    if (!wrong) printf("layout: every field of the state and of a command stands where the header says\n");
    return wrong;
}
