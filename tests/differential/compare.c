/*
 * compare.c: runs the engine and OpenSSL's libcrypto on the same cases and holds one to the other.
 *
 * A case is one call, or one pair of prepare and encrypt_prepared. Before it, all that the call
 * might write (the room, the tag, the count, and guard bytes around each) is filled with a pattern,
 * and a copy is edited into what must be there afterwards. The whole of both is then compared, so a
 * byte too many is found as surely as a wrong one. What the call only reads is compared as well.
 *
 * compare [SEED]. The same seed gives the same cases.
 * Exit status: 0 no mismatch; 1 a mismatch, or a kind of case that never ran; 2 it could not run.
 */
#include <errno.h>
#include <stdbool.h>
#include <stdint.h>
#include <stdio.h>
#include <stdlib.h>
#include <string.h>

#include "../engine.h"
#include "peer.h"

enum {
    TEXT_MOST = 16448,
    DATA_MOST = 1000,
    SURPLUS = 70, /* a longer room has 1 to 70 bytes more than the text */
    GUARD = 40,
    AREA = GUARD + TEXT_MOST + SURPLUS + GUARD,
    SHOWN = 32, /* bytes of a long field in an account */
    BLOCKS = 4000,
    ROUNDS = 6, /* how often each text length of 0 to 80 comes with a rarer length of data */
    MISMATCHES = 10
};

/* ---- what is counted */

enum kind {
    BLOCK, PREPARED,
    SEAL_EXACT, SEAL_LONGER, SEAL_SHORT, PEER_OPENS,
    OPEN_EXACT, OPEN_LONGER, OPEN_SHORT, OPEN_SHORT_BAD,
    BAD_TAG_BIT, BAD_TAG_PAIR, BAD_TAG, BAD_TEXT_BIT, BAD_TEXT_LENGTH,
    BAD_DATA_BIT, BAD_DATA_LENGTH, BAD_VECTOR, BAD_KEY,
    KINDS
};

static const char *const kind_name[KINDS] = {
    [BLOCK] = "block",
    [PREPARED] = "block under a prepared key",
    [SEAL_EXACT] = "seal, room exact",
    [SEAL_LONGER] = "seal, room longer",
    [SEAL_SHORT] = "seal, room too short",
    [PEER_OPENS] = "libcrypto opens what the engine sealed",
    [OPEN_EXACT] = "open what libcrypto sealed, room exact",
    [OPEN_LONGER] = "open what libcrypto sealed, room longer",
    [OPEN_SHORT] = "open, room too short",
    [OPEN_SHORT_BAD] = "open, room too short and tag damaged",
    [BAD_TAG_BIT] = "open, one bit of the tag damaged",
    [BAD_TAG_PAIR] = "open, the same bit of two bytes of the tag damaged",
    [BAD_TAG] = "open, many bits of the tag damaged",
    [BAD_TEXT_BIT] = "open, one bit of the text damaged",
    [BAD_TEXT_LENGTH] = "open, text a byte shorter or a zero byte longer",
    [BAD_DATA_BIT] = "open, one bit of the additional data damaged",
    [BAD_DATA_LENGTH] = "open, data a byte shorter or a zero byte longer",
    [BAD_VECTOR] = "open, one bit of the vector damaged",
    [BAD_KEY] = "open, one bit of the key damaged",
};

static uint64_t seed = 0x0123456789abcdef;
static unsigned long count[KINDS];
static unsigned long tag_bit_count[128];
static unsigned mismatches;

/* ---- the generator: splitmix64 */

static uint64_t state;

static uint64_t random64(void) {
    uint64_t z = state += 0x9e3779b97f4a7c15;
    z = (z ^ (z >> 30)) * 0xbf58476d1ce4e5b9;
    z = (z ^ (z >> 27)) * 0x94d049bb133111eb;
    return z ^ (z >> 31);
}

static size_t below(size_t n) {
    return (size_t)(random64() % n);
}

/* Random bytes; one time in sixteen all zero or all ones, which random bytes would never be. */
static void random_bytes(uint8_t *p, size_t n) {
    size_t pick = below(32);
    if (pick < 2) {
        memset(p, pick == 0 ? 0x00 : 0xff, n);
        return;
    }
    for (size_t i = 0; i < n; i += 8) {
        uint64_t r = random64();
        for (size_t j = i; j < n && j < i + 8; j++, r >>= 8)
            p[j] = (uint8_t)r;
    }
}

/* A pattern that differs from case to case and from byte to byte. */
static void pattern(uint8_t *p, size_t n) {
    uint8_t start = (uint8_t)(0xa5 ^ random64());
    uint8_t step = (uint8_t)(random64() | 1);
    for (size_t i = 0; i < n; i++)
        p[i] = (uint8_t)(start + step * i);
}

static void flip(uint8_t *p, size_t bit) {
    p[bit / 8] ^= (uint8_t)(0x80 >> bit % 8);
}

/* ---- what a call reads, and what it may write */

struct message {
    size_t alen, n;
    uint8_t key[16], iv[12], tag[16];
    uint8_t a[DATA_MOST + 1], text[TEXT_MOST];
};

struct outcome {
    size_t blocks[3]; /* the middle one is the call's, the others are guards */
    uint8_t number;
    uint8_t tag[GUARD + 16 + GUARD];
    uint8_t area[AREA]; /* the room starts after the first guard; all after it guards it too */
};

static struct message plain, sealed; /* the same message before and after libcrypto sealed it */
static struct message lent;          /* what the call was given */
static struct outcome want, got;

static void make_message(size_t n, size_t alen) {
    plain.n = n;
    plain.alen = alen;
    random_bytes(plain.key, sizeof plain.key);
    random_bytes(plain.iv, sizeof plain.iv);
    random_bytes(plain.a, alen);
    random_bytes(plain.text, n);
    memcpy(&sealed, &plain, sizeof plain);
    peer_seal(plain.key, plain.iv, plain.a, alen, plain.text, n, sealed.text, sealed.tag);
}

static void lay_out(const struct message *m) {
    memcpy(&lent, m, sizeof lent);
    got.blocks[0] = (size_t)random64();
    got.blocks[1] = (size_t)random64();
    got.blocks[2] = (size_t)random64();
    got.number = 0xee;
    pattern(got.tag, sizeof got.tag);
    pattern(got.area, sizeof got.area);
    memcpy(&want, &got, sizeof want);
}

static void want_refusal(uint8_t number) {
    want.number = number;
    want.blocks[1] = number == DQ_ROOM_SHORT ? 0 : 2;
}

static void want_text(const uint8_t *text, size_t n) {
    want.number = DQ_DONE;
    want.blocks[1] = 2 + n / 16 + (n % 16 != 0);
    memcpy(want.area + GUARD, text, n);
}

/* ---- the account of a mismatch */

static void finish(void);

static void hex(const char *name, const uint8_t *p, size_t n) {
    printf("    %-24s", name);
    for (size_t i = 0; i < n && i < SHOWN; i++)
        printf("%02x", p[i]);
    printf("%s\n", n > SHOWN ? " ..." : "");
}

/* What differs in a field that has guard bytes before and after it. */
static void hex_pair(const char *name, const uint8_t *expected, const uint8_t *had, size_t n) {
    if (memcmp(expected, had, n) == 0)
        return;
    size_t at = 0;
    while (expected[at] == had[at])
        at++;
    printf("    %s: the first difference is at byte %ld (below 0: before it)\n", name,
           (long)at - GUARD);
    hex("  expected from there", expected + at, n - at);
    hex("  got from there", had + at, n - at);
}

/* Counts a mismatch and gives its headline. True for the first, which gets its full account. */
static bool headline(enum kind kind, const char *what) {
    mismatches++;
    printf("mismatch %u: %s: %s\n", mismatches, kind_name[kind], what);
    return mismatches == 1;
}

static void after_mismatch(void) {
    fflush(stdout);
    if (mismatches < MISMATCHES)
        return;
    printf("stopped at %d mismatches\n", MISMATCHES);
    finish();
}

static void show_lent(void) {
    hex("key", lent.key, sizeof lent.key);
    hex("vector", lent.iv, sizeof lent.iv);
    hex("additional data", lent.a, lent.alen);
    hex("text", lent.text, lent.n);
    hex("tag (if opening)", lent.tag, sizeof lent.tag);
}

static void show_outcomes(void) {
    printf("    number: expected %u, got %u\n", want.number, got.number);
    printf("    blocks: expected %zu, got %zu\n", want.blocks[1], got.blocks[1]);
    if (want.blocks[0] != got.blocks[0] || want.blocks[2] != got.blocks[2])
        printf("    written beside the count of blocks\n");
    hex_pair("tag", want.tag, got.tag, sizeof want.tag);
    hex_pair("room", want.area, got.area, sizeof want.area);
}

static void mismatch(enum kind kind, size_t roomlen, const char *what) {
    bool first = headline(kind, what);
    printf("    text %zu bytes, additional data %zu, room %zu\n", lent.n, lent.alen, roomlen);
    if (first) {
        show_lent();
        show_outcomes();
    }
    after_mismatch();
}

static const char *difference(const struct message *m) {
    if (want.number != got.number)
        return "another number";
    if (memcmp(want.blocks, got.blocks, sizeof want.blocks) != 0)
        return "another count of blocks";
    if (memcmp(want.tag, got.tag, sizeof want.tag) != 0)
        return "another tag, or bytes written around it";
    if (memcmp(want.area, got.area, sizeof want.area) != 0)
        return "another text, or bytes written around it";
    if (memcmp(&lent, m, sizeof lent) != 0)
        return "something was written to what the call only reads";
    return NULL;
}

static void judge(enum kind kind, const struct message *m, size_t roomlen) {
    const char *what = difference(m);
    count[kind]++;
    if (what != NULL)
        mismatch(kind, roomlen, what);
}

/* ---- sealing and opening, one case each */

static void try_seal(enum kind kind, size_t roomlen) {
    lay_out(&plain);
    if (roomlen < plain.n) {
        want_refusal(DQ_ROOM_SHORT);
    } else {
        want_text(sealed.text, plain.n);
        memcpy(want.tag + GUARD, sealed.tag, 16);
    }
    got.number = dq_gcm_seal(plain.key, plain.iv, plain.a, plain.alen, plain.text, plain.n,
                             got.area + GUARD, roomlen, got.tag + GUARD, &got.blocks[1]);
    judge(kind, &plain, roomlen);
}

static void call_open(const struct message *m, size_t roomlen) {
    got.number = dq_gcm_open(m->key, m->iv, m->a, m->alen, m->text, m->n, m->tag,
                             got.area + GUARD, roomlen, &got.blocks[1]);
}

static void try_open(enum kind kind, size_t roomlen) {
    lay_out(&sealed);
    want_text(plain.text, plain.n);
    call_open(&sealed, roomlen);
    judge(kind, &sealed, roomlen);
}

static void try_open_short(enum kind kind, const struct message *m, size_t roomlen) {
    lay_out(m);
    want_refusal(DQ_ROOM_SHORT);
    call_open(m, roomlen);
    judge(kind, m, roomlen);
}

static void try_open_bad(enum kind kind, const struct message *bad) {
    static uint8_t scratch[TEXT_MOST];
    size_t roomlen = bad->n + below(2) * below(SURPLUS);
    lay_out(bad);
    want_refusal(DQ_TAG_WRONG);
    call_open(bad, roomlen);
    judge(kind, bad, roomlen);
    if (peer_open(bad->key, bad->iv, bad->a, bad->alen, bad->text, bad->n, bad->tag, scratch))
        mismatch(kind, roomlen, "libcrypto accepts what was damaged");
}

/* Comes right after a seal into an exact room: `got` still holds the engine's text and tag. */
static void try_peer_open(void) {
    static uint8_t text[TEXT_MOST];
    count[PEER_OPENS]++;
    if (!peer_open(plain.key, plain.iv, plain.a, plain.alen, got.area + GUARD, plain.n,
                   got.tag + GUARD, text))
        mismatch(PEER_OPENS, plain.n, "libcrypto refuses it");
    else if (memcmp(text, plain.text, plain.n) != 0)
        mismatch(PEER_OPENS, plain.n, "libcrypto opens another text");
}

/* ---- one message in every way */

static struct message *spoilt(void) {
    static struct message bad;
    memcpy(&bad, &sealed, sizeof bad);
    return &bad;
}

static void short_rooms(void) {
    const size_t rooms[] = {plain.n - 1, below(plain.n), 0};
    struct message *bad = spoilt();
    flip(bad->tag, below(128));
    for (size_t i = 0; i < sizeof rooms / sizeof rooms[0]; i++) {
        try_seal(SEAL_SHORT, rooms[i]);
        try_open_short(OPEN_SHORT, &sealed, rooms[i]);
        try_open_short(OPEN_SHORT_BAD, bad, rooms[i]);
    }
}

static void damage_tag(void) {
    static size_t turn;
    size_t bit = turn++ % 128;
    struct message *bad = spoilt();
    flip(bad->tag, bit);
    tag_bit_count[bit]++;
    try_open_bad(BAD_TAG_BIT, bad);

    /* A comparison that adds the differences up by exclusive or would miss these two. */
    bad = spoilt();
    flip(bad->tag, bit);
    flip(bad->tag, (bit + 8 * (1 + below(15))) % 128);
    try_open_bad(BAD_TAG_PAIR, bad);

    bad = spoilt();
    for (size_t i = 0; i < 16; i++)
        bad->tag[i] ^= (uint8_t)random64();
    if (memcmp(bad->tag, sealed.tag, 16) == 0)
        flip(bad->tag, 0);
    try_open_bad(BAD_TAG, bad);
}

/* A byte shorter, or longer by a zero byte: the padding stays the same, only the lengths tell. */
static void change_length(uint8_t *p, size_t *n, size_t most) {
    bool longer = *n == 0 || (*n < most && below(2) == 0);
    if (longer)
        p[(*n)++] = 0;
    else
        (*n)--;
}

static void damage_text(void) {
    struct message *bad = spoilt();
    change_length(bad->text, &bad->n, TEXT_MOST);
    try_open_bad(BAD_TEXT_LENGTH, bad);
    if (sealed.n == 0)
        return;
    const size_t bits[] = {below(8), 8 * (sealed.n - 1) + below(8), below(8 * sealed.n)};
    bad = spoilt();
    flip(bad->text, bits[below(3)]);
    try_open_bad(BAD_TEXT_BIT, bad);
}

static void damage_data(void) {
    struct message *bad = spoilt();
    change_length(bad->a, &bad->alen, DATA_MOST + 1);
    try_open_bad(BAD_DATA_LENGTH, bad);
    if (sealed.alen == 0)
        return;
    bad = spoilt();
    flip(bad->a, below(8 * sealed.alen));
    try_open_bad(BAD_DATA_BIT, bad);
}

static void damage_key_and_vector(void) {
    struct message *bad = spoilt();
    flip(bad->iv, below(96));
    try_open_bad(BAD_VECTOR, bad);
    bad = spoilt();
    flip(bad->key, below(128));
    try_open_bad(BAD_KEY, bad);
}

static void every_way(size_t n, size_t alen) {
    make_message(n, alen);
    try_seal(SEAL_EXACT, n);
    try_peer_open();
    try_seal(SEAL_LONGER, n + 1 + below(SURPLUS));
    try_open(OPEN_EXACT, n);
    try_open(OPEN_LONGER, n + 1 + below(SURPLUS));
    if (n > 0)
        short_rooms();
    damage_tag();
    damage_text();
    damage_data();
    damage_key_and_vector();
}

/* ---- which messages */

static const size_t data_lengths[] = {0,  4,  1,  2,  8,  12, 13, 15,  16,  17,
                                      20, 31, 32, 33, 47, 48, 64, 255, 256, 1000};
enum { DATA_LENGTHS = sizeof data_lengths / sizeof data_lengths[0] };

static size_t next_data_length(void) {
    static size_t turn;
    return data_lengths[turn++ % DATA_LENGTHS];
}

static void short_texts(void) {
    for (size_t n = 0; n <= 80; n++) {
        every_way(n, 0);
        every_way(n, 4);
        for (int i = 0; i < ROUNDS; i++)
            every_way(n, next_data_length());
    }
}

static void around_multiples(void) {
    for (size_t whole = 16; whole <= TEXT_MOST; whole += 16)
        for (size_t n = whole - 1; n <= whole + 1 && n <= TEXT_MOST; n++)
            every_way(n, next_data_length());
}

static void data_of_each_length(void) {
    for (size_t alen = 0; alen <= 80; alen++)
        every_way(below(81), alen);
    for (size_t i = 0; i < DATA_LENGTHS; i++) {
        every_way(0, data_lengths[i]);
        every_way(1000 + below(1000), data_lengths[i]);
    }
    every_way(TEXT_MOST, 0);
    every_way(TEXT_MOST, 4);
    every_way(TEXT_MOST, DATA_MOST);
}

/* ---- single blocks */

struct block_case {
    uint8_t key[16], block[16];
};

struct block_result {
    uint8_t bytes[GUARD + 16 + GUARD];
};

static void lay_out_block(const struct block_case *c, struct block_result *expected,
                          struct block_result *had) {
    pattern(had->bytes, sizeof had->bytes);
    *expected = *had;
    peer_block(c->key, c->block, expected->bytes + GUARD);
}

static void block_mismatch(enum kind kind, const struct block_case *c, const char *what,
                           const struct block_result *expected, const struct block_result *had) {
    if (headline(kind, what)) {
        hex("key", c->key, 16);
        hex("block", c->block, 16);
        hex_pair("result", expected->bytes, had->bytes, sizeof had->bytes);
    }
    after_mismatch();
}

static void judge_block(enum kind kind, const struct block_case *c, const struct block_case *given,
                        const struct block_result *expected, const struct block_result *had) {
    count[kind]++;
    if (memcmp(expected, had, sizeof *had) != 0)
        block_mismatch(kind, c, "another result, or bytes written around it", expected, had);
    if (memcmp(c, given, sizeof *c) != 0)
        block_mismatch(kind, c, "something was written to key or block", expected, had);
}

static void try_block(const struct block_case *c) {
    struct block_case given = *c;
    struct block_result expected, had;
    lay_out_block(c, &expected, &had);
    dq_aes128_encrypt(given.key, given.block, had.bytes + GUARD);
    judge_block(BLOCK, c, &given, &expected, &had);
}

/* The prepared key's bytes are the engine's own affair: its guards and its use are judged. */
static void try_prepared(const struct block_case *c) {
    struct block_case given = *c;
    struct block_result expected, had;
    uint8_t prepared[GUARD + DQ_PREPARED + GUARD], before[sizeof prepared];
    pattern(prepared, sizeof prepared);
    memcpy(before, prepared, sizeof prepared);
    dq_aes128_prepare(given.key, prepared + GUARD);
    memcpy(before + GUARD, prepared + GUARD, DQ_PREPARED);
    lay_out_block(c, &expected, &had);
    dq_aes128_encrypt_prepared(prepared + GUARD, given.block, had.bytes + GUARD);
    judge_block(PREPARED, c, &given, &expected, &had);
    if (memcmp(before, prepared, sizeof prepared) != 0)
        block_mismatch(PREPARED, c, "bytes written around the prepared key, or its use changed it",
                       &expected, &had);
}

static void blocks(void) {
    for (int i = 0; i < BLOCKS; i++) {
        struct block_case c;
        random_bytes(c.key, 16);
        random_bytes(c.block, 16);
        try_block(&c);
        try_prepared(&c);
    }
}

/* ---- the whole */

static unsigned long total(void) {
    unsigned long sum = 0;
    for (int k = 0; k < KINDS; k++)
        sum += count[k];
    return sum;
}

static bool nothing_left_out(void) {
    bool all = true;
    for (int k = 0; k < KINDS; k++)
        if (count[k] == 0) {
            printf("never ran: %s\n", kind_name[k]);
            all = false;
        }
    for (int bit = 0; bit < 128; bit++)
        if (tag_bit_count[bit] == 0) {
            printf("never damaged: bit %d of the tag\n", bit);
            all = false;
        }
    return all;
}

static void finish(void) {
    for (int k = 0; k < KINDS; k++)
        printf("%8lu  %s\n", count[k], kind_name[k]);
    bool all = mismatches > 0 || nothing_left_out();
    printf("differential: %lu cases, %u mismatches (seed 0x%016llx)\n", total(), mismatches,
           (unsigned long long)seed);
    exit(mismatches == 0 && all ? 0 : 1);
}

static void read_seed(const char *word) {
    char *end;
    errno = 0;
    seed = strtoull(word, &end, 0);
    if (errno == 0 && end != word && *end == '\0')
        return;
    fprintf(stderr, "compare: %s is no seed; it is a number below 2 to the 64\n", word);
    exit(2);
}

int main(int argc, char **argv) {
    if (argc > 1)
        read_seed(argv[1]);
    state = seed;
    printf("seed 0x%016llx\n", (unsigned long long)seed);
    blocks();
    short_texts();
    around_multiples();
    data_of_each_length();
    finish();
}
