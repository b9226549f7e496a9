/*
 * bench.c: the engine beside BearSSL and mbedTLS: the time and the stack of one call.
 *
 * Every call that seals or opens starts from the bare key, as a packet does: key set-up, 4 bytes of
 * additional data, a text read in one place and written in another, a tag made or checked. BearSSL
 * works in place, so its text is copied into the room first; that is below a hundredth of its time.
 * A block by BearSSL is CBC of one block with a vector of zeros, which is the bare cipher.
 *
 * The stack of a call is counted from the pointer of whoever asks for it: the small function that
 * makes the call, with the peer's contexts in it, is counted too. mbedTLS keeps its key on the heap.
 *
 * Exit status: 0, bars missed or not; 1 the peers' bytes differ, or the stack can't be measured.
 */
#include <stdbool.h>
#include <stdint.h>
#include <stdio.h>
#include <stdlib.h>
#include <string.h>

#include <bearssl.h>
#include <mbedtls/aes.h>
#include <mbedtls/gcm.h>

#include "../tests/engine.h"
#include "measure.h"

enum { TEXT_MOST = 16448 };

static const double BLOCK_BAR = 1.5, PACKET_BAR = 1.2;
static const size_t STACK_BAR = 1536;

/* ---- what the calls read and write, the same for all peers */

struct packet {
    size_t n;
    uint8_t sealed[TEXT_MOST], tag[16];
};

static uint8_t key[16], iv[12], data[4], block[16], text[TEXT_MOST];
static struct packet packets[3] = {{.n = 64}, {.n = 1024}, {.n = TEXT_MOST}};

static uint8_t room[TEXT_MOST], tag[16], block_out[16];
static bool accepted;

/* ---- ours */

static uint8_t our_key[DQ_PREPARED];

static void our_block(const void *with) {
    (void)with;
    dq_aes128_encrypt(key, block, block_out);
    settle();
}

static void our_prepared(const void *with) {
    (void)with;
    dq_aes128_encrypt_prepared(our_key, block, block_out);
    settle();
}

static void our_seal(const void *with) {
    const struct packet *p = with;
    size_t blocks;
    accepted = dq_gcm_seal(key, iv, data, sizeof data, text, p->n, room, p->n, tag,
                           &blocks) == DQ_DONE;
}

static void our_open(const void *with) {
    const struct packet *p = with;
    size_t blocks;
    accepted = dq_gcm_open(key, iv, data, sizeof data, p->sealed, p->n, p->tag, room, p->n,
                           &blocks) == DQ_DONE;
}

/* ---- BearSSL, with either of its two table engines */

static br_aes_small_cbcenc_keys small_key;
static br_aes_big_cbcenc_keys big_key;

static void small_prepared(const void *with) {
    uint8_t zeros[16] = {0};
    (void)with;
    memcpy(block_out, block, 16);
    br_aes_small_cbcenc_run(&small_key, zeros, block_out, 16);
    settle();
}

static void big_prepared(const void *with) {
    uint8_t zeros[16] = {0};
    (void)with;
    memcpy(block_out, block, 16);
    br_aes_big_cbcenc_run(&big_key, zeros, block_out, 16);
    settle();
}

static void small_block(const void *with) {
    br_aes_small_cbcenc_keys keys;
    uint8_t zeros[16] = {0};
    (void)with;
    br_aes_small_cbcenc_init(&keys, key, 16);
    memcpy(block_out, block, 16);
    br_aes_small_cbcenc_run(&keys, zeros, block_out, 16);
    settle();
}

static void big_block(const void *with) {
    br_aes_big_cbcenc_keys keys;
    uint8_t zeros[16] = {0};
    (void)with;
    br_aes_big_cbcenc_init(&keys, key, 16);
    memcpy(block_out, block, 16);
    br_aes_big_cbcenc_run(&keys, zeros, block_out, 16);
    settle();
}

static void bear_start(br_gcm_context *gcm, const br_block_ctr_class **ctr) {
    br_gcm_init(gcm, ctr, br_ghash_ctmul64);
    br_gcm_reset(gcm, iv, sizeof iv);
    br_gcm_aad_inject(gcm, data, sizeof data);
    br_gcm_flip(gcm);
}

static void bear_seal(const br_block_ctr_class **ctr, const struct packet *p) {
    br_gcm_context gcm;
    bear_start(&gcm, ctr);
    memcpy(room, text, p->n);
    br_gcm_run(&gcm, 1, room, p->n);
    br_gcm_get_tag(&gcm, tag);
    accepted = true;
}

static void bear_open(const br_block_ctr_class **ctr, const struct packet *p) {
    br_gcm_context gcm;
    bear_start(&gcm, ctr);
    memcpy(room, p->sealed, p->n);
    br_gcm_run(&gcm, 0, room, p->n);
    accepted = br_gcm_check_tag(&gcm, p->tag) == 1;
}

static void small_seal(const void *with) {
    br_aes_small_ctr_keys keys;
    br_aes_small_ctr_init(&keys, key, 16);
    bear_seal(&keys.vtable, with);
}

static void small_open(const void *with) {
    br_aes_small_ctr_keys keys;
    br_aes_small_ctr_init(&keys, key, 16);
    bear_open(&keys.vtable, with);
}

static void big_seal(const void *with) {
    br_aes_big_ctr_keys keys;
    br_aes_big_ctr_init(&keys, key, 16);
    bear_seal(&keys.vtable, with);
}

static void big_open(const void *with) {
    br_aes_big_ctr_keys keys;
    br_aes_big_ctr_init(&keys, key, 16);
    bear_open(&keys.vtable, with);
}

/* ---- mbedTLS */

static mbedtls_aes_context mbed_key;

static void mbed_block(const void *with) {
    mbedtls_aes_context aes;
    (void)with;
    mbedtls_aes_init(&aes);
    mbedtls_aes_setkey_enc(&aes, key, 128);
    mbedtls_aes_crypt_ecb(&aes, MBEDTLS_AES_ENCRYPT, block, block_out);
    mbedtls_aes_free(&aes);
    settle();
}

static void mbed_prepared(const void *with) {
    (void)with;
    mbedtls_aes_crypt_ecb(&mbed_key, MBEDTLS_AES_ENCRYPT, block, block_out);
    settle();
}

static void mbed_seal(const void *with) {
    const struct packet *p = with;
    mbedtls_gcm_context gcm;
    mbedtls_gcm_init(&gcm);
    mbedtls_gcm_setkey(&gcm, MBEDTLS_CIPHER_ID_AES, key, 128);
    accepted = mbedtls_gcm_crypt_and_tag(&gcm, MBEDTLS_GCM_ENCRYPT, p->n, iv, sizeof iv, data,
                                         sizeof data, text, room, sizeof tag, tag) == 0;
    mbedtls_gcm_free(&gcm);
    settle();
}

static void mbed_open(const void *with) {
    const struct packet *p = with;
    mbedtls_gcm_context gcm;
    mbedtls_gcm_init(&gcm);
    mbedtls_gcm_setkey(&gcm, MBEDTLS_CIPHER_ID_AES, key, 128);
    accepted = mbedtls_gcm_auth_decrypt(&gcm, p->n, iv, sizeof iv, data, sizeof data, p->tag,
                                        sizeof p->tag, p->sealed, room) == 0;
    mbedtls_gcm_free(&gcm);
    settle();
}

/* ---- the table: peers across, rows down */

enum operation { WITH_KEY, PREPARED, SEAL, OPEN, OPERATIONS };
enum { OURS, SMALL, BIG, MBED, PEERS };
enum { ROWS = 8 };

static const struct {
    const char *name;
    work *does[OPERATIONS];
} peers[PEERS] = {
    [OURS] = {"ours", {our_block, our_prepared, our_seal, our_open}},
    [SMALL] = {"BearSSL small", {small_block, small_prepared, small_seal, small_open}},
    [BIG] = {"BearSSL big", {big_block, big_prepared, big_seal, big_open}},
    [MBED] = {"mbedTLS", {mbed_block, mbed_prepared, mbed_seal, mbed_open}},
};

static const struct row {
    const char *name;
    enum operation operation;
    const struct packet *packet;
} rows[ROWS] = {
    {"block, key set-up included", WITH_KEY, NULL},
    {"block, key prepared", PREPARED, NULL},
    {"seal 64 bytes", SEAL, &packets[0]},
    {"seal 1,024 bytes", SEAL, &packets[1]},
    {"seal 16,448 bytes", SEAL, &packets[2]},
    {"open 64 bytes", OPEN, &packets[0]},
    {"open 1,024 bytes", OPEN, &packets[1]},
    {"open 16,448 bytes", OPEN, &packets[2]},
};

static struct cell cells[ROWS][PEERS];

static void make_cells(void) {
    for (int row = 0; row < ROWS; row++)
        for (int peer = 0; peer < PEERS; peer++)
            cells[row][peer] = (struct cell){.does = peers[peer].does[rows[row].operation], .with = rows[row].packet};
}

static void run_cell(int row, int peer) {
    cells[row][peer].does(cells[row][peer].with);
}

/* ---- inputs, and whether all peers agree on them */

static void fill(uint8_t *p, size_t n) {
    static uint32_t state = 1;
    for (size_t i = 0; i < n; i++) {
        state = state * 1664525 + 1013904223;
        p[i] = (uint8_t)(state >> 24);
    }
}

static void make_inputs(void) {
    fill(key, sizeof key);
    fill(iv, sizeof iv);
    fill(data, sizeof data);
    fill(block, sizeof block);
    fill(text, sizeof text);
    dq_aes128_prepare(key, our_key);
    br_aes_small_cbcenc_init(&small_key, key, 16);
    br_aes_big_cbcenc_init(&big_key, key, 16);
    mbedtls_aes_init(&mbed_key);
    mbedtls_aes_setkey_enc(&mbed_key, key, 128);
    for (int i = 0; i < 3; i++) {
        small_seal(&packets[i]);
        memcpy(packets[i].sealed, room, packets[i].n);
        memcpy(packets[i].tag, tag, sizeof tag);
    }
}

static void agree(bool same, int row, int peer) {
    if (same)
        return;
    printf("%s: %s gives other bytes than the rest, or takes a wrong tag\n", rows[row].name,
           peers[peer].name);
    exit(1);
}

static void clear_results(void) {
    memset(room, 0, sizeof room);
    memset(tag, 0, sizeof tag);
    memset(block_out, 0, sizeof block_out);
    accepted = false;
}

static bool right_result(const struct row *row, const uint8_t *right_block) {
    const struct packet *p = row->packet;
    if (p == NULL)
        return memcmp(block_out, right_block, 16) == 0;
    if (row->operation == OPEN)
        return accepted && memcmp(room, text, p->n) == 0;
    return accepted && memcmp(room, p->sealed, p->n) == 0 && memcmp(tag, p->tag, 16) == 0;
}

static bool refuses_wrong_tag(int peer, const struct packet *right) {
    static struct packet wrong;
    wrong = *right;
    wrong.tag[15] ^= 1;
    peers[peer].does[OPEN](&wrong);
    return !accepted;
}

static void verify(void) {
    uint8_t right_block[16];
    small_block(NULL);
    memcpy(right_block, block_out, 16);
    for (int row = 0; row < ROWS; row++)
        for (int peer = 0; peer < PEERS; peer++) {
            clear_results();
            run_cell(row, peer);
            agree(right_result(&rows[row], right_block), row, peer);
            if (rows[row].operation == OPEN)
                agree(refuses_wrong_tag(peer, rows[row].packet), row, peer);
        }
    printf("all peers give the same bytes and tags\n");
}

/* ---- what is printed */

static void print_heads(const char *corner) {
    printf("\n%-28s", corner);
    for (int peer = 0; peer < PEERS; peer++)
        printf("%20s", peers[peer].name);
    printf("\n");
}

static void print_time(void) {
    print_heads("ns a call (peer / ours)");
    for (int row = 0; row < ROWS; row++) {
        printf("%-28s%20.1f", rows[row].name, cells[row][OURS].least);
        for (int peer = SMALL; peer < PEERS; peer++)
            printf("%12.1f (%4.2fx)", cells[row][peer].least, cells[row][peer].least / cells[row][OURS].least);
        printf("\n");
    }
    printf("Each cell ran once in each of %d rounds, for about %.1f ms, the peers in turn; the least\n"
           "of its rounds stands here, since what else the machine does can only add to a time.\n",
           ROUNDS, SAMPLE_NS / 1e6);
}

static bool in_stack_table(int row) {
    return rows[row].packet == NULL || rows[row].packet->n == TEXT_MOST;
}

static void print_stack(void) {
    print_heads("bytes of stack a call");
    for (int row = 0; row < ROWS; row++) {
        if (!in_stack_table(row))
            continue;
        printf("%-28s", rows[row].name);
        for (int peer = 0; peer < PEERS; peer++)
            printf("%20zu", cells[row][peer].stack);
        printf("\n");
    }
    printf("The deepest byte touched below the caller of a function that makes the call, contexts and\n"
           "round keys of the peers on that stack included (mbedTLS has its round keys on the heap\n"
           "when it seals and opens).\n");
}

static void print_bars(void) {
    printf("\n");
    for (int row = 0; row < ROWS; row++) {
        double bar = rows[row].packet == NULL ? BLOCK_BAR : PACKET_BAR;
        double ratio = cells[row][SMALL].least / cells[row][OURS].least;
        printf("%s  %s: %.2f times as fast as BearSSL small, bar %.1f\n",
               ratio >= bar ? "PASS" : "FAIL", rows[row].name, ratio, bar);
    }
    for (int row = 0; row < ROWS; row++)
        if (in_stack_table(row))
            printf("%s  %s: %zu bytes of stack, bar %zu\n",
                   cells[row][OURS].stack <= STACK_BAR ? "PASS" : "FAIL", rows[row].name,
                   cells[row][OURS].stack, STACK_BAR);
}

int main(void) {
    make_inputs();
    make_cells();
    verify();
    measure_time(cells[0], ROWS * PEERS);
    measure_stack(cells[0], ROWS * PEERS);
    print_time();
    print_stack();
    print_bars();
    return 0;
}
