/*
 * broken.c: stands in for the engine to see whether compare.c notices a fault.
 *
 * libcrypto computes everything here, so without a fault it agrees with itself; compile with
 * -DFAULT=NAME for one of the names below. The counter mode undoes itself: a text sealed twice is
 * the text again. Opening rests on that, which is why it needs no function but peer_seal.
 */
#include <string.h>

#include "../engine.h"
#include "peer.h"

enum fault {
    FAULT_NONE,
    FAULT_LAST_BYTE,         /* last byte of a long text that is a byte over a multiple of 16 */
    FAULT_WRITES_BEFORE_TAG, /* the room is written although the tag is wrong */
    FAULT_COUNT,             /* a block too many at multiples of 16 */
    FAULT_COUNT_REFUSED,     /* the count of a refused tag is that of an accepted one */
    FAULT_TAG_SHORT,         /* the last byte of the tag is not compared */
    FAULT_TAG_BIT,           /* one bit of the tag is not compared */
    FAULT_TAG_XOR,           /* two equal differences in the tag cancel */
    FAULT_TAIL,              /* a byte is written after the text, if there is room */
    FAULT_SHORT_ROOM,        /* a short room gets what fits */
    FAULT_SHORT_TAG,         /* a short room gets a tag */
    FAULT_ORDER,             /* the tag is looked at before the room */
    FAULT_DATA_LENGTH,       /* zero bytes at the end of the additional data do not matter */
    FAULT_DATA_LONG,         /* additional data after the 256th byte is not read */
    FAULT_BLOCK,             /* the last bit of a block is wrong if the key ends with 0xff */
    FAULT_PREPARED,          /* a prepared key is not the key if the key starts with 0x00 */
    FAULT_READS_WRITE        /* the vector that a seal was lent is changed */
};

static int fault(enum fault f) {
    return FAULT == f;
}

void dq_aes128_encrypt(const uint8_t key[16], const uint8_t block[16], uint8_t out[16]) {
    peer_block(key, block, out);
    if (fault(FAULT_BLOCK) && key[15] == 0xff)
        out[15] ^= 1;
}

void dq_aes128_prepare(const uint8_t key[16], uint8_t out[DQ_PREPARED]) {
    memset(out, 0, DQ_PREPARED);
    memcpy(out, key, 16);
    if (fault(FAULT_PREPARED) && key[0] == 0)
        out[15] ^= 1;
}

void dq_aes128_encrypt_prepared(const uint8_t prepared[DQ_PREPARED], const uint8_t block[16],
                                uint8_t out[16]) {
    peer_block(prepared, block, out);
}

static size_t count_of(size_t n) {
    return 2 + (n + 15) / 16 + (fault(FAULT_COUNT) && n % 16 == 0);
}

static size_t data_read(const uint8_t *a, size_t alen) {
    if (fault(FAULT_DATA_LONG) && alen > 256)
        return 256;
    while (fault(FAULT_DATA_LENGTH) && alen > 0 && a[alen - 1] == 0)
        alen--;
    return alen;
}

static int tags_agree(const uint8_t *x, const uint8_t *y) {
    uint8_t any = 0, sum = 0;
    for (int i = 0; i < (fault(FAULT_TAG_SHORT) ? 15 : 16); i++) {
        uint8_t differs = x[i] ^ y[i];
        if (fault(FAULT_TAG_BIT) && i == 9)
            differs &= 0xef;
        any |= differs;
        sum ^= differs;
    }
    return (fault(FAULT_TAG_XOR) ? sum : any) == 0;
}

static void put(uint8_t *room, size_t roomlen, const uint8_t *text, size_t n) {
    memcpy(room, text, n);
    if (fault(FAULT_LAST_BYTE) && n % 16 == 1 && n > 16000)
        room[n - 1] ^= 1;
    if (fault(FAULT_TAIL) && n < roomlen)
        room[n] = 0;
}

static uint8_t refuse_room(uint8_t *room, size_t roomlen, const uint8_t *text, size_t *blocks) {
    if (fault(FAULT_SHORT_ROOM))
        memcpy(room, text, roomlen);
    *blocks = 0;
    return DQ_ROOM_SHORT;
}

static uint8_t refuse_tag(uint8_t *room, size_t roomlen, const uint8_t *text, size_t n,
                          size_t *blocks) {
    if (fault(FAULT_WRITES_BEFORE_TAG))
        memcpy(room, text, n < roomlen ? n : roomlen);
    *blocks = fault(FAULT_COUNT_REFUSED) ? count_of(n) : 2;
    return DQ_TAG_WRONG;
}

uint8_t dq_gcm_seal(const uint8_t key[16], const uint8_t iv[12],
                    const uint8_t *a, size_t alen, const uint8_t *text, size_t textlen,
                    uint8_t *room, size_t roomlen, uint8_t tag[16], size_t *blocks) {
    static uint8_t out[1 << 16];
    uint8_t right[16];
    peer_seal(key, iv, a, data_read(a, alen), text, textlen, out, right);
    if (roomlen >= textlen || fault(FAULT_SHORT_TAG))
        memcpy(tag, right, 16);
    if (roomlen < textlen)
        return refuse_room(room, roomlen, out, blocks);
    put(room, roomlen, out, textlen);
    if (fault(FAULT_READS_WRITE))
        ((uint8_t *)(uintptr_t)iv)[11] ^= 1;
    *blocks = count_of(textlen);
    return DQ_DONE;
}

uint8_t dq_gcm_open(const uint8_t key[16], const uint8_t iv[12],
                    const uint8_t *a, size_t alen, const uint8_t *text, size_t textlen,
                    const uint8_t tag[16], uint8_t *room, size_t roomlen, size_t *blocks) {
    static uint8_t out[1 << 16], again[1 << 16];
    uint8_t right[16];
    size_t read = data_read(a, alen);
    peer_seal(key, iv, a, read, text, textlen, out, right);
    peer_seal(key, iv, a, read, out, textlen, again, right);
    int wrong = !tags_agree(tag, right);
    if (wrong && fault(FAULT_ORDER))
        return refuse_tag(room, roomlen, out, textlen, blocks);
    if (roomlen < textlen)
        return refuse_room(room, roomlen, out, blocks);
    if (wrong)
        return refuse_tag(room, roomlen, out, textlen, blocks);
    put(room, roomlen, out, textlen);
    *blocks = count_of(textlen);
    return DQ_DONE;
}
