/*
 * engine.h: what the archive of the crate `engine_c` offers to C.
 *
 * A slice is a pointer and then its length; no pointer may be null, not even beside a length of 0.
 * A room is where a text is to be written. It may not overlap what is read.
 */
#ifndef ENGINE_H
#define ENGINE_H

#include <stddef.h>
#include <stdint.h>

enum {
    DQ_DONE = 0,       /* sealed or opened */
    DQ_ROOM_SHORT = 7, /* the room is shorter than the text */
    DQ_TAG_WRONG = 8   /* the tag does not belong to the text */
};

/* One block under a key: FIPS 197. */
void dq_aes128_encrypt(const uint8_t key[16], const uint8_t block[16], uint8_t out[16]);

/* The bytes of a prepared key: `Prepared` of the crate `aes`. */
#define DQ_PREPARED 176

/* The same in two steps: a prepared key first, then a block under it. */
void dq_aes128_prepare(const uint8_t key[16], uint8_t out[DQ_PREPARED]);
void dq_aes128_encrypt_prepared(const uint8_t prepared[DQ_PREPARED], const uint8_t block[16],
                                uint8_t out[16]);

/*
 * AES-128-GCM with a vector of 12 bytes and a tag of 16: SP 800-38D.
 *
 * Both write as many bytes as the text has at the room's start, and nothing after them.
 * *blocks is how often the block cipher ran: 2, and once for each 16 bytes of the text or part of
 * them. A refusal writes nothing but *blocks: 0 with DQ_ROOM_SHORT, 2 with DQ_TAG_WRONG.
 */
uint8_t dq_gcm_seal(const uint8_t key[16], const uint8_t iv[12],
                    const uint8_t *a, size_t alen, const uint8_t *text, size_t textlen,
                    uint8_t *room, size_t roomlen, uint8_t tag[16], size_t *blocks);

uint8_t dq_gcm_open(const uint8_t key[16], const uint8_t iv[12],
                    const uint8_t *a, size_t alen, const uint8_t *text, size_t textlen,
                    const uint8_t tag[16], uint8_t *room, size_t roomlen, size_t *blocks);

#endif
