/* alone.c: see alone.h. In a file of its own, since engine.h and deebqoshaan.h give the same names to some numbers. */
#include "alone.h"

#include "../tests/engine.h"

static const uint8_t key[16] = {1}, vector[12] = {2}, data[4] = {3}, text[64] = {4}, wrong_tag[16] = {5}, block[16] = {6};

void alone(const void *with) {
    static const uint8_t prepared[DQ_PREPARED] = {7};
    uint8_t first[16], second[16], stream[64], room[64];
    size_t blocks;
    (void)with;
    dq_gcm_open(key, vector, data, sizeof data, text, sizeof text, wrong_tag, room, sizeof room, &blocks);
    for (size_t i = 0; i < sizeof stream; i += 16)
        dq_aes128_encrypt_prepared(prepared, block, stream + i);
    dq_aes128_encrypt(key, block, first);
    dq_aes128_encrypt(first, block, second);
    __asm__ volatile("" ::"r"(second), "r"(stream) : "memory");
}
