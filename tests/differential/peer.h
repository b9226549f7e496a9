/*
 * peer.h: the same three functions by OpenSSL's libcrypto, through its EVP interface alone.
 *
 * libcrypto failing for a reason other than a wrong tag ends the program: no verdict can rest on it.
 * Lengths pass as int, as EVP wants them; the largest here is far below its limit.
 */
#ifndef PEER_H
#define PEER_H

#include <stdint.h>
#include <stdio.h>
#include <stdlib.h>

#include <openssl/evp.h>

static inline void peer_must(int ok, const char *what) {
    if (ok == 1)
        return;
    fprintf(stderr, "libcrypto failed: %s\n", what);
    exit(2);
}

static inline EVP_CIPHER_CTX *peer_context(void) {
    static EVP_CIPHER_CTX *context;
    if (context == NULL)
        context = EVP_CIPHER_CTX_new();
    peer_must(context != NULL && EVP_CIPHER_CTX_reset(context) == 1, "context");
    return context;
}

static inline void peer_block(const uint8_t *key, const uint8_t *block, uint8_t *out) {
    EVP_CIPHER_CTX *c = peer_context();
    int wrote;
    peer_must(EVP_EncryptInit_ex(c, EVP_aes_128_ecb(), NULL, key, NULL), "ECB start");
    peer_must(EVP_CIPHER_CTX_set_padding(c, 0), "ECB padding");
    peer_must(EVP_EncryptUpdate(c, out, &wrote, block, 16), "ECB block");
    peer_must(wrote == 16, "ECB length");
}

static inline void peer_seal(const uint8_t *key, const uint8_t *iv, const uint8_t *a, size_t alen,
                             const uint8_t *text, size_t n, uint8_t *out, uint8_t *tag) {
    EVP_CIPHER_CTX *c = peer_context();
    uint8_t rest[16];
    int wrote;
    peer_must(EVP_EncryptInit_ex(c, EVP_aes_128_gcm(), NULL, key, iv), "GCM start");
    if (alen > 0)
        peer_must(EVP_EncryptUpdate(c, NULL, &wrote, a, (int)alen), "GCM additional data");
    if (n > 0)
        peer_must(EVP_EncryptUpdate(c, out, &wrote, text, (int)n), "GCM text");
    peer_must(EVP_EncryptFinal_ex(c, rest, &wrote), "GCM end");
    peer_must(EVP_CIPHER_CTX_ctrl(c, EVP_CTRL_GCM_GET_TAG, 16, tag), "GCM tag");
}

/* 1: the tag is right and `out` is the text. 0: it is wrong, and `out` holds what nobody may read. */
static inline int peer_open(const uint8_t *key, const uint8_t *iv, const uint8_t *a, size_t alen,
                            const uint8_t *text, size_t n, const uint8_t *tag, uint8_t *out) {
    EVP_CIPHER_CTX *c = peer_context();
    uint8_t rest[16];
    int wrote;
    peer_must(EVP_DecryptInit_ex(c, EVP_aes_128_gcm(), NULL, key, iv), "GCM start");
    if (alen > 0)
        peer_must(EVP_DecryptUpdate(c, NULL, &wrote, a, (int)alen), "GCM additional data");
    if (n > 0)
        peer_must(EVP_DecryptUpdate(c, out, &wrote, text, (int)n), "GCM text");
    peer_must(EVP_CIPHER_CTX_ctrl(c, EVP_CTRL_GCM_SET_TAG, 16, (void *)(uintptr_t)tag), "GCM tag");
    return EVP_DecryptFinal_ex(c, rest, &wrote) == 1;
}

#endif
