#include "rsa.h"

#include <openssl/crypto.h>
#include <openssl/err.h>
#include <openssl/evp.h>
#include <openssl/pem.h>
#include <openssl/rand.h>
#include <openssl/rsa.h>
#include <stdio.h>

#include "deebqoshaan.h"

typedef char every_request_fits[RSA_TEXT_MOST >= DQ_REQUEST_MOST ? 1 : -1];

/* ---- keys */

/* The key itself if it is an RSA key of the right size, and else NULL, with the key freed. */
static EVP_PKEY *only_ours(EVP_PKEY *key) {
    if (key != NULL && EVP_PKEY_is_a(key, "RSA") && EVP_PKEY_get_bits(key) == RSA_BITS)
        return key;
    EVP_PKEY_free(key);
    ERR_clear_error();
    return NULL;
}

EVP_PKEY *rsa_private(const char *file) {
    FILE *open = fopen(file, "r");
    if (open == NULL)
        return NULL;
    setvbuf(open, NULL, _IONBF, 0); /* no copy of the key stays in a buffer */
    EVP_PKEY *key = PEM_read_PrivateKey(open, NULL, NULL, NULL);
    fclose(open);
    return only_ours(key);
}

EVP_PKEY *rsa_public(const char *file) {
    FILE *open = fopen(file, "r");
    if (open == NULL)
        return NULL;
    EVP_PKEY *key = PEM_read_PUBKEY(open, NULL, NULL, NULL);
    fclose(open);
    return only_ours(key);
}

/* ---- messages */

static bool padded(EVP_PKEY_CTX *work) {
    return EVP_PKEY_CTX_set_rsa_padding(work, RSA_PKCS1_OAEP_PADDING) > 0 && EVP_PKEY_CTX_set_rsa_oaep_md_name(work, "SHA256", NULL) > 0 &&
           EVP_PKEY_CTX_set_rsa_mgf1_md_name(work, "SHA256", NULL) > 0;
}

bool rsa_encrypt(EVP_PKEY *key, const uint8_t *text, size_t length, uint8_t room[RSA_BYTES]) {
    size_t written = RSA_BYTES;
    EVP_PKEY_CTX *work = EVP_PKEY_CTX_new_from_pkey(NULL, key, NULL);
    bool done = work != NULL && EVP_PKEY_encrypt_init(work) > 0 && padded(work) && EVP_PKEY_encrypt(work, room, &written, text, length) > 0 &&
                written == RSA_BYTES;
    EVP_PKEY_CTX_free(work);
    ERR_clear_error();
    return done;
}

bool rsa_decrypt(EVP_PKEY *key, const uint8_t *message, size_t message_length, uint8_t room[RSA_BYTES], size_t *length) {
    size_t written = RSA_BYTES;
    EVP_PKEY_CTX *work = EVP_PKEY_CTX_new_from_pkey(NULL, key, NULL);
    bool done = message_length == RSA_BYTES && work != NULL && EVP_PKEY_decrypt_init(work) > 0 && padded(work) &&
                EVP_PKEY_decrypt(work, room, &written, message, message_length) > 0;
    EVP_PKEY_CTX_free(work);
    ERR_clear_error();
    *length = done ? written : 0;
    return done;
}

bool fresh_bytes(uint8_t *room, size_t length) {
    return RAND_bytes(room, (int)length) == 1;
}
