/*
 * rsa.h: what stands before the library's calls: RSA and fresh bytes, by OpenSSL.
 *
 * A message of the handshake is encrypted whole, as one RSA block: OAEP with SHA-256. The longest is a request with a name of 256 letters, 276
 * bytes; a key of 2,048 bits would hold 190 bytes, one of 3,072 bits holds 318. Every key has 3,072 bits, so every encrypted message has 384 bytes.
 */
#ifndef RSA_H
#define RSA_H

#include <openssl/types.h>
#include <stdbool.h>
#include <stddef.h>
#include <stdint.h>

enum { RSA_BITS = 3072, RSA_BYTES = RSA_BITS / 8, RSA_TEXT_MOST = RSA_BYTES - 2 * 32 - 2 };

/* The key in that file (PEM). NULL if there is none, or none of RSA_BITS. EVP_PKEY_free frees it. */
EVP_PKEY *rsa_private(const char *file);
EVP_PKEY *rsa_public(const char *file);

/* Encrypts a text of up to RSA_TEXT_MOST bytes for the holder of the private key. */
bool rsa_encrypt(EVP_PKEY *key, const uint8_t *text, size_t length, uint8_t room[RSA_BYTES]);

/* Decrypts a message. False if it isn't one that was encrypted for this key; *length is then 0. */
bool rsa_decrypt(EVP_PKEY *key, const uint8_t *message, size_t message_length, uint8_t room[RSA_BYTES], size_t *length);

/* Bytes that nobody can foretell. False if the machine has none to give. */
bool fresh_bytes(uint8_t *room, size_t length);

#endif
