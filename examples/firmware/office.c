/*
 * office.c: what the plant's office does at its desk: it draws RSA keys, and with an interface's master secret it issues capabilities. Only the
 * office and the box have master secrets.
 *
 * office key PRIVATE PUBLIC           writes a new RSA key: its private half to the file PRIVATE, its public half to PUBLIC
 * office issue MASTER ID CAPABILITY   issues the capability for entry ID, by the master secret in the file MASTER (16 bytes), to the file CAPABILITY
 */
#include <openssl/crypto.h>
#include <openssl/evp.h>
#include <openssl/pem.h>
#include <openssl/rsa.h>
#include <stdio.h>
#include <stdlib.h>
#include <string.h>

#include "deebqoshaan.h"
#include "lines.h"
#include "rsa.h"
#include "words.h"

static bool fail(const char *what) {
    fprintf(stderr, "office: %s\n", what);
    return false;
}

static bool write_private(const char *file, EVP_PKEY *key) {
    FILE *open = file_secret(file);
    if (open == NULL)
        return fail("a key can't be written");
    bool done = PEM_write_PrivateKey(open, key, NULL, NULL, 0, NULL, NULL) == 1;
    return fclose(open) == 0 && done;
}

static bool write_public(const char *file, EVP_PKEY *key) {
    FILE *open = fopen(file, "w");
    if (open == NULL)
        return fail("a key can't be written");
    bool done = PEM_write_PUBKEY(open, key) == 1;
    return fclose(open) == 0 && done;
}

static bool draw(const char *private_file, const char *public_file) {
    EVP_PKEY *key = EVP_RSA_gen(RSA_BITS);
    bool done = key != NULL && write_private(private_file, key) && write_public(public_file, key);
    EVP_PKEY_free(key);
    return done || fail("there is no new key");
}

static bool issue(const char *master_file, const char *word, const char *file) {
    uint8_t master[DQ_SECRET + 1], room[DQ_CAPABILITY];
    size_t length, blocks;
    unsigned long id;
    if (!decimal(word, UINT16_MAX, &id))
        return fail("an ID is a number up to 65535");
    if (!file_read(master_file, master, sizeof master, &length)) {
        OPENSSL_cleanse(master, sizeof master);
        return fail("the master secret can't be read");
    }
    uint8_t number = dq_issue(master, length, (uint16_t)id, room, sizeof room, &blocks);
    OPENSSL_cleanse(master, sizeof master);
    printf("issue: %u %s\n", number, in_words(number));
    bool done = number == DQ_ACCEPTED && (file_write(file, room, sizeof room) || fail("the capability can't be written"));
    OPENSSL_cleanse(room, sizeof room);
    return done;
}

int main(int count, char **words) {
    bool done = false;
    if (count == 4 && strcmp(words[1], "key") == 0)
        done = draw(words[2], words[3]);
    else if (count == 5 && strcmp(words[1], "issue") == 0)
        done = issue(words[2], words[3], words[4]);
    else
        fail("office key PRIVATE PUBLIC, or office issue MASTER ID CAPABILITY");
    return done ? EXIT_SUCCESS : EXIT_FAILURE;
}
