/*
 * cavp.c: runs the cases of validation files, in the form of NIST's Cryptographic Algorithm Validation Program (.rsp), through the engine.
 *
 * cavp FILE..: files of AES-128 in ECB mode and of AES-128 in GCM.
 *
 * ECB: each block of PLAINTEXT is enciphered, under the bare key and under the prepared one, and has to be that of CIPHERTEXT. Cases of decryption
 * are run so too: the engine has encryption alone.
 * GCM, vectors of 96 bits and tags of 128 (other lengths are left out, and counted): PT is sealed, and has to give CT and Tag; CT is opened, and has
 * to give PT, or the refusal of a wrong tag where the file says FAIL. The count of blocks has to be document 01's.
 * Before a call all that it might write is filled with a pattern, and afterwards the whole of it is compared: nothing may be written beyond.
 *
 * A file is damaged if a field is missing, comes twice, isn't hexadecimal or hasn't the length that its section says.
 *
 * Exit status: 0 all is as the files say; 1 it isn't, a file is damaged, or has no case; 2 a file can't be read.
 */
#define _POSIX_C_SOURCE 200809L
#include <stdarg.h>
#include <stdbool.h>
#include <stdint.h>
#include <stdio.h>
#include <stdlib.h>
#include <string.h>
#include <strings.h>

#include "../engine.h"

enum { MOST = 4096, GUARD = 40, SURPLUS = 24, TOLD = 10 };

/* ---- a case, as it stands in its file */

enum field { KEY, IV, AAD, PT, CT, TAG, FIELDS };

/* The names that files give to fields. */
static const struct {
    const char *name;
    enum field field;
} names[] = {{"Key", KEY}, {"IV", IV}, {"AAD", AAD}, {"PT", PT}, {"PLAINTEXT", PT}, {"CT", CT}, {"CIPHERTEXT", CT}, {"Tag", TAG}};

struct bytes {
    bool given;
    size_t n;
    uint8_t at[MOST];
};

struct vector {
    struct bytes field[FIELDS];
    bool fail;
};

/* Where we are: the file, the line of the case's Count, and what its section says of a GCM case, in bits. */
static const char *file;
static unsigned long line, begun;
static struct {
    unsigned long key, iv, pt, aad, tag;
} section;
static struct vector now;

/* ---- what is counted */

static struct tally {
    unsigned long cases, blocks, sealed, opened, failing, left_out;
} tally;
static unsigned long all_cases, wrong;

/* Tells what isn't as it should be of the case, the first few times. */
static void tell(const char *form, ...) {
    va_list words;
    if (wrong++ >= TOLD)
        return;
    printf("%s, line %lu: ", file, begun == 0 ? line : begun);
    va_start(words, form);
    vprintf(form, words);
    va_end(words);
    printf("\n");
}

/* ---- what a call may write, and what it has to */

struct outcome {
    uint8_t number;
    size_t blocks;
    uint8_t tag[GUARD + 16 + GUARD];
    uint8_t area[GUARD + MOST + SURPLUS + GUARD]; /* the room starts after the first guard */
};

static struct outcome want, got;
static struct vector lent; /* what the call reads */

static void pattern(uint8_t *p, size_t n) {
    static uint8_t start;
    start += 41;
    for (size_t i = 0; i < n; i++)
        p[i] = (uint8_t)(start + 7 * i);
}

static void lay_out(void) {
    lent = now;
    got.number = 0xee;
    got.blocks = SIZE_MAX;
    pattern(got.tag, sizeof got.tag);
    pattern(got.area, sizeof got.area);
    want = got;
}

static void judge(const char *what) {
    if (want.number != got.number)
        tell("%s: number %u, not %u", what, got.number, want.number);
    else if (want.blocks != got.blocks)
        tell("%s: %zu blocks, not %zu", what, got.blocks, want.blocks);
    else if (memcmp(want.tag, got.tag, sizeof want.tag) != 0)
        tell("%s: another tag, or bytes written around it", what);
    else if (memcmp(want.area, got.area, sizeof want.area) != 0)
        tell("%s: another text, or bytes written around it", what);
    else if (memcmp(&lent, &now, sizeof now) != 0)
        tell("%s: something was written to what the call only reads", what);
}

/* ---- ECB */

/* As many bytes as a block has at the room's start, and no number, count or tag. */
static void judge_block(const char *what, const uint8_t *right) {
    memcpy(want.area + GUARD, right, 16);
    judge(what);
}

static void run_block(size_t at) {
    const uint8_t *right = now.field[CT].at + at, *block = lent.field[PT].at + at;
    uint8_t prepared[DQ_PREPARED];
    lay_out();
    dq_aes128_encrypt(lent.field[KEY].at, block, got.area + GUARD);
    judge_block("a block", right);
    lay_out();
    dq_aes128_prepare(lent.field[KEY].at, prepared);
    dq_aes128_encrypt_prepared(prepared, block, got.area + GUARD);
    judge_block("a block under a prepared key", right);
    tally.blocks++;
}

static bool ecb_damaged(void) {
    const struct bytes *f = now.field;
    return !f[KEY].given || !f[PT].given || !f[CT].given || now.fail || f[KEY].n != 16 || f[PT].n == 0 || f[PT].n % 16 != 0 ||
           f[CT].n != f[PT].n;
}

static void run_ecb(void) {
    if (ecb_damaged()) {
        tell("the case is damaged");
        return;
    }
    for (size_t at = 0; at < now.field[PT].n; at += 16)
        run_block(at);
    tally.cases++;
}

/* ---- GCM */

static void want_text(const struct bytes *text) {
    want.number = DQ_DONE;
    want.blocks = 2 + text->n / 16 + (text->n % 16 != 0);
    memcpy(want.area + GUARD, text->at, text->n);
}

static void run_seal(void) {
    const struct bytes *f = lent.field;
    lay_out();
    want_text(&now.field[CT]);
    memcpy(want.tag + GUARD, now.field[TAG].at, 16);
    got.number = dq_gcm_seal(f[KEY].at, f[IV].at, f[AAD].at, f[AAD].n, f[PT].at, f[PT].n, got.area + GUARD, f[PT].n + SURPLUS, got.tag + GUARD,
                             &got.blocks);
    judge("sealing");
    tally.sealed++;
}

static void run_open(void) {
    const struct bytes *f = lent.field;
    lay_out();
    if (now.fail) {
        want.number = DQ_TAG_WRONG;
        want.blocks = 2;
        tally.failing++;
    } else {
        want_text(&now.field[PT]);
    }
    got.number = dq_gcm_open(f[KEY].at, f[IV].at, f[AAD].at, f[AAD].n, f[CT].at, f[CT].n, f[TAG].at, got.area + GUARD, f[CT].n + SURPLUS,
                             &got.blocks);
    judge(now.fail ? "opening with a wrong tag" : "opening");
    tally.opened++;
}

static bool has(enum field field, unsigned long bits) {
    return now.field[field].given && 8 * now.field[field].n == bits;
}

static bool gcm_damaged(void) {
    if (section.key != 128 || !has(KEY, 128) || !has(IV, section.iv) || !has(AAD, section.aad) || !has(CT, section.pt) || !has(TAG, section.tag))
        return true;
    return now.fail ? now.field[PT].given : !has(PT, section.pt);
}

static void run_gcm(void) {
    if (gcm_damaged()) {
        tell("the case is damaged");
        return;
    }
    if (section.iv != 96 || section.tag != 128) {
        tally.left_out++;
        return;
    }
    if (!now.fail)
        run_seal();
    run_open();
    tally.cases++;
}

/* ---- reading */

/* Runs the case that was begun, if one was. */
static void end_case(void) {
    if (begun == 0)
        return;
    if (now.field[IV].given || now.field[AAD].given || now.field[TAG].given)
        run_gcm();
    else
        run_ecb();
    begun = 0;
}

static void begin_case(void) {
    end_case();
    begun = line;
    memset(&now, 0, sizeof now);
}

static int digit(char c) {
    const char *digits = "0123456789abcdef", *found = strchr(digits, c);
    return c == '\0' || found == NULL ? -1 : (int)(found - digits);
}

/* False: no hexadecimal, or too long. */
static bool read_hex(struct bytes *to, const char *text) {
    to->given = true;
    for (to->n = 0; *text != '\0'; text += 2) {
        int high = digit(text[0]), low = high < 0 ? -1 : digit(text[1]);
        if (low < 0 || to->n == MOST)
            return false;
        to->at[to->n++] = (uint8_t)(16 * high + low);
    }
    return true;
}

static void read_field(const char *name, const char *value) {
    for (size_t i = 0; i < sizeof names / sizeof names[0]; i++) {
        struct bytes *to = &now.field[names[i].field];
        if (strcasecmp(name, names[i].name) != 0)
            continue;
        if (begun == 0 || to->given || !read_hex(to, value))
            tell("%s is damaged: outside a case, twice, or no hexadecimal", name);
        return;
    }
    tell("there is no field '%s'", name);
}

static void read_fail(void) {
    if (begun == 0 || now.fail)
        tell("FAIL is damaged: outside a case, or twice");
    now.fail = true;
}

static void read_section(const char *text) {
    unsigned long bits;
    char name[16];
    end_case();
    if (strcmp(text, "[ENCRYPT]") == 0 || strcmp(text, "[DECRYPT]") == 0)
        return;
    if (sscanf(text, "[%15[A-Za-z] = %lu]", name, &bits) == 2) {
        unsigned long *to = strcmp(name, "Keylen") == 0   ? &section.key
                            : strcmp(name, "IVlen") == 0  ? &section.iv
                            : strcmp(name, "PTlen") == 0  ? &section.pt
                            : strcmp(name, "AADlen") == 0 ? &section.aad
                            : strcmp(name, "Taglen") == 0 ? &section.tag
                                                          : NULL;
        if (to != NULL) {
            *to = bits;
            return;
        }
    }
    tell("there is no section '%s'", text);
}

static void read_line(char *text) {
    text[strcspn(text, "\r\n")] = '\0';
    char *sign = strstr(text, " =");
    if (text[0] == '\0' || text[0] == '#') {
    } else if (text[0] == '[') {
        read_section(text);
    } else if (strcmp(text, "FAIL") == 0) {
        read_fail();
    } else if (sign == NULL) {
        tell("'%s' is no line of such a file", text);
    } else {
        *sign = '\0';
        if (strcasecmp(text, "Count") == 0)
            begin_case();
        else
            read_field(text, sign + 2 + strspn(sign + 2, " "));
    }
}

/* ---- files */

static void say_file(void) {
    printf("%s: %lu cases", file, tally.cases);
    if (tally.blocks > 0)
        printf(", %lu blocks", tally.blocks);
    if (tally.opened > 0)
        printf(", %lu sealed, %lu opened, %lu of these with a wrong tag", tally.sealed, tally.opened, tally.failing);
    if (tally.left_out > 0)
        printf("; %lu with vectors or tags of other lengths left out", tally.left_out);
    printf("\n");
}

static void run_file(const char *path) {
    FILE *from = fopen(path, "r");
    char *text = NULL;
    size_t room = 0;
    if (from == NULL) {
        perror(path);
        exit(2);
    }
    file = strrchr(path, '/') == NULL ? path : strrchr(path, '/') + 1;
    memset(&tally, 0, sizeof tally);
    memset(&section, 0, sizeof section);
    for (line = 1; getline(&text, &room, from) >= 0; line++)
        read_line(text);
    end_case();
    free(text);
    fclose(from);
    if (tally.cases == 0)
        tell("no case was found");
    say_file();
    all_cases += tally.cases;
}

int main(int argc, char **argv) {
    for (int i = 1; i < argc; i++)
        run_file(argv[i]);
    printf("cavp: %d files, %lu cases, %lu faults\n", argc - 1, all_cases, wrong);
    return wrong == 0 && all_cases > 0 ? 0 : 1;
}
