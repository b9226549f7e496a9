#include "console.h"

#include <inttypes.h>
#include <stdio.h>
#include <string.h>

#include "lines.h"
#include "words.h"

/* ---- revoke */

static uint8_t revoke(dq_state *state, const char *interface_id, const char *entry, const char *word) {
    unsigned long i, j;
    uint64_t kept;
    size_t blocks;
    if (!decimal(interface_id, UINT16_MAX, &i) || !decimal(entry, UINT16_MAX, &j) || !hexadecimal(word, &kept)) {
        puts("console: revoke INTERFACE ENTRY WORD: two decimal numbers, and the hexadecimal word of the commands that stay");
        return DQ_ACCEPTED;
    }
    uint8_t number = dq_revoke(state, (uint16_t)i, (uint16_t)j, kept, &blocks);
    printf("console: revoke interface %lu entry %lu word %016" PRIx64 ": %u %s\n", i, j, kept, number, in_words(number));
    return number;
}

/* ---- list: the one place that looks into the state, and it only reads */

static const char *phase(uint8_t tag) {
    switch (tag) {
    case 1: return "waiting";
    case 2: return "open";
    case 3: return "open, a reply owed";
    default: return "idle";
    }
}

static void list_hosts(const dq_state *state) {
    for (size_t i = 0; i < state->rights.hosts; i++) {
        printf("console: host %zu group %u %.*s: %s, last number %u\n", i + 1, state->rights.groups[i], (int)state->rights.sizes[i],
               (const char *)state->names + 256 * i, phase(state->records.tags[i]), state->records.lasts[i]);
    }
}

static void list_entries(const dq_state *state, size_t i) {
    for (size_t j = 0; j < state->rights.entries[i]; j++)
        printf("console: interface %zu entry %zu group %u word %016" PRIx64 "\n", i + 1, j + 1, state->rights.owners[16 * i + j],
               state->rights.words[16 * i + j]);
}

static void list_interfaces(const dq_state *state) {
    for (size_t i = 0; i < state->rights.interfaces; i++) {
        printf("console: interface %zu commands %u %.*s\n", i + 1, state->rights.commands[i], (int)state->rights.spans[i],
               (const char *)state->labels + 256 * i);
        list_entries(state, i);
    }
}

bool console(dq_state *state, char *line, uint8_t *number) {
    char *words[4];
    split(line, words, 4);
    *number = DQ_ACCEPTED;
    if (strcmp(words[0], "quit") == 0)
        return false;
    if (strcmp(words[0], "revoke") == 0) {
        *number = revoke(state, words[1], words[2], words[3]);
    } else if (strcmp(words[0], "list") == 0) {
        list_hosts(state);
        list_interfaces(state);
        puts("console: that is all");
    } else {
        puts("console: the words are `revoke INTERFACE ENTRY WORD`, `list` and `quit`");
    }
    return true;
}
