/*
 * gateway.c: the time and the stack of each lent call, with the largest book and 32 hosts open; commands and loading beside the same checks in
 * plain C over BearSSL small (peer_load.c, peer_command.c).
 *
 * Every kind of call has a state of its own. A call that needs a record as it was before sets it back by a few stores, which are timed with it,
 * for the peer as for us. The stack is counted from the pointer of whoever asks for the call: the small function that makes it is counted too.
 *
 * Exit status: 0, bars missed or not; 1 the peer's answers differ, a call isn't answered as it should be, or the stack can't be measured.
 */
#include <stdio.h>
#include <string.h>

#include "agree.h"
#include "alone.h"
#include "measure.h"
#include "peer.h"
#include "scene.h"

#define COMMAND_BAR 1.2
#define LOADING_BAR 1.0
static const double OUTSIDE_BAR = 0.2;
static const size_t STACK_BAR = 8192;

enum { LONG = 1024, AT = 16 * (HOST - 1) };

/* ---- what the calls read and write */

struct packet {
    unsigned narrowings;
    uint8_t command;
    size_t payload;
    bool damaged;
    size_t length;
    uint8_t bytes[DQ_PACKET_MOST];
};

static struct packet empty = {.narrowings = 1, .command = COMMAND}, full = {.narrowings = 1, .command = COMMAND, .payload = LONG},
                     deep = {.narrowings = 4, .command = COMMAND, .payload = LONG},
                     by_8 = {.narrowings = 1, .command = COMMAND, .damaged = true}, by_18 = {.narrowings = 1, .command = NOT_COMMAND};

static uint8_t books[BOOKS][DQ_BOOK_MOST], request[DQ_REQUEST_MOST], proof[DQ_PROOF], fresh[DQ_SECRET], key[DQ_SECRET], vector[DQ_VECTOR_BYTES],
    issued[DQ_CAPABILITY], narrowed[DQ_CAPABILITY], payload[LONG], empty_reply[32], full_reply[32 + LONG];
static const size_t none = 0, some = LONG;

static struct {
    dq_state load, request, proof, command, reply, close, revoke, peer_load, peer_command;
} on;

static uint8_t number, room[DQ_PACKET_MOST];
static dq_order order;
static uint16_t host;
static size_t offset, length, blocks;

/* ---- the calls */

static void do_load(const void *book) {
    number = dq_load(&on.load, book, DQ_BOOK_MOST, &offset, &blocks);
}

static void do_request(const void *with) {
    (void)with;
    number = dq_request(&on.request, request, sizeof request, fresh, sizeof fresh, room, sizeof room, &host, &blocks);
}

static void do_proof(const void *with) {
    (void)with;
    on.proof.records.tags[HOST - 1] = 1;
    memcpy(on.proof.records.challenges + AT, proof, 16);
    number = dq_proof(&on.proof, HOST, proof, sizeof proof, room, sizeof room, &blocks);
}

static void do_command(const void *with) {
    const struct packet *p = with;
    on.command.records.lasts[HOST - 1] = 0;
    number = dq_command(&on.command, p->bytes, p->length, room, sizeof room, &order, &blocks);
}

static void do_reply(const void *with) {
    const size_t *n = with;
    on.reply.records.tags[HOST - 1] = 3;
    number = dq_reply(&on.reply, HOST, SEQUENCE, payload, *n, room, sizeof room, &blocks);
}

static void do_close(const void *with) {
    (void)with;
    number = dq_close(&on.close, HOST, &blocks);
}

static void do_revoke(const void *with) {
    (void)with;
    number = dq_revoke(&on.revoke, INTERFACE, ENTRY, ~(uint64_t)1, &blocks);
}

static void do_issue(const void *with) {
    (void)with;
    number = dq_issue(key, sizeof key, ENTRY, room, sizeof room, &blocks);
}

static void do_narrow(const void *with) {
    (void)with;
    number = dq_narrow(issued, sizeof issued, 12, room, sizeof room, &blocks);
}

static void do_seal_command(const void *with) {
    const size_t *n = with;
    number = dq_seal_command(key, sizeof key, vector, sizeof vector, narrowed, sizeof narrowed, HOST, SEQUENCE, GROUP, INTERFACE, COMMAND,
                             payload, *n, room, sizeof room, &blocks);
}

static void do_open_reply(const void *with) {
    const size_t *n = with;
    number = dq_open_reply(key, sizeof key, SEQUENCE, *n == 0 ? empty_reply : full_reply, 32 + *n, room, sizeof room, &length, &blocks);
}

static void do_connection_key(const void *with) {
    (void)with;
    dq_connection_key(proof, proof + 16, room);
    number = DQ_ACCEPTED;
}

static void do_peer_load(const void *book) {
    number = peer_load(&on.peer_load, book, DQ_BOOK_MOST, &offset, &blocks);
}

static void do_peer_command(const void *with) {
    const struct packet *p = with;
    on.peer_command.records.lasts[HOST - 1] = 0;
    number = peer_command(&on.peer_command, p->bytes, p->length, room, sizeof room, &order, &blocks);
}

/* ---- the table */

struct line {
    const char *name;
    work *ours;
    const void *with;
    uint8_t number; /* the right answer */
    work *peer;     /* the same in plain C, for some */
    double bar;     /* how many times as fast as that we are to be */
    struct cell *our_cell, *peer_cell;
};

enum { LINES = 22 };

static struct line lines[LINES] = {
    {.name = "load, names differ in their first bytes", .ours = do_load, .with = books[FIRST], .peer = do_peer_load, .bar = LOADING_BAR},
    {.name = "load, names differ in the middle", .ours = do_load, .with = books[MIDDLE], .peer = do_peer_load, .bar = LOADING_BAR},
    {.name = "load, names differ in their last bytes", .ours = do_load, .with = books[LAST], .peer = do_peer_load, .bar = LOADING_BAR},
    {.name = "load, names of one letter but for their last bytes", .ours = do_load, .with = books[ONE_LETTER], .peer = do_peer_load,
     .bar = LOADING_BAR},
    {.name = "request", .ours = do_request},
    {.name = "proof", .ours = do_proof},
    {.name = "command, no payload, one narrowing", .ours = do_command, .with = &empty, .peer = do_peer_command, .bar = COMMAND_BAR},
    {.name = "command, 1,024 bytes, one narrowing", .ours = do_command, .with = &full, .peer = do_peer_command, .bar = COMMAND_BAR},
    {.name = "command, 1,024 bytes, four narrowings", .ours = do_command, .with = &deep, .peer = do_peer_command, .bar = COMMAND_BAR},
    {.name = "command, refused by 8", .ours = do_command, .with = &by_8, .number = DQ_TAG_WRONG, .peer = do_peer_command, .bar = COMMAND_BAR},
    {.name = "command, refused by 18", .ours = do_command, .with = &by_18, .number = DQ_NOT_PERMITTED, .peer = do_peer_command, .bar = COMMAND_BAR},
    {.name = "reply, no payload", .ours = do_reply, .with = &none},
    {.name = "reply, 1,024 bytes", .ours = do_reply, .with = &some},
    {.name = "close", .ours = do_close},
    {.name = "revoke", .ours = do_revoke},
    {.name = "issue", .ours = do_issue},
    {.name = "narrow", .ours = do_narrow},
    {.name = "seal a command, no payload", .ours = do_seal_command, .with = &none},
    {.name = "seal a command, 1,024 bytes", .ours = do_seal_command, .with = &some},
    {.name = "open a reply, no payload", .ours = do_open_reply, .with = &none},
    {.name = "open a reply, 1,024 bytes", .ours = do_open_reply, .with = &some},
    {.name = "connection key", .ours = do_connection_key},
};

static struct cell cells[2 * LINES + 1];
static size_t cell_count;

static struct cell *new_cell(work *does, const void *with) {
    struct cell *c = &cells[cell_count++];
    c->does = does;
    c->with = with;
    return c;
}

/* ---- inputs */

static void make_packet(struct packet *p) {
    p->length = write_command(p->bytes, &on.command, p->narrowings, p->command, p->payload);
    if (p->damaged)
        p->bytes[16] ^= 1;
}

static void make_books(void) {
    for (enum where where = FIRST; where < BOOKS; where++)
        write_book(books[where], HOSTS, INTERFACES, where);
}

static void make_states(void) {
    must(dq_load(&on.command, books[LAST], DQ_BOOK_MOST, &offset, &blocks) == DQ_ACCEPTED, "the largest book is accepted");
    open_all(&on.command);
    on.request = on.proof = on.reply = on.close = on.revoke = on.peer_command = on.command;
    on.reply.records.lasts[HOST - 1] = SEQUENCE;
    memcpy(key, on.command.records.keys + AT, sizeof key);
}

static void make_lent_bytes(void) {
    fill(fresh, sizeof fresh);
    fill(proof, sizeof proof);
    fill(vector, sizeof vector);
    fill(payload, sizeof payload);
    vector[0] &= 127;
    request[0] = 1;
    put16(request + 2, 256);
    memcpy(request + 20, on.command.names + 256 * (HOST - 1), 256);
    write_capability(issued, &on.command, 0);
    write_capability(narrowed, &on.command, 1);
}

static void make_packets(void) {
    make_packet(&empty);
    make_packet(&full);
    make_packet(&deep);
    make_packet(&by_8);
    make_packet(&by_18);
    do_reply(&none);
    memcpy(empty_reply, room, sizeof empty_reply);
    do_reply(&some);
    memcpy(full_reply, room, sizeof full_reply);
}

/* ---- whether all is answered as it should be */

static void check_cell(const struct cell *c, uint8_t right) {
    number = 255;
    c->does(c->with);
    must(number == right, "every call that is timed is answered as it should be");
}

static void make_cells(void) {
    for (size_t i = 0; i < LINES; i++) {
        struct line *l = &lines[i];
        l->our_cell = new_cell(l->ours, l->with);
        check_cell(l->our_cell, l->number);
        if (l->peer == NULL)
            continue;
        l->peer_cell = new_cell(l->peer, l->with);
        check_cell(l->peer_cell, l->number);
    }
}

/* ---- what is printed: tables as docs/BENCHMARKS.md has them, then the bars */

/* A number with commas. The text stays until eight more are made. */
static const char *grouped(double v) {
    static char texts[8][32];
    static unsigned next;
    char *text = texts[next++ % 8];
    unsigned long n = (unsigned long)(v + 0.5);
    if (n >= 1000000)
        snprintf(text, sizeof texts[0], "%lu,%03lu,%03lu", n / 1000000, n / 1000 % 1000, n % 1000);
    else if (n >= 1000)
        snprintf(text, sizeof texts[0], "%lu,%03lu", n / 1000, n % 1000);
    else
        snprintf(text, sizeof texts[0], "%lu", n);
    return text;
}

static const char *verdict(bool met) {
    return met ? "PASS" : "FAIL";
}

static double ratio(const struct line *l) {
    return l->peer_cell->least / l->our_cell->least;
}

static void print_calls(void) {
    printf("\n| call | ns | bytes of stack |\n|---|---|---|\n");
    for (const struct line *l = lines; l < lines + LINES; l++)
        printf("| %s | %s | %s |\n", l->name, grouped(l->our_cell->least), grouped((double)l->our_cell->stack));
}

static void print_beside_peer(void) {
    printf("\n| a second | ours | plain C | times as fast | stack, ours | stack, plain C |\n|---|---|---|---|---|---|\n");
    for (const struct line *l = lines; l < lines + LINES; l++)
        if (l->peer != NULL)
            printf("| %s | %s | %s | %.2f | %s | %s |\n", l->name, grouped(1e9 / l->our_cell->least), grouped(1e9 / l->peer_cell->least), ratio(l),
                   grouped((double)l->our_cell->stack), grouped((double)l->peer_cell->stack));
}

static void print_ratio_bars(void) {
    printf("\n");
    for (const struct line *l = lines; l < lines + LINES; l++)
        if (l->peer != NULL)
            printf("%s  %s: %.2f times as fast as plain C, bar %.1f\n", verdict(ratio(l) >= l->bar), l->name, ratio(l), l->bar);
}

static void print_stack_bars(void) {
    for (const struct line *l = lines; l < lines + LINES; l++)
        if (l->ours == do_command)
            printf("%s  %s: %zu bytes of stack, bar %zu\n", verdict(l->our_cell->stack <= STACK_BAR), l->name, l->our_cell->stack, STACK_BAR);
}

static void print_outside_bar(const struct cell *command, const struct cell *alone_cell) {
    double share = 1 - alone_cell->least / command->least;
    printf("%s  outside AES and GHASH: %.1f %% of an empty command's %.0f ns (alone they take %.0f), bar: less than %.0f %%\n",
           verdict(share < OUTSIDE_BAR), 100 * share, command->least, alone_cell->least, 100 * OUTSIDE_BAR);
}

static const struct cell *cell_of(const void *with) {
    const struct line *l = lines;
    while (l->with != with)
        l++;
    return l->our_cell;
}

int main(void) {
    make_books();
    make_states();
    make_lent_bytes();
    make_packets();
    agree_on_books();
    agree_on_commands(&on.command);
    printf("ours and plain C give the same numbers, answers, rooms and states\n");
    make_cells();
    const struct cell *alone_cell = new_cell(alone, NULL);
    measure_time(cells, cell_count);
    measure_stack(cells, cell_count);
    print_calls();
    print_beside_peer();
    print_ratio_bars();
    print_stack_bars();
    print_outside_bar(cell_of(&empty), alone_cell);
    return 0;
}
