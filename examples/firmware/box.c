/*
 * box.c: a line gateway's main loop around the library, on loopback. README.md says what it decides and what it leaves to the engineer.
 *
 * box BOOK KEYS [CONTROL_PORT COMMAND_PORT]. BOOK is the plant's book. KEYS is a folder: box.pem has the box's private RSA key, N.pem the public one
 * of host N. Without ports, the system picks them. Standard input is the console (console.c).
 * Exit status: 0 it was told to end; 1 it couldn't start, or not go on.
 *
 * One thread, one poll(), one state that is lent to every call. All that the box keeps stands in `box`. It takes nothing from the heap itself;
 * OpenSSL does, for keys and RSA, and the C library, for the files that are read at the start.
 */
#include <errno.h>
#include <openssl/crypto.h>
#include <openssl/evp.h>
#include <poll.h>
#include <stdio.h>
#include <stdlib.h>
#include <string.h>
#include <sys/socket.h>
#include <unistd.h>

#include "console.h"
#include "deebqoshaan.h"
#include "frames.h"
#include "lines.h"
#include "rsa.h"
#include "words.h"

enum {
    HOSTS = 32,                /* the most that a book has */
    CHANNELS = 2 * HOSTS + 16, /* two for each host, and some for those who are nobody yet */
    WATCHED = CHANNELS + 3,    /* the channels, the two listeners and the console */
    SHOWN = 80,                /* bytes of a payload that are printed */
    NOBODY = 0
};

enum kind { FREE, CONTROL, COMMAND };
enum step { ASKING, PROVING, CONNECTED }; /* what a control channel has next to say: a request, a proof, nothing */

struct channel {
    enum kind kind;
    enum step step;
    int socket;
    uint16_t host;         /* whose channel it is, or NOBODY as yet */
    unsigned long arrival; /* the lower, the longer it is here */
    struct frame in;
};

static struct {
    dq_state state;
    EVP_PKEY *own, *machine[HOSTS]; /* that of host i at i - 1 */
    int control, command;           /* the sockets that listen */
    unsigned long arrivals;
    bool failed;
    struct channel channels[CHANNELS];
    struct frame out;
    uint8_t payload[DQ_PAYLOAD_MOST];
    struct lines lines;
} box;

/* ---- saying what happens */

static void about(const struct channel *c) {
    printf("channel %d, %s of ", (int)(c - box.channels), c->kind == CONTROL ? "control" : "command");
    if (c->host == NOBODY)
        printf("nobody: ");
    else
        printf("host %u: ", c->host);
}

static void tell(const struct channel *c, const char *what) {
    about(c);
    puts(what);
}

/* A state that isn't sound can't be mended: somebody has written over the box's memory, so it ends. */
static void mind(uint8_t number) {
    box.failed = box.failed || number == DQ_UNSOUND;
}

/* Says what a call of the library has answered. */
static void tell_number(const struct channel *c, const char *call, uint8_t number) {
    about(c);
    printf("%s: %u %s\n", call, number, in_words(number));
    mind(number);
}

/* ---- channels */

static void shut(struct channel *c, const char *why) {
    tell(c, why);
    close(c->socket);
    OPENSSL_cleanse(&c->in, sizeof c->in);
    c->kind = FREE;
    c->socket = -1;
    c->host = NOBODY;
}

/* Shuts the other channels of that host: all of them, or those for commands alone. */
static void shut_others(const struct channel *c, uint16_t host, bool control_too, const char *why) {
    for (size_t i = 0; i < CHANNELS; i++) {
        struct channel *other = &box.channels[i];
        if (other != c && other->kind != FREE && other->host == host && (control_too || other->kind == COMMAND))
            shut(other, why);
    }
}

/* Shuts a channel. With either of its two channels a host's connection is gone, so its record becomes idle and its other channel goes too. */
static void end(struct channel *c, const char *why) {
    uint16_t host = c->host;
    size_t blocks;
    if (host != NOBODY) {
        tell_number(c, "close", dq_close(&box.state, host, &blocks));
        shut_others(c, host, true, "shut: the host's other channel has ended");
    }
    shut(c, why);
}

/*
 * A place for a new channel: a free one, or else that of the channel which has been nobody's for the longest time. There is one: hosts have two
 * channels each at the most, and there are more places than that.
 */
static struct channel *place(void) {
    struct channel *found = NULL;
    for (size_t i = 0; i < CHANNELS; i++) {
        struct channel *c = &box.channels[i];
        if (c->kind == FREE)
            return c;
        if (c->host == NOBODY && (found == NULL || c->arrival < found->arrival))
            found = c;
    }
    shut(found, "shut: it makes way for a new channel");
    return found;
}

static void accept_one(int listener, enum kind kind) {
    int made = accept(listener, NULL, NULL);
    if (made < 0)
        return;
    if (!never_wait(made)) {
        close(made);
        return;
    }
    struct channel *c = place();
    c->kind = kind;
    c->step = ASKING;
    c->socket = made;
    c->arrival = box.arrivals++;
    c->in.have = 0;
    c->in.most = kind == CONTROL ? RSA_BYTES : FRAME_MOST;
    tell(c, "new");
}

/* ---- the control channel: one handshake. What these functions return: whether the channel stays. */

/* Sends an answer of the library's to the machine, encrypted under its public key. */
static bool answer(struct channel *c, const uint8_t *text, size_t length) {
    return rsa_encrypt(box.machine[c->host - 1], text, length, frame_room(&box.out)) && frame_send(c->socket, &box.out, RSA_BYTES);
}

/*
 * From an accepted request on the channel is that host's. Document 01 has an earlier connection of the host end there; its channels end with it, and
 * dq_close isn't called for them: the host waits now.
 */
static bool hear_request(struct channel *c, const uint8_t *request, size_t length) {
    uint8_t fresh[DQ_SECRET], room[DQ_REQUESTED];
    uint16_t host;
    size_t blocks;
    if (!fresh_bytes(fresh, sizeof fresh)) {
        tell(c, "there are no fresh bytes");
        return false;
    }
    uint8_t number = dq_request(&box.state, request, length, fresh, sizeof fresh, room, sizeof room, &host, &blocks);
    OPENSSL_cleanse(fresh, sizeof fresh);
    if (number == DQ_ACCEPTED) {
        shut_others(c, host, true, "shut: the host asks for a new connection");
        c->host = host;
        c->step = PROVING;
    }
    tell_number(c, "request", number);
    bool stays = number == DQ_ACCEPTED && answer(c, room, sizeof room);
    OPENSSL_cleanse(room, sizeof room);
    return stays;
}

static bool hear_proof(struct channel *c, const uint8_t *proof, size_t length) {
    uint8_t room[DQ_PROVED];
    size_t blocks;
    uint8_t number = dq_proof(&box.state, c->host, proof, length, room, sizeof room, &blocks);
    tell_number(c, "proof", number);
    bool stays = number == DQ_ACCEPTED && answer(c, room, sizeof room);
    OPENSSL_cleanse(room, sizeof room);
    c->step = CONNECTED;
    return stays;
}

/* The step says what a message is: a request can be as long as a proof. Whatever is wrong, the other side sees the same: the channel closes. */
static bool hear_control(struct channel *c) {
    uint8_t text[RSA_BYTES];
    size_t length;
    if (c->step == CONNECTED) {
        tell(c, "a message after the handshake");
        return false;
    }
    if (!rsa_decrypt(box.own, frame_message(&c->in), frame_length(&c->in), text, &length)) {
        tell(c, "a message that isn't encrypted for this box");
        return false;
    }
    bool stays = c->step == ASKING ? hear_request(c, text, length) : hear_proof(c, text, length);
    OPENSSL_cleanse(text, sizeof text);
    return stays;
}

/* ---- the command channel */

/*
 * Carries a command out. This is the engineer's to write: here the command is printed, and its reply is an echo. The reply's payload goes where the
 * command's stands; returned is how long it is.
 */
static size_t carry_out(const dq_order *order, uint8_t payload[DQ_PAYLOAD_MOST]) {
    printf("carried out for host %u, number %u: interface %u command %u by capability %u, payload %u bytes: ", order->client, order->sequence,
           order->interface_id, order->command, order->capability, order->length);
    print_bytes(payload, order->length < SHOWN ? order->length : SHOWN);
    putchar('\n');
    return order->length;
}

static bool reply(struct channel *c, const dq_order *order, size_t length) {
    size_t blocks;
    uint8_t number = dq_reply(&box.state, order->client, order->sequence, box.payload, length, frame_room(&box.out), FRAME_MOST, &blocks);
    tell_number(c, "reply", number);
    if (number != DQ_ACCEPTED || frame_send(c->socket, &box.out, DQ_REPLY_MOST - DQ_PAYLOAD_MOST + length))
        return number == DQ_ACCEPTED;
    tell(c, "the machine doesn't read its replies");
    return false;
}

/* Whether the packet names another host than the one whose channel this is. */
static bool of_another(const struct channel *c) {
    const uint8_t *packet = frame_message(&c->in);
    return c->host != NOBODY && frame_length(&c->in) >= 2 && (packet[0] | packet[1] << 8) != c->host;
}

/*
 * Refusals 1 to 8 say that the packet wasn't sealed under the key of a connection: the channel closes. One that is refused by a higher number was
 * sealed by the machine itself, which keeps its connection: what is permitted still goes through. The machine is told neither.
 */
static bool hear_command(struct channel *c) {
    dq_order order;
    size_t blocks;
    if (of_another(c)) {
        tell(c, "a packet of another host");
        return false;
    }
    uint8_t number = dq_command(&box.state, frame_message(&c->in), frame_length(&c->in), box.payload, sizeof box.payload, &order, &blocks);
    if (number == DQ_ACCEPTED) {
        shut_others(c, order.client, false, "shut: the host has another command channel");
        c->host = order.client;
    }
    tell_number(c, "command", number);
    bool stays = number == DQ_ACCEPTED ? reply(c, &order, carry_out(&order, box.payload)) : number > DQ_TAG_WRONG;
    OPENSSL_cleanse(&order, sizeof order);
    return stays;
}

/* ---- the loop */

static void hear(struct channel *c) {
    switch (frame_read(c->socket, &c->in)) {
    case FRAME_PART:
        return;
    case FRAME_END:
        end(c, "ended by the other side");
        return;
    case FRAME_BAD:
        end(c, "ended: a frame of a length that no message has");
        return;
    case FRAME_WHOLE:
        if (!(c->kind == CONTROL ? hear_control(c) : hear_command(c)))
            end(c, "ended");
    }
}

static bool obey(char *line) {
    uint8_t number;
    bool going = console(&box.state, line, &number);
    mind(number);
    return going && !box.failed;
}

static void watch(struct pollfd polls[WATCHED]) {
    for (size_t i = 0; i < CHANNELS; i++)
        polls[i] = (struct pollfd){.fd = box.channels[i].socket, .events = POLLIN};
    polls[CHANNELS] = (struct pollfd){.fd = box.control, .events = POLLIN};
    polls[CHANNELS + 1] = (struct pollfd){.fd = box.command, .events = POLLIN};
    polls[CHANNELS + 2] = (struct pollfd){.fd = STDIN_FILENO, .events = POLLIN};
}

/*
 * One turn: the console first, so that a right withdrawn is gone for all that waits; then a read from each channel; new channels last, since they may
 * take places that were watched. False if the box is to end.
 */
static bool turn(void) {
    struct pollfd polls[WATCHED];
    watch(polls);
    if (poll(polls, WATCHED, -1) < 0) {
        box.failed = errno != EINTR;
        return !box.failed;
    }
    if (polls[CHANNELS + 2].revents != 0 && !lines_read(STDIN_FILENO, &box.lines, obey))
        return false;
    for (size_t i = 0; i < CHANNELS; i++) {
        if (polls[i].revents != 0 && box.channels[i].kind != FREE)
            hear(&box.channels[i]);
    }
    if (polls[CHANNELS].revents != 0)
        accept_one(box.control, CONTROL);
    if (polls[CHANNELS + 1].revents != 0)
        accept_one(box.command, COMMAND);
    return !box.failed;
}

/* ---- start and end */

static bool fail(const char *what) {
    fprintf(stderr, "box: %s\n", what);
    return false;
}

static bool load_book(const char *file) {
    static uint8_t book[DQ_BOOK_MOST + 1]; /* one more, so that a longer one is seen to be */
    size_t length, offset, blocks;
    if (!file_read(file, book, sizeof book, &length)) {
        OPENSSL_cleanse(book, sizeof book);
        return fail("the book can't be read");
    }
    uint8_t number = dq_load(&box.state, book, length, &offset, &blocks);
    OPENSSL_cleanse(book, sizeof book);
    if (number == DQ_ACCEPTED)
        printf("load: %u %s\n", number, in_words(number));
    else
        printf("refused %u at %zu: %s\n", number, offset, in_words(number));
    return number == DQ_ACCEPTED;
}

static EVP_PKEY *key_of(const char *folder, const char *name, bool private) {
    char file[4096];
    int length = snprintf(file, sizeof file, "%s/%s.pem", folder, name);
    EVP_PKEY *key = length > 0 && (size_t)length < sizeof file ? (private ? rsa_private(file) : rsa_public(file)) : NULL;
    if (key == NULL)
        fprintf(stderr, "box: no RSA key of %d bits for %s\n", RSA_BITS, name);
    return key;
}

static bool load_keys(const char *folder) {
    box.own = key_of(folder, "box", true);
    bool all = box.own != NULL;
    for (unsigned i = 0; i < box.state.rights.hosts; i++) {
        char name[8];
        snprintf(name, sizeof name, "%u", i + 1);
        box.machine[i] = key_of(folder, name, false);
        all = all && box.machine[i] != NULL;
    }
    return all;
}

static bool open_channels(const char *control_port, const char *command_port) {
    unsigned long control, command;
    for (size_t i = 0; i < CHANNELS; i++)
        box.channels[i].socket = -1;
    if (!decimal(control_port, UINT16_MAX, &control) || !decimal(command_port, UINT16_MAX, &command))
        return fail("a port is a number up to 65535");
    uint16_t ports[2] = {(uint16_t)control, (uint16_t)command};
    box.control = listen_at(&ports[0]);
    box.command = listen_at(&ports[1]);
    if (box.control < 0 || box.command < 0)
        return fail("it can't listen at these ports");
    printf("control port %u\ncommand port %u\n", ports[0], ports[1]);
    return true;
}

static void end_channels(void) {
    for (size_t i = 0; i < CHANNELS; i++) {
        if (box.channels[i].kind != FREE)
            end(&box.channels[i], "ended: the box ends");
    }
    if (box.control >= 0)
        close(box.control);
    if (box.command >= 0)
        close(box.command);
}

/*
 * Wipes what the box keeps, and has OpenSSL free the keys. Copies that the library's calls made on the stack aren't wiped, nor the buffer of what is
 * printed; and a signal ends the box before it comes here.
 */
static void forget(void) {
    for (size_t i = 0; i < HOSTS; i++)
        EVP_PKEY_free(box.machine[i]);
    EVP_PKEY_free(box.own);
    OPENSSL_cleanse(&box, sizeof box);
}

int main(int count, char **words) {
    static char said[4096];
    setvbuf(stdout, said, _IOLBF, sizeof said);
    if (count != 3 && count != 5) {
        fputs("usage: box BOOK KEYS [CONTROL_PORT COMMAND_PORT]\n", stderr);
        return EXIT_FAILURE;
    }
    box.control = box.command = -1;
    bool started = load_book(words[1]) && load_keys(words[2]) && open_channels(count == 5 ? words[3] : "0", count == 5 ? words[4] : "0");
    bool going = started;
    while (going)
        going = turn();
    end_channels();
    bool failed = !started || box.failed;
    puts(failed ? "the box has failed" : "the box has ended");
    forget();
    return failed ? EXIT_FAILURE : EXIT_SUCCESS;
}
