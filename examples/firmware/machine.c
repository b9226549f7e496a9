/*
 * machine.c: one machine of the plant, as a client of the box.
 *
 * machine NAME GROUP KEY BOX_KEY CONTROL_PORT COMMAND_PORT. NAME and GROUP are those in the book. The file KEY has the machine's private RSA key,
 * BOX_KEY the box's public one. Standard input has a line for each thing to do:
 *
 *   connect                          opens the control channel, and the handshake
 *   take FILE                        holds the capability in that file from now on
 *   narrow WORD                      narrows the capability that it holds, by a hexadecimal word
 *   keep FILE                        writes the capability that it holds to a file, to hand it on
 *   send INTERFACE COMMAND [TEXT]    seals a command with that capability and sends it
 *   repeat                           sends the last packet again, byte for byte
 *   close                            closes both channels
 *   quit                             ends; so does the end of standard input
 *
 * and these, to try the box:
 *
 *   half                             a handshake that stops before the proof
 *   garbage CHANNEL LENGTH           a frame of that length with random bytes, on the channel `control` or `command`
 *   stall CHANNEL                    the first half of a frame
 *   flood INTERFACE COMMAND          commands with the longest payload, and no reply read, until the box closes the channel
 *
 * It prints what it is answered as it comes. A refused command is answered by nothing: how long to wait is the engineer's to say.
 */
#include <openssl/crypto.h>
#include <openssl/evp.h>
#include <poll.h>
#include <stdio.h>
#include <stdlib.h>
#include <string.h>
#include <sys/socket.h>
#include <unistd.h>

#include "deebqoshaan.h"
#include "frames.h"
#include "lines.h"
#include "rsa.h"
#include "words.h"

enum phase { IDLE, ASKED, PROVED, OPEN };

struct channel {
    const char *name;
    uint16_t port;
    int socket; /* -1: closed */
    struct frame in;
};

static struct {
    const char *name;
    uint16_t group;
    EVP_PKEY *own, *box;
    struct channel control, command;
    enum phase phase;
    bool half;
    uint8_t challenge1[DQ_SECRET], challenge2[DQ_SECRET], challenge3[DQ_SECRET], key[DQ_SECRET];
    uint8_t capability[DQ_CAPABILITY];
    uint16_t id, sent, answered; /* client ID; the last number sent, and the last that a reply came for */
    struct frame out, packet;    /* a message of the handshake; the last command */
    size_t packet_length;
    struct lines lines;
} me;

static bool fail(const char *what) {
    printf("%s\n", what);
    return false;
}

static bool tell_number(const char *call, uint8_t number) {
    printf("%s: %u %s\n", call, number, in_words(number));
    return number == DQ_ACCEPTED;
}

static uint16_t sixteen(const uint8_t *bytes) {
    return (uint16_t)(bytes[0] | bytes[1] << 8);
}

/* ---- channels */

/* Opens a channel, unless it is open. */
static bool channel_open(struct channel *c, size_t most) {
    if (c->socket >= 0)
        return true;
    c->socket = connect_to(c->port);
    c->in.have = 0;
    c->in.most = most;
    return c->socket >= 0;
}

static void channel_close(struct channel *c) {
    if (c->socket >= 0)
        close(c->socket);
    c->socket = -1;
}

/* The connection is gone with either channel, and its key isn't kept. */
static void disconnect(void) {
    channel_close(&me.control);
    channel_close(&me.command);
    OPENSSL_cleanse(me.key, sizeof me.key);
    me.phase = IDLE;
}

/* ---- the handshake (000, section 3.5) */

static bool send_control(const uint8_t *text, size_t length) {
    return rsa_encrypt(me.box, text, length, frame_room(&me.out)) && frame_send(me.control.socket, &me.out, RSA_BYTES);
}

/* Message 1: version 1.0, the name's length, challenge 1, the name. */
static bool ask(void) {
    uint8_t text[DQ_REQUEST_MOST] = {1, 0};
    size_t length = strlen(me.name);
    text[2] = (uint8_t)(length & 0xff);
    text[3] = (uint8_t)(length >> 8);
    if (!fresh_bytes(me.challenge1, DQ_SECRET))
        return false;
    memcpy(text + 4, me.challenge1, DQ_SECRET);
    memcpy(text + 20, me.name, length);
    me.phase = ASKED;
    return send_control(text, 20 + length);
}

/*
 * Message 2 has challenge 1, which the box alone could read, and challenge 2. Message 3 has challenge 2, which this machine alone could read, and
 * challenge 3.
 */
static bool prove(const uint8_t *text, size_t length) {
    uint8_t proof[DQ_PROOF];
    if (length != DQ_REQUESTED || CRYPTO_memcmp(text, me.challenge1, DQ_SECRET) != 0)
        return fail("this isn't the box: challenge 1 doesn't come back");
    if (me.half) {
        puts("challenge 2 is here, and the proof isn't sent");
        return true;
    }
    memcpy(me.challenge2, text + DQ_SECRET, DQ_SECRET);
    if (!fresh_bytes(me.challenge3, DQ_SECRET))
        return false;
    memcpy(proof, me.challenge2, DQ_SECRET);
    memcpy(proof + DQ_SECRET, me.challenge3, DQ_SECRET);
    me.phase = PROVED;
    bool done = send_control(proof, sizeof proof);
    OPENSSL_cleanse(proof, sizeof proof);
    return done;
}

/* Message 4: the client ID, two zeros, challenge 3. Now both have the key, and the numbers begin at 1. */
static bool begin(const uint8_t *text, size_t length) {
    if (length != DQ_PROVED || text[2] != 0 || text[3] != 0 || CRYPTO_memcmp(text + 4, me.challenge3, DQ_SECRET) != 0)
        return fail("this isn't the box: challenge 3 doesn't come back");
    dq_connection_key(me.challenge2, me.challenge3, me.key);
    OPENSSL_cleanse(me.challenge2, DQ_SECRET);
    OPENSSL_cleanse(me.challenge3, DQ_SECRET);
    me.id = sixteen(text);
    me.sent = me.answered = 0;
    me.packet_length = 0;
    me.phase = OPEN;
    printf("connected as host %u\n", me.id);
    return true;
}

static bool hear_control(void) {
    uint8_t text[RSA_BYTES];
    size_t length;
    if (!rsa_decrypt(me.own, frame_message(&me.control.in), frame_length(&me.control.in), text, &length))
        return fail("a message that isn't encrypted for this machine");
    bool stays = false;
    if (me.phase == ASKED)
        stays = prove(text, length);
    else if (me.phase == PROVED)
        stays = begin(text, length);
    OPENSSL_cleanse(text, sizeof text);
    return stays;
}

/* ---- commands and replies */

/* A vector is used once under a key: it has the number, and no number is used twice on a connection. */
static bool seal(unsigned long interface_id, unsigned long command, const char *text) {
    size_t blocks, length = strlen(text);
    uint16_t number = (uint16_t)(me.sent + 1);
    uint8_t vector[DQ_VECTOR_BYTES] = {0, 0, (uint8_t)(number & 0xff), (uint8_t)(number >> 8)};
    uint8_t answer = dq_seal_command(me.key, sizeof me.key, vector, sizeof vector, me.capability, sizeof me.capability, me.id, number, me.group,
                                     (uint16_t)interface_id, (uint8_t)command, (const uint8_t *)text, length, frame_room(&me.packet), FRAME_MOST,
                                     &blocks);
    if (answer != DQ_ACCEPTED)
        return tell_number("seal", answer);
    me.sent = number;
    me.packet_length = DQ_PACKET_MOST - DQ_PAYLOAD_MOST + length;
    return true;
}

/* The command channel is opened when there is something to say on it: the box ties it to this machine by the first command that it accepts there. */
static bool send_command(const char *interface_id, const char *command, const char *text) {
    unsigned long i, c;
    if (me.phase != OPEN)
        return fail("not connected");
    if (!decimal(interface_id, UINT16_MAX, &i) || !decimal(command, UINT8_MAX, &c))
        return fail("send INTERFACE COMMAND [TEXT]: two decimal numbers, and the payload");
    if (me.sent == UINT16_MAX)
        return fail("the numbers of this connection are used up");
    if (!channel_open(&me.command, FRAME_MOST))
        return fail("there is no command channel");
    return seal(i, c, text) && (frame_send(me.command.socket, &me.packet, me.packet_length) || fail("it can't be sent"));
}

static bool repeat(void) {
    if (me.phase != OPEN || me.packet_length == 0)
        return fail("nothing to repeat");
    return frame_send(me.command.socket, &me.packet, me.packet_length) || fail("it can't be sent");
}

/*
 * The number that a reply is for stands in its vector. If no command waits for it, it isn't opened: a copy of an earlier reply is as well sealed as
 * that was. The box answers in order: of the commands before the one answered, each was answered too, or refused.
 */
static bool hear_reply(void) {
    static uint8_t room[DQ_PAYLOAD_MOST];
    const uint8_t *reply = frame_message(&me.command.in);
    size_t blocks, payload_length, length = frame_length(&me.command.in);
    uint16_t number = length < DQ_VECTOR_BYTES ? 0 : sixteen(reply + 2);
    if (number <= me.answered || number > me.sent) {
        printf("reply %u: no command waits for it\n", number);
        return false;
    }
    uint8_t answer = dq_open_reply(me.key, sizeof me.key, number, reply, length, room, sizeof room, &payload_length, &blocks);
    printf("reply %u: %u %s", number, answer, in_words(answer));
    if (answer == DQ_ACCEPTED) {
        me.answered = number;
        printf(": ");
        print_bytes(room, payload_length);
    }
    putchar('\n');
    return answer == DQ_ACCEPTED;
}

/* ---- capabilities */

static void take(const char *file) {
    uint8_t room[DQ_CAPABILITY + 1];
    size_t length;
    bool taken = file_read(file, room, sizeof room, &length) && length == DQ_CAPABILITY;
    if (taken)
        memcpy(me.capability, room, DQ_CAPABILITY);
    OPENSSL_cleanse(room, sizeof room);
    puts(taken ? "taken" : "there is no capability in that file");
}

static void narrow(const char *word) {
    uint8_t room[DQ_CAPABILITY];
    uint64_t kept;
    size_t blocks;
    if (!hexadecimal(word, &kept))
        puts("narrow WORD: a hexadecimal word");
    else if (tell_number("narrow", dq_narrow(me.capability, sizeof me.capability, kept, room, sizeof room, &blocks)))
        memcpy(me.capability, room, sizeof room);
    OPENSSL_cleanse(room, sizeof room);
}

static void keep(const char *file) {
    puts(file_write(file, me.capability, sizeof me.capability) ? "kept" : "that file can't be written");
}

/* ---- to try the box */

static struct channel *named(const char *name) {
    struct channel *c = strcmp(name, "control") == 0 ? &me.control : strcmp(name, "command") == 0 ? &me.command : NULL;
    return c != NULL && channel_open(c, FRAME_MOST) ? c : NULL;
}

/* A head that says `said`, and `length` random bytes. */
static void send_random(const char *name, size_t said, size_t length) {
    static uint8_t bytes[FRAME_HEAD + FRAME_MOST];
    struct channel *c = named(name);
    if (c == NULL || !fresh_bytes(bytes + FRAME_HEAD, length)) {
        puts("there is no such channel");
        return;
    }
    bytes[0] = (uint8_t)(said & 0xff);
    bytes[1] = (uint8_t)(said >> 8);
    ssize_t done = send(c->socket, bytes, FRAME_HEAD + length, MSG_NOSIGNAL);
    printf("%zd random bytes on the %s channel\n", done, c->name);
}

static void garbage(const char *name, const char *word) {
    unsigned long length;
    if (decimal(word, UINT16_MAX, &length))
        send_random(name, length, length < FRAME_MOST ? length : FRAME_MOST);
    else
        puts("garbage CHANNEL LENGTH: a length up to 65535");
}

/* A small buffer for replies fills soon, and then the box's for what it sends. */
static void flood(const char *interface_id, const char *command) {
    static char text[DQ_PAYLOAD_MOST + 1];
    int small = 1;
    memset(text, 'f', DQ_PAYLOAD_MOST);
    bool going = send_command(interface_id, command, text);
    if (going && setsockopt(me.command.socket, SOL_SOCKET, SO_RCVBUF, &small, sizeof small) != 0)
        puts("the buffer stays large");
    while (going)
        going = send_command(interface_id, command, text);
}

/* ---- the loop */

static void told(bool done, const char *what) {
    if (done)
        printf("%s %u\n", what, me.sent);
}

static void start(bool half) {
    disconnect();
    me.half = half;
    if (channel_open(&me.control, RSA_BYTES) && ask())
        return;
    puts("there is no box");
    disconnect();
}

static bool obey(char *line) {
    char *w[4];
    split(line, w, 4);
    if (strcmp(w[0], "quit") == 0)
        return false;
    if (strcmp(w[0], "connect") == 0 || strcmp(w[0], "half") == 0)
        start(w[0][0] == 'h');
    else if (strcmp(w[0], "take") == 0)
        take(w[1]);
    else if (strcmp(w[0], "narrow") == 0)
        narrow(w[1]);
    else if (strcmp(w[0], "keep") == 0)
        keep(w[1]);
    else if (strcmp(w[0], "send") == 0)
        told(send_command(w[1], w[2], w[3]), "sent");
    else if (strcmp(w[0], "repeat") == 0)
        told(repeat(), "sent again");
    else if (strcmp(w[0], "garbage") == 0)
        garbage(w[1], w[2]);
    else if (strcmp(w[0], "stall") == 0)
        send_random(w[1], RSA_BYTES, RSA_BYTES / 2);
    else if (strcmp(w[0], "flood") == 0)
        flood(w[1], w[2]);
    else if (strcmp(w[0], "close") == 0) {
        disconnect();
        puts("closed");
    } else
        puts("machine.c lists the words");
    return true;
}

/* Reads from a channel that has something to read. */
static void hear(struct channel *c) {
    enum frame_news news = frame_read(c->socket, &c->in);
    if (news == FRAME_PART)
        return;
    if (news == FRAME_END)
        printf("the box has closed the %s channel\n", c->name);
    if (news == FRAME_BAD)
        printf("a frame of a length that no message has, on the %s channel\n", c->name);
    if (news != FRAME_WHOLE || !(c == &me.control ? hear_control() : hear_reply()))
        disconnect();
}

static bool turn(void) {
    struct pollfd polls[3] = {
        {.fd = STDIN_FILENO, .events = POLLIN},
        {.fd = me.control.socket, .events = POLLIN},
        {.fd = me.command.socket, .events = POLLIN},
    };
    if (poll(polls, 3, -1) < 0)
        return false;
    if (polls[2].revents != 0)
        hear(&me.command);
    if (polls[1].revents != 0 && me.control.socket >= 0)
        hear(&me.control);
    return polls[0].revents == 0 || lines_read(STDIN_FILENO, &me.lines, obey);
}

static bool set_up(char **words) {
    unsigned long group, control, command;
    me.name = words[1];
    me.own = rsa_private(words[3]);
    me.box = rsa_public(words[4]);
    if (strlen(me.name) > DQ_REQUEST_MOST - 20)
        return fail("a name has up to 256 letters");
    if (me.own == NULL || me.box == NULL)
        return fail("a key is missing");
    if (!decimal(words[2], UINT16_MAX, &group) || !decimal(words[5], UINT16_MAX, &control) || !decimal(words[6], UINT16_MAX, &command))
        return fail("a group and a port are numbers up to 65535");
    me.group = (uint16_t)group;
    me.control.name = "control";
    me.command.name = "command";
    me.control.port = (uint16_t)control;
    me.command.port = (uint16_t)command;
    return true;
}

int main(int count, char **words) {
    static char said[4096];
    setvbuf(stdout, said, _IOLBF, sizeof said);
    if (count != 7) {
        fputs("usage: machine NAME GROUP KEY BOX_KEY CONTROL_PORT COMMAND_PORT\n", stderr);
        return EXIT_FAILURE;
    }
    me.control.socket = me.command.socket = -1;
    bool ready = set_up(words), going = ready;
    while (going)
        going = turn();
    disconnect();
    EVP_PKEY_free(me.own);
    EVP_PKEY_free(me.box);
    OPENSSL_cleanse(&me, sizeof me);
    return ready ? EXIT_SUCCESS : EXIT_FAILURE;
}
