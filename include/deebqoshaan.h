/*
 * deebqoshaan.h: the line gateway's calls, for firmware. Link libdeebqoshaan.a; `gateway archive` writes both.
 *
 * The main loop owns one dq_state and lends it to every call of the server. Nothing is kept anywhere else: no heap, no globals, no threads.
 * Calls on one state must not run at the same time.
 *
 * Every call takes all bytes: a damaged packet or book, a state that nobody loaded. It hands back its number, 0 (DQ_ACCEPTED) or that of a
 * refusal, and *blocks, how many AES blocks document 01, the gateway's specification, counts for it. A refusal changes no field of the state and no byte of the
 * room; it sets *blocks, and 0 in what else the call hands out. Two calls are otherwise: dq_load, whose state is the place of a new one, and
 * dq_connection_key, which refuses nothing and counts nothing.
 *
 * Byte strings are a pointer and then their length. No pointer may be null, not even beside a length of 0. What a call writes (the state, the room,
 * *blocks and the other answers) may overlap nothing else that is lent to it. A room is where an accepted call writes, from its first byte on;
 * what lies beyond the bytes written stays. Bytes between the fields of a struct have no meaning and may change.
 *
 * A call's refusals stand with it in their order: its number is that of the first whose condition holds. The conditions stand with the numbers, below.
 * All numbers in messages are little-endian.
 *
 * Stack on x86-64: less than 10 KB for a command, 32 KB for a load, less than 9 KB for all others (docs/BENCHMARKS.md). What is wiped is wiped in the state;
 * copies that a call made on the stack are not.
 */
#ifndef DEEBQOSHAAN_H
#define DEEBQOSHAAN_H

#include <stddef.h>
#include <stdint.h>

#ifdef __cplusplus
extern "C" {
#endif

/* Numbers of refusal. */
enum {
    DQ_ACCEPTED = 0,
    DQ_BELOW = 1,              /* packet too short */
    DQ_ABOVE = 2,              /* packet too long */
    DQ_ZEROS = 3,              /* bytes 2 and 3 not zero */
    DQ_NO_HOST = 4,            /* client ID or host number 0 or above the host count */
    DQ_VECTOR = 5,             /* byte 0 of the vector is 128 or more; of a reply: not the vector of the expected number */
    DQ_NOT_OPEN = 6,           /* host not open */
    DQ_ROOM_SHORT = 7,         /* lent room too short for what acceptance writes */
    DQ_TAG_WRONG = 8,          /* tag wrong */
    DQ_CLIENT_DIFFERS = 9,     /* inner client ID differs from the open part's */
    DQ_INNER_ZEROS = 10,       /* inner zeros not zero */
    DQ_LENGTH_FIELD = 11,      /* payload length field isn't what the packet carries */
    DQ_NOT_FRESH = 12,         /* number not fresh; of a reply: not the expected one; sealing: 0 */
    DQ_GROUP = 13,             /* group not 0 and not the host's */
    DQ_NO_INTERFACE = 14,      /* no such interface */
    DQ_NO_ENTRY = 15,          /* no such entry; issuing: ID 0 */
    DQ_ENTRY_GROUP = 16,       /* entry's group not 0 and not the packet's */
    DQ_NO_COMMAND = 17,        /* command ID not below the command count */
    DQ_NOT_PERMITTED = 18,     /* not permitted by the entry's present word and all four words */
    DQ_SECRET_WRONG = 19,      /* secret wrong */
    DQ_REQUEST_LENGTH = 20,    /* request below 21 or above 276 bytes */
    DQ_VERSION = 21,           /* version not 1.0 */
    DQ_NAME_LENGTH = 22,       /* name length isn't the length less 20 */
    DQ_NO_NAME = 23,           /* no such host name */
    DQ_PROOF_LENGTH = 25,      /* proof not 32 bytes */
    DQ_NOT_WAITING = 26,       /* host not waiting */
    DQ_CHALLENGE_DIFFERS = 27, /* challenge 2 differs */
    DQ_LENGTH_WRONG = 28,      /* a lent secret, key, vector, capability or fresh bytes of wrong length */
    DQ_NOT_OWED = 29,          /* no reply owed for that number */
    DQ_PAYLOAD_ABOVE = 30,     /* payload above 16,384 bytes */
    DQ_NO_PLACE_LEFT = 31,     /* no all-ones word left */
    DQ_ALL_ONES = 32,          /* narrowing by an all-ones word */
    DQ_UNSOUND = 39,           /* state not sound */
    DQ_SIZE = 40,              /* book below 8 or above 12,232 bytes, or its total isn't its length */
    DQ_FORMAT = 41,            /* format not 1 */
    DQ_ROWS = 42,              /* rows 0, above 40, or past the end */
    DQ_KIND_OR_ID = 43,        /* a row's kind, its order or its limit, or its id */
    DQ_START_OR_LENGTH = 44,   /* a row's start, or its length */
    DQ_COUNTS = 45,            /* an interface's command count or entry count, or entries that leave no name or one above 256 */
    DQ_PERMITTED = 46,         /* a permitted bit at or above the command count */
    DQ_LETTER = 47,            /* a bad letter in a name */
    DQ_NAME_USED = 48          /* a name used before in its kind */
};

/* Lengths that document 01 sets, for the buffers that firmware keeps. */
#define DQ_BOOK_MOST 12232    /* a book's bytes */
#define DQ_PAYLOAD_MOST 16384 /* a payload's bytes */
#define DQ_PACKET_MOST 16480  /* a command packet's: 96 and the payload */
#define DQ_REPLY_MOST 16416   /* a reply's: 32 and the payload */
#define DQ_REQUEST_MOST 276   /* a request's: 20 and the name */
#define DQ_REQUESTED 32       /* what an accepted request writes */
#define DQ_PROOF 32           /* a proof's bytes */
#define DQ_PROVED 20          /* what an accepted proof writes */
#define DQ_CAPABILITY 50      /* a capability's bytes */
#define DQ_SECRET 16          /* those of a master secret, a key, a challenge and fresh bytes */
#define DQ_VECTOR_BYTES 12    /* a command's initial vector */

/*
 * The messages, byte by byte (how long a field is stands in parentheses).
 *
 *   book        head: format 1 (2), rows n (2), total length (4); n rows: kind (2; 1 host, 2 interface), id (2), start (4), length (4); the bodies.
 *               Hosts first, 1 to 32, then interfaces, 0 to 8; ids from 1 within a kind; no gaps.
 *     host      group (2; 0 is none), name
 *     interface master secret (16), command count (2; 1 to 64), entry count e (2; 1 to 16), e times group (2; 0 is anyone) and permitted word (8), name
 *     name      1 to 256 bytes of letters, digits, - _ + . / and, inside only, space
 *   request     1 (1), 0 (1), name length (2), challenge 1 (16), name               answered: challenge 1 (16), challenge 2 (16)
 *   proof       challenge 2 (16), challenge 3 (16)                                  answered: client ID (2), zeros (2), challenge 3 (16)
 *   command     client ID (2), zeros (2), vector (12), tag (16); encrypted: client ID, sequence number, group, interface, capability ID, payload length
 *               (2 each), command ID (1), zeros (3), four words (8 each), secret (16), payload
 *   reply       vector (12), tag (16); encrypted: sequence number (2), payload length (2), payload
 *   capability  ID (2), four words (8 each), secret (16)
 *
 * Bit c of a word, of value 2^c, stands for command c. A reply's vector is 128, 0, the sequence number (2), eight zeros; a command's has a first byte
 * below 128.
 */

/*
 * The state. Firmware has no need to look into it, and changes it by the calls alone: the fields stand here for its size and its alignment, for
 * tests and for a debugger. All numbers are the machine's own. Any bytes may be lent as a state: calls refuse one that isn't sound (39). One of zero
 * bytes is sound and has no hosts. Places in the arrays count from 0: host number 1 stands at 0, and so do interface 1 and entry 1.
 */
typedef struct {
    uint64_t words[128];   /* entry j of interface i at 16 i + j: its present permitted word */
    uint16_t hosts;        /* how many hosts, 0 to 32 */
    uint16_t interfaces;   /* how many interfaces, 0 to 8 */
    uint16_t groups[32];   /* of each host: its group, 0 for none */
    uint16_t sizes[32];    /* of each host: its name's length */
    uint16_t spans[8];     /* of each interface: its name's length */
    uint16_t commands[8];  /* of each interface: its command count */
    uint16_t entries[8];   /* of each interface: its entry count */
    uint16_t owners[128];  /* of each entry: its group, 0 for anyone */
    uint8_t secrets[128];  /* master secret of interface i at 16 i */
} dq_rights;

typedef struct {
    uint8_t tags[32];        /* 1 waiting, 2 open, 3 open with a reply owed, any other idle */
    uint16_t lasts[32];      /* the last accepted number */
    uint8_t challenges[512]; /* of host i at 16 i */
    uint8_t keys[512];       /* of host i at 16 i */
} dq_records;

typedef struct {
    dq_rights rights;
    dq_records records;
    uint8_t names[8192];  /* of host i at 256 i */
    uint8_t labels[2048]; /* of interface i at 256 i */
} dq_state;

/* The inner fields of an accepted command but its payload, which stands in the room. */
typedef struct {
    uint16_t client;
    uint16_t sequence;
    uint16_t group;
    uint16_t interface_id; /* `interface` is a macro in some C++ headers */
    uint16_t capability;
    uint16_t length; /* of the payload */
    uint8_t command;
    uint32_t zeros; /* 0 */
    uint64_t words[4];
    uint8_t secret[16];
} dq_order;

/* The state's size and alignment, for firmware that sets memory aside for it. */
#define DQ_STATE_SIZE 12952
#define DQ_STATE_ALIGNMENT 8

/* The sizes and places that the archive was compiled with. A compiler that lays these out otherwise stops here, with an array of size -1. */
typedef struct {
    char first;
    dq_state state;
} dq_aligned;
#define DQ_HOLDS(name, what) typedef char dq_holds_##name[(what) ? 1 : -1]
DQ_HOLDS(size_of_size, sizeof(size_t) == 8);
DQ_HOLDS(rights_size, sizeof(dq_rights) == 1592);
DQ_HOLDS(rights_hosts, offsetof(dq_rights, hosts) == 1024);
DQ_HOLDS(rights_secrets, offsetof(dq_rights, secrets) == 1460);
DQ_HOLDS(records_size, sizeof(dq_records) == 1120);
DQ_HOLDS(records_keys, offsetof(dq_records, keys) == 608);
DQ_HOLDS(state_size, sizeof(dq_state) == DQ_STATE_SIZE);
DQ_HOLDS(state_alignment, offsetof(dq_aligned, state) == DQ_STATE_ALIGNMENT);
DQ_HOLDS(state_records, offsetof(dq_state, records) == 1592);
DQ_HOLDS(state_names, offsetof(dq_state, names) == 2712);
DQ_HOLDS(state_labels, offsetof(dq_state, labels) == 10904);
DQ_HOLDS(order_size, sizeof(dq_order) == 72);
DQ_HOLDS(order_zeros, offsetof(dq_order, zeros) == 16);
DQ_HOLDS(order_words, offsetof(dq_order, words) == 24);
DQ_HOLDS(order_secret, offsetof(dq_order, secret) == 56);
#undef DQ_HOLDS

/* ---- The server ---- */

/*
 * Loads a book: *state becomes what the book says, all hosts idle. A refused book leaves the state with no hosts and no interfaces. *offset is the
 * place of the fault in the book, 0 if there is none. To keep the old state until a new book is accepted, load into another one.
 * Refusals, in order: DQ_SIZE (40), DQ_FORMAT (41), DQ_ROWS (42), DQ_KIND_OR_ID (43), DQ_START_OR_LENGTH (44), DQ_COUNTS (45), DQ_PERMITTED (46),
 * DQ_LETTER (47), DQ_NAME_USED (48).
 * They are of the book's first fault: 40 to 42 of its head, then 43 and 44 row by row, then 45 to 48 body by body. *blocks: 0. It takes 32 KB of
 * stack.
 */
uint8_t dq_load(dq_state *state, const uint8_t *book, size_t book_length, size_t *offset, size_t *blocks);

/*
 * A host asks for a connection. fresh: 16 bytes that nobody can foretell, new for each call. Accepted: challenge 1 and challenge 2 (32 bytes) in the room;
 * the host waits, and an earlier connection of its ends, its key wiped. *host: its number, which the firmware ties to the channel.
 * Refusals, in order: DQ_UNSOUND (39), DQ_LENGTH_WRONG (28), DQ_REQUEST_LENGTH (20), DQ_VERSION (21), DQ_NAME_LENGTH (22), DQ_NO_NAME (23),
 * DQ_ROOM_SHORT (7).
 * *blocks: 0.
 */
uint8_t dq_request(dq_state *state, const uint8_t *request, size_t request_length, const uint8_t *fresh, size_t fresh_length,
                   uint8_t *room, size_t room_length, uint16_t *host, size_t *blocks);

/*
 * Answers the proof that came on the channel of that host. Accepted: client ID, two zeros and challenge 3 (20 bytes) in the room; the connection is open, its
 * last number 0 and no reply owed, and challenge 2 is wiped.
 * Refusals, in order: DQ_UNSOUND (39), DQ_NO_HOST (4), DQ_PROOF_LENGTH (25), DQ_NOT_WAITING (26), DQ_CHALLENGE_DIFFERS (27), DQ_ROOM_SHORT (7).
 * *blocks: 1 if accepted, or else 0.
 */
uint8_t dq_proof(dq_state *state, uint16_t host, const uint8_t *proof, size_t proof_length,
                 uint8_t *room, size_t room_length, size_t *blocks);

/*
 * Judges a command packet. Accepted: its payload in the room and its fields in *order; its number is the last accepted one, and a reply is owed for it. The
 * command is to be carried out if and only if the number is 0. The room must have the packet's length less 96 bytes.
 * Refusals, in order: DQ_UNSOUND (39), DQ_BELOW (1), DQ_ABOVE (2), DQ_ZEROS (3), DQ_NO_HOST (4), DQ_VECTOR (5), DQ_NOT_OPEN (6), DQ_ROOM_SHORT (7),
 * DQ_TAG_WRONG (8), DQ_CLIENT_DIFFERS (9), DQ_INNER_ZEROS (10), DQ_LENGTH_FIELD (11), DQ_NOT_FRESH (12), DQ_GROUP (13), DQ_NO_INTERFACE (14),
 * DQ_NO_ENTRY (15), DQ_ENTRY_GROUP (16), DQ_NO_COMMAND (17), DQ_NOT_PERMITTED (18), DQ_SECRET_WRONG (19).
 * *blocks: 0 for 39 and 1 to 7; 2 for 8; 2 and the sixteenths of the encrypted part, rounded up, for 9 to 18; for 19 and 0 that, 1, and the words
 * before the first all-ones word.
 */
uint8_t dq_command(dq_state *state, const uint8_t *packet, size_t packet_length, uint8_t *room, size_t room_length,
                   dq_order *order, size_t *blocks);

/*
 * Seals the reply to the last accepted command of that host, once. Accepted: 32 bytes and the payload in the room; the reply is no longer owed.
 * Refusals, in order: DQ_UNSOUND (39), DQ_NO_HOST (4), DQ_NOT_OPEN (6), DQ_NOT_OWED (29), DQ_PAYLOAD_ABOVE (30), DQ_ROOM_SHORT (7).
 * *blocks: 2 and the sixteenths of 4 bytes and the payload, rounded up; 0 for a refusal.
 */
uint8_t dq_reply(dq_state *state, uint16_t host, uint16_t sequence, const uint8_t *payload, size_t payload_length,
                 uint8_t *room, size_t room_length, size_t *blocks);

/*
 * Closes a host's connection: its record is idle, key and challenge wiped.
 * Refusals, in order: DQ_UNSOUND (39), DQ_NO_HOST (4).
 * *blocks: 0.
 */
uint8_t dq_close(dq_state *state, uint16_t host, size_t *blocks);

/*
 * Takes rights away, at once: the permitted word of that entry of that interface (both counted from 1) becomes its AND with `word`.
 * Refusals, in order: DQ_UNSOUND (39), DQ_NO_INTERFACE (14), DQ_NO_ENTRY (15).
 * *blocks: 0.
 */
uint8_t dq_revoke(dq_state *state, uint16_t interface_id, uint16_t entry, uint64_t word, size_t *blocks);

/* ---- The client ---- */

/*
 * The key of the connection that a proof opens: the AES-128 encryption of block challenge 3 under key challenge 2, at both ends.
 */
void dq_connection_key(const uint8_t challenge2[16], const uint8_t challenge3[16], uint8_t key[16]);

/*
 * Issues a capability under an interface's master secret (16 bytes): its ID, four all-ones words and the first secret, 50 bytes in the room.
 * Refusals, in order: DQ_LENGTH_WRONG (28), DQ_NO_ENTRY (15, for ID 0), DQ_ROOM_SHORT (7).
 * *blocks: 1 if accepted, or else 0.
 */
uint8_t dq_issue(const uint8_t *master, size_t master_length, uint16_t id, uint8_t *room, size_t room_length, size_t *blocks);

/*
 * Narrows a capability (50 bytes) by a word, without the master secret: the narrowed one, 50 bytes, in the room.
 * Refusals, in order: DQ_LENGTH_WRONG (28), DQ_ALL_ONES (32), DQ_NO_PLACE_LEFT (31), DQ_ROOM_SHORT (7).
 * *blocks: 1 if accepted, or else 0.
 */
uint8_t dq_narrow(const uint8_t *capability, size_t capability_length, uint64_t word, uint8_t *room, size_t room_length, size_t *blocks);

/*
 * Seals a command under a connection's key (16 bytes), with a vector (12 bytes) that is used once under that key, and a capability (50 bytes): 96 bytes and
 * the payload in the room.
 * Refusals, in order: DQ_LENGTH_WRONG (28), DQ_VECTOR (5), DQ_NOT_FRESH (12, for number 0), DQ_PAYLOAD_ABOVE (30), DQ_ROOM_SHORT (7).
 * *blocks: 2 and the sixteenths of 64 bytes and the payload, rounded up; 0 for a refusal.
 */
uint8_t dq_seal_command(const uint8_t *key, size_t key_length, const uint8_t *vector, size_t vector_length,
                        const uint8_t *capability, size_t capability_length,
                        uint16_t client, uint16_t sequence, uint16_t group, uint16_t interface_id, uint8_t command,
                        const uint8_t *payload, size_t payload_length, uint8_t *room, size_t room_length, size_t *blocks);

/*
 * Opens the reply to the command of that number: its payload in the room, and *length how long it is. The room must have the reply's length less 32 bytes.
 * Refusals, in order: DQ_LENGTH_WRONG (28), DQ_BELOW (1), DQ_ABOVE (2), DQ_VECTOR (5), DQ_ROOM_SHORT (7), DQ_TAG_WRONG (8), DQ_LENGTH_FIELD (11),
 * DQ_NOT_FRESH (12).
 * *blocks: 0 for 28, 1, 2, 5 and 7; 2 for 8; or else 2 and the sixteenths of 4 bytes and the payload, rounded up.
 */
uint8_t dq_open_reply(const uint8_t *key, size_t key_length, uint16_t expected, const uint8_t *reply, size_t reply_length,
                      uint8_t *room, size_t room_length, size_t *length, size_t *blocks);

#ifdef __cplusplus
}
#endif

#endif
