/*
 * broken.c: faults of a box or a machine, for selftest. The linker's --wrap puts the functions below before those that box.c and machine.c call. The
 * environment variable FAULT names the fault; without it, or with `none`, every call is passed on.
 */
#include <stdlib.h>
#include <string.h>
#include <sys/socket.h>
#include <sys/stat.h>

#include "deebqoshaan.h"
#include "frames.h"

static bool fault(const char *name) {
    const char *chosen = getenv("FAULT");
    return chosen != NULL && strcmp(chosen, name) == 0;
}

/* deaf: revocations aren't passed on. unsound: somebody has written over the state. */
uint8_t __real_dq_revoke(dq_state *state, uint16_t interface_id, uint16_t entry, uint64_t word, size_t *blocks);
uint8_t __wrap_dq_revoke(dq_state *state, uint16_t interface_id, uint16_t entry, uint64_t word, size_t *blocks) {
    if (fault("unsound"))
        state->rights.hosts = UINT16_MAX;
    return __real_dq_revoke(state, interface_id, entry, fault("deaf") ? UINT64_MAX : word, blocks);
}

/* stays-open: the end of a channel isn't passed on. */
uint8_t __real_dq_close(dq_state *state, uint16_t host, size_t *blocks);
uint8_t __wrap_dq_close(dq_state *state, uint16_t host, size_t *blocks) {
    *blocks = 0;
    return fault("stays-open") ? DQ_ACCEPTED : __real_dq_close(state, host, blocks);
}

/*
 * stale: a packet that comes a second time is accepted. remembers: a command that isn't permitted is accepted, as an earlier one was. unsound: as
 * above.
 */
uint8_t __real_dq_command(dq_state *state, const uint8_t *packet, size_t packet_length, uint8_t *room, size_t room_length, dq_order *order,
                          size_t *blocks);
uint8_t __wrap_dq_command(dq_state *state, const uint8_t *packet, size_t packet_length, uint8_t *room, size_t room_length, dq_order *order,
                          size_t *blocks) {
    static dq_order earlier;
    if (fault("unsound"))
        state->rights.hosts = UINT16_MAX;
    uint8_t number = __real_dq_command(state, packet, packet_length, room, room_length, order, blocks);
    if (number == DQ_ACCEPTED)
        earlier = *order;
    if ((number != DQ_NOT_FRESH || !fault("stale")) && (number != DQ_NOT_PERMITTED || !fault("remembers")))
        return number;
    *order = earlier;
    return DQ_ACCEPTED;
}

/* damaged-reply: a bit of a reply is flipped. */
uint8_t __real_dq_reply(dq_state *state, uint16_t host, uint16_t sequence, const uint8_t *payload, size_t payload_length, uint8_t *room,
                        size_t room_length, size_t *blocks);
uint8_t __wrap_dq_reply(dq_state *state, uint16_t host, uint16_t sequence, const uint8_t *payload, size_t payload_length, uint8_t *room,
                        size_t room_length, size_t *blocks) {
    uint8_t number = __real_dq_reply(state, host, sequence, payload, payload_length, room, room_length, blocks);
    if (number == DQ_ACCEPTED && fault("damaged-reply"))
        room[31 + payload_length] ^= 1;
    return number;
}

/* wide: narrowing takes nothing away. */
uint8_t __real_dq_narrow(const uint8_t *capability, size_t capability_length, uint64_t word, uint8_t *room, size_t room_length, size_t *blocks);
uint8_t __wrap_dq_narrow(const uint8_t *capability, size_t capability_length, uint64_t word, uint8_t *room, size_t room_length, size_t *blocks) {
    uint8_t number = __real_dq_narrow(capability, capability_length, word, room, room_length, blocks);
    if (number == DQ_ACCEPTED && fault("wide"))
        memcpy(room, capability, capability_length);
    return number;
}

/* others-read: a file that was there before keeps its rights. */
int __real_fchmod(int file, mode_t rights);
int __wrap_fchmod(int file, mode_t rights) {
    return fault("others-read") ? 0 : __real_fchmod(file, rights);
}

/* Has every channel of the program end. */
static void shut_all(void) {
    for (int file = 3; file < 200; file++)
        shutdown(file, SHUT_RDWR);
}

/* Whether the frame is the one that was asked about before. */
static bool same_again(const struct frame *frame) {
    static struct frame before;
    bool same = frame->have == before.have && memcmp(frame->bytes, before.bytes, frame->have) == 0;
    before = *frame;
    return same;
}

/*
 * takes-garbage: a frame with a bad length is passed over. garbage-ends-all: it ends everybody's channels. ends: the program ends when a channel
 * does. waits: a read waits for the rest of a frame. passes-over: a frame that comes twice in a row is heard once.
 */
enum frame_news __real_frame_read(int socket, struct frame *frame);
enum frame_news __wrap_frame_read(int socket, struct frame *frame) {
    enum frame_news news = __real_frame_read(socket, frame);
    if (news == FRAME_WHOLE && fault("passes-over") && same_again(frame))
        news = FRAME_PART;
    while (news == FRAME_PART && fault("waits"))
        news = __real_frame_read(socket, frame);
    if (news == FRAME_BAD && fault("garbage-ends-all"))
        shut_all();
    if (news == FRAME_END && fault("ends"))
        exit(EXIT_SUCCESS);
    if (news != FRAME_BAD || !fault("takes-garbage"))
        return news;
    frame->have = 0;
    return FRAME_PART;
}

/* blocks: a channel's calls wait, so that a machine which doesn't read its replies holds up the box. */
bool __real_never_wait(int socket);
bool __wrap_never_wait(int socket) {
    return fault("blocks") || __real_never_wait(socket);
}
