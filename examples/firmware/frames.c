#include "frames.h"

#include <arpa/inet.h>
#include <errno.h>
#include <fcntl.h>
#include <netinet/in.h>
#include <string.h>
#include <sys/socket.h>
#include <unistd.h>

/* ---- frames */

const uint8_t *frame_message(const struct frame *frame) {
    return frame->bytes + FRAME_HEAD;
}

size_t frame_length(const struct frame *frame) {
    return (size_t)frame->bytes[0] | (size_t)frame->bytes[1] << 8;
}

uint8_t *frame_room(struct frame *frame) {
    return frame->bytes + FRAME_HEAD;
}

/* How many bytes the frame has once it is whole, as far as is known: its length is known from the head on. */
static size_t wanted(const struct frame *frame) {
    return frame->have < FRAME_HEAD ? FRAME_HEAD : FRAME_HEAD + frame_length(frame);
}

/*
 * It asks for no byte beyond the frame's end: nothing has to be moved to where the next frame begins, and a peer with many frames waiting gets a
 * turn for one of them, like everybody else.
 */
enum frame_news frame_read(int socket, struct frame *frame) {
    if (frame->have == wanted(frame))
        frame->have = 0;
    ssize_t got = recv(socket, frame->bytes + frame->have, wanted(frame) - frame->have, 0);
    if (got < 0)
        return errno == EAGAIN || errno == EWOULDBLOCK || errno == EINTR ? FRAME_PART : FRAME_END;
    if (got == 0)
        return FRAME_END;
    frame->have += (size_t)got;
    if (frame->have < FRAME_HEAD)
        return FRAME_PART;
    if (frame_length(frame) == 0 || frame_length(frame) > frame->most)
        return FRAME_BAD;
    return frame->have == wanted(frame) ? FRAME_WHOLE : FRAME_PART;
}

bool frame_send(int socket, struct frame *frame, size_t length) {
    frame->bytes[0] = (uint8_t)(length & 0xff);
    frame->bytes[1] = (uint8_t)(length >> 8);
    ssize_t sent = send(socket, frame->bytes, FRAME_HEAD + length, MSG_NOSIGNAL);
    return sent >= 0 && (size_t)sent == FRAME_HEAD + length;
}

/* ---- sockets */

static struct sockaddr_in loopback(uint16_t port) {
    struct sockaddr_in address;
    memset(&address, 0, sizeof address);
    address.sin_family = AF_INET;
    address.sin_port = htons(port);
    address.sin_addr.s_addr = htonl(INADDR_LOOPBACK);
    return address;
}

bool never_wait(int socket) {
    int flags = fcntl(socket, F_GETFL);
    return flags >= 0 && fcntl(socket, F_SETFL, flags | O_NONBLOCK) == 0;
}

/* Has the socket listen at *port and finds out which port that is. */
static bool listening(int made, uint16_t *port) {
    struct sockaddr_in address = loopback(*port);
    socklen_t size = sizeof address;
    int on = 1;
    if (setsockopt(made, SOL_SOCKET, SO_REUSEADDR, &on, sizeof on) != 0 || bind(made, (struct sockaddr *)&address, size) != 0)
        return false;
    if (listen(made, SOMAXCONN) != 0 || getsockname(made, (struct sockaddr *)&address, &size) != 0)
        return false;
    *port = ntohs(address.sin_port);
    return never_wait(made);
}

int listen_at(uint16_t *port) {
    int made = socket(AF_INET, SOCK_STREAM, 0);
    if (made < 0 || listening(made, port))
        return made;
    close(made);
    return -1;
}

int connect_to(uint16_t port) {
    struct sockaddr_in address = loopback(port);
    int made = socket(AF_INET, SOCK_STREAM, 0);
    if (made < 0 || connect(made, (struct sockaddr *)&address, sizeof address) == 0)
        return made;
    close(made);
    return -1;
}
