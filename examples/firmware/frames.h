/*
 * frames.h: messages on a stream socket. A frame is a length of two bytes, little-endian, and a message of that length, from 1 to the most that the
 * channel takes. A frame with another length can't be skipped safely: its channel is to be closed.
 *
 * Each channel has a frame of its own that fills as bytes come, so that a peer that stops in the middle of one holds up nobody else.
 */
#ifndef FRAMES_H
#define FRAMES_H

#include <stdbool.h>
#include <stddef.h>
#include <stdint.h>

#include "deebqoshaan.h"

enum { FRAME_HEAD = 2, FRAME_MOST = DQ_PACKET_MOST }; /* where payloads are short it can be less, down to 384 (rsa.h) */

struct frame {
    size_t most; /* the longest message taken, up to FRAME_MOST */
    size_t have; /* bytes that are here, the head's among them */
    uint8_t bytes[FRAME_HEAD + FRAME_MOST];
};

enum frame_news {
    FRAME_PART,  /* more is to come */
    FRAME_WHOLE, /* the message is here; the next read begins a new frame */
    FRAME_BAD,   /* a length of 0, or above the most */
    FRAME_END    /* the peer has closed, or the socket has failed */
};

/* Reads once from a socket that has something to read. */
enum frame_news frame_read(int socket, struct frame *frame);

/* The message of a frame that is whole, and its length. */
const uint8_t *frame_message(const struct frame *frame);
size_t frame_length(const struct frame *frame);

/* Where a message to be sent is written: FRAME_MOST bytes. */
uint8_t *frame_room(struct frame *frame);

/* Puts the head before a message of that length in the frame's room, and sends both. False if not all of it could be sent at once. */
bool frame_send(int socket, struct frame *frame, size_t length);

/* A socket that listens on loopback at *port, or where the system says if that is 0; *port is then the port that it said. -1 if there is none. */
int listen_at(uint16_t *port);

/* A socket that is connected to that port on loopback. -1 if there is none. */
int connect_to(uint16_t port);

/* Has no call on that socket wait. False if it can't be had. */
bool never_wait(int socket);

#endif
