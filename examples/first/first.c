/*
 * first: the least that links. It loads a book of one host, named "a", lets that host ask for a connection, and sees a command refused that comes before
 * the connection is open.
 */
#include <stdio.h>

#include "deebqoshaan.h"

static dq_state state; /* 13 KB that the main loop owns: not on the stack */

int main(void) {
    static const uint8_t book[] = {1, 0, 1, 0, 23, 0, 0, 0, 1, 0, 1, 0, 20, 0, 0, 0, 3, 0, 0, 0, 0, 0, 'a'};
    static const uint8_t request[] = {1, 0, 1, 0, 1, 2, 3, 4, 5, 6, 7, 8, 9, 10, 11, 12, 13, 14, 15, 16, 'a'};
    static const uint8_t fresh[16] = {0}; /* a box draws these at random, new for each request */
    static const uint8_t packet[96] = {1};
    uint8_t room[DQ_REQUESTED];
    uint16_t host;
    dq_order order;
    size_t offset, blocks;

    unsigned number = dq_load(&state, book, sizeof book, &offset, &blocks);
    printf("load: %u, fault at %zu\n", number, offset);
    number = dq_request(&state, request, sizeof request, fresh, sizeof fresh, room, sizeof room, &host, &blocks);
    printf("request: %u, host %u\n", number, (unsigned)host);
    number = dq_command(&state, packet, sizeof packet, room, sizeof room, &order, &blocks);
    printf("command: %u, which is %s\n", number, number == DQ_NOT_OPEN ? "host not open" : "not what was expected");
    return number != DQ_NOT_OPEN;
}
