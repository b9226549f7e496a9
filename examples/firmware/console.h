/* console.h: what is typed at the box. */
#ifndef CONSOLE_H
#define CONSOLE_H

#include <stdbool.h>

#include "deebqoshaan.h"

/* Does what a line says. *number: what the library has answered to that, or DQ_ACCEPTED if it wasn't asked. False if the box shall end. */
bool console(dq_state *state, char *line, uint8_t *number);

#endif
