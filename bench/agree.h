/*
 * agree.h: whether the plain C peer and the library give the same numbers, answers, rooms and states: for good and damaged books, packets, rooms and
 * states, every number of the two calls among them. Ends the program with status 1 if not.
 */
#ifndef AGREE_H
#define AGREE_H

#include "../include/deebqoshaan.h"

void agree_on_books(void);

/* open: a state of the scene, all hosts open. */
void agree_on_commands(const dq_state *open);

#endif
