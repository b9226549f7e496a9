/* words.h: the numbers of document 01, "Numbers of refusal", in words. */
#ifndef WORDS_H
#define WORDS_H

#include <stdint.h>

/* What that number says; never null. */
const char *in_words(uint8_t number);

#endif
