/*
 * alone.h: what the AES and the GHASH of an empty accepted command cost alone, by the archive of the crate `engine_c`: the same AES and GHASH, and
 * nothing of the gateway.
 */
#ifndef ALONE_H
#define ALONE_H

/*
 * The blocks, key set-ups and multiplications of a command without payload whose capability has one narrowing: a tag judged over 4 and 64 bytes
 * (1 key, 2 blocks, 6 multiplications; the tag is wrong, so nothing is deciphered), the 4 blocks that decipher the 64 bytes, and the chain (2 keys,
 * 2 blocks). 8 blocks, as P6 of document 01 counts.
 */
void alone(const void *with);

#endif
