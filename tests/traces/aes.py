"""AES-128 of FIPS 197, encryption of one block, by tables.

The S-box is worked out from the standard's rule (section 5.1.1). SubBytes, ShiftRows and MixColumns together are four look-ups a
column: T[r] has, for a byte of row r, what it adds to a column. Columns are numbers of 32 bits, row 0 highest.
"""
import functools
import struct

ROUNDS = 10


def times_x(byte):
    return byte << 1 ^ (0x11b if byte & 0x80 else 0)


def times(a, b):
    """The product in GF(2^8) (section 4.2)."""
    product = 0
    while b:
        if b & 1:
            product ^= a
        a, b = times_x(a), b >> 1
    return product


def inverse(byte):
    return next((other for other in range(256) if times(byte, other) == 1), 0)


def affine(byte):
    """The affine map of section 5.1.1: bit i of the result is the sum of bits i, i+4, .. i+7 and bit i of {63}."""
    twice = byte << 8 | byte
    return (byte ^ twice >> 4 ^ twice >> 5 ^ twice >> 6 ^ twice >> 7) & 0xff ^ 0x63


SBOX = [affine(inverse(byte)) for byte in range(256)]
T = [[], [], [], []]
for s in SBOX:
    column = struct.pack(">BBBB", times(s, 2), s, s, times(s, 3))
    for row in range(4):
        T[row].append(int.from_bytes(column[-row:] + column[:-row], "big"))
T0, T1, T2, T3 = T


def sub_word(word):
    return SBOX[word >> 24] << 24 | SBOX[word >> 16 & 255] << 16 | SBOX[word >> 8 & 255] << 8 | SBOX[word & 255]


@functools.lru_cache(maxsize=4096)
def round_keys(key):
    """The 44 words of the expanded key (section 5.2)."""
    words, constant = list(struct.unpack(">4I", key)), 1
    for i in range(4, 4 * (ROUNDS + 1)):
        word = words[-1]
        if i % 4 == 0:
            word = sub_word((word << 8 | word >> 24) & 0xffffffff) ^ constant << 24
            constant = times_x(constant)
        words.append(words[-4] ^ word)
    return words


def encrypt(key, block):
    k = round_keys(key)
    a, b, c, d = struct.unpack(">4I", block)
    a, b, c, d = a ^ k[0], b ^ k[1], c ^ k[2], d ^ k[3]
    for r in range(4, 4 * ROUNDS, 4):
        a, b, c, d = (T0[a >> 24] ^ T1[b >> 16 & 255] ^ T2[c >> 8 & 255] ^ T3[d & 255] ^ k[r],
                      T0[b >> 24] ^ T1[c >> 16 & 255] ^ T2[d >> 8 & 255] ^ T3[a & 255] ^ k[r + 1],
                      T0[c >> 24] ^ T1[d >> 16 & 255] ^ T2[a >> 8 & 255] ^ T3[b & 255] ^ k[r + 2],
                      T0[d >> 24] ^ T1[a >> 16 & 255] ^ T2[b >> 8 & 255] ^ T3[c & 255] ^ k[r + 3])
    last = []
    for i, (p, q, s, t) in enumerate(((a, b, c, d), (b, c, d, a), (c, d, a, b), (d, a, b, c))):
        word = SBOX[p >> 24] << 24 | SBOX[q >> 16 & 255] << 16 | SBOX[s >> 8 & 255] << 8 | SBOX[t & 255]
        last.append(word ^ k[4 * ROUNDS + i])
    return struct.pack(">4I", *last)
