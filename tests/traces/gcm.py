"""GCM of NIST SP 800-38D for vectors of 96 bits and tags of 128, over a cipher that is a function on blocks.

A block is a number of 128 bits whose highest bit is the standard's first, the coefficient of 1. Multiplying by the subkey goes
byte by byte from the last, with a table of the 256 products of a byte and the subkey.
"""
import functools

BLOCK = 16
R = 0xe1 << 120


def times_x(v):
    return v >> 1 ^ (R if v & 1 else 0)


def times_byte(v):
    """v times x^8."""
    for _ in range(8):
        v = times_x(v)
    return v


CARRY = [times_byte(byte) for byte in range(256)]       # what the eight bits that leave a block at its end come back as


@functools.lru_cache(maxsize=256)
def products(subkey):
    """For each byte, as the coefficients of x^0 (its highest bit) to x^7, its product with the subkey."""
    table, bit, v = [0] * 256, 0x80, subkey
    while bit:
        table[bit] = v
        bit, v = bit >> 1, times_x(v)
    for byte in range(256):
        low = byte & -byte
        table[byte] = table[low] ^ table[byte ^ low] if byte != low else table[byte]
    return table


def ghash(subkey, data):
    """GHASH (section 6.4) of whole blocks."""
    table, y = products(subkey), 0
    for at in range(0, len(data), BLOCK):
        y ^= int.from_bytes(data[at:at + BLOCK], "big")
        z = 0
        for byte in reversed(y.to_bytes(BLOCK, "big")):
            z = z >> 8 ^ CARRY[z & 255] ^ table[byte]
        y = z
    return y


def padded(data):
    return data + bytes(-len(data) % BLOCK)


def counter_block(vector, count):
    return vector + count.to_bytes(4, "big")


def gctr(cipher, vector, data):
    """GCTR (section 6.5) from the counter 2 on, which follows the one of the tag."""
    out = bytearray()
    for index, at in enumerate(range(0, len(data), BLOCK)):
        piece = data[at:at + BLOCK]
        stream = cipher(counter_block(vector, index + 2))[:len(piece)]
        out += (int.from_bytes(piece, "big") ^ int.from_bytes(stream, "big")).to_bytes(len(piece), "big")
    return bytes(out)


def tag(cipher, vector, additional, text):
    """The tag over enciphered text. Two blocks are enciphered: the subkey's and the tag's own."""
    subkey = int.from_bytes(cipher(bytes(BLOCK)), "big")
    lengths = (8 * len(additional)).to_bytes(8, "big") + (8 * len(text)).to_bytes(8, "big")
    sum_ = ghash(subkey, padded(additional) + padded(text) + lengths)
    return (sum_ ^ int.from_bytes(cipher(counter_block(vector, 1)), "big")).to_bytes(BLOCK, "big")


def seal(cipher, vector, additional, plain):
    """Enciphered text and tag (algorithm 4)."""
    text = gctr(cipher, vector, plain)
    return text, tag(cipher, vector, additional, text)


def opened(cipher, vector, additional, text, given):
    """The plain text, or None if the tag is wrong; then nothing is deciphered (algorithm 5)."""
    if tag(cipher, vector, additional, text) != given:
        return None
    return gctr(cipher, vector, text)
