//! AES-128 in Galois/Counter Mode, NIST SP 800-38D, with 96-bit vectors and 128-bit tags. Each result carries the number of blocks it enciphered.

use crate::aes::{Aes, Block};

/// An initial vector: 96 bits.
pub type Vector = [u8; 12];
/// A tag: 128 bits.
pub type Tag = [u8; 16];

/// The outcome of authenticated encryption.
pub struct Sealed {
    pub encrypted: Vec<u8>,
    pub tag: Tag,
    pub blocks: u32,
}

/// The outcome of authenticated decryption.
pub struct Opened {
    /// The plaintext, or nothing if the tag is wrong.
    pub plain: Option<Vec<u8>>,
    pub blocks: u32,
}

/// GCM-AE (section 7.1).
pub fn seal(key: &Block, vector: &Vector, additional: &[u8], plain: &[u8]) -> Sealed {
    let mut cipher = Cipher::new(key);
    let encrypted = cipher.counter_mode(vector, plain);
    let tag = cipher.tag(vector, additional, &encrypted);
    Sealed { encrypted, tag, blocks: cipher.blocks }
}

/// GCM-AD (section 7.2). Nothing is decrypted before the tag is judged.
pub fn open(key: &Block, vector: &Vector, additional: &[u8], encrypted: &[u8], tag: &Tag) -> Opened {
    let mut cipher = Cipher::new(key);
    let right = cipher.tag(vector, additional, encrypted) == *tag;
    let plain = right.then(|| cipher.counter_mode(vector, encrypted));
    Opened { plain, blocks: cipher.blocks }
}

/// The block cipher with a count of the blocks it enciphered.
struct Cipher {
    aes: Aes,
    blocks: u32,
}

impl Cipher {
    fn new(key: &Block) -> Cipher {
        Cipher { aes: Aes::new(key), blocks: 0 }
    }

    fn encipher(&mut self, block: &Block) -> Block {
        self.blocks += 1;
        self.aes.encrypt(block)
    }

    /// GCTR (section 6.5) from inc32(J0) on.
    fn counter_mode(&mut self, vector: &Vector, input: &[u8]) -> Vec<u8> {
        let mut output = Vec::with_capacity(input.len());
        for (chunk, counter) in input.chunks(16).zip(2..) {
            let mask = self.encipher(&counter_block(vector, counter));
            output.extend(chunk.iter().zip(mask).map(|(byte, mask)| byte ^ mask));
        }
        output
    }

    /// The tag: GHASH under H, masked by the encryption of J0. Two blocks.
    fn tag(&mut self, vector: &Vector, additional: &[u8], encrypted: &[u8]) -> Tag {
        let hash_key = u128::from_be_bytes(self.encipher(&[0; 16]));
        let mask = u128::from_be_bytes(self.encipher(&counter_block(vector, 1)));
        (ghash(hash_key, additional, encrypted) ^ mask).to_be_bytes()
    }
}

/// The vector and a 32-bit counter; J0 is the vector with counter 1.
fn counter_block(vector: &Vector, counter: u32) -> Block {
    let mut block = [0; 16];
    block[..12].copy_from_slice(vector);
    block[12..].copy_from_slice(&counter.to_be_bytes());
    block
}

/// GHASH (section 6.4) of the padded strings and the big-endian length block.
fn ghash(hash_key: u128, additional: &[u8], encrypted: &[u8]) -> u128 {
    let hash = absorb(hash_key, 0, additional);
    let hash = absorb(hash_key, hash, encrypted);
    let lengths = (bit_length(additional) << 64) | bit_length(encrypted);
    multiply(hash ^ lengths, hash_key)
}

fn bit_length(bytes: &[u8]) -> u128 {
    8 * bytes.len() as u128
}

/// Take in a string, its last block padded with zeros.
fn absorb(hash_key: u128, start: u128, bytes: &[u8]) -> u128 {
    bytes.chunks(16).fold(start, |hash, chunk| {
        let mut block = [0; 16];
        block[..chunk.len()].copy_from_slice(chunk);
        multiply(hash ^ u128::from_be_bytes(block), hash_key)
    })
}

/// The product of blocks (section 6.3); bit 0 is the leftmost bit.
fn multiply(x: u128, y: u128) -> u128 {
    const R: u128 = 0xe1 << 120;
    let (mut z, mut v) = (0, y);
    for bit in 0..128 {
        if (x >> (127 - bit)) & 1 == 1 {
            z ^= v;
        }
        v = if v & 1 == 1 { (v >> 1) ^ R } else { v >> 1 };
    }
    z
}

#[cfg(test)]
mod tests {
    use super::*;

    fn hex<const N: usize>(text: &str) -> [u8; N] {
        assert_eq!(text.len(), 2 * N);
        std::array::from_fn(|i| u8::from_str_radix(&text[2 * i..2 * i + 2], 16).unwrap())
    }

    /// McGrew and Viega, "The Galois/Counter Mode of Operation", test cases 1 and 2.
    #[test]
    fn test_cases_1_and_2() {
        let empty = seal(&[0; 16], &[0; 12], &[], &[]);
        assert_eq!(empty.tag, hex("58e2fccefa7e3061367f1d57a4e7455a"));
        assert_eq!(empty.blocks, 2);
        let one = seal(&[0; 16], &[0; 12], &[], &[0; 16]);
        assert_eq!(one.encrypted, hex::<16>("0388dace60b6a392f328c2b971b2fe78"));
        assert_eq!(one.tag, hex("ab6e47d42cec13bdf53a67b21257bddf"));
    }

    /// The same, test case 4: additional data and a broken last block.
    #[test]
    fn test_case_4() {
        let key = hex("feffe9928665731c6d6a8f9467308308");
        let vector = hex("cafebabefacedbaddecaf888");
        let additional: [u8; 20] = hex("feedfacedeadbeeffeedfacedeadbeefabaddad2");
        let plain: [u8; 60] = hex(concat!(
            "d9313225f88406e5a55909c5aff5269a86a7a9531534f7da2e4c303d8a318a72",
            "1c3c0c95956809532fcf0e2449a6b525b16aedf5aa0de657ba637b39"
        ));
        let encrypted: [u8; 60] = hex(concat!(
            "42831ec2217774244b7221b784d0d49ce3aa212f2c02a4e035c17e2329aca12e",
            "21d514b25466931c7d8f6a5aac84aa051ba30b396a0aac973d58e091"
        ));
        let mut tag: Tag = hex("5bc94fbc3221a5db94fae95ae7121a47");
        let sealed = seal(&key, &vector, &additional, &plain);
        assert_eq!(sealed.encrypted, encrypted);
        assert_eq!((sealed.tag, sealed.blocks), (tag, 6));
        let opened = open(&key, &vector, &additional, &encrypted, &tag);
        assert_eq!((opened.plain, opened.blocks), (Some(plain.to_vec()), 6));
        tag[15] ^= 1;
        let refused = open(&key, &vector, &additional, &encrypted, &tag);
        assert_eq!((refused.plain, refused.blocks), (None, 2));
    }
}
