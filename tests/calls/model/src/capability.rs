//! The capability: ID (2), four words, secret (16): 50 bytes.

use crate::aes::{Block, encrypt_block};
use crate::bytes::{array_at, u16_at, u64_at};

/// The length of a capability in bytes.
pub const CAPABILITY_LENGTH: usize = 50;
/// The word that takes nothing away and stops the chain.
pub const ALL_ONES: u64 = u64::MAX;

/// A capability taken apart.
#[derive(Clone, Copy, Debug, PartialEq, Eq)]
pub struct Capability {
    pub id: u16,
    pub words: [u64; 4],
    pub secret: Block,
}

impl Capability {
    /// From its 50 bytes.
    pub fn from_bytes(bytes: &[u8; CAPABILITY_LENGTH]) -> Capability {
        Capability { id: u16_at(bytes, 0), words: words_at(bytes, 2), secret: array_at(bytes, 34) }
    }

    /// To its 50 bytes.
    pub fn to_bytes(self) -> [u8; CAPABILITY_LENGTH] {
        let mut bytes = [0; CAPABILITY_LENGTH];
        bytes[..2].copy_from_slice(&self.id.to_le_bytes());
        bytes[2..34].copy_from_slice(&words_to_bytes(&self.words));
        bytes[34..].copy_from_slice(&self.secret);
        bytes
    }
}

/// The four words that start at `at`.
pub fn words_at(bytes: &[u8], at: usize) -> [u64; 4] {
    std::array::from_fn(|i| u64_at(bytes, at + 8 * i))
}

/// Four words as 32 bytes.
pub fn words_to_bytes(words: &[u64; 4]) -> [u8; 32] {
    std::array::from_fn(|i| words[i / 8].to_le_bytes()[i % 8])
}

/// "The first secret is the encryption, under the master secret, of a block with the ID in bytes 0 and 1 and zeros after." One block.
pub fn first_secret(master_secret: &Block, id: u16) -> Block {
    let mut block = [0; 16];
    block[..2].copy_from_slice(&id.to_le_bytes());
    encrypt_block(master_secret, &block)
}

/// "each secret in the chain is the key for the next, whose block is the word in bytes 0 to 7 and zeros after." One block.
pub fn next_secret(secret: &Block, word: u64) -> Block {
    let mut block = [0; 16];
    block[..8].copy_from_slice(&word.to_le_bytes());
    encrypt_block(secret, &block)
}

/// "The chain stops before the first all-ones word." The last secret, and the blocks enciphered on the way.
pub fn chain(secret: Block, words_left: &[u64]) -> (Block, u32) {
    match words_left.split_first() {
        Some((&word, rest)) if word != ALL_ONES => {
            let (last, blocks) = chain(next_secret(&secret, word), rest);
            (last, 1 + blocks)
        }
        _ => (secret, 0),
    }
}

/// "Bit c, of value 2^c, stands for command c. Permitted: that bit is 1 in the entry's present word and in all four words, those after the chain's
/// stop included."
pub fn permitted(entry_word: u64, words: &[u64; 4], command: u8) -> bool {
    let all = words.iter().fold(entry_word, |all, word| all & word);
    all.checked_shr(u32::from(command)).unwrap_or(0) & 1 == 1
}

#[cfg(test)]
mod tests {
    use super::*;

    fn permitted_commands(entry_word: u64, words: [u64; 4]) -> Vec<u8> {
        (0..64).filter(|&command| permitted(entry_word, &words, command)).collect()
    }

    #[test]
    fn samples_p1_to_p3() {
        assert_eq!(permitted_commands(1 << 33, [ALL_ONES; 4]), [33]);
        assert_eq!(permitted_commands(15, [12, 6, ALL_ONES, ALL_ONES]), [2]);
        assert_eq!(permitted_commands(15, [12, ALL_ONES, 6, ALL_ONES]), [2]);
        assert_eq!(chain([0; 16], &[12, ALL_ONES, 6, ALL_ONES]), (next_secret(&[0; 16], 12), 1));
    }
}
