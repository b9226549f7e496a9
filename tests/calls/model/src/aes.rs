//! AES-128 encryption, FIPS 197. Only the forward cipher is needed.

/// A block, a key or a secret: 16 bytes.
pub type Block = [u8; 16];

const ROUNDS: usize = 10;

/// The S-box, made from its one rule: field inverse, then the affine map (FIPS 197, section 5.1.1).
const S_BOX: [u8; 256] = make_s_box();

const fn make_s_box() -> [u8; 256] {
    let mut table = [0; 256];
    let mut byte = 0;
    while byte < 256 {
        table[byte] = affine(inverse(byte as u8));
        byte += 1;
    }
    table
}

/// Multiplication by x modulo x^8 + x^4 + x^3 + x + 1.
const fn times_x(a: u8) -> u8 {
    if a & 0x80 == 0 { a << 1 } else { (a << 1) ^ 0x1b }
}

/// Multiplication in the field of 256 elements.
const fn times(a: u8, b: u8) -> u8 {
    let (mut product, mut shifted, mut left) = (0, a, b);
    while left != 0 {
        if left & 1 == 1 {
            product ^= shifted;
        }
        shifted = times_x(shifted);
        left >>= 1;
    }
    product
}

/// a^254, which is the inverse of a, and 0 for 0. 254 = 2 + 4 + ... + 128.
const fn inverse(a: u8) -> u8 {
    let mut square = times(a, a);
    let mut result = square;
    let mut step = 0;
    while step < 6 {
        square = times(square, square);
        result = times(result, square);
        step += 1;
    }
    result
}

/// b'_i = b_i + b_(i+4) + b_(i+5) + b_(i+6) + b_(i+7) + c_i with c = 63 (hex).
const fn affine(b: u8) -> u8 {
    b ^ b.rotate_left(1) ^ b.rotate_left(2) ^ b.rotate_left(3) ^ b.rotate_left(4) ^ 0x63
}

/// An expanded key.
pub struct Aes {
    round_keys: [Block; ROUNDS + 1],
}

impl Aes {
    /// The key expansion (FIPS 197, section 5.2).
    pub fn new(key: &Block) -> Aes {
        let mut round_keys = [*key; ROUNDS + 1];
        let mut round_constant = 1;
        for round in 1..=ROUNDS {
            round_keys[round] = next_round_key(&round_keys[round - 1], round_constant);
            round_constant = times_x(round_constant);
        }
        Aes { round_keys }
    }

    /// The cipher (FIPS 197, section 5.1).
    pub fn encrypt(&self, block: &Block) -> Block {
        let mut state = add(block, &self.round_keys[0]);
        for round in 1..ROUNDS {
            state = mix_columns(&shift_rows(&sub_bytes(&state)));
            state = add(&state, &self.round_keys[round]);
        }
        add(&shift_rows(&sub_bytes(&state)), &self.round_keys[ROUNDS])
    }
}

/// "the AES-128 encryption of block ... under key ...": one block.
pub fn encrypt_block(key: &Block, block: &Block) -> Block {
    Aes::new(key).encrypt(block)
}

fn next_round_key(key: &Block, round_constant: u8) -> Block {
    // RotWord, SubWord and the round constant on the last word.
    let mut turned: [u8; 4] = std::array::from_fn(|row| S_BOX[key[12 + (row + 1) % 4] as usize]);
    turned[0] ^= round_constant;
    // The first word takes that in, and each later word the word before it.
    let mut next = *key;
    for i in 0..16 {
        next[i] ^= if i < 4 { turned[i] } else { next[i - 4] };
    }
    next
}

fn add(a: &Block, b: &Block) -> Block {
    std::array::from_fn(|i| a[i] ^ b[i])
}

fn sub_bytes(state: &Block) -> Block {
    state.map(|byte| S_BOX[byte as usize])
}

/// Row r turns left by r; byte i stands in row i mod 4, column i / 4.
fn shift_rows(state: &Block) -> Block {
    std::array::from_fn(|i| state[(i + 4 * (i % 4)) % 16])
}

/// Each column times 02, 03, 01, 01 turned.
fn mix_columns(state: &Block) -> Block {
    std::array::from_fn(|i| {
        let column = i - i % 4;
        let row = |r: usize| state[column + (i + r) % 4];
        times_x(row(0)) ^ times_x(row(1)) ^ row(1) ^ row(2) ^ row(3)
    })
}

#[cfg(test)]
mod tests {
    use super::*;

    fn block(number: u128) -> Block {
        number.to_be_bytes()
    }

    #[test]
    fn fips_197_appendix_b() {
        let key = block(0x2b7e151628aed2a6abf7158809cf4f3c);
        let plain = block(0x3243f6a8885a308d313198a2e0370734);
        assert_eq!(encrypt_block(&key, &plain), block(0x3925841d02dc09fbdc118597196a0b32));
    }

    #[test]
    fn fips_197_appendix_c_1() {
        let key = block(0x000102030405060708090a0b0c0d0e0f);
        let plain = block(0x00112233445566778899aabbccddeeff);
        assert_eq!(encrypt_block(&key, &plain), block(0x69c4e0d86a7b0430d8cdb78070b4c55a));
    }

    #[test]
    fn s_box_corners() {
        assert_eq!((S_BOX[0], S_BOX[1], S_BOX[0x53], S_BOX[255]), (0x63, 0x7c, 0xed, 0x16));
    }

    #[test]
    fn inverse_is_the_inverse() {
        assert!((1..=255).all(|a| times(a, inverse(a)) == 1));
        assert_eq!(inverse(0), 0);
    }
}
