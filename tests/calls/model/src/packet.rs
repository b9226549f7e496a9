//! The lengths and places shared by the packets of both sides.

use crate::gcm::Vector;

/// The longest payload.
pub const LONGEST_PAYLOAD: usize = 16_384;

/// The open part of a command: client ID (2), zeros (2), vector (12), tag (16).
pub const OPEN_PART: usize = 32;
/// The encrypted part of a command without its payload.
pub const INNER_HEAD: usize = 64;
/// A command packet without its payload.
pub const COMMAND_HEAD: usize = OPEN_PART + INNER_HEAD;
/// "Additional authenticated data: the first four bytes."
pub const ADDITIONAL: usize = 4;
/// "Byte 0 of the vector is below 128" in a command.
pub const FIRST_REPLY_BYTE: u8 = 128;

/// The open bytes of a reply: vector (12), tag (16).
pub const REPLY_OPEN_PART: usize = 28;
/// A reply packet without its payload: also sequence number (2), payload length (2).
pub const REPLY_HEAD: usize = 32;

/// "Its vector is 128, 0, the sequence number (2), eight zeros."
pub fn reply_vector(sequence: u16) -> Vector {
    let [low, high] = sequence.to_le_bytes();
    [FIRST_REPLY_BYTE, 0, low, high, 0, 0, 0, 0, 0, 0, 0, 0]
}
