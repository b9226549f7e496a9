//! Lengths that document 01 sets, in bytes, for the buffers that a program keeps.

/// A book, at most.
pub const BOOK_MOST: usize = 12_232;
/// A payload, at most.
pub const PAYLOAD_MOST: usize = 16_384;
/// A command packet, at most: 96 and the payload.
pub const PACKET_MOST: usize = 16_480;
/// A reply, at most: 32 and the payload.
pub const REPLY_MOST: usize = 16_416;
/// A request, at most: 20 and the name.
pub const REQUEST_MOST: usize = 276;
/// What an accepted request writes.
pub const REQUESTED: usize = 32;
/// A proof.
pub const PROOF: usize = 32;
/// What an accepted proof writes.
pub const PROVED: usize = 20;
/// A capability.
pub const CAPABILITY: usize = 50;
/// A master secret, a key, a challenge and fresh bytes.
pub const SECRET: usize = 16;
/// The initial vector of a command.
pub const VECTOR_BYTES: usize = 12;
