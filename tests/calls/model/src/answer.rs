//! What every call hands back.
//!
//! "Every answer carries a number (0 for accepted) and a count of AES blocks."

use crate::refusal::{ACCEPTED, ROOM_TOO_SHORT};

/// The answer to a call; `F` holds the further fields of that call.
#[derive(Clone, Copy, Debug, PartialEq, Eq)]
pub struct Answer<F = ()> {
    /// 0 for accepted, else the number of the refusal.
    pub number: u8,
    /// The AES blocks counted.
    pub blocks: u32,
    /// The further fields; on a refusal all 0.
    pub fields: F,
    /// How many bytes were written at the start of the lent room.
    pub written: usize,
}

/// A refusal on its way to becoming an answer.
#[derive(Clone, Copy, Debug, PartialEq, Eq)]
pub(crate) struct Refused {
    pub number: u8,
    pub blocks: u32,
}

impl Refused {
    /// "a refusal gives 0 for these" fields, and writes nothing.
    pub fn answer<F: Default>(self) -> Answer<F> {
        Answer { number: self.number, blocks: self.blocks, fields: F::default(), written: 0 }
    }
}

/// Refuse by `number`, no block counted, unless the rule holds.
pub(crate) fn require(holds: bool, number: u8) -> Result<(), Refused> {
    require_after(0, holds, number)
}

/// Refuse by `number`, with `blocks` counted so far, unless the rule holds.
pub(crate) fn require_after(blocks: u32, holds: bool, number: u8) -> Result<(), Refused> {
    if holds { Ok(()) } else { Err(Refused { number, blocks }) }
}

/// 7: "lent room too short for what acceptance writes".
pub(crate) fn require_room(room: &[u8], needed: usize) -> Result<(), Refused> {
    require(room.len() >= needed, ROOM_TOO_SHORT)
}

/// "An accepted call writes its bytes at the start of the lent room and nothing beyond".
pub(crate) fn accept<F>(blocks: u32, fields: F, bytes: &[u8], room: &mut [u8]) -> Answer<F> {
    for (place, byte) in room.iter_mut().zip(bytes) {
        *place = *byte;
    }
    Answer { number: ACCEPTED, blocks, fields, written: bytes.len() }
}
