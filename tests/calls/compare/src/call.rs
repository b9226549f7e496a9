//! A call as it is handed to both sides, the room that is lent for it, and its answer.

use std::fmt;
use std::ops::{Deref, DerefMut};

use deebqoshaan::raw::{Order, State};

use crate::random::Random;

/// The calls of the C interface.
#[derive(Clone, Copy, Debug, PartialEq, Eq)]
pub enum Kind {
    Load,
    Request,
    Proof,
    Command,
    Reply,
    Close,
    Revoke,
    Issue,
    Narrow,
    Seal,
    Open,
    Key,
}

impl Kind {
    pub const ALL: [Kind; 12] = [
        Kind::Load,
        Kind::Request,
        Kind::Proof,
        Kind::Command,
        Kind::Reply,
        Kind::Close,
        Kind::Revoke,
        Kind::Issue,
        Kind::Narrow,
        Kind::Seal,
        Kind::Open,
        Kind::Key,
    ];

    pub fn name(self) -> &'static str {
        match self {
            Kind::Load => "load",
            Kind::Request => "request",
            Kind::Proof => "proof",
            Kind::Command => "command",
            Kind::Reply => "reply",
            Kind::Close => "close",
            Kind::Revoke => "revoke",
            Kind::Issue => "issue",
            Kind::Narrow => "narrow",
            Kind::Seal => "seal",
            Kind::Open => "open",
            Kind::Key => "key",
        }
    }

    /// Document 01, "Numbers of refusal": the refusals of a call, in their order.
    pub fn order(self) -> &'static [u8] {
        match self {
            Kind::Load => &[40, 41, 42, 43, 44, 45, 46, 47, 48],
            Kind::Request => &[39, 28, 20, 21, 22, 23, 7],
            Kind::Proof => &[39, 4, 25, 26, 27, 7],
            Kind::Command => &[39, 1, 2, 3, 4, 5, 6, 7, 8, 9, 10, 11, 12, 13, 14, 15, 16, 17, 18, 19],
            Kind::Reply => &[39, 4, 6, 29, 30, 7],
            Kind::Close => &[39, 4],
            Kind::Revoke => &[39, 14, 15],
            Kind::Issue => &[28, 15, 7],
            Kind::Narrow => &[28, 32, 31, 7],
            Kind::Seal => &[28, 5, 12, 30, 7],
            Kind::Open => &[28, 1, 2, 5, 7, 8, 11, 12],
            Kind::Key => &[],
        }
    }
}

/// Bytes that are lent to a call. In an account they are shown in hex; of more than `SHOWN` bytes, the first and the last.
#[derive(Clone, Default, PartialEq, Eq)]
pub struct Bytes(pub Vec<u8>);

const SHOWN: usize = 600;

impl Deref for Bytes {
    type Target = Vec<u8>;

    fn deref(&self) -> &Vec<u8> {
        &self.0
    }
}

impl DerefMut for Bytes {
    fn deref_mut(&mut self) -> &mut Vec<u8> {
        &mut self.0
    }
}

impl From<&[u8]> for Bytes {
    fn from(bytes: &[u8]) -> Bytes {
        Bytes(bytes.to_vec())
    }
}

impl From<Vec<u8>> for Bytes {
    fn from(bytes: Vec<u8>) -> Bytes {
        Bytes(bytes)
    }
}

impl fmt::Debug for Bytes {
    fn fmt(&self, to: &mut fmt::Formatter) -> fmt::Result {
        let length = self.len();
        if length <= SHOWN {
            return write!(to, "{length} bytes {}", hex(self));
        }
        write!(to, "{length} bytes {} .. {}", hex(&self[..SHOWN / 2]), hex(&self[length - SHOWN / 2..]))
    }
}

pub fn hex(bytes: &[u8]) -> String {
    bytes.iter().map(|byte| format!("{byte:02x}")).collect()
}

/// What is handed to a call, but the state and the room.
#[derive(Clone, Debug, PartialEq, Eq)]
pub enum Call {
    Load {
        book: Bytes,
    },
    Request {
        request: Bytes,
        fresh: Bytes,
    },
    Proof {
        host: u16,
        proof: Bytes,
    },
    Command {
        packet: Bytes,
    },
    Reply {
        host: u16,
        sequence: u16,
        payload: Bytes,
    },
    Close {
        host: u16,
    },
    Revoke {
        interface: u16,
        entry: u16,
        word: u64,
    },
    Issue {
        master: Bytes,
        id: u16,
    },
    Narrow {
        capability: Bytes,
        word: u64,
    },
    Seal(Sealing),
    Open {
        key: Bytes,
        expected: u16,
        reply: Bytes,
    },
    /// The connection's key: challenge 2 is its key, challenge 3 its block.
    Key {
        challenge_2: [u8; 16],
        challenge_3: [u8; 16],
    },
}

/// A command to be sealed.
#[derive(Clone, Debug, PartialEq, Eq)]
pub struct Sealing {
    pub key: Bytes,
    pub vector: Bytes,
    pub capability: Bytes,
    pub client: u16,
    pub sequence: u16,
    pub group: u16,
    pub interface: u16,
    pub command: u8,
    pub payload: Bytes,
}

impl Call {
    pub fn kind(&self) -> Kind {
        match self {
            Call::Load { .. } => Kind::Load,
            Call::Request { .. } => Kind::Request,
            Call::Proof { .. } => Kind::Proof,
            Call::Command { .. } => Kind::Command,
            Call::Reply { .. } => Kind::Reply,
            Call::Close { .. } => Kind::Close,
            Call::Revoke { .. } => Kind::Revoke,
            Call::Issue { .. } => Kind::Issue,
            Call::Narrow { .. } => Kind::Narrow,
            Call::Seal(_) => Kind::Seal,
            Call::Open { .. } => Kind::Open,
            Call::Key { .. } => Kind::Key,
        }
    }

    /// The length of what the call is about: a book, a packet, a payload.
    pub fn size(&self) -> usize {
        match self {
            Call::Load { book } => book.len(),
            Call::Request { request, .. } => request.len(),
            Call::Proof { proof, .. } => proof.len(),
            Call::Command { packet } => packet.len(),
            Call::Reply { payload, .. } => payload.len(),
            Call::Close { .. } | Call::Revoke { .. } | Call::Key { .. } => 0,
            Call::Issue { master, .. } => master.len(),
            Call::Narrow { capability, .. } => capability.len(),
            Call::Seal(sealing) => sealing.payload.len(),
            Call::Open { reply, .. } => reply.len(),
        }
    }
}

/// A room that is lent to a call, with guard bytes before and after it. All of it is random at first.
#[derive(Clone, PartialEq, Eq)]
pub struct Room {
    bytes: Vec<u8>,
    length: usize,
}

pub const GUARD: usize = 32;

impl Room {
    pub fn new(random: &mut Random, length: usize) -> Room {
        Room { bytes: random.bytes(GUARD + length + GUARD), length }
    }

    pub fn lent(&mut self) -> &mut [u8] {
        &mut self.bytes[GUARD..GUARD + self.length]
    }

    /// The start of the room and its length, with leave to reach the guards.
    pub fn pointer(&mut self) -> (*mut u8, usize) {
        (self.bytes.as_mut_ptr().wrapping_add(GUARD), self.length)
    }

    /// The guards too.
    pub fn whole(&mut self) -> &mut [u8] {
        &mut self.bytes
    }

    pub fn len(&self) -> usize {
        self.length
    }
}

/// What a call hands back; 0 in what this call doesn't hand out.
#[derive(Clone, Debug, Default, PartialEq, Eq)]
pub struct Answer {
    pub number: u8,
    pub blocks: usize,
    /// A load's.
    pub offset: usize,
    /// A request's.
    pub host: u16,
    /// An opened reply's.
    pub length: usize,
    /// A command's.
    pub order: Order,
}

/// Whoever performs calls: the archive, or a double with a fault in its place.
pub trait Gateway {
    fn perform(&mut self, state: &mut State, call: &mut Call, room: &mut Room) -> Answer;
}
