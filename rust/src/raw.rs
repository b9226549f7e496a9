//! The calls of the archive as they stand in `deebqoshaan.h`, and the state's layout. The safe calls are made of these; tests use them to lend states
//! that nobody loaded.
//!
//! A byte string is a pointer, never null, and its length. What a call writes overlaps nothing else that is lent to it.

use core::fmt;

/// What the book says of hosts and interfaces, but their names. Entry `j` of interface `i` stands at `16 * i + j`, its master secret at `16 * i`.
#[repr(C)]
#[derive(Clone, PartialEq, Eq)]
pub struct Rights {
    pub words: [u64; 128],
    pub hosts: u16,
    pub interfaces: u16,
    pub groups: [u16; 32],
    pub sizes: [u16; 32],
    pub spans: [u16; 8],
    pub commands: [u16; 8],
    pub entries: [u16; 8],
    pub owners: [u16; 128],
    pub secrets: [u8; 128],
}

/// The records of all hosts: a tag (1 waiting, 2 open, 3 open with a reply owed, any other idle), the last accepted number, and challenge and key at
/// `16 * i`.
#[repr(C)]
#[derive(Clone, PartialEq, Eq)]
pub struct Records {
    pub tags: [u8; 32],
    pub lasts: [u16; 32],
    pub challenges: [u8; 512],
    pub keys: [u8; 512],
}

/// The whole state. The name of host `i` stands at `256 * i` of `names`, that of interface `i` at `256 * i` of `labels`.
#[repr(C)]
#[derive(Clone, PartialEq, Eq)]
pub struct State {
    pub rights: Rights,
    pub records: Records,
    pub names: [u8; 8192],
    pub labels: [u8; 2048],
}

/// The inner fields of a command, all 0 on a refusal.
#[repr(C)]
#[derive(Clone, Default, PartialEq, Eq)]
pub struct Order {
    pub client: u16,
    pub sequence: u16,
    pub group: u16,
    pub interface: u16,
    pub capability: u16,
    pub length: u16,
    pub command: u8,
    pub zeros: u32,
    pub words: [u64; 4],
    pub secret: [u8; 16],
}

/// The secret is left out: with ID and words it is the capability.
impl fmt::Debug for Order {
    fn fmt(&self, f: &mut fmt::Formatter<'_>) -> fmt::Result {
        f.debug_struct("Order")
            .field("client", &self.client)
            .field("sequence", &self.sequence)
            .field("group", &self.group)
            .field("interface", &self.interface)
            .field("capability", &self.capability)
            .field("length", &self.length)
            .field("command", &self.command)
            .field("zeros", &self.zeros)
            .field("words", &self.words)
            .finish_non_exhaustive()
    }
}

unsafe extern "C" {
    pub fn dq_load(state: *mut State, book: *const u8, book_length: usize, offset: *mut usize, blocks: *mut usize) -> u8;
    pub fn dq_request(
        state: *mut State, request: *const u8, request_length: usize, fresh: *const u8, fresh_length: usize,
        room: *mut u8, room_length: usize, host: *mut u16, blocks: *mut usize,
    ) -> u8;
    pub fn dq_proof(
        state: *mut State, host: u16, proof: *const u8, proof_length: usize, room: *mut u8, room_length: usize, blocks: *mut usize,
    ) -> u8;
    pub fn dq_command(
        state: *mut State, packet: *const u8, packet_length: usize, room: *mut u8, room_length: usize, order: *mut Order, blocks: *mut usize,
    ) -> u8;
    pub fn dq_reply(
        state: *mut State, host: u16, sequence: u16, payload: *const u8, payload_length: usize,
        room: *mut u8, room_length: usize, blocks: *mut usize,
    ) -> u8;
    pub fn dq_close(state: *mut State, host: u16, blocks: *mut usize) -> u8;
    pub fn dq_revoke(state: *mut State, interface: u16, entry: u16, word: u64, blocks: *mut usize) -> u8;
    pub fn dq_connection_key(challenge2: *const [u8; 16], challenge3: *const [u8; 16], key: *mut [u8; 16]);
    pub fn dq_issue(master: *const u8, master_length: usize, id: u16, room: *mut u8, room_length: usize, blocks: *mut usize) -> u8;
    pub fn dq_narrow(
        capability: *const u8, capability_length: usize, word: u64, room: *mut u8, room_length: usize, blocks: *mut usize,
    ) -> u8;
    pub fn dq_seal_command(
        key: *const u8, key_length: usize, vector: *const u8, vector_length: usize, capability: *const u8, capability_length: usize,
        client: u16, sequence: u16, group: u16, interface: u16, command: u8,
        payload: *const u8, payload_length: usize, room: *mut u8, room_length: usize, blocks: *mut usize,
    ) -> u8;
    pub fn dq_open_reply(
        key: *const u8, key_length: usize, expected: u16, reply: *const u8, reply_length: usize,
        room: *mut u8, room_length: usize, length: *mut usize, blocks: *mut usize,
    ) -> u8;
}
