//! What accepted calls hand back. Each has the count of AES blocks; bytes that a call wrote are a slice of the room that was lent to it.
//!
//! `Debug` writes of bytes how many there are, and leaves secrets out.

use core::fmt;

use crate::Capability;

/// Bytes as `Debug` shows them: how many.
pub(crate) struct Bytes(pub(crate) usize);

impl fmt::Debug for Bytes {
    fn fmt(&self, f: &mut fmt::Formatter<'_>) -> fmt::Result {
        write!(f, "{} bytes", self.0)
    }
}

/// An accepted request ([`Gateway::request`](crate::Gateway::request)).
#[derive(Clone, Copy, PartialEq, Eq)]
pub struct Requested<'r> {
    /// The host's number, counted from 1: the firmware ties it to the channel that the request came on.
    pub host: u16,
    /// Challenge 1 and challenge 2, 32 bytes, for the host. They go out encrypted: with challenge 3, challenge 2 makes the key.
    pub bytes: &'r [u8],
    /// The AES blocks counted: 0.
    pub blocks: usize,
}

impl fmt::Debug for Requested<'_> {
    fn fmt(&self, f: &mut fmt::Formatter<'_>) -> fmt::Result {
        let bytes = Bytes(self.bytes.len());
        f.debug_struct("Requested").field("host", &self.host).field("bytes", &bytes).field("blocks", &self.blocks).finish()
    }
}

/// An accepted proof or reply ([`Gateway::proof`](crate::Gateway::proof), [`Gateway::reply`](crate::Gateway::reply)).
#[derive(Clone, Copy, PartialEq, Eq)]
pub struct Written<'r> {
    /// What was written at the start of the room, for the host.
    pub bytes: &'r [u8],
    /// The AES blocks counted.
    pub blocks: usize,
}

impl fmt::Debug for Written<'_> {
    fn fmt(&self, f: &mut fmt::Formatter<'_>) -> fmt::Result {
        f.debug_struct("Written").field("bytes", &Bytes(self.bytes.len())).field("blocks", &self.blocks).finish()
    }
}

/// An accepted close or revocation ([`Gateway::close`](crate::Gateway::close), [`Gateway::revoke`](crate::Gateway::revoke)).
#[derive(Clone, Copy, Debug, PartialEq, Eq)]
pub struct Done {
    /// The AES blocks counted: 0.
    pub blocks: usize,
}

/// An accepted command ([`Gateway::command`](crate::Gateway::command)): what is to be carried out, and for whom.
#[derive(Clone, Copy, PartialEq, Eq)]
pub struct Order<'r> {
    /// The client ID: the number of the host that commands.
    pub client: u16,
    /// The sequence number, for which a reply is owed now.
    pub sequence: u16,
    /// The group that the host acts in, 0 for none.
    pub group: u16,
    /// The interface, counted from 1.
    pub interface: u16,
    /// The capability ID: the interface's entry, counted from 1.
    pub capability: u16,
    /// The command ID, counted from 0.
    pub command: u8,
    /// The capability's four words.
    pub words: [u64; 4],
    /// The capability's secret.
    pub secret: [u8; 16],
    /// The payload, at the start of the lent room.
    pub payload: &'r [u8],
    /// The AES blocks counted.
    pub blocks: usize,
}

impl fmt::Debug for Order<'_> {
    fn fmt(&self, f: &mut fmt::Formatter<'_>) -> fmt::Result {
        f.debug_struct("Order")
            .field("client", &self.client)
            .field("sequence", &self.sequence)
            .field("group", &self.group)
            .field("interface", &self.interface)
            .field("capability", &self.capability)
            .field("command", &self.command)
            .field("words", &self.words)
            .field("payload", &Bytes(self.payload.len()))
            .field("blocks", &self.blocks)
            .finish_non_exhaustive()
    }
}

/// A capability that was issued or narrowed ([`Capability::issue`], [`Capability::narrow`]).
#[derive(Clone, Debug, PartialEq, Eq)]
pub struct Made {
    /// The new capability.
    pub capability: Capability,
    /// The AES blocks counted: 1.
    pub blocks: usize,
}

/// A sealed command ([`Client::command`](crate::Client::command)).
#[derive(Clone, Copy, PartialEq, Eq)]
pub struct Sealed<'r> {
    /// The command packet, for the gateway. It is no secret.
    pub bytes: &'r [u8],
    /// Its sequence number, for which a reply is awaited now.
    pub sequence: u16,
    /// The AES blocks counted.
    pub blocks: usize,
}

impl fmt::Debug for Sealed<'_> {
    fn fmt(&self, f: &mut fmt::Formatter<'_>) -> fmt::Result {
        let bytes = Bytes(self.bytes.len());
        f.debug_struct("Sealed").field("bytes", &bytes).field("sequence", &self.sequence).field("blocks", &self.blocks).finish()
    }
}

/// An opened reply ([`Client::reply`](crate::Client::reply)).
#[derive(Clone, Copy, PartialEq, Eq)]
pub struct Opened<'r> {
    /// The payload, at the start of the lent room.
    pub payload: &'r [u8],
    /// The AES blocks counted.
    pub blocks: usize,
}

impl fmt::Debug for Opened<'_> {
    fn fmt(&self, f: &mut fmt::Formatter<'_>) -> fmt::Result {
        f.debug_struct("Opened").field("payload", &Bytes(self.payload.len())).field("blocks", &self.blocks).finish()
    }
}
