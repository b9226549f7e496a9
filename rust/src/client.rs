//! A machine's side of a connection: its handshake, its commands and their replies.

use core::error::Error;
use core::fmt;

use crate::answer::{Bytes, Opened, Sealed};
use crate::refusal::{Refusal, Refused, called};
use crate::secret::{Secret, same};
use crate::{Capability, length, raw};

/// What a request has before its name: version, name length, challenge 1.
const REQUEST_HEAD: usize = 20;
/// What a command packet has beside its payload.
const PACKET_HEAD: usize = length::PACKET_MOST - length::PAYLOAD_MOST;

/// A challenge or a key.
type Sixteen = [u8; length::SECRET];

/// A machine's side of a connection.
///
/// It is idle; after [`request`](Client::request) it awaits the gateway's answer, which [`proof`](Client::proof) takes; then the answer to its proof,
/// which [`open`](Client::open) takes; then it is open: it seals commands and opens their replies until [`close`](Client::close). A call out of this
/// order is refused with [`NotReady`](ClientError::NotReady). A call that fails changes nothing: after a damaged answer the client still awaits the
/// right one.
///
/// It gives each sequence number once, from 1 to 65,535, and makes the initial vector of each command from its number, so none is used twice under a
/// key. For the same reason there is no `Clone`, and the key isn't handed out.
///
/// Challenges and key are wiped as soon as the client goes on without them: by the next step of the handshake, by [`close`](Client::close), and by
/// its drop. Bytes that a move left behind aren't.
///
/// It has no source of random bytes: the caller lends challenges 1 and 3. Each must be new, and such that nobody can foretell it.
///
/// ```
/// # fn main() -> Result<(), Box<dyn std::error::Error>> {
/// # let book = std::fs::read("../examples/dairy/dairy.book")?;
/// use deebqoshaan::{Client, Gateway, length};
///
/// let mut gateway = Gateway::load(&book)?;
/// let mut panel = Client::new();
/// let (mut packet, mut room) = ([0; length::REQUEST_MOST], [0; length::REQUESTED]);
///
/// let request = panel.request("service panel", b"1st challenge 01", &mut packet)?;
/// let requested = gateway.request(request, b"2nd challenge 01", &mut room)?;
/// let host = requested.host;
/// let proof = panel.proof(requested.bytes, b"3rd challenge 01")?;
/// let proved = gateway.proof(host, &proof, &mut room)?;
/// assert_eq!(panel.open(proved.bytes)?, 4);
/// # Ok(())
/// # }
/// ```
pub struct Client {
    phase: Phase,
    // The secrets stand beside the phase, not in it: a new variant over an old one may keep some of its bytes.
    /// Challenge 1 once asked, challenge 2 once proved, the key while open; zeros while idle.
    kept: Secret<{ length::SECRET }>,
    /// Challenge 3 once proved, or else zeros.
    challenge3: Secret<{ length::SECRET }>,
}

enum Phase {
    Idle,
    Asked,
    Proved,
    /// `last` is the number sealed last, 0 before the first; a reply to it may be awaited.
    Open {
        id: u16,
        last: u16,
        awaited: bool,
    },
}

/// What a command says, beside the capability that entitles to it.
#[derive(Clone, Copy, PartialEq, Eq)]
pub struct Command<'p> {
    /// The group that the host acts in: its own, or 0 for none. An entry with a group wants that group.
    pub group: u16,
    /// The interface, counted from 1.
    pub interface: u16,
    /// The command ID, counted from 0.
    pub command: u8,
    /// The payload, at most [`length::PAYLOAD_MOST`] bytes.
    pub payload: &'p [u8],
}

impl Client {
    /// An idle client.
    ///
    /// ```
    /// assert_eq!(deebqoshaan::Client::new().id(), None);
    /// ```
    pub const fn new() -> Client {
        Client { phase: Phase::Idle, kept: Secret::zeros(), challenge3: Secret::zeros() }
    }

    /// Asks for a connection in the name of a host: the request's bytes, for the gateway.
    ///
    /// `challenge1` is new and nobody can foretell it, so that an old answer isn't taken for the new one. The room must have 20 bytes and the name's;
    /// [`length::REQUEST_MOST`] bytes do for every name.
    ///
    /// Fails, in order: not idle; a name of 0 or above 256 bytes ([`RequestLength`](Refusal::RequestLength)); [`RoomShort`](Refusal::RoomShort).
    ///
    /// ```
    /// # fn main() -> Result<(), Box<dyn std::error::Error>> {
    /// use deebqoshaan::{Client, length};
    ///
    /// let mut filler = Client::new();
    /// let mut room = [0; length::REQUEST_MOST];
    /// assert_eq!(filler.request("filler", b"1st challenge 04", &mut room)?, b"\x01\0\x06\x001st challenge 04filler");
    /// # Ok(())
    /// # }
    /// ```
    pub fn request<'r>(&mut self, name: &str, challenge1: &[u8; length::SECRET], room: &'r mut [u8]) -> Result<&'r [u8], ClientError> {
        let Phase::Idle = self.phase else { return Err(ClientError::NotReady) };
        let length = REQUEST_HEAD + name.len();
        if name.is_empty() || length > length::REQUEST_MOST {
            return Err(refused(Refusal::RequestLength));
        }
        let Some(room) = room.get_mut(..length) else { return Err(refused(Refusal::RoomShort)) };
        let [low, high] = (name.len() as u16).to_le_bytes();
        room[..4].copy_from_slice(&[1, 0, low, high]);
        room[4..REQUEST_HEAD].copy_from_slice(challenge1);
        room[REQUEST_HEAD..].copy_from_slice(name.as_bytes());
        self.kept.0 = *challenge1;
        self.phase = Phase::Asked;
        Ok(room)
    }

    /// Takes the gateway's answer to the request, in which challenge 1 must have come back: the proof's bytes, for the gateway.
    ///
    /// `challenge3` is new and nobody can foretell it: it makes the key a new one, whatever challenge 2 is.
    ///
    /// Fails, in order: no request sent; an answer that isn't [`length::REQUESTED`] bytes; another challenge 1.
    ///
    /// ```
    /// # fn main() -> Result<(), Box<dyn std::error::Error>> {
    /// # use deebqoshaan::{Client, ClientError, length};
    /// # let mut filler = Client::new();
    /// # let mut room = [0; length::REQUEST_MOST];
    /// filler.request("filler", b"1st challenge 04", &mut room)?;
    /// let old = filler.proof(b"1st challenge 032nd challenge 03", b"3rd challenge 04");
    /// assert_eq!(old, Err(ClientError::ChallengeDiffers));
    ///
    /// let proof = filler.proof(b"1st challenge 042nd challenge 04", b"3rd challenge 04")?;
    /// assert_eq!(&proof, b"2nd challenge 043rd challenge 04");
    /// # Ok(())
    /// # }
    /// ```
    pub fn proof(&mut self, answer: &[u8], challenge3: &[u8; length::SECRET]) -> Result<[u8; length::PROOF], ClientError> {
        let Phase::Asked = self.phase else { return Err(ClientError::NotReady) };
        let Some((first, second)) = parted(answer) else { return Err(ClientError::AnswerLength) };
        if !same(first, &self.kept.0) {
            return Err(ClientError::ChallengeDiffers);
        }
        let mut proof = [0; length::PROOF];
        proof[..length::SECRET].copy_from_slice(second);
        proof[length::SECRET..].copy_from_slice(challenge3);
        (self.kept.0, self.challenge3.0) = (*second, *challenge3);
        self.phase = Phase::Proved;
        Ok(proof)
    }

    /// Takes the gateway's answer to the proof, in which challenge 3 must have come back: the connection is open, and this is its client ID.
    ///
    /// Fails, in order: no proof sent; an answer that isn't [`length::PROVED`] bytes; another challenge 3; zeros that aren't zero; client ID 0.
    ///
    /// ```
    /// # fn main() -> Result<(), Box<dyn std::error::Error>> {
    /// # use deebqoshaan::{Client, length};
    /// # let mut filler = Client::new();
    /// # let mut room = [0; length::REQUEST_MOST];
    /// filler.request("filler", b"1st challenge 04", &mut room)?;
    /// filler.proof(b"1st challenge 042nd challenge 04", b"3rd challenge 04")?;
    /// assert_eq!(filler.open(b"\x01\0\0\x003rd challenge 04")?, 1);
    /// assert_eq!(filler.id(), Some(1));
    /// # Ok(())
    /// # }
    /// ```
    pub fn open(&mut self, answer: &[u8]) -> Result<u16, ClientError> {
        let Phase::Proved = self.phase else { return Err(ClientError::NotReady) };
        let Some((&[low, high, zero1, zero2], third)) = parted(answer) else { return Err(ClientError::AnswerLength) };
        if !same(third, &self.challenge3.0) {
            return Err(ClientError::ChallengeDiffers);
        }
        if (zero1, zero2) != (0, 0) {
            return Err(ClientError::Zeros);
        }
        let id = u16::from_le_bytes([low, high]);
        if id == 0 {
            return Err(ClientError::NoId);
        }
        let challenge2 = self.kept.clone();
        // SAFETY: see `raw`; each pointer comes from a reference, and what is written is borrowed by this call alone.
        unsafe { raw::dq_connection_key(&challenge2.0, &self.challenge3.0, &mut self.kept.0) };
        self.challenge3.wipe();
        self.phase = Phase::Open { id, last: 0, awaited: false };
        Ok(id)
    }

    /// Seals a command with the next number: its packet, for the gateway. Its reply is awaited then, and no earlier one.
    ///
    /// A packet that the gateway refused, or that was lost, has used its number up: seal the command anew. The room must have 96 bytes and the
    /// payload's; [`length::PACKET_MOST`] bytes do for every command.
    ///
    /// Fails, in order: not open; all 65,535 numbers used up (connect anew); [`PayloadAbove`](Refusal::PayloadAbove);
    /// [`RoomShort`](Refusal::RoomShort).
    ///
    /// ```
    /// # include!(concat!(env!("CARGO_MANIFEST_DIR"), "/tests/plant/mod.rs"));
    /// # fn main() -> Result<(), Box<dyn std::error::Error>> {
    /// use deebqoshaan::{Capability, Command, length};
    ///
    /// let (mut gateway, mut panel) = connected("service panel")?; // gateway and panel after their handshake
    /// let capability = Capability::issue(b"EXAMPLE SECRET 1", 2)?.capability;
    /// let set_volume = Command { group: 2, interface: 1, command: 8, payload: b"volume 500 ml" };
    ///
    /// let mut room = [0; length::PACKET_MOST];
    /// let sealed = panel.command(&capability, set_volume, &mut room)?;
    /// assert_eq!((sealed.sequence, sealed.bytes.len()), (1, 96 + 13));
    /// assert!(gateway.command(sealed.bytes, &mut [0; length::PAYLOAD_MOST]).is_ok());
    /// # Ok(())
    /// # }
    /// ```
    pub fn command<'r>(&mut self, capability: &Capability, command: Command<'_>, room: &'r mut [u8]) -> Result<Sealed<'r>, ClientError> {
        let Phase::Open { id, last, awaited } = &mut self.phase else { return Err(ClientError::NotReady) };
        let Some(sequence) = last.checked_add(1) else { return Err(ClientError::NumbersUsedUp) };
        let vector = vector_of(sequence);
        let (key, capability, payload) = (&self.kept.0, capability.as_bytes(), command.payload);
        // SAFETY: as above.
        let blocks = called(|blocks| unsafe {
            raw::dq_seal_command(
                key.as_ptr(), key.len(), vector.as_ptr(), vector.len(), capability.as_ptr(), capability.len(),
                *id, sequence, command.group, command.interface, command.command,
                payload.as_ptr(), payload.len(), room.as_mut_ptr(), room.len(), blocks,
            )
        })?;
        (*last, *awaited) = (sequence, true);
        Ok(Sealed { bytes: &room[..PACKET_HEAD + payload.len()], sequence, blocks })
    }

    /// Opens the reply to the command sealed last, once.
    ///
    /// The room must have the reply's length less 32 bytes; [`length::PAYLOAD_MOST`] bytes do for every reply.
    ///
    /// Fails, in order: no reply awaited; the refusals 1, 2, 5, 7, 8, 11, 12.
    ///
    /// ```
    /// # include!(concat!(env!("CARGO_MANIFEST_DIR"), "/tests/plant/mod.rs"));
    /// # fn main() -> Result<(), Box<dyn std::error::Error>> {
    /// use deebqoshaan::{Capability, ClientError, Command, length};
    ///
    /// let (mut gateway, mut panel) = connected("service panel")?; // gateway and panel after their handshake
    /// # let capability = Capability::issue(b"EXAMPLE SECRET 1", 2)?.capability;
    /// # let read = Command { group: 2, interface: 1, command: 0, payload: b"" };
    /// # let mut packet = [0; length::PACKET_MOST];
    /// let sealed = panel.command(&capability, read, &mut packet)?;
    /// let order = gateway.command(sealed.bytes, &mut [])?;
    /// let (mut reply, mut room) = ([0; length::REPLY_MOST], [0; length::PAYLOAD_MOST]);
    /// let written = gateway.reply(order.client, order.sequence, b"volume is 500 ml", &mut reply)?;
    ///
    /// assert_eq!(panel.reply(written.bytes, &mut room)?.payload, b"volume is 500 ml");
    /// assert_eq!(panel.reply(written.bytes, &mut room), Err(ClientError::NotReady));
    /// # Ok(())
    /// # }
    /// ```
    pub fn reply<'r>(&mut self, reply: &[u8], room: &'r mut [u8]) -> Result<Opened<'r>, ClientError> {
        let Phase::Open { last, awaited, .. } = &mut self.phase else { return Err(ClientError::NotReady) };
        if !*awaited {
            return Err(ClientError::NotReady);
        }
        let (key, mut length) = (&self.kept.0, 0);
        // SAFETY: as above.
        let blocks = called(|blocks| unsafe {
            raw::dq_open_reply(
                key.as_ptr(), key.len(), *last, reply.as_ptr(), reply.len(),
                room.as_mut_ptr(), room.len(), &mut length, blocks,
            )
        })?;
        *awaited = false;
        Ok(Opened { payload: &room[..length], blocks })
    }

    /// Makes the client idle, from wherever it is, its challenges and its key wiped. The gateway isn't told.
    ///
    /// ```
    /// # include!(concat!(env!("CARGO_MANIFEST_DIR"), "/tests/plant/mod.rs"));
    /// # fn main() -> Result<(), Box<dyn std::error::Error>> {
    /// # use deebqoshaan::length;
    /// let (gateway, mut panel) = connected("service panel")?; // gateway and panel after their handshake
    /// panel.close();
    /// assert_eq!(panel.id(), None);
    /// assert!(panel.request("service panel", b"1st challenge 07", &mut [0; length::REQUEST_MOST]).is_ok());
    /// # Ok(())
    /// # }
    /// ```
    pub fn close(&mut self) {
        self.kept.wipe();
        self.challenge3.wipe();
        self.phase = Phase::Idle;
    }

    /// The client ID, while the connection is open: the host's number in the gateway's book.
    ///
    /// ```
    /// # include!(concat!(env!("CARGO_MANIFEST_DIR"), "/tests/plant/mod.rs"));
    /// # fn main() -> Result<(), Box<dyn std::error::Error>> {
    /// let (gateway, panel) = connected("service panel")?; // gateway and panel after their handshake
    /// assert_eq!(panel.id(), Some(4));
    /// # Ok(())
    /// # }
    /// ```
    pub const fn id(&self) -> Option<u16> {
        match self.phase {
            Phase::Open { id, .. } => Some(id),
            _ => None,
        }
    }
}

/// The vector of a command: that of the reply to it, but for byte 0, which is below 128. A number is sealed once, so a vector is used once.
fn vector_of(sequence: u16) -> [u8; length::VECTOR_BYTES] {
    let [low, high] = sequence.to_le_bytes();
    [0, 0, low, high, 0, 0, 0, 0, 0, 0, 0, 0]
}

/// The gateway's answers end with a challenge: what stands before it, and the challenge.
fn parted<const BEFORE: usize>(answer: &[u8]) -> Option<(&[u8; BEFORE], &Sixteen)> {
    let (before, challenge) = answer.split_first_chunk()?;
    Some((before, challenge.try_into().ok()?))
}

/// What the client itself refuses by a number of document 01: nothing is enciphered for it.
const fn refused(refusal: Refusal) -> ClientError {
    ClientError::Refused(Refused { refusal, blocks: 0 })
}

impl fmt::Debug for Command<'_> {
    fn fmt(&self, f: &mut fmt::Formatter<'_>) -> fmt::Result {
        f.debug_struct("Command")
            .field("group", &self.group)
            .field("interface", &self.interface)
            .field("command", &self.command)
            .field("payload", &Bytes(self.payload.len()))
            .finish()
    }
}

impl Default for Client {
    fn default() -> Client {
        Client::new()
    }
}

/// Where the client stands; no key and no challenge.
impl fmt::Debug for Client {
    fn fmt(&self, f: &mut fmt::Formatter<'_>) -> fmt::Result {
        match self.phase {
            Phase::Idle => f.write_str("Client { idle }"),
            Phase::Asked => f.write_str("Client { request sent }"),
            Phase::Proved => f.write_str("Client { proof sent }"),
            Phase::Open { id, last, awaited, .. } => {
                write!(f, "Client {{ open, id: {id}, last: {last}, awaited: {awaited} }}")
            }
        }
    }
}

/// Why a client's call failed. It changed nothing.
#[derive(Clone, Copy, Debug, PartialEq, Eq, Hash)]
#[non_exhaustive]
pub enum ClientError {
    /// A call that the client isn't ready for: out of the order of the handshake, or no reply is awaited.
    NotReady,
    /// The gateway's answer has a wrong length.
    AnswerLength,
    /// The challenge that was sent didn't come back.
    ChallengeDiffers,
    /// Bytes 2, 3 of the answer to a proof aren't zero.
    Zeros,
    /// The answer to a proof gives client ID 0.
    NoId,
    /// All 65,535 sequence numbers of the connection are used up.
    NumbersUsedUp,
    /// Refused by a number of document 01.
    Refused(Refused),
}

impl From<Refused> for ClientError {
    fn from(refused: Refused) -> ClientError {
        ClientError::Refused(refused)
    }
}

impl fmt::Display for ClientError {
    fn fmt(&self, f: &mut fmt::Formatter<'_>) -> fmt::Result {
        f.write_str(match self {
            ClientError::NotReady => "the client isn't ready for this call",
            ClientError::AnswerLength => "the gateway's answer has a wrong length",
            ClientError::ChallengeDiffers => "the challenge that was sent didn't come back",
            ClientError::Zeros => "bytes 2, 3 of the gateway's answer aren't zero",
            ClientError::NoId => "the gateway's answer gives client ID 0",
            ClientError::NumbersUsedUp => "all 65,535 sequence numbers of the connection are used up",
            ClientError::Refused(refused) => return fmt::Display::fmt(refused, f),
        })
    }
}

impl Error for ClientError {}
