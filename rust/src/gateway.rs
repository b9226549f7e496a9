//! The server's calls over a state that the gateway owns.

use alloc::boxed::Box;
use core::fmt;

use crate::answer::{Done, Order, Requested, Written};
use crate::length;
use crate::raw;
use crate::refusal::{BookRefusal, Refused, called, refusal_of};

/// What a reply has beside its payload.
const REPLY_HEAD: usize = length::REPLY_MOST - length::PAYLOAD_MOST;

/// A line gateway: the state of document 01, and the calls on it.
///
/// A call takes any bytes, and either is accepted or changes nothing. The state is kept on the heap, and is reached by these calls alone: so it is
/// sound, and [`Unsound`](crate::Refusal::Unsound) doesn't come from a `Gateway`. There is no `Clone`, because a copy would accept a command a second
/// time.
///
/// The calls work on the stack, on x86-64: a load takes some 32 KB of it, for it makes the new state there; a command takes less than 10 KB.
///
/// The numbers of hosts, interfaces and entries count from 1, in the book's order. A dropped gateway's state is wiped. What calls copied to the stack
/// isn't.
///
/// ```
/// # fn main() -> Result<(), Box<dyn std::error::Error>> {
/// use deebqoshaan::Gateway;
///
/// let book = std::fs::read("../examples/dairy/dairy.book")?;
/// let gateway = Gateway::load(&book)?;
/// assert_eq!(format!("{gateway:?}"), "Gateway { hosts: 5, interfaces: 3, .. }");
/// # Ok(())
/// # }
/// ```
pub struct Gateway {
    state: Box<raw::State>,
}

impl Gateway {
    /// The gateway with no hosts and no interfaces, as a refused book leaves it. It refuses every call.
    ///
    /// ```
    /// use deebqoshaan::{Gateway, Refusal};
    ///
    /// let mut gateway = Gateway::empty();
    /// assert_eq!(gateway.revoke(1, 1, 0).unwrap_err().refusal, Refusal::NoInterface);
    /// ```
    pub fn empty() -> Gateway {
        let mut state = Box::<raw::State>::new_uninit();
        // SAFETY: a state is arrays of plain numbers, and zero bytes are such.
        unsafe {
            state.as_mut_ptr().write_bytes(0, 1);
            Gateway { state: state.assume_init() }
        }
    }

    /// Loads a book: a gateway with what the book says, all hosts idle.
    ///
    /// The book isn't needed afterwards. A gateway that runs goes on untouched, so a refused book can't stop it; what it holds of connections and
    /// revocations isn't taken over. No book is above [`length::BOOK_MOST`] bytes.
    ///
    /// ```
    /// use deebqoshaan::{Gateway, Refusal};
    ///
    /// let mut book = *b"\x01\0\x01\0\x17\0\0\0\x01\0\x01\0\x14\0\0\0\x03\0\0\0\0\0a"; // one host, named "a"
    /// assert!(Gateway::load(&book).is_ok());
    ///
    /// book[22] = b' '; // no name begins or ends with a space
    /// let refused = Gateway::load(&book).unwrap_err();
    /// assert_eq!((refused.refusal, refused.offset), (Refusal::Letter, 22));
    /// ```
    pub fn load(book: &[u8]) -> Result<Gateway, BookRefusal> {
        let mut gateway = Gateway::empty();
        gateway.fill(book)?;
        Ok(gateway)
    }

    /// The state becomes what the book says; a refused one leaves zero bytes.
    fn fill(&mut self, book: &[u8]) -> Result<(), BookRefusal> {
        let (mut offset, mut blocks) = (0, 0);
        // SAFETY: see `raw`; each pointer comes from a reference, and what is written is borrowed by this call alone. So in every call below.
        let number = unsafe { raw::dq_load(&mut *self.state, book.as_ptr(), book.len(), &mut offset, &mut blocks) };
        match refusal_of(number) {
            None => Ok(()),
            Some(refusal) => Err(BookRefusal { refusal, offset }),
        }
    }

    /// A host asks for a connection: it waits for its proof, and an earlier connection of its ends.
    ///
    /// `fresh` becomes challenge 2: 16 bytes that nobody can foretell, new for each call. Written: [`length::REQUESTED`] bytes.
    ///
    /// Refusals, in order: 39, 20 to 23, 7.
    ///
    /// ```
    /// # fn main() -> Result<(), Box<dyn std::error::Error>> {
    /// # let book = std::fs::read("../examples/dairy/dairy.book")?;
    /// use deebqoshaan::{Client, Gateway, Refusal, length};
    ///
    /// let mut gateway = Gateway::load(&book)?;
    /// let mut panel = Client::new();
    /// let (mut packet, mut room) = ([0; length::REQUEST_MOST], [0; length::REQUESTED]);
    /// let request = panel.request("service panel", b"1st challenge 01", &mut packet)?;
    ///
    /// let requested = gateway.request(request, b"2nd challenge 01", &mut room)?;
    /// assert_eq!(requested.host, 4);
    /// assert_eq!(requested.bytes, b"1st challenge 012nd challenge 01");
    ///
    /// let refused = gateway.request(b"let me in, I am the panel", b"2nd challenge 02", &mut room).unwrap_err();
    /// assert_eq!(refused.refusal, Refusal::Version);
    /// # Ok(())
    /// # }
    /// ```
    pub fn request<'r>(&mut self, request: &[u8], fresh: &[u8; length::SECRET], room: &'r mut [u8]) -> Result<Requested<'r>, Refused> {
        let mut host = 0;
        let blocks = called(|blocks| unsafe {
            raw::dq_request(
                &mut *self.state, request.as_ptr(), request.len(), fresh.as_ptr(), fresh.len(),
                room.as_mut_ptr(), room.len(), &mut host, blocks,
            )
        })?;
        Ok(Requested { host, bytes: &room[..length::REQUESTED], blocks })
    }

    /// Answers the proof that came on the channel of that host: its connection is open, and its numbers begin at 1.
    ///
    /// After a proof with another challenge 2 the host still waits. Written: [`length::PROVED`] bytes.
    ///
    /// Refusals, in order: 39, 4, 25, 26, 27, 7.
    ///
    /// ```
    /// # fn main() -> Result<(), Box<dyn std::error::Error>> {
    /// # let book = std::fs::read("../examples/dairy/dairy.book")?;
    /// # use deebqoshaan::{Client, Gateway, Refusal, length};
    /// # let mut gateway = Gateway::load(&book)?;
    /// # let mut panel = Client::new();
    /// # let (mut packet, mut room) = ([0; length::REQUEST_MOST], [0; length::REQUESTED]);
    /// # let request = panel.request("service panel", b"1st challenge 01", &mut packet)?;
    /// let requested = gateway.request(request, b"2nd challenge 01", &mut room)?;
    /// let proof = panel.proof(requested.bytes, b"3rd challenge 01")?;
    ///
    /// let mut room = [0; length::PROVED];
    /// let wrong = gateway.proof(4, b"xnd challenge 013rd challenge 01", &mut room).unwrap_err();
    /// assert_eq!(wrong.refusal, Refusal::ChallengeDiffers);
    ///
    /// let proved = gateway.proof(4, &proof, &mut room)?;
    /// assert_eq!(proved.bytes, b"\x04\0\0\x003rd challenge 01");
    /// assert_eq!(proved.blocks, 1);
    /// # Ok(())
    /// # }
    /// ```
    pub fn proof<'r>(&mut self, host: u16, proof: &[u8], room: &'r mut [u8]) -> Result<Written<'r>, Refused> {
        let blocks = called(|blocks| unsafe {
            raw::dq_proof(&mut *self.state, host, proof.as_ptr(), proof.len(), room.as_mut_ptr(), room.len(), blocks)
        })?;
        Ok(Written { bytes: &room[..length::PROVED], blocks })
    }

    /// Judges a command packet. It is to be carried out if and only if this accepts it; its number is then the last accepted one, and a reply is owed.
    ///
    /// The room must have the packet's length less 96 bytes, for the payload; [`length::PAYLOAD_MOST`] bytes do for every packet.
    ///
    /// Refusals, in order: 39, 1 to 19.
    ///
    /// ```
    /// # include!(concat!(env!("CARGO_MANIFEST_DIR"), "/tests/plant/mod.rs"));
    /// # fn main() -> Result<(), Box<dyn std::error::Error>> {
    /// use deebqoshaan::{Capability, Command, Refusal, length};
    ///
    /// let (mut gateway, mut panel) = connected("service panel")?; // gateway and panel after their handshake
    /// let capability = Capability::issue(b"EXAMPLE SECRET 1", 2)?.capability;
    /// let set_volume = Command { group: 2, interface: 1, command: 8, payload: b"volume 500 ml" };
    /// let (mut packet, mut room) = ([0; length::PACKET_MOST], [0; length::PAYLOAD_MOST]);
    /// let sealed = panel.command(&capability, set_volume, &mut packet)?;
    ///
    /// let order = gateway.command(sealed.bytes, &mut room)?;
    /// assert_eq!((order.client, order.interface, order.command), (4, 1, 8));
    /// assert_eq!(order.payload, b"volume 500 ml");
    ///
    /// let again = gateway.command(sealed.bytes, &mut room).unwrap_err();
    /// assert_eq!(again.refusal, Refusal::NotFresh);
    /// # Ok(())
    /// # }
    /// ```
    pub fn command<'r>(&mut self, packet: &[u8], room: &'r mut [u8]) -> Result<Order<'r>, Refused> {
        let mut order = raw::Order::default();
        let blocks = called(|blocks| unsafe {
            raw::dq_command(&mut *self.state, packet.as_ptr(), packet.len(), room.as_mut_ptr(), room.len(), &mut order, blocks)
        })?;
        let raw::Order { client, sequence, group, interface, capability, length, command, zeros: _, words, secret } = order;
        let payload = &room[..usize::from(length)];
        Ok(Order { client, sequence, group, interface, capability, command, words, secret, payload, blocks })
    }

    /// Seals the reply to the last accepted command of that host, once.
    ///
    /// The room must have 32 bytes and the payload's; [`length::REPLY_MOST`] bytes do for every reply.
    ///
    /// Refusals, in order: 39, 4, 6, 29, 30, 7.
    ///
    /// ```
    /// # include!(concat!(env!("CARGO_MANIFEST_DIR"), "/tests/plant/mod.rs"));
    /// # fn main() -> Result<(), Box<dyn std::error::Error>> {
    /// use deebqoshaan::{Capability, Command, Refusal, length};
    ///
    /// let (mut gateway, mut panel) = connected("service panel")?; // gateway and panel after their handshake
    /// # let capability = Capability::issue(b"EXAMPLE SECRET 1", 2)?.capability;
    /// # let read = Command { group: 2, interface: 1, command: 0, payload: b"" };
    /// let (mut packet, mut room) = ([0; length::PACKET_MOST], [0; length::PAYLOAD_MOST]);
    /// let sealed = panel.command(&capability, read, &mut packet)?;
    /// let order = gateway.command(sealed.bytes, &mut room)?;
    ///
    /// let mut reply = [0; length::REPLY_MOST];
    /// let written = gateway.reply(order.client, order.sequence, b"volume is 500 ml", &mut reply)?;
    /// assert_eq!(written.bytes.len(), 32 + 16);
    ///
    /// let twice = gateway.reply(4, 1, b"volume is 510 ml", &mut reply).unwrap_err();
    /// assert_eq!(twice.refusal, Refusal::NotOwed);
    /// # Ok(())
    /// # }
    /// ```
    pub fn reply<'r>(&mut self, host: u16, sequence: u16, payload: &[u8], room: &'r mut [u8]) -> Result<Written<'r>, Refused> {
        let blocks = called(|blocks| unsafe {
            raw::dq_reply(&mut *self.state, host, sequence, payload.as_ptr(), payload.len(), room.as_mut_ptr(), room.len(), blocks)
        })?;
        Ok(Written { bytes: &room[..REPLY_HEAD + payload.len()], blocks })
    }

    /// Closes a host's connection, or ends its handshake: it is idle, key and challenge wiped. Closing an idle host is accepted.
    ///
    /// Refusals, in order: 39, 4.
    ///
    /// ```
    /// # include!(concat!(env!("CARGO_MANIFEST_DIR"), "/tests/plant/mod.rs"));
    /// # fn main() -> Result<(), Box<dyn std::error::Error>> {
    /// use deebqoshaan::{Capability, Command, Refusal, length};
    ///
    /// let (mut gateway, mut panel) = connected("service panel")?; // gateway and panel after their handshake
    /// # let capability = Capability::issue(b"EXAMPLE SECRET 1", 2)?.capability;
    /// # let read = Command { group: 2, interface: 1, command: 0, payload: b"" };
    /// let mut packet = [0; length::PACKET_MOST];
    /// let sealed = panel.command(&capability, read, &mut packet)?;
    ///
    /// gateway.close(4)?;
    /// assert_eq!(gateway.command(sealed.bytes, &mut []).unwrap_err().refusal, Refusal::NotOpen);
    /// # Ok(())
    /// # }
    /// ```
    pub fn close(&mut self, host: u16) -> Result<Done, Refused> {
        let blocks = called(|blocks| unsafe { raw::dq_close(&mut *self.state, host, blocks) })?;
        Ok(Done { blocks })
    }

    /// Takes rights away, at once: the permitted word of that entry of that interface becomes its AND with `word`. A load alone gives them back.
    ///
    /// Refusals, in order: 39, 14, 15.
    ///
    /// ```
    /// # include!(concat!(env!("CARGO_MANIFEST_DIR"), "/tests/plant/mod.rs"));
    /// # fn main() -> Result<(), Box<dyn std::error::Error>> {
    /// use deebqoshaan::{Capability, Command, Refusal, length};
    ///
    /// let (mut gateway, mut panel) = connected("service panel")?; // gateway and panel after their handshake
    /// let capability = Capability::issue(b"EXAMPLE SECRET 1", 2)?.capability;
    /// let set_volume = Command { group: 2, interface: 1, command: 8, payload: b"" };
    /// let mut packet = [0; length::PACKET_MOST];
    /// let sealed = panel.command(&capability, set_volume, &mut packet)?;
    ///
    /// gateway.revoke(1, 2, !(1 << 8))?; // all but command 8 stays
    /// assert_eq!(gateway.command(sealed.bytes, &mut []).unwrap_err().refusal, Refusal::NotPermitted);
    /// # Ok(())
    /// # }
    /// ```
    pub fn revoke(&mut self, interface: u16, entry: u16, word: u64) -> Result<Done, Refused> {
        let blocks = called(|blocks| unsafe { raw::dq_revoke(&mut *self.state, interface, entry, word, blocks) })?;
        Ok(Done { blocks })
    }
}

impl Drop for Gateway {
    /// An empty book is refused, which wipes the state. The compiler can't leave a call of the archive out.
    fn drop(&mut self) {
        let _ = self.fill(&[]);
    }
}

/// The counts alone: names are the plant's own business, and the rest are secrets.
impl fmt::Debug for Gateway {
    fn fmt(&self, f: &mut fmt::Formatter<'_>) -> fmt::Result {
        let rights = &self.state.rights;
        f.debug_struct("Gateway").field("hosts", &rights.hosts).field("interfaces", &rights.interfaces).finish_non_exhaustive()
    }
}

#[cfg(test)]
mod tests;
