//! A line gateway decides which of a plant's machines may command which. This crate is the proved library behind one (`libdeebqoshaan.a`) with Rust's
//! own means around it: a [`Gateway`] that owns its state, a [`Client`] for a machine, [`Capability`], and a [`Refusal`] for each number of document
//! 01, the gateway's specification.
//!
//! What the calls answer is proved, for every input; docs/PROMISES.md of the project says what that covers. This crate adds no judgement to the
//! gateway's calls: it lends the bytes and takes the answer apart. The client's handshake, its numbers and its vectors are this crate's own, and
//! tested.
//!
//! It has no dependencies, needs no `std` (but a heap, for the gateway's state) and starts no threads. The archive is for x86-64 or 64-bit Arm under
//! Linux.
//!
//! # A command, from the book to the reply
//!
//! ```
//! # fn main() -> Result<(), Box<dyn std::error::Error>> {
//! use deebqoshaan::{Capability, Client, Command, Gateway, Refusal, length};
//!
//! // The gateway is given the plant's book. Nobody is connected yet.
//! let book = std::fs::read("../examples/dairy/dairy.book")?;
//! let mut gateway = Gateway::load(&book)?;
//! let mut panel = Client::new();
//!
//! // The panel connects. Challenges are drawn at random, and these four messages travel encrypted: neither is done here.
//! let (mut to, mut from) = ([0; length::PACKET_MOST], [0; length::REPLY_MOST]);
//! let request = panel.request("service panel", b"1st challenge 01", &mut to)?;
//! let requested = gateway.request(request, b"2nd challenge 01", &mut from)?;
//! let host = requested.host;
//! let proof = panel.proof(requested.bytes, b"3rd challenge 01")?;
//! let proved = gateway.proof(host, &proof, &mut from)?;
//! panel.open(proved.bytes)?;
//!
//! // The office issued a capability for entry 2 of "filler recipe"; the panel sets the volume with it.
//! let capability = Capability::issue(b"EXAMPLE SECRET 1", 2)?.capability;
//! let set_volume = Command { group: 2, interface: 1, command: 8, payload: b"volume 500 ml" };
//! let sealed = panel.command(&capability, set_volume, &mut to)?;
//! let mut payload = [0; length::PAYLOAD_MOST];
//! let order = gateway.command(sealed.bytes, &mut payload)?;
//! assert_eq!((order.client, order.interface, order.command, order.payload), (4, 1, 8, &b"volume 500 ml"[..]));
//!
//! // The reply goes back, sealed.
//! let reply = gateway.reply(order.client, order.sequence, b"volume is 500 ml", &mut from)?;
//! assert_eq!(panel.reply(reply.bytes, &mut payload)?.payload, b"volume is 500 ml");
//!
//! // The right is withdrawn: entry 2 keeps command 0 alone. The panel's next command is refused.
//! gateway.revoke(1, 2, 1)?;
//! let sealed = panel.command(&capability, set_volume, &mut to)?;
//! let refused = gateway.command(sealed.bytes, &mut payload).unwrap_err();
//! assert_eq!(refused.refusal, Refusal::NotPermitted);
//! assert_eq!(refused.to_string(), "refused 18: not permitted");
//! # Ok(())
//! # }
//! ```
#![no_std]
#![deny(missing_docs)]

extern crate alloc;

mod answer;
mod capability;
mod client;
mod gateway;
pub mod length;
// `deebqoshaan.h` says what each field and each call is for.
#[allow(missing_docs)]
pub mod raw;
mod refusal;
mod secret;

pub use answer::{Done, Made, Opened, Order, Requested, Sealed, Written};
pub use capability::Capability;
pub use client::{Client, ClientError, Command};
pub use gateway::Gateway;
pub use refusal::{BookRefusal, Refusal, Refused};

// The archive was compiled for these. A machine that lays them out otherwise stops here.
const _: () = assert!(size_of::<usize>() == 8 && size_of::<raw::State>() == 12_952 && size_of::<raw::Order>() == 72);
const _: () = assert!(align_of::<raw::State>() == 8);
