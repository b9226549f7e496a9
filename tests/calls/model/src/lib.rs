//! Document 01 in plain Rust. It was written from the document alone and shares nothing with the library, so that the two can be compared.
//!
//! - [`load`] makes a [`State`] from a book; [`request`], [`proof`], [`command`], [`reply`], [`close`] and [`revoke`] work on a lent state.
//! - [`issue`], [`narrow`], [`seal`] and [`open`] are the client's calls.
//! - Every call hands back an [`Answer`]: its number (0, or one of [`refusal`]), the AES blocks counted, the call's further fields, and how many
//!   bytes were written at the start of the lent room.
//!
//! It is written for reading: nothing in it is in constant time, and nothing is saved. No input makes it panic.

#![forbid(unsafe_code)]

pub mod aes;
mod answer;
pub mod book;
pub mod bytes;
pub mod capability;
pub mod client;
pub mod gcm;
pub mod packet;
pub mod refusal;
pub mod server;
pub mod state;

pub use answer::Answer;
pub use client::{Command, issue, narrow, open, seal};
pub use server::{CommandFields, close, command, load, proof, reply, request, revoke};
pub use state::{Record, State};
