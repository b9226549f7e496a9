//! The library as firmware calls it: the archive over the C interface.

use deebqoshaan::raw::{self, Order, State};

use crate::call::{Answer, Call, Gateway, Room, Sealing};

pub struct Archive;

impl Gateway for Archive {
    fn perform(&mut self, state: &mut State, call: &mut Call, room: &mut Room) -> Answer {
        let mut answer = unset(call);
        answer.number = server(state, call, room, &mut answer);
        answer
    }
}

/// An answer before the call: something in whatever the call hands out, so that a call that leaves it there is noticed.
fn unset(call: &Call) -> Answer {
    let some = 0x5a5a;
    let mut answer = Answer { blocks: some, ..Answer::default() };
    match call {
        Call::Load { .. } => answer.offset = some,
        Call::Request { .. } => answer.host = some as u16,
        Call::Open { .. } => answer.length = some,
        Call::Key { .. } => answer.blocks = 0,
        Call::Command { .. } => {
            answer.order = Order { client: some as u16, command: 90, words: [some as u64; 4], secret: [90; 16], ..Order::default() }
        }
        _ => {}
    }
    answer
}

// What is lent to be read is handed over as a pointer through which it could be changed: that a call has changed it can then be seen afterwards.

/// SAFETY of the calls: each pointer is to a live vector or array of the length beside it, what is written overlaps nothing else, and the state is
/// a whole one.
fn server(state: &mut State, call: &mut Call, room: &mut Room, to: &mut Answer) -> u8 {
    let (place, length) = room.pointer();
    match call {
        Call::Load { book } => unsafe { raw::dq_load(state, book.as_mut_ptr(), book.len(), &mut to.offset, &mut to.blocks) },
        Call::Request { request: r, fresh: f } => unsafe {
            raw::dq_request(state, r.as_mut_ptr(), r.len(), f.as_mut_ptr(), f.len(), place, length, &mut to.host, &mut to.blocks)
        },
        Call::Proof { host, proof } => unsafe { raw::dq_proof(state, *host, proof.as_mut_ptr(), proof.len(), place, length, &mut to.blocks) },
        Call::Command { packet: p } => unsafe { raw::dq_command(state, p.as_mut_ptr(), p.len(), place, length, &mut to.order, &mut to.blocks) },
        Call::Reply { host, sequence, payload: p } => unsafe {
            raw::dq_reply(state, *host, *sequence, p.as_mut_ptr(), p.len(), place, length, &mut to.blocks)
        },
        Call::Close { host } => unsafe { raw::dq_close(state, *host, &mut to.blocks) },
        Call::Revoke { interface, entry, word } => unsafe { raw::dq_revoke(state, *interface, *entry, *word, &mut to.blocks) },
        _ => client(call, place, length, to),
    }
}

/// The calls that see no state; SAFETY as above. The room of a connection's key has 16 bytes.
fn client(call: &mut Call, place: *mut u8, length: usize, to: &mut Answer) -> u8 {
    match call {
        Call::Issue { master: m, id } => unsafe { raw::dq_issue(m.as_mut_ptr(), m.len(), *id, place, length, &mut to.blocks) },
        Call::Narrow { capability: c, word } => unsafe { raw::dq_narrow(c.as_mut_ptr(), c.len(), *word, place, length, &mut to.blocks) },
        Call::Seal(sealing) => seal(sealing, place, length, &mut to.blocks),
        Call::Open { key: k, expected, reply: r } => unsafe {
            raw::dq_open_reply(k.as_mut_ptr(), k.len(), *expected, r.as_mut_ptr(), r.len(), place, length, &mut to.length, &mut to.blocks)
        },
        Call::Key { challenge_2, challenge_3 } if length >= 16 => {
            unsafe { raw::dq_connection_key(challenge_2, challenge_3, place.cast()) };
            0
        }
        _ => u8::MAX,
    }
}

fn seal(of: &mut Sealing, place: *mut u8, length: usize, blocks: &mut usize) -> u8 {
    let Sealing { key: k, vector: v, capability: c, payload: p, .. } = of;
    unsafe {
        raw::dq_seal_command(
            k.as_mut_ptr(),
            k.len(),
            v.as_mut_ptr(),
            v.len(),
            c.as_mut_ptr(),
            c.len(),
            of.client,
            of.sequence,
            of.group,
            of.interface,
            of.command,
            p.as_mut_ptr(),
            p.len(),
            place,
            length,
            blocks,
        )
    }
}
