//! A double: a gateway with one fault, which takes the archive's place to see whether the comparison notices. Without a fault it answers as the model
//! does.
//!
//! All checks of a call are judged whatever is wrong with it, and then the number is the first that refuses. So a check can be left out or moved,
//! and what it stood before is judged on whatever bytes are there.

mod client;
mod command;
mod faults;
mod load;
mod server;

pub use faults::Fault;
use faults::Odd;

use deebqoshaan::raw::{Rights, State};
use model::bytes::array_at;

use crate::call::{Answer, Call, GUARD, Gateway, Kind, Room};

pub struct Double {
    fault: Fault,
    /// Commands that were accepted: the state's address, interface, entry and command.
    verdicts: Vec<(usize, u16, u16, u8)>,
    /// The last number of each host, in whatever state.
    lasts: [u16; 32],
}

/// A check of a call: its number, and whether it refuses.
type Check = (u8, bool);

impl Gateway for Double {
    fn perform(&mut self, state: &mut State, call: &mut Call, room: &mut Room) -> Answer {
        let mut answer = match call {
            Call::Load { book } => self.load(state, book),
            Call::Request { request, fresh } => self.request(state, request, fresh, room),
            Call::Proof { host, proof } => self.proof(state, *host, proof, room),
            Call::Command { packet } => self.command(state, packet, room),
            Call::Reply { host, sequence, payload } => self.reply(state, *host, *sequence, payload, room),
            Call::Close { host } => self.close(state, *host),
            Call::Revoke { interface, entry, word } => self.revoke(state, *interface, *entry, *word),
            Call::Issue { master, id } => self.issue(master, *id, room),
            Call::Narrow { capability, word } => self.narrow(capability, *word, room),
            Call::Seal(sealing) => self.seal(sealing, room),
            Call::Open { key, expected, reply } => self.open(key, *expected, reply, room),
            Call::Key { challenge_2, challenge_3 } => self.key(challenge_2, challenge_3, room),
        };
        if self.has(Odd::NothingCounted) {
            answer.blocks = 0;
        }
        if self.has(Odd::BlocksUnset) && answer.number != 0 {
            answer.blocks = 0x5a5a;
        }
        answer
    }
}

impl Double {
    pub fn new(fault: Fault) -> Double {
        Double { fault, verdicts: Vec::new(), lasts: [0; 32] }
    }

    fn has(&self, odd: Odd) -> bool {
        self.fault == Fault::Odd(odd)
    }

    /// The number of the first check that refuses.
    fn number(&self, kind: Kind, checks: &[Check]) -> u8 {
        let place = |number: u8| checks.iter().position(|check| check.0 == number).unwrap_or(0);
        let mut checks = checks.to_vec();
        match self.fault {
            Fault::Never(whose, number) if whose == kind => checks.retain(|check| check.0 != number),
            Fault::Later(whose, early, late) if whose == kind => checks.swap(place(early), place(late)),
            _ => {}
        }
        checks.iter().find(|check| check.1).map_or(0, |check| check.0)
    }

    /// Writes to the start of the room, as far as there is room.
    fn write(&self, room: &mut Room, bytes: &[u8]) {
        let length = bytes.len().min(room.len());
        let whole = room.len();
        room.lent()[..length].copy_from_slice(&bytes[..length]);
        if self.has(Odd::RestWiped) {
            room.lent()[length..].fill(0);
        }
        if self.has(Odd::ByteTooMany) && length < whole {
            room.lent()[length] ^= 1;
        }
        if self.has(Odd::ByteBeyond) {
            room.whole()[GUARD + whole] ^= 1;
        }
        if self.has(Odd::ByteBefore) {
            room.whole()[GUARD - 1] ^= 1;
        }
    }

    // ---- soundness

    fn sound(&self, state: &State) -> bool {
        let rights = &state.rights;
        let (hosts, interfaces) = (usize::from(rights.hosts), usize::from(rights.interfaces));
        let names = if self.has(Odd::NamesBeyond) { hosts + 1 } else { hosts };
        let name = |&size: &u16| (size != 0 || self.has(Odd::EmptyName)) && (size <= 256 || self.has(Odd::LongName));
        (hosts <= 32 || self.has(Odd::HostCount))
            && (interfaces <= 8 || self.has(Odd::InterfaceCount))
            && !(hosts == 0 && self.has(Odd::NoHosts))
            && rights.sizes.iter().take(names).all(name)
            && (0..interfaces.min(8)).all(|i| self.interface_sound(rights, i))
    }

    fn interface_sound(&self, rights: &Rights, i: usize) -> bool {
        let (span, commands, entries) = (rights.spans[i], rights.commands[i], usize::from(rights.entries[i]));
        let judged = match entries {
            _ if self.has(Odd::Words) => 0,
            _ if self.has(Odd::Beyond) => 16,
            _ if self.has(Odd::LastWord) => entries.saturating_sub(1),
            _ => entries,
        };
        let fits = |&word: &u64| word.checked_shr(u32::from(commands)).unwrap_or(0) == 0;
        ((1..=256).contains(&span) || self.has(Odd::InterfaceName))
            && (commands != 0 || self.has(Odd::NoCommands))
            && (commands <= 64 || self.has(Odd::ManyCommands))
            && ((1..=16).contains(&entries) || self.has(Odd::EntryCount))
            && (rights.words[16 * i..16 * (i + 1)].iter().take(judged).all(fits) || commands == 0)
    }
}

/// Whether a number counted from 1 isn't one of so many.
fn outside(number: u16, count: u16) -> bool {
    number == 0 || number > count
}

/// The place of a number counted from 1; a place that isn't there reads as 0 everywhere.
fn place(number: u16) -> usize {
    usize::from(number).wrapping_sub(1)
}

fn at<T: Copy + Default>(values: &[T], place: usize) -> T {
    values.get(place).copied().unwrap_or_default()
}

/// Sixteen bytes of a host's or an interface's.
fn sixteen(bytes: &[u8], place: usize) -> [u8; 16] {
    array_at(bytes, place.saturating_mul(16))
}

fn refused(number: u8) -> Answer {
    Answer { number, ..Answer::default() }
}

fn sixteenths(length: usize) -> usize {
    length.div_ceil(16)
}
