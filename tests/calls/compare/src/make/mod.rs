//! Makes calls: good ones for the state as it is, and calls that are wrong in one place or in two.
//!
//! A good call is described field by field. A fault that document 01 has a number for is put into the description (`spoil`), any other damage into
//! the bytes that come of it. Of two faults the one that is judged later is put in first.

mod client;
mod command;
mod server;

pub use command::Right;

use std::collections::VecDeque;

use model::{Record, State};

use crate::call::{Bytes, Call, Kind, Sealing};
use crate::random::Random;
use crate::tally::Tally;

/// A call, and how long a room is lent for it.
pub struct Plan {
    pub call: Call,
    pub room: usize,
}

/// What calls have made and later calls use. Beside a capability stands its interface, beside a reply its key and its number.
#[derive(Default)]
pub struct Pool {
    pub packets: VecDeque<Vec<u8>>,
    pub capabilities: VecDeque<(u16, Vec<u8>)>,
    pub replies: VecDeque<([u8; 16], u16, Vec<u8>)>,
}

/// Adds to what is kept; the oldest goes.
pub fn keep<T>(kept: &mut VecDeque<T>, one: T) {
    kept.push_back(one);
    if kept.len() > 12 {
        kept.pop_front();
    }
}

/// What a call is made for.
enum Aim {
    /// To be accepted.
    Good,
    /// A size at a limit of document 01, and the number that belongs to it.
    Size(usize, u8),
    /// These refusals; the one that is judged first stands last.
    Refusals(Vec<u8>),
    /// Whatever comes of damage to a good call.
    Damage,
}

pub struct Maker<'a> {
    pub random: &'a mut Random,
    /// The state that calls are made for.
    pub view: &'a State,
    pub pool: &'a Pool,
    pub seen: &'a Tally,
}

impl Maker<'_> {
    pub fn make(&mut self, kind: Kind) -> Plan {
        let aim = self.aim(kind);
        let damaged = matches!(aim, Aim::Damage);
        // What can't be made yet, a reply where none is owed, is prepared for: a command, or a proof, or a request.
        let mut plan = match kind {
            Kind::Request => self.request(aim),
            Kind::Proof => self.proof(aim),
            Kind::Command => self.command(aim),
            Kind::Reply => self.reply(aim),
            Kind::Close => self.close(aim),
            Kind::Revoke => self.revoke(aim),
            Kind::Issue => self.issue(aim),
            Kind::Narrow => self.narrow(aim),
            Kind::Seal => self.seal(aim),
            Kind::Open => self.open(aim),
            Kind::Load | Kind::Key => self.key(),
        };
        if damaged {
            self.damage(&mut plan);
        }
        plan
    }

    /// Most calls are to be accepted. Of the refusals, that which was seen least comes as often as any other.
    fn aim(&mut self, kind: Kind) -> Aim {
        match self.random.below(40) {
            0..=20 => Aim::Good,
            21..=22 => self.seen.least_size(kind).map_or(Aim::Good, |(size, number)| Aim::Size(size, number)),
            23..=27 => Aim::Refusals(self.seen.least_refusal(kind).into_iter().collect()),
            28..=30 => self.refusals(kind, 1),
            31..=36 => self.refusals(kind, 2),
            _ => Aim::Damage,
        }
    }

    /// One refusal of that call, or two, which are neighbours half of the time.
    fn refusals(&mut self, kind: Kind, count: usize) -> Aim {
        let order: Vec<u8> = kind.order().iter().copied().filter(|&number| number != 39).collect();
        if order.len() < 2 {
            return Aim::Refusals(order);
        }
        let first = self.random.below(order.len() - 1);
        let second = if self.random.one_in(2) { first + 1 } else { self.random.between(first + 1, order.len() - 1) };
        match count {
            1 => Aim::Refusals(vec![self.random.pick(&order)]),
            _ => Aim::Refusals(vec![order[second], order[first]]),
        }
    }

    // ---- what is picked of the state

    /// The places of the hosts whose records pass.
    fn hosts(&self, passes: fn(&Record) -> bool) -> Vec<usize> {
        let count = usize::from(self.view.host_count).min(32);
        (0..count).filter(|&i| passes(&self.view.records[i])).collect()
    }

    fn any_host(&mut self) -> Option<usize> {
        let hosts = self.hosts(|_| true);
        self.random.any(&hosts)
    }

    /// How many entries an interface has; what lies beyond the interfaces' count can say anything.
    fn entries(&self, place: usize) -> u16 {
        self.view.entry_counts.get(place).map_or(0, |&count| count.min(16))
    }

    fn commands(&self, place: usize) -> u16 {
        self.view.command_counts.get(place).map_or(64, |&count| count.min(64))
    }

    /// A number that isn't one of 1 to `count`.
    fn outside(&mut self, count: u16) -> u16 {
        let some = self.random.below(usize::from(count)) as u16;
        let near = count.saturating_add(1);
        let far = self.random.two_bytes() | 0x8000;
        self.random.pick(&[0, 0, near, near, near.saturating_add(some), some.wrapping_add(257), 65_535, far])
    }

    /// Most rooms are just as long as needed or a little longer.
    fn spare(&mut self) -> usize {
        let (little, more) = (self.random.below(40), self.random.below(2_000));
        if self.random.one_in(60) { more } else { self.random.pick(&[0, 0, 0, 1, 1, 2, 16, little]) }
    }

    /// A room that is too short for so many bytes.
    fn short(&mut self, needed: usize) -> usize {
        let any = self.random.below(needed);
        self.random.pick(&[needed.saturating_sub(1), needed.saturating_sub(1), 0, any])
    }

    /// Most payloads are short, around whole blocks.
    fn payload(&mut self) -> Bytes {
        let (few, more) = (self.random.below(60), self.random.below(1_500));
        let length = if self.random.one_in(30) { more } else { self.random.pick(&[0, 1, 4, 11, 12, 13, 15, 16, 17, 31, 32, 33, 48, few, few, few]) };
        self.random.bytes(length).into()
    }

    // ---- damage

    /// Damages one of the byte strings that are lent to a call.
    fn damage(&mut self, plan: &mut Plan) {
        let damaged = match &mut plan.call {
            Call::Load { book: one } | Call::Command { packet: one } | Call::Proof { proof: one, .. } | Call::Reply { payload: one, .. } => vec![one],
            Call::Request { request, fresh } => vec![request, fresh],
            Call::Issue { master: one, .. } | Call::Narrow { capability: one, .. } => vec![one],
            Call::Seal(Sealing { key, vector, capability, payload, .. }) => vec![key, vector, capability, payload],
            Call::Open { key, reply, .. } => vec![reply, key],
            Call::Close { .. } | Call::Revoke { .. } | Call::Key { .. } => vec![],
        };
        // The first is what the call is about.
        let which = if self.random.one_in(2) { 0 } else { self.random.below(damaged.len()) };
        if let Some(bytes) = damaged.into_iter().nth(which) {
            damage(self.random, bytes);
        }
    }
}

/// Damages bytes in one place: a bit, a byte, or their length.
pub fn damage(random: &mut Random, bytes: &mut Vec<u8>) {
    let (length, any) = (bytes.len(), random.word());
    let at = random.below(length);
    match random.below(8) {
        0 => bytes.truncate(at),
        1 => bytes.truncate(length.saturating_sub(1)),
        2 => bytes.push(any as u8),
        3 => bytes.extend(any.to_le_bytes()),
        4 if length > 0 => bytes[at] = any as u8,
        _ if length > 0 => bytes[at] ^= 1 << (any % 8),
        _ => {}
    }
}

/// Brings bytes to a length.
fn stretch(bytes: &mut Vec<u8>, length: Option<usize>) {
    let length = length.unwrap_or(bytes.len());
    bytes.resize(length, 0x41);
}
