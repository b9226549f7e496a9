//! The series of calls: which gateway is next, which call, and what earlier calls ask for.

use std::collections::VecDeque;

use model::Record;
use model::bytes::u16_at;

use crate::books;
use crate::call::{Answer, Call, Kind};
use crate::causes::{wrong_book, wrong_fields};
use crate::make::{Maker, Plan, Pool, Right, damage, keep};
use crate::pokes::poked;
use crate::random::Random;
use crate::site::{Done, Site};
use crate::tally::Tally;

/// Gateways with hosts that are connected, and one more, into which wrong books are loaded.
const SITES: usize = 5;
const SPARE: usize = SITES - 1;

/// A call that an earlier one asks for.
enum Next {
    Call(Plan),
    /// A good command of that right.
    Command(Right),
}

pub struct Series {
    pub random: Random,
    pub sites: Vec<Site>,
    pub tally: Tally,
    pools: Vec<Pool>,
    next: Vec<VecDeque<Next>>,
}

impl Series {
    pub fn new(seed: u64) -> Series {
        let sites = (0..SITES).map(|_| Site::new()).collect();
        let pools = (0..SITES).map(|_| Pool::default()).collect();
        let next = (0..SITES).map(|_| VecDeque::new()).collect();
        Series { random: Random::new(seed), sites, tally: Tally::new(), pools, next }
    }

    /// The next call, and the gateway that it is for.
    pub fn next(&mut self) -> (usize, Plan) {
        let which = if self.random.one_in(9) { SPARE } else { self.random.below(SPARE) };
        self.sites[which].pass();
        if !self.sites[which].is_unsound() && self.random.one_in(25) {
            let state = poked(&mut self.random, &self.sites[which].lent);
            let calls = self.random.between(1, 6);
            self.sites[which].poke(state, calls);
        }
        let plan = self.plan(which);
        (which, plan)
    }

    fn plan(&mut self, which: usize) -> Plan {
        let asked = self.next[which].pop_front().filter(|_| !self.sites[which].is_unsound());
        if self.random.one_in(self.loads(which)) {
            return self.load(which);
        }
        let kind = self.kind(which);
        let view = self.sites[which].view();
        let mut maker = Maker { random: &mut self.random, view, pool: &self.pools[which], seen: &self.tally };
        match asked {
            Some(Next::Call(plan)) => plan,
            Some(Next::Command(right)) => maker.command_of(right),
            None if kind == Kind::Command && maker.random.one_in(8) => old_packet(&mut maker),
            None => maker.make(kind),
        }
    }

    /// One call in so many is a load. A gateway that isn't of much use gets a book sooner.
    fn loads(&self, which: usize) -> usize {
        let view = self.sites[which].view();
        match (view.host_count, view.interface_count) {
            _ if which == SPARE => 2,
            (0, _) => 3,
            (_, 0) => 20,
            _ => 150,
        }
    }

    /// While a state is unsound every call of the server is as likely as another.
    fn kind(&mut self, which: usize) -> Kind {
        use Kind::*;
        if self.sites[which].is_unsound() {
            return self.random.pick(&[Request, Proof, Command, Command, Reply, Close, Revoke]);
        }
        match self.random.below(100) {
            0..=11 => Request,
            12..=23 => Proof,
            24..=58 => Command,
            59..=70 => Reply,
            71..=73 => Close,
            74..=77 => Revoke,
            78..=81 => Issue,
            82..=86 => Narrow,
            87..=92 => Seal,
            93..=98 => Open,
            _ => Key,
        }
    }

    /// A good book, or, for the spare gateway mostly, a wrong one.
    fn load(&mut self, which: usize) -> Plan {
        let random = &mut self.random;
        let wrong = if which == SPARE { !random.one_in(6) } else { random.one_in(12) };
        let mut book = match (wrong, random.one_in(20)) {
            (true, _) => wrong_book(random, self.tally.least_cause()),
            (false, true) => books::Plan::largest(random).book(),
            (false, false) => books::Plan::random(random).book(),
        };
        match random.below(8) {
            0 if which == SPARE => damage(random, &mut book),
            1..=3 if which == SPARE => wrong_fields(random, &mut book),
            _ => {}
        }
        Plan { call: Call::Load { book: book.into() }, room: 0 }
    }

    // ---- what a call leaves for later ones

    pub fn learn(&mut self, which: usize, call: &Call, done: &Done) {
        self.tally.count(call, &done.before, &done.answer);
        if matches!(call, Call::Load { .. }) {
            self.next[which].clear();
        }
        if done.answer.number == 0 {
            self.keep(which, call, done);
        }
        if self.random.one_in(4) && self.next[which].len() < 4 {
            self.ask(which, call, done);
        }
    }

    fn keep(&mut self, which: usize, call: &Call, done: &Done) {
        let pool = &mut self.pools[which];
        match call {
            Call::Seal(sealing) => keep(&mut pool.packets, done.room[..96 + sealing.payload.len()].to_vec()),
            Call::Command { packet } => keep(&mut pool.packets, packet.to_vec()),
            Call::Issue { master, .. } => {
                let secrets = self.sites[which].view().master_secrets;
                let whose = secrets.iter().position(|secret| secret[..] == master[..]).unwrap_or(0);
                keep(&mut pool.capabilities, (whose as u16 + 1, done.room[..50].to_vec()));
            }
            Call::Narrow { capability, .. } => {
                let whose = pool.capabilities.iter().find(|(_, held)| held[..] == capability[..]).map_or(1, |held| held.0);
                keep(&mut pool.capabilities, (whose, done.room[..50].to_vec()));
            }
            Call::Reply { host, sequence, payload } => {
                if let Some(Record::Open { key, .. }) = done.before.get(usize::from(*host).wrapping_sub(1)) {
                    keep(&mut pool.replies, (*key, *sequence, done.room[..32 + payload.len()].to_vec()));
                }
            }
            _ => {}
        }
    }

    /// Calls that show whether this one is remembered as it should be.
    fn ask(&mut self, which: usize, call: &Call, done: &Done) {
        let next = &mut self.next[which];
        let again = || Next::Call(Plan { call: call.clone(), room: done.room.len() });
        match (call, done.answer.number) {
            (Call::Command { .. }, 0) => ask_after_command(&mut self.random, next, &done.answer, again()),
            (Call::Command { packet }, 13..=19) => {
                let right = self.right_of_host(which, u16_at(packet, 0));
                self.next[which].extend(right.map(Next::Command));
            }
            (Call::Request { .. }, 0) => {
                let (host, old) = (done.answer.host, done.before[usize::from(done.answer.host) - 1]);
                self.ask_of_ended(which, host, old);
            }
            (Call::Close { host }, 0) => self.ask_of_ended(which, *host, done.before[usize::from(*host) - 1]),
            (Call::Reply { .. } | Call::Proof { .. }, 0) => next.push_back(again()),
            (Call::Seal(sealing), 0) => {
                let packet = &done.room[..96 + sealing.payload.len()];
                next.push_back(Next::Call(Plan { call: Call::Command { packet: packet.into() }, room: packet.len() }));
            }
            _ => {}
        }
    }

    /// A right of that host, if it is open.
    fn right_of_host(&mut self, which: usize, host: u16) -> Option<Right> {
        let view = self.sites[which].view();
        let mut maker = Maker { random: &mut self.random, view, pool: &self.pools[which], seen: &self.tally };
        maker.right().filter(|right| right.host as u16 + 1 == host)
    }

    /// After a connection has ended: its last packet again, its reply, its proof.
    fn ask_of_ended(&mut self, which: usize, host: u16, old: Record) {
        let packet = self.pools[which].packets.iter().rev().find(|packet| u16_at(packet, 0) == host);
        match (old, packet) {
            (Record::Open { last, .. }, None) => self.next[which].push_back(reply_of(host, last)),
            (Record::Open { .. }, Some(packet)) => {
                let call = Call::Command { packet: packet[..].into() };
                self.next[which].push_back(Next::Call(Plan { call, room: packet.len() }));
            }
            (Record::Waiting { challenge_2 }, _) => {
                let proof = [challenge_2, challenge_2].concat();
                self.next[which].push_back(Next::Call(Plan { call: Call::Proof { host, proof: proof.into() }, room: 20 }));
            }
            (Record::Idle, _) => {}
        }
    }
}

fn reply_of(host: u16, sequence: u16) -> Next {
    Next::Call(Plan { call: Call::Reply { host, sequence, payload: b"a reply"[..].into() }, room: 40 })
}

/// The same packet again, a reply twice, or the command's bit revoked and the command given once more.
fn ask_after_command(random: &mut Random, next: &mut VecDeque<Next>, answer: &Answer, again: Next) {
    let order = &answer.order;
    let right = Right {
        host: usize::from(order.client) - 1,
        interface: usize::from(order.interface) - 1,
        entry: usize::from(order.capability) - 1,
        command: order.command,
    };
    match random.below(3) {
        0 => next.push_back(again),
        1 => next.extend([reply_of(order.client, order.sequence), reply_of(order.client, order.sequence)]),
        _ => {
            let (interface, entry, word) = (order.interface, order.capability, !(1 << order.command));
            next.push_back(Next::Call(Plan { call: Call::Revoke { interface, entry, word }, room: 0 }));
            next.push_back(Next::Command(right));
        }
    }
}

/// A packet of before: as it was, or damaged.
fn old_packet(maker: &mut Maker) -> Plan {
    let kept = &maker.pool.packets;
    let Some(packet) = kept.get(maker.random.below(kept.len())) else {
        return maker.make(Kind::Command);
    };
    let mut packet = packet.clone();
    if maker.random.one_in(3) {
        damage(maker.random, &mut packet);
    }
    let room = packet.len().saturating_sub(96);
    Plan { call: Call::Command { packet: packet.into() }, room }
}

#[cfg(test)]
mod tests {
    use super::*;
    use crate::call::Room;
    use crate::double::{Double, Fault};

    /// The first calls of that seed, by a double without a fault.
    fn calls(seed: u64) -> Vec<(usize, Call, usize)> {
        let (mut series, mut double) = (Series::new(seed), Double::new(Fault::None));
        let one = |_| {
            let (which, Plan { call, room }) = series.next();
            let done = series.sites[which].perform(&mut double, &call, &Room::new(&mut Random::new(seed), room));
            series.learn(which, &call, &done.unwrap_or_else(|lines| panic!("{lines:?}")));
            (which, call, room)
        };
        (0..2_000).map(one).collect()
    }

    #[test]
    fn a_seed_gives_the_same_calls() {
        let (one, again, other) = (calls(4), calls(4), calls(5));
        assert!(one == again && one != other);
    }
}
