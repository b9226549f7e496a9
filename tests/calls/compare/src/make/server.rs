//! Requests, proofs, replies, closing and revoking.

use model::Record;

use super::{Aim, Maker, Plan, stretch};
use crate::books::other_name;
use crate::call::{Bytes, Call};

/// A request, field by field.
struct Asking {
    version: [u8; 2],
    length: u16,
    name: Vec<u8>,
    fresh: usize,
    room: usize,
    cut: Option<usize>,
}

/// A reply to be sealed.
struct Replying {
    host: u16,
    sequence: u16,
    payload: Bytes,
    room: Option<usize>,
}

fn number(host: usize) -> u16 {
    host as u16 + 1
}

impl Maker<'_> {
    // ---- request

    pub(super) fn request(&mut self, aim: Aim) -> Plan {
        let host = self.asking_host(&aim);
        let name = host.map_or_else(|| b"nobody".to_vec(), |i| self.view.host_names[i].as_bytes().to_vec());
        let mut asking = Asking { version: [1, 0], length: name.len() as u16, name, fresh: 16, room: 32 + self.spare(), cut: None };
        match aim {
            Aim::Size(size, 20) => asking.cut = Some(size),
            Aim::Refusals(numbers) => numbers.into_iter().for_each(|number| self.spoil_request(&mut asking, number)),
            _ => {}
        }
        let challenge = self.random.bytes(16);
        let mut request = [&asking.version[..], &asking.length.to_le_bytes(), &challenge, &asking.name].concat();
        stretch(&mut request, asking.cut);
        let fresh = self.random.bytes(asking.fresh);
        Plan { call: Call::Request { request: request.into(), fresh: fresh.into() }, room: asking.room }
    }

    /// Mostly a host that is idle, so that in the end most are connected; for a size, one with a name of that size.
    fn asking_host(&mut self, aim: &Aim) -> Option<usize> {
        if let Aim::Size(size, 0) = *aim {
            let named: Vec<usize> = self.hosts(|_| true).into_iter().filter(|&i| self.view.host_names[i].as_bytes().len() + 20 == size).collect();
            return self.random.any(&named).or_else(|| self.any_host());
        }
        // A connection that has used its last number is as good as none.
        let idle = self.hosts(|record| matches!(record, Record::Idle | Record::Open { last: 65_535, .. }));
        if self.random.one_in(3) { self.any_host() } else { self.random.any(&idle).or_else(|| self.any_host()) }
    }

    fn spoil_request(&mut self, asking: &mut Asking, number: u8) {
        match number {
            28 => asking.fresh = self.random.pick(&[0, 1, 15, 17, 32, 64]),
            20 => asking.cut = Some(self.random.pick(&[0, 1, 4, 19, 20, 277, 278, 5_000])),
            21 => asking.version = self.random.pick(&[[0, 0], [0, 1], [1, 1], [2, 0], [1, 128], [129, 0], [255, 255]]),
            22 => {
                let bit = 1 << self.random.below(16);
                let length = asking.length;
                asking.length = self.random.pick(&[length.wrapping_add(1), length.wrapping_sub(1), length ^ 256, length ^ bit]);
            }
            23 => {
                asking.name = self.no_name(&asking.name);
                asking.length = asking.name.len() as u16;
            }
            _ => asking.room = self.short(32),
        }
    }

    /// A name near to that one, or an interface's.
    fn no_name(&mut self, name: &[u8]) -> Vec<u8> {
        let interface = self.view.interface_names[self.random.below(8)].as_bytes();
        if self.random.one_in(5) && !interface.is_empty() { interface.to_vec() } else { other_name(self.random, name) }
    }

    // ---- proof

    pub(super) fn proof(&mut self, aim: Aim) -> Plan {
        let waiting = self.hosts(|record| matches!(record, Record::Waiting { .. }));
        let Some(place) = self.random.any(&waiting) else {
            return self.request(Aim::Good);
        };
        let challenge = match self.view.records[place] {
            Record::Waiting { challenge_2 } => challenge_2,
            _ => [0; 16],
        };
        let (mut host, mut proof) = (number(place), [challenge, self.random.array()].concat());
        let mut room = 20 + self.spare();
        match aim {
            Aim::Size(size, _) => stretch(&mut proof, Some(size)),
            Aim::Refusals(numbers) => numbers.into_iter().for_each(|number| match number {
                7 => room = self.short(20),
                _ => self.spoil_proof(&mut host, &mut proof, number),
            }),
            _ => {}
        }
        Plan { call: Call::Proof { host, proof: proof.into() }, room }
    }

    fn spoil_proof(&mut self, host: &mut u16, proof: &mut Vec<u8>, refusal: u8) {
        match refusal {
            4 => *host = self.outside(self.view.host_count),
            25 => stretch(proof, Some(self.random.pick(&[0, 1, 15, 16, 31, 33, 48, 64]))),
            26 => {
                let others = self.hosts(|record| !matches!(record, Record::Waiting { .. }));
                *host = self.random.any(&others).map_or(*host, number);
            }
            _ => {
                let bit = self.bit_of_sixteen();
                proof[bit / 8] ^= 0x80 >> (bit % 8);
            }
        }
    }

    // ---- reply

    pub(super) fn reply(&mut self, aim: Aim) -> Plan {
        let owed = self.hosts(|record| matches!(record, Record::Open { owed: true, .. }));
        let Some(place) = self.random.any(&owed) else {
            return self.command(Aim::Good);
        };
        let sequence = self.last(place);
        let mut replying = Replying { host: number(place), sequence, payload: self.payload(), room: None };
        match aim {
            Aim::Size(size, _) => replying.payload = self.random.bytes(size).into(),
            Aim::Refusals(numbers) => numbers.into_iter().for_each(|number| self.spoil_reply(&mut replying, number)),
            _ => {}
        }
        let room = replying.room.unwrap_or(32 + replying.payload.len() + self.spare());
        Plan { call: Call::Reply { host: replying.host, sequence: replying.sequence, payload: replying.payload }, room }
    }

    fn spoil_reply(&mut self, replying: &mut Replying, refusal: u8) {
        let sequence = replying.sequence;
        match refusal {
            4 => replying.host = self.outside(self.view.host_count),
            6 => {
                let others = self.hosts(|record| !matches!(record, Record::Open { .. }));
                replying.host = self.random.any(&others).map_or(replying.host, number);
            }
            29 if self.random.one_in(3) => {
                let others = self.hosts(|record| matches!(record, Record::Open { owed: false, .. }));
                let place = self.random.any(&others).unwrap_or(usize::from(replying.host) - 1);
                (replying.host, replying.sequence) = (number(place), self.last(place));
            }
            29 => replying.sequence = self.random.pick(&[sequence.wrapping_add(1), sequence.wrapping_sub(1), sequence ^ 256, sequence & 255, 0]),
            30 => {
                let length = self.random.pick(&[16_385, 16_386, 20_000]);
                replying.payload = self.random.bytes(length).into();
            }
            _ => replying.room = Some(self.short(32 + replying.payload.len())),
        }
    }

    fn last(&self, place: usize) -> u16 {
        match self.view.records.get(place) {
            Some(Record::Open { last, .. }) => *last,
            _ => 0,
        }
    }

    // ---- close, revoke

    pub(super) fn close(&mut self, aim: Aim) -> Plan {
        let good = self.any_host().map_or(1, number);
        let host = if matches!(aim, Aim::Refusals(_)) { self.outside(self.view.host_count) } else { good };
        Plan { call: Call::Close { host }, room: 0 }
    }

    pub(super) fn revoke(&mut self, aim: Aim) -> Plan {
        let count = self.view.interface_count;
        let place = self.random.below(usize::from(count)).min(7);
        let entries = self.entries(place);
        let (mut interface, mut entry) = (number(place), number(self.random.below(usize::from(entries))));
        if let Aim::Refusals(numbers) = aim {
            entry = if numbers.contains(&15) { self.outside(entries) } else { entry };
            interface = if numbers.contains(&14) { self.outside(count) } else { interface };
        }
        let (bit, other) = (1 << self.random.below(64), 1 << self.random.below(64));
        let (half, any) = (self.random.word() | self.random.word(), self.random.word());
        let word = self.random.pick(&[u64::MAX, !bit, !bit, !bit, !(bit | other), !(bit | other), half, any]);
        Plan { call: Call::Revoke { interface, entry, word }, room: 0 }
    }
}
