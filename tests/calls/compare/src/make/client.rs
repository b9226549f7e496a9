//! The client's calls.

use model::bytes::array_at;
use model::capability::{ALL_ONES, Capability};
use model::packet::reply_vector;
use model::{Record, gcm};

use super::{Aim, Maker, Plan, stretch};
use crate::call::{Bytes, Call, Sealing};

/// A reply to be opened, field by field, and what happens to it after it was sealed.
struct Opening {
    key: [u8; 16],
    key_length: usize,
    expected: u16,
    vector: [u8; 12],
    sequence: u16,
    length: u16,
    payload: Bytes,
    wrong_bit: Option<usize>,
    cut: Option<usize>,
    room: Option<usize>,
}

const WRONG_SIXTEEN: [usize; 5] = [0, 1, 15, 17, 32];
const WRONG_TWELVE: [usize; 5] = [0, 1, 11, 13, 16];
const WRONG_FIFTY: [usize; 5] = [0, 1, 49, 51, 64];

impl Maker<'_> {
    pub(super) fn key(&mut self) -> Plan {
        Plan { call: Call::Key { challenge_2: self.random.array(), challenge_3: self.random.array() }, room: 16 }
    }

    // ---- issue, narrow

    pub(super) fn issue(&mut self, aim: Aim) -> Plan {
        let place = self.random.below(usize::from(self.view.interface_count)).min(7);
        let mut master = self.view.master_secrets[place].to_vec();
        let entry = 1 + self.random.below(usize::from(self.entries(place))) as u16;
        let any = self.random.two_bytes().max(1);
        let mut id = self.random.pick(&[entry, entry, entry, entry + 256, any]);
        let mut room = 50 + self.spare();
        if let Aim::Refusals(numbers) = aim {
            numbers.into_iter().for_each(|number| match number {
                28 => stretch(&mut master, Some(self.random.pick(&WRONG_SIXTEEN))),
                15 => id = 0,
                _ => room = self.short(50),
            });
        }
        Plan { call: Call::Issue { master: master.into(), id }, room }
    }

    pub(super) fn narrow(&mut self, aim: Aim) -> Plan {
        let mut capability = self.held().1;
        let (any, bit) = (self.random.word(), 1 << self.random.below(64));
        let mut word = self.random.pick(&[any, any, !bit, bit, 0, ALL_ONES >> 1]);
        let mut room = 50 + self.spare();
        match aim {
            Aim::Size(size, _) => stretch(&mut capability, Some(size)),
            Aim::Refusals(numbers) => numbers.into_iter().for_each(|number| match number {
                28 => stretch(&mut capability, Some(self.random.pick(&WRONG_FIFTY))),
                32 => word = ALL_ONES,
                31 => self.random.fill(&mut capability[2..34]),
                _ => room = self.short(50),
            }),
            _ => {}
        }
        Plan { call: Call::Narrow { capability: capability.into(), word }, room }
    }

    /// A capability and its interface: one that calls have made, or a new one.
    fn held(&mut self) -> (u16, Vec<u8>) {
        let kept = self.pool.capabilities.get(self.random.below(self.pool.capabilities.len()));
        match kept.filter(|_| !self.random.one_in(3)) {
            Some(held) => held.clone(),
            None => {
                let command = self.random.below(64) as u8;
                (1, self.new_capability(1, command))
            }
        }
    }

    fn new_capability(&mut self, interface: u16, command: u8) -> Vec<u8> {
        let id = 1 + self.random.below(usize::from(self.entries(usize::from(interface) - 1))) as u16;
        let words = self.words(command);
        let chained: Vec<u64> = words.iter().copied().take_while(|&word| word != ALL_ONES).collect();
        Capability { id, words, secret: self.secret(interface, id, &chained) }.to_bytes().to_vec()
    }

    // ---- seal a command

    pub(super) fn seal(&mut self, aim: Aim) -> Plan {
        let mut sealing = self.sealing();
        let mut room = None;
        match aim {
            Aim::Size(size, _) => sealing.payload = self.random.bytes(size).into(),
            Aim::Refusals(numbers) => numbers.into_iter().for_each(|number| match number {
                7 => room = Some(self.short(96 + sealing.payload.len())),
                _ => self.spoil_sealing(&mut sealing, number),
            }),
            _ => {}
        }
        let room = room.unwrap_or(96 + sealing.payload.len() + self.spare());
        Plan { call: Call::Seal(sealing), room }
    }

    /// What an open host would have sealed; any numbers, now and then.
    fn sealing(&mut self) -> Sealing {
        let (interface, held) = self.held();
        let place = self.right().map_or(0, |right| right.host);
        let (key, last) = match self.view.records[place] {
            Record::Open { key, last, .. } => (key, last),
            _ => (self.random.array(), 0),
        };
        let mut vector: [u8; 12] = self.random.array();
        vector[0] &= 127;
        let (group, any) = (self.view.host_groups[place], self.random.two_bytes());
        let mut sealing = Sealing {
            key: Bytes(key.to_vec()),
            vector: Bytes(vector.to_vec()),
            capability: Bytes(held.clone()),
            client: place as u16 + 1,
            sequence: last.saturating_add(1),
            group: self.random.pick(&[0, group]),
            interface,
            command: self.command_left(interface, &held),
            payload: self.payload(),
        };
        if self.random.one_in(5) {
            (sealing.client, sealing.sequence, sealing.group) = (any, any.rotate_left(3).max(1), any.rotate_left(7));
            (sealing.interface, sealing.command) = (any.rotate_left(11), any as u8);
        }
        sealing
    }

    /// A command that the capability and its entry permit, if there is one.
    fn command_left(&mut self, interface: u16, held: &[u8]) -> u8 {
        let Capability { id, words, .. } = Capability::from_bytes(&array_at(held, 0));
        let entries = self.view.entry_words.get(usize::from(interface).wrapping_sub(1));
        let word = entries.and_then(|words| words.get(usize::from(id).wrapping_sub(1))).copied().unwrap_or(0);
        self.bit_of(words.iter().fold(word, |left, word| left & word))
    }

    fn spoil_sealing(&mut self, sealing: &mut Sealing, number: u8) {
        match number {
            28 => match self.random.below(3) {
                0 => stretch(&mut sealing.key, Some(self.random.pick(&WRONG_SIXTEEN))),
                1 => stretch(&mut sealing.vector, Some(self.random.pick(&WRONG_TWELVE))),
                _ => stretch(&mut sealing.capability, Some(self.random.pick(&WRONG_FIFTY))),
            },
            5 => sealing.vector[0] |= 128,
            12 => sealing.sequence = 0,
            _ => {
                let length = self.random.pick(&[16_385, 16_386, 20_000]);
                sealing.payload = self.random.bytes(length).into();
            }
        }
    }

    // ---- open a reply

    pub(super) fn open(&mut self, aim: Aim) -> Plan {
        let kept = self.pool.replies.get(self.random.below(self.pool.replies.len()));
        if let (Some((key, expected, reply)), Aim::Good | Aim::Damage) = (kept, &aim) {
            let room = reply.len() - 32 + self.spare();
            return Plan { call: Call::Open { key: key[..].into(), expected: *expected, reply: reply[..].into() }, room };
        }
        let mut opening = self.opening();
        match aim {
            Aim::Size(size, 0) => {
                opening.payload = self.random.bytes(size - 32).into();
                opening.length = opening.payload.len() as u16;
            }
            Aim::Size(size, _) => opening.cut = Some(size),
            Aim::Refusals(numbers) => numbers.into_iter().for_each(|number| self.spoil_opening(&mut opening, number)),
            _ => {}
        }
        self.sealed_reply(opening)
    }

    fn opening(&mut self) -> Opening {
        let any = self.random.two_bytes();
        let expected = self.random.pick(&[0, 1, 255, 256, 65_535, any]);
        let payload = self.payload();
        Opening {
            key: self.random.array(),
            key_length: 16,
            expected,
            vector: reply_vector(expected),
            sequence: expected,
            length: payload.len() as u16,
            payload,
            wrong_bit: None,
            cut: None,
            room: None,
        }
    }

    fn spoil_opening(&mut self, opening: &mut Opening, number: u8) {
        let length = opening.payload.len();
        match number {
            28 => opening.key_length = self.random.pick(&WRONG_SIXTEEN),
            1 => opening.cut = Some(self.random.pick(&[0, 1, 12, 27, 28, 31, 31])),
            2 => opening.cut = Some(self.random.pick(&[16_417, 16_417, 16_418, 20_000])),
            5 if self.random.one_in(3) => opening.expected = self.random.pick(&[opening.expected ^ 1, opening.expected ^ 256, !opening.expected]),
            5 => opening.vector[self.random.below(12)] ^= 1 << self.random.below(8),
            7 => {
                stretch(&mut opening.payload, Some(length.max(1)));
                opening.room = Some(self.short(length.max(1)));
            }
            8 => {
                let (tag, text) = (8 * 12 + self.random.below(128), self.random.between(8 * 28, 8 * (32 + length) - 1));
                opening.wrong_bit = Some(self.random.pick(&[tag, tag, 8 * 12, 8 * 28 - 1, text, 8 * (32 + length) - 1]));
            }
            11 => opening.length = self.random.pick(&[opening.length + 1, opening.length.wrapping_sub(1), opening.length ^ 256]),
            _ => opening.sequence = self.random.pick(&[opening.sequence ^ 1, opening.sequence ^ 256, opening.sequence.wrapping_add(1)]),
        }
    }

    fn sealed_reply(&mut self, opening: Opening) -> Plan {
        let plain = [&opening.sequence.to_le_bytes()[..], &opening.length.to_le_bytes(), &opening.payload].concat();
        let sealed = gcm::seal(&opening.key, &opening.vector, &[], &plain);
        let mut reply = [&opening.vector[..], &sealed.tag, &sealed.encrypted].concat();
        if let Some(bit) = opening.wrong_bit {
            reply[bit / 8] ^= 0x80 >> (bit % 8);
        }
        stretch(&mut reply, opening.cut);
        let mut key = opening.key.to_vec();
        stretch(&mut key, Some(opening.key_length));
        let room = opening.room.unwrap_or(reply.len().saturating_sub(32) + self.spare());
        Plan { call: Call::Open { key: key.into(), expected: opening.expected, reply: reply.into() }, room }
    }
}
