//! Commands, field by field, sealed by the model's GCM.

use model::capability::{ALL_ONES, first_secret, next_secret, words_to_bytes};
use model::{Record, gcm};

use super::{Aim, Maker, Plan, stretch};
use crate::call::{Bytes, Call};

/// A command of one entry of one interface, by their places.
#[derive(Clone, Copy)]
pub struct Right {
    pub host: usize,
    pub interface: usize,
    pub entry: usize,
    pub command: u8,
}

/// A command packet before it is sealed, and what happens to it afterwards.
struct Ask {
    key: [u8; 16],
    client: u16,
    zeros: [u8; 2],
    vector: [u8; 12],
    inner: Inner,
    payload: Bytes,
    /// The words that the secret is chained over.
    chained: Chain,
    /// A bit of the secret that is wrong.
    wrong_secret: Option<usize>,
    /// A bit of the packet that is wrong.
    wrong_bit: Option<usize>,
    cut: Option<usize>,
    room: Option<usize>,
}

struct Inner {
    client: u16,
    sequence: u16,
    group: u16,
    interface: u16,
    capability: u16,
    length: u16,
    command: u8,
    zeros: [u8; 3],
    words: [u64; 4],
}

/// Which words a secret is chained over.
type Chain = fn(&[u64; 4]) -> Vec<u64>;

/// The words before the first all-ones word.
fn before_the_stop(words: &[u64; 4]) -> Vec<u64> {
    words.iter().copied().take_while(|&word| word != ALL_ONES).collect()
}

/// Chains that are wrong, each where the words show it.
const WRONG_CHAINS: [Chain; 6] = [
    |_| Vec::new(),
    |words| words.to_vec(),
    |words| words[..1].to_vec(),
    |words| words.iter().copied().filter(|&word| word != ALL_ONES).collect(),
    |words| before_the_stop(words).into_iter().rev().collect(),
    |words| before_the_stop(words).into_iter().skip(1).collect(),
];

impl Maker<'_> {
    pub(super) fn command(&mut self, aim: Aim) -> Plan {
        let Some(right) = self.right() else {
            return self.proof(Aim::Good);
        };
        let mut ask = self.ask(right);
        match aim {
            Aim::Size(size, 0) => {
                ask.payload = self.random.bytes(size - 96).into();
                ask.inner.length = ask.payload.len() as u16;
            }
            Aim::Size(size, _) => ask.cut = Some(size),
            Aim::Refusals(numbers) => numbers.into_iter().for_each(|number| self.spoil(&mut ask, number)),
            _ => {}
        }
        self.sealed(ask)
    }

    /// A good command of that right.
    pub fn command_of(&mut self, right: Right) -> Plan {
        let ask = self.ask(right);
        self.sealed(ask)
    }

    /// A command that an open host has a right to, if there is one.
    pub fn right(&mut self) -> Option<Right> {
        let open = self.hosts(|record| matches!(record, Record::Open { .. }));
        let host = self.random.any(&open)?;
        let group = self.view.host_groups[host];
        let interfaces = usize::from(self.view.interface_count).min(8);
        let places = (0..interfaces).flat_map(|i| (0..usize::from(self.entries(i))).map(move |j| (i, j)));
        let its: Vec<(usize, usize)> = places.filter(|&(i, j)| [0, group].contains(&self.view.entry_groups[i][j])).collect();
        let used: Vec<(usize, usize)> = its.iter().copied().filter(|&(i, j)| self.view.entry_words[i][j] != 0).collect();
        let (interface, entry) = self.random.any(&used).or_else(|| self.random.any(&its)).unwrap_or((0, 0));
        let command = self.bit_of(self.view.entry_words[interface][entry]);
        Some(Right { host, interface, entry, command })
    }

    /// A bit that is 1 in that word; 0 if there is none.
    pub(super) fn bit_of(&mut self, word: u64) -> u8 {
        let bits: Vec<u8> = (0..64).filter(|&bit| word >> bit & 1 == 1).collect();
        self.random.any(&bits).unwrap_or(0)
    }

    fn ask(&mut self, right: Right) -> Ask {
        let Right { host, interface, entry, command } = right;
        let (key, last) = match self.view.records[host] {
            Record::Open { key, last, .. } => (key, last),
            _ => (self.random.array(), 0),
        };
        let owner = self.view.entry_groups[interface][entry];
        let group = if owner != 0 { owner } else { self.random.pick(&[0, self.view.host_groups[host]]) };
        let payload = self.payload();
        let mut vector: [u8; 12] = self.random.array();
        vector[0] &= 127;
        let client = host as u16 + 1;
        let (sequence, words) = (self.fresh_number(last), self.words(command));
        let (interface, capability, length) = (interface as u16 + 1, entry as u16 + 1, payload.len() as u16);
        let inner = Inner { client, sequence, group, interface, capability, length, command, zeros: [0; 3], words };
        let chained = before_the_stop;
        Ask { key, client, zeros: [0; 2], vector, inner, payload, chained, wrong_secret: None, wrong_bit: None, cut: None, room: None }
    }

    /// Mostly the next number; now and then a later one, and the last there is.
    fn fresh_number(&mut self, last: u16) -> u16 {
        let any = last.saturating_add(1 + self.random.below(usize::from(u16::MAX - last).max(1)) as u16);
        let few = last.saturating_add(self.random.between(2, 300) as u16);
        match self.random.below(60) {
            0 => u16::MAX,
            1 => any,
            2..=12 => few,
            _ => last.saturating_add(1),
        }
    }

    /// Up to four words that have the command's bit. One time in four an all-ones word stands before one of them.
    pub(super) fn words(&mut self, command: u8) -> [u64; 4] {
        let count = self.random.pick(&[0, 0, 1, 1, 2, 3, 4]);
        let bit = 1u64 << (command % 64);
        let mut words = [ALL_ONES; 4];
        for word in &mut words[..count] {
            let (any, other) = (self.random.word(), 1 << self.random.below(64));
            *word = bit | self.random.pick(&[any, any, 0, !other]);
        }
        if self.random.one_in(4) {
            words.swap(self.random.below(4), self.random.below(4));
        }
        words
    }

    // ---- what is wrong

    fn spoil(&mut self, ask: &mut Ask, number: u8) {
        match number {
            1..=8 => self.spoil_open_part(ask, number),
            9..=12 => self.spoil_inner(ask, number),
            _ => self.spoil_right(ask, number),
        }
    }

    fn spoil_open_part(&mut self, ask: &mut Ask, number: u8) {
        match number {
            1 => ask.cut = Some(self.random.pick(&[0, 1, 4, 16, 32, 64, 95, 95])),
            2 => ask.cut = Some(self.random.pick(&[16_481, 16_481, 16_482, 20_000])),
            3 => ask.zeros[self.random.below(2)] = 1 << self.random.below(8),
            4 => ask.client = self.outside(self.view.host_count),
            5 => ask.vector[0] |= 128,
            6 => {
                let others = self.hosts(|record| !matches!(record, Record::Open { .. }));
                ask.client = self.random.any(&others).map_or(ask.client, |host| host as u16 + 1);
                ask.inner.client = ask.client;
            }
            7 => {
                let length = ask.payload.len().max(1);
                stretch(&mut ask.payload, Some(length));
                ask.room = Some(self.short(length));
            }
            _ => ask.wrong_bit = Some(self.bit_to_hurt(8 * (96 + ask.payload.len()))),
        }
    }

    /// Any bit of sixteen bytes; the first and the last are likelier.
    pub(super) fn bit_of_sixteen(&mut self) -> usize {
        let any = self.random.below(128);
        self.random.pick(&[0, 127, any, any])
    }

    /// A bit of the tag, of the vector but its highest, or of the encrypted part.
    fn bit_to_hurt(&mut self, bits: usize) -> usize {
        let (tag, vector, text) = (8 * 16 + self.random.below(128), 8 * 5 + self.random.below(88), self.random.between(8 * 32, bits - 1));
        self.random.pick(&[tag, tag, 8 * 16, 8 * 32 - 1, vector, text, text, bits - 1])
    }

    fn spoil_inner(&mut self, ask: &mut Ask, number: u8) {
        let last = match self.view.records.get(usize::from(ask.client).wrapping_sub(1)) {
            Some(Record::Open { last, .. }) => *last,
            _ => 0,
        };
        let (length, inner) = (ask.payload.len() as u16, &mut ask.inner);
        let below = self.random.below(usize::from(last) + 1) as u16;
        match number {
            9 => inner.client = self.random.pick(&[inner.client + 1, inner.client - 1, inner.client ^ 256, inner.client ^ 0x8000]),
            10 => inner.zeros[self.random.below(3)] = 1 << self.random.below(8),
            11 => inner.length = self.random.pick(&[length + 1, length.wrapping_sub(1), length ^ 256, length ^ 0x8000]),
            _ => inner.sequence = self.random.pick(&[last, last, last.saturating_sub(1), below, below, last & 255, last.min(255), 0]),
        }
    }

    fn spoil_right(&mut self, ask: &mut Ask, number: u8) {
        let (interface, entry) = (usize::from(ask.inner.interface).wrapping_sub(1), usize::from(ask.inner.capability).wrapping_sub(1));
        let (entries, commands) = (self.entries(interface), self.commands(interface));
        let group = self.view.host_groups.get(usize::from(ask.client).wrapping_sub(1)).copied().unwrap_or(0);
        match number {
            13 => ask.inner.group = self.random.pick(&[group.wrapping_add(1), group ^ 256, group ^ 0x8000, !group]),
            14 => ask.inner.interface = self.outside(self.view.interface_count),
            15 => ask.inner.capability = self.outside(entries),
            16 => self.spoil_entry(ask, interface, entries),
            17 => ask.inner.command = self.random.pick(&[commands as u8, commands as u8, 64, 128, 255]).max(commands as u8),
            18 => self.spoil_bit(ask, interface, entry, commands),
            _ if self.random.one_in(2) => ask.wrong_secret = Some(self.bit_of_sixteen()),
            _ => ask.chained = self.random.pick(&WRONG_CHAINS),
        }
    }

    /// Another entry, whose group isn't the packet's; or the same with a packet of no group.
    fn spoil_entry(&mut self, ask: &mut Ask, interface: usize, entries: u16) {
        let groups = self.view.entry_groups.get(interface).copied().unwrap_or([0; 16]);
        let packet = ask.inner.group;
        let others: Vec<usize> = (0..usize::from(entries)).filter(|&j| groups[j] != 0 && groups[j] != packet).collect();
        match self.random.any(&others).filter(|_| packet == 0 || self.random.one_in(2)) {
            Some(entry) => ask.inner.capability = entry as u16 + 1,
            None => ask.inner.group = 0,
        }
    }

    /// A command whose bit the entry's word lacks, or one of the four words.
    fn spoil_bit(&mut self, ask: &mut Ask, interface: usize, entry: usize, commands: u16) {
        let word = self.view.entry_words.get(interface).and_then(|words| words.get(entry)).copied().unwrap_or(0);
        let missing: Vec<u8> = (0..commands as u8).filter(|&bit| word >> bit & 1 == 0).collect();
        let twin = ask.inner.command ^ 32;
        match self.random.any(&missing).filter(|_| self.random.one_in(3)) {
            Some(_) if missing.contains(&twin) && self.random.one_in(3) => ask.inner.command = twin,
            Some(command) => ask.inner.command = command,
            None => ask.inner.words[self.random.pick(&[0, 1, 2, 3, 3])] &= !(1u64 << (ask.inner.command % 64)),
        }
    }

    // ---- sealing

    fn sealed(&mut self, ask: Ask) -> Plan {
        let head = [&ask.client.to_le_bytes()[..], &ask.zeros].concat();
        let sealed = gcm::seal(&ask.key, &ask.vector, &head, &self.text(&ask));
        let mut packet = [&head[..], &ask.vector, &sealed.tag, &sealed.encrypted].concat();
        if let Some(bit) = ask.wrong_bit {
            packet[bit / 8] ^= 0x80 >> (bit % 8);
        }
        stretch(&mut packet, ask.cut);
        let room = ask.room.unwrap_or(packet.len().saturating_sub(96) + self.spare());
        Plan { call: Call::Command { packet: packet.into() }, room }
    }

    fn text(&self, ask: &Ask) -> Vec<u8> {
        let Inner { client, sequence, group, interface, capability, length, command, zeros, words } = &ask.inner;
        let numbers = [client, sequence, group, interface, capability, length];
        let mut text: Vec<u8> = numbers.iter().flat_map(|number| number.to_le_bytes()).collect();
        text.push(*command);
        text.extend(zeros);
        text.extend(words_to_bytes(words));
        let mut secret = self.secret(*interface, *capability, &(ask.chained)(words));
        if let Some(bit) = ask.wrong_secret {
            secret[bit / 8] ^= 0x80 >> (bit % 8);
        }
        text.extend(secret);
        text.extend(ask.payload.iter());
        text
    }

    /// The secret of that capability, narrowed by these words; under zeros where there is no such interface.
    pub(super) fn secret(&self, interface: u16, capability: u16, words: &[u64]) -> [u8; 16] {
        let master = self.view.master_secrets.get(usize::from(interface).wrapping_sub(1)).copied().unwrap_or([0; 16]);
        words.iter().fold(first_secret(&master, capability), |secret, &word| next_secret(&secret, word))
    }
}
