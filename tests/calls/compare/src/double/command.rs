//! A double's check of a command.

use deebqoshaan::raw::{Order, State};
use model::aes::encrypt_block;
use model::bytes::{array_at, u16_at};
use model::capability::{ALL_ONES, first_secret, words_at};
use model::gcm;

use super::server::{Laid, laid, lay};
use super::{Check, Double, Odd, at, outside, place, sixteen};
use crate::call::{Answer, Kind, Room};

/// A packet taken apart, whatever is wrong with it.
struct Heard {
    client: u16,
    record: Laid,
    open: bool,
    /// The number that this one has to be above.
    last: u16,
    tag_is_right: bool,
    text: Vec<u8>,
    order: Order,
}

impl Double {
    pub(super) fn command(&mut self, state: &mut State, packet: &mut [u8], room: &mut Room) -> Answer {
        let heard = self.heard(state, packet);
        let mut checks = self.open_checks(state, packet, &heard, room.len());
        checks.extend(self.right_checks(state, &heard));
        let number = self.number(Kind::Command, &checks);
        let blocks = self.command_blocks(number, &heard);
        let payload = heard.text.get(64..).unwrap_or(&[]);
        let early = [(8, Odd::BeforeTheTag), (18, Odd::BeforeTheRights), (19, Odd::BeforeTheSecret)];
        if number == 0 || early.iter().any(|&(whose, odd)| whose == number && self.has(odd)) {
            self.write(room, payload);
        }
        if number == 0 && self.has(Odd::InPlace) {
            packet[32..].copy_from_slice(&heard.text);
        }
        let shown = number == 0 || number == 19 && self.has(Odd::FieldsShown);
        let order = if shown { heard.order.clone() } else { Order::default() };
        self.settle(state, number, heard);
        Answer { number, blocks, order, ..Answer::default() }
    }

    fn heard(&self, state: &State, packet: &[u8]) -> Heard {
        let client = u16_at(packet, 0);
        let record = laid(&state.records, place(client));
        let key = if self.has(Odd::KeyOfFirst) { sixteen(&state.records.keys, 0) } else { record.key };
        let (vector, encrypted) = (array_at(packet, 4), packet.get(32..).unwrap_or(&[]));
        let data = packet.get(..4).unwrap_or(&[]);
        let tag_is_right = gcm::open(&key, &vector, data, encrypted, &array_at(packet, 16)).plain.is_some();
        // Enciphering in counter mode once more deciphers, whether the tag is right or not.
        let text = gcm::seal(&key, &vector, data, encrypted).encrypted;
        let open = matches!(record.tag, 2 | 3) || record.tag > 3 && self.has(Odd::UnknownIsOpen);
        let greatest = state.records.lasts.iter().copied().max().unwrap_or(0);
        let last = match record.last {
            _ if self.has(Odd::OneForTheBox) => greatest,
            _ if self.has(Odd::BesideTheState) => at(&self.lasts, place(client)),
            last => last,
        };
        Heard { client, record, open, last, tag_is_right, order: order(&text), text }
    }

    fn open_checks(&self, state: &State, packet: &[u8], heard: &Heard, room: usize) -> Vec<Check> {
        let Heard { client, order, .. } = heard;
        let (sequence, last) = (order.sequence, heard.last);
        let fresh = match () {
            _ if self.has(Odd::SignedNumbers) => sequence as i16 > last as i16,
            _ if self.has(Odd::EqualIsFresh) => sequence >= last,
            _ => sequence > last,
        };
        vec![
            (39, !self.sound(state)),
            (1, packet.len() < 96),
            (2, packet.len() > 16_480),
            (3, u16_at(packet, 2) != 0),
            (4, outside(*client, state.rights.hosts)),
            (5, at(packet, 4) >= 128),
            (6, !heard.open),
            (7, room < packet.len().saturating_sub(96)),
            (8, !heard.tag_is_right),
            (9, order.client != *client),
            (10, order.zeros != 0),
            (11, usize::from(order.length) != heard.text.len().saturating_sub(64)),
            (12, !fresh),
        ]
    }

    fn right_checks(&self, state: &State, heard: &Heard) -> Vec<Check> {
        let (rights, order) = (&state.rights, &heard.order);
        let (host, i, j) = (place(heard.client), place(order.interface), place(order.capability));
        let host_group = at(&rights.groups, host);
        let there = i < 8 && j < 16;
        let owner = if there { rights.owners[16 * i + j] } else { 0 };
        let word = if there { rights.words[16 * i + j] } else { 0 };
        let compared = if self.has(Odd::HostGroupAt16) { host_group } else { order.group };
        let (command, commands) = (u16::from(order.command), at(&rights.commands, i));
        let known = (state as *const State as usize, order.interface, order.capability, order.command);
        let kept = self.has(Odd::VerdictKept) && self.verdicts.contains(&known);
        vec![
            (13, (order.group != 0 || self.has(Odd::GroupZeroAt13)) && order.group != host_group),
            (14, outside(order.interface, rights.interfaces)),
            (15, outside(order.capability, at(&rights.entries, i))),
            (16, owner != 0 && owner != compared),
            (17, command >= commands && !(command == commands && self.has(Odd::AtTheCount))),
            (18, !(kept || self.permitted(word, order))),
            (19, !self.secret_is_right(&sixteen(&rights.secrets, i), order)),
        ]
    }

    fn permitted(&self, word: u64, order: &Order) -> bool {
        let present = if self.has(Odd::PresentUnasked) { ALL_ONES } else { word };
        let asked = match () {
            _ if self.has(Odd::StopIgnored) => stop(&order.words),
            _ if self.has(Odd::FourthUnasked) => 3,
            _ => 4,
        };
        let bit = u32::from(order.command) % if self.has(Odd::Shift32) { 32 } else { 64 };
        order.words[..asked].iter().fold(present, |all, word| all & word) >> bit & 1 == 1
    }

    fn secret_is_right(&self, master: &[u8; 16], order: &Order) -> bool {
        let words = order.words;
        let chained: Vec<u64> = match () {
            _ if self.has(Odd::StopChained) => words.into_iter().filter(|&word| word != ALL_ONES).collect(),
            _ if self.has(Odd::AllChained) => words.to_vec(),
            _ if self.has(Odd::FirstChained) => words[..stop(&words).min(1)].to_vec(),
            _ => words[..stop(&words)].to_vec(),
        };
        let secret = chained.into_iter().fold(self.first(master, order.capability), |secret, word| self.next(&secret, word));
        let compared = if self.has(Odd::SecretOf15) { 15 } else { 16 };
        secret[..compared] == order.secret[..compared]
    }

    pub(super) fn first(&self, master: &[u8; 16], id: u16) -> [u8; 16] {
        first_secret(master, if self.has(Odd::LowByteOfId) { id & 255 } else { id })
    }

    pub(super) fn next(&self, secret: &[u8; 16], word: u64) -> [u8; 16] {
        let word = if self.has(Odd::WordBackwards) { word.swap_bytes() } else { word };
        encrypt_block(secret, &u128::from(word).to_le_bytes())
    }

    fn command_blocks(&self, number: u8, heard: &Heard) -> usize {
        let whole = self.counted(heard.text.len());
        let words = if self.has(Odd::CountFour) { 4 } else { stop(&heard.order.words) };
        match number {
            39 | 1..=7 => 0,
            8 if self.has(Odd::Count8) => whole,
            8 => 2,
            18 if self.has(Odd::Count18) => whole + 1,
            9..=18 => whole,
            19 if self.has(Odd::Count19) => whole + words,
            _ => whole + 1 + words,
        }
    }

    /// What a judged command leaves in its host's record and in the double's memory.
    fn settle(&mut self, state: &mut State, number: u8, heard: Heard) {
        let (order, record) = (heard.order, heard.record);
        let (tag, last) = match number {
            0 if self.has(Odd::NotOwed) => (2, order.sequence),
            0 if self.has(Odd::NotMoved) => (3, record.last),
            0 if self.has(Odd::CountedUp) => (3, record.last.wrapping_add(1)),
            0 => (3, order.sequence),
            13..=19 if self.has(Odd::MovedByRefused) => (record.tag, order.sequence),
            9..=19 if self.has(Odd::ClaimEnded) => (2, record.last),
            _ => return,
        };
        lay(&mut state.records, place(heard.client), Laid { tag, last, ..record });
        if number == 0 {
            self.verdicts.push((state as *const State as usize, order.interface, order.capability, order.command));
            self.lasts.get_mut(place(heard.client)).into_iter().for_each(|last| *last = order.sequence);
        }
    }
}

/// How many words stand before the first all-ones word.
fn stop(words: &[u64; 4]) -> usize {
    words.iter().position(|&word| word == ALL_ONES).unwrap_or(4)
}

fn order(text: &[u8]) -> Order {
    Order {
        client: u16_at(text, 0),
        sequence: u16_at(text, 2),
        group: u16_at(text, 4),
        interface: u16_at(text, 6),
        capability: u16_at(text, 8),
        length: u16_at(text, 10),
        command: at(text, 12),
        zeros: u32::from_le_bytes([at(text, 13), at(text, 14), at(text, 15), 0]),
        words: words_at(text, 16),
        secret: array_at(text, 48),
    }
}
