//! A double's client: issuing, narrowing, sealing commands, opening replies.

use model::aes::encrypt_block;
use model::bytes::{array_at, u16_at};
use model::capability::{ALL_ONES, Capability, words_to_bytes};
use model::gcm;

use super::{Double, Odd, at, refused};
use crate::call::{Answer, Kind, Room, Sealing};

impl Double {
    pub(super) fn key(&self, challenge_2: &[u8; 16], challenge_3: &[u8; 16], room: &mut Room) -> Answer {
        let exchanged = self.has(Odd::ConnectionKey);
        let key = if exchanged { encrypt_block(challenge_3, challenge_2) } else { encrypt_block(challenge_2, challenge_3) };
        self.write(room, &key);
        refused(0)
    }

    pub(super) fn issue(&self, master: &[u8], id: u16, room: &mut Room) -> Answer {
        let checks = [(28, master.len() != 16), (15, id == 0), (7, room.len() < 50)];
        let number = self.number(Kind::Issue, &checks);
        if number != 0 {
            return refused(number);
        }
        let secret = self.first(&array_at(master, 0), id);
        self.write(room, &Capability { id, words: [ALL_ONES; 4], secret }.to_bytes());
        Answer { blocks: 1, ..refused(0) }
    }

    pub(super) fn narrow(&self, bytes: &[u8], word: u64, room: &mut Room) -> Answer {
        let mut capability = Capability::from_bytes(&array_at(bytes, 0));
        let mut places = (0..4).filter(|&k| capability.words[k] == ALL_ONES);
        let place = if self.has(Odd::LastPlace) { places.next_back() } else { places.next() };
        let checks = [(28, bytes.len() != 50), (32, word == ALL_ONES), (31, place.is_none()), (7, room.len() < 50)];
        let number = self.number(Kind::Narrow, &checks);
        if number != 0 {
            return refused(number);
        }
        capability.words[place.unwrap_or(3)] = word;
        capability.secret = self.next(&capability.secret, word);
        self.write(room, &capability.to_bytes());
        Answer { blocks: 1, ..refused(0) }
    }

    pub(super) fn seal(&self, of: &Sealing, room: &mut Room) -> Answer {
        let checks = [
            (28, of.key.len() != 16 || of.vector.len() != 12 || of.capability.len() != 50),
            (5, at(&of.vector, 0) >= 128),
            (12, of.sequence == 0),
            (30, of.payload.len() > 16_384),
            (7, room.len() < 96 + of.payload.len()),
        ];
        let number = self.number(Kind::Seal, &checks);
        if number != 0 {
            return refused(number);
        }
        let [low, high] = of.client.to_le_bytes();
        let (head, vector) = ([low, high, 0, 0], array_at(&of.vector, 0));
        let data = if self.has(Odd::DataUnsealed) { &[] } else { &head[..] };
        let sealed = gcm::seal(&array_at(&of.key, 0), &vector, data, &self.text(of));
        self.write(room, &[&head[..], &vector, &sealed.tag, &sealed.encrypted].concat());
        Answer { blocks: self.counted(64 + of.payload.len()), ..refused(0) }
    }

    fn text(&self, of: &Sealing) -> Vec<u8> {
        let capability = Capability::from_bytes(&array_at(&of.capability, 0));
        let length = of.payload.len() as u16 & if self.has(Odd::LengthLost) { 255 } else { u16::MAX };
        let numbers = [of.client, of.sequence, of.group, of.interface, capability.id, length];
        let numbers: Vec<u8> = numbers.iter().flat_map(|number| number.to_le_bytes()).collect();
        [&numbers[..], &[of.command, 0, 0, 0], &words_to_bytes(&capability.words), &capability.secret, &of.payload].concat()
    }

    pub(super) fn open(&self, key: &[u8], expected: u16, reply: &[u8], room: &mut Room) -> Answer {
        let compared = if self.has(Odd::VectorOf4) { 4 } else { 12 };
        let (vector, payload): ([u8; 12], usize) = (array_at(reply, 0), reply.len().saturating_sub(32));
        let (key_bytes, text) = (array_at(key, 0), reply.get(28..).unwrap_or(&[]));
        let plain = gcm::seal(&key_bytes, &vector, &[], text).encrypted;
        let tag_is_right = gcm::open(&key_bytes, &vector, &[], text, &array_at(reply, 12)).plain.is_some();
        let length = usize::from(u16_at(&plain, 2));
        let checks = [
            (28, key.len() != 16),
            (1, reply.len() < 32),
            (2, reply.len() > 16_416),
            (5, vector[..compared] != self.reply_vector(expected)[..compared]),
            (7, room.len() < payload),
            (8, !tag_is_right),
            (11, length != payload),
            (12, u16_at(&plain, 0) != expected),
        ];
        let number = self.number(Kind::Open, &checks);
        let blocks = match number {
            0 | 11 | 12 => self.counted(text.len()),
            8 => 2,
            _ => 0,
        };
        if number == 0 {
            self.write(room, plain.get(4..).unwrap_or(&[]));
        }
        let shown = number == 0 || number == 12 && self.has(Odd::LengthShown);
        Answer { blocks, length: if shown { length } else { 0 }, ..refused(number) }
    }
}
