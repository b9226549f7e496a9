//! A double's requests, proofs, replies, closing and revoking.

use deebqoshaan::raw::{Records, State};
use model::aes::encrypt_block;
use model::bytes::{array_at, u16_at};
use model::gcm;

use super::{Double, Odd, at, outside, place, refused, sixteen};
use crate::call::{Answer, Kind, Room};

/// A record as the C interface lays it out.
pub(super) struct Laid {
    pub tag: u8,
    pub last: u16,
    pub challenge: [u8; 16],
    pub key: [u8; 16],
}

pub(super) fn laid(records: &Records, i: usize) -> Laid {
    Laid { tag: at(&records.tags, i), last: at(&records.lasts, i), challenge: sixteen(&records.challenges, i), key: sixteen(&records.keys, i) }
}

pub(super) fn lay(records: &mut Records, i: usize, record: Laid) {
    if i >= 32 {
        return;
    }
    records.tags[i] = record.tag;
    records.lasts[i] = record.last;
    records.challenges[16 * i..16 * (i + 1)].copy_from_slice(&record.challenge);
    records.keys[16 * i..16 * (i + 1)].copy_from_slice(&record.key);
}

impl Double {
    // ---- request

    pub(super) fn request(&mut self, state: &mut State, request: &[u8], fresh: &[u8], room: &mut Room) -> Answer {
        let name = request.get(20..).unwrap_or(&[]);
        let found = self.named(state, name);
        let minor = at(request, 1) != 0 && !self.has(Odd::MinorUnjudged);
        let checks = [
            (39, !self.sound(state)),
            (28, fresh.len() != 16),
            (20, !(21..=276).contains(&request.len())),
            (21, at(request, 0) != 1 || minor),
            (22, usize::from(u16_at(request, 2)) != request.len().wrapping_sub(20)),
            (23, found.is_none()),
            (7, room.len() < 32),
        ];
        let host = found.map_or(0, |i| i as u16 + 1);
        let number = self.number(Kind::Request, &checks);
        if number != 0 {
            return Answer { host: if self.has(Odd::HostShown) { host } else { 0 }, ..refused(number) };
        }
        let (challenge_1, challenge_2): ([u8; 16], [u8; 16]) = (array_at(request, 4), array_at(fresh, 0));
        let written = if self.has(Odd::ChallengesExchanged) { [challenge_2, challenge_1] } else { [challenge_1, challenge_2] };
        self.write(room, &written.concat());
        self.wait(&mut state.records, found.unwrap_or(0), challenge_2);
        Answer { host, ..refused(0) }
    }

    /// The host with that name.
    fn named(&self, state: &State, name: &[u8]) -> Option<usize> {
        let equal = |i: usize| {
            let size = if self.has(Odd::NameWithoutLength) { name.len() } else { usize::from(state.rights.sizes[i]) };
            let held = &state.names[256 * i..][..size.min(256)];
            held == name || self.has(Odd::NameAnyCase) && held.eq_ignore_ascii_case(name)
        };
        let mut hosts = (0..usize::from(state.rights.hosts).min(32)).filter(|&i| equal(i));
        if self.has(Odd::HighestName) { hosts.next_back() } else { hosts.next() }
    }

    fn wait(&self, records: &mut Records, i: usize, challenge: [u8; 16]) {
        let before = laid(records, i);
        let kept = matches!(before.tag, 2 | 3) && self.has(Odd::ConnectionKept) || before.tag == 1 && self.has(Odd::OlderChallenge);
        if !kept {
            lay(records, i, Laid { tag: 1, last: 0, challenge, key: [0; 16] });
        }
    }

    // ---- proof

    pub(super) fn proof(&mut self, state: &mut State, host: u16, proof: &[u8], room: &mut Room) -> Answer {
        let (i, record) = (place(host), laid(&state.records, place(host)));
        let compared = if self.has(Odd::ChallengeOf15) { 15 } else { 16 };
        let shown: [u8; 16] = array_at(proof, 0);
        let checks = [
            (39, !self.sound(state)),
            (4, outside(host, state.rights.hosts)),
            (25, proof.len() != 32),
            (26, record.tag != 1),
            (27, shown[..compared] != record.challenge[..compared]),
            (7, room.len() < 20),
        ];
        let number = self.number(Kind::Proof, &checks);
        if number != 0 {
            if number == 27 && self.has(Odd::WaitingEnded) {
                lay(&mut state.records, i, Laid { tag: 0, last: 0, challenge: [0; 16], key: [0; 16] });
            }
            return refused(number);
        }
        let challenge_3: [u8; 16] = array_at(proof, 16);
        let client = if self.has(Odd::ClientZero) { 0 } else { host };
        self.write(room, &[&client.to_le_bytes()[..], &[0, 0], &challenge_3].concat());
        self.connect(&mut state.records, i, record, challenge_3);
        Answer { blocks: 1, ..refused(0) }
    }

    fn connect(&mut self, records: &mut Records, i: usize, record: Laid, challenge_3: [u8; 16]) {
        let exchanged = self.has(Odd::KeyExchanged);
        let key = if exchanged { encrypt_block(&challenge_3, &record.challenge) } else { encrypt_block(&record.challenge, &challenge_3) };
        let challenge = if self.has(Odd::ChallengeKept) { record.challenge } else { [0; 16] };
        let last = if self.has(Odd::LastKept) { record.last } else { 0 };
        lay(records, i, Laid { tag: 2, last, challenge, key });
        self.lasts.get_mut(i).into_iter().for_each(|last| *last = 0);
    }

    // ---- reply

    pub(super) fn reply(&mut self, state: &mut State, host: u16, sequence: u16, payload: &[u8], room: &mut Room) -> Answer {
        let (i, record) = (place(host), laid(&state.records, place(host)));
        let owed = record.tag == 3 && (sequence == record.last || self.has(Odd::AnyNumberOwed));
        let checks = [
            (39, !self.sound(state)),
            (4, outside(host, state.rights.hosts)),
            (6, !matches!(record.tag, 2 | 3)),
            (29, !owed),
            (30, payload.len() > 16_384),
            (7, room.len() < 32 + payload.len()),
        ];
        let number = self.number(Kind::Reply, &checks);
        if number != 0 {
            return refused(number);
        }
        let vector = self.reply_vector(sequence);
        let data = if self.has(Odd::ReplyWithData) { &vector[..4] } else { &[] };
        let length = (payload.len() as u16).to_le_bytes();
        let sealed = gcm::seal(&record.key, &vector, data, &[&sequence.to_le_bytes()[..], &length, payload].concat());
        self.write(room, &[&vector[..], &sealed.tag, &sealed.encrypted].concat());
        let tag = if self.has(Odd::OwedForever) { 3 } else { 2 };
        let last = if self.has(Odd::SetBack) { 0 } else { record.last };
        lay(&mut state.records, i, Laid { tag, last, ..record });
        Answer { blocks: self.counted(4 + payload.len()), ..refused(0) }
    }

    pub(super) fn reply_vector(&self, sequence: u16) -> [u8; 12] {
        let [low, high] = if self.has(Odd::ReplyBackwards) { sequence.to_be_bytes() } else { sequence.to_le_bytes() };
        let [low, high] = if self.has(Odd::ReplyVector) { [0, 0] } else { [low, high] };
        [128, 0, low, high, 0, 0, 0, 0, 0, 0, 0, 0]
    }

    /// The blocks of sealing or opening so many bytes.
    pub(super) fn counted(&self, length: usize) -> usize {
        2 + if self.has(Odd::CountWhole) { length / 16 } else { super::sixteenths(length) }
    }

    // ---- close, revoke

    pub(super) fn close(&mut self, state: &mut State, host: u16) -> Answer {
        let number = self.number(Kind::Close, &[(39, !self.sound(state)), (4, outside(host, state.rights.hosts))]);
        let before = laid(&state.records, place(host));
        if number != 0 || self.has(Odd::CloseOpenAlone) && !matches!(before.tag, 2 | 3) {
            return refused(number);
        }
        let key = if self.has(Odd::CloseKeepsKey) { before.key } else { [0; 16] };
        lay(&mut state.records, place(host), Laid { tag: 0, last: 0, challenge: [0; 16], key });
        if self.has(Odd::CloseNext) {
            lay(&mut state.records, place(host) + 1, Laid { tag: 0, last: 0, challenge: [0; 16], key: [0; 16] });
        }
        refused(0)
    }

    pub(super) fn revoke(&mut self, state: &mut State, interface: u16, entry: u16, word: u64) -> Answer {
        let (i, j) = (place(interface), place(entry));
        let checks =
            [(39, !self.sound(state)), (14, outside(interface, state.rights.interfaces)), (15, outside(entry, at(&state.rights.entries, i)))];
        let number = self.number(Kind::Revoke, &checks);
        if number != 0 || i >= 8 {
            return refused(number);
        }
        let words = &mut state.rights.words[16 * i..16 * (i + 1)];
        let every = self.has(Odd::RevokesAll);
        for (_, present) in words.iter_mut().enumerate().filter(|(k, _)| every || *k == j) {
            *present = match () {
                _ if self.has(Odd::Replaces) => word,
                _ if self.has(Odd::TakesTheRest) => *present & !word,
                _ if self.has(Odd::RevokesNothing) => *present,
                _ => *present & word,
            };
        }
        refused(0)
    }
}
