//! "Samples on both sides": P4 to P9 and the packet lengths, through the calls. P1 to P3 and P10 stand beside the definitions they are about.

use model::capability::{ALL_ONES, Capability};
use model::refusal::*;
use model::{Answer, Command, CommandFields, Record, State};
use model::{close, command, issue, load, narrow, open, proof, reply, request, revoke, seal};

const MASTER: [u8; 16] = [7; 16];
const ONES: [u64; 4] = [ALL_ONES; 4];

/// One host `a` of group 0; one interface `i` of 64 commands with one entry.
fn book(entry_word: u64) -> Vec<u8> {
    let mut book = vec![1, 0, 2, 0, 66, 0, 0, 0];
    book.extend([1, 0, 1, 0, 32, 0, 0, 0, 3, 0, 0, 0]);
    book.extend([2, 0, 1, 0, 35, 0, 0, 0, 31, 0, 0, 0]);
    book.extend([0, 0, b'a']);
    book.extend(MASTER);
    book.extend([64, 0, 1, 0, 0, 0]);
    book.extend(entry_word.to_le_bytes());
    book.push(b'i');
    book
}

/// A state whose only host is open, and its key.
fn open_state(entry_word: u64) -> (State, [u8; 16]) {
    let (answer, mut state) = load(&book(entry_word));
    assert_eq!((answer.number, answer.fields), (ACCEPTED, 0));
    let hello = [&[1, 0, 1, 0][..], &[1; 16], b"a"].concat();
    assert_eq!(request(&mut state, &hello, &[2; 16], &mut [0; 32]).fields, 1);
    let shown = [[2; 16], [3; 16]].concat();
    assert_eq!(proof(&mut state, 1, &shown, &mut [0; 20]).blocks, 1);
    match state.records[0] {
        Record::Open { key, last: 0, owed: false } => (state, key),
        other => panic!("{other:?}"),
    }
}

/// A capability made by issuing and by narrowing with each word in turn.
fn capability(words: &[u64]) -> [u8; 50] {
    let mut made = [0; 50];
    assert_eq!(issue(&MASTER, 1, &mut made).blocks, 1);
    for &word in words {
        let before = made;
        assert_eq!(narrow(&before, word, &mut made).blocks, 1);
    }
    made
}

fn sealed(key: &[u8; 16], capability: &[u8], sequence: u16, id: u8, payload: &[u8]) -> Vec<u8> {
    let fields = Command { client: 1, sequence, group: 0, interface: 1, command: id, payload };
    let mut packet = vec![0; 96 + payload.len()];
    let answer = seal(key, &[0; 12], capability, &fields, &mut packet);
    assert_eq!((answer.number, answer.written), (ACCEPTED, packet.len()));
    packet
}

fn send(state: &mut State, packet: &[u8]) -> Answer<CommandFields> {
    command(state, packet, &mut vec![0; packet.len().saturating_sub(96)])
}

#[test]
fn p1_command_33_permitted_1_refused() {
    let (mut state, key) = open_state(1 << 33);
    let capability = capability(&[]);
    assert_eq!(send(&mut state, &sealed(&key, &capability, 1, 1, &[])).number, NOT_PERMITTED);
    let answer = send(&mut state, &sealed(&key, &capability, 1, 33, &[]));
    assert_eq!((answer.number, answer.fields.words), (ACCEPTED, ONES));
}

#[test]
fn p3_words_after_the_stop_are_not_chained() {
    let (mut state, key) = open_state(15);
    let mut holed = Capability::from_bytes(&capability(&[12]));
    holed.words = [12, ALL_ONES, 6, ALL_ONES];
    for id in [0, 1, 3] {
        let packet = sealed(&key, &holed.to_bytes(), 1, id, &[]);
        assert_eq!(send(&mut state, &packet).number, NOT_PERMITTED);
    }
    let answer = send(&mut state, &sealed(&key, &holed.to_bytes(), 1, 2, &[]));
    assert_eq!((answer.number, answer.blocks), (ACCEPTED, 8));
}

#[test]
fn p4_and_p5_freshness() {
    let (state, key) = open_state(15);
    let numbers = |last, sequence| {
        let mut state = state.clone();
        state.records[0] = Record::Open { key, last, owed: false };
        send(&mut state, &sealed(&key, &capability(&[]), sequence, 0, &[])).number
    };
    assert_eq!([numbers(7, 7), numbers(7, 8), numbers(7, 9)], [SEQUENCE, ACCEPTED, ACCEPTED]);
    assert_eq!([numbers(65_535, 1), numbers(65_535, 65_535)], [SEQUENCE, SEQUENCE]);
}

#[test]
fn p6_and_p7_blocks_of_a_command() {
    let (mut state, key) = open_state(15);
    let narrowed = capability(&[12]);
    let answer = send(&mut state, &sealed(&key, &narrowed, 1, 1, &[]));
    assert_eq!((answer.number, answer.blocks), (NOT_PERMITTED, 6));
    let answer = send(&mut state, &sealed(&key, &narrowed, 1, 1, &[9]));
    assert_eq!((answer.number, answer.blocks), (NOT_PERMITTED, 7));
    let mut packet = sealed(&key, &narrowed, 1, 2, &[]);
    packet[95] ^= 1;
    let answer = send(&mut state, &packet);
    assert_eq!((answer.number, answer.blocks), (TAG_WRONG, 2));
    packet[95] ^= 1;
    let answer = send(&mut state, &packet);
    assert_eq!((answer.number, answer.blocks), (ACCEPTED, 8));
}

#[test]
fn p8_blocks_of_a_reply_and_one_reply_only() {
    for (length, blocks) in [(0, 3), (12, 3), (13, 4)] {
        let (mut state, key) = open_state(15);
        send(&mut state, &sealed(&key, &capability(&[]), 5, 0, &[]));
        let payload = vec![8; length];
        let mut packet = vec![0; 32 + length];
        assert_eq!(reply(&mut state, 1, 4, &payload, &mut packet).number, NO_REPLY_OWED);
        let answer = reply(&mut state, 1, 5, &payload, &mut packet);
        assert_eq!((answer.number, answer.blocks), (ACCEPTED, blocks));
        assert_eq!(reply(&mut state, 1, 5, &payload, &mut packet.clone()).number, NO_REPLY_OWED);
        let mut room = vec![0; length];
        let answer = open(&key, 5, &packet, &mut room);
        assert_eq!((answer.number, answer.blocks, answer.fields), (ACCEPTED, blocks, length as u16));
        assert_eq!(room, payload);
        assert_eq!(open(&key, 6, &packet, &mut room).number, VECTOR);
    }
}

#[test]
fn p9_a_fifth_narrowing() {
    let full = capability(&[15, 14, 13, 12]);
    assert_eq!(narrow(&full, 12, &mut [0; 50]).number, NO_WORD_LEFT);
    assert_eq!(narrow(&full, ALL_ONES, &mut [0; 50]).number, ALL_ONES_WORD);
}

#[test]
fn lengths_of_packets_and_replies() {
    let (mut state, key) = open_state(15);
    assert_eq!(send(&mut state, &[0; 95]).number, PACKET_TOO_SHORT);
    assert_eq!(send(&mut state, &[0; 96]).number, NO_SUCH_HOST);
    assert_eq!(send(&mut state, &[0; 16_481]).number, PACKET_TOO_LONG);
    let longest = sealed(&key, &capability(&[]), 1, 0, &[1; 16_384]);
    let answer = send(&mut state, &longest);
    assert_eq!((answer.number, answer.blocks), (ACCEPTED, 2 + 1028 + 1));
    assert_eq!(open(&key, 0, &[0; 31], &mut []).number, PACKET_TOO_SHORT);
    assert_eq!(open(&key, 0, &[0; 32], &mut []).number, VECTOR);
    assert_eq!(open(&key, 0, &[0; 16_417], &mut []).number, PACKET_TOO_LONG);
}

#[test]
fn revocation_and_close_act_at_once() {
    let (mut state, key) = open_state(15);
    let capability = capability(&[]);
    assert_eq!(send(&mut state, &sealed(&key, &capability, 1, 0, &[])).number, ACCEPTED);
    assert_eq!(revoke(&mut state, 1, 1, 14).number, ACCEPTED);
    assert_eq!(send(&mut state, &sealed(&key, &capability, 2, 0, &[])).number, NOT_PERMITTED);
    assert_eq!(send(&mut state, &sealed(&key, &capability, 2, 1, &[])).number, ACCEPTED);
    assert_eq!(close(&mut state, 1).number, ACCEPTED);
    assert_eq!(send(&mut state, &sealed(&key, &capability, 3, 1, &[])).number, NOT_OPEN);
}

#[test]
fn a_refusal_changes_nothing() {
    let (mut state, key) = open_state(15);
    let before = state.clone();
    let mut forged = Capability::from_bytes(&capability(&[]));
    forged.secret[0] ^= 1;
    let mut room = [0xA5; 4];
    let answer = command(&mut state, &sealed(&key, &forged.to_bytes(), 1, 0, &[1; 4]), &mut room);
    assert_eq!((answer.number, answer.blocks, answer.written), (SECRET_WRONG, 2 + 5 + 1, 0));
    assert_eq!((room, answer.fields), ([0xA5; 4], CommandFields::default()));
    assert_eq!(state, before);
}

#[test]
fn a_state_that_is_not_sound() {
    let (mut state, _) = open_state(15);
    state.command_counts[0] = 3;
    assert_eq!(close(&mut state, 0).number, NOT_SOUND);
    state.interface_count = 0;
    assert_eq!(close(&mut state, 0).number, NO_SUCH_HOST);
}
