//! The order of refusals where the shared traces show none: each call here earns a refusal and every later one of its order too, so the first must
//! win.

use model::capability::{ALL_ONES, Capability};
use model::refusal::*;
use model::{Command, Record, State, command, gcm, issue, load, narrow, open, proof, request, seal};

const FULL: Capability = Capability { id: 1, words: [1; 4], secret: [0; 16] };
const FRESH: Capability = Capability { id: 1, words: [ALL_ONES; 4], secret: [0; 16] };

fn one_host() -> State {
    let mut book = vec![1, 0, 1, 0, 23, 0, 0, 0, 1, 0, 1, 0, 20, 0, 0, 0, 3, 0, 0, 0];
    book.extend([0, 0, b'a']);
    load(&book).1
}

#[test]
fn issue_28_15_7() {
    assert_eq!(issue(&[0; 15], 0, &mut []).number, LENT_LENGTH);
    assert_eq!(issue(&[0; 17], 0, &mut []).number, LENT_LENGTH);
    assert_eq!(issue(&[0; 16], 0, &mut []).number, NO_SUCH_ENTRY);
    assert_eq!(issue(&[0; 16], 1, &mut [0; 49]).number, ROOM_TOO_SHORT);
    assert_eq!(issue(&[0; 16], 65_535, &mut [0; 51]).written, 50);
}

#[test]
fn narrow_28_32_31_7() {
    let (full, fresh) = (FULL.to_bytes(), FRESH.to_bytes());
    assert_eq!(narrow(&full[..49], ALL_ONES, &mut []).number, LENT_LENGTH);
    assert_eq!(narrow(&full, ALL_ONES, &mut []).number, ALL_ONES_WORD);
    assert_eq!(narrow(&full, 12, &mut []).number, NO_WORD_LEFT);
    assert_eq!(narrow(&fresh, 12, &mut [0; 49]).number, ROOM_TOO_SHORT);
    // A hole: the first all-ones place is filled.
    let holed = Capability { words: [1, ALL_ONES, 3, ALL_ONES], ..FRESH };
    let mut room = [0; 50];
    assert_eq!(narrow(&holed.to_bytes(), 12, &mut room).blocks, 1);
    assert_eq!(Capability::from_bytes(&room).words, [1, 12, 3, ALL_ONES]);
}

#[test]
fn seal_28_5_12_30_7() {
    let capability = FRESH.to_bytes();
    let long = [0; 16_385];
    let number = |key: usize, vector: &[u8], capability: &[u8], sequence, payload: &[u8], room: usize| {
        let fields = Command { client: 0, sequence, group: 0, interface: 0, command: 255, payload };
        let mut room = vec![0xA5; room];
        let answer = seal(&vec![0; key], vector, capability, &fields, &mut room);
        assert!(answer.number == ACCEPTED || room.iter().all(|&byte| byte == 0xA5));
        answer.number
    };
    assert_eq!(number(15, &[128; 12], &capability, 0, &long, 0), LENT_LENGTH);
    assert_eq!(number(16, &[128; 11], &capability, 0, &long, 0), LENT_LENGTH);
    assert_eq!(number(16, &[], &capability, 0, &long, 0), LENT_LENGTH);
    assert_eq!(number(16, &[128; 12], &capability[1..], 0, &long, 0), LENT_LENGTH);
    assert_eq!(number(16, &[128; 12], &capability, 0, &long, 0), VECTOR);
    assert_eq!(number(16, &[127; 12], &capability, 0, &long, 0), SEQUENCE);
    assert_eq!(number(16, &[127; 12], &capability, 1, &long, 0), PAYLOAD_TOO_LONG);
    assert_eq!(number(16, &[127; 12], &capability, 1, &long[1..], 16_479), ROOM_TOO_SHORT);
    assert_eq!(number(16, &[127; 12], &capability, 1, &long[1..], 16_480), ACCEPTED);
}

#[test]
fn open_28_1_2_5_7() {
    assert_eq!(open(&[0; 17], 1, &[0; 31], &mut []).number, LENT_LENGTH);
    assert_eq!(open(&[0; 16], 1, &[0; 31], &mut []).number, PACKET_TOO_SHORT);
    assert_eq!(open(&[0; 16], 1, &[0; 16_417], &mut []).number, PACKET_TOO_LONG);
    assert_eq!(open(&[0; 16], 1, &[0; 16_416], &mut []).number, VECTOR);
    let mut packet = [0; 33];
    packet[..4].copy_from_slice(&[128, 0, 1, 0]);
    assert_eq!(open(&[0; 16], 1, &packet, &mut []).number, ROOM_TOO_SHORT);
    let answer = open(&[0; 16], 1, &packet, &mut [0; 1]);
    assert_eq!((answer.number, answer.blocks), (TAG_WRONG, 2));
}

#[test]
fn proof_25_26_27_7() {
    let mut state = one_host();
    assert_eq!(proof(&mut state, 2, &[0; 31], &mut []).number, NO_SUCH_HOST);
    assert_eq!(proof(&mut state, 1, &[0; 31], &mut []).number, PROOF_SIZE);
    assert_eq!(proof(&mut state, 1, &[0; 33], &mut []).number, PROOF_SIZE);
    assert_eq!(proof(&mut state, 1, &[0; 32], &mut []).number, NOT_WAITING);
    let hello = [&[1, 0, 1, 0][..], &[1; 16], b"a"].concat();
    assert_eq!(request(&mut state, &hello, &[2; 16], &mut [0; 32]).number, ACCEPTED);
    assert_eq!(proof(&mut state, 1, &[0; 32], &mut []).number, CHALLENGE_DIFFERS);
    assert_eq!(proof(&mut state, 1, &[2; 32], &mut [0; 19]).number, ROOM_TOO_SHORT);
    assert_eq!(state.records[0], Record::Waiting { challenge_2: [2; 16] });
    assert_eq!(proof(&mut state, 1, &[2; 32], &mut [0; 20]).number, ACCEPTED);
}

/// 3 before 4 before 5 before 6 before 7; then 9, 10, 11 with full blocks.
#[test]
fn command_3_to_7_and_9_to_12() {
    let mut state = one_host();
    let mut packet = [0; 97];
    packet[2] = 1;
    packet[4] = 128;
    assert_eq!(command(&mut state, &packet, &mut []).number, OPEN_ZEROS);
    packet[2] = 0;
    assert_eq!(command(&mut state, &packet, &mut []).number, NO_SUCH_HOST);
    packet[0] = 1;
    assert_eq!(command(&mut state, &packet, &mut []).number, VECTOR);
    packet[4] = 127;
    assert_eq!(command(&mut state, &packet, &mut []).number, NOT_OPEN);
    let key = [5; 16];
    state.records[0] = Record::Open { key, last: 0, owed: true };
    assert_eq!(command(&mut state, &packet, &mut []).number, ROOM_TOO_SHORT);
    assert_eq!(command(&mut state, &packet, &mut [0]).number, TAG_WRONG);

    let mut judged = |inner: &[u8; 65]| {
        let sealed = gcm::seal(&key, &[0; 12], &[1, 0, 0, 0], inner);
        let packet = [&[1, 0, 0, 0][..], &[0; 12], &sealed.tag, &sealed.encrypted].concat();
        let answer = command(&mut state, &packet, &mut [0]);
        assert_eq!(answer.blocks, 7);
        answer.number
    };
    let mut inner = [0; 65];
    inner[4] = 9;
    inner[15] = 1;
    assert_eq!(judged(&inner), INNER_CLIENT);
    inner[0] = 1;
    assert_eq!(judged(&inner), INNER_ZEROS);
    inner[15] = 0;
    assert_eq!(judged(&inner), PAYLOAD_LENGTH);
    inner[10] = 1;
    assert_eq!(judged(&inner), SEQUENCE);
    inner[2] = 1;
    assert_eq!(judged(&inner), GROUP);
    inner[4] = 0;
    assert_eq!(judged(&inner), NO_SUCH_INTERFACE);
}
