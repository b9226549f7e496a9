//! Secrets are overwritten where they lay. The tests read their own memory through Linux's /proc/self/mem: Rust doesn't let a program look at what a
//! dropped value left behind.

use std::fs::File;
use std::hint::black_box;
use std::mem::ManuallyDrop;
use std::os::unix::fs::FileExt;

use deebqoshaan::{Capability, Client, length, raw};

/// No two of them have bytes in common.
const CHALLENGES: [&[u8; 16]; 3] = [b"abcdefghijklmnop", b"ABCDEFGHIJKLMNOP", b"0123456789:;<=>?"];

/// Whether eight bytes of a secret lie somewhere in the memory of a value, be it dropped or not. Fewer may be the stack's, from another test: a phase
/// without fields leaves some bytes as they were.
fn holds<T>(place: &ManuallyDrop<T>, secret: &[u8; 16]) -> bool {
    let mut bytes = vec![0; size_of::<T>()];
    let memory = File::open("/proc/self/mem").unwrap();
    // The compiler can't see that the file's bytes are the value's.
    memory.read_exact_at(&mut bytes, black_box(&raw const *place) as u64).unwrap();
    bytes.windows(8).any(|part| secret.windows(8).any(|piece| piece == part))
}

/// Drops a value and leaves its place as the drop left it.
fn dropped<T>(value: &mut ManuallyDrop<T>) {
    // SAFETY: no value is used after this, and none is dropped twice: its memory alone is looked at.
    unsafe { ManuallyDrop::drop(value) };
}

fn key() -> [u8; 16] {
    let mut key = [0; 16];
    // SAFETY: each pointer comes from a reference.
    unsafe { raw::dq_connection_key(CHALLENGES[1], CHALLENGES[2], &mut key) };
    key
}

/// Which of the three challenges and the key lie in a client's memory.
fn held(client: &ManuallyDrop<Client>) -> [bool; 4] {
    let [first, second, third] = CHALLENGES;
    [first, second, third, &key()].map(|secret| holds(client, secret))
}

fn ask(client: &mut Client) {
    client.request("service panel", CHALLENGES[0], &mut [0; 64]).unwrap();
}

fn prove(client: &mut Client) {
    client.proof(b"abcdefghijklmnopABCDEFGHIJKLMNOP", CHALLENGES[2]).unwrap();
}

fn open(client: &mut Client) {
    ask(client);
    prove(client);
    client.open(b"\x04\0\0\x000123456789:;<=>?").unwrap();
}

#[test]
fn a_challenge_is_wiped_when_it_was_used() {
    let mut client = ManuallyDrop::new(Client::new());
    ask(&mut client);
    assert_eq!(held(&client), [true, false, false, false]);
    prove(&mut client);
    assert_eq!(held(&client), [false, true, true, false]);
    client.open(b"\x04\0\0\x000123456789:;<=>?").unwrap();
    assert_eq!(held(&client), [false, false, false, true]);
}

#[test]
fn a_closed_client_keeps_no_key() {
    let mut client = ManuallyDrop::new(Client::new());
    open(&mut client);
    client.close();
    assert_eq!(held(&client), [false; 4]);
    ask(&mut client);
    client.close();
    assert_eq!(held(&client), [false; 4]);
}

#[test]
fn a_dropped_client_is_wiped() {
    for step in [ask, open] {
        let mut client = ManuallyDrop::new(Client::new());
        step(&mut client);
        assert!(held(&client).contains(&true));
        dropped(&mut client);
        assert_eq!(held(&client), [false; 4]);
    }
}

#[test]
fn a_dropped_capability_is_wiped() {
    let bytes = *Capability::issue(b"EXAMPLE SECRET 1", 2).unwrap().capability.as_bytes();
    let secret = bytes.last_chunk().unwrap();
    let mut capability = ManuallyDrop::new(Capability::from_bytes(bytes));
    assert_eq!((size_of::<Capability>(), holds(&capability, secret)), (length::CAPABILITY, true));
    dropped(&mut capability);
    assert!(!holds(&capability, secret));
}
