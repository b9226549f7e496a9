//! Tests that look into the state.

extern crate std;

use alloc::boxed::Box;

use super::{Gateway, raw};
use crate::Refusal::{self, *};
use crate::{Capability, Client, Command, length};

const BOOK: &str = concat!(env!("CARGO_MANIFEST_DIR"), "/../examples/dairy/dairy.book");
const FRESH: &[u8; 16] = b"2nd challenge 01";

fn dairy() -> Gateway {
    Gateway::load(&std::fs::read(BOOK).unwrap()).unwrap()
}

/// A gateway whose panel is open with a reply owed for number 1, and the packet that did it.
fn busy() -> (Gateway, Box<[u8]>) {
    let (mut gateway, mut panel) = (dairy(), Client::new());
    let (mut packet, mut room) = ([0; length::PACKET_MOST], [0; length::REQUESTED]);
    let request = panel.request("service panel", b"1st challenge 01", &mut packet).unwrap();
    let proof = panel.proof(gateway.request(request, FRESH, &mut room).unwrap().bytes, b"3rd challenge 01").unwrap();
    panel.open(gateway.proof(4, &proof, &mut room).unwrap().bytes).unwrap();
    let capability = Capability::issue(b"EXAMPLE SECRET 1", 2).unwrap().capability;
    let read = Command { group: 2, interface: 1, command: 0, payload: b"all of it" };
    let packet: Box<[u8]> = panel.command(&capability, read, &mut packet).unwrap().bytes.into();
    gateway.command(&packet, &mut room).unwrap();
    (gateway, packet)
}

/// How one call of each kind is refused. The room is filled, so that a byte written to it shows.
fn refusals(gateway: &mut Gateway, packet: &[u8], host: u16) -> [Refusal; 6] {
    let mut room = [0xa5; 64];
    let answers = [
        gateway.request(b"\x01\0\x05\0................panel", FRESH, &mut room).unwrap_err().refusal,
        gateway.proof(host, b"2nd challenge 013rd challenge 01", &mut room).unwrap_err().refusal,
        gateway.command(packet, &mut room).unwrap_err().refusal,
        gateway.reply(host, 2, b"", &mut room).unwrap_err().refusal,
        gateway.close(host + 60).unwrap_err().refusal,
        gateway.revoke(1, 17, 0).unwrap_err().refusal,
    ];
    assert_eq!(room, [0xa5; 64]);
    answers
}

#[test]
fn a_refusal_changes_nothing() {
    let (mut gateway, packet) = busy();
    let before = gateway.state.clone();
    assert_eq!(refusals(&mut gateway, &packet, 4), [NoName, NotWaiting, NotFresh, NotOwed, NoHost, NoEntry]);
    assert!(gateway.state == before);
}

#[test]
fn an_unsound_state_is_refused_first() {
    let (mut gateway, packet) = busy();
    gateway.state.rights.hosts = 33;
    let before = gateway.state.clone();
    assert_eq!(refusals(&mut gateway, &packet, 4), [Unsound; 6]);
    assert!(gateway.state == before);
}

#[test]
fn an_accepted_call_changes_its_own_part() {
    let (mut gateway, _) = busy();
    let mut expected = gateway.state.clone();
    gateway.revoke(2, 3, 1 << 33).unwrap();
    expected.rights.words[16 + 2] &= 1 << 33;
    assert!(gateway.state == expected);

    gateway.close(4).unwrap();
    assert!(gateway.state.records == dairy().state.records);
    assert!(gateway.state.rights == expected.rights);
}

#[test]
fn what_is_dropped_was_wiped() {
    let (mut gateway, _) = busy();
    let empty: &raw::State = &Gateway::empty().state;
    assert!(*gateway.state != *empty);
    assert_eq!(gateway.fill(&[]).unwrap_err().refusal, Size);
    assert!(*gateway.state == *empty);
}
