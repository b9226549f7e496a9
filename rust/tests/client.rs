//! What the client itself takes care of: the order of its calls, challenges, numbers, vectors; and that nothing secret is shown.

mod plant;

use std::collections::HashSet;

use deebqoshaan::ClientError::{self, *};
use deebqoshaan::{Capability, Client, Command, Gateway, Refusal, length, raw};
use plant::connected;

const FIRST: &[u8; 16] = b"1st challenge 01";
const THIRD: &[u8; 16] = b"3rd challenge 01";
const REQUESTED: &[u8; 32] = b"1st challenge 012nd challenge 01";
const PROVED: &[u8; 20] = b"\x04\0\0\x003rd challenge 01";
const READ: Command = Command { group: 2, interface: 1, command: 0, payload: b"" };

fn held() -> Capability {
    Capability::issue(b"EXAMPLE SECRET 1", 2).unwrap().capability
}

fn refused(refusal: Refusal) -> ClientError {
    Refused(deebqoshaan::Refused { refusal, blocks: 0 })
}

/// Which of the five calls the client isn't ready for. They are made with what nobody takes, so that none goes through.
fn not_ready(client: &mut Client) -> [bool; 5] {
    let none = &mut [][..];
    [
        client.request("", FIRST, none) == Err(NotReady),
        client.proof(b"", THIRD) == Err(NotReady),
        client.open(b"") == Err(NotReady),
        client.command(&held(), READ, &mut []) == Err(NotReady),
        client.reply(b"", &mut []) == Err(NotReady),
    ]
}

#[test]
fn calls_have_an_order() {
    let mut client = Client::default();
    assert_eq!(not_ready(&mut client), [false, true, true, true, true]);
    client.request("service panel", FIRST, &mut [0; 64]).unwrap();
    assert_eq!(not_ready(&mut client), [true, false, true, true, true]);
    client.proof(REQUESTED, THIRD).unwrap();
    assert_eq!(not_ready(&mut client), [true, true, false, true, true]);
    assert_eq!(client.id(), None);
    client.open(PROVED).unwrap();
    assert_eq!(not_ready(&mut client), [true, true, true, false, true]);
    client.command(&held(), READ, &mut [0; 96]).unwrap();
    assert_eq!(not_ready(&mut client), [true, true, true, false, false]);
    assert_eq!(client.id(), Some(4));
    client.close();
    assert_eq!(not_ready(&mut client), [false, true, true, true, true]);
}

#[test]
fn a_name_has_1_to_256_bytes() {
    let name = "n".repeat(257);
    let mut room = [0; 512];
    let mut ask = |length: usize, room_length: usize| {
        let asked = Client::new().request(&name[..length], FIRST, &mut room[..room_length]).map(<[u8]>::len);
        asked.map_err(|error| error.to_string())
    };
    let length_wrong = refused(Refusal::RequestLength).to_string();
    assert_eq!(ask(0, 512), Err(length_wrong.clone()));
    assert_eq!(ask(1, 21), Ok(21));
    assert_eq!(ask(256, 512), Ok(length::REQUEST_MOST));
    assert_eq!(ask(257, 512), Err(length_wrong));
    assert_eq!(ask(256, 275), Err("refused 7: ".to_string() + Refusal::RoomShort.words()));
}

#[test]
fn a_damaged_answer_leaves_the_client_waiting() {
    let mut client = Client::new();
    client.request("service panel", FIRST, &mut [0; 64]).unwrap();
    assert_eq!(client.proof(&REQUESTED[..31], THIRD), Err(AnswerLength));
    assert_eq!(client.proof(&[0; 33], THIRD), Err(AnswerLength));
    assert_eq!(client.proof(b"1st challenge 022nd challenge 01", THIRD), Err(ChallengeDiffers));
    assert_eq!(client.proof(b"xst challenge 012nd challenge 01", THIRD), Err(ChallengeDiffers));
    assert_eq!(client.proof(REQUESTED, THIRD).unwrap(), *b"2nd challenge 013rd challenge 01");

    assert_eq!(client.open(b"\x04\0\0"), Err(AnswerLength));
    assert_eq!(client.open(&PROVED[..19]), Err(AnswerLength));
    assert_eq!(client.open(&[0; 21]), Err(AnswerLength));
    assert_eq!(client.open(b"\x04\0\x01\x003rd challenge 02"), Err(ChallengeDiffers));
    assert_eq!(client.open(b"\0\0\x01\x003rd challenge 01"), Err(Zeros));
    assert_eq!(client.open(b"\0\0\0\x013rd challenge 01"), Err(Zeros));
    assert_eq!(client.open(b"\0\0\0\x003rd challenge 01"), Err(NoId));
    assert_eq!(client.open(PROVED), Ok(4));
}

#[test]
fn each_number_and_each_vector_is_used_once() {
    let (mut gateway, mut panel) = connected("service panel").unwrap();
    let (capability, mut room, mut vectors) = (held(), [0; 96], HashSet::new());
    for number in 1..=u16::MAX {
        let sealed = panel.command(&capability, READ, &mut room).unwrap();
        assert_eq!(sealed.sequence, number);
        assert!(sealed.bytes[4] < 128 && vectors.insert(sealed.bytes[4..16].to_vec()));
    }
    assert_eq!(panel.command(&capability, READ, &mut room), Err(NumbersUsedUp));
    assert_eq!(gateway.command(&room, &mut []).unwrap().sequence, u16::MAX);
}

#[test]
fn a_failed_sealing_uses_no_number() {
    let (mut gateway, mut panel) = connected("service panel").unwrap();
    let (mut room, long) = ([0xa5; 96], [0; length::PAYLOAD_MOST + 1]);
    assert_eq!(panel.command(&held(), READ, &mut room[..95]), Err(refused(Refusal::RoomShort)));
    assert_eq!(panel.command(&held(), Command { payload: &long, ..READ }, &mut room), Err(refused(Refusal::PayloadAbove)));
    assert_eq!(room, [0xa5; 96]);
    assert_eq!(panel.reply(&[0; 32], &mut []), Err(NotReady));
    let sealed = panel.command(&held(), READ, &mut room).unwrap();
    assert_eq!((sealed.sequence, sealed.blocks), (1, 6));
    assert!(gateway.command(sealed.bytes, &mut []).is_ok());
}

/// The gateway's reply to the panel's next command.
fn answered(gateway: &mut Gateway, panel: &mut Client, payload: &[u8]) -> Vec<u8> {
    let (mut packet, mut room) = ([0; 96], [0; 64]);
    let sealed = panel.command(&held(), READ, &mut packet).unwrap();
    let order = gateway.command(sealed.bytes, &mut []).unwrap();
    gateway.reply(order.client, order.sequence, payload, &mut room).unwrap().bytes.to_vec()
}

#[test]
fn only_the_awaited_reply_is_opened() {
    let (mut gateway, mut panel) = connected("service panel").unwrap();
    let late = answered(&mut gateway, &mut panel, b"first");
    let reply = answered(&mut gateway, &mut panel, b"second");
    let mut damaged = reply.clone();
    damaged[35] ^= 1;
    let mut room = [0xa5; 8];
    assert_eq!(panel.reply(&reply[..31], &mut room), Err(refused(Refusal::Below)));
    assert_eq!(panel.reply(&[0; length::REPLY_MOST + 1], &mut room), Err(refused(Refusal::Above)));
    assert_eq!(panel.reply(&late, &mut room), Err(refused(Refusal::Vector)));
    assert_eq!(panel.reply(&reply, &mut room[..5]), Err(refused(Refusal::RoomShort)));
    let wrong = deebqoshaan::Refused { refusal: Refusal::TagWrong, blocks: 2 };
    assert_eq!(panel.reply(&damaged, &mut room), Err(Refused(wrong)));
    assert_eq!(room, [0xa5; 8]);

    let opened = panel.reply(&reply, &mut room).unwrap();
    assert_eq!((opened.payload, opened.blocks), (&b"second"[..], 3));
    assert_eq!(room[6..], [0xa5; 2]);
    assert_eq!(panel.reply(&reply, &mut room), Err(NotReady));
}

/// What `Debug` writes of all that comes up between a gateway and a client, with these challenges and this master secret.
fn shown(challenges: [&[u8; 16]; 3], master: &[u8; 16]) -> String {
    let mut book = std::fs::read(concat!(env!("CARGO_MANIFEST_DIR"), "/../examples/dairy/dairy.book")).unwrap();
    book[159..175].copy_from_slice(master);
    let (mut gateway, mut panel) = (Gateway::load(&book).unwrap(), Client::new());
    let (mut packet, mut room) = ([0; 128], [0; 64]);
    let mut said = format!("{gateway:?} {panel:?}");
    let request = panel.request("service panel", challenges[0], &mut packet).unwrap();
    let requested = gateway.request(request, challenges[1], &mut room).unwrap();
    said += &format!(" {requested:?} {panel:?}");
    let proof = panel.proof(requested.bytes, challenges[2]).unwrap();
    let proved = gateway.proof(4, &proof, &mut room).unwrap();
    said += &format!(" {proved:?} {panel:?}");
    panel.open(proved.bytes).unwrap();
    let made = Capability::issue(master, 2).unwrap();
    let sealed = panel.command(&made.capability, READ, &mut packet).unwrap();
    let order = gateway.command(sealed.bytes, &mut []).unwrap();
    said += &format!(" {made:?} {READ:?} {sealed:?} {order:?} {gateway:?} {panel:?}");
    said += &format!(" {:?}", raw::Order { secret: *master, ..raw::Order::default() });
    let reply = gateway.reply(4, 1, master, &mut room).unwrap();
    format!("{said} {reply:?} {:?}", panel.reply(reply.bytes, &mut packet).unwrap())
}

#[test]
fn nothing_secret_is_shown() {
    let said = shown([FIRST, b"2nd challenge 01", THIRD], b"EXAMPLE SECRET 1");
    assert_eq!(said, shown([&[1; 16], &[2; 16], &[3; 16]], &[4; 16]));
    let panel = "Client { idle } Requested { host: 4, bytes: 32 bytes, blocks: 0 } Client { request sent }";
    assert!(said.starts_with(&format!("Gateway {{ hosts: 5, interfaces: 3, .. }} {panel}")));
    assert!(said.contains("Client { open, id: 4, last: 1, awaited: true }"));
}

#[test]
fn threads_may_share_them() {
    fn both<T: Send + Sync>() {}
    both::<(Gateway, Client, Capability, ClientError)>();
}

#[test]
fn each_error_has_words_of_its_own() {
    let errors = [NotReady, AnswerLength, ChallengeDiffers, Zeros, NoId, NumbersUsedUp, refused(Refusal::Vector)];
    let words: HashSet<String> = errors.iter().map(ClientError::to_string).collect();
    assert!(words.len() == errors.len() && !words.contains(""));
}
