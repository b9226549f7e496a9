//! Scenes of the dairy's day (examples/dairy) by the crate's own calls. What the gateway writes is compared with day.expect, which a model in Python
//! made.

mod plant;

use deebqoshaan::Refusal::{self, *};
use deebqoshaan::{BookRefusal, Capability, Client, Command, Gateway, Order, Refused, length};
use plant::{connect, connected};

const LINE: u16 = 1;
const SERVICE: u16 = 2;
const RECIPE: u16 = 1;
const PRINTING: u16 = 3;
const READ: u8 = 0;
const PRINT: u8 = 3;
const SET_DATE: u8 = 4;
const SET_LOT: u8 = 5;
const SET_VOLUME: u8 = 8;
const SECRETS: [&[u8; 16]; 3] = [b"EXAMPLE SECRET 1", b"EXAMPLE SECRET 2", b"EXAMPLE SECRET 3"];
const FILLED: u8 = 0xa5;

fn issued(interface: u16, entry: u16) -> Capability {
    Capability::issue(SECRETS[usize::from(interface) - 1], entry).unwrap().capability
}

fn hex(bytes: &[u8]) -> String {
    bytes.iter().map(|byte| format!("{byte:02x}")).collect()
}

/// That the day has an answer which begins so.
fn day_says(answer: &str) {
    let day = std::fs::read_to_string(concat!(env!("CARGO_MANIFEST_DIR"), "/../examples/dairy/day.expect")).unwrap();
    assert!(day.lines().any(|line| line.starts_with(answer)), "the day has no line {answer}");
}

/// An accepted command as the day tells it.
fn told(order: &Order) -> String {
    let Order { client, sequence, group, interface, capability, command, words, secret, payload, blocks } = order;
    let [a, b, c, d] = words;
    let length = payload.len();
    let fields = format!("{client} {sequence} {group} {interface} {capability} {length} {command} {a} {b} {c} {d}");
    format!("command 0 {blocks} {fields} {} {} ", hex(secret), hex(payload))
}

/// A packet of the client's, sealed with the next number.
fn packet(client: &mut Client, capability: &Capability, command: Command) -> Vec<u8> {
    let mut room = [0; length::PACKET_MOST];
    client.command(capability, command, &mut room).unwrap().bytes.to_vec()
}

/// Seals a command and has the gateway judge it: whether it is accepted, and the count of blocks. A refusal must leave the room as it was.
fn send(gateway: &mut Gateway, client: &mut Client, capability: &Capability, command: Command) -> Result<usize, Refused> {
    let packet = packet(client, capability, command);
    let mut room = [FILLED; 64];
    let judged = gateway.command(&packet, &mut room).map(|order| {
        assert_eq!((order.command, order.payload), (command.command, command.payload));
        order.blocks
    });
    let written = if judged.is_ok() { command.payload.len() } else { 0 };
    assert!(room[written..].iter().all(|&byte| byte == FILLED));
    judged
}

fn refused(refusal: Refusal, blocks: usize) -> Result<usize, Refused> {
    Err(Refused { refusal, blocks })
}

#[test]
fn the_book_is_loaded_or_its_fault_found() {
    let mut book = std::fs::read(concat!(env!("CARGO_MANIFEST_DIR"), "/../examples/dairy/dairy.book")).unwrap();
    assert_eq!(format!("{:?}", Gateway::load(&book).unwrap()), "Gateway { hosts: 5, interfaces: 3, .. }");
    book[106] = b'#';
    assert_eq!(Gateway::load(&book).unwrap_err(), BookRefusal { refusal: Letter, offset: 106 });
    book.pop();
    assert_eq!(Gateway::load(&book).unwrap_err(), BookRefusal { refusal: Size, offset: 4 });
}

#[test]
fn the_handshake() {
    let book = std::fs::read(concat!(env!("CARGO_MANIFEST_DIR"), "/../examples/dairy/dairy.book")).unwrap();
    let (mut gateway, mut panel) = (Gateway::load(&book).unwrap(), Client::new());
    let (mut sent, mut room) = ([0; length::REQUEST_MOST], [FILLED; 64]);

    let request = panel.request("service panel", b"1st challenge 01", &mut sent).unwrap();
    let requested = gateway.request(request, b"2nd challenge 01", &mut room).unwrap();
    day_says(&format!("request 0 {} {} {} ", requested.blocks, requested.host, hex(requested.bytes)));
    let host = requested.host;
    let proof = panel.proof(requested.bytes, b"3rd challenge 01").unwrap();
    assert_eq!(room[32..], [FILLED; 32]);

    room.fill(FILLED);
    let proved = gateway.proof(host, &proof, &mut room).unwrap();
    day_says(&format!("proof 0 {} {} ", proved.blocks, hex(proved.bytes)));
    assert_eq!(panel.open(proved.bytes), Ok(4));
    assert_eq!(room[20..], [FILLED; 44]);
    assert_eq!(gateway.proof(host, &proof, &mut room).unwrap_err().refusal, NotWaiting);
}

#[test]
fn a_command_and_its_reply() {
    let (mut gateway, mut panel) = connected("service panel").unwrap();
    let made = Capability::issue(SECRETS[0], 2).unwrap();
    day_says(&format!("issue 0 {} {} ", made.blocks, hex(made.capability.as_bytes())));
    let set_volume = Command { group: SERVICE, interface: RECIPE, command: SET_VOLUME, payload: b"volume 500 ml" };
    let packet = packet(&mut panel, &made.capability, set_volume);
    let mut room = [FILLED; 64];
    let order = gateway.command(&packet, &mut room).unwrap();
    day_says(&told(&order));

    let mut room = [FILLED; 64];
    let reply = gateway.reply(order.client, order.sequence, b"volume is 500 ml", &mut room).unwrap();
    day_says(&format!("reply 0 {} {} ", reply.blocks, hex(reply.bytes)));
    let mut opened = [FILLED; 32];
    let answer = panel.reply(reply.bytes, &mut opened).unwrap();
    day_says(&format!("open 0 {} {} {} ", answer.blocks, answer.payload.len(), hex(answer.payload)));
    assert_eq!(room[48..], [FILLED; 16]);
    assert_eq!(opened[16..], [FILLED; 16]);
}

#[test]
fn a_right_is_withdrawn_on_an_open_connection() {
    let (mut gateway, mut panel) = connected("service panel").unwrap();
    let recipe = issued(RECIPE, 2);
    let set_volume = Command { group: SERVICE, interface: RECIPE, command: SET_VOLUME, payload: b"volume 510 ml" };
    let read = Command { command: READ, payload: b"", ..set_volume };
    assert_eq!(send(&mut gateway, &mut panel, &recipe, set_volume), Ok(8));
    assert_eq!(gateway.revoke(RECIPE, 2, 1 << READ).unwrap().blocks, 0);
    assert_eq!(send(&mut gateway, &mut panel, &recipe, set_volume), refused(NotPermitted, 7));
    assert_eq!(send(&mut gateway, &mut panel, &recipe, read), Ok(7));

    // A word of all ones gives nothing back.
    gateway.revoke(RECIPE, 2, u64::MAX).unwrap();
    assert_eq!(send(&mut gateway, &mut panel, &recipe, set_volume), refused(NotPermitted, 7));
    assert_eq!(gateway.revoke(RECIPE, 4, 0).unwrap_err().refusal, NoEntry);
    assert_eq!(gateway.revoke(4, 1, 0).unwrap_err().refusal, NoInterface);
}

#[test]
fn a_capability_is_narrowed() {
    let (mut gateway, mut filler) = connected("filler").unwrap();
    let once = issued(PRINTING, 1).narrow(1 << READ | 1 << PRINT | 1 << SET_DATE).unwrap();
    let twice = once.capability.narrow(1 << READ | 1 << PRINT | 1 << SET_LOT).unwrap();
    day_says(&format!("narrow 0 {} {} ", once.blocks, hex(once.capability.as_bytes())));
    day_says(&format!("narrow 0 {} {} ", twice.blocks, hex(twice.capability.as_bytes())));

    let print = Command { group: LINE, interface: PRINTING, command: PRINT, payload: b"" };
    let date = Command { command: SET_DATE, ..print };
    assert_eq!(send(&mut gateway, &mut filler, &once.capability, date), Ok(8));
    assert_eq!(send(&mut gateway, &mut filler, &twice.capability, print), Ok(9));
    assert_eq!(send(&mut gateway, &mut filler, &twice.capability, date), refused(NotPermitted, 6));

    let mut widened = *twice.capability.as_bytes();
    widened[10..18].fill(0xff);
    assert_eq!(send(&mut gateway, &mut filler, &Capability::from_bytes(widened), date), refused(SecretWrong, 8));
}

#[test]
fn a_capability_has_four_places() {
    let narrow = |held: Capability, word| held.narrow(word).unwrap().capability;
    let full = [14, 13, 11, 7].into_iter().fold(issued(RECIPE, 1), narrow);
    assert_eq!((full.id(), full.words()), (1, [14, 13, 11, 7]));
    assert_eq!(full.narrow(12).unwrap_err(), Refused { refusal: NoPlaceLeft, blocks: 0 });
    assert_eq!(full.narrow(u64::MAX).unwrap_err(), Refused { refusal: AllOnes, blocks: 0 });
    assert_eq!(Capability::issue(SECRETS[0], 0).unwrap_err(), Refused { refusal: NoEntry, blocks: 0 });
}

#[test]
fn a_packet_is_damaged_or_comes_twice() {
    let (mut gateway, mut panel) = connected("service panel").unwrap();
    let read = Command { group: SERVICE, interface: RECIPE, command: READ, payload: b"all" };
    let sent = packet(&mut panel, &issued(RECIPE, 2), read);
    let mut room = [FILLED; 8];
    for at in 0..sent.len() {
        let mut damaged = sent.clone();
        damaged[at] ^= 0x80;
        let expected = match at {
            0 | 1 => NoHost,
            2 | 3 => Zeros,
            4 => Vector,
            _ => TagWrong,
        };
        assert_eq!(gateway.command(&damaged, &mut room).unwrap_err().refusal, expected, "byte {at}");
    }
    assert_eq!(gateway.command(&sent, &mut room[..2]).unwrap_err(), Refused { refusal: RoomShort, blocks: 0 });
    assert_eq!(room, [FILLED; 8]);
    assert_eq!(gateway.command(&sent, &mut room).unwrap().payload, b"all");
    assert_eq!(gateway.command(&sent, &mut room).unwrap_err(), Refused { refusal: NotFresh, blocks: 7 });
}

#[test]
fn a_reply_is_given_once() {
    let (mut gateway, mut panel) = connected("service panel").unwrap();
    let read = Command { group: SERVICE, interface: RECIPE, command: READ, payload: b"" };
    let mut room = [FILLED; 64];
    let number = |answer: Result<deebqoshaan::Written, Refused>| answer.map(|written| written.blocks);
    assert_eq!(number(gateway.reply(4, 1, b"", &mut room)), refused(NotOwed, 0));
    send(&mut gateway, &mut panel, &issued(RECIPE, 2), read).unwrap();
    assert_eq!(number(gateway.reply(4, 2, b"", &mut room)), refused(NotOwed, 0));
    assert_eq!(number(gateway.reply(4, 1, b"", &mut room[..31])), refused(RoomShort, 0));
    assert_eq!(number(gateway.reply(4, 1, &[0; length::PAYLOAD_MOST + 1], &mut room)), refused(PayloadAbove, 0));
    assert_eq!(room, [FILLED; 64]);
    assert_eq!(number(gateway.reply(4, 1, b"", &mut room)), Ok(3));
    assert_eq!(number(gateway.reply(4, 1, b"", &mut room)), refused(NotOwed, 0));
}

#[test]
fn a_connection_is_closed_or_begun_anew() {
    let (mut gateway, mut panel) = connected("service panel").unwrap();
    let recipe = issued(RECIPE, 2);
    let read = Command { group: SERVICE, interface: RECIPE, command: READ, payload: b"" };
    assert_eq!(send(&mut gateway, &mut panel, &recipe, read), Ok(7));
    assert_eq!(gateway.close(4).unwrap().blocks, 0);
    assert_eq!(send(&mut gateway, &mut panel, &recipe, read), refused(NotOpen, 0));
    assert_eq!(gateway.close(4).unwrap().blocks, 0);
    assert_eq!(gateway.close(6).unwrap_err().refusal, NoHost);

    // A new connection has a new key, and numbers from 1 on.
    let old = packet(&mut panel, &recipe, read);
    panel.close();
    connect(&mut gateway, &mut panel, "service panel", 2).unwrap();
    assert_eq!(gateway.command(&old, &mut []).unwrap_err(), Refused { refusal: TagWrong, blocks: 2 });
    assert_eq!(gateway.command(&packet(&mut panel, &recipe, read), &mut []).unwrap().sequence, 1);
}

#[test]
fn the_longest_payloads_go_through() {
    let (mut gateway, mut panel) = connected("service panel").unwrap();
    let payload: Vec<u8> = (0..length::PAYLOAD_MOST).map(|i| (i % 251) as u8).collect();
    let command = Command { group: SERVICE, interface: RECIPE, command: READ, payload: &payload };
    let sent = packet(&mut panel, &issued(RECIPE, 2), command);
    assert_eq!(sent.len(), length::PACKET_MOST);
    let mut room = [0; length::PAYLOAD_MOST];
    let order = gateway.command(&sent, &mut room).unwrap();
    assert!(order.payload == payload);
    let mut reply = [0; length::REPLY_MOST];
    let written = gateway.reply(4, order.sequence, &payload, &mut reply).unwrap();
    assert_eq!(written.bytes.len(), length::REPLY_MOST);
    assert!(panel.reply(written.bytes, &mut room).unwrap().payload == payload);
}
