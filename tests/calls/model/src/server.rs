//! The server's calls over one state: load, request, proof, command, reply, close and revoke.
//!
//! Each call first judges, with the state only looked at, and then changes the state and the room. So it is that "A refusal changes no record, no word
//! and no lent byte."

use crate::aes::Block;
use crate::answer::{Answer, Refused, accept, require, require_after, require_room};
use crate::book;
use crate::bytes::{array_at, u16_at};
use crate::capability::{chain, first_secret, permitted, words_at};
use crate::gcm;
use crate::packet::*;
use crate::refusal::*;
use crate::state::{Record, State};

const SHORTEST_REQUEST: usize = 21;
const LONGEST_REQUEST: usize = 276;
const REQUEST_NAME: usize = 20;
const REQUEST_WRITES: usize = 32;
const PROOF_LENGTH: usize = 32;
const PROOF_WRITES: usize = 20;

fn refuse<T>(number: u8) -> Result<T, Refused> {
    Err(Refused { number, blocks: 0 })
}

/// 39: "state not sound; first in every server call but load".
fn require_sound(state: &State) -> Result<(), Refused> {
    require(state.is_sound(), NOT_SOUND)
}

/// 4: "client ID or host number 0 or above the host count".
fn require_host(state: &State, number: u16) -> Result<usize, Refused> {
    state.host_index(number).ok_or(Refused { number: NO_SUCH_HOST, blocks: 0 })
}

// ---- load

/// "A load makes a new state and touches no other; a refused one makes a state with no hosts and no interfaces." The answer's field is the fault's
/// offset.
pub fn load(book: &[u8]) -> (Answer<usize>, State) {
    match book::read(book) {
        Ok(contents) => (accept(0, 0, &[], &mut []), State::from_contents(&contents)),
        Err(fault) => {
            let refused = Refused { number: fault.number, blocks: 0 };
            (Answer { fields: fault.offset, ..refused.answer() }, State::empty())
        }
    }
}

// ---- request

/// Request: "The caller lends 16 fresh bytes as challenge 2. Written: challenge 1, challenge 2 (32 bytes)." The answer's field is the host number.
pub fn request(state: &mut State, request: &[u8], fresh: &[u8], room: &mut [u8]) -> Answer<u16> {
    let host = match judge_request(state, request, fresh, room) {
        Err(refused) => return refused.answer(),
        Ok(host) => host,
    };
    let written = [&request[4..REQUEST_NAME], fresh].concat();
    state.records[host] = state.records[host].request(array_at(fresh, 0));
    accept(0, host as u16 + 1, &written, room)
}

/// Request: 39, 28, 20, 21, 22, 23, 7. The place of the host named.
fn judge_request(state: &State, request: &[u8], fresh: &[u8], room: &[u8]) -> Result<usize, Refused> {
    require_sound(state)?;
    require(fresh.len() == 16, LENT_LENGTH)?;
    require((SHORTEST_REQUEST..=LONGEST_REQUEST).contains(&request.len()), REQUEST_SIZE)?;
    // Major 1 (1 byte), minor 0 (1 byte), name length (2), challenge 1 (16), name.
    require(request[0] == 1 && request[1] == 0, VERSION)?;
    require(usize::from(u16_at(request, 2)) == request.len() - REQUEST_NAME, NAME_LENGTH)?;
    let Some(host) = state.host_named(&request[REQUEST_NAME..]) else {
        return refuse(NO_SUCH_NAME);
    };
    require_room(room, REQUEST_WRITES)?;
    Ok(host)
}

// ---- proof

/// Proof: "host number from the channel, and 32 bytes: challenge 2, challenge 3. Written: client ID (2), two zeros, challenge 3 (20 bytes)." One
/// block.
pub fn proof(state: &mut State, host_number: u16, proof: &[u8], room: &mut [u8]) -> Answer {
    let host = match judge_proof(state, host_number, proof, room) {
        Err(refused) => return refused.answer(),
        Ok(host) => host,
    };
    let challenge_3: Block = array_at(proof, 16);
    // "The client ID is the host's id in the book."
    let written = [&host_number.to_le_bytes()[..], &[0, 0], &challenge_3].concat();
    state.records[host] = state.records[host].proof(&challenge_3);
    accept(1, (), &written, room)
}

/// Proof: 39, 4, 25, 26, 27, 7. The place of the host.
fn judge_proof(state: &State, host_number: u16, proof: &[u8], room: &[u8]) -> Result<usize, Refused> {
    require_sound(state)?;
    let host = require_host(state, host_number)?;
    require(proof.len() == PROOF_LENGTH, PROOF_SIZE)?;
    let Record::Waiting { challenge_2 } = state.records[host] else {
        return refuse(NOT_WAITING);
    };
    require(proof[..16] == challenge_2, CHALLENGE_DIFFERS)?;
    require_room(room, PROOF_WRITES)?;
    Ok(host)
}

// ---- command

/// The inner fields of an accepted command, all 0 on a refusal.
#[derive(Clone, Copy, Debug, Default, PartialEq, Eq)]
pub struct CommandFields {
    pub client: u16,
    pub sequence: u16,
    pub group: u16,
    pub interface: u16,
    pub capability: u16,
    pub payload_length: u16,
    pub command: u8,
    pub words: [u64; 4],
    pub secret: Block,
}

/// Encrypted part: "client ID, sequence number, group, interface, capability ID, payload length (2 each), command ID (1), zeros (3), four reduction
/// words (8 each), secret (16), payload".
fn read_inner(inner: &[u8]) -> CommandFields {
    CommandFields {
        client: u16_at(inner, 0),
        sequence: u16_at(inner, 2),
        group: u16_at(inner, 4),
        interface: u16_at(inner, 6),
        capability: u16_at(inner, 8),
        payload_length: u16_at(inner, 10),
        command: inner[12],
        words: words_at(inner, 16),
        secret: array_at(inner, 48),
    }
}

/// A command that has passed every check.
struct PassedCommand {
    host: usize,
    fields: CommandFields,
    payload: Vec<u8>,
    blocks: u32,
}

/// A command packet whose tag is right.
struct OpenedCommand {
    host: usize,
    last: u16,
    inner: Vec<u8>,
    blocks: u32,
}

/// Command: an accepted one writes its payload, moves the last number and owes a reply.
pub fn command(state: &mut State, packet: &[u8], room: &mut [u8]) -> Answer<CommandFields> {
    let passed = match judge_command(state, packet, room) {
        Err(refused) => return refused.answer(),
        Ok(passed) => passed,
    };
    state.records[passed.host] = state.records[passed.host].accept(passed.fields.sequence);
    accept(passed.blocks, passed.fields, &passed.payload, room)
}

/// Command: 39, then 1 to 19.
fn judge_command(state: &State, packet: &[u8], room: &[u8]) -> Result<PassedCommand, Refused> {
    let opened = open_command(state, packet, room)?;
    let fields = read_inner(&opened.inner);
    check_inner(&opened, &fields, u16_at(packet, 0))?;
    let blocks = check_rights(state, &opened, &fields)?;
    let payload = opened.inner[INNER_HEAD..].to_vec();
    Ok(PassedCommand { host: opened.host, fields, payload, blocks })
}

/// 39, then 1 to 8: what is judged before anything is decrypted.
fn open_command(state: &State, packet: &[u8], room: &[u8]) -> Result<OpenedCommand, Refused> {
    require_sound(state)?;
    // 1, 2: packet below 96 or above 16,480 bytes.
    require(packet.len() >= COMMAND_HEAD, PACKET_TOO_SHORT)?;
    require(packet.len() <= COMMAND_HEAD + LONGEST_PAYLOAD, PACKET_TOO_LONG)?;
    // 3: bytes 2, 3 not zero.
    require(packet[2..4] == [0, 0], OPEN_ZEROS)?;
    let host = require_host(state, u16_at(packet, 0))?;
    // 5: vector byte 0 is 128 or more.
    require(packet[4] < FIRST_REPLY_BYTE, VECTOR)?;
    let Record::Open { key, last, .. } = state.records[host] else {
        return refuse(NOT_OPEN);
    };
    // 7: packet length less 96.
    require_room(room, packet.len() - COMMAND_HEAD)?;
    // Open part: client ID (2), zeros (2), initial vector (12), tag (16).
    let (vector, tag) = (array_at(packet, 4), array_at(packet, 16));
    let opened = gcm::open(&key, &vector, &packet[..ADDITIONAL], &packet[OPEN_PART..], &tag);
    match opened.plain {
        Some(inner) => Ok(OpenedCommand { host, last, inner, blocks: opened.blocks }),
        None => Err(Refused { number: TAG_WRONG, blocks: opened.blocks }),
    }
}

/// 9 to 12: the inner fields by themselves and against the last number.
fn check_inner(opened: &OpenedCommand, fields: &CommandFields, client: u16) -> Result<(), Refused> {
    let require = |holds, number| require_after(opened.blocks, holds, number);
    require(fields.client == client, INNER_CLIENT)?;
    require(opened.inner[13..16] == [0, 0, 0], INNER_ZEROS)?;
    let carried = opened.inner.len() - INNER_HEAD;
    require(usize::from(fields.payload_length) == carried, PAYLOAD_LENGTH)?;
    // "A number is fresh if greater than the last accepted."
    require(fields.sequence > opened.last, SEQUENCE)
}

/// 13 to 19: group, interface, entry, rights and secret. All blocks counted.
fn check_rights(state: &State, opened: &OpenedCommand, fields: &CommandFields) -> Result<u32, Refused> {
    let blocks = opened.blocks;
    let require = |holds, number| require_after(blocks, holds, number);
    let host_group = state.host_groups[opened.host];
    require(fields.group == 0 || fields.group == host_group, GROUP)?;
    let Some(interface) = state.interface_index(fields.interface) else {
        return Err(Refused { number: NO_SUCH_INTERFACE, blocks });
    };
    let Some(entry) = state.entry_index(interface, fields.capability) else {
        return Err(Refused { number: NO_SUCH_ENTRY, blocks });
    };
    let entry_group = state.entry_groups[interface][entry];
    require(entry_group == 0 || entry_group == fields.group, ENTRY_GROUP)?;
    require(u16::from(fields.command) < state.command_counts[interface], NO_SUCH_COMMAND)?;
    let entry_word = state.entry_words[interface][entry];
    require(permitted(entry_word, &fields.words, fields.command), NOT_PERMITTED)?;
    // By 19 or accepted: "that, plus 1, plus the words before the first all-ones word".
    let first = first_secret(&state.master_secrets[interface], fields.capability);
    let (secret, chained) = chain(first, &fields.words);
    let blocks = blocks + 1 + chained;
    require_after(blocks, secret == fields.secret, SECRET_WRONG)?;
    Ok(blocks)
}

// ---- reply

/// Reply: "vector (12), tag (16), then encrypted sequence number (2), payload length (2), payload; no additional data."
pub fn reply(state: &mut State, host_number: u16, sequence: u16, payload: &[u8], room: &mut [u8]) -> Answer {
    let (host, key) = match judge_reply(state, host_number, sequence, payload, room) {
        Err(refused) => return refused.answer(),
        Ok(passed) => passed,
    };
    let vector = reply_vector(sequence);
    let length = payload.len() as u16;
    let plain = [&sequence.to_le_bytes()[..], &length.to_le_bytes(), payload].concat();
    let sealed = gcm::seal(&key, &vector, &[], &plain);
    let packet = [&vector[..], &sealed.tag, &sealed.encrypted].concat();
    state.records[host] = state.records[host].reply();
    accept(sealed.blocks, (), &packet, room)
}

/// Reply: 39, 4, 6, 29, 30, 7. The place of the host and its key.
fn judge_reply(state: &State, host_number: u16, sequence: u16, payload: &[u8], room: &[u8]) -> Result<(usize, Block), Refused> {
    require_sound(state)?;
    let host = require_host(state, host_number)?;
    let Record::Open { key, last, owed } = state.records[host] else {
        return refuse(NOT_OPEN);
    };
    // "One reply for the last accepted command, once".
    require(owed && sequence == last, NO_REPLY_OWED)?;
    require(payload.len() <= LONGEST_PAYLOAD, PAYLOAD_TOO_LONG)?;
    require_room(room, REPLY_HEAD + payload.len())?;
    Ok((host, key))
}

// ---- close, revoke

/// "Close makes a record idle from any state." Close: 39, 4.
pub fn close(state: &mut State, host_number: u16) -> Answer {
    match require_sound(state).and_then(|()| require_host(state, host_number)) {
        Err(refused) => refused.answer(),
        Ok(host) => {
            state.records[host] = state.records[host].close();
            accept(0, (), &[], &mut [])
        }
    }
}

/// "Revocation replaces an entry's word by its AND with the given word, at once."
pub fn revoke(state: &mut State, interface_number: u16, entry_number: u16, word: u64) -> Answer {
    match judge_revoke(state, interface_number, entry_number) {
        Err(refused) => refused.answer(),
        Ok((interface, entry)) => {
            state.entry_words[interface][entry] &= word;
            accept(0, (), &[], &mut [])
        }
    }
}

/// Revoke: 39, 14, 15. The places of the interface and the entry.
fn judge_revoke(state: &State, interface_number: u16, entry_number: u16) -> Result<(usize, usize), Refused> {
    require_sound(state)?;
    let Some(interface) = state.interface_index(interface_number) else {
        return refuse(NO_SUCH_INTERFACE);
    };
    let Some(entry) = state.entry_index(interface, entry_number) else {
        return refuse(NO_SUCH_ENTRY);
    };
    Ok((interface, entry))
}
