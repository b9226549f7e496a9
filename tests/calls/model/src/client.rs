//! The client's calls: issuing, narrowing, sealing of commands and opening of replies. None of them keeps a state.

use crate::aes::Block;
use crate::answer::{Answer, Refused, accept, require, require_after, require_room};
use crate::bytes::{array_at, u16_at};
use crate::capability::{ALL_ONES, CAPABILITY_LENGTH, Capability, first_secret, next_secret, words_to_bytes};
use crate::gcm::{self, Vector};
use crate::packet::*;
use crate::refusal::*;

/// 28: "a lent secret, key, vector, capability or fresh bytes of wrong length".
fn require_length<const N: usize>(lent: &[u8]) -> Result<[u8; N], Refused> {
    lent.try_into().map_err(|_| Refused { number: LENT_LENGTH, blocks: 0 })
}

// ---- issue

/// "Issuing gives four all-ones words and the first secret." One block.
pub fn issue(master_secret: &[u8], id: u16, room: &mut [u8]) -> Answer {
    match judge_issue(master_secret, id, room) {
        Err(refused) => refused.answer(),
        Ok(master_secret) => {
            let secret = first_secret(&master_secret, id);
            let capability = Capability { id, words: [ALL_ONES; 4], secret };
            accept(1, (), &capability.to_bytes(), room)
        }
    }
}

/// Issue: 28, 15 (ID 0), 7.
fn judge_issue(master_secret: &[u8], id: u16, room: &[u8]) -> Result<Block, Refused> {
    let master_secret = require_length(master_secret)?;
    require(id != 0, NO_SUCH_ENTRY)?;
    require_room(room, CAPABILITY_LENGTH)?;
    Ok(master_secret)
}

// ---- narrow

/// "Narrowing puts a word in the first all-ones place and moves the secret one step, without the master secret." One block.
pub fn narrow(capability: &[u8], word: u64, room: &mut [u8]) -> Answer {
    match judge_narrow(capability, word, room) {
        Err(refused) => refused.answer(),
        Ok((mut capability, place)) => {
            capability.words[place] = word;
            capability.secret = next_secret(&capability.secret, word);
            accept(1, (), &capability.to_bytes(), room)
        }
    }
}

/// Narrow: 28, 32, 31, 7. The capability and its first all-ones place.
fn judge_narrow(capability: &[u8], word: u64, room: &[u8]) -> Result<(Capability, usize), Refused> {
    let capability = Capability::from_bytes(&require_length(capability)?);
    require(word != ALL_ONES, ALL_ONES_WORD)?;
    let Some(place) = capability.words.iter().position(|&word| word == ALL_ONES) else {
        return Err(Refused { number: NO_WORD_LEFT, blocks: 0 });
    };
    require_room(room, CAPABILITY_LENGTH)?;
    Ok((capability, place))
}

// ---- seal a command

/// What the client puts into a command packet.
#[derive(Clone, Copy, Debug, PartialEq, Eq)]
pub struct Command<'a> {
    pub client: u16,
    pub sequence: u16,
    pub group: u16,
    pub interface: u16,
    pub command: u8,
    pub payload: &'a [u8],
}

/// Seal a command packet (000, figure 2) into the room.
pub fn seal(key: &[u8], vector: &[u8], capability: &[u8], command: &Command, room: &mut [u8]) -> Answer {
    let (key, vector, capability) = match judge_seal(key, vector, capability, command, room) {
        Err(refused) => return refused.answer(),
        Ok(passed) => passed,
    };
    let [low, high] = command.client.to_le_bytes();
    let additional: [u8; ADDITIONAL] = [low, high, 0, 0];
    let sealed = gcm::seal(&key, &vector, &additional, &inner_part(command, &capability));
    let packet = [&additional[..], &vector, &sealed.tag, &sealed.encrypted].concat();
    accept(sealed.blocks, (), &packet, room)
}

/// Seal command: 28, 5, 12, 30, 7.
fn judge_seal(key: &[u8], vector: &[u8], capability: &[u8], command: &Command, room: &[u8]) -> Result<(Block, Vector, Capability), Refused> {
    let key = require_length(key)?;
    let vector: Vector = require_length(vector)?;
    let capability = Capability::from_bytes(&require_length(capability)?);
    require(vector[0] < FIRST_REPLY_BYTE, VECTOR)?;
    require(command.sequence != 0, SEQUENCE)?;
    require(command.payload.len() <= LONGEST_PAYLOAD, PAYLOAD_TOO_LONG)?;
    require_room(room, COMMAND_HEAD + command.payload.len())?;
    Ok((key, vector, capability))
}

/// Encrypted part: "client ID, sequence number, group, interface, capability ID, payload length (2 each), command ID (1), zeros (3), four reduction
/// words (8 each), secret (16), payload".
fn inner_part(command: &Command, capability: &Capability) -> Vec<u8> {
    let numbers = [command.client, command.sequence, command.group, command.interface, capability.id, command.payload.len() as u16];
    let mut inner: Vec<u8> = numbers.iter().flat_map(|number| number.to_le_bytes()).collect();
    inner.extend([command.command, 0, 0, 0]);
    inner.extend(words_to_bytes(&capability.words));
    inner.extend(capability.secret);
    inner.extend(command.payload);
    inner
}

// ---- open a reply

/// Open a reply packet; the payload is written. The answer's field is the payload length.
pub fn open(key: &[u8], expected: u16, packet: &[u8], room: &mut [u8]) -> Answer<u16> {
    match judge_open(key, expected, packet, room) {
        Err(refused) => refused.answer(),
        Ok((plain, blocks)) => accept(blocks, u16_at(&plain, 2), &plain[4..], room),
    }
}

/// Open reply: 28, 1, 2, 5, 7, 8, 11, 12. The decrypted part and the blocks.
fn judge_open(key: &[u8], expected: u16, packet: &[u8], room: &[u8]) -> Result<(Vec<u8>, u32), Refused> {
    let key = require_length(key)?;
    require(packet.len() >= REPLY_HEAD, PACKET_TOO_SHORT)?;
    require(packet.len() <= REPLY_HEAD + LONGEST_PAYLOAD, PACKET_TOO_LONG)?;
    // 5: vector not that of the expected number.
    let vector = reply_vector(expected);
    require(packet[..12] == vector, VECTOR)?;
    // 7: packet length less 32.
    require_room(room, packet.len() - REPLY_HEAD)?;
    let opened = gcm::open(&key, &vector, &[], &packet[REPLY_OPEN_PART..], &array_at(packet, 12));
    let blocks = opened.blocks;
    let Some(plain) = opened.plain else {
        return Err(Refused { number: TAG_WRONG, blocks });
    };
    let carried = packet.len() - REPLY_HEAD;
    require_after(blocks, usize::from(u16_at(&plain, 2)) == carried, PAYLOAD_LENGTH)?;
    require_after(blocks, u16_at(&plain, 0) == expected, SEQUENCE)?;
    Ok((plain, blocks))
}
