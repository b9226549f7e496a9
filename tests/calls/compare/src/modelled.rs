//! A call performed by the model.

use deebqoshaan::raw::Order;
use model::aes::encrypt_block;
use model::{Command, CommandFields};

use crate::call::{Answer, Call, Sealing};

pub fn perform(state: &mut model::State, call: &Call, room: &mut [u8]) -> Answer {
    match call {
        Call::Load { book } => {
            let (answer, loaded) = model::load(book);
            *state = loaded;
            Answer { offset: answer.fields, ..plain(&answer) }
        }
        Call::Request { request, fresh } => {
            let answer = model::request(state, request, fresh, room);
            Answer { host: answer.fields, ..plain(&answer) }
        }
        Call::Command { packet } => {
            let answer = model::command(state, packet, room);
            Answer { order: order(&answer.fields), ..plain(&answer) }
        }
        Call::Proof { host, proof } => plain(&model::proof(state, *host, proof, room)),
        Call::Reply { host, sequence, payload } => plain(&model::reply(state, *host, *sequence, payload, room)),
        Call::Close { host } => plain(&model::close(state, *host)),
        Call::Revoke { interface, entry, word } => plain(&model::revoke(state, *interface, *entry, *word)),
        _ => by_client(call, room),
    }
}

fn by_client(call: &Call, room: &mut [u8]) -> Answer {
    match call {
        Call::Issue { master, id } => plain(&model::issue(master, *id, room)),
        Call::Narrow { capability, word } => plain(&model::narrow(capability, *word, room)),
        Call::Seal(Sealing { key, vector, capability, client, sequence, group, interface, command, payload }) => {
            let fields = Command { client: *client, sequence: *sequence, group: *group, interface: *interface, command: *command, payload };
            plain(&model::seal(key, vector, capability, &fields, room))
        }
        Call::Open { key, expected, reply } => {
            let answer = model::open(key, *expected, reply, room);
            Answer { length: usize::from(answer.fields), ..plain(&answer) }
        }
        Call::Key { challenge_2, challenge_3 } => {
            room.copy_from_slice(&encrypt_block(challenge_2, challenge_3));
            Answer::default()
        }
        _ => Answer::default(),
    }
}

fn plain<F>(answer: &model::Answer<F>) -> Answer {
    Answer { number: answer.number, blocks: answer.blocks as usize, ..Answer::default() }
}

fn order(fields: &CommandFields) -> Order {
    Order {
        client: fields.client,
        sequence: fields.sequence,
        group: fields.group,
        interface: fields.interface,
        capability: fields.capability,
        length: fields.payload_length,
        command: fields.command,
        zeros: 0,
        words: fields.words,
        secret: fields.secret,
    }
}
