//! The account of a difference: what both sides answered, and where what they leave differs.

use deebqoshaan::raw::State;
use model::Record;
use model::bytes::u16_at;

use crate::call::{Answer, Call, GUARD, hex};

/// The state that the call was made on, as far as it matters.
pub fn before(state: &model::State, records: &[Record], call: &Call) -> Vec<String> {
    let host = match call {
        Call::Proof { host, .. } | Call::Reply { host, .. } | Call::Close { host } => *host,
        Call::Command { packet } => u16_at(packet, 0),
        Call::Request { .. } | Call::Revoke { .. } => 0,
        _ => return Vec::new(),
    };
    let sound = if state.is_sound() { "sound" } else { "not sound" };
    let counts = format!("state: {} hosts, {} interfaces, {sound}", state.host_count, state.interface_count);
    let record = records.get(usize::from(host).wrapping_sub(1)).map(|record| format!("host {host} before the call: {record:?}"));
    [counts].into_iter().chain(record).collect()
}

pub fn answers(model: &Answer, given: &Answer) -> [String; 2] {
    [format!("answer by the model: {}", told(model)), format!("answer given:        {}", told(given))]
}

/// An answer without what is 0 in it.
fn told(answer: &Answer) -> String {
    let numbers = [("offset", answer.offset), ("host", usize::from(answer.host)), ("length", answer.length)];
    let mut words = vec![format!("number {}, blocks {}", answer.number, answer.blocks)];
    words.extend(numbers.iter().filter(|(_, number)| *number != 0).map(|(name, number)| format!("{name} {number}")));
    let order = || format!("{:?} with the secret {}", answer.order, hex(&answer.order.secret));
    words.extend((answer.order != Answer::default().order).then(order));
    words.join(", ")
}

/// Where two rooms differ, both with their guards.
pub fn rooms(model: &[u8], given: &[u8]) -> Vec<String> {
    let Some(at) = model.iter().zip(given).position(|(a, b)| a != b) else {
        return Vec::new();
    };
    let shown = |room: &[u8]| hex(&room[at..room.len().min(at + 32)]);
    let place = at as i64 - GUARD as i64;
    vec![
        format!("room of {} bytes, from byte {place} on (below 0: before it)", model.len() - 2 * GUARD),
        format!("  by the model: {}", shown(model)),
        format!("  given:        {}", shown(given)),
    ]
}

/// A line for each field of the state that differs, with the first place where it does.
pub fn states(expected: &State, given: &State) -> Vec<String> {
    let (one, other) = (fields(expected), fields(given));
    let places = one.iter().zip(&other).filter_map(|((name, a), (_, b))| Some((name, a, b, a.iter().zip(b).position(|(a, b)| a != b)?)));
    places.map(|(name, a, b, at)| format!("state: {name}[{at}] is {} by the model, given {}", a[at], b[at])).collect()
}

fn fields(state: &State) -> Vec<(&'static str, Vec<u64>)> {
    fn wide<T: Copy + Into<u64>>(values: &[T]) -> Vec<u64> {
        values.iter().map(|&value| value.into()).collect()
    }
    let State { rights, records, names, labels } = state;
    vec![
        ("words", wide(&rights.words)),
        ("hosts", wide(&[rights.hosts])),
        ("interfaces", wide(&[rights.interfaces])),
        ("groups", wide(&rights.groups)),
        ("sizes", wide(&rights.sizes)),
        ("spans", wide(&rights.spans)),
        ("commands", wide(&rights.commands)),
        ("entries", wide(&rights.entries)),
        ("owners", wide(&rights.owners)),
        ("secrets", wide(&rights.secrets)),
        ("tags", wide(&records.tags)),
        ("lasts", wide(&records.lasts)),
        ("challenges", wide(&records.challenges)),
        ("keys", wide(&records.keys)),
        ("names", wide(names)),
        ("labels", wide(labels)),
    ]
}
