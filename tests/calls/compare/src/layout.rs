//! The state as the C interface lays it out (`deebqoshaan.h`), and the model's state: one read from the other, and laid out again.

use deebqoshaan::raw::{Records, Rights, State};
use model::Record;
use model::bytes::array_at;
use model::state::Name;

/// No hosts and no interfaces: all bytes zero.
pub fn empty() -> State {
    let rights = Rights {
        words: [0; 128],
        hosts: 0,
        interfaces: 0,
        groups: [0; 32],
        sizes: [0; 32],
        spans: [0; 8],
        commands: [0; 8],
        entries: [0; 8],
        owners: [0; 128],
        secrets: [0; 128],
    };
    let records = Records { tags: [0; 32], lasts: [0; 32], challenges: [0; 512], keys: [0; 512] };
    State { rights, records, names: [0; 8192], labels: [0; 2048] }
}

/// Host i's record, by its tag: "1 waiting, 2 open, 3 open with a reply owed, any other idle" (deebqoshaan.h).
pub fn record(records: &Records, i: usize) -> Record {
    let last = records.lasts[i];
    match records.tags[i] {
        1 => Record::Waiting { challenge_2: array_at(&records.challenges, 16 * i) },
        2 => Record::Open { key: array_at(&records.keys, 16 * i), last, owed: false },
        3 => Record::Open { key: array_at(&records.keys, 16 * i), last, owed: true },
        _ => Record::Idle,
    }
}

/// The model's state with what these bytes hold.
pub fn read(state: &State) -> model::State {
    use std::array::from_fn;
    let State { rights, records, names, labels } = state;
    model::State {
        host_count: rights.hosts,
        interface_count: rights.interfaces,
        host_names: from_fn(|i| Name { length: rights.sizes[i], bytes: array_at(names, 256 * i) }),
        host_groups: rights.groups,
        records: from_fn(|i| record(records, i)),
        interface_names: from_fn(|i| Name { length: rights.spans[i], bytes: array_at(labels, 256 * i) }),
        master_secrets: from_fn(|i| array_at(&rights.secrets, 16 * i)),
        command_counts: rights.commands,
        entry_counts: rights.entries,
        entry_groups: from_fn(|i| from_fn(|j| rights.owners[16 * i + j])),
        entry_words: from_fn(|i| from_fn(|j| rights.words[16 * i + j])),
    }
}

/// Lays the model's state out over the bytes of before. A record is laid out if it was touched or says something else than before.
pub fn lay(model: &model::State, touched: Option<usize>, state: &mut State) {
    lay_hosts(model, touched, state);
    lay_interfaces(model, state);
}

fn lay_hosts(model: &model::State, touched: Option<usize>, state: &mut State) {
    state.rights.hosts = model.host_count;
    state.rights.groups = model.host_groups;
    for (i, name) in model.host_names.iter().enumerate() {
        state.rights.sizes[i] = name.length;
        state.names[256 * i..256 * (i + 1)].copy_from_slice(&name.bytes);
        if touched == Some(i) || record(&state.records, i) != model.records[i] {
            lay_record(&model.records[i], i, &mut state.records);
        }
    }
}

fn lay_interfaces(model: &model::State, state: &mut State) {
    let rights = &mut state.rights;
    rights.interfaces = model.interface_count;
    rights.commands = model.command_counts;
    rights.entries = model.entry_counts;
    for (i, name) in model.interface_names.iter().enumerate() {
        rights.spans[i] = name.length;
        state.labels[256 * i..256 * (i + 1)].copy_from_slice(&name.bytes);
        rights.secrets[16 * i..16 * (i + 1)].copy_from_slice(&model.master_secrets[i]);
        rights.owners[16 * i..16 * (i + 1)].copy_from_slice(&model.entry_groups[i]);
        rights.words[16 * i..16 * (i + 1)].copy_from_slice(&model.entry_words[i]);
    }
}

/// What a record doesn't hold is wiped. A command and a reply, which find a connection open and leave it open, change nothing but its tag and its
/// number.
fn lay_record(record: &Record, i: usize, records: &mut Records) {
    let was_open = matches!(records.tags[i], 2 | 3);
    let kept: [u8; 16] = array_at(&records.challenges, 16 * i);
    let (tag, last, challenge, key) = match *record {
        Record::Idle => (0, 0, [0; 16], [0; 16]),
        Record::Waiting { challenge_2 } => (1, 0, challenge_2, [0; 16]),
        Record::Open { key, last, owed } => (2 + u8::from(owed), last, if was_open { kept } else { [0; 16] }, key),
    };
    records.tags[i] = tag;
    records.lasts[i] = last;
    records.challenges[16 * i..16 * (i + 1)].copy_from_slice(&challenge);
    records.keys[16 * i..16 * (i + 1)].copy_from_slice(&key);
}

#[cfg(test)]
mod tests {
    use super::*;
    use crate::pokes::poked;
    use crate::random::Random;

    /// What was read and isn't touched is laid out as it was, odd records too; nothing is lost on the way.
    #[test]
    fn laid_out_as_it_was_read() {
        let mut random = Random::new(3);
        let mut state = empty();
        for _ in 0..500 {
            state = poked(&mut random, &state);
            let (mut again, model) = (state.clone(), read(&state));
            lay(&model, None, &mut again);
            assert!(again == state);
            let mut anew = empty();
            lay(&model, None, &mut anew);
            assert!(read(&anew) == model && anew.rights == state.rights && anew.names == state.names && anew.labels == state.labels);
        }
    }

    #[test]
    fn a_touched_record_is_wiped() {
        let mut state = empty();
        (state.records.tags[3], state.records.lasts[3], state.records.keys[48], state.records.challenges[63]) = (7, 9, 1, 1);
        let model = read(&state);
        lay(&model, Some(3), &mut state);
        assert!(state == empty());
    }
}
