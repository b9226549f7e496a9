//! A double's loading: the model's, and then a fault.

use deebqoshaan::raw::State;
use model::book::{self, Contents};
use model::bytes::{u16_at, u64_at};

use super::{Double, Fault, Odd, refused};
use crate::books::{Row, rows};
use crate::call::{Answer, Kind};
use crate::layout;

impl Double {
    pub(super) fn load(&mut self, state: &mut State, bytes: &[u8]) -> Answer {
        let before = state.clone();
        let (answer, loaded) = model::load(bytes);
        *state = layout::empty();
        layout::lay(&loaded, None, state);
        let whose = state as *const State as usize;
        self.verdicts.retain(|verdict| verdict.0 != whose);
        if self.has(Odd::StateKept) && answer.number != 0 {
            *state = before.clone();
        }
        if self.has(Odd::RecordsKept) {
            state.records = before.records.clone();
        }
        if self.has(Odd::NamesKept) {
            state.names[8_191] = before.names[8_191];
            state.names[255] |= before.names[255];
        }
        let (number, offset) = self.fault_of(bytes, answer.number, answer.fields);
        Answer { offset, ..refused(number) }
    }

    /// The number and the place that the double answers for these.
    fn fault_of(&self, bytes: &[u8], number: u8, offset: usize) -> (u8, usize) {
        if self.fault == Fault::Never(Kind::Load, number) {
            return (0, 0);
        }
        let wrong_name = book::read(bytes).ok().and_then(|contents| self.wrong_name(&contents));
        let in_row = offset.wrapping_sub(8) % 12;
        match number {
            0 => wrong_name.unwrap_or((0, 0)),
            40 if offset == 4 && self.has(Odd::TotalAt0) => (40, 0),
            40 if bytes.len() == 12_233 && self.has(Odd::LongerBook) => (41, 0),
            40 if offset == 4 && self.has(Odd::FormatFirst) && u16_at(bytes, 0) != 1 => (41, 0),
            43 if in_row == 2 && self.has(Odd::StartFirst) && starts_wrong(bytes, offset - 2) => (44, offset + 2),
            42 if self.has(Odd::RowsAt0) => (42, 0),
            43 if in_row == 2 && self.has(Odd::IdAtKind) => (43, offset - 2),
            44 if in_row == 4 && self.has(Odd::StartAtRow) => (44, offset - 4),
            44 if in_row == 8 && self.has(Odd::LengthAtStart) => (44, offset - 4),
            45 if self.has(Odd::EntriesAtCommands) => (45, body(bytes, offset).map_or(offset, |row| row.start + 16)),
            46 if self.has(Odd::WordAtEntry) => (46, offset - 2),
            46 if self.has(Odd::BitAtCount) && just_above(bytes, offset) => (0, 0),
            47 if self.has(Odd::LetterAtName) => (47, offset - 1),
            47 if bytes.get(offset) == Some(&b' ') && self.has(Odd::SpaceLast) => (0, 0),
            48 if self.has(Odd::UsedAtBody) => (48, body(bytes, offset).map_or(offset, |row| row.start)),
            _ => (number, offset),
        }
    }

    /// A name that only a faulty double refuses.
    fn wrong_name(&self, contents: &Contents) -> Option<(u8, usize)> {
        let hosts: Vec<&[u8]> = contents.hosts.iter().map(|host| host.name).collect();
        let across = contents.interfaces.iter().any(|interface| hosts.contains(&interface.name));
        let begins = hosts.iter().enumerate().any(|(k, name)| hosts[..k].iter().any(|other| name.starts_with(other)));
        (across && self.has(Odd::AcrossKinds) || begins && self.has(Odd::ByBeginning)).then_some((48, 0))
    }
}

/// Whether the bit at the command count is all that is wrong with the word at that place.
fn just_above(bytes: &[u8], offset: usize) -> bool {
    let commands = body(bytes, offset).map_or(0, |row| u16_at(bytes, row.start + 16));
    u64_at(bytes, offset).checked_shr(u32::from(commands)) == Some(1)
}

/// Whether the row at that place doesn't start where the one before it ends.
fn starts_wrong(bytes: &[u8], at: usize) -> bool {
    let rows = rows(bytes);
    let first = 8 + 12 * rows.len();
    let due = rows.iter().rev().find(|row| row.at < at).map_or(first, |row| row.start.saturating_add(row.length));
    rows.iter().any(|row| row.at == at && row.start != due)
}

/// The row of the body that the offset lies in.
fn body(bytes: &[u8], offset: usize) -> Option<Row> {
    rows(bytes).into_iter().find(|row| (row.start..row.start.saturating_add(row.length)).contains(&offset))
}
