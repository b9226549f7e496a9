//! Document 01, "Book, each with the offset of the fault": each cause of a refused book, how a book with it is made, and which it was by the answer.

use model::bytes::u16_at;

use crate::books::{Host, Interface, LONGEST, Plan, Row, host_body, interface_body, rows, written};
use crate::random::Random;

#[derive(Clone, Copy, Debug, PartialEq, Eq)]
pub enum Cause {
    Below,
    Above,
    Total,
    Format,
    NoRows,
    RowsAbove,
    RowsPast,
    Kind,
    InterfaceFirst,
    HostAfter,
    Host33,
    Interface9,
    Id,
    Start,
    LengthBelow,
    LengthAbove,
    LengthPast,
    EndsEarly,
    NoCommands,
    CommandsAbove,
    NoEntries,
    EntriesAbove,
    NoName,
    NameAbove,
    Bit,
    Letter,
    SpaceFirst,
    SpaceLast,
    HostUsed,
    InterfaceUsed,
}

/// Each cause with its number and its words.
pub const CAUSES: [(Cause, u8, &str); 30] = [
    (Cause::Below, 40, "at 0 below 8 bytes"),
    (Cause::Above, 40, "at 0 above 12,232"),
    (Cause::Total, 40, "at 4 total"),
    (Cause::Format, 41, "at 0 format"),
    (Cause::NoRows, 42, "at 2 none"),
    (Cause::RowsAbove, 42, "at 2 above 40"),
    (Cause::RowsPast, 42, "at 2 past the end"),
    (Cause::Kind, 43, "at row kind"),
    (Cause::InterfaceFirst, 43, "at row interface first"),
    (Cause::HostAfter, 43, "at row host after an interface"),
    (Cause::Host33, 43, "at row host 33"),
    (Cause::Interface9, 43, "at row interface 9"),
    (Cause::Id, 43, "at row+2 id"),
    (Cause::Start, 44, "at row+4 start"),
    (Cause::LengthBelow, 44, "at row+8 below its range"),
    (Cause::LengthAbove, 44, "at row+8 above its range"),
    (Cause::LengthPast, 44, "at row+8 past the total"),
    (Cause::EndsEarly, 44, "at row+8 last row ends early"),
    (Cause::NoCommands, 45, "at body+16 no commands"),
    (Cause::CommandsAbove, 45, "at body+16 above 64"),
    (Cause::NoEntries, 45, "at body+18 no entries"),
    (Cause::EntriesAbove, 45, "at body+18 above 16"),
    (Cause::NoName, 45, "at body+18 no name left"),
    (Cause::NameAbove, 45, "at body+18 name above 256"),
    (Cause::Bit, 46, "at the word"),
    (Cause::Letter, 47, "at the letter"),
    (Cause::SpaceFirst, 47, "space first"),
    (Cause::SpaceLast, 47, "space last"),
    (Cause::HostUsed, 48, "host's name"),
    (Cause::InterfaceUsed, 48, "interface's name"),
];

/// A book that is wrong by that cause and by no other.
pub fn wrong_book(random: &mut Random, cause: Cause) -> Vec<u8> {
    let (hosts, interfaces) = (random.between(2, 6), random.between(2, 4));
    let plan = Plan::sized(random, hosts, interfaces);
    match cause {
        Cause::Below | Cause::Above | Cause::Total | Cause::Format | Cause::NoRows | Cause::RowsAbove | Cause::RowsPast => {
            wrong_head(random, cause, plan.book())
        }
        Cause::Kind | Cause::Id | Cause::Start | Cause::LengthBelow | Cause::LengthAbove | Cause::LengthPast | Cause::EndsEarly => {
            wrong_row(random, cause, plan.book())
        }
        Cause::InterfaceFirst | Cause::HostAfter | Cause::Host33 | Cause::Interface9 => wrong_order(random, cause),
        Cause::Letter | Cause::SpaceFirst | Cause::SpaceLast | Cause::HostUsed | Cause::InterfaceUsed => wrong_name(random, cause, plan).book(),
        _ => wrong_interface(random, cause, plan),
    }
}

/// Other values in one field or in two, of the head, of a row or of a body, whatever is wrong with the book already.
pub fn wrong_fields(random: &mut Random, book: &mut [u8]) {
    let rows = rows(book);
    let row = random.any(&rows).unwrap_or(Row { at: 0, kind: 1, start: 0, length: 0 });
    let (head, body) = ([0, 2, 4, 4], [0, 16, 18, 19].map(|at| row.start.saturating_add(at)));
    let fields = random.pick(&[head, [row.at, row.at + 2, row.at + 4, row.at + 8], body]);
    for _ in 0..random.between(1, 2) {
        let (at, bit) = (random.pick(&fields), 1 << random.below(8));
        if let Some(byte) = book.get_mut(at) {
            *byte = random.pick(&[byte.wrapping_add(1), byte.wrapping_sub(1), *byte ^ bit, 0]);
        }
    }
}

fn put(book: &mut [u8], at: usize, bytes: &[u8]) {
    book[at..at + bytes.len()].copy_from_slice(bytes);
}

fn put_total(book: &mut [u8]) {
    let total = (book.len() as u32).to_le_bytes();
    put(book, 4, &total);
}

fn wrong_head(random: &mut Random, cause: Cause, mut book: Vec<u8>) -> Vec<u8> {
    let bit = 1u32 << random.below(32);
    let (length, small) = (book.len() as u32, bit as u16 | 1 << random.below(16));
    match cause {
        Cause::Below => book.truncate(random.pick(&[0, 1, 4, 7, 7, 7])),
        Cause::Above => {
            book.resize(random.pick(&[LONGEST + 1, LONGEST + 1, LONGEST + 2, 20_000]), 0);
            put_total(&mut book);
        }
        Cause::Total => put(&mut book, 4, &random.pick(&[length + 1, length - 1, length ^ bit]).to_le_bytes()),
        Cause::Format => put(&mut book, 0, &(1 ^ small).to_le_bytes()),
        Cause::NoRows => put(&mut book, 2, &[0, 0]),
        Cause::RowsAbove => {
            book.resize(8 + 12 * 41 + random.below(200), 0);
            put_total(&mut book);
            put(&mut book, 2, &random.pick(&[41, 42, 256, 65_535u16]).to_le_bytes());
        }
        _ => {
            let rows = random.between(1, 40);
            book.resize(8 + 12 * rows - random.pick(&[1, 1, 12, 5]), 0);
            put_total(&mut book);
            put(&mut book, 2, &(rows as u16).to_le_bytes());
        }
    }
    book
}

fn wrong_row(random: &mut Random, cause: Cause, mut book: Vec<u8>) -> Vec<u8> {
    let rows = rows(&book);
    let last = rows.len() - 1;
    let index = if matches!(cause, Cause::EndsEarly | Cause::LengthPast) { last } else { random.below(rows.len()) };
    let row = rows[index];
    let (least, most) = if row.kind == 1 { (3u32, 258u32) } else { (31, 436) };
    let (id, start) = (u16_at(&book, row.at + 2), row.start as u32);
    let bit = random.below(16);
    match cause {
        Cause::Kind => put(&mut book, row.at, &random.pick(&[0, 3, row.kind | 256, 65_535]).to_le_bytes()),
        Cause::Id => put(&mut book, row.at + 2, &random.pick(&[0, id + 1, id - 1, id ^ 1 << bit]).to_le_bytes()),
        Cause::Start => put(&mut book, row.at + 4, &random.pick(&[0, start + 1, start - 1, start ^ 1 << bit, start | 1 << 31]).to_le_bytes()),
        Cause::LengthBelow => put(&mut book, row.at + 8, &random.pick(&[0, 1, least - 1]).to_le_bytes()),
        Cause::LengthAbove => put(&mut book, row.at + 8, &random.pick(&[most + 1, most + 2, u32::MAX, u32::MAX - start + 1]).to_le_bytes()),
        _ => {
            let by = 1 + random.below(3) * random.below(20);
            book.resize(if cause == Cause::EndsEarly { book.len() + by } else { book.len() - by }, b'a');
            put_total(&mut book);
        }
    }
    book
}

fn wrong_order(random: &mut Random, cause: Cause) -> Vec<u8> {
    let spare = Plan::sized(random, 33, 9);
    let hosts: Vec<(u16, Vec<u8>)> = spare.hosts.iter().map(|host| (1, host_body(&Host { group: host.group, name: short(&host.name) }))).collect();
    let interfaces: Vec<(u16, Vec<u8>)> = spare.interfaces.iter().map(|interface| (2, interface_body(interface))).collect();
    let some = random.between(1, 3);
    match cause {
        Cause::InterfaceFirst => written(&[&interfaces[..some], &hosts[..random.below(3)]].concat()),
        Cause::HostAfter => written(&[&hosts[..some], &interfaces[..random.between(1, 3)], &hosts[some..some + 1]].concat()),
        Cause::Host33 => written(&[&hosts[..33], &interfaces[..random.below(3)]].concat()),
        _ => written(&[&hosts[..some], &interfaces[..9]].concat()),
    }
}

/// A name's beginning: order is judged before names, and 33 long ones would make too long a book.
fn short(name: &[u8]) -> Vec<u8> {
    name[..name.len().min(8)].to_vec()
}

/// The name to be spoiled: a host's or an interface's.
fn some_name<'a>(random: &mut Random, plan: &'a mut Plan) -> &'a mut Vec<u8> {
    let (hosts, interfaces) = (plan.hosts.len(), plan.interfaces.len());
    match random.below(hosts + interfaces) {
        k if k < hosts => &mut plan.hosts[k].name,
        k => &mut plan.interfaces[k - hosts].name,
    }
}

fn wrong_name(random: &mut Random, cause: Cause, mut plan: Plan) -> Plan {
    match cause {
        Cause::HostUsed => {
            let (one, other) = two_places(random, plan.hosts.len());
            plan.hosts[other].name = plan.hosts[one].name.clone();
        }
        Cause::InterfaceUsed => {
            let (one, other) = two_places(random, plan.interfaces.len());
            plan.interfaces[other].name = plan.interfaces[one].name.clone();
        }
        _ => {
            let letter = random.pick(b"\0\x1f!\"*,:;<=>?@[\\]^`{|}~\x7f\x80\xc1\xff\n");
            let name = some_name(random, &mut plan);
            let last = name.len() - 1;
            match cause {
                Cause::SpaceFirst => name[0] = b' ',
                Cause::SpaceLast => name.extend_from_within(..usize::from(last == 0)),
                _ => name[random.below(last + 1)] = letter,
            }
            let last = name.len() - 1;
            name[last] = if cause == Cause::SpaceLast { b' ' } else { name[last] };
        }
    }
    plan
}

fn two_places(random: &mut Random, count: usize) -> (usize, usize) {
    let one = random.below(count - 1);
    (one, random.between(one + 1, count - 1))
}

fn wrong_interface(random: &mut Random, cause: Cause, mut plan: Plan) -> Vec<u8> {
    let which = random.below(plan.interfaces.len());
    let interface = &mut plan.interfaces[which];
    prepare(random, cause, interface);
    let entries = interface.entries.len() as u16;
    let mut book = plan.book();
    let body = rows(&book)[plan.hosts.len() + which].start;
    match cause {
        Cause::NoCommands => put(&mut book, body + 16, &[0, 0]),
        Cause::CommandsAbove => put(&mut book, body + 16, &random.pick(&[65, 66, 256, 320, 65_535u16]).to_le_bytes()),
        Cause::NoEntries => put(&mut book, body + 18, &[0, 0]),
        Cause::EntriesAbove => put(&mut book, body + 18, &random.pick(&[17, 18, 256 + entries, 65_535]).to_le_bytes()),
        _ => {}
    }
    book
}

/// Brings an interface to where the cause can be put in, or puts it in.
fn prepare(random: &mut Random, cause: Cause, interface: &mut Interface) {
    match cause {
        Cause::NoName => {
            interface.entries.resize(random.between(2, 16), (0, 0));
            interface.name.clear();
        }
        Cause::NameAbove => {
            interface.entries.truncate(random.between(1, 4));
            let length = random.pick(&[257, 258, 300]);
            interface.name = (0..length).map(|k| b'a' + k as u8 % 26).collect();
        }
        Cause::Bit => {
            interface.commands = random.pick(&[1, 7, 31, 32, 33, 62, 63]);
            let fits = u64::MAX >> (64 - interface.commands);
            interface.entries.iter_mut().for_each(|(_, word)| *word &= fits);
            let which = random.below(interface.entries.len());
            let above = random.between(usize::from(interface.commands), 63);
            interface.entries[which].1 |= 1 << random.pick(&[usize::from(interface.commands), above, 63]);
        }
        _ => {}
    }
}

/// Which cause it was that a book was refused for.
pub fn cause(book: &[u8], number: u8, offset: usize) -> Option<Cause> {
    let rows = rows(book);
    let body = rows.iter().find(|row| (row.start..row.start.saturating_add(row.length)).contains(&offset));
    match number {
        40 if offset == 4 => Some(Cause::Total),
        40 => Some(if book.len() < 8 { Cause::Below } else { Cause::Above }),
        41 => Some(Cause::Format),
        42 => Some(match u16_at(book, 2) {
            0 => Cause::NoRows,
            41.. => Cause::RowsAbove,
            _ => Cause::RowsPast,
        }),
        43 => Some(cause_43(book, &rows, offset)),
        44 => rows.iter().find(|row| row.at == offset.wrapping_sub(8)).map_or(Some(Cause::Start), |row| Some(cause_44(book, row))),
        45 => body.map(|row| cause_45(book, row, offset)),
        46 => Some(Cause::Bit),
        47 => body.map(|row| cause_47(book, row, offset)),
        48 => body.map(|row| if row.kind == 1 { Cause::HostUsed } else { Cause::InterfaceUsed }),
        _ => None,
    }
}

fn cause_43(book: &[u8], rows: &[Row], offset: usize) -> Cause {
    let before = rows.iter().take_while(|row| row.at < offset);
    match u16_at(book, offset) {
        _ if !rows.iter().any(|row| row.at == offset) => Cause::Id,
        1 if before.clone().any(|row| row.kind == 2) => Cause::HostAfter,
        1 => Cause::Host33,
        2 if before.count() == 0 => Cause::InterfaceFirst,
        2 => Cause::Interface9,
        _ => Cause::Kind,
    }
}

fn cause_44(book: &[u8], row: &Row) -> Cause {
    let (least, most) = if row.kind == 1 { (3, 258) } else { (31, 436) };
    match row.length {
        length if length < least => Cause::LengthBelow,
        length if length > most => Cause::LengthAbove,
        length if row.start + length > book.len() => Cause::LengthPast,
        _ => Cause::EndsEarly,
    }
}

fn cause_45(book: &[u8], row: &Row, offset: usize) -> Cause {
    let (commands, entries) = (u16_at(book, row.start + 16), usize::from(u16_at(book, row.start + 18)));
    match entries {
        _ if offset == row.start + 16 && commands == 0 => Cause::NoCommands,
        _ if offset == row.start + 16 => Cause::CommandsAbove,
        0 => Cause::NoEntries,
        17.. => Cause::EntriesAbove,
        _ if row.length <= 20 + 10 * entries => Cause::NoName,
        _ => Cause::NameAbove,
    }
}

fn cause_47(book: &[u8], row: &Row, offset: usize) -> Cause {
    let name = if row.kind == 1 { 2 } else { 20 + 10 * usize::from(u16_at(book, row.start + 18)) };
    match book.get(offset) {
        Some(b' ') if offset == row.start + name => Cause::SpaceFirst,
        Some(b' ') => Cause::SpaceLast,
        _ => Cause::Letter,
    }
}

#[cfg(test)]
mod tests {
    use super::*;

    /// Each cause is what the model finds in the book that was made for it, with its number.
    #[test]
    fn books_are_wrong_by_their_cause() {
        let mut random = Random::new(1);
        for (made_for, number, words) in CAUSES.iter().cycle().take(50 * CAUSES.len()) {
            let book = wrong_book(&mut random, *made_for);
            let answer = model::load(&book).0;
            assert_eq!((answer.number, cause(&book, answer.number, answer.fields)), (*number, Some(*made_for)), "{words}");
        }
    }

    #[test]
    fn good_books_are_good() {
        let mut random = Random::new(2);
        let mut books: Vec<Vec<u8>> = (0..200).map(|_| Plan::random(&mut random).book()).collect();
        books.push(Plan::largest(&mut random).book());
        assert_eq!(books[200].len(), LONGEST);
        assert!(books.iter().all(|book| model::load(book).0.number == 0));
    }
}
