//! The book: "A contents list first, then the bodies, with no gaps."
//!
//! Checks in document 01's order, each with the offset of the fault, and the contents of a book that passes.

use crate::aes::Block;
use crate::bytes::{array_at, u16_at, u32_at, u64_at};
use crate::refusal::*;

pub const HOST_LIMIT: usize = 32;
pub const INTERFACE_LIMIT: usize = 8;
pub const ENTRY_LIMIT: usize = 16;
pub const COMMAND_LIMIT: u16 = 64;
pub const NAME_LIMIT: usize = 256;

const SHORTEST_BOOK: usize = 8;
const LONGEST_BOOK: usize = 12_232;
const HEAD: usize = 8;
const ROW: usize = 12;
const ROW_LIMIT: usize = HOST_LIMIT + INTERFACE_LIMIT;
const FORMAT: u16 = 1;
const ENTRY: usize = 10;
/// Master secret (16), command count (2), entry count (2).
const INTERFACE_HEAD: usize = 20;

/// A refused book: the number and the offset of the fault.
#[derive(Clone, Copy, Debug, PartialEq, Eq)]
pub struct Fault {
    pub number: u8,
    pub offset: usize,
}

/// A host body: group (0 is none), name.
#[derive(Clone, Copy, Debug, PartialEq, Eq)]
pub struct Host<'a> {
    pub group: u16,
    pub name: &'a [u8],
}

/// An entry: group (0 is anyone) and permitted word.
#[derive(Clone, Copy, Debug, PartialEq, Eq)]
pub struct Entry {
    pub group: u16,
    pub word: u64,
}

/// An interface body.
#[derive(Clone, Debug, PartialEq, Eq)]
pub struct Interface<'a> {
    pub master_secret: Block,
    pub command_count: u16,
    pub entries: Vec<Entry>,
    pub name: &'a [u8],
}

/// The contents of an accepted book. Ids run from 1 in this order.
#[derive(Clone, Debug, Default, PartialEq, Eq)]
pub struct Contents<'a> {
    pub hosts: Vec<Host<'a>>,
    pub interfaces: Vec<Interface<'a>>,
}

#[derive(Clone, Copy, PartialEq, Eq)]
enum Kind {
    Host,
    Interface,
}

/// A row that has passed: its kind and the place of its body.
struct Row {
    kind: Kind,
    start: usize,
    length: usize,
}

/// Judge a whole book: the head, then row by row, then body by body.
pub fn read(book: &[u8]) -> Result<Contents<'_>, Fault> {
    let row_count = check_head(book)?;
    let rows = check_rows(book, row_count)?;
    let mut contents = Contents::default();
    for row in &rows {
        read_body(book, row, &mut contents)?;
    }
    Ok(contents)
}

/// Refuse by `number` at `offset` unless the rule holds.
fn require(holds: bool, number: u8, offset: usize) -> Result<(), Fault> {
    if holds { Ok(()) } else { Err(Fault { number, offset }) }
}

/// Head, 8 bytes: format 1 (2), rows n (2), total length (4). The row count.
fn check_head(book: &[u8]) -> Result<usize, Fault> {
    // 40: below 8 or above 12,232 bytes (0), total not the length (4).
    require((SHORTEST_BOOK..=LONGEST_BOOK).contains(&book.len()), BOOK_LENGTH, 0)?;
    require(u32_at(book, 4) as usize == book.len(), BOOK_LENGTH, 4)?;
    // 41: format (0).
    require(u16_at(book, 0) == FORMAT, BOOK_FORMAT, 0)?;
    // 42: rows 0, above 40, or past the end (2).
    let rows = u16_at(book, 2) as usize;
    let fits = HEAD + ROW * rows <= book.len();
    require((1..=ROW_LIMIT).contains(&rows) && fits, BOOK_ROWS, 2)?;
    Ok(rows)
}

fn check_rows(book: &[u8], row_count: usize) -> Result<Vec<Row>, Fault> {
    let mut rows: Vec<Row> = Vec::with_capacity(row_count);
    // "The first body starts at 8+12n, each next where the last ended".
    let mut next_start = HEAD + ROW * row_count;
    for index in 0..row_count {
        let at = HEAD + ROW * index;
        let kind = check_kind(book, at, &rows)?;
        let length = check_place(book, at, kind, next_start)?;
        let end = next_start + length;
        // "the last ends at the total length" (row+8).
        require(index + 1 < row_count || end == book.len(), BOOK_PLACE, at + 8)?;
        rows.push(Row { kind, start: next_start, length });
        next_start = end;
    }
    Ok(rows)
}

/// 43: kind, its order or its limit (row), id (row+2).
fn check_kind(book: &[u8], at: usize, before: &[Row]) -> Result<Kind, Fault> {
    let hosts = before.iter().filter(|row| row.kind == Kind::Host).count();
    let interfaces = before.len() - hosts;
    let (kind, in_order, already) = match u16_at(book, at) {
        // "Hosts first, 1 to 32; then interfaces, 0 to 8."
        1 => (Kind::Host, interfaces == 0 && hosts < HOST_LIMIT, hosts),
        2 => (Kind::Interface, hosts >= 1 && interfaces < INTERFACE_LIMIT, interfaces),
        _ => return Err(Fault { number: BOOK_KIND_OR_ID, offset: at }),
    };
    require(in_order, BOOK_KIND_OR_ID, at)?;
    // "Ids run from 1 within a kind."
    require(u16_at(book, at + 2) as usize == already + 1, BOOK_KIND_OR_ID, at + 2)?;
    Ok(kind)
}

/// 44: start (row+4), length out of range or past the total (row+8). The length.
fn check_place(book: &[u8], at: usize, kind: Kind, start: usize) -> Result<usize, Fault> {
    require(u32_at(book, at + 4) as usize == start, BOOK_PLACE, at + 4)?;
    let length = u32_at(book, at + 8) as usize;
    let range = match kind {
        Kind::Host => 3..=258,
        Kind::Interface => 31..=436,
    };
    require(range.contains(&length), BOOK_PLACE, at + 8)?;
    require(start + length <= book.len(), BOOK_PLACE, at + 8)?;
    Ok(length)
}

fn read_body<'a>(book: &'a [u8], row: &Row, contents: &mut Contents<'a>) -> Result<(), Fault> {
    match row.kind {
        Kind::Host => {
            let host = read_host(book, row, &contents.hosts)?;
            contents.hosts.push(host);
        }
        Kind::Interface => {
            let interface = read_interface(book, row, &contents.interfaces)?;
            contents.interfaces.push(interface);
        }
    }
    Ok(())
}

/// Host body: group (2), name.
fn read_host<'a>(book: &'a [u8], row: &Row, before: &[Host<'a>]) -> Result<Host<'a>, Fault> {
    let used = before.iter().map(|host| host.name);
    let name = read_name(book, row.start + 2, row.start + row.length, used)?;
    Ok(Host { group: u16_at(book, row.start), name })
}

/// Interface body: master secret (16), command count (2), entry count e (2), e entries of group (2) and permitted word (8), name.
fn read_interface<'a>(book: &'a [u8], row: &Row, before: &[Interface<'a>]) -> Result<Interface<'a>, Fault> {
    let body = row.start;
    // 45: command count (body+16).
    let command_count = u16_at(book, body + 16);
    require((1..=COMMAND_LIMIT).contains(&command_count), BOOK_COUNTS, body + 16)?;
    // 45: entry count, or entries that leave no name or one above 256 (body+18).
    let entry_count = u16_at(book, body + 18) as usize;
    require((1..=ENTRY_LIMIT).contains(&entry_count), BOOK_COUNTS, body + 18)?;
    let before_name = INTERFACE_HEAD + ENTRY * entry_count;
    let leaves_a_name = row.length > before_name && row.length - before_name <= NAME_LIMIT;
    require(leaves_a_name, BOOK_COUNTS, body + 18)?;

    let entries = read_entries(book, body + INTERFACE_HEAD, entry_count, command_count)?;
    let used = before.iter().map(|interface| interface.name);
    let name = read_name(book, body + before_name, body + row.length, used)?;
    Ok(Interface { master_secret: array_at(book, body), command_count, entries, name })
}

fn read_entries(book: &[u8], first: usize, count: usize, command_count: u16) -> Result<Vec<Entry>, Fault> {
    let mut entries = Vec::with_capacity(count);
    for index in 0..count {
        let at = first + ENTRY * index;
        let entry = Entry { group: u16_at(book, at), word: u64_at(book, at + 2) };
        // 46: a permitted bit at or above the command count (that word).
        require(word_in_range(entry.word, command_count), BOOK_WORD, at + 2)?;
        entries.push(entry);
    }
    Ok(entries)
}

/// No bit of the word stands at or above the command count.
pub fn word_in_range(word: u64, command_count: u16) -> bool {
    word.checked_shr(u32::from(command_count)).unwrap_or(0) == 0
}

/// 47: first bad letter; 48: name used before in its kind (its first byte).
fn read_name<'a>(book: &'a [u8], start: usize, end: usize, mut used: impl Iterator<Item = &'a [u8]>) -> Result<&'a [u8], Fault> {
    let name = &book[start..end];
    if let Some(bad) = first_bad_letter(name) {
        return Err(Fault { number: BOOK_LETTER, offset: start + bad });
    }
    // "Compared byte for byte, unique within a kind."
    require(used.all(|other| other != name), BOOK_NAME_USED, start)?;
    Ok(name)
}

/// "letters, digits, - _ + . / and, inside only, space".
fn first_bad_letter(name: &[u8]) -> Option<usize> {
    let good = |(at, letter): (usize, &u8)| match letter {
        b' ' => at != 0 && at + 1 != name.len(),
        b'-' | b'_' | b'+' | b'.' | b'/' => true,
        other => other.is_ascii_alphanumeric(),
    };
    name.iter().enumerate().position(|letter| !good(letter))
}

#[cfg(test)]
mod tests {
    use super::*;

    const SAMPLE: [u8; 23] = [1, 0, 1, 0, 0x17, 0, 0, 0, 1, 0, 1, 0, 0x14, 0, 0, 0, 3, 0, 0, 0, 0, 0, 0x61];

    #[test]
    fn sample_book() {
        let contents = Contents { hosts: vec![Host { group: 0, name: b"a" }], interfaces: vec![] };
        assert_eq!(read(&SAMPLE), Ok(contents));
        let mut bad = SAMPLE;
        bad[22] = 0x20;
        assert_eq!(read(&bad), Err(Fault { number: BOOK_LETTER, offset: 22 }));
    }

    #[test]
    fn sample_p10() {
        assert_eq!(first_bad_letter(b"a b"), None);
        assert_eq!(first_bad_letter(b" a"), Some(0));
        assert_eq!(first_bad_letter(b"a "), Some(1));
    }
}
