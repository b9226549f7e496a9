//! Books: good ones of all sizes, and books with one fault.

use model::bytes::{u16_at, u32_at};

use crate::random::Random;

pub const LONGEST: usize = 12_232;

/// A host body's fields.
pub struct Host {
    pub group: u16,
    pub name: Vec<u8>,
}

/// An interface body's fields; an entry is a group and a word.
pub struct Interface {
    pub secret: [u8; 16],
    pub commands: u16,
    pub entries: Vec<(u16, u64)>,
    pub name: Vec<u8>,
}

/// A book before it is written.
pub struct Plan {
    pub hosts: Vec<Host>,
    pub interfaces: Vec<Interface>,
}

const LETTERS: &[u8] = b"abcXYZ019-_+./";
const GROUPS: [u16; 6] = [0, 0, 1, 2, 258, 65_535];

impl Plan {
    pub fn random(random: &mut Random) -> Plan {
        let any = random.between(1, 32);
        let hosts = random.pick(&[1, 2, 3, 3, 5, 8, 32, any]);
        let any = random.below(9);
        let interfaces = random.pick(&[0, 1, 1, 2, 2, 3, 3, 5, 8, any]);
        Plan::sized(random, hosts, interfaces)
    }

    pub fn sized(random: &mut Random, hosts: usize, interfaces: usize) -> Plan {
        let mut plan = Plan { hosts: Vec::new(), interfaces: Vec::new() };
        for name in names(random, hosts, None) {
            plan.hosts.push(Host { group: random.pick(&GROUPS), name });
        }
        // Now and then a host and an interface have the same name: it need only be unique within a kind.
        let shared = random.one_in(3).then(|| plan.hosts.first().map(|host| host.name.clone())).flatten();
        plan.interfaces = names(random, interfaces, shared).into_iter().map(|name| interface(random, name)).collect();
        plan
    }

    /// As long as a book can be.
    pub fn largest(random: &mut Random) -> Plan {
        let mut plan = Plan::sized(random, 32, 8);
        plan.hosts.iter_mut().enumerate().for_each(|(k, host)| host.name = long_name(random, k));
        for (k, interface) in plan.interfaces.iter_mut().enumerate() {
            interface.name = long_name(random, k);
            let every = random.word() >> (64 - interface.commands);
            interface.entries.resize(16, (0, every));
        }
        plan
    }

    /// The book's bytes.
    pub fn book(&self) -> Vec<u8> {
        let hosts = self.hosts.iter().map(|host| (1, host_body(host)));
        let bodies: Vec<(u16, Vec<u8>)> = hosts.chain(self.interfaces.iter().map(|interface| (2, interface_body(interface)))).collect();
        written(&bodies)
    }
}

/// A book with these bodies, each with its kind; ids run from 1 within a kind.
pub fn written(bodies: &[(u16, Vec<u8>)]) -> Vec<u8> {
    let (mut rows, mut rest) = (Vec::new(), Vec::new());
    let (first, mut ids) = (8 + 12 * bodies.len(), [0u16; 4]);
    for (kind, body) in bodies {
        let id = &mut ids[usize::from(*kind) % 4];
        *id += 1;
        rows.extend(kind.to_le_bytes());
        rows.extend(id.to_le_bytes());
        rows.extend(((first + rest.len()) as u32).to_le_bytes());
        rows.extend((body.len() as u32).to_le_bytes());
        rest.extend(body);
    }
    let total = (first + rest.len()) as u32;
    [&1u16.to_le_bytes()[..], &(bodies.len() as u16).to_le_bytes(), &total.to_le_bytes(), &rows, &rest].concat()
}

pub fn host_body(host: &Host) -> Vec<u8> {
    [&host.group.to_le_bytes()[..], &host.name].concat()
}

pub fn interface_body(interface: &Interface) -> Vec<u8> {
    let count = interface.entries.len() as u16;
    let entries = interface.entries.iter().flat_map(|(group, word)| [&group.to_le_bytes()[..], &word.to_le_bytes()].concat());
    let mut body = [&interface.secret[..], &interface.commands.to_le_bytes(), &count.to_le_bytes()].concat();
    body.extend(entries);
    body.extend(&interface.name);
    body
}

fn interface(random: &mut Random, name: Vec<u8>) -> Interface {
    let any = random.between(1, 64) as u16;
    let commands = random.pick(&[1, 2, 8, 31, 32, 33, 40, 63, 64, 64, any]);
    let any = random.between(1, 16);
    let count = random.pick(&[1, 2, 3, 4, 16, any]);
    let entries = (0..count).map(|_| (random.pick(&GROUPS), word(random, commands))).collect();
    Interface { secret: random.array(), commands, entries, name }
}

/// A word without a bit at or above the count: all, half, one or none of its bits.
pub fn word(random: &mut Random, commands: u16) -> u64 {
    let every = u64::MAX >> (64 - commands.clamp(1, 64));
    let one = 1 << random.below(usize::from(commands.clamp(1, 64)));
    let half = random.word() & every;
    random.pick(&[every, every, every, half, half, every ^ one, one, 0])
}

/// Names that differ from each other. Some are the beginning of another, and some differ from another in a letter.
fn names(random: &mut Random, count: usize, first: Option<Vec<u8>>) -> Vec<Vec<u8>> {
    let mut names: Vec<Vec<u8>> = first.into_iter().take(count).collect();
    while names.len() < count {
        let near = names.get(random.below(names.len())).filter(|_| random.one_in(3)).cloned();
        let name = match near {
            Some(near) => other_name(random, &near),
            None => name(random),
        };
        if !names.contains(&name) {
            names.push(name);
        }
    }
    names
}

fn name(random: &mut Random) -> Vec<u8> {
    let any = random.between(1, 256);
    let length = random.pick(&[1, 1, 2, 3, 5, 8, 13, 256, any]);
    let mut name: Vec<u8> = (0..length).map(|_| random.pick(LETTERS)).collect();
    if length > 2 && random.one_in(3) {
        name[random.between(1, length - 2)] = b' ';
    }
    name
}

fn long_name(random: &mut Random, k: usize) -> Vec<u8> {
    let mut name: Vec<u8> = (0..256).map(|_| random.pick(LETTERS)).collect();
    name[255] = b'A' + k as u8 % 26;
    name[254] = b'a' + k as u8 / 26;
    name
}

/// A name near to that one: a letter more, a letter less, another letter, a letter in the other case.
pub fn other_name(random: &mut Random, name: &[u8]) -> Vec<u8> {
    if name.is_empty() {
        return b"a".to_vec();
    }
    let mut other = name.to_vec();
    let at = random.below(name.len());
    match random.below(5) {
        0 if name.len() < 256 => other.push(random.pick(LETTERS)),
        1 if name.len() > 1 => other.truncate(name.len() - 1),
        2 => other[at] ^= if other[at].is_ascii_alphabetic() { 32 } else { 1 },
        3 => other[name.len() - 1] = random.pick(LETTERS),
        _ => other[at] = random.pick(LETTERS),
    }
    // A space can't come to stand at an end, nor a letter that isn't one.
    other.iter_mut().for_each(|letter| *letter = if letter.is_ascii_alphanumeric() { *letter } else { b'-' });
    other
}

/// A row of the contents list, as it stands in a book.
#[derive(Clone, Copy)]
pub struct Row {
    pub at: usize,
    pub kind: u16,
    pub start: usize,
    pub length: usize,
}

/// The rows that a book has room for.
pub fn rows(book: &[u8]) -> Vec<Row> {
    let count = usize::from(u16_at(book, 2)).min(book.len().saturating_sub(8) / 12);
    let row = |at| Row { at, kind: u16_at(book, at), start: u32_at(book, at + 4) as usize, length: u32_at(book, at + 8) as usize };
    (0..count).map(|k| row(8 + 12 * k)).collect()
}
