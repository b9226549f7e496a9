//! The server's state: "names, secrets, words and one record per host in fixed arrays".

use crate::aes::{Block, encrypt_block};
use crate::book::{COMMAND_LIMIT, Contents, ENTRY_LIMIT, HOST_LIMIT, Host, INTERFACE_LIMIT, Interface, NAME_LIMIT, word_in_range};

/// "A host's record is idle, waiting (16-byte challenge 2) or open (key, last accepted number, whether a reply is owed)."
#[derive(Clone, Copy, Debug, PartialEq, Eq)]
pub enum Record {
    Idle,
    Waiting { challenge_2: Block },
    Open { key: Block, last: u16, owed: bool },
}

impl Record {
    /// "The host named .. becomes waiting; an earlier connection ends there."
    pub fn request(self, challenge_2: Block) -> Record {
        Record::Waiting { challenge_2 }
    }

    /// "The record becomes open with last number 0 and no reply owed. Key: the AES-128 encryption of block challenge 3 under key challenge 2."
    pub fn proof(self, challenge_3: &Block) -> Record {
        match self {
            Record::Waiting { challenge_2 } => Record::Open { key: encrypt_block(&challenge_2, challenge_3), last: 0, owed: false },
            other => other,
        }
    }

    /// "One reply for the last accepted command, once; the next accepted command ends the earlier claim."
    pub fn accept(self, sequence: u16) -> Record {
        match self {
            Record::Open { key, .. } => Record::Open { key, last: sequence, owed: true },
            other => other,
        }
    }

    /// The reply has been given; the last number stays.
    pub fn reply(self) -> Record {
        match self {
            Record::Open { key, last, .. } => Record::Open { key, last, owed: false },
            other => other,
        }
    }

    /// "Close makes a record idle from any state."
    pub fn close(self) -> Record {
        Record::Idle
    }
}

/// A name and its length in use.
#[derive(Clone, Copy, Debug, PartialEq, Eq)]
pub struct Name {
    pub length: u16,
    pub bytes: [u8; NAME_LIMIT],
}

impl Name {
    const NONE: Name = Name { length: 0, bytes: [0; NAME_LIMIT] };

    fn new(name: &[u8]) -> Name {
        let mut bytes = [0; NAME_LIMIT];
        bytes[..name.len()].copy_from_slice(name);
        Name { length: name.len() as u16, bytes }
    }

    fn is_sound(&self) -> bool {
        (1..=NAME_LIMIT).contains(&usize::from(self.length))
    }

    /// The bytes in use.
    pub fn as_bytes(&self) -> &[u8] {
        &self.bytes[..usize::from(self.length).min(NAME_LIMIT)]
    }
}

/// The state that the main loop owns and lends to every call.
///
/// The fields are public so that a test can make states that nobody loaded.
#[derive(Clone, Debug, PartialEq, Eq)]
pub struct State {
    pub host_count: u16,
    pub interface_count: u16,

    pub host_names: [Name; HOST_LIMIT],
    pub host_groups: [u16; HOST_LIMIT],
    pub records: [Record; HOST_LIMIT],

    pub interface_names: [Name; INTERFACE_LIMIT],
    pub master_secrets: [Block; INTERFACE_LIMIT],
    pub command_counts: [u16; INTERFACE_LIMIT],
    pub entry_counts: [u16; INTERFACE_LIMIT],
    pub entry_groups: [[u16; ENTRY_LIMIT]; INTERFACE_LIMIT],
    pub entry_words: [[u64; ENTRY_LIMIT]; INTERFACE_LIMIT],
}

impl State {
    /// "a refused one makes a state with no hosts and no interfaces."
    pub fn empty() -> State {
        State {
            host_count: 0,
            interface_count: 0,
            host_names: [Name::NONE; HOST_LIMIT],
            host_groups: [0; HOST_LIMIT],
            records: [Record::Idle; HOST_LIMIT],
            interface_names: [Name::NONE; INTERFACE_LIMIT],
            master_secrets: [[0; 16]; INTERFACE_LIMIT],
            command_counts: [0; INTERFACE_LIMIT],
            entry_counts: [0; INTERFACE_LIMIT],
            entry_groups: [[0; ENTRY_LIMIT]; INTERFACE_LIMIT],
            entry_words: [[0; ENTRY_LIMIT]; INTERFACE_LIMIT],
        }
    }

    /// "Loading copies all that is needed into the state". All records start idle.
    pub(crate) fn from_contents(contents: &Contents) -> State {
        let mut state = State::empty();
        state.host_count = contents.hosts.len() as u16;
        state.interface_count = contents.interfaces.len() as u16;
        contents.hosts.iter().enumerate().for_each(|(index, host)| state.put_host(index, host));
        contents.interfaces.iter().enumerate().for_each(|(index, interface)| state.put_interface(index, interface));
        state
    }

    fn put_host(&mut self, index: usize, host: &Host) {
        self.host_names[index] = Name::new(host.name);
        self.host_groups[index] = host.group;
    }

    fn put_interface(&mut self, index: usize, interface: &Interface) {
        self.interface_names[index] = Name::new(interface.name);
        self.master_secrets[index] = interface.master_secret;
        self.command_counts[index] = interface.command_count;
        self.entry_counts[index] = interface.entries.len() as u16;
        for (k, entry) in interface.entries.iter().enumerate() {
            self.entry_groups[index][k] = entry.group;
            self.entry_words[index][k] = entry.word;
        }
    }

    /// "It is sound if its host and interface counts are in range (0 hosts too) and so is every length and count it uses, and no entry's word has a
    /// bit at or above its command count."
    pub fn is_sound(&self) -> bool {
        let hosts = usize::from(self.host_count);
        let interfaces = usize::from(self.interface_count);
        hosts <= HOST_LIMIT
            && interfaces <= INTERFACE_LIMIT
            && self.host_names[..hosts].iter().all(Name::is_sound)
            && (0..interfaces).all(|index| self.interface_is_sound(index))
    }

    fn interface_is_sound(&self, index: usize) -> bool {
        let commands = self.command_counts[index];
        let entries = usize::from(self.entry_counts[index]);
        self.interface_names[index].is_sound()
            && (1..=COMMAND_LIMIT).contains(&commands)
            && (1..=ENTRY_LIMIT).contains(&entries)
            && self.entry_words[index][..entries].iter().all(|&word| word_in_range(word, commands))
    }

    /// The place of a host number or client ID: not 0, not above the host count.
    pub(crate) fn host_index(&self, number: u16) -> Option<usize> {
        index_below(number, self.host_count)
    }

    /// The place of an interface ID, counted from 1.
    pub(crate) fn interface_index(&self, number: u16) -> Option<usize> {
        index_below(number, self.interface_count)
    }

    /// The place of a capability ID in an interface, counted from 1.
    pub(crate) fn entry_index(&self, interface: usize, number: u16) -> Option<usize> {
        index_below(number, self.entry_counts[interface])
    }

    /// "The host named (the lowest, if a lent state repeats a name)".
    pub(crate) fn host_named(&self, name: &[u8]) -> Option<usize> {
        let hosts = usize::from(self.host_count);
        self.host_names[..hosts].iter().position(|host| host.as_bytes() == name)
    }
}

/// A number counted from 1 as a place counted from 0.
fn index_below(number: u16, count: u16) -> Option<usize> {
    (1..=count).contains(&number).then(|| usize::from(number) - 1)
}
