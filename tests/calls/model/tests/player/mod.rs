//! Traces: whole days of calls, as docs/TRACES.md describes them.

use std::io::{self, Read, Write};

use model::refusal::ACCEPTED;
use model::{Answer, Command, CommandFields, Record, State, client, server};

const SLOTS: usize = 4;
const ROOM_FILL: u8 = 0xA5;

/// Perform every call of a trace and print one line for each answer.
pub fn run(input: impl Read, output: impl Write) -> io::Result<()> {
    let mut player = Player { calls: Calls { input }, output, slots: std::array::from_fn(|_| State::empty()), selected: 0 };
    while let Some(opcode) = player.calls.opcode()? {
        player.perform(opcode)?;
    }
    player.output.flush()
}

/// The fields of the calls, read as a stream.
struct Calls<R> {
    input: R,
}

impl<R: Read> Calls<R> {
    /// The next opcode, or nothing at the end of the trace.
    fn opcode(&mut self) -> io::Result<Option<u8>> {
        let mut byte = [0];
        match self.input.read_exact(&mut byte) {
            Ok(()) => Ok(Some(byte[0])),
            Err(error) if error.kind() == io::ErrorKind::UnexpectedEof => Ok(None),
            Err(error) => Err(error),
        }
    }

    fn array<const N: usize>(&mut self) -> io::Result<[u8; N]> {
        let mut array = [0; N];
        self.input.read_exact(&mut array)?;
        Ok(array)
    }

    fn u8(&mut self) -> io::Result<u8> {
        Ok(self.array::<1>()?[0])
    }

    fn u16(&mut self) -> io::Result<u16> {
        Ok(u16::from_le_bytes(self.array()?))
    }

    fn u64(&mut self) -> io::Result<u64> {
        Ok(u64::from_le_bytes(self.array()?))
    }

    fn length(&mut self) -> io::Result<usize> {
        Ok(u32::from_le_bytes(self.array()?) as usize)
    }

    fn str(&mut self) -> io::Result<Vec<u8>> {
        let mut bytes = vec![0; self.length()?];
        self.input.read_exact(&mut bytes)?;
        Ok(bytes)
    }

    /// "Every byte of it is 0xA5 before the call" (docs/TRACES.md).
    fn room(&mut self) -> io::Result<Vec<u8>> {
        Ok(vec![ROOM_FILL; self.length()?])
    }
}

struct Player<R, W> {
    calls: Calls<R>,
    output: W,
    slots: [State; SLOTS],
    selected: usize,
}

impl<R: Read, W: Write> Player<R, W> {
    fn perform(&mut self, opcode: u8) -> io::Result<()> {
        match opcode {
            1 => self.load(),
            2 => self.request(),
            3 => self.proof(),
            4 => self.command(),
            5 => self.reply(),
            6 => self.close(),
            7 => self.revoke(),
            8 => self.issue(),
            9 => self.narrow(),
            10 => self.seal(),
            11 => self.open(),
            16 => self.dump(),
            17 => self.poke(),
            18 => self.select(),
            19 => self.note(),
            _ => Err(invalid("no such opcode")),
        }
    }

    fn state(&mut self) -> &mut State {
        &mut self.slots[self.selected]
    }

    // `load` replaces the slot by the state that the load makes, also when the load is refused.
    fn load(&mut self) -> io::Result<()> {
        let book = self.calls.str()?;
        let (answer, state) = server::load(&book);
        let (number, blocks, offset) = (answer.number, answer.blocks, answer.fields);
        let (hosts, interfaces) = (state.host_count, state.interface_count);
        *self.state() = state;
        writeln!(self.output, "load {number} {blocks} {offset} {hosts} {interfaces}")
    }

    fn request(&mut self) -> io::Result<()> {
        let (request, fresh) = (self.calls.str()?, self.calls.str()?);
        let mut room = self.calls.room()?;
        let answer = server::request(self.state(), &request, &fresh, &mut room);
        self.print("request", &answer, &format!(" {}", answer.fields), &room)
    }

    fn proof(&mut self) -> io::Result<()> {
        let (host, proof) = (self.calls.u16()?, self.calls.str()?);
        let mut room = self.calls.room()?;
        let answer = server::proof(self.state(), host, &proof, &mut room);
        self.print("proof", &answer, "", &room)
    }

    fn command(&mut self) -> io::Result<()> {
        let packet = self.calls.str()?;
        let mut room = self.calls.room()?;
        let answer = server::command(self.state(), &packet, &mut room);
        self.print("command", &answer, &command_fields(&answer.fields), &room)
    }

    fn reply(&mut self) -> io::Result<()> {
        let (host, sequence) = (self.calls.u16()?, self.calls.u16()?);
        let payload = self.calls.str()?;
        let mut room = self.calls.room()?;
        let answer = server::reply(self.state(), host, sequence, &payload, &mut room);
        self.print("reply", &answer, "", &room)
    }

    fn close(&mut self) -> io::Result<()> {
        let host = self.calls.u16()?;
        let answer = server::close(self.state(), host);
        writeln!(self.output, "close {} {}", answer.number, answer.blocks)
    }

    fn revoke(&mut self) -> io::Result<()> {
        let (interface, entry) = (self.calls.u16()?, self.calls.u16()?);
        let word = self.calls.u64()?;
        let answer = server::revoke(self.state(), interface, entry, word);
        writeln!(self.output, "revoke {} {}", answer.number, answer.blocks)
    }

    fn issue(&mut self) -> io::Result<()> {
        let (master_secret, id) = (self.calls.str()?, self.calls.u16()?);
        let mut room = self.calls.room()?;
        let answer = client::issue(&master_secret, id, &mut room);
        self.print("issue", &answer, "", &room)
    }

    fn narrow(&mut self) -> io::Result<()> {
        let (capability, word) = (self.calls.str()?, self.calls.u64()?);
        let mut room = self.calls.room()?;
        let answer = client::narrow(&capability, word, &mut room);
        self.print("narrow", &answer, "", &room)
    }

    fn seal(&mut self) -> io::Result<()> {
        let (key, vector, capability) = (self.calls.str()?, self.calls.str()?, self.calls.str()?);
        let (client, sequence) = (self.calls.u16()?, self.calls.u16()?);
        let (group, interface) = (self.calls.u16()?, self.calls.u16()?);
        let (command, payload) = (self.calls.u8()?, self.calls.str()?);
        let mut room = self.calls.room()?;
        let command = Command { client, sequence, group, interface, command, payload: &payload };
        let answer = client::seal(&key, &vector, &capability, &command, &mut room);
        self.print("seal", &answer, "", &room)
    }

    fn open(&mut self) -> io::Result<()> {
        let (key, expected, packet) = (self.calls.str()?, self.calls.u16()?, self.calls.str()?);
        let mut room = self.calls.room()?;
        let answer = client::open(&key, expected, &packet, &mut room);
        self.print("open", &answer, &format!(" {}", answer.fields), &room)
    }

    /// `dump HOSTS INTERFACES RECORD.. WORD..`
    fn dump(&mut self) -> io::Result<()> {
        let state = &self.slots[self.selected];
        let (hosts, interfaces) = (state.host_count, state.interface_count);
        write!(self.output, "dump {hosts} {interfaces}")?;
        for record in state.records.iter().take(usize::from(hosts)) {
            write!(self.output, " {}", record_text(record))?;
        }
        let tables = state.entry_words.iter().zip(state.entry_counts);
        for (words, count) in tables.take(usize::from(interfaces)) {
            for word in words.iter().take(usize::from(count)) {
                write!(self.output, " {word}")?;
            }
        }
        writeln!(self.output)
    }

    /// "`poke` stores into the selected state without any check." (docs/TRACES.md)
    fn poke(&mut self) -> io::Result<()> {
        let (what, i, k) = (self.calls.u8()?, self.calls.u16()?, self.calls.u16()?);
        let value = self.calls.u64()?;
        poke(self.state(), what, usize::from(i), usize::from(k), value).ok_or_else(|| invalid("no such poke"))
    }

    fn select(&mut self) -> io::Result<()> {
        let slot = usize::from(self.calls.u8()?);
        if slot >= SLOTS {
            return Err(invalid("no such slot"));
        }
        self.selected = slot;
        Ok(())
    }

    fn note(&mut self) -> io::Result<()> {
        let text = self.calls.str()?;
        self.output.write_all(b"# ")?;
        self.output.write_all(&text)?;
        self.output.write_all(b"\n")
    }

    /// A line of a call that was lent a room: number, blocks, the further fields, the bytes written and the sum of the whole room.
    fn print<F>(&mut self, call: &str, answer: &Answer<F>, fields: &str, room: &[u8]) -> io::Result<()> {
        let written = match (answer.number, answer.written) {
            (ACCEPTED, 1..) => hex(&room[..answer.written]),
            _ => "-".to_string(),
        };
        let (number, blocks, sum) = (answer.number, answer.blocks, fnv_1a(room));
        writeln!(self.output, "{call} {number} {blocks}{fields} {written} {sum:08x}")
    }
}

fn command_fields(fields: &CommandFields) -> String {
    let CommandFields { client, sequence, group, interface, capability, .. } = fields;
    let CommandFields { payload_length, command, words: [w1, w2, w3, w4], secret, .. } = fields;
    let secret = hex(secret);
    format!(
        " {client} {sequence} {group} {interface} {capability} {payload_length} {command} \
         {w1} {w2} {w3} {w4} {secret}"
    )
}

/// `idle`, `waiting:CHALLENGE2` or `open:KEY:LAST:OWED`.
fn record_text(record: &Record) -> String {
    match record {
        Record::Idle => "idle".to_string(),
        Record::Waiting { challenge_2 } => format!("waiting:{}", hex(challenge_2)),
        Record::Open { key, last, owed } => format!("open:{}:{}:{}", hex(key), last, u8::from(*owed)),
    }
}

/// Host, interface and entry numbers count from 1; one that isn't used is 0. Nothing if there is no such poke.
fn poke(state: &mut State, what: u8, i: usize, k: usize, value: u64) -> Option<()> {
    let small = value as u16;
    let (place, other) = (i.wrapping_sub(1), k.wrapping_sub(1));
    match what {
        1 => state.host_count = small,
        2 => state.interface_count = small,
        3 => state.host_names.get_mut(place)?.length = small,
        4 => state.interface_names.get_mut(place)?.length = small,
        5 => *state.command_counts.get_mut(place)? = small,
        6 => *state.entry_counts.get_mut(place)? = small,
        7 => *state.entry_words.get_mut(place)?.get_mut(other)? = value,
        8 => {
            let name = *state.host_names.get(other)?;
            *state.host_names.get_mut(place)? = name;
        }
        _ => return None,
    }
    Some(())
}

fn hex(bytes: &[u8]) -> String {
    const DIGITS: &[u8; 16] = b"0123456789abcdef";
    let digit = |four_bits: u8| char::from(DIGITS[usize::from(four_bits)]);
    bytes.iter().flat_map(|byte| [digit(byte >> 4), digit(byte & 15)]).collect()
}

/// SUM: 32-bit FNV-1a.
fn fnv_1a(bytes: &[u8]) -> u32 {
    bytes.iter().fold(2_166_136_261, |sum, &byte| (sum ^ u32::from(byte)).wrapping_mul(16_777_619))
}

fn invalid(why: &str) -> io::Error {
    io::Error::new(io::ErrorKind::InvalidData, why)
}
