#!/usr/bin/env python3
"""The gateway of document 01 by a second program: every call of the server and of the client, and the replay of a trace.

    model.py <X.trace         prints the line of each answer, as `replay` does

It shares nothing with the project's own code. A call's checks stand in the document's order, one `need` a check, and the first
that fails ends the call; what comes after the checks is what acceptance changes and writes. So a refusal changes nothing. The
blocks of an answer are those that were really enciphered. Books are judged by tests/books/model.py. All numbers are
little-endian.
"""
import importlib.util
import os
import struct
import sys
from typing import Callable, Dict, Iterator, List, NamedTuple, Optional, Sequence, Tuple, Union

sys.dont_write_bytecode = True
import aes
import gcm
import traces


def module(name: str, path: str):
    """The module in that file, beside this one, by a name of its own: the books' model is a `model` too."""
    spec = importlib.util.spec_from_file_location(name, os.path.join(os.path.dirname(os.path.abspath(__file__)), path))
    made = importlib.util.module_from_spec(spec)
    spec.loader.exec_module(made)
    return made


books = module("books", "../books/model.py")

ONES = 2 ** 64 - 1
SECRET, CHALLENGE, KEY, VECTOR, TAG = 16, 16, 16, 12, 16
NAME_MOST, REQUEST_HEAD = 256, 20
REQUEST_LENGTHS = (21, 276)
PROOF, PROVED = 32, 20                      # what a proof is, and what an accepted one writes
OPEN_PART, FIXED = 32, 96                   # a packet's open part; a packet without payload
INNER = FIXED - OPEN_PART                   # the encrypted part without payload
PACKET_LENGTHS = (96, 16480)
REPLY_FIXED, REPLY_LENGTHS = 32, (32, 16416)
PAYLOAD_MOST = 16384
CAPABILITY = 50
HOSTS_MOST, INTERFACES_MOST, COMMANDS_MOST, ENTRIES_MOST = 32, 8, 64, 16


class Refused(Exception):
    def __init__(self, number: int):
        super().__init__(number)
        self.number = number


def need(holds: bool, number: int) -> None:
    if not holds:
        raise Refused(number)


def within(count: int, limits: Tuple[int, int]) -> bool:
    return limits[0] <= count <= limits[1]


def sixteen(number: int) -> bytes:
    return struct.pack("<H", number)


def u16(data: bytes, at: int) -> int:
    return struct.unpack_from("<H", data, at)[0]


class Work:
    """The blocks that a call enciphers, counted."""

    def __init__(self):
        self.blocks = 0

    def encipher(self, key: bytes, block: bytes) -> bytes:
        self.blocks += 1
        return aes.encrypt(key, block)

    def under(self, key: bytes) -> Callable[[bytes], bytes]:
        return lambda block: self.encipher(key, block)


class Accepted(NamedTuple):
    written: bytes = b""
    fields: Tuple = ()


# ---- capabilities

class Capability(NamedTuple):
    id: int
    words: Tuple[int, ...]
    secret: bytes


def take_capability(data: bytes) -> Capability:
    id, *words = struct.unpack_from("<H4Q", data)
    return Capability(id, tuple(words), data[34:CAPABILITY])


def capability_bytes(capability: Capability) -> bytes:
    return struct.pack("<H4Q", capability.id, *capability.words) + capability.secret


def first_secret(work: Work, master: bytes, id: int) -> bytes:
    return work.encipher(master, sixteen(id) + bytes(14))


def step(work: Work, secret: bytes, word: int) -> bytes:
    """The next secret of the chain."""
    return work.encipher(secret, struct.pack("<Q", word) + bytes(8))


def chained(words: Sequence[int]) -> Sequence[int]:
    """The words in the chain: those before the first all-ones word."""
    return words[:words.index(ONES)] if ONES in words else words


def last_secret(work: Work, master: bytes, id: int, words: Sequence[int]) -> bytes:
    secret = first_secret(work, master, id)
    for word in chained(words):
        secret = step(work, secret, word)
    return secret


def permitted(command: int, present: int, words: Sequence[int]) -> bool:
    """Whether the command's bit is 1 in the entry's present word and in all four words."""
    return all(word >> command & 1 for word in (present, *words))


# ---- the state: fixed arrays, of which the counts say how much is in use

class Idle(NamedTuple):
    pass


class Waiting(NamedTuple):
    challenge: bytes


class Open(NamedTuple):
    key: bytes
    last: int
    owed: bool


Record = Union[Idle, Waiting, Open]


class Host:
    def __init__(self, group: int = 0, name: bytes = b""):
        self.group, self.stored, self.length = group, name, len(name)
        self.record: Record = Idle()

    def name(self) -> bytes:
        return self.stored[:self.length]


class Entry:
    def __init__(self, group: int = 0, word: int = 0):
        self.group, self.word = group, word


class Interface:
    def __init__(self, secret: bytes = bytes(SECRET), commands: int = 0, entries: Sequence[Entry] = (), length: int = 0):
        self.secret, self.commands, self.entry_count, self.length = secret, commands, len(entries), length
        self.entries = list(entries) + [Entry() for _ in range(ENTRIES_MOST - len(entries))]

    def in_use(self) -> List[Entry]:
        return self.entries[:self.entry_count]


class State:
    def __init__(self, said: "books.Contents" = books.Contents((), ())):
        hosts = [Host(*host) for host in said.hosts]
        faces = [Interface(face.secret, face.commands, [Entry(*entry) for entry in face.entries], len(face.name))
                 for face in said.interfaces]
        self.host_count, self.interface_count = len(hosts), len(faces)
        self.hosts = hosts + [Host() for _ in range(HOSTS_MOST - len(hosts))]
        self.interfaces = faces + [Interface() for _ in range(INTERFACES_MOST - len(faces))]

    def hosts_in_use(self) -> List[Host]:
        return self.hosts[:self.host_count]

    def interfaces_in_use(self) -> List[Interface]:
        return self.interfaces[:self.interface_count]


def sound_interface(face: Interface) -> bool:
    return (within(face.length, (1, NAME_MOST)) and within(face.commands, (1, COMMANDS_MOST))
            and within(face.entry_count, (1, ENTRIES_MOST))
            and all(entry.word < 1 << face.commands for entry in face.in_use()))


def sound(state: State) -> bool:
    return (state.host_count <= HOSTS_MOST and state.interface_count <= INTERFACES_MOST
            and all(within(host.length, (1, NAME_MOST)) for host in state.hosts_in_use())
            and all(sound_interface(face) for face in state.interfaces_in_use()))


def host_of(state: State, number: int) -> Host:
    """The host of that number, or refusal 4."""
    need(1 <= number <= state.host_count, 4)
    return state.hosts[number - 1]


def interface_of(state: State, number: int) -> Interface:
    need(1 <= number <= state.interface_count, 14)
    return state.interfaces[number - 1]


def entry_of(face: Interface, number: int) -> Entry:
    need(1 <= number <= face.entry_count, 15)
    return face.entries[number - 1]


# ---- the server's calls. Each has the state, the room's length and the work first, then what the caller hands in.

def request(state: State, room: int, work: Work, packet: bytes, fresh: bytes) -> Accepted:
    need(sound(state), 39)
    need(len(fresh) == CHALLENGE, 28)
    need(within(len(packet), REQUEST_LENGTHS), 20)
    need(packet[0] == 1 and packet[1] == 0, 21)
    need(u16(packet, 2) == len(packet) - REQUEST_HEAD, 22)
    names = [host.name() for host in state.hosts_in_use()]
    name = packet[REQUEST_HEAD:]
    need(name in names, 23)
    need(room >= 32, 7)
    host = names.index(name)
    state.hosts[host].record = Waiting(fresh)
    return Accepted(packet[4:REQUEST_HEAD] + fresh, (host + 1,))


def proof(state: State, room: int, work: Work, number: int, packet: bytes) -> Accepted:
    need(sound(state), 39)
    host = host_of(state, number)
    need(len(packet) == PROOF, 25)
    need(isinstance(host.record, Waiting), 26)
    need(packet[:CHALLENGE] == host.record.challenge, 27)
    need(room >= PROVED, 7)
    third = packet[CHALLENGE:]
    host.record = Open(work.encipher(host.record.challenge, third), 0, False)
    return Accepted(sixteen(number) + bytes(2) + third)


class Inner(NamedTuple):
    """The fields of a packet's encrypted part."""
    client: int
    sequence: int
    group: int
    interface: int
    capability: int
    length: int
    command: int
    zeros: bytes
    words: Tuple[int, ...]
    secret: bytes


def take_inner(plain: bytes) -> Inner:
    *numbers, command = struct.unpack_from("<6HB", plain)
    return Inner(*numbers, command, plain[13:16], struct.unpack_from("<4Q", plain, 16), plain[48:64])


def check_inner(state: State, host: Host, client: int, inner: Inner, carried: int, work: Work) -> None:
    """9 to 19."""
    need(inner.client == client, 9)
    need(inner.zeros == bytes(3), 10)
    need(inner.length == carried, 11)
    need(inner.sequence > host.record.last, 12)
    need(inner.group in (0, host.group), 13)
    face = interface_of(state, inner.interface)
    entry = entry_of(face, inner.capability)
    need(entry.group in (0, inner.group), 16)
    need(inner.command < face.commands, 17)
    need(permitted(inner.command, entry.word, inner.words), 18)
    need(last_secret(work, face.secret, inner.capability, inner.words) == inner.secret, 19)


def command(state: State, room: int, work: Work, packet: bytes) -> Accepted:
    need(sound(state), 39)
    need(len(packet) >= PACKET_LENGTHS[0], 1)
    need(len(packet) <= PACKET_LENGTHS[1], 2)
    need(packet[2:4] == bytes(2), 3)
    client = u16(packet, 0)
    host = host_of(state, client)
    need(packet[4] < 128, 5)
    need(isinstance(host.record, Open), 6)
    need(room >= len(packet) - FIXED, 7)
    plain = gcm.opened(work.under(host.record.key), packet[4:16], packet[:4], packet[OPEN_PART:], packet[16:OPEN_PART])
    need(plain is not None, 8)
    inner = take_inner(plain)
    check_inner(state, host, client, inner, len(plain) - INNER, work)
    host.record = Open(host.record.key, inner.sequence, True)
    return Accepted(plain[INNER:], (*inner[:7], *inner.words, inner.secret))


def reply_vector(sequence: int) -> bytes:
    return bytes([128, 0]) + sixteen(sequence) + bytes(8)


def reply(state: State, room: int, work: Work, number: int, sequence: int, payload: bytes) -> Accepted:
    need(sound(state), 39)
    host = host_of(state, number)
    need(isinstance(host.record, Open), 6)
    need(host.record.owed and host.record.last == sequence, 29)
    need(len(payload) <= PAYLOAD_MOST, 30)
    need(room >= REPLY_FIXED + len(payload), 7)
    vector = reply_vector(sequence)
    text, tag = gcm.seal(work.under(host.record.key), vector, b"", sixteen(sequence) + sixteen(len(payload)) + payload)
    host.record = Open(host.record.key, sequence, False)
    return Accepted(vector + tag + text)


def close(state: State, room: int, work: Work, number: int) -> Accepted:
    need(sound(state), 39)
    host_of(state, number).record = Idle()
    return Accepted()


def revoke(state: State, room: int, work: Work, interface: int, number: int, word: int) -> Accepted:
    need(sound(state), 39)
    entry = entry_of(interface_of(state, interface), number)
    entry.word &= word
    return Accepted()


# ---- the client's calls

def issue(room: int, work: Work, master: bytes, id: int) -> Accepted:
    need(len(master) == SECRET, 28)
    need(id != 0, 15)
    need(room >= CAPABILITY, 7)
    return Accepted(capability_bytes(Capability(id, (ONES,) * 4, first_secret(work, master, id))))


def narrow(room: int, work: Work, data: bytes, word: int) -> Accepted:
    need(len(data) == CAPABILITY, 28)
    need(word != ONES, 32)
    old = take_capability(data)
    need(ONES in old.words, 31)
    need(room >= CAPABILITY, 7)
    place = old.words.index(ONES)
    words = old.words[:place] + (word,) + old.words[place + 1:]
    return Accepted(capability_bytes(Capability(old.id, words, step(work, old.secret, word))))


def inner_bytes(inner: Inner) -> bytes:
    return struct.pack("<6HB", *inner[:7]) + inner.zeros + struct.pack("<4Q", *inner.words) + inner.secret


def sealed(work: Work, key: bytes, vector: bytes, head: bytes, plain: bytes) -> bytes:
    """A packet of that head (four bytes) and encrypted part."""
    text, tag = gcm.seal(work.under(key), vector, head, plain)
    return head + vector + tag + text


def seal(room: int, work: Work, key: bytes, vector: bytes, data: bytes, client: int, sequence: int, group: int, interface: int,
         number: int, payload: bytes) -> Accepted:
    need(len(key) == KEY and len(vector) == VECTOR and len(data) == CAPABILITY, 28)
    need(vector[0] < 128, 5)
    need(sequence != 0, 12)
    need(len(payload) <= PAYLOAD_MOST, 30)
    need(room >= FIXED + len(payload), 7)
    capability = take_capability(data)
    inner = Inner(client, sequence, group, interface, capability.id, len(payload), number, bytes(3), capability.words,
                  capability.secret)
    return Accepted(sealed(work, key, vector, sixteen(client) + bytes(2), inner_bytes(inner) + payload))


def open_reply(room: int, work: Work, key: bytes, expected: int, packet: bytes) -> Accepted:
    need(len(key) == KEY, 28)
    need(len(packet) >= REPLY_LENGTHS[0], 1)
    need(len(packet) <= REPLY_LENGTHS[1], 2)
    need(packet[:VECTOR] == reply_vector(expected), 5)
    need(room >= len(packet) - REPLY_FIXED, 7)
    plain = gcm.opened(work.under(key), packet[:VECTOR], b"", packet[VECTOR + TAG:], packet[VECTOR:VECTOR + TAG])
    need(plain is not None, 8)
    need(u16(plain, 2) == len(plain) - 4, 11)
    need(u16(plain, 0) == expected, 12)
    return Accepted(plain[4:], (len(plain) - 4,))


# ---- answers and their lines

class Answer(NamedTuple):
    number: int
    blocks: int
    fields: Tuple
    written: bytes
    room: bytes


FIELDS: Dict[str, Tuple] = {"request": (0,), "command": (0,) * 11 + (bytes(SECRET),), "open": (0,)}    # what a refusal answers


def answered(name: str, room: int, perform: Callable[[int, Work], Accepted]) -> Answer:
    """The answer of a call and its room after it. An accepted call writes at the room's start; a refusal writes nothing."""
    work, filled = Work(), bytes([traces.ROOM]) * room
    try:
        done = perform(room, work)
    except Refused as refused:
        return Answer(refused.number, work.blocks, FIELDS.get(name, ()), b"", filled)
    return Answer(0, work.blocks, done.fields, done.written, done.written + filled[len(done.written):])


def fnv(data: bytes) -> int:
    """32-bit FNV-1a."""
    sum_ = 2166136261
    for byte in data:
        sum_ = (sum_ ^ byte) * 16777619 & 0xffffffff
    return sum_


def shown(value) -> str:
    return value.hex() if isinstance(value, bytes) else "%d" % value


def line(name: str, answer: Answer) -> str:
    words = [name, "%d" % answer.number, "%d" % answer.blocks, *map(shown, answer.fields)]
    if "r" in traces.CALLS[name][1]:
        words += [answer.written.hex() or "-", "%08x" % fnv(answer.room)]
    return " ".join(words)


def record_word(record: Record) -> str:
    if isinstance(record, Waiting):
        return "waiting:" + record.challenge.hex()
    if isinstance(record, Open):
        return "open:%s:%d:%d" % (record.key.hex(), record.last, record.owed)
    return "idle"


def dump(state: State) -> str:
    words = ["dump", "%d" % state.host_count, "%d" % state.interface_count]
    words += [record_word(host.record) for host in state.hosts_in_use()]
    return " ".join(words + ["%d" % entry.word for face in state.interfaces_in_use() for entry in face.in_use()])


def poke(state: State, what: int, i: int, k: int, value: int) -> None:
    """Stores into the state without any check."""
    if what == 1:
        state.host_count = value
    elif what == 2:
        state.interface_count = value
    elif what == 3:
        state.hosts[i - 1].length = value
    elif what == 4:
        state.interfaces[i - 1].length = value
    elif what == 5:
        state.interfaces[i - 1].commands = value
    elif what == 6:
        state.interfaces[i - 1].entry_count = value
    elif what == 7:
        state.interfaces[i - 1].entries[k - 1].word = value
    elif what == 8:
        host, other = state.hosts[i - 1], state.hosts[k - 1]
        host.stored, host.length = other.stored, other.length


# ---- replaying

SERVER = {"request": request, "proof": proof, "command": command, "reply": reply, "close": close, "revoke": revoke}
CLIENT = {"issue": issue, "narrow": narrow, "seal": seal, "open": open_reply}
SLOTS = 4


class Machine:
    """What replays a trace: four states, of which one is selected."""

    def __init__(self):
        self.states = [State() for _ in range(SLOTS)]
        self.selected = 0
        self.answer: Optional[Answer] = None        # of the last call that has one

    def state(self) -> State:
        return self.states[self.selected]

    def load(self, book: bytes) -> str:
        (number, offset), said = books.load(book)
        self.states[self.selected] = State(said)
        self.answer = Answer(number, 0, (offset, len(said.hosts), len(said.interfaces)), b"", b"")
        return line("load", self.answer)

    def answering(self, name: str, fields: Sequence) -> str:
        """A call of the server or of the client; its room, if it has one, is the last field."""
        *handed, room = fields if "r" in traces.CALLS[name][1] else (*fields, 0)
        if name in SERVER:
            self.answer = answered(name, room, lambda room, work: SERVER[name](self.state(), room, work, *handed))
        else:
            self.answer = answered(name, room, lambda room, work: CLIENT[name](room, work, *handed))
        return line(name, self.answer)

    def perform(self, name: str, fields: Sequence) -> Optional[str]:
        """The line of that call; None if it prints nothing."""
        if name == "load":
            return self.load(*fields)
        if name == "dump":
            return dump(self.state())
        if name == "note":
            return "# " + fields[0].decode("ascii")
        if name == "select":
            self.selected, = fields
            return None
        if name == "poke":
            return poke(self.state(), *fields)
        return self.answering(name, fields)


def replay(calls: Iterator["traces.Call"]) -> Iterator[str]:
    machine = Machine()
    for call in calls:
        said = machine.perform(*call)
        if said is not None:
            yield said


def main() -> int:
    try:
        for said in replay(traces.read(sys.stdin.buffer.read())):
            print(said)
    except traces.NotATrace as problem:
        print("model.py: %s" % problem, file=sys.stderr)
        return 2
    return 0


if __name__ == "__main__":
    sys.exit(main())
