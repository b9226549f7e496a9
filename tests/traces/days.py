"""Days at random: up to 32 hosts, interleaved, in four states; most calls are good, and the rest are near to good."""
from typing import List, Optional, Tuple

import model
from recorder import ONES, Recorder, request_packet, xor

books = model.books
GROUPS = (0, 1, 2, 65535)
KEPT = 12               # packets and replies that are kept, to be handed in again


def some_word(r: Recorder, commands: int) -> int:
    """A word below 2^commands: all, few or half of its bits."""
    every = 2 ** commands - 1
    return r.rng.choice((every, every, r.rng.getrandbits(64) & every, 1 << r.rng.randrange(commands)))


def some_interface(r: Recorder, name: bytes, most: int) -> "books.Interface":
    commands = r.rng.choice((1, 8, 34, 40, 63, 64))
    entries = [books.Entry(r.rng.choice(GROUPS), some_word(r, commands)) for _ in range(r.rng.choice((1, 2, 5, most)))]
    return books.Interface(r.noise(16), commands, entries, name)


def some_book(r: Recorder) -> bytes:
    hosts = [books.Host(r.rng.choice(GROUPS), b"host %d" % k) for k in range(r.rng.choice((1, 3, 5, 32)))]
    faces = [some_interface(r, b"interface %d" % k, 16) for k in range(r.rng.choice((1, 2, 3, 8)))]
    return books.build(hosts, faces)


class Days:
    def __init__(self, r: Recorder):
        self.r, self.packets, self.replies = r, [], []

    # ---- picking

    def near(self, number: int) -> int:
        """That number, or seldom another."""
        return number if self.r.rng.random() < 0.96 else self.r.rng.choice((0, number + 1, number - 1, 33, 256)) % 65536

    def room(self, needed: int) -> int:
        return max(0, needed + self.r.rng.choice((0, 0, 0, 0, 1, 7, 100, 0, 3, -1)))

    def a_host(self, kind: type) -> Optional[int]:
        """The number of a host whose record is of that kind, if there is one."""
        numbers = [k for k, host in enumerate(self.r.state().hosts_in_use(), 1) if isinstance(host.record, kind)]
        return self.r.rng.choice(numbers) if numbers else None

    def any_host(self) -> int:
        return self.near(self.r.rng.randrange(self.r.state().host_count) + 1) if self.r.state().host_count else 1

    def right_of(self, group: int) -> Optional[Tuple[int, int]]:
        """An interface and an entry that a host of that group can name."""
        rights = [(i, k) for i, face in enumerate(self.r.state().interfaces_in_use(), 1)
                  for k, entry in enumerate(face.in_use(), 1) if entry.group in (0, group)]
        return self.r.rng.choice(rights) if rights else None

    def kept(self, earlier: List, one: object) -> None:
        earlier.append(one)
        del earlier[:-KEPT]

    # ---- doing

    def load(self) -> None:
        self.r.call("load", some_book(self.r))

    def spoiled_load(self) -> None:
        """A book with a wrong bit, which is refused or not; what it leaves without hosts gets a good book."""
        book = some_book(self.r)
        self.r.call("load", xor(book, 1 << self.r.rng.randrange(8 * len(book))))
        self.r.dump()
        self.request()
        if self.r.state().host_count == 0:
            self.load()

    def request(self) -> None:
        hosts = self.r.state().hosts_in_use()
        name = self.r.rng.choice(hosts).name() if hosts else b"nobody"
        if self.r.rng.random() < 0.05:
            name += b"x"
        self.r.call("request", request_packet(name, self.r.noise(16)), self.r.noise(16), self.room(32))

    def proof(self) -> None:
        host = self.a_host(model.Waiting)
        if host is None:
            return self.request()
        challenge = self.r.host(host).record.challenge
        if self.r.rng.random() < 0.05:
            challenge = xor(challenge, 1 << self.r.rng.randrange(128))
        self.r.call("proof", self.near(host), challenge + self.r.noise(16), self.room(20))

    def command_of(self, face: model.Interface, entry: int) -> int:
        """A command of that interface: mostly one that the entry permits."""
        word = face.entries[entry - 1].word
        if word == 0 or self.r.rng.random() < 0.1:
            return self.r.rng.randrange(face.commands)
        return self.r.rng.choice([c for c in range(64) if word >> c & 1])

    def held(self, interface: int, entry: int, command: int) -> bytes:
        """A capability for that entry, narrowed up to four times by the client's call; mostly the command is left."""
        held = self.r.call("issue", self.r.state().interfaces[interface - 1].secret, entry, 50).written
        for _ in range(self.r.rng.choice((0, 0, 1, 1, 2, 4))):
            word = self.r.rng.getrandbits(64) | (1 << command if self.r.rng.random() < 0.95 else 0)
            held = self.r.call("narrow", held, word, 50).written
        return held

    def command(self) -> None:
        host = self.a_host(model.Open)
        right = self.right_of(self.r.host(host).group) if host is not None else None
        if right is None:
            return self.proof()
        interface, entry = right
        face = self.r.state().interfaces[interface - 1]
        number = self.command_of(face, entry)
        group = self.r.rng.choice((face.entries[entry - 1].group, self.r.host(host).group))
        payload = self.r.noise(self.r.rng.choice((0, 1, 5, 15, 16, 17, 40, 200)))
        packet = self.r.call("seal", self.r.host(host).record.key, bytes([self.r.rng.randrange(128)]) + self.r.noise(11),
                             self.held(interface, entry, number), host, self.next_number(host), self.near(group),
                             self.near(interface), self.near(number) % 256, payload, 96 + len(payload)).written
        self.kept(self.packets, packet)
        self.r.call("command", packet, self.room(len(payload)))

    def next_number(self, host: int) -> int:
        return max(1, min(65535, self.near(self.r.host(host).record.last + self.r.rng.choice((1, 1, 1, 2, 300)))))

    def old_command(self) -> None:
        """A packet of before: again, damaged, cut or stretched."""
        if not self.packets:
            return self.command()
        packet, happens = self.r.rng.choice(self.packets), self.r.rng.randrange(4)
        if happens == 1:
            packet = xor(packet, 1 << self.r.rng.randrange(8 * len(packet)))
        elif happens == 2:
            packet = packet[:self.r.rng.randrange(len(packet) + 1)]
        elif happens == 3:
            packet += self.r.noise(self.r.rng.randrange(1, 4))
        self.r.call("command", packet, self.room(max(0, len(packet) - 96)))

    def reply(self) -> None:
        host = self.a_host(model.Open)
        if host is None:
            return self.proof()
        record, payload = self.r.host(host).record, self.r.noise(self.r.rng.choice((0, 4, 12, 13, 50)))
        sequence = self.near(record.last)
        said = self.r.call("reply", self.near(host), sequence, payload, self.room(32 + len(payload))).written
        if said:
            self.kept(self.replies, (record.key, sequence, said))

    def open(self) -> None:
        if not self.replies:
            return self.reply()
        key, sequence, said = self.r.rng.choice(self.replies)
        if self.r.rng.random() < 0.2:
            said = xor(said, 1 << self.r.rng.randrange(8 * len(said)))
        self.r.call("open", key, self.near(sequence), said, self.room(len(said) - 32))

    def revoke(self) -> None:
        faces = self.r.state().interfaces_in_use()
        interface = self.r.rng.randrange(len(faces)) + 1 if faces else 1
        entry = self.r.rng.randrange(faces[interface - 1].entry_count) + 1 if faces else 1
        word = ONES
        for _ in range(3):
            word &= ONES ^ 1 << self.r.rng.randrange(64)
        self.r.call("revoke", self.near(interface), self.near(entry), word)

    def close(self) -> None:
        self.r.call("close", self.any_host())

    def select(self) -> None:
        self.r.call("select", self.r.rng.randrange(model.SLOTS))

    def step(self) -> None:
        does = self.r.rng.choices((self.request, self.proof, self.command, self.old_command, self.reply, self.open, self.revoke,
                                   self.close, self.select, self.r.dump, self.spoiled_load),
                                  (12, 14, 34, 14, 14, 8, 4, 2, 4, 6, 0.3))[0]
        does()


def everything(r: Recorder, steps: int) -> None:
    r.note("days at random")
    days = Days(r)
    for slot in range(model.SLOTS):
        r.call("select", slot)
        r.claim(0, "a book", "load", some_book(r))
    for _ in range(steps):
        days.step()
    r.dump()
