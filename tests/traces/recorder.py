"""Writes a trace call by call. The model performs each call as it is written, so that the next one can depend on the answers."""
import collections
import random
from typing import Callable, NamedTuple, Optional, Sequence, Tuple

import document
import model
import traces

ONES = model.ONES


class WrongClaim(Exception):
    """The model's answer isn't the one that the call was made for, or not one that document 01's tables allow."""


class Ask(NamedTuple):
    """A command packet to be, and the room that is lent with it."""
    head: bytes                             # the first four bytes
    vector: bytes
    key: bytes
    inner: model.Inner                      # its secret is worked out when the packet is built
    payload: bytes
    spare: int                              # bytes of the room beyond what is needed; below 0, it is too short
    chain: Callable = model.chained         # which words go into the chain of secrets
    mask: int = 0                           # the bits of the secret that are wrong
    damage: Tuple[Callable, ...] = ()       # what happens to the sealed packet


def four(words: Sequence[int]) -> Tuple[int, ...]:
    """So many words and all-ones words up to four."""
    return (*words, *(ONES,) * (4 - len(words)))


def xor(data: bytes, mask: int) -> bytes:
    return (int.from_bytes(data, "big") ^ mask).to_bytes(len(data), "big")


def request_packet(name: bytes, challenge: bytes) -> bytes:
    return bytes([1, 0]) + model.sixteen(len(name)) + challenge + name


class Recorder:
    def __init__(self, rng: random.Random):
        self.rng, self.machine = rng, model.Machine()
        self.pieces, self.lines = [], []
        self.tally = collections.Counter()          # (call, number) -> times
        self.sizes = collections.Counter()          # (call, size, number) -> times

    # ---- writing

    def call(self, name: str, *fields) -> Optional[model.Answer]:
        self.pieces.append(traces.write(name, fields))
        said = self.machine.perform(name, fields)
        if said is not None:
            self.lines.append(said)
        return self.noted(name, fields) if name in document.ORDER else None

    def noted(self, name: str, fields: Sequence) -> model.Answer:
        answer = self.machine.answer
        if answer.number != 0 and answer.number not in document.ORDER[name] \
                or answer.blocks not in document.blocks(name, fields, answer):
            raise WrongClaim("%s: number %d with %d blocks" % (name, answer.number, answer.blocks))
        self.tally[name, answer.number] += 1
        if name in document.SIZED:
            self.sizes[name, len(fields[document.SIZED[name]]), answer.number] += 1
        return answer

    def claim(self, number: int, what: str, name: str, *fields) -> model.Answer:
        """A call that has to be answered with that number."""
        answer = self.call(name, *fields)
        if answer.number != number:
            raise WrongClaim("%s, %s: the model gives %d, and %d was meant" % (name, what, answer.number, number))
        return answer

    def note(self, text: str) -> None:
        self.call("note", text.encode("ascii"))

    def dump(self) -> None:
        self.call("dump")

    def trace(self) -> bytes:
        return b"".join(self.pieces)

    def expected(self) -> bytes:
        return "".join(line + "\n" for line in self.lines).encode("ascii")

    # ---- what a machine does

    def noise(self, count: int) -> bytes:
        return self.rng.randbytes(count)

    def state(self) -> model.State:
        return self.machine.state()

    def host(self, number: int) -> model.Host:
        return self.state().hosts[number - 1]

    def knock(self, number: int) -> bytes:
        """Has that host ask for a connection; challenge 2."""
        fresh = self.noise(16)
        packet = request_packet(self.host(number).name(), self.noise(16))
        self.claim(0, "a good request", "request", packet, fresh, 32 + self.rng.choice((0, 0, 5)))
        return fresh

    def connect(self, number: int) -> None:
        fresh = self.knock(number)
        self.claim(0, "a good proof", "proof", number, fresh + self.noise(16), 20 + self.rng.choice((0, 0, 3)))

    def ask(self, host: int, interface: int, entry: int, command: int, words: Sequence[int] = (), payload: bytes = b"",
            sequence: Optional[int] = None, group: Optional[int] = None, spare: int = 3) -> Ask:
        """A good packet of an open host, as far as the host has that right; the next fresh number if none is given."""
        at = self.host(host)
        inner = model.Inner(host, at.record.last + 1 if sequence is None else sequence, at.group if group is None else group,
                            interface, entry, len(payload), command, bytes(3), four(words), b"")
        vector = bytes([self.rng.randrange(128)]) + self.noise(11)
        return Ask(model.sixteen(host) + bytes(2), vector, at.record.key, inner, payload, spare)

    def secret(self, ask: Ask) -> bytes:
        """The right secret for those words, less what the ask has wrong; any where there is no such interface."""
        inner, master = ask.inner, bytes(16)
        if 1 <= inner.interface <= self.state().interface_count:
            master = self.state().interfaces[inner.interface - 1].secret
        secret = model.first_secret(model.Work(), master, inner.capability)
        for word in ask.chain(inner.words):
            secret = model.step(model.Work(), secret, word)
        return xor(secret, ask.mask)

    def packet(self, ask: Ask) -> bytes:
        plain = model.inner_bytes(ask.inner._replace(secret=self.secret(ask))) + ask.payload
        packet = model.sealed(model.Work(), ask.key, ask.vector, ask.head, plain)
        for happens in ask.damage:
            packet = happens(packet)
        return packet

    def handed(self, ask: Ask) -> Tuple[bytes, int]:
        """The packet, and the length of its room."""
        packet = self.packet(ask)
        return packet, min(20000, max(0, len(packet) - model.FIXED + ask.spare))

    def command(self, number: int, what: str, ask: Ask) -> model.Answer:
        return self.claim(number, what, "command", *self.handed(ask))
