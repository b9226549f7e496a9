"""Calls at the edges of document 01: sizes, numbers, bits, chains of secrets, and what one call leaves for the next."""
from typing import List, Sequence, Tuple

import faults
import model
from faults import ACTOR, IDLE, LONG, OTHER, WAITING
from recorder import ONES, Recorder, request_packet

books = model.books
MOST = model.PAYLOAD_MOST


def exchange(r: Recorder, payload: bytes, answer: bytes) -> bytes:
    """A command of the actor with that payload, its reply, and the reply opened, all in rooms that just fit; the reply."""
    key = r.host(ACTOR).record.key
    r.command(0, "payload of %d" % len(payload), r.ask(ACTOR, 1, 1, 7, (), payload, spare=0))
    number = faults.last(r)
    said = r.claim(0, "reply of %d" % len(answer), "reply", ACTOR, number, answer, 32 + len(answer)).written
    r.claim(0, "reply of %d" % len(answer), "open", key, number, said, len(answer))
    return said


def sizes(r: Recorder) -> None:
    r.note("payloads of all lengths around whole blocks")
    faults.prepare(r)
    for length in (0, 1, 11, 12, 13, 15, 16, 17, 31, 32, 33, 47, 48, 49, 255, 256, 257):
        exchange(r, r.noise(length), r.noise(length))
    for host in (ACTOR, LONG):
        packet = request_packet(r.host(host).name(), r.noise(16))
        for room in (31, 32, 33):
            r.claim(0 if room >= 32 else 7, "a room of %d" % room, "request", packet, r.noise(16), room)


def longest(r: Recorder) -> None:
    """The longest packets and replies, and those that are one byte longer."""
    r.note("the longest packets")
    faults.prepare(r)
    key, payload = r.host(ACTOR).record.key, r.noise(MOST)
    ask = r.ask(ACTOR, 1, 1, 9, (), payload, spare=0)
    packet = r.packet(ask)
    r.claim(2, "a byte more", "command", packet + bytes(1), MOST + 1)
    r.claim(7, "room one short", "command", packet, MOST - 1)
    r.claim(8, "the last bit", "command", faults.flipped(-1)(packet), MOST)
    said = exchange(r, payload, r.noise(MOST))
    number = faults.last(r)
    r.claim(1, "31 bytes", "open", key, number, said[:31], 0)
    r.claim(2, "a byte more", "open", key, number, said + bytes(1), MOST + 1)
    r.claim(7, "room one short", "open", key, number, said, MOST - 1)
    r.claim(8, "the last bit", "open", key, number, faults.flipped(-1)(said), MOST)
    fields = list(faults.good_seal(r))
    r.claim(0, "the longest payload", "seal", *fields[:8], payload, 96 + MOST)
    r.claim(30, "a byte more", "seal", *fields[:8], payload + bytes(1), 97 + MOST)


def numbers(r: Recorder) -> None:
    """P4 and P5: what is fresh."""
    r.note("sequence numbers")
    faults.prepare(r)
    r.connect(ACTOR)

    def tried(sequence: int, number: int) -> None:
        r.command(number, "number %d" % sequence, r.ask(ACTOR, 1, 1, 0, sequence=sequence))
        r.dump()
    for sequence, number in ((0, 12), (7, 0), (7, 12), (6, 12), (8, 0), (10, 0), (9, 12), (255, 0), (256, 0), (255, 12), (511, 0),
                             (512, 0), (32767, 0), (32768, 0), (32767, 12), (65534, 0), (65535, 0), (65535, 12), (0, 12), (1, 12)):
        tried(sequence, number)


BITS = (0, 1, 7, 8, 15, 16, 30, 31, 32, 33, 34, 39, 40, 47, 48, 63)


def bits_book() -> bytes:
    """Sixteen entries, each of one bit alone (P1: 2^33)."""
    entries = [books.Entry(0, 1 << bit) for bit in BITS]
    return books.build([books.Host(0, b"a")], [books.Interface(b"sixteen letters.", 64, entries, b"bits")])


def bits(r: Recorder) -> None:
    r.note("each bit is its own command's")
    r.claim(0, "the book of bits", "load", bits_book())
    r.connect(1)
    for entry, bit in enumerate(BITS, 1):
        for command in {bit, bit ^ 32, bit ^ 1, bit ^ 8, bit & 31, 33, 1}:
            r.command(0 if command == bit else 18, "bit %d, command %d" % (bit, command), r.ask(1, 1, entry, command))
    r.note("a word of the capability has each bit")
    r.claim(0, "the plant", "load", faults.BOOK)
    r.connect(ACTOR)
    for bit in range(64):
        place = bit % 4
        words = [ONES ^ 1 << (bit + 1) % 64] * place + [1 << bit]
        for command in (bit, bit ^ 32):
            r.command(0 if command == bit else 18, "word %d" % place, r.ask(ACTOR, 1, 1, command, words))


def chain_book() -> bytes:
    return books.build([books.Host(3, b"a")], [books.Interface(bytes(range(16)), 4, [books.Entry(3, 15)], b"i")])


def chains(r: Recorder) -> None:
    """P2, P3, P6, P7, P9, and words in every place."""
    r.note("chains of secrets")
    r.claim(0, "the book of one entry", "load", chain_book())
    r.connect(1)
    for words in [(12, 6, ONES, ONES), (12, ONES, 6, ONES), (ONES, 12, ONES, 6), (ONES, ONES, ONES, 4), (12, 6, 4, 7), (4, 4, 4, 4),
                  (ONES - 1, ONES - 1, ONES, 4), (0, ONES, ONES, ONES)]:
        for command in range(4):
            good = all(word >> command & 1 for word in words)
            r.command(0 if good else 18, "words %s" % (words,), r.ask(1, 1, 1, command, words))
    for payload in (b"", b"x"):
        r.command(18, "one narrowing, not permitted", r.ask(1, 1, 1, 0, (2,), payload))
    narrowed(r)


def narrowed(r: Recorder) -> None:
    """A capability issued and narrowed four times by the client's calls, sealed and judged at each step; a fifth is refused."""
    master = r.state().interfaces[0].secret
    held = r.claim(0, "issued", "issue", master, 1, 50).written
    left = 15
    for word in (15, 14, 6, 4):
        held = r.claim(0, "narrowed", "narrow", held, word, 50).written
        left &= word
        for command in range(4):
            packet = sealed(r, held, command, b"payload %d" % command)
            r.claim(0 if left >> command & 1 else 18, "by %d" % word, "command", packet, 9)
    r.claim(31, "a fifth time", "narrow", held, 12, 50)
    r.claim(32, "by an all-ones word", "narrow", held, ONES, 50)


def sealed(r: Recorder, held: bytes, command: int, payload: bytes) -> bytes:
    """A packet of host 1 for interface 1, by the client's call."""
    record = r.host(1).record
    vector = bytes([command]) + r.noise(11)
    return r.claim(0, "sealed", "seal", record.key, vector, held, 1, record.last + 1, r.host(1).group, 1, command, payload,
                   96 + len(payload)).written


def records(r: Recorder) -> None:
    """What calls leave for the next one: challenges, claims to a reply, restarts, closing."""
    r.note("from call to call")
    faults.prepare(r)
    first = r.packet(r.ask(ACTOR, 1, 1, 2, (), b"early"))
    r.claim(0, "early", "command", first, 5)
    early = faults.last(r)
    r.claim(12, "the same packet", "command", first, 5)
    r.command(18, "a refused command", r.ask(ACTOR, 1, 2, 2))
    r.claim(29, "a number that was refused", "reply", ACTOR, early + 1, b"", 32)
    r.claim(0, "the claim is kept", "reply", ACTOR, early, b"once", 36)
    r.claim(29, "the reply again", "reply", ACTOR, early, b"once", 36)
    r.command(0, "the next", r.ask(ACTOR, 1, 1, 2))
    r.command(0, "and the next", r.ask(ACTOR, 1, 1, 2))
    r.claim(29, "an ended claim", "reply", ACTOR, early + 1, b"", 32)
    r.claim(0, "the last claim", "reply", ACTOR, early + 2, b"", 32)
    restarts(r)
    for host in (ACTOR, IDLE, WAITING, WAITING, OTHER):
        r.claim(0, "closed", "close", host)
        r.dump()
    r.claim(26, "nothing waits", "proof", WAITING, bytes(32), 20)
    r.claim(40, "no book", "load", b"")
    r.claim(4, "no hosts", "close", 1)
    r.dump()


def restarts(r: Recorder) -> None:
    old = r.packet(r.ask(ACTOR, 1, 1, 3, sequence=9000))
    before = r.knock(ACTOR)
    r.claim(6, "an old packet while the host waits", "command", old, 0)
    again = r.knock(ACTOR)
    r.claim(27, "an older challenge", "proof", ACTOR, before + r.noise(16), 20)
    r.claim(0, "the newest challenge", "proof", ACTOR, again + r.noise(16), 20)
    r.claim(26, "a second time", "proof", ACTOR, again + r.noise(16), 20)
    r.claim(8, "an old packet under the new key", "command", old, 0)
    r.claim(29, "nothing owed after a restart", "reply", ACTOR, 0, b"", 32)
    r.command(0, "numbers begin again", r.ask(ACTOR, 1, 1, 3, sequence=1))
    r.dump()


def revocations(r: Recorder) -> None:
    r.note("revocations")
    faults.prepare(r)
    for command in (5, 33, 63):
        r.command(0, "before", r.ask(ACTOR, 1, 1, command))
        r.claim(0, "another entry", "revoke", 1, 4, ONES ^ 1 << command)
        r.claim(0, "another interface", "revoke", 3, 1, ONES ^ 1 << command)
        r.claim(0, "nothing", "revoke", 1, 1, ONES)
        r.command(0, "still", r.ask(ACTOR, 1, 1, command))
        r.command(18, "through the entry that lost it", r.ask(ACTOR, 1, 4, command))
        r.claim(0, "the right", "revoke", 1, 1, ONES ^ 1 << command)
        r.command(18, "at once", r.ask(ACTOR, 1, 1, command))
        r.command(18, "for other hosts too", r.ask(OTHER, 1, 1, command))
        r.command(0, "the neighbour's bit", r.ask(ACTOR, 1, 1, command ^ 1))
        r.claim(0, "back again is not possible", "revoke", 1, 1, 1 << command | 15)
        r.command(18, "gone", r.ask(ACTOR, 1, 1, command))
        r.dump()
        r.claim(0, "the plant", "load", faults.BOOK)
        r.connect(ACTOR)
        r.connect(OTHER)


def refused_books() -> List[Tuple[int, bytes]]:
    """Some books for each of a book's refusals; tests/books has the rest."""
    good, host, face = faults.BOOK, faults.HOSTS[0], faults.INTERFACES[0]

    def put(at: int, *data: int) -> bytes:
        return good[:at] + bytes(data) + good[at + len(data):]

    def of(hosts: Sequence = (host,), faces: Sequence = (face,)) -> bytes:
        return books.build(hosts, faces)
    return [(40, b""), (40, good[:7]), (40, good[:-1]), (40, bytes(12233)), (41, put(0, 2)), (42, put(2, 0)), (42, put(2, 41)),
            (43, put(8, 3)), (43, put(10, 2)), (43, of(())), (43, of([books.Host(0, b"%d" % k) for k in range(33)])),
            (44, put(12, 0)), (44, put(16, 2)), (45, of(faces=[face._replace(commands=65)])),
            (45, of(faces=[face._replace(entries=(), name=b"without any")])),
            (46, of(faces=[face._replace(commands=63)])), (47, of([books.Host(0, b" a")])), (47, of([books.Host(0, b"a,")])),
            (48, of([host, host])), (48, of(faces=[face, face]))]


def refusals_of_books(r: Recorder) -> None:
    r.note("refused books: the state has no hosts and no interfaces then")
    for number, book in refused_books():
        faults.prepare(r)
        r.claim(number, "a book", "load", book)
        r.dump()
        r.claim(4, "no host", "close", 1)
        r.claim(14, "no interface", "revoke", 1, 1, 0)


def everything(r: Recorder) -> None:
    refusals_of_books(r)
    sizes(r)
    longest(r)
    numbers(r)
    bits(r)
    chains(r)
    records(r)
    revocations(r)
