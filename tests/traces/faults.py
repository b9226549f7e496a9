"""Every refusal of every call, alone and in pairs.

A kind of fault spoils the description of a good call so that document 01's number for it is known. Of two faults in one call the
number is that of the earlier in the document's order: so pairs hold the order. The later fault is put in first.
"""
from typing import Callable, Iterator, List, NamedTuple, Tuple

import document
import model
from recorder import ONES, Ask, Recorder, four, xor

books = model.books

# ---- the plant on which faults are tried. Of each interface entry 1 permits all commands to group 7, entry 2 command 5 alone or
# none, entry 3 all to group 9 and entry 4 all to anyone. Of the hosts the first three are connected, and the fifth waits.

LONG_NAME = bytes(b"abcdefghijklmnopqrstuvwxyz-_+./ "[(7 * k + k // 32) % 32] for k in range(255)) + b"Z"
HOSTS = [books.Host(7, b"m"), books.Host(7, b"pump 2"), books.Host(0, LONG_NAME), books.Host(9, b"idle"),
         books.Host(65535, b"waiting")]
ACTOR, OTHER, LONG, IDLE, WAITING = 1, 2, 3, 4, 5


def interface(name: bytes, commands: int) -> "books.Interface":
    every = 2 ** commands - 1
    entries = [books.Entry(7, every), books.Entry(7, 32 & every), books.Entry(9, every), books.Entry(0, every)]
    return books.Interface(b"secret of " + name[:6], commands, entries, name)


INTERFACES = [interface(b"mixer.", 64), interface(b"valves", 2), interface(b"lights", 40)]
BOOK = books.build(HOSTS, INTERFACES)


def prepare(r: Recorder) -> None:
    """The plant with its connections; the actor's last number has a high byte."""
    r.claim(0, "the plant", "load", BOOK)
    for host in (ACTOR, OTHER, LONG):
        r.connect(host)
    r.command(0, "the first number", r.ask(ACTOR, 1, 1, 0, sequence=0x0102))
    r.knock(WAITING)


class Kind(NamedTuple):
    number: int
    what: str
    spoil: Callable
    heavy: bool = False             # a long call: paired with one kind of each number


# ---- the command

def flipped(at: int) -> Callable:
    """That bit of a packet, counted from its first byte (or from its end, below 0)."""
    return lambda packet: xor(packet, 1 << (8 * len(packet) - 1 - at if at >= 0 else -1 - at))


def damaged(ask: Ask, *happens: Callable) -> Ask:
    return ask._replace(damage=ask.damage + happens)


def stretched(length: int) -> Callable:
    """A packet brought to that length."""
    return lambda packet: packet[:length] + bytes(max(0, length - len(packet)))


def in_the_name_of_another(packet: bytes) -> bytes:
    return model.sixteen(OTHER) + packet[2:] if packet[:2] == model.sixteen(ACTOR) else packet


def head(ask: Ask, place: int, byte: int) -> Ask:
    return ask._replace(head=ask.head[:place] + bytes([byte]) + ask.head[place + 1:])


def client(ask: Ask, number: int) -> Ask:
    """Another client ID in the open part."""
    return ask._replace(head=model.sixteen(number) + ask.head[2:])


def inner(ask: Ask, **fields) -> Ask:
    return ask._replace(inner=ask.inner._replace(**fields))


def of_host(ask: Ask, number: int) -> Ask:
    return inner(client(ask, number), client=number)


def first_byte(ask: Ask, byte: int) -> Ask:
    return ask._replace(vector=bytes([byte]) + ask.vector[1:])


def zero(ask: Ask, place: int) -> Ask:
    zeros = bytearray(ask.inner.zeros)
    zeros[place] = 1 << place
    return inner(ask, zeros=bytes(zeros))


def word(ask: Ask, place: int) -> Ask:
    """A word in that place which lacks the command's bit alone."""
    words = list(ask.inner.words)
    words[place] = ONES ^ 1 << min(ask.inner.command, 63)
    return inner(ask, words=tuple(words))


def with_hole(ask: Ask) -> Ask:
    """Words with an all-ones word before the last that isn't, and a chain that went on past it."""
    words = ask.inner.words
    spread = (words[0], ONES, words[1], ONES)
    return inner(ask, words=spread)._replace(chain=lambda words: [word for word in words if word != ONES])


def chained(chain: Callable) -> Callable:
    return lambda r, ask: ask._replace(chain=chain)


def masked(mask: int) -> Callable:
    return lambda r, ask: ask._replace(mask=ask.mask ^ mask)


def above(r: Recorder, ask: Ask) -> int:
    """One above the entries of the ask's interface."""
    return r.state().interfaces[ask.inner.interface - 1].entry_count + 1


def last(r: Recorder) -> int:
    return r.host(ACTOR).record.last


COMMAND = [
    *(Kind(1, "%d bytes" % n, lambda r, ask, n=n: damaged(ask, stretched(n))) for n in (95, 64, 32, 4, 1, 0)),
    Kind(2, "16481 bytes", lambda r, ask: damaged(ask, stretched(16481)), True),
    Kind(2, "20000 bytes", lambda r, ask: damaged(ask, stretched(20000)), True),
    Kind(3, "byte 2", lambda r, ask: head(ask, 2, 1)),
    Kind(3, "byte 3", lambda r, ask: head(ask, 3, 128)),
    Kind(4, "client 0", lambda r, ask: client(ask, 0)),
    Kind(4, "client above the hosts", lambda r, ask: client(ask, len(HOSTS) + 1)),
    Kind(4, "client 257", lambda r, ask: client(ask, 256 + ACTOR)),
    Kind(4, "client 65535", lambda r, ask: client(ask, 65535)),
    Kind(5, "vector byte 128", lambda r, ask: first_byte(ask, 128)),
    Kind(5, "vector byte 255", lambda r, ask: first_byte(ask, 255)),
    Kind(6, "idle host", lambda r, ask: of_host(ask, IDLE)),
    Kind(6, "waiting host", lambda r, ask: of_host(ask, WAITING)),
    Kind(7, "room one short", lambda r, ask: ask._replace(spare=-1)),
    Kind(7, "no room", lambda r, ask: ask._replace(spare=-20000)),
    Kind(8, "a bit of the tag", lambda r, ask: damaged(ask, flipped(8 * 16 + r.rng.randrange(128)))),
    Kind(8, "the tag's first bit", lambda r, ask: damaged(ask, flipped(8 * 16))),
    Kind(8, "the tag's last bit", lambda r, ask: damaged(ask, flipped(8 * 32 - 1))),
    Kind(8, "a bit of the inner fields", lambda r, ask: damaged(ask, flipped(8 * 32 + r.rng.randrange(512)))),
    Kind(8, "the payload's last bit", lambda r, ask: damaged(ask, flipped(-1))),
    Kind(8, "a bit of the vector", lambda r, ask: damaged(ask, flipped(8 * 4 + 1 + r.rng.randrange(95)))),
    Kind(8, "another host's key", lambda r, ask: ask._replace(key=r.host(OTHER).record.key)),
    Kind(8, "another host's client ID", lambda r, ask: damaged(ask, in_the_name_of_another)),
    Kind(8, "a byte less", lambda r, ask: damaged(ask, lambda p: p[:-1])),
    Kind(8, "a byte more", lambda r, ask: damaged(ask, lambda p: p + bytes(1))),
    Kind(9, "another inner client", lambda r, ask: inner(ask, client=OTHER)),
    Kind(9, "inner client 257", lambda r, ask: inner(ask, client=256 + ACTOR)),
    *(Kind(10, "zero %d" % k, lambda r, ask, k=k: zero(ask, k)) for k in range(3)),
    Kind(11, "length one more", lambda r, ask: inner(ask, length=len(ask.payload) + 1)),
    Kind(11, "length one less", lambda r, ask: inner(ask, length=len(ask.payload) - 1)),
    Kind(11, "length with a high byte", lambda r, ask: inner(ask, length=len(ask.payload) + 256)),
    Kind(12, "the last number again", lambda r, ask: inner(ask, sequence=last(r))),
    Kind(12, "the number before", lambda r, ask: inner(ask, sequence=last(r) - 1)),
    Kind(12, "a lower number with a greater low byte", lambda r, ask: inner(ask, sequence=255)),
    Kind(12, "number 0", lambda r, ask: inner(ask, sequence=0)),
    Kind(13, "another host's group", lambda r, ask: inner(ask, group=9)),
    Kind(13, "a group with a high byte", lambda r, ask: inner(ask, group=256 + 7)),
    Kind(14, "interface 0", lambda r, ask: inner(ask, interface=0)),
    Kind(14, "interface above", lambda r, ask: inner(ask, interface=len(INTERFACES) + 1)),
    Kind(14, "interface 257", lambda r, ask: inner(ask, interface=257)),
    Kind(15, "entry 0", lambda r, ask: inner(ask, capability=0)),
    Kind(15, "entry above", lambda r, ask: inner(ask, capability=above(r, ask))),
    Kind(15, "entry 257", lambda r, ask: inner(ask, capability=257)),
    Kind(16, "an entry of another group", lambda r, ask: inner(ask, capability=3)),
    Kind(16, "packet of no group", lambda r, ask: inner(ask, group=0)),
    Kind(17, "command 64", lambda r, ask: inner(ask, command=64)),
    Kind(17, "command at the count", lambda r, ask: inner(ask, interface=2, command=2)),
    Kind(17, "command 255", lambda r, ask: inner(ask, command=255)),
    Kind(18, "an entry without the bit", lambda r, ask: inner(ask, capability=2)),
    *(Kind(18, "word %d without the bit" % (k + 1), lambda r, ask, k=k: word(ask, k)) for k in range(4)),
    Kind(19, "the secret's first bit", masked(1 << 127)),
    Kind(19, "the secret's last bit", masked(1)),
    Kind(19, "a bit of the secret", lambda r, ask: masked(1 << r.rng.randrange(128))(r, ask)),
    Kind(19, "no narrowing in the chain", chained(lambda words: ())),
    Kind(19, "the last narrowing not in the chain", chained(lambda words: model.chained(words)[:-1])),
    Kind(19, "narrowings the other way round", chained(lambda words: model.chained(words)[::-1])),
    Kind(19, "all four words in the chain", chained(lambda words: words)),
    Kind(19, "the first word alone in the chain", chained(lambda words: words[:1])),
    Kind(19, "a word after a hole in the chain", lambda r, ask: with_hole(ask)),
]


def good_ask(r: Recorder) -> Ask:
    number = r.rng.choice([c for c in range(64) if c != 5])
    words = [r.rng.getrandbits(64) & ~(1 << 63 - number) | 1 << number for _ in range(2)]
    return r.ask(ACTOR, 1, 1, number, words, r.noise(r.rng.randrange(2, 40)))


def do_command(r: Recorder, ask: Ask) -> Tuple:
    return r.handed(ask)


# ---- the request

class Request(NamedTuple):
    version: bytes
    length: int
    name: bytes
    fresh: int
    room: int
    cut: Callable = lambda packet: packet


REQUEST = [
    *(Kind(28, "%d fresh bytes" % n, lambda r, q, n=n: q._replace(fresh=n)) for n in (0, 15, 17, 64)),
    Kind(20, "20 bytes", lambda r, q: q._replace(cut=stretched(20))),
    Kind(20, "277 bytes", lambda r, q: q._replace(cut=stretched(277))),
    Kind(20, "no byte", lambda r, q: q._replace(cut=stretched(0))),
    Kind(20, "20000 bytes", lambda r, q: q._replace(cut=stretched(20000)), True),
    *(Kind(21, "version %d.%d" % (a, b), lambda r, q, v=bytes([a, b]): q._replace(version=v))
      for a, b in ((0, 0), (0, 1), (1, 1), (2, 0), (129, 0), (1, 128))),
    Kind(22, "name length one more", lambda r, q: q._replace(length=q.length + 1)),
    Kind(22, "name length one less", lambda r, q: q._replace(length=q.length - 1)),
    Kind(22, "name length with a high byte", lambda r, q: q._replace(length=q.length + 512)),
    Kind(23, "the beginning of a name", lambda r, q: q._replace(name=b"pump ", length=5)),
    Kind(23, "more than a name", lambda r, q: q._replace(name=b"pump 22", length=7)),
    Kind(23, "a capital", lambda r, q: q._replace(name=b"Pump 2", length=6)),
    Kind(23, "an interface's name", lambda r, q: q._replace(name=INTERFACES[0].name, length=6)),
    Kind(23, "the long name's last letter", lambda r, q: q._replace(name=LONG_NAME[:-1] + b"z", length=256)),
    Kind(7, "room of 31", lambda r, q: q._replace(room=31)),
    Kind(7, "no room", lambda r, q: q._replace(room=0)),
]


def good_request(r: Recorder) -> Request:
    name = r.rng.choice([host.name for host in HOSTS])
    return Request(bytes([1, 0]), len(name), name, 16, r.rng.choice((32, 33, 60)))


def do_request(r: Recorder, q: Request) -> Tuple:
    packet = q.version + model.sixteen(q.length) + r.noise(16) + q.name
    return q.cut(packet), r.noise(q.fresh), q.room


# ---- the proof

class Proof(NamedTuple):
    host: int
    challenge: bytes
    rest: bytes
    room: int


def whole(p: Proof) -> bytes:
    return p.challenge + p.rest


def brought(p: Proof, length: int) -> Proof:
    packet = stretched(length)(whole(p))
    return p._replace(challenge=packet[:16], rest=packet[16:])


PROOF = [
    *(Kind(4, "host %d" % n, lambda r, p, n=n: p._replace(host=n)) for n in (0, len(HOSTS) + 1, 256 + WAITING, 65535)),
    *(Kind(25, "%d bytes" % n, lambda r, p, n=n: brought(p, n)) for n in (0, 16, 31, 33)),
    Kind(26, "an idle host", lambda r, p: p._replace(host=IDLE)),
    Kind(26, "an open host", lambda r, p: p._replace(host=ACTOR)),
    Kind(27, "challenge 2, first bit", lambda r, p: p._replace(challenge=xor(p.challenge, 1 << 127))),
    Kind(27, "challenge 2, last bit", lambda r, p: p._replace(challenge=xor(p.challenge, 1))),
    Kind(7, "room of 19", lambda r, p: p._replace(room=19)),
    Kind(7, "no room", lambda r, p: p._replace(room=0)),
]


def good_proof(r: Recorder) -> Proof:
    return Proof(WAITING, r.host(WAITING).record.challenge, r.noise(16), r.rng.choice((20, 21, 40)))


def do_proof(r: Recorder, p: Proof) -> Tuple:
    return p.host, whole(p), p.room


# ---- the reply

class Reply(NamedTuple):
    host: int
    sequence: int
    payload: int
    short: int          # how much the room is too short; below 0, too long


REPLY = [
    *(Kind(4, "host %d" % n, lambda r, y, n=n: y._replace(host=n)) for n in (0, len(HOSTS) + 1, 256 + ACTOR, 65535)),
    Kind(6, "an idle host", lambda r, y: y._replace(host=IDLE)),
    Kind(6, "a waiting host", lambda r, y: y._replace(host=WAITING)),
    Kind(29, "the number before", lambda r, y: y._replace(sequence=y.sequence - 1)),
    Kind(29, "the next number", lambda r, y: y._replace(sequence=y.sequence + 1)),
    Kind(29, "the number's low byte", lambda r, y: y._replace(sequence=y.sequence % 256)),
    Kind(29, "nothing owed", lambda r, y: y._replace(host=OTHER, sequence=r.host(OTHER).record.last)),
    Kind(30, "payload of 16385", lambda r, y: y._replace(payload=16385), True),
    Kind(7, "room one short", lambda r, y: y._replace(short=1)),
    Kind(7, "room of the payload alone", lambda r, y: y._replace(short=32)),
]


def good_reply(r: Recorder) -> Reply:
    return Reply(ACTOR, last(r), r.rng.randrange(40), r.rng.choice((0, -1, -9)))


def do_reply(r: Recorder, y: Reply) -> Tuple:
    return y.host, y.sequence, r.noise(y.payload), min(20000, 32 + y.payload - y.short)


# ---- close and revoke

CLOSE = [Kind(4, "host %d" % n, lambda r, c, n=n: (n,)) for n in (0, len(HOSTS) + 1, 256 + ACTOR, 65535)]
REVOKE = [
    *(Kind(14, "interface %d" % n, lambda r, c, n=n: (n, *c[1:])) for n in (0, len(INTERFACES) + 1, 257, 65535)),
    *(Kind(15, "entry %d" % n, lambda r, c, n=n: (c[0], n, c[2])) for n in (0, 5, 17, 257, 65535)),
]


def do_fields(r: Recorder, fields: Tuple) -> Tuple:
    return fields


# ---- the client's calls: their fields, of which byte strings are changed in length

def resized(place: int, length: int) -> Callable:
    return lambda r, c: (*c[:place], stretched(length)(c[place]), *c[place + 1:])


def put(place: int, value) -> Callable:
    return lambda r, c: (*c[:place], value, *c[place + 1:])


def full(r: Recorder, fields: Tuple) -> Tuple:
    """A capability of which no all-ones word is left."""
    data = fields[0]
    return (data[:2] + r.noise(32) + data[34:], *fields[1:])


ISSUE = [
    *(Kind(28, "secret of %d" % n, resized(0, n)) for n in (0, 15, 17, 64)),
    Kind(15, "ID 0", put(1, 0)),
    Kind(7, "room of 49", put(2, 49)),
    Kind(7, "no room", put(2, 0)),
]
NARROW = [
    *(Kind(28, "capability of %d" % n, resized(0, n)) for n in (0, 49, 51, 64)),
    Kind(32, "by an all-ones word", put(1, ONES)),
    Kind(31, "no all-ones word left", full),
    Kind(7, "room of 49", put(2, 49)),
    Kind(7, "no room", put(2, 0)),
]
SEAL = [
    *(Kind(28, "key of %d" % n, resized(0, n)) for n in (0, 15, 17, 64)),
    *(Kind(28, "vector of %d" % n, resized(1, n)) for n in (0, 11, 13, 64)),
    *(Kind(28, "capability of %d" % n, resized(2, n)) for n in (0, 49, 51, 64)),
    Kind(5, "vector byte 128", lambda r, c: put(1, bytes([128]) + c[1][1:])(r, c)),
    Kind(5, "vector byte 255", lambda r, c: put(1, bytes([255]) + c[1][1:])(r, c)),
    Kind(12, "number 0", put(4, 0)),
    Kind(30, "payload of 16385", lambda r, c: (*c[:8], bytes(16385), min(20000, c[9] + 16385 - len(c[8]))), True),
    Kind(7, "room one short", lambda r, c: (*c[:9], 95 + len(c[8]))),
    Kind(7, "no room", put(9, 0)),
]


def good_issue(r: Recorder) -> Tuple:
    return r.noise(16), r.rng.randrange(1, 65536), r.rng.choice((50, 51, 64))


def any_capability(r: Recorder) -> bytes:
    words = four([r.rng.getrandbits(64) for _ in range(r.rng.randrange(4))])
    return model.capability_bytes(model.Capability(r.rng.getrandbits(16), words, r.noise(16)))


def good_narrow(r: Recorder) -> Tuple:
    return any_capability(r), r.rng.getrandbits(64), r.rng.choice((50, 51, 64))


def good_seal(r: Recorder) -> Tuple:
    payload = r.noise(r.rng.randrange(40))
    return (r.noise(16), bytes([r.rng.randrange(128)]) + r.noise(11), any_capability(r), r.rng.getrandbits(16),
            r.rng.randrange(1, 65536), r.rng.getrandbits(16), r.rng.getrandbits(16), r.rng.getrandbits(8), payload,
            96 + len(payload) + r.rng.choice((0, 1, 8)))


class Opening(NamedTuple):
    """A reply to be opened."""
    key: bytes
    expected: int
    vector: bytes
    sequence: int
    length: int
    payload: bytes
    keep: int = 16                          # bytes of the key that are handed in
    short: int = 0
    damage: Tuple[Callable, ...] = ()


def vector_byte(place: int) -> Callable:
    return lambda r, o: o._replace(vector=xor(o.vector, 1 << 8 * (11 - place)))


def hurt(happens: Callable) -> Callable:
    return lambda r, o: o._replace(damage=o.damage + (happens,))


OPEN = [
    *(Kind(28, "key of %d" % n, lambda r, o, n=n: o._replace(keep=n)) for n in (0, 15, 17, 64)),
    *(Kind(1, "%d bytes" % n, hurt(stretched(n))) for n in (0, 12, 28, 31)),
    Kind(2, "16417 bytes", hurt(stretched(16417)), True),
    Kind(2, "20000 bytes", hurt(stretched(20000)), True),
    *(Kind(5, "vector byte %d" % n, vector_byte(n)) for n in (0, 1, 2, 3, 4, 11)),
    Kind(7, "room one short", lambda r, o: o._replace(short=1)),
    Kind(8, "the tag's first bit", hurt(flipped(8 * 12))),
    Kind(8, "the tag's last bit", hurt(flipped(8 * 28 - 1))),
    Kind(8, "a bit of the text", lambda r, o: hurt(flipped(8 * 28 + r.rng.randrange(32)))(r, o)),
    Kind(8, "another key", lambda r, o: o._replace(key=xor(o.key, 1))),
    Kind(11, "length one more", lambda r, o: o._replace(length=len(o.payload) + 1)),
    Kind(11, "length one less", lambda r, o: o._replace(length=len(o.payload) - 1)),
    Kind(11, "length with a high byte", lambda r, o: o._replace(length=len(o.payload) + 256)),
    Kind(12, "the next number inside", lambda r, o: o._replace(sequence=(o.expected + 1) % 65536)),
    Kind(12, "another high byte inside", lambda r, o: o._replace(sequence=o.expected ^ 256)),
]
THE_KEY = b"a key of a reply"


def good_opening(r: Recorder) -> Opening:
    expected = r.rng.choice((0, 1, 255, 256, 65535, r.rng.getrandbits(16)))
    payload = r.noise(r.rng.randrange(1, 40))
    return Opening(THE_KEY, expected, model.reply_vector(expected), expected, len(payload), payload)


def do_open(r: Recorder, o: Opening) -> Tuple:
    plain = model.sixteen(o.sequence) + model.sixteen(o.length) + o.payload
    text, tag = model.gcm.seal(model.Work().under(o.key), o.vector, b"", plain)
    packet = o.vector + tag + text
    for happens in o.damage:
        packet = happens(packet)
    return stretched(o.keep)(THE_KEY), o.expected, packet, max(0, len(o.payload) - o.short)


# ---- trying them

class Trial(NamedTuple):
    """A call with its kinds of fault: a good description, and the fields that a description gives."""
    name: str
    kinds: List[Kind]
    good: Callable
    fields: Callable


TRIALS = [
    Trial("request", REQUEST, good_request, do_request),
    Trial("proof", PROOF, good_proof, do_proof),
    Trial("command", COMMAND, good_ask, do_command),
    Trial("reply", REPLY, good_reply, do_reply),
    Trial("close", CLOSE, lambda r: (OTHER,), do_fields),
    Trial("revoke", REVOKE, lambda r: (1, 2, r.rng.getrandbits(64)), do_fields),
    Trial("issue", ISSUE, good_issue, do_fields),
    Trial("narrow", NARROW, good_narrow, do_fields),
    Trial("seal", SEAL, good_seal, do_fields),
    Trial("open", OPEN, good_opening, do_open),
]
BY_NAME = {trial.name: trial for trial in TRIALS}


def pairs(trial: Trial) -> Iterator[Tuple[Kind, Kind]]:
    """Kinds of two numbers, the one that is judged first in front. A heavy kind meets the first kind of each number."""
    order = list(document.ORDER[trial.name])
    firsts = {}
    for kind in trial.kinds:
        firsts.setdefault(kind.number, kind)
    for early in trial.kinds:
        for late in trial.kinds:
            if order.index(early.number) < order.index(late.number):
                if not (early.heavy or late.heavy) or early is firsts[early.number] and late is firsts[late.number]:
                    yield early, late


def attempt(r: Recorder, trial: Trial, *kinds: Kind) -> None:
    """A call with these faults, the first of which is judged first."""
    made = trial.good(r)
    for kind in reversed(kinds):
        made = kind.spoil(r, made)
    r.claim(kinds[0].number, " and ".join(kind.what for kind in kinds), trial.name, *trial.fields(r, made))


def accept(r: Recorder, trial: Trial) -> model.Answer:
    """The same call without a fault."""
    return r.claim(0, "good", trial.name, *trial.fields(r, trial.good(r)))


def try_trial(r: Recorder, trial: Trial, every: int = 8) -> None:
    """All kinds alone, each followed by a look at the state; then pairs; then the good call, which has to be accepted still."""
    r.note("faults of %s, alone" % trial.name)
    prepare(r)
    for kind in trial.kinds:
        attempt(r, trial, kind)
        r.dump()
    r.note("faults of %s, in pairs" % trial.name)
    for count, (early, late) in enumerate(pairs(trial)):
        attempt(r, trial, early, late)
        if count % every == 0:
            r.dump()
    accept(r, trial)
    r.dump()


def unclaimed() -> List[str]:
    """The refusals, but for 39 and the book's, for which there is no kind of fault."""
    return ["%s %d" % (trial.name, number) for trial in TRIALS for number in document.ORDER[trial.name]
            if number != 39 and number not in {kind.number for kind in trial.kinds}]
