"""Faults of a book: how each is made, and the number and place that document 01 gives it.

A fault is laid over the bytes of a good book (its ground), or a ground is built around one (`faulty_grounds`). Each names the
place of its check in the document's order, so that of two faults in one book the earlier is known without judging the book.
"""
import random
import struct
from typing import Iterator, List, NamedTuple, Optional, Sequence, Tuple

from model import (BOOK_MOST, COMMANDS_AT, COMMANDS_MOST, ENTRIES_AT, ENTRIES_MOST, ENTRY, HEAD, HOST, HOST_FIXED, HOSTS_MOST,
                   INTERFACE, INTERFACE_FIXED, INTERFACES_MOST, LETTERS, NAME_MOST, ROWS_MOST, SPACE, Entry, Host, Interface,
                   Row, assemble, host_body, interface_body, laid, lengths, row_at, u16, u64)

# Every kind of fault with its number. A run has to meet each of them alone.
KINDS = {
    "below 8 bytes": 40,
    "above 12,232 bytes": 40,
    "total one less than the length": 40,
    "total one more than the length": 40,
    "total wrong in a high byte": 40,
    "total far off": 40,
    "cut": 40,
    "lengthened": 40,
    "format wrong": 41,
    "format wrong in its high byte": 41,
    "no rows": 42,
    "rows above 40": 42,
    "rows wrong in their high byte": 42,
    "rows past the end": 42,
    "rows past the end by cutting": 42,
    "kind 0": 43,
    "kind 3": 43,
    "kind wrong in its high byte": 43,
    "first row an interface": 43,
    "host after an interface": 43,
    "host 33": 43,
    "interface 9": 43,
    "id 0": 43,
    "id one more": 43,
    "id one less": 43,
    "id wrong in its high byte": 43,
    "host called an interface": 43,
    "interface called a host": 43,
    "start one less": 44,
    "start one more": 44,
    "start 0": 44,
    "start wrong in a high byte": 44,
    "gap before the first body": 44,
    "gap between bodies": 44,
    "bodies overlap": 44,
    "one row fewer than there are": 44,
    "one row more than there are": 44,
    "length 0": 44,
    "length below its range": 44,
    "length above its range": 44,
    "length wrong in a high byte": 44,
    "length that wraps": 44,
    "length in range, past the total": 44,
    "length in range, next start wrong": 44,
    "length in range, last row ends early": 44,
    "host body of 2": 44,
    "host body of 259": 44,
    "interface body of 30": 44,
    "interface body of 437": 44,
    "rest after the last body": 44,
    "body cut, total right": 44,
    "rows without bodies": 44,
    "no commands": 45,
    "65 commands": 45,
    "commands wrong in their high byte": 45,
    "no entries": 45,
    "17 entries": 45,
    "entries wrong in their high byte": 45,
    "entries leave no name": 45,
    "entries past the body": 45,
    "name of 257": 45,
    "far too long a name": 45,
    "bit at the command count": 46,
    "bit above the command count": 46,
    "bit 63": 46,
    "command count at a permitted bit": 46,
    "bad first letter": 47,
    "bad letter inside": 47,
    "bad last letter": 47,
    "space first": 47,
    "space last": 47,
    "lone space": 47,
    "host name used before": 48,
    "interface name used before": 48,
}

Patch = Tuple[int, bytes]


class Fault(NamedTuple):
    kind: str
    number: int
    offset: int
    order: tuple                    # the place of its check in the document's order
    patches: Sequence[Patch] = ()   # bytes laid over the book
    size: Optional[int] = None      # then cut or filled to this length
    steady: bool = True             # a second fault beside it cannot move it to another check


class Ground(NamedTuple):
    """A book to lay faults over, with its rows and the fault that it was built around, if any."""
    book: bytes
    rows: Sequence[Row]
    fault: Optional[Fault] = None


# ---- the document's order: (stage, ..); stages 0 to 3 are the head, 4 the rows, 5 the bodies

SIZE_CHECK, TOTAL_CHECK, FORMAT_CHECK, ROWS_CHECK = (0,), (1,), (2,), (3,)
KIND_CHECK, ID_CHECK, START_CHECK, LENGTH_CHECK = 0, 1, 2, 3
ROW_CHECKS = ((43, 0), (43, 2), (44, 4), (44, 8))     # number and place within the row
COMMANDS_CHECK, ENTRIES_CHECK, WORD_CHECK, LETTER_CHECK, USED_CHECK = 0, 1, 2, 3, 4


def two(value: int) -> bytes:
    return struct.pack("<H", value % 2 ** 16)


def four(value: int) -> bytes:
    return struct.pack("<I", value % 2 ** 32)


def eight(value: int) -> bytes:
    return struct.pack("<Q", value)


def row_fault(kind: str, index: int, check: int, patches: Sequence[Patch] = (), **more) -> Fault:
    number, place = ROW_CHECKS[check]
    return Fault(kind, number, row_at(index) + place, (4, index, check), patches, **more)


def body_fault(kind: str, index: int, check: int, offset: int, patches: Sequence[Patch] = (), **more) -> Fault:
    number = (45, 45, 46, 47, 48)[check]
    return Fault(kind, number, offset, (5, index, check, offset), patches, **more)


# ---- the head

def size_faults(ground: Ground, rng: random.Random) -> Iterator[Fault]:
    length = len(ground.book)
    yield Fault("below 8 bytes", 40, 0, SIZE_CHECK, size=rng.randrange(8))
    for size in (BOOK_MOST + 1, rng.randrange(BOOK_MOST + 2, 20001)):
        yield Fault("above 12,232 bytes", 40, 0, SIZE_CHECK, size=size)
        yield Fault("above 12,232 bytes", 40, 0, SIZE_CHECK, [(4, four(size))], size)
    if length > 8:
        yield Fault("cut", 40, 4, TOTAL_CHECK, size=rng.randrange(8, length))
    if length < BOOK_MOST:
        yield Fault("lengthened", 40, 4, TOTAL_CHECK, size=rng.choice((length + 1, rng.randrange(length + 1, BOOK_MOST + 1))))


def head_faults(ground: Ground, rng: random.Random) -> Iterator[Fault]:
    length, count = len(ground.book), len(ground.rows)

    def total(kind: str, value: int) -> Fault:
        return Fault(kind, 40, 4, TOTAL_CHECK, [(4, four(value))])

    def format_(kind: str, value: int) -> Fault:
        return Fault(kind, 41, 0, FORMAT_CHECK, [(0, two(value))])

    def rows(kind: str, value: int) -> Fault:
        return Fault(kind, 42, 2, ROWS_CHECK, [(2, two(value))])

    yield total("total one less than the length", length - 1)
    yield total("total one more than the length", length + 1)
    yield total("total wrong in a high byte", length + rng.choice((2 ** 16, 2 ** 24, 2 ** 31)))
    yield total("total far off", rng.choice((0, 8, 2 ** 32 - 1)))
    for value in (0, 2, 65535):
        yield format_("format wrong", value)
    yield format_("format wrong in its high byte", rng.choice((257, 1 + 256 * rng.randrange(1, 256))))
    yield rows("no rows", 0)
    for value in (ROWS_MOST + 1, 65535):
        yield rows("rows above 40", value)
    yield rows("rows wrong in their high byte", count + 256)
    reach = (length - HEAD) // 12       # so many rows fit
    if reach < ROWS_MOST:
        yield rows("rows past the end", reach + 1)


def count_faults(ground: Ground, rng: random.Random) -> Iterator[Fault]:
    """Row counts that pass 42, and so show where the first body starts."""
    count = len(ground.rows)
    if count > 1:
        yield row_fault("one row fewer than there are", 0, START_CHECK, [(2, two(count - 1))])
    if count < ROWS_MOST and row_at(count + 1) <= len(ground.book):
        yield row_fault("one row more than there are", 0, START_CHECK, [(2, two(count + 1))])


def cut_faults(ground: Ground, rng: random.Random) -> Iterator[Fault]:
    """The end is missing and the total says so."""
    for size in {rng.randrange(8, len(ground.book)), row_at(len(ground.rows)), len(ground.book) - 1}:
        yield cut_fault(ground, size)


def cut_fault(ground: Ground, size: int) -> Fault:
    patches = [(4, four(size))]
    if row_at(len(ground.rows)) > size:
        return Fault("rows past the end by cutting", 42, 2, ROWS_CHECK, patches, size, steady=False)
    index = next(i for i, row in enumerate(ground.rows) if row.start + row.length > size)
    kind = "rows without bodies" if row_at(len(ground.rows)) == size else "body cut, total right"
    return row_fault(kind, index, LENGTH_CHECK, patches, size=size, steady=False)


# ---- rows

def kind_faults(ground: Ground, index: int, rng: random.Random) -> Iterator[Fault]:
    at, row = row_at(index), ground.rows[index]
    yield row_fault("kind 0", index, KIND_CHECK, [(at, two(0))])
    yield row_fault("kind 3", index, KIND_CHECK, [(at, two(3))])
    yield row_fault("kind wrong in its high byte", index, KIND_CHECK, [(at, two(row.kind + 256 * rng.randrange(1, 256)))])
    if ground.fault is not None:
        return
    hosts = sum(r.kind == HOST for r in ground.rows)
    other = [(at, two(INTERFACE if row.kind == HOST else HOST))]
    if index == 0:
        yield row_fault("first row an interface", index, KIND_CHECK, other)
    elif index < hosts:
        yield row_fault("host called an interface", index, ID_CHECK, other)
    elif index > hosts:
        yield row_fault("host after an interface", index, KIND_CHECK, other)
    elif hosts == HOSTS_MOST:
        yield row_fault("host 33", index, KIND_CHECK, other)
    else:
        yield row_fault("interface called a host", index, ID_CHECK, other)


def id_faults(ground: Ground, index: int, rng: random.Random) -> Iterator[Fault]:
    at, id = row_at(index) + 2, ground.rows[index].id
    yield row_fault("id 0", index, ID_CHECK, [(at, two(0))])
    yield row_fault("id one more", index, ID_CHECK, [(at, two(id + 1))])
    if id > 1:
        yield row_fault("id one less", index, ID_CHECK, [(at, two(id - 1))])
    yield row_fault("id wrong in its high byte", index, ID_CHECK, [(at, two(id + 256 * rng.randrange(1, 256)))])


def start_faults(ground: Ground, index: int, rng: random.Random) -> Iterator[Fault]:
    at, start = row_at(index) + 4, ground.rows[index].start
    high = rng.choice((2 ** 16, 2 ** 24, 2 ** 31))
    for kind, value in (("start one less", start - 1), ("start one more", start + 1), ("start 0", 0),
                        ("start wrong in a high byte", start + high)):
        yield row_fault(kind, index, START_CHECK, [(at, four(value))])


def length_faults(ground: Ground, index: int, rng: random.Random) -> Iterator[Fault]:
    at, row = row_at(index) + 8, ground.rows[index]
    least, most = lengths(row.kind)
    high = rng.choice((2 ** 16, 2 ** 24, 2 ** 31))
    for kind, value in (("length 0", 0), ("length below its range", least - 1), ("length above its range", most + 1),
                        ("length wrong in a high byte", row.length + high), ("length that wraps", 2 ** 32 - row.start),
                        ("length that wraps", 2 ** 32 - row.start + rng.randrange(row.start))):
        yield row_fault(kind, index, LENGTH_CHECK, [(at, four(value))])


def wrong_lengths(ground: Ground, index: int, rng: random.Random) -> Iterator[Fault]:
    """Lengths that are in range and wrong."""
    row = ground.rows[index]
    least, most = lengths(row.kind)
    for value in {least, most, row.length - 1, row.length + 1, rng.randint(least, most)}:
        if least <= value <= most and value != row.length:
            yield wrong_length(ground, index, value)


def wrong_length(ground: Ground, index: int, value: int) -> Fault:
    patches = [(row_at(index) + 8, four(value))]
    if ground.rows[index].start + value > len(ground.book):
        return row_fault("length in range, past the total", index, LENGTH_CHECK, patches, steady=False)
    if index == len(ground.rows) - 1:
        return row_fault("length in range, last row ends early", index, LENGTH_CHECK, patches, steady=False)
    return row_fault("length in range, next start wrong", index + 1, START_CHECK, patches, steady=False)


# ---- bodies

def count_in_body_faults(ground: Ground, index: int, rng: random.Random) -> Iterator[Fault]:
    """45 of an interface whose own counts are right."""
    start, length = ground.rows[index].start, ground.rows[index].length
    commands, entries = u16(ground.book, start + COMMANDS_AT), u16(ground.book, start + ENTRIES_AT)

    def fault(kind: str, check: int, value: int) -> Fault:
        at = start + (COMMANDS_AT, ENTRIES_AT)[check]
        return body_fault(kind, index, check, at, [(at, two(value))])

    yield fault("no commands", COMMANDS_CHECK, 0)
    yield fault("65 commands", COMMANDS_CHECK, COMMANDS_MOST + 1)
    yield fault("commands wrong in their high byte", COMMANDS_CHECK, commands + 256 * rng.randrange(1, 256))
    yield fault("no entries", ENTRIES_CHECK, 0)
    yield fault("17 entries", ENTRIES_CHECK, ENTRIES_MOST + 1)
    yield fault("entries wrong in their high byte", ENTRIES_CHECK, entries + 256 * rng.randrange(1, 256))
    for value in range(1, ENTRIES_MOST + 1):
        name = length - INTERFACE_FIXED - ENTRY * value
        if name == 0:
            yield fault("entries leave no name", ENTRIES_CHECK, value)
        elif name < 0 and value in (ENTRIES_MOST, entries + 1):
            yield fault("entries past the body", ENTRIES_CHECK, value)
        elif name > NAME_MOST and value in (1, entries - 1):
            yield fault("far too long a name", ENTRIES_CHECK, value)


def word_faults(ground: Ground, index: int, rng: random.Random) -> Iterator[Fault]:
    start = ground.rows[index].start
    commands, entries = u16(ground.book, start + COMMANDS_AT), u16(ground.book, start + ENTRIES_AT)
    words = [start + INTERFACE_FIXED + ENTRY * k + 2 for k in range(entries)]
    if commands < 64:
        for at in {words[0], words[-1], rng.choice(words)}:
            right = u64(ground.book, at)
            higher = rng.randrange(min(commands + 1, 63), 64)
            for kind, word in (("bit at the command count", 1 << commands), ("bit at the command count", right | 1 << commands),
                               ("bit above the command count", right | 1 << higher), ("bit 63", right | 1 << 63)):
                yield body_fault(kind, index, WORD_CHECK, at, [(at, eight(word))])
    highest = max(u64(ground.book, at).bit_length() for at in words) - 1
    if highest > 0:
        at = next(at for at in words if u64(ground.book, at) >> highest)
        yield body_fault("command count at a permitted bit", index, WORD_CHECK, at, [(start + COMMANDS_AT, two(highest))])


def name_of(ground: Ground, index: int) -> Tuple[int, int]:
    """Where the name of that body stands and how long it is."""
    row = ground.rows[index]
    fixed = HOST_FIXED
    if row.kind == INTERFACE:
        fixed = INTERFACE_FIXED + ENTRY * u16(ground.book, row.start + ENTRIES_AT)
    return row.start + fixed, row.length - fixed


BAD_LETTERS = [b for b in range(256) if b not in LETTERS and b != SPACE]


def bad_letter(rng: random.Random) -> int:
    return rng.choice(BAD_LETTERS)


def letter_faults(ground: Ground, index: int, rng: random.Random) -> Iterator[Fault]:
    at, length = name_of(ground, index)

    def fault(kind: str, place: int, letter: int) -> Fault:
        return body_fault(kind, index, LETTER_CHECK, at + place, [(at + place, bytes([letter]))])

    yield fault("bad first letter", 0, bad_letter(rng))
    if length == 1:
        yield fault("lone space", 0, SPACE)
        return
    yield fault("space first", 0, SPACE)
    yield fault("space last", length - 1, SPACE)
    yield fault("bad last letter", length - 1, bad_letter(rng))
    if length > 2:
        yield fault("bad letter inside", rng.randrange(1, length - 1), bad_letter(rng))


def used_faults(ground: Ground, index: int, rng: random.Random) -> Iterator[Fault]:
    """A name takes the bytes of an earlier one of the same kind and length."""
    at, length = name_of(ground, index)
    kind = ground.rows[index].kind
    same = [i for i in range(index) if ground.rows[i].kind == kind and name_of(ground, i)[1] == length]
    for i in sorted({same[0], same[-1]} if same else ()):
        earlier = name_of(ground, i)[0]
        yield body_fault("host name used before" if kind == HOST else "interface name used before",
                         index, USED_CHECK, at, [(at, ground.book[earlier:earlier + length])])


def body_faults(ground: Ground, index: int, rng: random.Random) -> List[Fault]:
    makers = [letter_faults, used_faults]
    if ground.rows[index].kind == INTERFACE:
        makers = [count_in_body_faults, word_faults] + makers
    return [fault for make in makers for fault in make(ground, index, rng)]


# ---- all of them

def faults_over(ground: Ground, rng: random.Random, places: int) -> List[Fault]:
    """Faults of every kind that the ground has room for, at the first and the last row of each kind and at `places` others."""
    indexes = range(len(ground.rows))
    hosts = sum(row.kind == HOST for row in ground.rows)
    edges = {0, hosts - 1, hosts, len(ground.rows) - 1} & set(indexes)
    chosen = edges | set(rng.sample(indexes, min(places, len(indexes))))
    found = [*size_faults(ground, rng), *head_faults(ground, rng)]
    if ground.fault is None:
        found += [*count_faults(ground, rng), *cut_faults(ground, rng)]
    for index in sorted(chosen):
        for make in (kind_faults, id_faults, start_faults, length_faults):
            found += make(ground, index, rng)
        if ground.fault is None:
            found += wrong_lengths(ground, index, rng)
        if ground.fault is None or ground.fault.order[1] != index:
            found += body_faults(ground, index, rng)
    return found


def lay(ground: Ground, faults: Sequence[Fault], rng: random.Random) -> bytes:
    book = bytearray(ground.book)
    for fault in faults:
        for at, value in fault.patches:
            book[at:at + len(value)] = value
    for fault in faults:
        if fault.size is not None:
            book = book[:fault.size] + rng.choice((b"\0", b"a")) * (fault.size - len(book))
    return bytes(book)


def touched(fault: Fault) -> set:
    return {at + k for at, value in fault.patches for k in range(len(value))}


def go_together(one: Fault, other: Fault) -> bool:
    """Whether both can be in a book: they change different bytes, and aren't found by the same check."""
    both_sized = one.size is not None and other.size is not None
    return one.order != other.order and not both_sized and not touched(one) & touched(other)


# ---- grounds

def good_ground(hosts: Sequence[Host], interfaces: Sequence[Interface]) -> Ground:
    kinds = [HOST] * len(hosts) + [INTERFACE] * len(interfaces)
    bodies = [host_body(h) for h in hosts] + [interface_body(i) for i in interfaces]
    rows = laid(kinds, bodies)
    return Ground(assemble(rows, b"".join(bodies)), rows)


def odd_ground(kinds: Sequence[int], bodies: Sequence[bytes], fault: Fault) -> Ground:
    """A book that is right but for the kinds' order, or for what the bodies hold."""
    rows = laid(kinds, bodies)
    return Ground(assemble(rows, b"".join(bodies)), rows, fault)


def moved_ground(good: Ground, index: int, by: int, fault: Fault) -> Ground:
    """The bodies from that index on stand `by` bytes later (or earlier, over the end of the body before)."""
    at = good.rows[index].start
    rows = [row._replace(start=row.start + by) if i >= index else row for i, row in enumerate(good.rows)]
    first = row_at(len(rows))
    rest = good.book[first:at] + bytes(by) if by > 0 else good.book[first:at + by]
    return Ground(assemble(rows, rest + good.book[at:]), rows, fault)


def with_name(face: Interface, count: int, name: bytes) -> Interface:
    return face._replace(entries=tuple(Entry(0, 1) for _ in range(count)), name=name)


def order_grounds(hosts: Sequence[Host], faces: Sequence[Interface]) -> Iterator[Ground]:
    """43 with everything else right. There are at least 33 hosts and 9 interfaces to take from."""
    h, f = [host_body(x) for x in hosts], [interface_body(x) for x in faces]
    for extra in (0, 1, 7):
        n = HOSTS_MOST + 1
        yield odd_ground([HOST] * n + [INTERFACE] * extra, h[:n] + f[:extra], row_fault("host 33", HOSTS_MOST, KIND_CHECK))
    for n in (1, 2, 31):
        m = INTERFACES_MOST + 1
        yield odd_ground([HOST] * n + [INTERFACE] * m, h[:n] + f[:m], row_fault("interface 9", n + m - 1, KIND_CHECK))
    yield odd_ground([INTERFACE], f[:1], row_fault("first row an interface", 0, KIND_CHECK))
    yield odd_ground([INTERFACE, HOST], f[:1] + h[:1], row_fault("first row an interface", 0, KIND_CHECK))
    for n, m in ((1, 1), (3, 2), (31, 8)):
        yield odd_ground([HOST] * n + [INTERFACE] * m + [HOST], h[:n] + f[:m] + h[n:n + 1],
                         row_fault("host after an interface", n + m, KIND_CHECK))


def length_grounds(hosts: Sequence[Host], faces: Sequence[Interface], index: int) -> Iterator[Ground]:
    """44 by a body that is too short or too long, all else right: 3 hosts and 3 interfaces, the odd one at `index` of its kind."""
    long = b"n" * (NAME_MOST + 1)
    for kind, place, body in (
            ("host body of 2", index, two(hosts[index].group)),
            ("host body of 259", index, host_body(hosts[index]._replace(name=long))),
            ("interface body of 30", 3 + index, interface_body(with_name(faces[index], 1, b""))),
            ("interface body of 437", 3 + index, interface_body(with_name(faces[index], ENTRIES_MOST, long)))):
        bodies = [host_body(x) for x in hosts[:3]] + [interface_body(x) for x in faces[:3]]
        bodies[place] = body
        yield odd_ground([HOST] * 3 + [INTERFACE] * 3, bodies, row_fault(kind, place, LENGTH_CHECK))


def start_grounds(good: Ground, rng: random.Random) -> Iterator[Ground]:
    """44 by bodies that don't follow each other."""
    last = len(good.rows) - 1
    index = rng.randrange(1, last + 1)
    by = rng.choice((1, 2, 300))
    yield moved_ground(good, 0, by, row_fault("gap before the first body", 0, START_CHECK))
    yield moved_ground(good, index, by, row_fault("gap between bodies", index, START_CHECK))
    yield moved_ground(good, index, -1, row_fault("bodies overlap", index, START_CHECK))
    yield Ground(assemble(good.rows, good.book[row_at(last + 1):] + bytes(by)), good.rows,
                 row_fault("rest after the last body", last, LENGTH_CHECK))


def entry_grounds(hosts: Sequence[Host], faces: Sequence[Interface], index: int) -> Iterator[Ground]:
    """45 by entries that leave no name or one above 256, in bodies whose length is in range."""
    for kind, face in (("entries leave no name", with_name(faces[index], 2, b"")),
                       ("entries leave no name", with_name(faces[index], ENTRIES_MOST, b"")),
                       ("name of 257", with_name(faces[index], 1, b"n" * (NAME_MOST + 1))),
                       ("name of 257", with_name(faces[index], ENTRIES_MOST - 1, b"n" * (NAME_MOST + 1)))):
        bodies = [host_body(x) for x in hosts[:2]] + [interface_body(x) for x in faces[:3]]
        bodies[2 + index] = interface_body(face)
        at = laid([HOST] * 2 + [INTERFACE] * 3, bodies)[2 + index].start + ENTRIES_AT
        yield odd_ground([HOST] * 2 + [INTERFACE] * 3, bodies, body_fault(kind, 2 + index, ENTRIES_CHECK, at))


def faulty_grounds(hosts: Sequence[Host], faces: Sequence[Interface], rng: random.Random) -> Iterator[Ground]:
    """Books built around one fault, out of 33 hosts and 9 interfaces."""
    yield from order_grounds(hosts, faces)
    for index in range(3):
        yield from length_grounds(hosts, faces, index)
        yield from entry_grounds(hosts, faces, index)
        yield from start_grounds(good_ground(hosts[:1 + index], faces[:1 + index]), rng)
