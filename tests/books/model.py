"""The book of document 01 by a second program: judged, read, listed and built.

It renders the section "The book", the book's part of "Numbers of refusal" and the listing at the end of "Samples", and shares
nothing with the project's own code. The checks stand in the document's order, one `need` a check, and the first that fails
ends the judging. All numbers are little-endian. Offsets count from the book's first byte.
"""
import struct
from typing import List, NamedTuple, Optional, Sequence, Tuple

FORMAT = 1
HOST, INTERFACE = 1, 2

HEAD = 8                 # format (2), rows (2), total length (4)
ROW = 12                 # kind (2), id (2), start (4), length (4)
HOST_FIXED = 2           # group
INTERFACE_FIXED = 20     # master secret (16), command count (2), entry count (2)
ENTRY = 10               # group (2), permitted word (8)
COMMANDS_AT = 16         # in an interface's body
ENTRIES_AT = 18

HOSTS_MOST = 32
INTERFACES_MOST = 8
ROWS_MOST = 40
NAME_MOST = 256
COMMANDS_MOST = 64
ENTRIES_MOST = 16
BOOK_MOST = 12232

HOST_LENGTHS = (3, 258)
INTERFACE_LENGTHS = (31, 436)

LETTERS = frozenset(b"ABCDEFGHIJKLMNOPQRSTUVWXYZabcdefghijklmnopqrstuvwxyz0123456789-_+./")
SPACE = 0x20


class Host(NamedTuple):
    group: int
    name: bytes


class Entry(NamedTuple):
    group: int
    word: int


class Interface(NamedTuple):
    secret: bytes
    commands: int
    entries: Sequence[Entry]
    name: bytes


class Contents(NamedTuple):
    """What a good book says. Ids are the places in the lists, counted from 1."""
    hosts: Sequence[Host]
    interfaces: Sequence[Interface]


class Row(NamedTuple):
    kind: int
    id: int
    start: int
    length: int


class Refused(Exception):
    def __init__(self, number: int, offset: int):
        super().__init__(number, offset)
        self.number, self.offset = number, offset


def need(holds: bool, number: int, offset: int) -> None:
    if not holds:
        raise Refused(number, offset)


def u16(book: bytes, at: int) -> int:
    return struct.unpack_from("<H", book, at)[0]


def u32(book: bytes, at: int) -> int:
    return struct.unpack_from("<I", book, at)[0]


def u64(book: bytes, at: int) -> int:
    return struct.unpack_from("<Q", book, at)[0]


# ---- judging

def row_at(index: int) -> int:
    """The offset of the row of that index, which counts from 0."""
    return HEAD + ROW * index


def check_head(book: bytes) -> int:
    """40 to 42; the number of rows."""
    need(HEAD <= len(book) <= BOOK_MOST, 40, 0)
    need(u32(book, 4) == len(book), 40, 4)
    need(u16(book, 0) == FORMAT, 41, 0)
    rows = u16(book, 2)
    need(1 <= rows <= ROWS_MOST and row_at(rows) <= len(book), 42, 2)
    return rows


def may_follow(kind: int, hosts: int, interfaces: int) -> bool:
    """Whether a row of that kind may come after so many hosts and interfaces: hosts first, 1 to 32, then 0 to 8 interfaces."""
    if kind == HOST:
        return interfaces == 0 and hosts < HOSTS_MOST
    if kind == INTERFACE:
        return hosts > 0 and interfaces < INTERFACES_MOST
    return False


def lengths(kind: int) -> Tuple[int, int]:
    return HOST_LENGTHS if kind == HOST else INTERFACE_LENGTHS


def check_row(at: int, row: Row, before: List[Row], begins: int, last: bool, total: int) -> None:
    """43 and 44 of one row at offset `at`, whose body has to start at `begins`."""
    hosts = sum(r.kind == HOST for r in before)
    interfaces = len(before) - hosts
    need(may_follow(row.kind, hosts, interfaces), 43, at)
    need(row.id == (hosts if row.kind == HOST else interfaces) + 1, 43, at + 2)
    need(row.start == begins, 44, at + 4)
    least, most = lengths(row.kind)
    ends = row.start + row.length
    need(least <= row.length <= most and ends <= total and (not last or ends == total), 44, at + 8)


def check_rows(book: bytes, count: int) -> List[Row]:
    rows: List[Row] = []
    begins = row_at(count)
    for index in range(count):
        at = row_at(index)
        row = Row(*struct.unpack_from("<HHII", book, at))
        check_row(at, row, rows, begins, index == count - 1, len(book))
        rows.append(row)
        begins = row.start + row.length
    return rows


def first_bad_letter(name: bytes) -> Optional[int]:
    last = len(name) - 1
    for place, letter in enumerate(name):
        if letter not in LETTERS and not (letter == SPACE and 0 < place < last):
            return place
    return None


def used_before(name: bytes, earlier: Sequence[bytes]) -> bool:
    return name in earlier


def check_name(name: bytes, at: int, earlier: Sequence[bytes]) -> None:
    """47 and 48 of the name that stands at `at`; `earlier` are the names before it in its kind."""
    bad = first_bad_letter(name)
    need(bad is None, 47, at + (bad or 0))
    need(not used_before(name, earlier), 48, at)


def within(word: int, commands: int) -> bool:
    """Whether the word has no bit at or above the command count."""
    return word < 1 << commands


def check_host(book: bytes, row: Row, earlier: Sequence[bytes]) -> Host:
    at = row.start + HOST_FIXED
    host = Host(u16(book, row.start), book[at:row.start + row.length])
    check_name(host.name, at, earlier)
    return host


def check_interface(book: bytes, row: Row, earlier: Sequence[bytes]) -> Interface:
    """45 to 48 of one interface's body."""
    commands = u16(book, row.start + COMMANDS_AT)
    need(1 <= commands <= COMMANDS_MOST, 45, row.start + COMMANDS_AT)
    count = u16(book, row.start + ENTRIES_AT)
    name_length = row.length - INTERFACE_FIXED - ENTRY * count
    need(1 <= count <= ENTRIES_MOST and 1 <= name_length <= NAME_MOST, 45, row.start + ENTRIES_AT)
    entries = []
    for index in range(count):
        at = row.start + INTERFACE_FIXED + ENTRY * index
        entry = Entry(u16(book, at), u64(book, at + 2))
        need(within(entry.word, commands), 46, at + 2)
        entries.append(entry)
    at = row.start + INTERFACE_FIXED + ENTRY * count
    name = book[at:at + name_length]
    check_name(name, at, earlier)
    return Interface(book[row.start:row.start + 16], commands, tuple(entries), name)


def check_bodies(book: bytes, rows: Sequence[Row]) -> Contents:
    hosts: List[Host] = []
    interfaces: List[Interface] = []
    for row in rows:
        if row.kind == HOST:
            hosts.append(check_host(book, row, [h.name for h in hosts]))
        else:
            interfaces.append(check_interface(book, row, [i.name for i in interfaces]))
    return Contents(tuple(hosts), tuple(interfaces))


def read(book: bytes) -> Contents:
    """What the book says; raises Refused at its first fault."""
    return check_bodies(book, check_rows(book, check_head(book)))


def load(book: bytes) -> Tuple[Tuple[int, int], Contents]:
    """The verdict, (0, 0) or number and offset of the first fault, and what the book says: nothing, if it is refused."""
    try:
        return (0, 0), read(book)
    except Refused as fault:
        return (fault.number, fault.offset), Contents((), ())


def judge(book: bytes) -> Tuple[int, int]:
    return load(book)[0]


def contents(book: bytes) -> Contents:
    return load(book)[1]


# ---- listing

def list_contents(said: Contents) -> bytes:
    lines = [b"hosts %d interfaces %d" % (len(said.hosts), len(said.interfaces))]
    for id, host in enumerate(said.hosts, 1):
        lines.append(b"host %d group %d %s" % (id, host.group, host.name))
    for id, face in enumerate(said.interfaces, 1):
        lines.append(b"interface %d commands %d entries %d %s" % (id, face.commands, len(face.entries), face.name))
    return b"".join(line + b"\n" for line in lines)


def list_refused(number: int, offset: int) -> bytes:
    return b"refused %d at %d\n" % (number, offset)


def listed(verdict: Tuple[int, int], said: Contents) -> bytes:
    return list_contents(said) if verdict == (0, 0) else list_refused(*verdict)


def listing(book: bytes) -> bytes:
    """What `list_book` prints for that standard input."""
    return listed(*load(book))


# ---- building. Nothing here judges, so that a faulty book is built as readily as a good one.

def host_body(host: Host) -> bytes:
    return struct.pack("<H", host.group) + host.name


def interface_body(face: Interface) -> bytes:
    entries = b"".join(struct.pack("<HQ", e.group, e.word) for e in face.entries)
    return face.secret + struct.pack("<HH", face.commands, len(face.entries)) + entries + face.name


def laid(kinds: Sequence[int], bodies: Sequence[bytes]) -> List[Row]:
    """The right rows for bodies that follow each other without gaps."""
    rows, counts, start = [], {HOST: 0, INTERFACE: 0}, row_at(len(bodies))
    for kind, body in zip(kinds, bodies):
        counts[kind] += 1
        rows.append(Row(kind, counts[kind], start, len(body)))
        start += len(body)
    return rows


def assemble(rows: Sequence[Row], rest: bytes) -> bytes:
    """A book of these rows, with the head that is right for them; `rest` is all that follows the rows."""
    total = row_at(len(rows)) + len(rest)
    return struct.pack("<HHI", FORMAT, len(rows), total) + b"".join(struct.pack("<HHII", *row) for row in rows) + rest


def build(hosts: Sequence[Host], interfaces: Sequence[Interface]) -> bytes:
    kinds = [HOST] * len(hosts) + [INTERFACE] * len(interfaces)
    bodies = [host_body(h) for h in hosts] + [interface_body(i) for i in interfaces]
    return assemble(laid(kinds, bodies), b"".join(bodies))
