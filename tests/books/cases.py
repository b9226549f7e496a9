"""The books of a run: all that a seed gives, each with what is known of it beforehand."""
import random
import struct
from typing import Callable, Dict, Iterator, List, NamedTuple, Optional, Sequence, Tuple

import faults
from faults import Fault, Ground
from model import (BOOK_MOST, COMMANDS_MOST, ENTRIES_MOST, HEAD, HOSTS_MOST, INTERFACES_MOST, LETTERS, NAME_MOST, SPACE, Entry,
                   Host, Interface, build, row_at)

SAMPLE = bytes.fromhex("0100010017000000010001001400000003000000000061")   # document 01, "Samples"
ALPHABET = bytes(sorted(LETTERS))
FULL = 20000                                                               # books of a whole run, at the least


class Case(NamedTuple):
    family: str
    kind: str                                   # what is wrong with it, or what it tries
    book: bytes
    claim: Optional[Tuple[int, int]] = None     # number and offset, known without judging the book
    pieces: int = 1                             # lent to a program in so many pieces


GOOD = (0, 0)


# ---- good contents

def name(rng: random.Random, length: int) -> bytes:
    letters = bytearray(rng.choices(ALPHABET, k=length))
    if length > 2 and rng.random() < 0.5:
        letters[rng.randrange(1, length - 1)] = SPACE
    return bytes(letters)


def names(rng: random.Random, count: int, length: Callable[[], int]) -> List[bytes]:
    found: List[bytes] = []
    while len(found) < count:
        candidate = name(rng, length())
        if candidate not in found:
            found.append(candidate)
    return found


def group(rng: random.Random) -> int:
    return rng.choice((0, 0, 1, 2, 255, 256, 65535, rng.randrange(65536)))


def word(rng: random.Random, commands: int) -> int:
    """A permitted word: often the highest bit alone, or all."""
    return rng.choice((0, 1, 1 << (commands - 1), (1 << commands) - 1, rng.getrandbits(commands)))


def interface(rng: random.Random, called: bytes, commands: int, entries: int) -> Interface:
    return Interface(rng.randbytes(16), commands, tuple(Entry(group(rng), word(rng, commands)) for _ in range(entries)), called)


class Shape(NamedTuple):
    """How contents are drawn."""
    hosts: Sequence[int]
    interfaces: Sequence[int]
    lengths: Sequence[int]
    commands: Sequence[int]
    entries: Sequence[int]


ANY = Shape(range(1, HOSTS_MOST + 1), range(INTERFACES_MOST + 1), (1, 2, 3, 5, 8, 13, 64, 255, 256),
            (1, 2, 8, 31, 32, 33, 34, 40, 63, 64), (1, 2, 3, 15, 16))
SMALL = Shape((1, 2, 3, 4), (0, 1, 2, 3), (1, 2, 3, 4, 5), (1, 2, 8, 33, 40, 63, 64), (1, 2, 3))
LIMITS = Shape((1, HOSTS_MOST), (0, INTERFACES_MOST), (1, NAME_MOST), (1, COMMANDS_MOST), (1, ENTRIES_MOST))
LARGEST = Shape((HOSTS_MOST,), (INTERFACES_MOST,), (NAME_MOST,), (1, 33, COMMANDS_MOST), (ENTRIES_MOST,))


def drawn(rng: random.Random, shape: Shape) -> Tuple[List[Host], List[Interface]]:
    one_length = rng.choice(shape.lengths) if rng.random() < 0.5 else None
    length = lambda: one_length or rng.choice(shape.lengths)
    hosts = [Host(group(rng), n) for n in names(rng, rng.choice(shape.hosts), length)]
    faces = [interface(rng, n, rng.choice(shape.commands), rng.choice(shape.entries))
             for n in names(rng, rng.choice(shape.interfaces), length)]
    return hosts, faces


def drawn_book(rng: random.Random, shape: Shape) -> bytes:
    return build(*drawn(rng, shape))


def small_book(rng: random.Random) -> bytes:
    """Two hosts and two interfaces."""
    return drawn_book(rng, SMALL._replace(hosts=(2,), interfaces=(2,), entries=(1, 2)))


# ---- good books

def samples(rng: random.Random, scale: float) -> Iterator[Case]:
    yield Case("samples", "document 01, good", SAMPLE, GOOD)
    yield Case("samples", "document 01, space", SAMPLE[:-1] + b" ", (47, 22))


def limits(rng: random.Random, scale: float) -> Iterator[Case]:
    """Good books at every limit, each field at its least and most, and one beside it."""
    for shape, count in ((LIMITS, 200), (LARGEST, 30), (ANY, 500), (SMALL, 300)):
        for _ in range(int(count * scale) + 12):
            yield Case("limits", "good", drawn_book(rng, shape), GOOD)
    for shape in (LIMITS, ANY):
        for part in shape._fields:
            for value in getattr(shape, part):
                yield Case("limits", "good", drawn_book(rng, SMALL._replace(**{part: (value,)})), GOOD)


def near_names(rng: random.Random, scale: float) -> Iterator[Case]:
    """Names that are nearly equal are different names; the same name in two kinds is good; an equal one is not."""
    for length in (1, 2, 3, 32, 254, 255):
        base = name(rng, length)
        for other in (base + b"a", base + b"0", base.swapcase() + b"x", base[:-1] + (b"y" if base[-1:] != b"y" else b"z")):
            for pair in ((base, other), (other, base)):
                hosts = [Host(0, n) for n in pair]
                faces = [interface(rng, n, 8, 1) for n in pair]
                yield Case("names", "nearly equal hosts", build(hosts, []), GOOD)
                yield Case("names", "nearly equal interfaces", build(hosts[:1], faces), GOOD)
                yield Case("names", "equal across kinds", build(hosts, faces), GOOD)
    for length in (1, 2, 3, 4, 5, 16, 17, 255, 256):
        for count in (2, 3, INTERFACES_MOST, HOSTS_MOST):
            yield from used_twice(rng, length, count)


def used_twice(rng: random.Random, length: int, count: int) -> Iterator[Case]:
    """The last of `count` names is that of an earlier one."""
    called = names(rng, count - 1, lambda: length)
    for twin in {0, count - 2, rng.randrange(count - 1)}:
        hosts = [Host(group(rng), n) for n in called + [called[twin]]]
        book = build(hosts, [])
        yield Case("names", "host name used before", book, (48, len(book) - length))
        if count <= INTERFACES_MOST:
            book = build(hosts[:1], [interface(rng, h.name, 40, 2) for h in hosts])
            yield Case("names", "interface name used before", book, (48, len(book) - length))


def letters(rng: random.Random, scale: float) -> Iterator[Case]:
    """Every byte as the first, an inner and the last letter of a host's and an interface's name, and alone."""
    step = 1 if scale >= 1 else 5
    for letter in sorted({*range(rng.randrange(step), 256, step), *b"@A`a[Zz{/0:9-_+., \x7f\x80", 0, 255}):
        for length, place in ((1, 0), (3, 0), (3, 1), (3, 2)):
            called = bytearray(b"x" * length)
            called[place] = letter
            hosts, faces = [Host(0, b"first"), Host(7, bytes(called))], [interface(rng, bytes(called), 8, 1)]
            fine = letter in LETTERS or (letter == SPACE and place == 1)
            yield Case("letters", "letter %d of %d" % (place + 1, length), build(hosts, []),
                       GOOD if fine else (47, row_at(2) + 7 + 2 + place))
            yield Case("letters", "letter %d of %d" % (place + 1, length), build(hosts[:1], faces),
                       GOOD if fine else (47, row_at(2) + 7 + 30 + place))


# ---- faults

def grounds(rng: random.Random, scale: float) -> Iterator[Ground]:
    """Good books of many shapes to lay faults over."""
    several = SMALL._replace(hosts=(2, 3, 4), interfaces=(2, 3))
    short = [several, SMALL, several._replace(entries=(15, 16), lengths=(1, 255, 256)), ANY._replace(lengths=(1, 2, 5))]
    for shape in short * max(1, round(5 * scale)):
        yield faults.good_ground(*drawn(rng, shape))
    one_letter = several._replace(lengths=(1,), commands=(40,))
    for shape in (LARGEST, several._replace(hosts=(HOSTS_MOST,), interfaces=(1,)), SMALL._replace(hosts=(1,), interfaces=(0,)),
                  one_letter, several._replace(lengths=(3,), commands=(8,))):
        yield faults.good_ground(*drawn(rng, shape))


def faulty(rng: random.Random) -> Iterator[Ground]:
    hosts = [Host(group(rng), n) for n in names(rng, HOSTS_MOST + 1, lambda: rng.choice((3, 4, 9)))]
    faces = [interface(rng, n, rng.choice((8, 40)), rng.choice((1, 2))) for n in names(rng, INTERFACES_MOST + 1, lambda: 5)]
    return faults.faulty_grounds(hosts, faces, rng)


def claim(fault: Fault) -> Tuple[int, int]:
    return fault.number, fault.offset


def alone(rng: random.Random, scale: float) -> Iterator[Case]:
    for ground in faulty(rng):
        yield Case("alone", ground.fault.kind, ground.book, claim(ground.fault))
    for ground in grounds(rng, scale):
        for fault in faults.faults_over(ground, rng, 2):
            yield Case("alone", fault.kind, faults.lay(ground, [fault], rng), claim(fault))


def pair(ground: Ground, one: Fault, other: Fault, rng: random.Random) -> Case:
    """Both faults over the ground (or the ground's own and one laid over it): the earlier one is claimed."""
    over = [fault for fault in (one, other) if fault is not ground.fault]
    first = min(one, other, key=lambda fault: fault.order)
    steady = one.steady and other.steady
    return Case("pairs", one.kind + " and " + other.kind, faults.lay(ground, over, rng), claim(first) if steady else None)


def some_pairs(ground: Ground, count: int, rng: random.Random) -> Iterator[Case]:
    found = faults.faults_over(ground, rng, 3)
    while count > 0:
        one, other = ground.fault or rng.choice(found), rng.choice(found)
        count -= 1
        if faults.go_together(one, other):
            yield pair(ground, one, other, rng)


def neighbours(ground: Ground, rng: random.Random) -> Iterator[Case]:
    """Faults of one row or one body whose numbers differ: each such pair of numbers and checks once."""
    seen = set()
    found = faults.faults_over(ground, rng, 1)
    rng.shuffle(found)
    for one in found:
        for other in found:
            checks = (one.order[:3], other.order[:3])
            if one.order < other.order and checks not in seen and faults.go_together(one, other):
                seen.add(checks)
                yield pair(ground, one, other, rng)


def pairs(rng: random.Random, scale: float) -> Iterator[Case]:
    for ground in faulty(rng):
        yield from some_pairs(ground, max(6, round(40 * scale)), rng)
    for ground in grounds(rng, scale):
        yield from some_pairs(ground, max(10, round(160 * scale)), rng)
    yield from neighbours(faults.good_ground(*drawn(rng, SMALL._replace(hosts=(2,), interfaces=(2,)))), rng)


# ---- damaged books

def put_right(book: bytes) -> bytes:
    """The book with its total set to its length."""
    return book[:4] + struct.pack("<I", len(book)) + book[HEAD:]


def cuts(rng: random.Random, scale: float) -> Iterator[Case]:
    small = [SAMPLE] + [small_book(rng) for _ in range(max(1, round(4 * scale)))]
    for book in small:
        for length in range(len(book)):
            yield Case("cuts", "cut", book[:length], (40, 0 if length < HEAD else 4))
            if length >= HEAD:
                yield Case("cuts", "cut, total right", put_right(book[:length]))
        for more in (1, 2, 12, 30):
            yield Case("cuts", "lengthened", book + bytes(more), (40, 4))
            yield Case("cuts", "lengthened, total right", put_right(book + bytes(more)))
    for _ in range(int(200 * scale) + 10):
        book = drawn_book(rng, ANY)
        yield Case("cuts", "cut, total right", put_right(book[:rng.randrange(HEAD, len(book))]))


def changed(book: bytes, at: int, value: int) -> bytes:
    return book[:at] + bytes([value]) + book[at + 1:]


def bytes_changed(rng: random.Random, scale: float) -> Iterator[Case]:
    values = range(256) if scale >= 1 else (0, 1, 2, 32, 64, 97, 255)
    for at, old in enumerate(SAMPLE):
        for value in values:
            if value != old:
                yield Case("changed", "sample, one byte", changed(SAMPLE, at, value))
    for _ in range(max(1, round(4 * scale))):
        book = small_book(rng)
        for at, old in enumerate(book):
            for value in {old ^ 1 << rng.randrange(8), (old + 1) % 256, (old - 1) % 256, rng.randrange(256)} - {old}:
                yield Case("changed", "small book, one byte", changed(book, at, value))
    for _ in range(int(2000 * scale) + 50):
        book = drawn_book(rng, ANY)
        at = rng.randrange(rng.choice((len(book), book[2] * 12 + HEAD)))
        yield Case("changed", "one byte", changed(book, at, rng.randrange(256)))


def garbage(rng: random.Random, scale: float) -> Iterator[Case]:
    yield Case("garbage", "empty", b"", (40, 0))
    for _ in range(int(150 * scale) + 20):
        yield Case("garbage", "random", rng.randbytes(rng.choice((rng.randrange(64), rng.randrange(20001)))))
        yield Case("garbage", "random, total right", put_right(rng.randbytes(rng.randrange(HEAD, 2000))))
        rows = rng.randrange(1, 5)
        head = struct.pack("<HHI", 1, rows, 0)
        yield Case("garbage", "random after the head", put_right(head + rng.randbytes(rng.randrange(12 * rows, 600))))
        book = drawn_book(rng, SMALL)
        first = row_at(book[2])
        yield Case("garbage", "random after the rows", book[:first] + rng.randbytes(len(book) - first))


def sizes(rng: random.Random, scale: float) -> Iterator[Case]:
    """What is too long must not be taken for its beginning."""
    largest, small = drawn_book(rng, LARGEST), small_book(rng)
    yield Case("sizes", "12,232 bytes", largest, GOOD)
    for length in (BOOK_MOST + 1, BOOK_MOST + 2, 12288, 16384, 16385, 20000):
        for book in (largest, small, b""):
            longer = book + rng.choice((b"\0", b"a")) * (length - len(book))
            yield Case("sizes", "above 12,232 bytes", longer, (40, 0))
            yield Case("sizes", "above 12,232 bytes", put_right(longer), (40, 0))
    for length in (BOOK_MOST - 1, BOOK_MOST):
        yield Case("sizes", "lengthened", small + bytes(length - len(small)), (40, 4))
        yield Case("sizes", "lengthened, total right", put_right(small + bytes(length - len(small))))


def in_pieces(rng: random.Random, scale: float) -> Iterator[Case]:
    """Standard input that comes in several pieces is one book."""
    for shape in (LARGEST, ANY, SMALL) * max(1, round(8 * scale)):
        yield Case("pieces", "good", drawn_book(rng, shape), GOOD, rng.choice((2, 3, 7)))
    for book in (SAMPLE, small_book(rng)):
        yield Case("pieces", "byte by byte", book, GOOD, len(book))
    for length in (BOOK_MOST + 1, 20000, 100000):
        for count in (2, 5):
            yield Case("pieces", "above 12,232 bytes", drawn_book(rng, LARGEST) + bytes(length - BOOK_MOST), (40, 0), count)


FAMILIES: Dict[str, Callable[[random.Random, float], Iterator[Case]]] = {
    "samples": samples, "limits": limits, "names": near_names, "letters": letters, "alone": alone, "pairs": pairs, "cuts": cuts,
    "changed": bytes_changed, "garbage": garbage, "sizes": sizes, "pieces": in_pieces,
}


def cases(seed: int, books: int, only: Optional[str] = None) -> List[Case]:
    """About `books` cases, or those of one family. Each family draws from its own stream, so one can be made again alone."""
    scale = books / FULL
    chosen = [only] if only else list(FAMILIES)
    return [case for family in chosen for case in FAMILIES[family](random.Random("%d %s" % (seed, family)), scale)]
