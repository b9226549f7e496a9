"""Traces, read and written (docs/TRACES.md): calls one after another, each an opcode and its fields."""
import struct
from typing import Iterator, NamedTuple, Sequence, Tuple

# Fields by call: a digit is a number of that many bytes, s a byte string, r a lent room (its length alone).
CALLS = {
    "load": (1, "s"),
    "request": (2, "ssr"),
    "proof": (3, "2sr"),
    "command": (4, "sr"),
    "reply": (5, "22sr"),
    "close": (6, "2"),
    "revoke": (7, "228"),
    "issue": (8, "s2r"),
    "narrow": (9, "s8r"),
    "seal": (10, "sss22221sr"),
    "open": (11, "s2sr"),
    "dump": (16, ""),
    "poke": (17, "1228"),
    "select": (18, "1"),
    "note": (19, "s"),
}
BY_OPCODE = {opcode: (name, kinds) for name, (opcode, kinds) in CALLS.items()}
SILENT = ("poke", "select")
STRING_MOST = 20000         # bytes of a string or a room
ROOM = 0xa5                 # what a room is filled with before the call


class NotATrace(Exception):
    pass


class Call(NamedTuple):
    name: str
    fields: Tuple


def write(name: str, fields: Sequence) -> bytes:
    opcode, kinds = CALLS[name]
    assert len(fields) == len(kinds), name
    out = bytes([opcode])
    for kind, value in zip(kinds, fields):
        if kind == "s":
            assert len(value) <= STRING_MOST
            out += struct.pack("<I", len(value)) + value
        elif kind == "r":
            assert value <= STRING_MOST
            out += struct.pack("<I", value)
        else:
            out += value.to_bytes(int(kind), "little")
    return out


def field(trace: bytes, at: int, kind: str) -> Tuple:
    """The field's value and where the next one begins."""
    end = at + (4 if kind in "sr" else int(kind))
    value = int.from_bytes(trace[at:end], "little")
    if kind == "s":
        at, end = end, end + value
        value = trace[at:end]
    if end > len(trace):
        raise NotATrace("the trace ends inside a call")
    return value, end


def read(trace: bytes) -> Iterator[Call]:
    at = 0
    while at < len(trace):
        if trace[at] not in BY_OPCODE:
            raise NotATrace("opcode %d at %d" % (trace[at], at))
        name, kinds = BY_OPCODE[trace[at]]
        at, values = at + 1, []
        for kind in kinds:
            value, at = field(trace, at, kind)
            values.append(value)
        yield Call(name, tuple(values))
