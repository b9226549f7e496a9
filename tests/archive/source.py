#!/usr/bin/env python3
"""source.py CRATES: prints a C file of assertions that the header lays its structs out as Rattle's source declares them.

A struct marked #[repr(C)] has its fields in their order, each at the next multiple of its alignment; so this computes sizes and places from the
source's text alone, and the C compiler compares them with the header's.
"""
import re
import sys
from pathlib import Path

PLAIN = {"u8": 1, "u16": 2, "u32": 4, "u64": 8, "usize": 8}
# The header's name of each struct, and where the source declares it.
STRUCTS = [("Rights", "dq_rights", "state"), ("Records", "dq_records", "state"), ("State", "dq_state", "state"), ("Order", "dq_order", "fields")]
# `interface` is a macro in some C++ headers.
RENAMED = {"interface": "interface_id"}


def fields_of(text, name):
    found = re.search(r"#\[repr\(C\)\]\s*(?:#\[derive\([\w, ]*\)\]\s*)?pub struct " + name + r" \{(.*?)\n\}", text, re.S)
    if not found:
        sys.exit(f"source.py: there is no #[repr(C)] struct {name}")
    return re.findall(r"^\s*pub (\w+): ([^,]+),", found[1], re.M)


def measure(kind, known):
    """The size and the alignment of a type."""
    array = re.fullmatch(r"\[(\w+); (\d+)\]", kind)
    if array:
        size, align = measure(array[1], known)
        return size * int(array[2]), align
    if kind in PLAIN:
        return PLAIN[kind], PLAIN[kind]
    return known[kind]


def lay_out(fields, known):
    """Each field with its place and size; then the struct's size and alignment."""
    at, most, rows = 0, 1, []
    for name, kind in fields:
        size, align = measure(kind, known)
        at = -(-at // align) * align
        rows.append((name, at, size))
        at += size
        most = max(most, align)
    return rows, (-(-at // most) * most, most)


def main():
    known = {}
    print('#include "deebqoshaan.h"')
    for name, in_c, crate in STRUCTS:
        text = "".join(p.read_text() for p in sorted(Path(sys.argv[1], crate, "src").glob("*.rt")))
        rows, known[name] = lay_out(fields_of(text, name), known)
        size, align = known[name]
        print(f'_Static_assert(sizeof({in_c}) == {size} && _Alignof({in_c}) == {align}, "{in_c}");')
        for field, at, length in rows:
            there = RENAMED.get(field, field)
            place = f"offsetof({in_c}, {there}) == {at} && sizeof((({in_c} *)0)->{there}) == {length}"
            print(f'_Static_assert({place}, "{in_c}.{there}");')
    size, align = known["State"]
    print(f'_Static_assert(DQ_STATE_SIZE == {size} && DQ_STATE_ALIGNMENT == {align}, "the state");')


main()
