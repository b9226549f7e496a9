//! The crate beside include/deebqoshaan.h: numbers of refusal, lengths, layout. What differs is listed; a header that was changed on purpose must be.

use std::mem::{align_of, offset_of, size_of};

use deebqoshaan::raw::{Order, Records, Rights, State};
use deebqoshaan::{Refusal, length};

fn header() -> String {
    std::fs::read_to_string(concat!(env!("CARGO_MANIFEST_DIR"), "/../include/deebqoshaan.h")).unwrap()
}

/// The header with `old` replaced, which must stand there once.
fn damaged(old: &str, new: &str) -> String {
    let header = header();
    assert_eq!(header.matches(old).count(), 1, "{old}");
    header.replace(old, new)
}

// ---- Numbers of refusal

/// The names and numbers of the header's enum, but that of acceptance.
fn declared(header: &str) -> Vec<(String, u8)> {
    let lines = header.lines().skip_while(|line| *line != "enum {").take_while(|line| *line != "};");
    let pairs = lines.filter_map(|line| line.trim().strip_prefix("DQ_")?.split_once(" = "));
    let numbers = pairs.map(|(name, rest)| (camel(name), rest[..rest.find([',', ' ']).unwrap()].parse().unwrap()));
    numbers.filter(|(name, _)| name != "Accepted").collect()
}

/// `NO_HOST` as `NoHost`.
fn camel(name: &str) -> String {
    name.split('_').map(|word| word[..1].to_string() + &word[1..].to_lowercase()).collect()
}

fn known() -> Vec<(String, u8)> {
    Refusal::ALL.iter().map(|refusal| (format!("{refusal:?}"), refusal.number())).collect()
}

#[test]
fn names_and_numbers_are_the_headers() {
    assert_eq!(declared(&header()), known());
    assert_ne!(declared(&damaged("DQ_NOT_FRESH = 12,", "DQ_NOT_FRESH = 13,")), known());
    assert_ne!(declared(&damaged("DQ_NO_NAME = 23,", "DQ_NAMELESS = 23,")), known());
    assert_ne!(declared(&damaged("    DQ_UNSOUND = 39,", "    DQ_HOLE = 33,\n    DQ_UNSOUND = 39,")), known());
}

// ---- Lengths and figures

/// What the header defines as a number.
fn defined(header: &str) -> Vec<(&str, usize)> {
    let lines = header.lines().filter_map(|line| line.strip_prefix("#define DQ_")?.split_once(' '));
    lines.filter_map(|(name, rest)| Some((name, rest.split(' ').next()?.parse().ok()?))).collect()
}

fn lengths() -> Vec<(&'static str, usize)> {
    vec![
        ("BOOK_MOST", length::BOOK_MOST),
        ("PAYLOAD_MOST", length::PAYLOAD_MOST),
        ("PACKET_MOST", length::PACKET_MOST),
        ("REPLY_MOST", length::REPLY_MOST),
        ("REQUEST_MOST", length::REQUEST_MOST),
        ("REQUESTED", length::REQUESTED),
        ("PROOF", length::PROOF),
        ("PROVED", length::PROVED),
        ("CAPABILITY", length::CAPABILITY),
        ("SECRET", length::SECRET),
        ("VECTOR_BYTES", length::VECTOR_BYTES),
        ("STATE_SIZE", size_of::<State>()),
        ("STATE_ALIGNMENT", align_of::<State>()),
    ]
}

#[test]
fn lengths_are_the_headers() {
    assert_eq!(defined(&header()), lengths());
    assert_ne!(defined(&damaged("#define DQ_PROVED 20", "#define DQ_PROVED 24")), lengths());
    assert_ne!(defined(&damaged("#define DQ_STATE_ALIGNMENT 8", "#define DQ_STATE_ALIGNMENT 16")), lengths());
}

/// The header's own figures of sizes and places, which a C compiler has checked: the C expression and its value, a number or the name of one. Those
/// that aren't measured below are left out.
fn figures(header: &str) -> Vec<(&str, usize)> {
    let lines = header.lines().filter_map(|line| line.strip_prefix("DQ_HOLDS(")?.strip_suffix(");")?.split_once(", "));
    let figures = lines.filter_map(|(_, what)| what.split_once(" == ").and_then(|(left, right)| Some((left, value(header, right)?))));
    figures.filter(|(what, _)| measured().iter().any(|(known, _)| known == what)).collect()
}

/// The value of a number, or of a name that the header defines.
fn value(header: &str, text: &str) -> Option<usize> {
    let Some(name) = text.strip_prefix("DQ_") else { return text.parse().ok() };
    defined(header).into_iter().find(|(known, _)| *known == name).map(|(_, number)| number)
}

fn measured() -> Vec<(&'static str, usize)> {
    vec![
        ("sizeof(size_t)", size_of::<usize>()),
        ("sizeof(dq_rights)", size_of::<Rights>()),
        ("offsetof(dq_rights, hosts)", offset_of!(Rights, hosts)),
        ("offsetof(dq_rights, secrets)", offset_of!(Rights, secrets)),
        ("sizeof(dq_records)", size_of::<Records>()),
        ("offsetof(dq_records, keys)", offset_of!(Records, keys)),
        ("sizeof(dq_state)", size_of::<State>()),
        ("offsetof(dq_aligned, state)", align_of::<State>()),
        ("offsetof(dq_state, records)", offset_of!(State, records)),
        ("offsetof(dq_state, names)", offset_of!(State, names)),
        ("offsetof(dq_state, labels)", offset_of!(State, labels)),
        ("sizeof(dq_order)", size_of::<Order>()),
        ("offsetof(dq_order, zeros)", offset_of!(Order, zeros)),
        ("offsetof(dq_order, words)", offset_of!(Order, words)),
        ("offsetof(dq_order, secret)", offset_of!(Order, secret)),
    ]
}

#[test]
fn figures_are_the_headers() {
    assert_eq!(figures(&header()), measured());
    assert_ne!(figures(&damaged("offsetof(dq_order, words) == 24", "offsetof(dq_order, words) == 20")), measured());
    let last = "DQ_HOLDS(order_secret, offsetof(dq_order, secret) == 56);\n";
    assert_ne!(figures(&damaged(last, "")), measured());
    assert_eq!(figures(&damaged(last, &format!("{last}DQ_HOLDS(another, sizeof(int) >= 2);\n"))), measured());
}

// ---- Every field

/// Fields with their places, then the alignment and the size.
type Layout = (Vec<(String, usize)>, usize, usize);

/// The size and the alignment of a C type.
fn measure(header: &str, kind: &str) -> (usize, usize) {
    match kind {
        "uint8_t" => (1, 1),
        "uint16_t" => (2, 2),
        "uint32_t" => (4, 4),
        "uint64_t" => (8, 8),
        _ => {
            let (_, align, size) = laid_out(header, kind);
            (size, align)
        }
    }
}

/// How C lays out the struct of that name: each field at the next multiple of its alignment.
fn laid_out(header: &str, name: &str) -> Layout {
    let (before, _) = header.split_once(&format!("}} {name};")).unwrap();
    let (_, body) = before.rsplit_once("typedef struct {").unwrap();
    let (mut fields, mut at, mut most) = (Vec::new(), 0_usize, 1);
    for line in body.lines().filter_map(|line| line.split_once(';')) {
        let (kind, field) = line.0.trim().split_once(' ').unwrap();
        let (field, count) = field.trim_end_matches(']').split_once('[').unwrap_or((field, "1"));
        let (size, align) = measure(header, kind);
        at = at.next_multiple_of(align);
        fields.push((field.to_string(), at));
        at += size * count.parse::<usize>().unwrap();
        most = most.max(align);
    }
    (fields, most, at.next_multiple_of(most))
}

/// How Rust lays out a struct, under the header's names of its fields.
macro_rules! layout {
    ($kind:ty: $($field:ident $(as $name:literal)?),*) => {{
        let named = |field: &str, other: &[&str]| other.first().unwrap_or(&field).to_string();
        let fields = vec![$((named(stringify!($field), &[$($name)?]), offset_of!($kind, $field))),*];
        (fields, align_of::<$kind>(), size_of::<$kind>())
    }};
}

fn layouts() -> [(&'static str, Layout); 4] {
    let rights = layout!(Rights: words, hosts, interfaces, groups, sizes, spans, commands, entries, owners, secrets);
    let order = layout!(Order: client, sequence, group, interface as "interface_id", capability, length, command, zeros, words, secret);
    [
        ("dq_rights", rights),
        ("dq_records", layout!(Records: tags, lasts, challenges, keys)),
        ("dq_state", layout!(State: rights, records, names, labels)),
        ("dq_order", order),
    ]
}

fn differing(header: &str) -> Vec<&'static str> {
    layouts().into_iter().filter(|(name, layout)| laid_out(header, name) != *layout).map(|(name, _)| name).collect()
}

#[test]
fn every_field_stands_where_the_header_has_it() {
    assert_eq!(differing(&header()), [""; 0]);
    assert_eq!(differing(&damaged("uint16_t owners[128];", "uint32_t owners[128];")), ["dq_rights", "dq_state"]);
    assert_eq!(differing(&damaged("uint8_t labels[2048];", "uint8_t labels[2056];")), ["dq_state"]);
    assert_eq!(differing(&damaged("uint16_t client;\n", "uint16_t caller;\n")), ["dq_order"]);
}
