//! What the programs of `gate` print of a listing, of items, of a message that was held, of two
//! messages beside each other, and of a month.

use std::fmt::Write as _;

use crate::compare::Position;
use crate::month::{Month, TOTALS};
use crate::names::name_number;
use crate::why::{Link, Meaning, Reason, Why};
use crate::{
    head, key_text, listing, text_of, Entry, Kind, Listing, Namespace, Record, Refusal, LIMITS,
};

/// A line for each item: its number, its columns, and its kind, two places further in for
/// each container around it; or the refusal's line.
pub fn item_lines(records: &Result<Vec<Record>, Refusal>) -> String {
    match records {
        Err(refusal) => format!("{refusal}\n"),
        Ok(records) => records.iter().enumerate().map(|(k, record)| item_line(k, record)).collect(),
    }
}

fn item_line(k: usize, record: &Record) -> String {
    let indent = "  ".repeat(record.around);
    format!("{k} {} {indent}{}\n", record.columns(), record.words())
}

/// "a line for each position: its number, then `same`, `changed A B`, `only first` or `only
/// second`; for a changed one the two items as `gate items` shows them"
pub fn position_lines(first: &[Record], second: &[Record], positions: &[Position]) -> String {
    let mut lines = String::new();
    for (k, position) in positions.iter().enumerate() {
        match *position {
            Position::Same => lines += &format!("{k} same\n"),
            Position::Changed { first: one, second: two } => {
                lines += &format!("{k} changed {one} {two}\n");
                lines += &item_line(one, &first[one]);
                lines += &item_line(two, &second[two]);
            }
            Position::OnlyFirst => lines += &format!("{k} only first\n"),
            Position::OnlySecond => lines += &format!("{k} only second\n"),
        }
    }
    lines
}

/// "refs N", a line for each reference, "items N"; or the refusal's line.
pub fn listing_lines(message: &[u8], listing: &Result<Listing, Refusal>) -> String {
    match listing {
        Err(refusal) => format!("{refusal}\n"),
        Ok(Listing { items, entries }) => {
            let mut lines = format!("refs {}\n", entries.len());
            lines.extend(entries.iter().map(|entry| entry_line(message, entry)));
            lines + &format!("items {items}\n")
        }
    }
}

/// First byte, byte after, namespace: a name as its text, a relative one as a full
/// stop.
pub fn entry_line(message: &[u8], entry: &Entry) -> String {
    let mut line = format!("{} {} ", entry.first, entry.after);
    let _ = match entry.namespace {
        Namespace::Number(number) => writeln!(line, "{number}"),
        Namespace::Name(place) => writeln!(line, "{}", name(message, place)),
        Namespace::Relative => writeln!(line, "."),
    };
    line
}

/// "released", or the refusal's line; or the entry with the reason, and a line for each
/// link, further in than the one around it.
pub fn why_lines(
    message: &[u8],
    published: &[u8],
    own: &[u8],
    subscriber: u64,
    answer: &Result<Why, Refusal>,
) -> String {
    let (entry, reason, chain) = match answer {
        Err(refusal) => return format!("{refusal}\n"),
        Ok(Why::Released) => return "released\n".to_string(),
        Ok(Why::Held { entry, reason, chain }) => (*entry, *reason, chain),
    };
    let Entry { first, after, namespace } = listing(message).expect("held").entries[entry];
    // A reference with a float has no text.
    let text = match text_of(&message[first..after], &LIMITS) {
        Ok((text, _)) => text,
        Err(_) => format!("bytes {first} to {after}"),
    };
    let reason = match (reason, namespace) {
        (Reason::NotGranted, Namespace::Number(number)) => {
            format!("namespace {number} is not granted to subscriber {subscriber}")
        }
        (Reason::NotGranted, Namespace::Name(place)) => {
            let name = name(message, place);
            let number = name_number(published, own, name.as_bytes()).expect("a line");
            format!("namespace {name}, number {number}, is not granted to subscriber {subscriber}")
        }
        (Reason::NameUnknown, Namespace::Name(place)) => {
            let name = name(message, place);
            let list = if name.starts_with('!') { "own" } else { "published" };
            format!("namespace {name} is not in the {list} list")
        }
        (Reason::Relative, Namespace::Relative) => "relative, without a namespace".to_string(),
        _ => panic!("{reason:?} cannot be said of {namespace:?}"),
    };
    let mut lines = format!("held: entry {entry}, {text}: {reason}\n");
    for (k, Link { first, meaning, .. }) in chain.iter().enumerate() {
        let _ = writeln!(lines, "{}byte {first}: {}", "  ".repeat(k + 1), words(message, *meaning));
    }
    lines
}

fn words(message: &[u8], meaning: Meaning) -> String {
    match meaning {
        Meaning::Set(k) => format!("set {k}"),
        Meaning::TypedValue => "typed value".to_string(),
        Meaning::Target(k) => format!("target {k}"),
        Meaning::ParameterList => "parameter list".to_string(),
        Meaning::ParameterMap => "parameter map".to_string(),
        Meaning::Parameter(k) => format!("parameter {k}"),
        Meaning::MapValue { key } => format!("map value, key {}", key_text(message, key)),
        Meaning::Report(k) => format!("report {k}"),
        Meaning::ReportSource => "report source".to_string(),
        Meaning::ReportItem(k) => format!("report item {k}"),
        Meaning::CollectionMember(k) => format!("collection member {k}"),
    }
}

/// The text string at a place of an accepted message.
fn name(message: &[u8], place: usize) -> String {
    let Ok((Kind::Text(size), rest)) = head::read(&message[place..]) else {
        unreachable!("an accepted name")
    };
    String::from_utf8(rest[..size as usize].to_vec()).expect("an accepted name")
}

/// What `gate month` prints: a line for each total, and one for each namespace.
pub fn month_lines(month: &Month) -> String {
    let names = ["messages", "bytes", "items", "unknown", "relative"];
    let totals =
        names.iter().zip(TOTALS).map(|(name, line)| format!("{name} {}\n", month.total(line)));
    let namespaces = month.namespaces().map(|(number, count)| format!("{number} {count}\n"));
    totals.chain(namespaces).collect()
}
