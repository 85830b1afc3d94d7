//! 'Grants': the table's check and release.

use crate::{listing, Namespace, Refusal, Test};

/// A grant record: "a subscriber and a namespace number".
#[derive(Clone, Copy, Debug, PartialEq, Eq)]
pub struct Row {
    pub subscriber: u64,
    pub namespace: i64,
}

/// The bytes of a row.
pub const ROW: usize = 16;

fn refuse<T>(row: usize) -> Result<T, Refusal> {
    Err(Refusal { test: Test::Table, place: row })
}

/// "16 a row, big-endian: subscriber (unsigned, 8), namespace (two's complement,
/// 8)". "A table length that isn't a multiple of 16 answers 18 with the number of
/// whole rows".
pub fn rows(table: &[u8]) -> Result<Vec<Row>, Refusal> {
    let whole = table.chunks_exact(ROW);
    if !whole.remainder().is_empty() {
        return refuse(whole.len());
    }
    let number = |bytes: &[u8]| u64::from_be_bytes(bytes.try_into().unwrap());
    Ok(whole
        .map(|row| Row { subscriber: number(&row[..8]), namespace: number(&row[8..]) as i64 })
        .collect())
}

pub fn table_bytes(rows: &[Row]) -> Vec<u8> {
    rows.iter()
        .flat_map(|row| [row.subscriber.to_be_bytes(), row.namespace.to_be_bytes()].concat())
        .collect()
}

/// "18 exactly if two rows with different subscribers carry the same negative
/// namespace; the number is the first row, counted from 0, that has such a partner
/// among the rows before it. Equal rows are allowed."
pub fn check_table(rows: &[Row]) -> Result<(), Refusal> {
    let clash = |one: &Row, two: &Row| {
        one.namespace < 0 && one.namespace == two.namespace && one.subscriber != two.subscriber
    };
    let has_partner_before = |k: &usize| rows[..*k].iter().any(|before| clash(before, &rows[*k]));
    match (0..rows.len()).find(has_partner_before) {
        Some(k) => refuse(k),
        None => Ok(()),
    }
}

#[derive(Clone, Copy, Debug, PartialEq, Eq)]
pub enum Release {
    Yes,
    /// "no with the number of the first listed entry that isn't granted, entries
    /// from 0"
    No(usize),
}

/// "the message's refusal, or yes, or no"; a ragged table is refused "after the
/// message's own refusal".
pub fn release(message: &[u8], table: &[u8], subscriber: u64) -> Result<Release, Refusal> {
    let entries = listing(message)?.entries;
    let rows = rows(table)?;
    // "A number is granted to a subscriber exactly if some row holds both." "Names
    // and relative references are never granted here."
    let granted = |namespace| match namespace {
        Namespace::Number(namespace) => rows.contains(&Row { subscriber, namespace }),
        Namespace::Name(_) | Namespace::Relative => false,
    };
    Ok(match entries.iter().position(|entry| !granted(entry.namespace)) {
        Some(entry) => Release::No(entry),
        None => Release::Yes,
    })
}
