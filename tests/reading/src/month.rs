//! Month figures (request (xiii)): what the messages of many day files come to. A month is a
//! bag of units, each under its line; a file's messages put theirs in, all of them or none.

use std::collections::BTreeMap;

use crate::day::{messages_of, Form};
use crate::names::{check_names, number_of};
use crate::{listing_within, put, Limits, Namespace, Refusal, Test};

/// "messages, bytes, items, and references for each namespace number that occurs, with names
/// unknown and relative references as two lines of their own"; "in rising order".
#[derive(Clone, Copy, Debug, PartialEq, Eq, PartialOrd, Ord)]
pub enum Line {
    Messages,
    Bytes,
    Items,
    Unknown,
    Relative,
    Namespace(i64),
}

/// The lines that a month always has, in the order in which they are read.
pub const TOTALS: [Line; 5] =
    [Line::Messages, Line::Bytes, Line::Items, Line::Unknown, Line::Relative];

/// "Up to 256 namespaces and totals below 2^63."
#[derive(Clone, Copy, Debug, PartialEq, Eq)]
pub struct Bounds {
    pub namespaces: usize,
    /// The most of each line.
    pub total: u128,
}

pub const BOUNDS: Bounds = Bounds { namespaces: 256, total: (1 << 63) - 1 };

/// The units of each line that has some.
#[derive(Clone, Debug, Default, PartialEq, Eq)]
pub struct Month(BTreeMap<Line, u128>);

impl Extend<(Line, u128)> for Month {
    fn extend<T: IntoIterator<Item = (Line, u128)>>(&mut self, units: T) {
        for (line, count) in units.into_iter().filter(|(_, count)| *count > 0) {
            *self.0.entry(line).or_default() += count;
        }
    }
}

impl FromIterator<(Line, u128)> for Month {
    fn from_iter<T: IntoIterator<Item = (Line, u128)>>(units: T) -> Month {
        let mut month = Month::default();
        month.extend(units);
        month
    }
}

/// What one accepted message brings: itself, its bytes, its items, and each of its listed
/// references under one line.
fn units(
    message: &[u8],
    published: &[u8],
    own: &[u8],
    limits: &Limits,
) -> Result<Vec<(Line, u128)>, Refusal> {
    let listing = listing_within(message, limits)?;
    let mut units = vec![
        (Line::Messages, 1),
        (Line::Bytes, message.len() as u128),
        (Line::Items, listing.items as u128),
    ];
    for entry in listing.entries {
        let line = match number_of(message, entry.namespace, published, own) {
            Some(number) => Line::Namespace(number),
            None if entry.namespace == Namespace::Relative => Line::Relative,
            None => Line::Unknown,
        };
        units.push((line, 1));
    }
    Ok(units)
}

/// What a file brings, or its refusal, or 19.
pub fn brought(file: &[u8], published: &[u8], own: &[u8], form: &Form) -> Result<Month, Refusal> {
    let messages = messages_of(file, form)?;
    check_names(published, own)?;
    let mut brought = Month::default();
    for message in messages {
        brought.extend(units(message, published, own, &form.limits)?);
    }
    Ok(brought)
}

impl Month {
    pub fn total(&self, line: Line) -> u128 {
        self.0.get(&line).copied().unwrap_or(0)
    }

    /// The namespaces that occur, each with its references, in rising order.
    pub fn namespaces(&self) -> impl Iterator<Item = (i64, u128)> + '_ {
        self.0.iter().filter_map(|(line, count)| match line {
            Line::Namespace(number) => Some((*number, *count)),
            _ => None,
        })
    }

    /// "after the file's own and 19, first 25, the file would bring a namespace beyond 256,
    /// then 26, a total would pass its bound, both with place 0"; "A refused file leaves the
    /// month's state unchanged."
    pub fn add(
        &mut self,
        file: &[u8],
        published: &[u8],
        own: &[u8],
        form: &Form,
        bounds: &Bounds,
    ) -> Result<(), Refusal> {
        let mut sum = self.clone();
        sum.extend(brought(file, published, own, form)?.0);
        if sum.namespaces().count() > bounds.namespaces {
            return Err(Refusal { test: Test::Namespaces, place: 0 });
        }
        if sum.0.values().any(|count| *count > bounds.total) {
            return Err(Refusal { test: Test::Total, place: 0 });
        }
        *self = sum;
        Ok(())
    }

    /// "big-endian, 8 bytes each: messages, bytes, items, unknown names, relative references;
    /// then for each namespace in rising order its number and its references"
    pub fn bytes(&self) -> Vec<u8> {
        let totals = TOTALS.map(|line| self.total(line) as u64);
        let namespaces =
            self.namespaces().flat_map(|(number, count)| [number as u64, count as u64]);
        totals.into_iter().chain(namespaces).flat_map(u64::to_be_bytes).collect()
    }

    /// The same, written to room: the number of namespaces. 16 counts bytes.
    pub fn read(&self, room: &mut [u8]) -> Result<usize, Refusal> {
        let bytes = self.bytes();
        put(&bytes, bytes.len(), room)?;
        Ok(self.namespaces().count())
    }
}
