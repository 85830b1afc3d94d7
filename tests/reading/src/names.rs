//! Names beside numbers (R139 to R143): the two lists of names, the line found for a
//! name, and release by the numbers that names stand for. The module is not taken apart
//! in the crate's root, since [`release`] has its name there already.

use crate::head::{self, Kind};
use crate::spelling::is_namespace_name;
use crate::{listing_within, rows, Limits, Namespace, Refusal, Release, Row, Test};

/// The lines of a list, each with the place of its first byte and with its line feed.
/// Only bytes behind the last line feed are a line without one.
pub fn lines(list: &[u8]) -> impl Iterator<Item = (usize, &[u8])> {
    let mut after = 0;
    list.split_inclusive(|byte| *byte == b'\n').map(move |line| {
        let first = after;
        after += line.len();
        (first, line)
    })
}

/// A line that is well formed.
#[derive(Clone, Copy, Debug, PartialEq, Eq)]
pub struct Line<'a> {
    /// The line with its line feed left off.
    pub text: &'a [u8],
    pub name: &'a [u8],
    pub number: i64,
}

impl<'a> Line<'a> {
    /// R140; none if the line is not well-formed. No name has a "=", so the first one is
    /// the one behind the name.
    pub fn read(line: &'a [u8]) -> Option<Line<'a>> {
        let text = line.strip_suffix(b"\n")?;
        let equals = text.iter().position(|byte| *byte == b'=')?;
        let (name, number) = (&text[..equals], &text[equals + 1..]);
        is_namespace_name(name).then_some(())?;
        Some(Line { text, name, number: plain_decimal(number)? })
    }
}

/// One spelling for each number; parsing refuses what is out of range or goes on with
/// something else than digits.
fn plain_decimal(digits: &[u8]) -> Option<i64> {
    match digits {
        b"0" | [b'1'..=b'9', ..] | [b'-', b'1'..=b'9', ..] => {
            std::str::from_utf8(digits).ok()?.parse().ok()
        }
        _ => None,
    }
}

/// R141, R142: the mark in front tells the list, and the first well-formed line with the
/// name, its letters in any case, is its line.
fn find<'a>(published: &'a [u8], own: &'a [u8], name: &[u8]) -> Option<Line<'a>> {
    let list = if name.starts_with(b"!") { own } else { published };
    // A line that starts otherwise isn't read any further, which is for the time only.
    let like_it = lines(list)
        .filter(|(_, line)| line.get(..name.len()).is_some_and(|it| it.eq_ignore_ascii_case(name)));
    like_it
        .filter_map(|(_, line)| Line::read(line))
        .find(|line| line.name.eq_ignore_ascii_case(name))
}

/// The line as a part of its list; empty if there is none.
pub fn find_line<'a>(published: &'a [u8], own: &'a [u8], name: &[u8]) -> &'a [u8] {
    find(published, own, name).map_or(&[], |line| line.text)
}

/// The number that a name stands for, whatever other lines the lists have.
pub fn name_number(published: &[u8], own: &[u8], name: &[u8]) -> Option<i64> {
    find(published, own, name).map(|line| line.number)
}

/// The number that a namespace of an accepted message is, or stands for by the lists.
pub fn number_of(
    message: &[u8],
    namespace: Namespace,
    published: &[u8],
    own: &[u8],
) -> Option<i64> {
    match namespace {
        Namespace::Number(number) => Some(number),
        Namespace::Name(place) => name_number(published, own, name_at(message, place)),
        Namespace::Relative => None,
    }
}

/// The name whose head is at a place of an accepted message.
pub fn name_at(message: &[u8], place: usize) -> &[u8] {
    match head::read(&message[place..]) {
        Ok((Kind::Text(length), rest)) => &rest[..length as usize],
        _ => panic!("no accepted name at {place}"),
    }
}

/// The first byte of the first line that is wrongly formed.
fn first_wrong(list: &[u8]) -> Option<usize> {
    lines(list).find(|(_, line)| Line::read(line).is_none()).map(|(first, _)| first)
}

/// R143. No two slices are so long that the place would pass 64 bits.
pub fn check_names(published: &[u8], own: &[u8]) -> Result<(), Refusal> {
    let in_own = || first_wrong(own).map(|first| published.len().saturating_add(first));
    match first_wrong(published).or_else(in_own) {
        Some(place) => Err(Refusal { test: Test::Names, place }),
        None => Ok(()),
    }
}

/// Release by the numbers that names stand for: the message's refusal, then 19, then 18. A
/// name with no line is granted to nobody, as a relative reference is.
pub fn release(
    message: &[u8],
    table: &[u8],
    published: &[u8],
    own: &[u8],
    subscriber: u64,
    limits: &Limits,
) -> Result<Release, Refusal> {
    counted_release(message, table, published, own, subscriber, limits).map(|(answer, _)| answer)
}

/// The same with the number of rows compared (R150 to R153): for each entry up to and
/// including the one that fails, the rows up to and including the first that grants it, or
/// all; none where there is no number.
pub fn counted_release(
    message: &[u8],
    table: &[u8],
    published: &[u8],
    own: &[u8],
    subscriber: u64,
    limits: &Limits,
) -> Result<(Release, u64), Refusal> {
    let entries = listing_within(message, limits)?.entries;
    check_names(published, own)?;
    let rows = rows(table)?;
    let mut compared: u64 = 0;
    for (k, entry) in entries.iter().enumerate() {
        let Some(namespace) = number_of(message, entry.namespace, published, own) else {
            return Ok((Release::No(k), compared));
        };
        let found = rows.iter().position(|row| *row == Row { subscriber, namespace });
        compared = compared.saturating_add(found.map_or(rows.len(), |row| row + 1) as u64);
        if found.is_none() {
            return Ok((Release::No(k), compared));
        }
    }
    Ok((Release::Yes, compared))
}
