//! The day file: messages back to back from byte 0, a table with the first byte of each,
//! and a trailer of 8 bytes. Messages are numbered from 0. There are two versions.

use std::ops::Range;

use crate::names::{check_names, number_of};
use crate::{listing_within, put, walk_message, Limits, Refusal, Test, FIRST_LIMITS, LIMITS};

/// What a version of the file is like.
#[derive(Clone, Copy, Debug, PartialEq, Eq)]
pub struct Form {
    pub version: u8,
    /// The bytes of an offset in the table.
    pub offset: usize,
    /// The most bytes of a whole file.
    pub bytes: usize,
    /// The most messages; the trailer counts them in 2 bytes.
    pub messages: usize,
    /// The limits of each message.
    pub limits: Limits,
}

/// "Version 1 files keep the old limits, also for each message in them or added"
pub const VERSION_1: Form =
    Form { version: 1, offset: 2, bytes: 65_535, messages: 65_535, limits: FIRST_LIMITS };

/// "version 2 has 4-byte offsets and is otherwise the same"
pub const VERSION_2: Form =
    Form { version: 2, offset: 4, bytes: 1 << 20, messages: 65_535, limits: LIMITS };

/// "version 1, a zero byte, the count in 2 bytes, the table's start in 4"
pub const TRAILER: usize = 8;

/// The form that a file is read in, by its trailer's first byte. One of no version is
/// refused in any form.
pub fn form_of(file: &[u8]) -> Form {
    match file.len().checked_sub(TRAILER) {
        Some(trailer) if file[trailer] == VERSION_2.version => VERSION_2,
        _ => VERSION_1,
    }
}

fn refuse<T>(test: Test, place: usize) -> Result<T, Refusal> {
    Err(Refusal { test, place })
}

fn number(bytes: &[u8]) -> usize {
    bytes.iter().fold(0, |number, byte| number << 8 | usize::from(*byte))
}

/// The last bytes of a number that is written in eight, big-endian.
fn put_number(file: &mut Vec<u8>, number: usize, bytes: usize) {
    file.extend(&(number as u64).to_be_bytes()[8 - bytes..]);
}

/// The file with these messages. It is not judged: neither are they, nor its length, and
/// of a number with more bytes than the file has for it the last ones are written.
pub fn file_of<M: AsRef<[u8]>>(messages: &[M], form: &Form) -> Vec<u8> {
    let (mut file, mut table) = (Vec::new(), Vec::new());
    for message in messages {
        put_number(&mut table, file.len(), form.offset);
        file.extend(message.as_ref());
    }
    let start = file.len();
    file.extend(table);
    file.extend([form.version, 0]);
    put_number(&mut file, messages.len(), 2);
    put_number(&mut file, start, 4);
    file
}

/// The number of messages and the table's start, or 20.
fn trailer(file: &[u8], form: &Form) -> Result<(usize, usize), Refusal> {
    let bad = refuse(Test::DayTrailer, 0);
    if file.len() < TRAILER || file.len() > form.bytes {
        return bad;
    }
    let trailer = &file[file.len() - TRAILER..];
    let (count, start) = (number(&trailer[2..4]), number(&trailer[4..]));
    if trailer[..2] != [form.version, 0] {
        return bad;
    }
    if start + count * form.offset + TRAILER != file.len() || count == 0 && start != 0 {
        return bad;
    }
    Ok((count, start))
}

/// Where the messages stand by the trailer and the table, or 20 or 21: "each message ends
/// where the next begins and the last ends at the table".
fn table(file: &[u8], form: &Form) -> Result<Vec<Range<usize>>, Refusal> {
    let (count, start) = trailer(file, form)?;
    let table = &file[start..start + count * form.offset];
    let offsets: Vec<usize> = table.chunks_exact(form.offset).map(number).collect();
    for k in 0..count {
        let is_in_order = match k {
            0 => offsets[0] == 0,
            _ => offsets[k] > offsets[k - 1],
        };
        if !is_in_order || offsets[k] >= start {
            return refuse(Test::DayTable, k);
        }
    }
    let after = |k: usize| offsets.get(k + 1).copied().unwrap_or(start);
    Ok((0..count).map(|k| offsets[k]..after(k)).collect())
}

/// Where the messages stand, or the file's refusal, which every call gives first.
pub fn parts(file: &[u8], form: &Form) -> Result<Vec<Range<usize>>, Refusal> {
    let parts = table(file, form)?;
    let refused =
        |part: &Range<usize>| walk_message(&file[part.clone()], &form.limits, &mut ()).is_err();
    match parts.iter().position(refused) {
        Some(k) => refuse(Test::DayMessage, k),
        None => Ok(parts),
    }
}

/// The number of messages.
pub fn check(file: &[u8], form: &Form) -> Result<usize, Refusal> {
    parts(file, form).map(|parts| parts.len())
}

pub fn messages_of<'a>(file: &'a [u8], form: &Form) -> Result<Vec<&'a [u8]>, Refusal> {
    Ok(parts(file, form)?.into_iter().map(|part| &file[part]).collect())
}

/// Where message `k` stands; 17 has the count of messages.
pub fn find(file: &[u8], k: u64, form: &Form) -> Result<Range<usize>, Refusal> {
    let parts = parts(file, form)?;
    match usize::try_from(k).ok().and_then(|k| parts.get(k)) {
        Some(part) => Ok(part.clone()),
        None => refuse(Test::Number, parts.len()),
    }
}

/// Message `k` as that part of the file; an empty part where there is none.
pub fn part<'a>(file: &'a [u8], k: u64, form: &Form) -> &'a [u8] {
    find(file, k, form).map_or(&[], |part| &file[part])
}

/// A file that was written: with one message more, or in another version.
#[derive(Clone, Copy, Debug, PartialEq, Eq)]
pub struct Added {
    pub messages: usize,
    pub bytes: usize,
}

/// The file with one message more, if room is of no account.
pub fn added(file: &[u8], message: &[u8], form: &Form) -> Result<Vec<u8>, Refusal> {
    let mut messages = messages_of(file, form)?;
    walk_message(message, &form.limits, &mut ())?;
    if file.len() + message.len() + form.offset > form.bytes || messages.len() >= form.messages {
        return refuse(Test::DayFull, 0);
    }
    messages.push(message);
    Ok(file_of(&messages, form))
}

/// The same, written to room; 16 counts bytes.
pub fn add(file: &[u8], message: &[u8], room: &mut [u8], form: &Form) -> Result<Added, Refusal> {
    let new = added(file, message, form)?;
    let (messages, _) = trailer(&new, form)?;
    put(&new, new.len(), room)?;
    Ok(Added { messages, bytes: new.len() })
}

/// "a call rewrites 1 as 2 with the same messages": the file, if room is of no account.
pub fn upgraded(file: &[u8]) -> Result<Vec<u8>, Refusal> {
    Ok(file_of(&messages_of(file, &VERSION_1)?, &VERSION_2))
}

/// The same, written to room; 16 counts bytes.
pub fn upgrade(file: &[u8], room: &mut [u8]) -> Result<Added, Refusal> {
    let new = upgraded(file)?;
    let (messages, _) = trailer(&new, &VERSION_2)?;
    put(&new, new.len(), room)?;
    Ok(Added { messages, bytes: new.len() })
}

/// A reference that a search has found.
#[derive(Clone, Copy, Debug, PartialEq, Eq)]
pub struct Found {
    /// The message's number.
    pub message: usize,
    /// The reference's first byte in the file, and the byte after.
    pub first: usize,
    pub after: usize,
}

/// The bytes of what is found.
pub const FOUND: usize = 24;

impl Found {
    /// "24 bytes each, big-endian: message number (8), first byte in the file (8), byte
    /// after (8)"
    fn bytes(&self) -> Vec<u8> {
        let numbers = [self.message, self.first, self.after];
        numbers.iter().flat_map(|number| (*number as u64).to_be_bytes()).collect()
    }
}

/// The references in all messages whose namespace is that number, or a name that stands
/// for it by the lists: the file's refusals, then 19.
pub fn found(
    file: &[u8],
    published: &[u8],
    own: &[u8],
    namespace: i64,
    form: &Form,
) -> Result<Vec<Found>, Refusal> {
    let parts = parts(file, form)?;
    check_names(published, own)?;
    let mut found = Vec::new();
    for (k, part) in parts.into_iter().enumerate() {
        let (start, message) = (part.start, &file[part]);
        for entry in listing_within(message, &form.limits)?.entries {
            if number_of(message, entry.namespace, published, own) == Some(namespace) {
                let (first, after) = (start + entry.first, start + entry.after);
                found.push(Found { message: k, first, after });
            }
        }
    }
    Ok(found)
}

/// The same, written to room: the number of entries, which is what 16 counts too.
pub fn search(
    file: &[u8],
    published: &[u8],
    own: &[u8],
    namespace: i64,
    room: &mut [u8],
    form: &Form,
) -> Result<usize, Refusal> {
    let found = found(file, published, own, namespace, form)?;
    let bytes: Vec<u8> = found.iter().flat_map(Found::bytes).collect();
    put(&bytes, found.len(), room)?;
    Ok(found.len())
}
