//! Day files of both versions: empty, with a few messages or many, about as long as the
//! limit; damaged in the trailer, the table and the messages, and cut. Also files whose references go by
//! names of lists, numbers to ask them for, and namespaces to search them for.

use super::names::{lists, lists_with, names_of, rename, Lists};
use super::tables::shuffle;
use super::{full_message, put_head, random_input, settings, Random, Settings, NAMESPACES};
use crate::day::{file_of, form_of, messages_of, Form, TRAILER, VERSION_1, VERSION_2};
use crate::names::{name_at, number_of};
use crate::{items_message, listing_within, walk_message, Namespace};

/// One of the two versions.
pub fn form(random: &mut Random) -> Form {
    random.pick(&[VERSION_1, VERSION_2])
}

/// An accepted message of exactly that many bytes, 1 or at least 5: a set whose nonce, a
/// byte string, fills it.
pub fn message_of_length(bytes: usize) -> Vec<u8> {
    let mut message = vec![0x01];
    if bytes == 1 {
        return message;
    }
    // No string takes 25 bytes with its head, or 258; a set before it takes 4 more.
    if matches!(bytes, 29 | 262) {
        message.extend([0x82, 0x14, 0x81, 0xf6]);
    }
    message.extend([0x82, 0x14, 0x81]);
    let left = bytes - message.len();
    let length = match left {
        0..=24 => left - 1,
        25..=257 => left - 2,
        _ => left - 3,
    };
    put_head(&mut message, 2, length as u64);
    message.resize(bytes, 0x5a);
    message
}

/// How long the messages of a file are.
#[derive(Clone, Copy)]
enum Size {
    Tiny,
    Short,
    Any,
    Full,
}

/// An accepted message. Some of its references go by the names.
fn message(random: &mut Random, size: Size, names: &[Vec<u8>], form: &Form) -> Vec<u8> {
    let limits = form.limits;
    loop {
        let any = settings(random);
        let few_namespaces = random.chance(60);
        let containers = any.containers.min(limits.containers);
        let with = |items: usize| Settings {
            items: items.min(limits.items),
            bytes: limits.bytes,
            containers,
            few_namespaces,
            ..any
        };
        let mut message = match size {
            Size::Tiny => return message_of_length(random.pick(&[1, 1, 1, 5, 6, 7])),
            Size::Short => super::message(random, with(10 + any.items % 30)),
            Size::Any => super::message(random, with(any.items)),
            Size::Full => full_message(random, with(limits.items - 24), limits.bytes),
        };
        let percent = random.pick(&[0, 50, 100]);
        rename(random, &mut message, names, percent);
        if walk_message(&message, &limits, &mut ()).is_ok() {
            return message;
        }
    }
}

/// Messages whose file has exactly that many bytes, 15 at least.
pub fn messages_of_bytes(
    random: &mut Random,
    bytes: usize,
    names: &[Vec<u8>],
    form: &Form,
) -> Vec<Vec<u8>> {
    let sizes = [Size::Tiny, Size::Short, Size::Any, Size::Full, Size::Full];
    // Only so many of the tiny ones may stand in a file.
    let size = random.pick(if bytes > 1 << 17 { &sizes[1..] } else { &sizes });
    let mut left = bytes - TRAILER;
    let mut messages: Vec<Vec<u8>> = Vec::new();
    // A last one takes what is left, so it has to be enough.
    let least = form.offset + 5;
    loop {
        // In a long file they come again, which is quicker.
        let next = match messages.len() >= 40 && bytes > 1 << 17 {
            true => messages[random.below(messages.len())].clone(),
            false => message(random, size, names, form),
        };
        let taken = next.len() + form.offset;
        if left < taken + least {
            break;
        }
        messages.push(next);
        left -= taken;
    }
    while left > 0 {
        let length = match left - form.offset {
            length if length <= form.limits.bytes => length,
            _ => form.limits.bytes / 2,
        };
        messages.push(message_of_length(length));
        left -= length + form.offset;
    }
    shuffle(random, &mut messages);
    messages
}

/// One below the limit of a file of version 1, on it, or one past it, which is refused in
/// version 1 alone. Files as long as one of version 2 may be take too long to be many.
fn near_limit(random: &mut Random) -> usize {
    VERSION_1.bytes - 1 + random.below(3)
}

/// The messages of a day; most days have few.
pub fn messages(random: &mut Random, names: &[Vec<u8>], form: &Form) -> Vec<Vec<u8>> {
    let (size, count) = match random.below(40) {
        0 | 1 => return Vec::new(),
        2 | 3 => {
            let bytes = near_limit(random);
            return messages_of_bytes(random, bytes, names, form);
        }
        4 | 5 => (Size::Tiny, random.below(400)),
        6 | 7 => (Size::Short, random.below(60)),
        8..=14 => (Size::Any, 1 + random.below(12)),
        _ => (Size::Short, 1 + random.below(6)),
    };
    (0..count).map(|_| message(random, size, names, form)).collect()
}

/// Damages some message, most often so that it is refused.
fn damage_message(random: &mut Random, messages: &mut [Vec<u8>], form: &Form) {
    if messages.is_empty() {
        return;
    }
    let [k, other] = [(); 2].map(|()| random.below(messages.len()));
    let other = messages[other].clone();
    let message = &mut messages[k];
    match random.below(12) {
        // An empty one: its offset is that of the next one, or the table's start.
        0 => message.clear(),
        1 => *message = random_input(random),
        // In version 1 those of version 2 are refused too.
        2 => *message = message_of_length(form.limits.bytes + random.below(3)),
        3 => message.extend(other),
        4 if !message.is_empty() => message[0] = random.pick(&[0x00, 0x02, 0x17, 0x81]),
        5 => drop(message.pop()),
        _ => {
            let records = items_message(message).unwrap_or_default();
            super::damage(random, message, &records, &other);
        }
    }
}

fn read(bytes: &[u8]) -> usize {
    bytes.iter().fold(0, |number, byte| number << 8 | usize::from(*byte))
}

/// Damages the trailer of a file that has one.
fn damage_trailer(random: &mut Random, file: &mut [u8], form: &Form) {
    let trailer = file.len() - TRAILER;
    let (count, start) = (read(&file[trailer + 2..trailer + 4]), read(&file[trailer + 4..]));
    let (count, start) = match random.below(8) {
        0 => {
            file[trailer] = random.pick(&[0, 1, 2, 3, 0x81, 0x82, 0xff]);
            (count, start)
        }
        1 => {
            file[trailer + 1] ^= 1 << random.below(8);
            (count, start)
        }
        2 => (count.wrapping_add(random.pick(&[1, usize::MAX])), start),
        3 => (count, start.wrapping_add(random.pick(&[1, 2, usize::MAX, 1 << 16, 1 << 31]))),
        // They still add up.
        4 => (count.wrapping_sub(1), start + form.offset),
        5 => (count + 1, start.wrapping_sub(form.offset)),
        6 => (0, trailer),
        _ => {
            file[trailer + random.below(TRAILER)] = random.word() as u8;
            return;
        }
    };
    file[trailer + 2..trailer + 4].copy_from_slice(&(count as u16).to_be_bytes());
    file[trailer + 4..].copy_from_slice(&(start as u32).to_be_bytes());
}

/// Damages the table of a file that has one as long as its trailer says.
fn damage_table(random: &mut Random, file: &mut [u8], form: &Form) {
    let Some(trailer) = file.len().checked_sub(TRAILER) else { return };
    let (count, start) = (read(&file[trailer + 2..trailer + 4]), read(&file[trailer + 4..]));
    if count == 0 || start + count * form.offset != trailer {
        return;
    }
    let put = |file: &mut [u8], at: usize, value: usize| {
        let bytes = &(value as u64).to_be_bytes()[8 - form.offset..];
        file[at..at + form.offset].copy_from_slice(bytes);
    };
    let place = |k: usize| start + k * form.offset;
    let entry = |k: usize| match k < count {
        true => read(&file[place(k)..place(k + 1)]),
        false => start,
    };
    let k = if random.chance(20) { 0 } else { random.below(count) };
    let value = match random.below(10) {
        0 => entry(k.wrapping_sub(1).min(count)),
        1 => entry(k + 1),
        2 => start,
        3 => start.wrapping_sub(1),
        4 => start + 1 + random.below(9),
        5 => entry(k) + 1,
        6 => entry(k).wrapping_sub(1),
        7 => 0,
        8 => random.word() as usize,
        _ => {
            let other = random.below(count);
            let value = entry(other);
            let swapped = entry(k);
            put(file, place(other), swapped);
            value
        }
    };
    put(file, place(k), value);
}

/// Cuts a file, or puts bytes into it; now and then it is something else altogether.
fn damage_length(random: &mut Random, file: &mut Vec<u8>) {
    let at = random.below(file.len() + 1);
    match random.below(10) {
        0 => file.truncate(at),
        1 => drop(file.drain(..at)),
        2 => drop(file.pop()),
        3 if at < file.len() => drop(file.remove(at)),
        4 => file.insert(at, random.pick(&[0x00, 0x01, 0x82, 0xff])),
        5 => file.extend((0..=random.below(9)).map(|_| random.pick(&[0x00, 0x01, 0x0a]))),
        6 => drop(file.drain(..file.len().saturating_sub(random.below(TRAILER + 3)))),
        7 => *file = (0..random.below(40)).map(|_| random.word() as u8).collect(),
        8 => *file = random_input(random),
        _ => {
            let bytes = VERSION_1.bytes - 2 + random.below(5);
            file.splice(0..0, vec![0x01; bytes.saturating_sub(file.len())]);
        }
    }
}

/// The file with these messages, damaged `percent` times in a hundred.
pub fn file_with(
    random: &mut Random,
    mut messages: Vec<Vec<u8>>,
    percent: usize,
    form: &Form,
) -> Vec<u8> {
    if !random.chance(percent) {
        return file_of(&messages, form);
    }
    let kind = random.below(10);
    if kind < 4 {
        for _ in 0..random.pick(&[1, 1, 2, 3]) {
            damage_message(random, &mut messages, form);
        }
    }
    let form = match random.below(30) {
        // The other version, and one of no version.
        0 => Form { version: 3 - form.version, offset: 6 - form.offset, ..*form },
        1 => Form { offset: 6 - form.offset, ..*form },
        2 => Form { version: 3 - form.version, ..*form },
        3 => Form { version: 3, ..*form },
        _ => *form,
    };
    let mut file = file_of(&messages, &form);
    // In the order of the refusals, of which the first counts.
    if matches!(kind, 3..=6) {
        for _ in 0..random.pick(&[1, 1, 2]) {
            damage_table(random, &mut file, &form);
        }
    }
    match kind {
        7 => damage_trailer(random, &mut file, &form),
        8 => damage_length(random, &mut file),
        9 if !file.is_empty() => {
            let at = random.below(file.len());
            file[at] ^= 1 << random.below(8);
        }
        _ => (),
    }
    file
}

/// Any file; about a half is damaged.
pub fn file(random: &mut Random) -> Vec<u8> {
    let form = form(random);
    let messages = messages(random, &[], &form);
    file_with(random, messages, 50, &form)
}

/// A file to be rewritten as version 2, most often one of version 1.
pub fn old_file(random: &mut Random) -> Vec<u8> {
    let form = if random.chance(10) { VERSION_2 } else { VERSION_1 };
    let messages = messages(random, &[], &form);
    file_with(random, messages, 25, &form)
}

/// A file for a message to be added to; some are so long that the message just has its
/// place, or just has none.
pub fn file_for(random: &mut Random, message: &[u8]) -> Vec<u8> {
    if random.below(25) == 0 {
        let form = VERSION_1;
        let taken = message.len().min(form.limits.bytes) + form.offset;
        let bytes = near_limit(random) - taken + random.pick(&[0, 0, 0, taken.min(9)]);
        let messages = messages_of_bytes(random, bytes, &[], &form);
        return file_with(random, messages, 5, &form);
    }
    let form = form(random);
    let messages = messages(random, &[], &form);
    file_with(random, messages, 20, &form)
}

/// A file whose references go by names, and lists that have them, most often all.
pub fn named_file(random: &mut Random) -> (Vec<u8>, Lists) {
    let (published, own) = lists(random);
    let known = [names_of(&published), names_of(&own)].concat();
    let form = form(random);
    let messages = messages(random, &known, &form);
    if random.chance(10) {
        return (file_with(random, messages, 15, &form), lists(random));
    }
    let mut names: Vec<Vec<u8>> = Vec::new();
    for message in &messages {
        let entries = listing_within(message, &form.limits).unwrap_or_default().entries;
        for entry in entries {
            if let Namespace::Name(place) = entry.namespace {
                let name = name_at(message, place);
                if names.len() < 100 && !names.iter().any(|before| before == name) {
                    names.push(name.to_vec());
                }
            }
        }
    }
    if !names.is_empty() && random.chance(25) {
        names.swap_remove(random.below(names.len()));
    }
    let lists = lists_with(random, &names);
    (file_with(random, messages, 15, &form), lists)
}

/// A namespace to search for; most often one that is found.
pub fn namespace(random: &mut Random, file: &[u8], (published, own): &Lists) -> i64 {
    let form = form_of(file);
    let messages = messages_of(file, &form).unwrap_or_default();
    if !messages.is_empty() && random.chance(80) {
        let message = random.pick(&messages);
        let entries = listing_within(message, &form.limits).unwrap_or_default().entries;
        if !entries.is_empty() {
            let entry = random.pick(&entries);
            if let Some(number) = number_of(message, entry.namespace, published, own) {
                return match random.below(12) {
                    0 => number ^ 1 << random.below(64),
                    _ => number,
                };
            }
        }
    }
    match random.below(4) {
        0 => random.word() as i64,
        _ => random.pick(&NAMESPACES),
    }
}

/// A number of a message to ask a file for; some differ from one only in high bits.
pub fn message_number(random: &mut Random, file: &[u8]) -> u64 {
    let count = messages_of(file, &form_of(file)).map_or(3, |messages| messages.len()) as u64;
    let below = random.below(count as usize) as u64;
    match random.below(10) {
        0 => count,
        1 => count + random.below(4) as u64,
        2 => below | 1 << random.pick(&[16, 31, 32, 48, 63]),
        3 => random.word(),
        4 => random.pick(&[0, u64::MAX]),
        5 => count.saturating_sub(1),
        _ => below,
    }
}
