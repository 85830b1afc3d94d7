//! A second message beside a first, to be compared with it: most of its targets and reports
//! are those of the first, in other sets and heads, with names in another case; some changed,
//! put elsewhere, left out or added.

use super::{damage, members, put_head, Random};
use crate::vectors::hex;
use crate::{items_message, Kind, Record};

/// A target or a report, with its bytes.
#[derive(Clone, Debug, PartialEq, Eq)]
pub struct Part {
    pub is_report: bool,
    pub bytes: Vec<u8>,
}

/// The targets and reports of an accepted message, in order.
pub fn parts(message: &[u8]) -> Vec<Part> {
    let records = items_message(message).expect("accepted");
    let mut parts: Vec<Part> = Vec::new();
    for record in records {
        // The first item of each number is its own head.
        if record.target == Some(parts.len()) {
            let bytes = message[record.first..record.after].to_vec();
            parts.push(Part { is_report: !record.reference, bytes });
        }
    }
    parts
}

const NONCES: [&[u8]; 6] = [b"\xf6", b"\x00", b"\x18\xff", b"\x40", b"\x42\x83\x00", b"\x41a"];
const TIMES: [&[u8]; 4] = [b"\x00", b"\x20", b"\x19\x10\x00", b"\x1a\x2b\x45\x06\x25"];

/// A set of these; its nonce and time are by chance.
pub fn put_set(random: &mut Random, out: &mut Vec<u8>, is_report: bool, parts: &[Part]) {
    let fixed = if is_report { 2 } else { 1 };
    put_head(out, 4, 2);
    put_head(out, 0, if is_report { 21 } else { 20 });
    put_head(out, 4, fixed + parts.len() as u64);
    out.extend(random.pick(&NONCES));
    if is_report {
        out.extend(random.pick(&TIMES));
    }
    parts.iter().for_each(|part| out.extend(&part.bytes));
}

/// A message of these, split into sets by chance; some sets hold none.
pub fn assembled(random: &mut Random, parts: &[Part]) -> Vec<u8> {
    let (mut out, mut rest) = (vec![1], parts);
    loop {
        if random.chance(15) {
            let is_report = random.chance(50);
            put_set(random, &mut out, is_report, &[]);
        }
        let Some(Part { is_report, .. }) = rest.first() else { return out };
        let run = rest.iter().take_while(|part| part.is_report == *is_report).count();
        let size = if random.chance(60) { run } else { 1 + random.below(run) };
        let (set, behind) = rest.split_at(size);
        put_set(random, &mut out, *is_report, set);
        rest = behind;
    }
}

/// Another one in its place, which most often is of the same kind and differs in one item or
/// one byte; itself, if none is found.
pub fn changed(random: &mut Random, part: &Part) -> Part {
    let mut alone = vec![1];
    put_set(random, &mut alone, part.is_report, std::slice::from_ref(part));
    let Ok(records) = items_message(&alone) else { return part.clone() };
    let inside: Vec<Record> = records.into_iter().filter(|r| r.target.is_some()).collect();
    for _ in 0..20 {
        let mut tried = alone.clone();
        match random.below(4) {
            0 => {
                let at = inside[0].first + random.below(part.bytes.len());
                tried[at] ^= 1 << random.below(8);
            }
            1 => tried = super::one_letter(random, &tried, &inside),
            _ => damage(random, &mut tried, &inside, &[]),
        }
        if items_message(&tried).is_err() {
            continue;
        }
        if let [instead] = &parts(&tried)[..] {
            if instead != part {
                return instead.clone();
            }
        }
    }
    part.clone()
}

/// A report whose source is the target, or the source of a report as a target.
fn turned(part: &Part) -> Part {
    match part.is_report {
        true => {
            let alone = [&[1, 0x82, 0x15, 0x83, 0xf6, 0x00], &part.bytes[..]].concat();
            let records = items_message(&alone).expect("accepted");
            // The report is item 6, its time item 7 and its source item 8.
            let source = alone[records[8].first..records[8].after].to_vec();
            Part { is_report: false, bytes: source }
        }
        false => Part { is_report: true, bytes: [&[0x82, 0x00], &part.bytes[..]].concat() },
    }
}

/// An accepted message with letters in the other case in namespaces, object types and ids,
/// each by chance of so many in a hundred.
pub fn recased(random: &mut Random, message: &[u8], letters: usize) -> Vec<u8> {
    let records = items_message(message).expect("accepted");
    let mut out = message.to_vec();
    for k in (0..records.len()).filter(|k| records[*k].reference) {
        for name in members(&records, k).into_iter().take(3) {
            let Kind::Text(length) = name.kind else { continue };
            for at in name.after - length as usize..name.after {
                if out[at].is_ascii_alphabetic() && random.chance(letters) {
                    out[at] ^= 0x20;
                }
            }
        }
    }
    out
}

/// A message to be compared with an accepted one.
pub fn beside(random: &mut Random, first: &[u8]) -> Vec<u8> {
    let mut parts = parts(first);
    let at = random.below(parts.len());
    match random.below(16) {
        _ if parts.is_empty() => (),
        0..=3 => (),
        4..=8 => parts[at] = changed(random, &parts[at]),
        9 => {
            for part in &mut parts {
                if random.chance(30) {
                    *part = changed(random, part);
                }
            }
        }
        10 => {
            let other = random.below(parts.len());
            parts.swap(at, other);
        }
        11 => drop(parts.remove(at)),
        12 => parts.truncate(at),
        13 => parts.insert(at, changed(random, &parts[at])),
        14 => parts.extend_from_within(at..),
        _ => parts[at] = turned(&parts[at]),
    }
    let mut second = assembled(random, &parts);
    if items_message(&second).is_ok() {
        let letters = random.pick(&[0, 0, 10, 50]);
        second = recased(random, &second, letters);
    }
    let heads = random.pick(&[0, 0, 10, 40, 100]);
    super::rewritten(random, &second, 0, heads)
}

/// ARIs of every kind, some the same as others but for a head or for letters.
const ARIS: [&str; 32] = [
    "00",
    "1800",
    "20",
    "f6",
    "f93c00",
    "fa3f800001",
    "4161",
    "4141",
    "6161",
    "6141",
    "780161",
    "81 6161",
    "81 6141",
    "81 622161",
    "82 0a 6161",
    "82 0a 6141",
    "82 0e 6161",
    "82 0e 6141",
    "82 11 80",
    "82 11 81 6161",
    "82 11 81 6141",
    "82 11 82 81 6161 6161",
    "82 11 82 81 6141 6161",
    "82 12 a1 6161 00",
    "82 12 a1 6141 00",
    "82 12 a1 00 81 6161",
    "83 6161 6162 6163",
    "83 6141 6142 6143",
    "84 f6 20 00 83 6161 6162 6163",
    "84 f6 20 00 83 6141 6162 6163",
    "84 6161 20 00 a1 6161 00",
    "84 6141 20 00 a1 6161 00",
];

/// Messages of few items, to be compared each with each: with one of these ARIs as a target, as
/// a parameter, as a parameter map's value, as a report's source and as its item. Some are
/// refused.
pub fn small() -> Vec<Vec<u8>> {
    const AROUND: [&str; 6] = [
        "01 82 14 82 f6 ..",
        "01 82 14 83 00 83 f6 20 00 84 f6 20 00 81 ..",
        "01 82 14 81 f6 82 14 82 f6 84 f6 20 00 a1 6161 ..",
        "01 82 15 83 f6 00 82 00 ..",
        "01 82 15 83 f6 00 83 00 83 6161 6162 6163 ..",
        "01 82 15 84 f6 01 84 00 83 6161 6162 6163 .. 00 82 00 83 f6 20 00",
    ];
    AROUND.iter().flat_map(|around| ARIS.map(|ari| hex(&around.replace("..", ari)))).collect()
}
