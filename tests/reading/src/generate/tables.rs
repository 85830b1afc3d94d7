//! Grant tables: few subscribers and namespaces, so that grants and clashes
//! happen.

use super::Random;
use crate::{listing, table_bytes, Namespace, Row};

/// Some of them one bit apart.
pub(super) const SUBSCRIBERS: [u64; 6] = [0, 7, 6, 7 | 1 << 63, u64::MAX, 7 << 56];

/// A row's namespace if it has nothing to do with a message.
fn any_namespace(random: &mut Random) -> i64 {
    match random.below(4) {
        0 => random.pick(&[i64::MIN, i64::MAX, 0, 65_536, 65_537]),
        1 => random.word() as i64,
        _ => 5 - random.below(30) as i64,
    }
}

pub(super) fn shuffle<T>(random: &mut Random, list: &mut [T]) {
    for k in (1..list.len()).rev() {
        list.swap(k, random.below(k + 1));
    }
}

/// Leaves a table as it is, most often, or cuts or adds a few bytes.
pub(super) fn fray(random: &mut Random, table: &mut Vec<u8>) {
    match random.below(20) {
        0 => table.truncate(table.len().saturating_sub(1 + random.below(15))),
        1 => table.extend((0..=random.below(15)).map(|_| random.word() as u8)),
        _ => (),
    }
}

/// Any table. A half has no clash but one that may be made at its end.
pub fn table(random: &mut Random) -> Vec<u8> {
    let count = match random.below(20) {
        0 => 0,
        1 => 500,
        2..=4 => random.below(100),
        _ => random.below(12),
    };
    let apart = random.chance(50);
    let mut list: Vec<Row> = Vec::new();
    for _ in 0..count {
        let mut row =
            Row { subscriber: random.pick(&SUBSCRIBERS), namespace: any_namespace(random) };
        if let Some(before) = list.iter().find(|before| before.namespace == row.namespace) {
            if apart && row.namespace < 0 {
                row.subscriber = before.subscriber;
            }
        }
        list.push(row);
    }
    if !list.is_empty() && random.chance(30) {
        let mut row = list[random.below(list.len())];
        match random.below(3) {
            0 => row.subscriber ^= 1 << random.below(64),
            1 => row.namespace ^= 1 << random.below(64),
            _ => (),
        }
        list.push(row);
    }
    let mut table = table_bytes(&list);
    fray(random, &mut table);
    table
}

/// A table for the release of a message, and a subscriber. Most often it grants
/// all the numbers that are listed, or all but one.
pub fn table_for(random: &mut Random, message: &[u8]) -> (Vec<u8>, u64) {
    let entries = listing(message).unwrap_or_default().entries;
    let numbers = entries.iter().filter_map(|entry| match entry.namespace {
        Namespace::Number(number) => Some(number),
        _ => None,
    });
    table_granting(random, numbers)
}

/// The same for any numbers.
pub fn table_granting(random: &mut Random, wanted: impl Iterator<Item = i64>) -> (Vec<u8>, u64) {
    let subscriber = match random.below(8) {
        0 => random.word(),
        _ => random.pick(&SUBSCRIBERS),
    };
    if random.chance(10) {
        return (table(random), subscriber);
    }
    let mut numbers: Vec<i64> = Vec::new();
    for number in wanted {
        if !numbers.contains(&number) {
            numbers.push(number);
        }
    }
    let mut list: Vec<Row> =
        numbers.iter().map(|&namespace| Row { subscriber, namespace }).collect();
    // One is missing: it goes to another subscriber, or another number is there.
    if !list.is_empty() && random.chance(50) {
        let row = &mut list[random.below(numbers.len())];
        match random.below(3) {
            0 => row.subscriber = random.pick(&SUBSCRIBERS),
            1 => row.subscriber ^= 1 << random.below(64),
            _ => row.namespace ^= 1 << random.below(64),
        }
    }
    if random.chance(60) {
        for _ in 0..random.pick(&[1, 3, 10, 100]) {
            let namespace = match numbers.is_empty() || random.chance(40) {
                true => any_namespace(random),
                false => random.pick(&numbers),
            };
            // For another, mostly; equal rows for the subscriber happen too.
            let row = match random.below(8) {
                0 if !list.is_empty() => list[random.below(list.len())],
                _ => Row { subscriber: random.pick(&SUBSCRIBERS) ^ 2, namespace },
            };
            list.push(row);
        }
    }
    if random.chance(80) {
        shuffle(random, &mut list);
    }
    let mut table = table_bytes(&list);
    fray(random, &mut table);
    (table, subscriber)
}
