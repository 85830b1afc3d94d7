//! Months: day files with their lists, one after another, whose namespaces meet; many of them
//! together have about as many as a month may.

use super::days::{self, file_with, form};
use super::names::{any_name, lists, Lists};
use super::tables::shuffle;
use super::{put_head, Random, NAMESPACES};
use crate::day::Form;
use crate::month::BOUNDS;

/// A day file with the lists that are given with it.
pub type Day = (Vec<u8>, Lists);

/// What stands as a reference's namespace, with its head.
fn space(number: i64) -> Vec<u8> {
    let mut space = Vec::new();
    match number < 0 {
        true => put_head(&mut space, 1, !number as u64),
        false => put_head(&mut space, 0, number as u64),
    }
    space
}

fn named(name: &[u8]) -> Vec<u8> {
    let mut space = Vec::new();
    put_head(&mut space, 3, name.len() as u64);
    space.extend(name);
    space
}

/// A message whose targets and their parameters have these namespaces, in that order; of
/// null, which is relative, only targets.
pub fn message_with(random: &mut Random, spaces: &[Vec<u8>]) -> Vec<u8> {
    let (mut targets, mut count) = (Vec::new(), 0);
    let mut rest = spaces;
    while let Some((first, behind)) = rest.split_first() {
        // As many as are not null go into the parameters.
        let most = behind.iter().take_while(|space| **space != [0xf6]).count();
        let inside = match random.below(3) {
            0 => 0,
            1 => most,
            _ => random.below(most + 1),
        };
        targets.push(if inside > 0 { 0x84 } else { 0x83 });
        targets.extend(first);
        targets.extend([0x20, 0x00]);
        if inside > 0 {
            put_head(&mut targets, 4, inside as u64);
            for space in &behind[..inside] {
                targets.push(0x81);
                targets.extend(space);
            }
        }
        count += 1;
        rest = &behind[inside..];
    }
    let mut message = vec![0x01, 0x82, 0x14];
    put_head(&mut message, 4, 1 + count);
    message.push(0xf6);
    message.extend(targets);
    message
}

/// A file with a reference to each of the numbers, some by a name that its lists have; and with
/// relative ones and names unknown.
pub fn day_of(random: &mut Random, numbers: &[i64], form: &Form) -> Day {
    let by_name = random.pick(&[0, 0, 30, 100]);
    let (mut published, mut own) = Lists::default();
    let mut spaces = Vec::new();
    for (k, number) in numbers.iter().enumerate() {
        if !random.chance(by_name) {
            spaces.push(space(*number));
            continue;
        }
        let name = format!("{}n{k}", random.pick(&["", "!"]));
        let list = if name.starts_with('!') { &mut own } else { &mut published };
        list.extend(format!("{name}={number}\n").bytes());
        let turned = if random.chance(20) { name.to_uppercase() } else { name };
        spaces.push(named(turned.as_bytes()));
    }
    for _ in 0..random.pick(&[0, 0, 1, 5]) {
        let strange = match random.chance(50) {
            true => vec![0xf6],
            false => named(&any_name(random)),
        };
        spaces.push(strange);
    }
    shuffle(random, &mut spaces);
    // No target needs more than five items, so no message has too many.
    let mut messages = Vec::new();
    let mut rest = &spaces[..];
    while !rest.is_empty() {
        let (most, any) = (rest.len().min(120), random.chance(50));
        let taken = if any { 1 + random.below(most) } else { most };
        messages.push(message_with(random, &rest[..taken]));
        rest = &rest[taken..];
    }
    (file_with(random, messages, 5, form), (published, own))
}

/// Distinct numbers, some of them at the ends of their range.
fn numbers(random: &mut Random, count: usize) -> Vec<i64> {
    let mut numbers = Vec::new();
    let start = random.pick(&[-128, 0, 1 << 40, i64::MIN, i64::MAX - 1_000, -(1 << 31)]);
    while numbers.len() < count {
        let number = match random.below(20) {
            0 => random.pick(&NAMESPACES),
            1 => random.word() as i64,
            _ => start + numbers.len() as i64,
        };
        if !numbers.contains(&number) {
            numbers.push(number);
        }
    }
    shuffle(random, &mut numbers);
    numbers
}

/// Files that together have about as many namespaces as may be: some bring new ones, some
/// only such as came before.
fn crowded(random: &mut Random) -> Vec<Day> {
    let all = BOUNDS.namespaces - 1 + random.pick(&[0, 1, 2, 3, 9]);
    let numbers = numbers(random, all);
    let mut days = Vec::new();
    let mut come = 0;
    while come < all {
        let more = match random.below(5) {
            0 => all - come,
            1 => (BOUNDS.namespaces + random.below(3)).saturating_sub(come + 1).min(all - come),
            2 => 1.min(all - come),
            _ => random.below(all - come + 1),
        };
        let mut taken = numbers[come..come + more].to_vec();
        for _ in 0..random.pick(&[0, 1, 3, 40]) {
            taken.push(random.pick(&numbers[..(come + more).max(1)]));
        }
        let form = form(random);
        days.push(day_of(random, &taken, &form));
        come += more;
    }
    for _ in 0..random.below(3) {
        let taken = [random.pick(&numbers), random.pick(&numbers)];
        let form = form(random);
        days.push(day_of(random, &taken, &form));
    }
    days
}

/// Files of a month, most of them to be added.
pub fn month(random: &mut Random) -> Vec<Day> {
    match random.below(10) {
        0 => crowded(random),
        1 | 2 => (0..1 + random.below(4)).map(|_| days::named_file(random)).collect(),
        3 => (0..1 + random.below(4)).map(|_| (days::file(random), lists(random))).collect(),
        _ => {
            let count = 1 + random.below(12);
            let numbers = numbers(random, count);
            let days = 1 + random.below(6);
            (0..days)
                .map(|_| {
                    let count = random.below(9);
                    let taken: Vec<i64> = (0..count).map(|_| random.pick(&numbers)).collect();
                    let form = form(random);
                    day_of(random, &taken, &form)
                })
                .collect()
        }
    }
}
