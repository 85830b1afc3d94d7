//! Taking a target out, beside request (xiv): messages worked out from the bytes, and laws that
//! hold of every target and report of every message.

use reading::compare::{compare, Position};
use reading::generate::names::{self as made, Lists};
use reading::generate::pairs::{assembled, parts, put_set};
use reading::generate::strikes::{self, targets};
use reading::generate::{self, put_wide_head, Random};
use reading::strike::{strike, write, Struck};
use reading::vectors::{hex, to_hex};
use reading::*;

/// The items and the shorter message in hex, or the refusal.
fn struck(message: &str, number: u64) -> String {
    match strike(&hex(message), number, &LIMITS) {
        Ok(Struck { items, message }) => format!("{items}: {}", to_hex(&message)),
        Err(refusal) => refusal.to_string(),
    }
}

fn assert_struck(message: &str, number: u64, items: usize, due: &str) {
    assert_eq!(struck(message, number), format!("{items}: {}", to_hex(&hex(due))), "{message}");
}

const C: &str = "01 82 14 82 f6 84 1a00010000 22 00 81 83 33 2a 05";
const ORDER: &str = "01 82 14 83 1904d2 83 1a00010000 22 12 83 1a00010000 21 182b";
const REPORTS: &str = "01 82 15 84 1904d2 1a2b450625 83 00 83 1a00010000 22 12 f6 \
                       83 05 83 1a00010000 22 06 190237";

#[test]
fn worked_examples() {
    assert_struck(C, 0, 5, "01 82 14 81 f6");
    assert_struck(ORDER, 0, 9, "01 82 14 82 1904d2 83 1a00010000 21 182b");
    assert_struck(ORDER, 1, 9, "01 82 14 82 1904d2 83 1a00010000 22 12");
    let reports = "01 82 15 83 1904d2 1a2b450625 83 05 83 1a00010000 22 06 190237";
    assert_struck(REPORTS, 0, 13, reports);
    let reports = "01 82 15 83 1904d2 1a2b450625 83 00 83 1a00010000 22 12 f6";
    assert_struck(REPORTS, 1, 13, reports);

    // Three sets, an empty one in between, with numbers that go on through all
    let sets = "01 8214 83 00 83f62000 83f62001 8214 81 f6 8215 84 f6 00 820083f62002 820083f62003";
    for (number, items, due) in [
        (0, 30, "01 8214 82 00 83f62001 8214 81 f6 8215 84 f6 00 820083f62002 820083f62003"),
        (1, 30, "01 8214 82 00 83f62000 8214 81 f6 8215 84 f6 00 820083f62002 820083f62003"),
        (2, 28, "01 8214 83 00 83f62000 83f62001 8214 81 f6 8215 83 f6 00 820083f62003"),
        (3, 28, "01 8214 83 00 83f62000 83f62001 8214 81 f6 8215 83 f6 00 820083f62002"),
    ] {
        assert_struck(sets, number, items, due);
    }
    // "The inner array's new head is the shortest, other bytes stay": all else in long heads
    assert_struck(
        "1801 9802 1814 9b0000000000000003 1800 9803 f6 3800 1800 990003 f6 390000 190001",
        0,
        9,
        "1801 9802 1814 82 1800 990003 f6 390000 190001",
    );
    assert_struck(
        "1801 9802 1815 9803 5800 1900ff 9802 1800 9803 7801 61 3800 1800",
        0,
        6,
        "1801 9802 1815 82 5800 1900ff",
    );
    // A set whose head is longer than it has to be, but which loses nothing, keeps it.
    assert_struck(
        "01 8214 9802 f6 83f62000 8214 9802 f6 83f62001 8214 9801 f6",
        1,
        17,
        "01 8214 9802 f6 83f62000 8214 81 f6 8214 9801 f6",
    );
}

/// 27 "with their count, after the message's own".
#[test]
fn refusals() {
    for (message, count) in [("01", 0), ("01 82 14 81 f6", 0), (C, 1), (ORDER, 2), (REPORTS, 2)] {
        for number in [count, count + 1, count + 256, 1 << 32, 1 << 63, u64::MAX] {
            assert_eq!(struck(message, number), format!("refused 27 {count}"), "{message}");
        }
        for number in 0..count {
            assert!(!struck(message, number).starts_with("refused"), "{message}");
        }
    }
    for number in [0, 1, u64::MAX] {
        assert_eq!(struck("", number), "refused 2 0");
        assert_eq!(struck("02", number), "refused 8 0");
        assert_eq!(struck("01 82 14 82 f6 83 00 20", number), "refused 2 8");
        assert_eq!(struck("01 82 14 83 f6 83 00 20 00 81 00", number), "refused 7 9");
        // No message: a target, a set
        assert_eq!(struck("83 f6 20 00", number), "refused 7 0");
        assert_eq!(struck("82 14 82 f6 83 f6 20 00", number), "refused 7 0");
        let long = vec![1; LIMITS.bytes + 1];
        assert_eq!(strike(&long, number, &LIMITS).unwrap_err().to_string(), "refused 1 0");
    }
}

/// A set of so many members, its head as wide as that, a target or report in each place but the
/// first ones; other sets in front and behind.
fn set_of(members: usize, width: usize, is_report: bool) -> (Vec<u8>, usize) {
    let mut message = hex("01 8214 82 f6 83 6161 20 00 82");
    message.push(if is_report { 0x15 } else { 0x14 });
    let head = message.len();
    put_wide_head(&mut message, 4, members as u64, width);
    message.extend(if is_report { &[0xf6, 0x00][..] } else { &[0xf6] });
    let fixed = if is_report { 2 } else { 1 };
    for k in fixed..members {
        if is_report {
            message.extend([0x82, 0x00]);
        }
        message.extend([0x83, 0xf6, 0x20]);
        generate::put_head(&mut message, 0, k as u64);
    }
    message.extend(hex("8214 9802 f6 83 6162 20 00"));
    (message, head)
}

/// "heads that shrink": at each size of a head, from each width that holds it.
#[test]
fn heads_at_each_size() {
    let mut shrunk = Vec::new();
    for is_report in [false, true] {
        let least = if is_report { 3 } else { 2 };
        for members in [least, least + 1, 22, 23, 24, 25, 26, 254, 255, 256, 257, 258, 400] {
            for width in [0, 1, 2, 4, 8] {
                if width < generate::width(members as u64) {
                    continue;
                }
                let (message, head) = set_of(members, width, is_report);
                let count = targets(&message);
                assert_eq!(count, 2 + members - (least - 1));
                let new_head = generate::width(members as u64 - 1);
                for number in [1, count / 2, count - 2] {
                    let Struck { message: shorter, .. } =
                        strike(&message, number as u64, &LIMITS).unwrap();
                    let mut due = message[..head].to_vec();
                    generate::put_head(&mut due, 4, members as u64 - 1);
                    let records = items_message(&message).unwrap();
                    let at = records.iter().find(|r| r.target == Some(number)).unwrap();
                    due.extend(&message[head + 1 + width..at.first]);
                    due.extend(&message[at.after..]);
                    assert_eq!(shorter, due);
                    assert_eq!(
                        message.len() - shorter.len(),
                        at.after - at.first + width - new_head
                    );
                }
                // The targets of other sets leave it as it is.
                for number in [0, count - 1] {
                    let Struck { message: shorter, .. } =
                        strike(&message, number as u64, &LIMITS).unwrap();
                    let set = &message[head..head + 1 + width];
                    let moved = if number == 0 { head - 5 } else { head };
                    assert_eq!(&shorter[moved..moved + set.len()], set);
                }
                shrunk.push((width, new_head));
            }
        }
    }
    for pair in [(0, 0), (1, 0), (1, 1), (2, 1), (2, 2), (2, 0), (4, 1), (8, 0), (8, 2)] {
        assert!(shrunk.contains(&pair), "{pair:?}");
    }
}

/// "room exact and one short"; nothing is written on a refusal, nor behind the message.
#[test]
fn room() {
    for (message, number) in [(C, 0), (ORDER, 0), (ORDER, 1), (REPORTS, 1)] {
        let answer = strike(&hex(message), number, &LIMITS).unwrap();
        let need = answer.message.len();
        for length in 0..need + 40 {
            let mut room = vec![0xee; length];
            let given = write(&answer, &mut room);
            if length < need {
                assert_eq!(given, Err(Refusal { test: Test::Room, place: need }));
                assert_eq!(room, vec![0xee; length]);
            } else {
                assert_eq!(given, Ok(Written { items: answer.items, size: need }));
                assert_eq!(room[..need], answer.message[..]);
                assert!(room[need..].iter().all(|byte| *byte == 0xee));
            }
        }
    }
    let written = write(&strike(&hex(C), 0, &LIMITS).unwrap(), &mut [0; 5]);
    assert_eq!(archive::packed_written(written), 0x0000_0005_0000_0005);
    let refused = strike(&hex(C), 1, &LIMITS).unwrap_err();
    assert_eq!(archive::packed_written(Err(refused)), 0x1b00_0000_0000_0001);
}

/// The limits are those given with the call, and are those of the message that was given.
#[test]
fn limits() {
    for limits in [FIRST_LIMITS, LIMITS] {
        for past in 0..2 {
            let mut bytes = hex("01 8214 82 f6 84 f6 20 00 81");
            let left = limits.bytes + past - bytes.len() - 3;
            put_wide_head(&mut bytes, 2, left as u64, 2);
            bytes.resize(limits.bytes + past, 0xff);
            let items = generate::counted_message(&[1], 1, limits.items + past);
            for (message, due) in [(bytes, "01 8214 81 f6"), (items, "01 8215 82 f6 00")] {
                match strike(&message, 0, &limits) {
                    Ok(answer) if past == 0 => assert_eq!(answer.message, hex(due)),
                    Err(refusal) if past == 1 => assert_ne!(refusal.test, Test::NoTarget),
                    other => panic!("{other:?}"),
                }
            }
        }
    }
}

/// What was taken out of a message: some bytes of the head at `inner`, and those from `first` to
/// `after`.
struct Removed {
    inner: usize,
    shrunk: usize,
    first: usize,
    after: usize,
}

impl Removed {
    fn moved(&self, place: usize) -> usize {
        assert!(place <= self.first || place >= self.after, "within what is gone");
        let head = if place > self.inner { self.shrunk } else { 0 };
        let part = if place >= self.after { self.after - self.first } else { 0 };
        place - head - part
    }

    fn holds(&self, first: usize) -> bool {
        (self.first..self.after).contains(&first)
    }
}

fn removed(message: &[u8], records: &[Record], number: usize) -> Removed {
    let part = records.iter().position(|r| r.target == Some(number)).expect("there");
    let is_around = |r: &&Record| r.around == 1 && matches!(r.kind, Kind::Array(_));
    let inner = records[..part].iter().rev().find(is_around).expect("its set's inner array");
    let Kind::Array(members) = inner.kind else { unreachable!() };
    let old = head_size(message[inner.first]);
    let new = 1 + generate::width(members - 1);
    let Record { first, after, .. } = records[part];
    Removed { inner: inner.first, shrunk: old - new, first, after }
}

/// "its listing is the old one without the entries inside the struck part, each place moved up
/// by the bytes removed before it"
fn listing_due(entries: &[Entry], removed: &Removed) -> Vec<Entry> {
    let kept = entries.iter().filter(|entry| !removed.holds(entry.first));
    kept.map(|entry| Entry {
        first: removed.moved(entry.first),
        after: removed.moved(entry.after),
        namespace: match entry.namespace {
            Namespace::Name(place) => Namespace::Name(removed.moved(place)),
            other => other,
        },
    })
    .collect()
}

/// The old records without those inside, moved; the inner array has one member fewer, and what
/// came behind the struck one has the number before its own.
fn records_due(records: &[Record], removed: &Removed, number: usize) -> Vec<Record> {
    let kept = records.iter().filter(|record| !removed.holds(record.first));
    kept.map(|record| Record {
        first: removed.moved(record.first),
        after: removed.moved(record.after),
        target: record.target.map(|target| target - usize::from(target > number)),
        kind: match record.kind {
            Kind::Array(length) if record.first == removed.inner => Kind::Array(length - 1),
            other => other,
        },
        ..*record
    })
    .collect()
}

fn release(message: &[u8], table: &[u8], lists: &Lists, subscriber: u64) -> Release {
    names::release(message, table, &lists.0, &lists.1, subscriber, &LIMITS).expect("accepted")
}

/// A message, most of them with names of lists in the place of some namespaces; with lists and
/// a table for it.
fn judged(random: &mut Random) -> Option<(Vec<u8>, Lists, Vec<u8>, u64)> {
    let mut message = match random.chance(60) {
        true => strikes::message(random),
        false => {
            let settings = generate::settings(random);
            generate::message(
                random,
                generate::Settings { items: settings.items.min(300), ..settings },
            )
        }
    };
    let mut lists = Lists::default();
    if random.chance(60) {
        let (published, own) = made::lists(random);
        let known = [made::names_of(&published), made::names_of(&own)].concat();
        made::rename(random, &mut message, &known, 60);
        lists = made::lists_for(random, &message);
    }
    items_message(&message).ok()?;
    let (mut table, subscriber) = made::table_for(random, &message, &lists);
    table.truncate(table.len() / 16 * 16);
    names::check_names(&lists.0, &lists.1).ok()?;
    Some((message, lists, table, subscriber))
}

/// Every target and report of each message.
#[test]
fn laws() {
    let random = &mut Random::new(14);
    let (mut messages, mut all, mut shrunk, mut emptied, mut several, mut yes, mut cured) =
        (0, 0, [0; 9], 0, 0, 0, 0);
    while messages < 1_500 {
        let Some((message, lists, table, subscriber)) = judged(random) else { continue };
        messages += 1;
        let records = items_message(&message).unwrap();
        let entries = listing(&message).unwrap().entries;
        let count = targets(&message);
        let before = release(&message, &table, &lists, subscriber);
        let mut numbers: Vec<usize> = (0..count).collect();
        // Of many, those at either end and some between
        if count > 30 {
            numbers.retain(|k| *k < 5 || *k + 5 > count || random.chance(1_000 / count));
        }
        for number in numbers {
            let of = || format!("target {number} of {}", to_hex(&message));
            let Struck { items, message: shorter } =
                strike(&message, number as u64, &LIMITS).unwrap();
            let gone = removed(&message, &records, number);

            // "the shorter message is accepted"
            assert_eq!(check_message(&shorter), Answer::Accepted(items), "{}", of());
            assert!(shorter.len() < message.len(), "{}", of());
            let now = listing(&shorter).unwrap();
            assert_eq!(now.entries, listing_due(&entries, &gone), "{}", of());
            assert_eq!(
                (now.items, items_message(&shorter)),
                (items, Ok(records_due(&records, &gone, number)))
            );
            // "other bytes stay": three parts of the old message around one head
            let inner = records.iter().find(|r| r.first == gone.inner).unwrap();
            let old_head = head_size(message[inner.first]);
            let parts = [
                &message[..gone.inner],
                &shorter[gone.inner..gone.inner + old_head - gone.shrunk],
                &message[gone.inner + old_head..gone.first],
                &message[gone.after..],
            ];
            assert_eq!(parts.concat(), shorter, "{}", of());
            // "a message released before is released after by the same table and lists for the
            // same subscriber"
            let after = release(&shorter, &table, &lists, subscriber);
            assert!(before != Release::Yes || after == Release::Yes, "{}", of());
            // One that is held before the struck part is held so still; one that is held within
            // it is held behind it, if at all.
            let inside = |k: usize| gone.holds(entries[k].first);
            match (before, after) {
                (Release::No(k), Release::No(now)) if !inside(k) => {
                    let ahead = (0..k).filter(|k| inside(*k)).count();
                    assert_eq!(now, k - ahead, "{}", of());
                }
                (Release::No(k), Release::No(now)) => {
                    assert!(now >= (0..k).filter(|k| !inside(*k)).count(), "{}", of());
                }
                (Release::No(k), Release::Yes) => {
                    assert!(inside(k), "{}", of());
                    cured += 1;
                }
                _ => (),
            }

            all += 1;
            shrunk[gone.shrunk] += 1;
            let is_report = records[inner_type(&records, &gone)].kind == Kind::Unsigned(21);
            let fixed = if is_report { 2 } else { 1 };
            emptied += usize::from(inner.kind == Kind::Array(fixed + 1));
            several += usize::from(entries.iter().filter(|e| gone.holds(e.first)).count() > 2);
            yes += usize::from(before == Release::Yes && !entries.is_empty());
        }
    }
    let seen = [all, emptied, several, yes, cured, shrunk[0], shrunk[1], shrunk[8]];
    assert!(seen.iter().all(|times| *times > 100), "{seen:?}, {shrunk:?}");
}

/// The item before the inner array: the set's type.
fn inner_type(records: &[Record], gone: &Removed) -> usize {
    records.iter().position(|r| r.first == gone.inner).unwrap() - 1
}

/// Two struck, in either order, leave the same message; all struck, one with empty sets.
#[test]
fn one_after_another() {
    let random = &mut Random::new(15);
    let (mut pairs, mut messages) = (0, 0);
    while messages < 600 {
        let message = strikes::message(random);
        let count = targets(&message);
        if count < 2 {
            continue;
        }
        messages += 1;
        let out = |message: &[u8], number: usize| {
            strike(message, number as u64, &LIMITS).unwrap().message
        };
        for _ in 0..4 {
            let (i, j) = (random.below(count), random.below(count));
            let (i, j) = (i.min(j), i.max(j));
            if i < j {
                pairs += 1;
                assert_eq!(out(&out(&message, j), i), out(&out(&message, i), j - 1));
            }
        }
        if count > 30 && random.chance(90) {
            continue;
        }
        // From the front, from the back, or by chance
        let order = random.below(3);
        let mut left = message.clone();
        for count in (1..=count).rev() {
            assert_eq!(targets(&left), count);
            left = out(&left, [0, count - 1, random.below(count)][order]);
        }
        assert_eq!(strike(&left, 0, &LIMITS).unwrap_err().to_string(), "refused 27 0");
        assert_eq!(listing(&left).unwrap().entries, []);
        // What is left of each set is its nonce and, of reports, its time.
        let sets = |message: &[u8]| -> Vec<Kind> {
            let records = items_message(message).unwrap();
            let outside = records.iter().filter(|r| r.target.is_none());
            let without = outside.map(|r| match r.kind {
                Kind::Array(_) => Kind::Array(0),
                kind => kind,
            });
            without.collect()
        };
        assert_eq!(sets(&left), sets(&message));
    }
    assert!(pairs > 1_000, "{pairs}");
}

/// Compared with the old message, all ahead of the struck one is the same; from there on each
/// stands beside the one that came behind it, and the last is only in the old one.
#[test]
fn struck_and_compared() {
    let random = &mut Random::new(16);
    let (mut messages, mut all, mut same, mut changed, mut last) = (0, 0, 0, 0, 0);
    while messages < 1_000 {
        let Some((message, ..)) = judged(random) else { continue };
        // Some stand there twice or more, side by side.
        let mut chosen = Vec::new();
        for part in parts(&message).into_iter().take(20) {
            let times = random.pick(&[1, 1, 1, 2, 3]);
            chosen.resize(chosen.len() + times, part);
        }
        let message = assembled(random, &chosen);
        if items_message(&message).is_err() {
            continue;
        }
        messages += 1;
        let parts = parts(&message);
        assert_eq!(parts, chosen);
        let itself = compare(&message, &message, &LIMITS).unwrap();
        assert_eq!(itself, vec![Position::Same; parts.len()]);
        for number in 0..parts.len().min(12) {
            // From either end
            let number = if number % 2 == 0 { number / 2 } else { parts.len() - 1 - number / 2 };
            let of = || format!("target {number} of {}", to_hex(&message));
            let shorter = strike(&message, number as u64, &LIMITS).unwrap().message;
            let list = compare(&message, &shorter, &LIMITS).unwrap();
            let (end, others) = list.split_last().expect("one at least");
            assert_eq!((*end, list.len()), (Position::OnlyFirst, parts.len()), "{}", of());
            assert!(others[..number].iter().all(|it| *it == Position::Same), "{}", of());
            // The same as each part beside the next one, alone
            for (k, position) in others.iter().enumerate().skip(number) {
                let [one, two] = [&parts[k], &parts[k + 1]].map(|part| {
                    let mut alone = vec![1];
                    put_set(random, &mut alone, part.is_report, std::slice::from_ref(part));
                    alone
                });
                let alone = compare(&one, &two, &LIMITS).unwrap();
                let is_same = *position == Position::Same;
                assert_eq!(is_same, alone == [Position::Same], "{}", of());
                *(if is_same { &mut same } else { &mut changed }) += 1;
            }
            all += 1;
            last += usize::from(number + 1 == parts.len());
        }
    }
    let seen = [all, same, changed, last];
    assert!(seen.iter().all(|times| *times > 100), "{seen:?}");
    let c = hex(C);
    let shorter = strike(&c, 0, &LIMITS).unwrap().message;
    assert_eq!(compare(&c, &shorter, &LIMITS), Ok(vec![Position::OnlyFirst]));
    assert_eq!(compare(&shorter, &hex("01"), &LIMITS), Ok(Vec::new()));
}
