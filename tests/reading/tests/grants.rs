//! The listing, the table's check and release beside the paper.

use reading::generate::{self, Random};
use reading::vectors::hex;
use reading::*;

const C: &str = "01821482f6841a0001000022008183332a05";
const ORDER: &str = "01821483 1904d2 831a000100002212 831a0001000021182b";

/// A message's listing, one entry after another.
fn listed(digits: &str) -> String {
    match listing(&hex(digits)) {
        Err(refusal) => refusal.to_string(),
        Ok(Listing { items, entries }) => {
            let mut words = String::new();
            for Entry { first, after, namespace } in entries {
                words += &match namespace {
                    Namespace::Number(number) => format!("{first} {after} {number}, "),
                    Namespace::Name(place) => format!("{first} {after} name at {place}, "),
                    Namespace::Relative => format!("{first} {after} relative, "),
                };
            }
            words + &format!("items {items}")
        }
    }
}

fn table(rows: &[(u64, i64)]) -> Vec<u8> {
    let row = |&(subscriber, namespace)| Row { subscriber, namespace };
    table_bytes(&rows.iter().map(row).collect::<Vec<_>>())
}

fn checked(table: &[u8]) -> String {
    match rows(table).and_then(|rows| check_table(&rows)) {
        Ok(()) => "passes".to_string(),
        Err(refusal) => refusal.to_string(),
    }
}

fn released(digits: &str, table: &[u8], subscriber: u64) -> String {
    match release(&hex(digits), table, subscriber) {
        Ok(Release::Yes) => "yes".to_string(),
        Ok(Release::No(entry)) => format!("no {entry}"),
        Err(refusal) => refusal.to_string(),
    }
}

#[test]
fn listings_of_document_01() {
    assert_eq!(listed(C), "5 18 65536, 14 18 -20, items 14");
    assert_eq!(listed(ORDER), "7 15 65536, 15 24 65536, items 13");
    assert_eq!(listed("01"), "items 1");
    assert_eq!(listed("02"), "refused 8 0");
    assert_eq!(listed(""), "refused 2 0");
}

/// "A reference is an array of length 1, 3 or 4 where the rules above ask for an
/// ARI or an object reference, at any depth; a set's inner array, a report, AC's
/// array and a parameter list are none."
#[test]
fn what_is_listed() {
    // Inner arrays of length 1, 3 and 4, with no references and with two.
    assert_eq!(listed("01 82 14 81 f6"), "items 5");
    assert_eq!(listed("01 82 15 82 f6 00"), "items 6");
    assert_eq!(listed("01 82 14 83 f6 83002000 83f62000"), "5 9 0, 9 13 relative, items 13");
    // Reports of length 2, 3 and 4: only their sources.
    assert_eq!(
        listed("01 82 15 85 f6 00 82 00 83002000 83 00 83012000 f6 84 00 83022000 f6 f7"),
        "8 12 0, 14 18 1, 21 25 2, items 27"
    );
    // [ns] by number and name, AC's array of length 1, a parameter list of 3.
    let report = "01 82 15 83 f6 00 83 00 83002000";
    assert_eq!(listed(&format!("{report} 81 20")), "8 12 0, 12 14 -1, items 14");
    assert_eq!(listed(&format!("{report} 81 6161")), "8 12 0, 12 15 name at 13, items 14");
    assert_eq!(listed(&format!("{report} 82 11 81 00")), "8 12 0, items 16");
    assert_eq!(listed(&format!("{report} 82 11 81 81 00")), "8 12 0, 15 17 0, items 17");
    assert_eq!(
        listed(&format!("{report} 84 f6 20 00 83 00 81 07 62 2161")),
        "8 12 0, 12 23 relative, 18 20 7, items 21"
    );
    // In a map's values, and never its keys; in a map within parameters.
    assert_eq!(listed(&format!("{report} 82 12 a1 00 81 05")), "8 12 0, 16 18 5, items 18");
    assert_eq!(
        listed(&format!("{report} 84 62 2161 20 00 a1 00 83 3b7fffffffffffffff 20 00")),
        format!("8 12 0, 12 32 name at 13, 20 32 {}, items 22", i64::MIN)
    );
    // Type 15 is never opened.
    assert_eq!(listed(&format!("{report} 82 0f 44 83002000")), "8 12 0, items 15");
}

#[test]
fn listing_as_bytes() {
    let message = hex("01 82 14 84 f6 83 3b7fffffffffffffff 20 00 83 62 2161 20 00 83 f6 20 00");
    let expected = hex("00000005 00000011 0000000000000000 8000000000000000
         00000011 00000017 0000000000000001 0000000000000012
         00000017 0000001b 0000000000000002 0000000000000000"
        .replace('\n', "")
        .as_str());
    for length in [0, 1, 23, 24, 48, 71] {
        let mut room = vec![0xa5; length];
        let refusal = Refusal { test: Test::Room, place: 3 };
        assert_eq!(list(&message, &mut room), Err(refusal), "{length}");
        assert!(room.iter().all(|byte| *byte == 0xa5));
    }
    for length in [72, 73, 95, 96, 200] {
        let mut room = vec![0xa5; length];
        assert_eq!(list(&message, &mut room), Ok(Written { items: 17, size: 3 }));
        assert_eq!(room[..72], expected);
        assert!(room[72..].iter().all(|byte| *byte == 0xa5));
    }
    assert_eq!(list(&[1], &mut []), Ok(Written { items: 1, size: 0 }));
    assert_eq!(list(&[2], &mut []), Err(Refusal { test: Test::Version, place: 0 }));
}

/// "Its check answers 18 exactly if two rows with different subscribers carry the
/// same negative namespace".
#[test]
fn table_checks() {
    let answer = |rows| checked(&table(rows));
    assert_eq!(answer(&[]), "passes");
    assert_eq!(answer(&[(7, -20)]), "passes");
    assert_eq!(answer(&[(7, -20), (7, -20)]), "passes");
    assert_eq!(answer(&[(7, -20), (8, -21)]), "passes");
    assert_eq!(answer(&[(7, 0), (8, 0), (9, i64::MAX), (7, i64::MAX)]), "passes");
    assert_eq!(answer(&[(7, -20), (8, -20)]), "refused 18 1");
    assert_eq!(answer(&[(7, i64::MIN), (8, i64::MIN)]), "refused 18 1");
    assert_eq!(answer(&[(0, -1), (u64::MAX, -1)]), "refused 18 1");
    // The first that has a partner before it, not the first of a pair.
    assert_eq!(answer(&[(1, -1), (2, -2), (3, -2), (3, -1)]), "refused 18 2");
    assert_eq!(answer(&[(1, -1), (1, -1), (1, 5), (1, -1), (2, -1)]), "refused 18 4");
    // Subscribers are unsigned, and one bit apart are two.
    assert_eq!(answer(&[(1 << 63, -1), (0, -1)]), "refused 18 1");
}

/// "A table length that isn't a multiple of 16 answers 18 with the number of whole
/// rows".
#[test]
fn ragged_tables() {
    let two = table(&[(7, -20), (8, -20)]);
    for length in 0..=32 {
        let expected = match length {
            0 | 16 => "passes".to_string(),
            32 => "refused 18 1".to_string(),
            _ => format!("refused 18 {}", length / 16),
        };
        assert_eq!(checked(&two[..length]), expected, "{length}");
    }
    let rows = table(&[(7, 65_536), (7, -20)]);
    assert_eq!(released(C, &rows[..31], 7), "refused 18 1");
    assert_eq!(released("01", &[0], 7), "refused 18 0");
    // "after the message's own refusal"
    assert_eq!(released("02", &[0], 7), "refused 8 0");
    assert_eq!(released("0182148100 ff", &rows[..17], 7), "refused 3 5");
}

#[test]
fn releases_of_document_01() {
    assert_eq!(released(C, &table(&[(7, 65_536)]), 7), "no 1");
    assert_eq!(released(C, &table(&[(7, 65_536), (7, -20)]), 7), "yes");
    assert_eq!(released(C, &table(&[(7, -20), (7, 65_536)]), 7), "yes");
    assert_eq!(released(C, &table(&[(7, -20)]), 7), "no 0");
    assert_eq!(released(C, &[], 7), "no 0");
    assert_eq!(released("01", &[], 7), "yes");
    assert_eq!(released("02", &[], 7), "refused 8 0");
    // Another subscriber's row does not match.
    assert_eq!(released(C, &table(&[(8, 65_536), (7, -20)]), 7), "no 0");
    assert_eq!(released(C, &table(&[(7, 65_536), (8, -20)]), 7), "no 1");
    // Equal rows, and a table that fails its check, are all the same to release.
    let clashing = table(&[(8, -20), (7, 65_536), (7, -20), (7, -20)]);
    assert_eq!(checked(&clashing), "refused 18 2");
    assert_eq!(released(C, &clashing, 7), "yes");
}

/// "Names and relative references are never granted here."
#[test]
fn names_and_relatives_are_held() {
    let all = table(&[(7, 0), (7, 6), (7, 7), (7, 5)]);
    assert_eq!(released("01 82 14 82 f6 83 6161 20 00", &all, 7), "no 0");
    assert_eq!(released("01 82 14 83 f6 83 00 20 00 83 f6 20 00", &all, 7), "no 1");
}

/// Release's answer "rests on that subscriber's rows only", and their order and
/// repeats do not matter.
#[test]
fn other_rows_do_not_matter() {
    let mut random = Random::new(3);
    for _ in 0..2_000 {
        let settings = generate::settings(&mut random);
        let message = generate::message(&mut random, settings);
        let (table, subscriber) = generate::tables::table_for(&mut random, &message);
        let Ok(all) = rows(&table) else { continue };
        let mut own: Vec<Row> =
            all.iter().copied().filter(|row| row.subscriber == subscriber).collect();
        own.reverse();
        own.dedup();
        assert_eq!(
            release(&message, &table, subscriber),
            release(&message, &table_bytes(&own), subscriber)
        );
    }
}

/// Under a table that passes its check, no two subscribers have messages released
/// that name the same private number.
#[test]
fn private_numbers_stay_apart() {
    let mut random = Random::new(4);
    let (mut pairs, mut held) = (0, 0);
    for _ in 0..4_000 {
        let settings = generate::settings(&mut random);
        let settings = generate::Settings { items: 20, few_namespaces: true, ..settings };
        let message = generate::message(&mut random, settings);
        let (table, subscriber) = generate::tables::table_for(&mut random, &message);
        let Ok(rows) = rows(&table) else { continue };
        let private = |entry: &Entry| matches!(entry.namespace, Namespace::Number(..=-1));
        let Ok(Listing { entries, .. }) = listing(&message) else { continue };
        if check_table(&rows).is_err() || !entries.iter().any(private) {
            continue;
        }
        if release(&message, &table, subscriber) == Ok(Release::Yes) {
            pairs += 1;
            for other in rows.iter().map(|row| row.subscriber).filter(|s| *s != subscriber) {
                held += 1;
                assert_ne!(release(&message, &table, other), Ok(Release::Yes));
            }
        }
    }
    assert!(pairs > 20 && held > 20, "{pairs} {held}");
}
