//! The reading beside the paper: its own examples, and laws that hold of every
//! input.

use reading::generate::{self, Random};
use reading::vectors::{hex, to_hex};
use reading::*;

fn single(digits: &str) -> String {
    check_single(&hex(digits)).to_string()
}

fn message(digits: &str) -> String {
    check_message(&hex(digits)).to_string()
}

const C: &str = "01821482f6841a0001000022008183332a05";

/// 'Examples on each side', those marked P and the others that are checked.
#[test]
fn examples_of_document_01() {
    for (digits, answer) in [
        ("f7", "accepted 1"),
        ("3b7fffffffffffffff", "accepted 1"),
        ("3b8000000000000000", "refused 7 0"),
        ("820218ff", "accepted 3"),
        ("8202190100", "refused 7 2"),
        ("820e6161", "refused 7 1"),
        ("fa3fc00000", "refused 4 0"),
        ("8400200080", "refused 12 4"),
        ("8212a202000100", "refused 11 5"),
        ("82050a", "accepted 3"),
        ("83f621181e", "accepted 4"),
    ] {
        assert_eq!(single(digits), answer, "{digits}");
    }
    for (digits, answer) in [
        ("", "refused 2 0"),
        ("01", "accepted 1"),
        ("02", "refused 8 0"),
        (C, "accepted 14"),
        ("01821483 1904d2 831a000100002212 831a0001000021182b", "accepted 13"),
    ] {
        assert_eq!(message(digits), answer, "{digits}");
    }
}

/// "references 7 to 15 and 15 to 24", and in C those that the listing prints.
#[test]
fn references_of_document_01() {
    let references = |digits: &str| -> Vec<(usize, usize)> {
        let records = items_message(&hex(digits)).unwrap();
        records.iter().filter(|r| r.reference).map(|r| (r.first, r.after)).collect()
    };
    assert_eq!(references(C), [(5, 18), (14, 18)]);
    let order = "01821483 1904d2 831a000100002212 831a0001000021182b";
    assert_eq!(references(order), [(7, 15), (15, 24)]);
}

/// Document 002, appendix A, and the CBOR items of section 5.
#[test]
fn examples_of_document_002() {
    for (digits, answer) in [
        ("820504", "accepted 3"),
        ("820c1a000f4240", "accepted 3"),
        ("841A000100002B018114", "accepted 6"),
        ("820F4BA164746573748203F94480", "accepted 3"),
        ("831A000100002303", "accepted 4"),
        ("841A00010000220282821182831A00010000230383292A0103", "accepted 17"),
        ("841A000100002601816474657874", "accepted 6"),
        ("f5", "accepted 1"),
        ("6474657874", "accepted 1"),
        ("0a", "accepted 1"),
        ("82040a", "accepted 3"),
        ("820f410a", "accepted 3"),
        ("8318292000", "accepted 4"),
        ("8418292103826761 20706172616d 82040a", "accepted 9"),
        ("83f6644354524c68646f5f7468696e67", "accepted 4"),
    ] {
        assert_eq!(single(digits), answer, "{digits}");
    }
    // Namespace references are [ns] here, not [ns, null, null].
    assert_eq!(single("831a00010000f6f6"), "refused 7 6");
    assert_eq!(single("811a00010000"), "accepted 2");
}

/// Document 004, appendix A: "printed RPTSET example lacks the inner array; it
/// is refused".
#[test]
fn examples_of_document_004() {
    let reports = "1904d2 1a2b450625 83 00 83 1a00010000 22 12 f6 83 05 83 1a00010000 22 06 190237";
    assert_eq!(u32::from_str_radix("2b450625", 16), Ok(725_943_845));
    assert_eq!(message(&format!("01 85 15 {reports}")), "refused 7 1");
    assert_eq!(message(&format!("01 82 15 84 {reports}")), "accepted 20");
}

#[test]
fn limits_are_arguments() {
    let input = hex("82 11 82 81 00 f6");
    let within = |bytes, items, containers| {
        let limits = Limits { bytes, items, containers, ..LIMITS };
        Answer::from(walk_single(&input, &limits, &mut ())).to_string()
    };
    assert_eq!(within(6, 6, 3), "accepted 6");
    assert_eq!(within(5, 6, 3), "refused 1 0");
    assert_eq!(within(6, 5, 3), "refused 5 5");
    assert_eq!(within(6, 6, 2), "refused 6 3");
    assert_eq!(within(6, 0, 0), "refused 5 0");
    assert_eq!(within(6, 6, 0), "refused 6 0");
}

/// Inputs of all sorts, half of them damaged.
fn inputs(count: usize) -> impl Iterator<Item = Vec<u8>> {
    let mut random = Random::new(1);
    (0..count).map(move |k| {
        let settings = generate::settings(&mut random);
        let mut input = match k % 3 {
            0 => generate::single(&mut random, settings),
            1 => generate::message(&mut random, settings),
            _ => generate::random_input(&mut random),
        };
        if random.chance(50) {
            let other = generate::single(&mut random, settings);
            let records = match k % 3 {
                0 => items_single(&input),
                _ => items_message(&input),
            };
            generate::damage(&mut random, &mut input, &records.unwrap_or_default(), &other);
        }
        input
    })
}

/// What the grammar writes is accepted, up to the limits of bytes and items.
#[test]
fn grammar_is_accepted() {
    let mut random = Random::new(2);
    let mut accepted = 0;
    for _ in 0..2_000 {
        let settings = generate::settings(&mut random);
        let single = generate::single(&mut random, settings);
        let message = generate::message(&mut random, settings);
        for (answer, input) in [(check_single(&single), single), (check_message(&message), message)]
        {
            match answer {
                Answer::Accepted(_) => accepted += 1,
                Answer::Refused { number: 1 | 5, .. } => (),
                _ => panic!("{answer}: {}", to_hex(&input)),
            }
        }
    }
    assert!(accepted > 3_000, "{accepted}");
}

/// "The item count [...] equals the heads in the input", and the records cover
/// the input: each head stands where the one before ended.
#[test]
fn records_agree_with_the_check() {
    for input in inputs(3_000) {
        for (answer, records) in [
            (check_single(&input), items_single(&input)),
            (check_message(&input), items_message(&input)),
        ] {
            let counted = records.as_ref().map(Vec::len).map_err(|refusal| *refusal);
            assert_eq!(Answer::from(counted), answer, "{}", to_hex(&input));
            let Ok(records) = records else { continue };
            let mut at = 0;
            let mut ends = Vec::new();
            for record in &records {
                while ends.last() == Some(&at) {
                    ends.pop();
                }
                assert_eq!((record.first, record.around), (at, ends.len()));
                at = match record.kind {
                    Kind::Array(_) | Kind::Map(_) => at + head_size(input[at]),
                    _ => record.after,
                };
                if matches!(record.kind, Kind::Array(1..) | Kind::Map(1..)) {
                    ends.push(record.after);
                } else {
                    assert_eq!(at, record.after);
                }
            }
            assert_eq!(at, input.len());
        }
    }
}

/// Request (vi): the number is that of the target or report whose bytes hold the item's. In
/// a set these are the containers with two others around them, and nowhere else is there one.
#[test]
fn items_belong_to_targets() {
    let (mut sets, mut most) = (0, 0);
    for input in inputs(3_000) {
        for (is_message, records) in [(true, items_message(&input)), (false, items_single(&input))]
        {
            let Ok(records) = records else { continue };
            let is_set = is_message
                || matches!(
                    records[..],
                    [
                        Record { kind: Kind::Array(2), .. },
                        Record { kind: Kind::Unsigned(20 | 21), .. },
                        ..
                    ]
                );
            let targets: Vec<_> = records
                .iter()
                .filter(|r| is_set && r.around == 2 && matches!(r.kind, Kind::Array(_)))
                .map(|r| r.first..r.after)
                .collect();
            sets += usize::from(!targets.is_empty());
            most = most.max(targets.len());
            for record in &records {
                let target = targets.iter().position(|target| target.contains(&record.first));
                assert_eq!(record.target, target, "item {record} of {}", to_hex(&input));
            }
        }
    }
    assert!(sets > 500 && most > 20, "{sets} {most}");
}

/// Heads are taken from the front: a refusal for anything but missing bytes,
/// or bytes after, is that of every continuation.
#[test]
fn refusals_of_a_beginning_last() {
    for mut input in inputs(3_000) {
        let before = [check_single(&input), check_message(&input)];
        input.extend([0x00, 0x82, 0xff]);
        for (before, after) in before.into_iter().zip([check_single(&input), check_message(&input)])
        {
            if let Answer::Refused { number: 3..=8 | 10..=12, .. } = before {
                if input.len() <= LIMITS.bytes {
                    assert_eq!(before, after, "{}", to_hex(&input));
                }
            }
        }
    }
}
