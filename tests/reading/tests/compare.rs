//! Two messages beside each other, beside request (xii): lists worked out from the bytes, and
//! laws that hold of every pair, with two other ways to judge it.

use reading::compare::{compare, write, Position, Written, POSITION};
use reading::generate::pairs::{assembled, beside, parts, put_set, recased, Part};
use reading::generate::{self, Random};
use reading::printed::{item_lines, position_lines};
use reading::vectors::{hex, to_hex};
use reading::*;

fn words(positions: &[Position]) -> String {
    let word = |position: &Position| match position {
        Position::Same => "same".to_string(),
        Position::Changed { first, second } => format!("changed {first} {second}"),
        Position::OnlyFirst => "only first".to_string(),
        Position::OnlySecond => "only second".to_string(),
    };
    positions.iter().map(word).collect::<Vec<_>>().join(", ")
}

fn compared(first: &[u8], second: &[u8]) -> String {
    match compare(first, second, &LIMITS) {
        Ok(positions) => words(&positions),
        Err(refusal) => refusal.to_string(),
    }
}

/// What the list is with the messages in each other's place.
fn mirrored(positions: &[Position]) -> Vec<Position> {
    let turned = |position: &Position| match *position {
        Position::Same => Position::Same,
        Position::Changed { first, second } => Position::Changed { first: second, second: first },
        Position::OnlyFirst => Position::OnlySecond,
        Position::OnlySecond => Position::OnlyFirst,
    };
    positions.iter().map(turned).collect()
}

/// The list, and its mirror image the other way round.
fn assert_compared(first: &str, second: &str, due: &str) {
    let [one, two] = [first, second].map(hex);
    let positions = compare(&one, &two, &LIMITS)
        .unwrap_or_else(|refusal| panic!("{first} and {second}: {refusal}"));
    assert_eq!(words(&positions), due, "{first} and {second}");
    assert_eq!(compare(&two, &one, &LIMITS), Ok(mirrored(&positions)), "{second} and {first}");
}

/// Items 0 to 13; the target is item 5.
const C: &str = "01 82 14 82 f6 84 1a00010000 22 00 81 83 33 2a 05";

/// The order of the AMP draft: targets at items 5 and 9.
const ORDER: &str = "01 82 14 83 1904d2 83 1a00010000 22 12 83 1a00010000 21 182b";

/// Its reports: at items 6 and 13.
const REPORTS: &str = "01 82 15 84 1904d2 1a2b450625 83 00 83 1a00010000 22 12 f6 \
                       83 05 83 1a00010000 22 06 190237";

#[test]
fn worked_examples() {
    assert_compared("01", "01", "");
    assert_compared(C, C, "same");
    assert_compared(ORDER, ORDER, "same, same");
    assert_compared(REPORTS, REPORTS, "same, same");
    assert_compared("01", C, "only second");
    assert_compared(ORDER, "01", "only first, only first");
    // The parameter's namespace, object type and id are items 11 to 13.
    assert_compared(C, "01 82 14 82 f6 84 1a00010000 22 00 81 83 34 2a 05", "changed 11 11");
    assert_compared(C, "01 82 14 82 f6 84 1a00010000 22 00 81 83 33 2b 05", "changed 12 12");
    assert_compared(C, "01 82 14 82 f6 84 1a00010000 22 00 81 83 33 2a 06", "changed 13 13");
    // Its list is item 9, in the place of which a map stands, or one that holds another.
    assert_compared(C, "01 82 14 82 f6 84 1a00010000 22 00 a1 05 05", "changed 9 9");
    assert_compared(C, "01 82 14 82 f6 84 1a00010000 22 00 82 83 33 2a 05 00", "changed 9 9");
    assert_compared(C, "01 82 14 82 f6 84 1a00010000 22 00 81 81 33", "changed 10 10");
    // Without parameters the target's own head differs; with them in front, too.
    assert_compared(C, "01 82 14 82 f6 83 1a00010000 22 00", "changed 5 5");
    // Its namespace, type and id
    assert_compared(C, "01 82 14 82 f6 84 1a00010001 22 00 81 83 33 2a 05", "changed 6 6");
    assert_compared(C, "01 82 14 82 f6 84 1a00010000 23 00 81 83 33 2a 05", "changed 7 7");
    assert_compared(C, "01 82 14 82 f6 84 1a00010000 22 01 81 83 33 2a 05", "changed 8 8");
    // Two differences in a target: the first counts.
    assert_compared(C, "01 82 14 82 f6 84 1a00010000 23 01 81 83 34 2a 06", "changed 7 7");

    // The second target only, and both.
    let order = "01 82 14 83 1904d2 83 1a00010000 22 12 83 1a00010000 21 182c";
    assert_compared(ORDER, order, "same, changed 12 12");
    let order = "01 82 14 83 1904d2 83 1a00010000 21 182b 83 1a00010000 22 12";
    assert_compared(ORDER, order, "changed 7 7, changed 11 11");
    // A report's time, source and item
    let reports = "01 82 15 84 1904d2 1a2b450625 83 01 83 1a00010000 22 12 f6 \
                   83 05 83 1a00010000 22 06 190238";
    assert_compared(REPORTS, reports, "changed 7 7, changed 19 19");
    let reports = "01 82 15 84 1904d2 1a2b450625 83 00 83 1a00010000 22 13 f6 \
                   84 05 83 1a00010000 22 06 190237 00";
    assert_compared(REPORTS, reports, "changed 11 11, changed 13 13");
}

/// "nonces, set times and the split into sets aren't compared", nor are heads' sizes.
#[test]
fn what_is_not_compared() {
    for second in [
        "01 82 14 83 f6 83 1a00010000 22 12 83 1a00010000 21 182b",
        "01 82 14 83 4441424344 83 1a00010000 22 12 83 1a00010000 21 182b",
        // A set each, with empty ones around them
        "01 82 14 82 f6 83 1a00010000 22 12 82 14 82 f6 83 1a00010000 21 182b",
        "01 82 14 82 00 83 1a00010000 22 12 82 14 81 f6 82 14 82 01 83 1a00010000 21 182b",
        "01 82 15 82 f6 00 82 14 83 1904d2 83 1a00010000 22 12 83 1a00010000 21 182b 82 15 82 00 20",
        // Every head longer than it has to be
        "1801 9802 1814 990003 1a000004d2 9803 1b0000000000010000 3802 1812 \
         9b0000000000000003 1a00010000 390001 19002b",
    ] {
        assert_compared(ORDER, second, "same, same");
    }
    for second in [
        "01 82 15 84 f6 00 83 00 83 1a00010000 22 12 f6 83 05 83 1a00010000 22 06 190237",
        "01 82 15 84 40 20 83 00 83 1a00010000 22 12 f6 83 05 83 1a00010000 22 06 190237",
        "01 82 15 83 f6 00 83 00 83 1a00010000 22 12 f6 \
         82 15 83 f6 01 83 05 83 1a00010000 22 06 190237",
    ] {
        assert_compared(REPORTS, second, "same, same");
    }
    // No targets, however many sets
    assert_compared("01", "01 82 14 81 f6", "");
    assert_compared("01 82 14 81 00", "01 82 14 81 f6 82 15 82 00 00", "");
}

/// "the first differing item's number on each side": counted through each whole message.
#[test]
fn numbers_on_each_side() {
    let other = "83 1a00010000 22 13";
    // A set ahead has four items without targets, five as a reporting one.
    for (second, due) in [
        ("01 82 14 82 f6 {}", "changed 8 8"),
        ("01 82 14 81 f6 82 14 82 f6 {}", "changed 8 12"),
        ("01 82 14 81 f6 82 14 81 f6 82 14 82 00 {}", "changed 8 16"),
        ("01 82 15 82 f6 00 82 14 82 f6 {}", "changed 8 13"),
    ] {
        let second = second.replace("{}", other);
        assert_compared("01 82 14 82 f6 83 1a00010000 22 12", &second, due);
    }
    // The second position, behind a first of the same items in another set
    assert_compared(
        ORDER,
        "01 82 14 82 f6 83 1a00010000 22 12 82 14 82 f6 83 1a00010000 20 182b",
        "same, changed 11 15",
    );
    // and behind one of other items.
    assert_compared(
        ORDER,
        "01 82 14 83 00 84 1a00010000 22 12 82 00 00 83 1a00010000 20 182b",
        "changed 5 5, changed 11 14",
    );
    // A report ahead on one side: the sets' own items count.
    assert_compared(
        "01 82 14 82 f6 83 00 20 00 82 14 82 f6 83 00 20 01",
        "01 82 15 83 f6 00 82 00 83 00 20 00 82 14 82 f6 83 00 20 02",
        "changed 5 6, changed 16 19",
    );
}

/// "A target is never the same as a report", whatever they hold: heads and strings alone say
/// where they differ, at the third items at the latest.
#[test]
fn targets_beside_reports() {
    let target = |bytes: &str| format!("01 82 14 82 f6 {bytes}");
    let report = |bytes: &str| format!("01 82 15 83 f6 00 {bytes}");
    for (one, two, alike) in [
        // By the head's length
        ("83 00 20 00", "82 00 83 00 20 00", 0),
        ("84 00 20 00 81 00", "83 00 83 00 20 00 00", 0),
        // By the namespace and the time
        ("83 00 20 00", "83 01 83 00 20 00 00", 1),
        ("83 f6 20 00", "83 00 83 00 20 00 00", 1),
        ("83 6161 20 00", "83 00 83 00 20 00 00", 1),
        ("83 20 20 00", "83 00 83 00 20 00 00", 1),
        // By the object type and the source
        ("83 00 20 00", "83 00 83 00 20 00 00", 2),
        ("83 00 6161 00", "83 1800 84 00 20 00 81 00 00", 2),
        ("84 20 20 00 81 00", "84 20 83 00 20 00 81 00 00", 2),
    ] {
        let (at, beside) = (5 + alike, 6 + alike);
        assert_compared(&target(one), &report(two), &format!("changed {at} {beside}"));
        assert_compared(&report(two), &target(one), &format!("changed {beside} {at}"));
    }
}

/// "list one entry for each position": the longer message's rest is only in that one.
#[test]
fn positions_of_both() {
    let of = |ids: &[u8]| {
        let targets: String = ids.iter().map(|id| format!("83 f6 20 {id:02x} ")).collect();
        format!("01 82 14 {:02x} f6 {targets}", 0x81 + ids.len())
    };
    for (one, two, due) in [
        (&[1, 2, 3][..], &[][..], "only first, only first, only first"),
        (&[1, 2, 3], &[1], "same, only first, only first"),
        (&[1, 2, 3], &[1, 2], "same, same, only first"),
        (&[1, 2, 3], &[2, 3], "changed 8 8, changed 12 12, only first"),
        (&[1, 2, 3], &[1, 3], "same, changed 12 12, only first"),
        (&[1, 1, 1], &[1, 1], "same, same, only first"),
        (&[1, 2, 3], &[1, 3, 2], "same, changed 12 12, changed 16 16"),
        (&[1, 2, 3], &[3, 2, 1], "changed 8 8, same, changed 16 16"),
        (&[1, 2, 3], &[1, 2, 3, 4, 5], "same, same, same, only second, only second"),
    ] {
        assert_compared(&of(one), &of(two), due);
    }
}

/// Places of a message's only target or report, and its item that stands there.
const NAMES: &[(&str, usize)] = &[
    ("01 82 14 82 f6 83 .. 20 00", 6),
    ("01 82 14 82 f6 83 00 .. 00", 7),
    ("01 82 14 82 f6 83 00 20 ..", 8),
    ("01 82 14 82 f6 84 6178 6179 .. 81 00", 8),
    ("01 82 14 82 f6 84 00 20 00 81 81 ..", 11),
    ("01 82 14 82 f6 84 00 20 00 83 6178 83 00 .. 00 6179", 13),
    ("01 82 14 82 f6 84 00 20 00 a1 6178 83 00 20 ..", 14),
    ("01 82 14 82 f6 84 00 20 00 a2 00 00 6178 84 .. 20 00 81 00", 14),
    ("01 82 14 82 f6 84 00 20 00 81 82 11 82 00 81 ..", 15),
    ("01 82 14 82 f6 84 00 20 00 81 82 12 a1 00 83 .. 20 00", 15),
    ("01 82 15 83 f6 00 82 00 83 .. 20 00", 9),
    ("01 82 15 83 f6 00 82 00 83 00 .. 00", 10),
    ("01 82 15 83 f6 00 82 00 84 00 20 .. 81 00", 11),
    ("01 82 15 83 f6 00 84 00 83 6178 6179 617a 6178 81 ..", 14),
    ("01 82 15 83 f6 00 83 00 83 00 20 00 82 11 81 83 00 .. 00", 17),
];

/// Text strings that are no names.
const STRINGS: &[(&str, usize)] = &[
    ("01 82 14 82 f6 84 00 20 00 81 ..", 10),
    ("01 82 14 82 f6 84 00 20 00 83 .. 6178 6179", 10),
    ("01 82 14 82 f6 84 00 20 00 83 6178 6179 ..", 12),
    ("01 82 14 82 f6 84 6178 6179 617a 84 6178 6179 617a ..", 13),
    ("01 82 14 82 f6 84 00 20 00 81 82 0a ..", 12),
    ("01 82 14 82 f6 84 00 20 00 a1 00 ..", 11),
    ("01 82 14 82 f6 84 00 20 00 81 82 11 83 6178 .. 6179", 14),
    ("01 82 14 82 f6 84 00 20 00 82 83 6178 6179 617a ..", 14),
    ("01 82 15 83 f6 00 83 00 83 6178 6179 617a ..", 12),
    ("01 82 15 83 f6 00 83 00 83 00 20 00 82 12 a1 6178 ..", 16),
    // Labels
    ("01 82 14 82 f6 84 00 20 00 81 82 0e ..", 12),
    ("01 82 14 82 f6 84 6178 6179 617a 83 81 6178 82 0e .. 00", 14),
    ("01 82 14 82 f6 84 00 20 00 a1 00 82 0e ..", 13),
    ("01 82 14 82 f6 84 00 20 00 81 84 00 20 00 81 82 11 81 82 0e ..", 20),
    ("01 82 15 83 f6 00 82 00 84 00 20 00 81 82 0e ..", 15),
    // Keys
    ("01 82 14 82 f6 84 00 20 00 a1 .. 00", 10),
    ("01 82 14 82 f6 84 00 20 00 a2 00 81 6178 .. 00", 13),
    ("01 82 14 82 f6 84 00 20 00 81 82 12 a1 .. 00", 13),
    ("01 82 15 83 f6 00 83 00 83 00 20 00 82 12 a1 .. 81 6178", 15),
];

/// "Sameness is that of (iv) and (ix)."
#[test]
fn letters_in_each_place() {
    // The same but for letters; of one head's size too.
    let cases = [
        ["6161", "6141"],
        ["6161", "780141"],
        ["67 63442d655f2e39", "67 43642d455f2e39"],
        ["7b0000000000000007 63442d655f2e39", "790007 43642d455f2e39"],
    ];
    for [one, two] in cases {
        for (hole, _) in NAMES {
            assert_compared(&hole.replace("..", one), &hole.replace("..", two), "same");
        }
        for (hole, item) in STRINGS {
            let due = format!("changed {item} {item}");
            assert_compared(&hole.replace("..", one), &hole.replace("..", two), &due);
        }
    }
    for (hole, item) in [NAMES, STRINGS].concat() {
        let due = format!("changed {item} {item}");
        for (two, due) in [
            ("6162", &due[..]),
            ("626161", &due),
            ("615f", &due),
            ("780161", "same"),
            ("7b000000000000000161", "same"),
        ] {
            assert_compared(&hole.replace("..", "6161"), &hole.replace("..", two), due);
        }
    }
    // A mark is no letter, a name no number, null no name.
    let of = |space: &str| format!("01 82 14 82 f6 83 {space} 20 00");
    for [one, two] in
        [["6161", "622161"], ["6161", "00"], ["6161", "f6"], ["00", "f6"], ["00", "20"]]
    {
        assert_compared(&of(one), &of(two), "changed 6 6");
    }
    assert_compared(&of("622161"), &of("78022141"), "same");
    let of = |kind: &str| format!("01 82 14 82 f6 83 00 {kind} 00");
    assert_compared(&of("20"), &of("6161"), "changed 7 7");
    assert_compared(&of("20"), &of("390000"), "same");
}

/// A report's items, or a target's parameters, of every kind: alike in class, or not.
#[test]
fn literals_of_each_kind() {
    const CLASSES: &[&[&str]] = &[
        &["00", "1800", "1b0000000000000000"],
        &["1818", "190018", "1a00000018"],
        &["20", "3800"],
        &["f4"],
        &["f5"],
        &["f6"],
        &["f7"],
        &["f90000"],
        &["f98000"],
        &["f97e00"],
        &["fa47c35000"],
        &["fb3ff199999999999a"],
        &["40", "5800"],
        &["60", "7800"],
        &["4161", "580161"],
        &["4141"],
        &["6161", "790001 61"],
        &["6141"],
        &["81 00", "9801 1800"],
        &["81 6161", "9801 6141"],
        &["82 05 00", "82 1805 1800"],
        &["82 07 00"],
        &["82 0a 6161"],
        &["82 0b 4161"],
        &["82 0f 4161"],
        &["82 11 80", "82 11 9800"],
        &["82 12 a0", "82 12 b800"],
        &["82 11 81 00"],
        &["82 12 a1 00 00", "82 12 a1 1800 1800"],
        &["83 f6 20 00", "9803 f6 20 00"],
        &["84 f6 20 00 81 00", "84 f6 20 00 9801 00"],
        &["84 f6 20 00 a1 00 00"],
    ];
    let members: Vec<(usize, &str)> = CLASSES
        .iter()
        .enumerate()
        .flat_map(|(k, class)| class.iter().map(move |ari| (k, *ari)))
        .collect();
    for hole in ["01 82 14 82 f6 84 f6 20 00 82 .. 00", "01 82 15 83 f6 00 84 00 83 f6 20 00 .. 00"]
    {
        for (one, first) in &members {
            for (two, second) in &members {
                let [first, second] = [first, second].map(|ari| hex(&hole.replace("..", ari)));
                let list = compare(&first, &second, &LIMITS).unwrap();
                let pair = || format!("{} and {}", to_hex(&first), to_hex(&second));
                assert_eq!(list == [Position::Same], one == two, "{}", pair());
                assert_eq!(list, judged(&first, &second), "{}", pair());
            }
        }
    }
}

#[test]
fn refusals_in_order() {
    let items = generate::counted_message(&[1], 1, LIMITS.items + 1);
    let nested = generate::nested_message(&mut Random::new(1), LIMITS.containers + 1);
    let long = vec![1; LIMITS.bytes + 1];
    let [wrong, cut, c] = ["02", "01 82 14 82 f6 83", C].map(hex);
    for (first, second, due) in [
        (&wrong, &c, "refused 8 0"),
        (&c, &wrong, "refused 8 0"),
        (&cut, &wrong, "refused 2 6"),
        (&wrong, &cut, "refused 8 0"),
        (&c, &cut, "refused 2 6"),
        (&long, &cut, "refused 1 0"),
        (&cut, &long, "refused 2 6"),
        (&c, &long, "refused 1 0"),
        (&Vec::new(), &c, "refused 2 0"),
        (&c, &Vec::new(), "refused 2 0"),
    ] {
        assert_eq!(compared(first, second), due);
    }
    assert!(compared(&items, &c).starts_with("refused 5 "));
    assert!(compared(&c, &nested).starts_with("refused 6 "));
    // A target is no message, nor is a set.
    assert_eq!(compared(&hex("83 f6 20 00"), &c), "refused 7 0");
    assert_eq!(compared(&c, &hex("82 14 81 f6")), "refused 7 0");
}

/// The limits are those given with the call, for both messages.
#[test]
fn limits_on_either_side() {
    let random = &mut Random::new(5);
    for limits in [FIRST_LIMITS, LIMITS] {
        for past in 0..2 {
            let full = generate::days::message_of_length(limits.bytes + past);
            let items = generate::counted_message(&[1], 1, limits.items + past);
            // Some have an innermost array that may not stand there.
            let nested = loop {
                let nested = generate::nested_message(random, limits.containers + past);
                if past > 0 || walk_message(&nested, &limits, &mut ()).is_ok() {
                    break nested;
                }
            };
            for message in [full, items, nested] {
                for (first, second) in [(&message, &vec![1]), (&vec![1], &message)] {
                    assert_eq!(compare(first, second, &limits).is_ok(), past == 0);
                }
                let list = compare(&message, &message, &limits);
                assert_eq!(list.is_ok(), past == 0);
                assert!(list.unwrap_or_default().iter().all(|it| *it == Position::Same));
            }
        }
    }
    // As many targets as there may be items for: five, and four for each target.
    let most = (LIMITS.items - 5) / 4;
    let targets = |count: usize| {
        let part = Part { is_report: false, bytes: hex("83 f6 20 00") };
        let mut message = vec![1];
        put_set(&mut Random::new(1), &mut message, false, &vec![part; count]);
        message
    };
    let list = compare(&targets(most), &targets(most - 1), &LIMITS).unwrap();
    assert_eq!((list.len(), list[most - 1]), (1022, Position::OnlyFirst));
    assert!(compare(&targets(most + 1), &targets(1), &LIMITS).is_err());
}

/// 24 bytes an entry, and room that is enough, exact, one byte short or none.
#[test]
fn entries_as_bytes() {
    let none = "ffffffffffffffff ffffffffffffffff";
    let list = [
        Position::Same,
        Position::Changed { first: 5, second: 0x1234 },
        Position::OnlyFirst,
        Position::OnlySecond,
    ];
    let due = hex(&format!(
        "0000000000000000 {none} 0000000000000001 0000000000000005 0000000000001234 \
         0000000000000002 {none} 0000000000000003 {none}"
    ));
    assert_eq!(due.len(), 4 * POSITION);
    for length in 0..=due.len() + POSITION {
        let mut room = vec![0xee; length];
        let answer = write(&list, &mut room);
        if length < due.len() {
            assert_eq!(answer, Err(Refusal { test: Test::Room, place: 4 }));
            assert_eq!(room, vec![0xee; length]);
        } else {
            assert_eq!(answer, Ok(Written { different: 3, entries: 4 }));
            assert_eq!(room[..due.len()], due[..]);
            assert!(room[due.len()..].iter().all(|byte| *byte == 0xee));
        }
    }
    let nothing = write(&[], &mut []);
    assert_eq!(nothing, Ok(Written { different: 0, entries: 0 }));
    let answer = archive::packed_compared(write(&list, &mut [0; 96]));
    assert_eq!(answer, 0x0000_0003_0000_0004);
    assert_eq!(archive::packed_compared(write(&list, &mut [0; 95])), 0x1000_0000_0000_0004);
}

/// The lines of the program for each of the four, with the items of a changed one.
#[test]
fn lines_of_the_program() {
    let first = hex("01 82 14 84 f6 83 00 20 00 83 00 20 01 83 00 20 6161");
    let second = hex("01 82 14 81 f6 82 14 83 00 83 1800 20 00 84 00 20 02 81 00");
    let [one, two] = [&first, &second].map(|message| items_message(message).unwrap());
    let list = compare(&first, &second, &LIMITS).unwrap();
    let lines = position_lines(&one, &two, &list);
    let due = "0 same\n1 changed 9 13\n9 9 13 2 1     reference 3\n13 14 20 2 1     reference 4\n\
               2 only first\n";
    assert_eq!(lines, due);
    // The items are lines of `gate items`.
    let items = [item_lines(&Ok(one)), item_lines(&Ok(two))];
    for (line, items) in lines.lines().skip(2).zip(&items) {
        assert!(items.lines().any(|item| item == line), "{line}");
    }
    let records = items_message(&hex("01")).unwrap();
    assert_eq!(position_lines(&records, &records, &[]), "");
    let records = items_message(&second).unwrap();
    let list = compare(&hex("01"), &second, &LIMITS).unwrap();
    assert_eq!(position_lines(&[], &records, &list), "0 only second\n1 only second\n");
}

/// An item as it is compared: its kind, and its string in one case if it is a name.
type Plain = (Kind, Vec<u8>);

/// The items of each target or report with their numbers, told by byte ranges: a name is one of
/// the first three of a reference's members.
fn plain_parts(message: &[u8]) -> Vec<Vec<(usize, Plain)>> {
    let records = items_message(message).expect("accepted");
    let mut parts: Vec<Vec<(usize, Plain)>> = Vec::new();
    for (k, record) in records.iter().enumerate() {
        let Some(target) = record.target else { continue };
        parts.resize(parts.len().max(target + 1), Vec::new());
        let parent = (0..k).rev().find(|p| records[*p].around + 1 == record.around);
        let parent = parent.expect("a set's inner array, at least");
        let ahead = records[parent + 1..k].iter().filter(|r| r.around == record.around).count();
        let string = match record.kind {
            Kind::Bytes(length) | Kind::Text(length) => {
                &message[record.after - length as usize..record.after]
            }
            _ => &[],
        };
        let is_name = records[parent].reference && ahead < 3;
        let string = if is_name { string.to_ascii_lowercase() } else { string.to_vec() };
        parts[target].push((k, (record.kind, string)));
    }
    parts
}

/// The list by items side by side.
fn judged(first: &[u8], second: &[u8]) -> Vec<Position> {
    let (ones, twos) = (plain_parts(first), plain_parts(second));
    let shorter = ones.len().min(twos.len());
    let mut list = Vec::new();
    for (one, two) in ones.iter().zip(&twos) {
        let differing = one.iter().zip(two).find(|(a, b)| a.1 != b.1);
        list.push(match differing {
            Some(((first, _), (second, _))) => Position::Changed { first: *first, second: *second },
            None => {
                assert_eq!(one.len(), two.len(), "no item differs, but some are missing");
                Position::Same
            }
        });
    }
    list.extend(ones[shorter..].iter().map(|_| Position::OnlyFirst));
    list.extend(twos[shorter..].iter().map(|_| Position::OnlySecond));
    list
}

/// A part as a single ARI.
fn alone(part: &Part) -> Vec<u8> {
    match part.is_report {
        true => [&[0x82, 0x15, 0x83, 0xf6, 0x00], &part.bytes[..]].concat(),
        false => part.bytes.clone(),
    }
}

/// By the sameness of single ARIs: the same targets and reports in the same order.
fn are_same(one: &Part, two: &Part) -> bool {
    one.is_report == two.is_report && same(&alone(one), &alone(two), &LIMITS) == Ok(true)
}

fn settings(random: &mut Random) -> generate::Settings {
    let settings = generate::settings(random);
    generate::Settings { items: settings.items.min(200), ..settings }
}

/// An accepted message that most often has targets.
fn accepted(random: &mut Random) -> Vec<u8> {
    loop {
        let settings = settings(random);
        let message = generate::message(random, settings);
        if items_message(&message).is_ok() && (random.chance(5) || !parts(&message).is_empty()) {
            return message;
        }
    }
}

/// Each sentence of the request, on pairs that are made for it.
#[test]
fn laws() {
    let random = &mut Random::new(12);
    let (mut equal, mut same_otherwise, mut changed, mut rest, mut deep, mut apart) =
        (0, 0, 0, 0, 0, 0);
    let mut pairs = 0;
    while pairs < 6_000 {
        let first = accepted(random);
        let second = match random.below(10) {
            0 => accepted(random),
            _ => beside(random, &first),
        };
        let Ok(twos) = items_message(&second) else { continue };
        pairs += 1;
        let ones = items_message(&first).unwrap();
        let pair = || format!("{} and {}", to_hex(&first), to_hex(&second));
        let list = compare(&first, &second, &LIMITS).unwrap();

        // "Swapping the messages mirrors the list."
        assert_eq!(compare(&second, &first, &LIMITS), Ok(mirrored(&list)), "{}", pair());
        // Items side by side, told in another way
        assert_eq!(list, judged(&first, &second), "{}", pair());

        // "one entry for each position": as many as the longer has.
        let (of_first, of_second) = (parts(&first), parts(&second));
        assert_eq!(list.len(), of_first.len().max(of_second.len()), "{}", pair());
        for (k, position) in list.iter().enumerate() {
            match (*position, of_first.get(k), of_second.get(k)) {
                (Position::Same, Some(one), Some(two)) => assert!(are_same(one, two), "{}", pair()),
                (Position::Changed { first: one, second: two }, Some(a), Some(b)) => {
                    assert!(!are_same(a, b), "{}", pair());
                    // Each within its own target, and as far from its head
                    assert_eq!((ones[one].target, twos[two].target), (Some(k), Some(k)));
                    let head = |records: &[Record]| {
                        records.iter().position(|r| r.target == Some(k)).expect("there")
                    };
                    assert_eq!(one - head(&ones), two - head(&twos), "{}", pair());
                    changed += 1;
                    deep += usize::from(one - head(&ones) > 4);
                    apart += usize::from(one != two);
                }
                (Position::OnlyFirst, Some(_), None) | (Position::OnlySecond, None, Some(_)) => {
                    rest += 1;
                }
                _ => panic!("{position:?} at {k}: {}", pair()),
            }
        }
        // "No difference is reported exactly if both have the same targets and reports in the
        // same order".
        let no_difference = list.iter().all(|position| *position == Position::Same);
        let all_same = of_first.len() == of_second.len()
            && of_first.iter().zip(&of_second).all(|(one, two)| are_same(one, two));
        assert_eq!(no_difference, all_same, "{}", pair());
        equal += usize::from(no_difference);
        same_otherwise += usize::from(no_difference && shortened(&first) != shortened(&second));

        // Sets, nonces and times of its own, heads and names: nothing changes.
        let again = assembled(random, &of_second);
        let again = recased(random, &again, 30);
        let again = generate::rewritten(random, &again, 0, 20);
        if items_message(&again).is_err() {
            continue;
        }
        let kinds =
            |list: &[Position]| -> Vec<_> { list.iter().map(std::mem::discriminant).collect() };
        let other = compare(&first, &again, &LIMITS).unwrap();
        assert_eq!(kinds(&other), kinds(&list), "{}", pair());
        let firsts = |list: &[Position]| -> Vec<Option<usize>> {
            let of = |it: &Position| match it {
                Position::Changed { first, .. } => Some(*first),
                _ => None,
            };
            list.iter().map(of).collect()
        };
        assert_eq!(firsts(&other), firsts(&list), "{}", pair());
        let nothing = compare(&second, &again, &LIMITS).unwrap();
        assert!(nothing.iter().all(|position| *position == Position::Same), "{}", pair());
    }
    let seen = [equal, same_otherwise, changed, rest, deep, apart];
    assert!(seen.iter().all(|times| *times > 400), "{seen:?}");
}

/// Some targets and reports in classes of the same; every message of up to two of them, in one
/// set and in two, beside every other.
#[test]
fn all_of_a_small_alphabet() {
    const PARTS: &[(usize, bool, &str)] = &[
        (0, false, "83 f6 20 00"),
        (0, false, "9803 f6 3800 00"),
        (1, false, "83 6161 20 00"),
        (1, false, "83 6141 20 00"),
        (2, false, "84 6161 20 00 81 6161"),
        (3, false, "84 6161 20 00 81 6141"),
        (4, false, "83 00 20 00"),
        (5, true, "82 00 83 f6 20 00"),
        (5, true, "82 00 83 f6 20 1800"),
        (6, true, "83 00 83 f6 20 00 6161"),
        (7, true, "83 00 83 f6 20 00 6141"),
    ];
    let part = |(class, is_report, bytes): &(usize, bool, &str)| {
        (*class, Part { is_report: *is_report, bytes: hex(bytes) })
    };
    let parts: Vec<(usize, Part)> = PARTS.iter().map(part).collect();
    let mut runs: Vec<Vec<usize>> = vec![Vec::new()];
    for length in 1..=2 {
        let shorter: Vec<Vec<usize>> =
            runs.iter().filter(|run| run.len() == length - 1).cloned().collect();
        for run in shorter {
            runs.extend((0..parts.len()).map(|k| [&run[..], &[k]].concat()));
        }
    }
    // All in as few sets as can be, and each in its own, behind an empty one
    let random = &mut Random::new(3);
    let mut messages = Vec::new();
    for run in &runs {
        let chosen: Vec<Part> = run.iter().map(|k| parts[*k].1.clone()).collect();
        let classes: Vec<usize> = run.iter().map(|k| parts[*k].0).collect();
        let mut together = vec![1];
        for set in chosen.chunk_by(|one, two| one.is_report == two.is_report) {
            put_set(random, &mut together, set[0].is_report, set);
        }
        let mut each = vec![1];
        for part in &chosen {
            put_set(random, &mut each, !part.is_report, &[]);
            put_set(random, &mut each, part.is_report, std::slice::from_ref(part));
        }
        messages.extend([(classes.clone(), together), (classes, each)]);
    }
    for (ones, first) in &messages {
        for (twos, second) in &messages {
            let list = compare(first, second, &LIMITS).unwrap();
            let due: Vec<&str> = (0..ones.len().max(twos.len()))
                .map(|k| match (ones.get(k), twos.get(k)) {
                    (Some(one), Some(two)) if one == two => "same",
                    (Some(_), Some(_)) => "changed",
                    (Some(_), None) => "only first",
                    _ => "only second",
                })
                .collect();
            let list: Vec<String> = list.iter().map(|it| words(&[*it])).collect();
            assert_eq!(list.len(), due.len());
            for (position, due) in list.iter().zip(due) {
                assert!(position.starts_with(due), "{} and {}", to_hex(first), to_hex(second));
            }
        }
    }
    assert_eq!(messages.len(), 2 * (1 + 11 + 121));
}
