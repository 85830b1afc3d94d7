//! Whether two single ARIs are the same, beside requests (iv) and (ix): places and classes
//! worked out by hand, and laws that hold of every pair, with two other ways to judge it.

use reading::generate::{self, Random, Settings};
use reading::vectors::{hex, to_hex};
use reading::*;

fn judged(first: &[u8], second: &[u8]) -> String {
    match same(first, second, &LIMITS) {
        Ok(true) => "same".to_string(),
        Ok(false) => "different".to_string(),
        Err(refusal) => refusal.to_string(),
    }
}

/// Both ways round, for which the answer is one.
fn assert_judged(one: &str, two: &str, answer: &str) {
    for (first, second) in [(one, two), (two, one)] {
        assert_eq!(judged(&hex(first), &hex(second)), answer, "{first} and {second}");
    }
}

/// An ARI with a hole, in which two items stand in turn.
fn assert_in(hole: &str, [one, two]: [&str; 2], answer: &str) {
    assert_eq!(hole.matches("..").count(), 1, "{hole}");
    let [one, two] = [one, two].map(|item| hole.replace("..", item));
    for ari in [&one, &two] {
        assert_judged(ari, ari, "same");
    }
    assert_judged(&one, &two, answer);
}

/// Every place where a namespace name, an object type or an object id may stand.
const NAMES: &[&str] = &[
    // A namespace reference, an object reference and a relative one
    "81 ..",
    "83 .. 20 00",
    "83 00 .. 00",
    "83 00 20 ..",
    "83 .. 6178 6179",
    "83 6178 .. 6179",
    "83 6178 6179 ..",
    "83 f6 .. 00",
    "83 f6 20 ..",
    // With parameters
    "84 .. 20 00 81 00",
    "84 00 .. 00 81 00",
    "84 00 20 .. a1 00 00",
    // In parameters, behind and before others
    "84 00 20 00 81 81 ..",
    "84 00 20 00 81 83 .. 20 00",
    "84 00 20 00 83 6178 83 00 .. 00 6179",
    "84 00 20 00 82 83 6178 6179 617a 83 00 20 ..",
    "84 00 20 00 a1 6178 81 ..",
    "84 00 20 00 a2 00 81 00 6178 83 00 .. 00",
    // In lists and maps
    "82 11 81 81 ..",
    "82 11 83 6178 83 00 .. 00 6179",
    "82 11 84 00 00 00 83 00 20 ..",
    "82 12 a1 00 81 ..",
    "82 12 a2 00 6178 6179 83 00 20 ..",
    "82 11 81 82 12 a1 00 82 11 82 f6 84 00 20 00 81 84 00 .. 00 a1 00 00",
    "84 00 20 00 81 84 00 20 00 81 84 00 20 00 a1 00 83 .. 20 00",
    // A set's target, its parameters; a report's source, its items
    "82 14 82 f6 83 .. 20 00",
    "82 14 83 f6 83 00 20 00 83 00 .. 00",
    "82 14 82 4178 84 00 20 .. 81 00",
    "82 14 82 00 84 00 20 00 81 81 ..",
    "82 15 83 f6 00 82 00 83 .. 20 00",
    "82 15 83 f6 00 82 00 83 00 .. 00",
    "82 15 84 f6 00 82 00 83 00 20 00 83 00 83 00 20 .. 6178",
    "82 15 83 f6 00 84 00 83 00 20 00 6178 81 ..",
];

/// Where a text string stands that is no name. An array of as many strings as a reference has
/// members is none for that.
const STRINGS: &[&str] = &[
    "..",
    "82 0a ..",
    "84 00 20 00 81 ..",
    "84 00 20 00 83 .. 6178 6179",
    "84 00 20 00 83 6178 .. 6179",
    "84 00 20 00 83 6178 6179 ..",
    "84 00 20 00 84 6178 6179 617a ..",
    "84 6178 6179 617a 81 ..",
    "84 00 20 00 81 82 0a ..",
    "84 00 20 00 a1 00 ..",
    "84 00 20 00 a1 6178 82 0a ..",
    "82 11 81 ..",
    "82 11 83 .. 6178 6179",
    "82 11 83 6178 .. 6179",
    "82 11 83 6178 6179 ..",
    "82 11 82 0e ..",
    "82 12 a1 00 ..",
    "82 12 a1 6178 ..",
    // Behind a reference, which has ended
    "82 11 82 81 6178 ..",
    "82 11 82 83 6178 6179 617a ..",
    "82 11 82 84 6178 6179 617a 81 81 6178 ..",
    "84 00 20 00 82 84 6178 6179 617a a1 00 00 ..",
    "82 12 a2 00 81 6178 01 ..",
    // A report's items
    "82 15 83 f6 00 83 00 83 6178 6179 617a ..",
    "82 15 83 f6 00 84 00 83 6178 6179 617a 81 6178 ..",
];

/// Where a label may stand.
const LABELS: &[&str] = &[
    "84 f6 20 00 81 82 0e ..",
    "84 6178 6179 617a 83 81 6178 82 0e .. 00",
    "84 00 20 00 a1 00 82 0e ..",
    "84 00 20 00 81 82 11 81 82 0e ..",
    "84 00 20 00 81 82 12 a1 00 82 0e ..",
    "84 00 20 00 81 84 00 20 00 81 82 0e ..",
    "82 14 82 f6 84 00 20 00 81 82 0e ..",
    "82 15 83 f6 00 82 00 84 00 20 00 81 82 0e ..",
];

/// Where a map's key may stand.
const KEYS: &[&str] = &[
    "84 00 20 00 a1 .. 00",
    "84 6178 6179 617a a1 .. 81 6178",
    "84 00 20 00 a2 00 81 6178 .. 00",
    "84 00 20 00 a2 .. 00 68 7878787878787878 00",
    "82 12 a1 .. 00",
    "82 12 a2 20 00 .. 00",
    "82 12 a2 .. 00 68 7878787878787878 00",
    "82 12 a1 .. 81 6178",
    "84 00 20 00 81 82 12 a1 .. 00",
    "82 15 83 f6 00 83 00 83 00 20 00 82 12 a1 .. 00",
];

/// Where a byte string may stand.
const BYTES: &[&str] = &[
    "..",
    "82 0b ..",
    "82 0f ..",
    "84 00 20 00 81 ..",
    "84 00 20 00 a1 00 ..",
    "82 11 83 .. 00 00",
    "82 12 a1 00 ..",
    "82 14 81 ..",
    "82 14 82 .. 83 00 20 00",
    "82 15 82 .. 00",
    "82 15 83 f6 00 83 00 83 00 20 00 ..",
];

/// "A to Z and a to z are alike in namespace names, object types and object ids [...].
/// Strings, labels and map keys stay exact."
#[test]
fn letters_in_each_place() {
    // a and A, cD-e_.9 and Cd-E_.9; the heads in another size too.
    let pairs = [
        ["6161", "6141"],
        ["6161", "78 01 41"],
        ["67 63442d655f2e39", "67 43642d455f2e39"],
        ["7b 0000000000000007 63442d655f2e39", "79 0007 43642d455f2e39"],
    ];
    for pair in pairs {
        NAMES.iter().for_each(|hole| assert_in(hole, pair, "same"));
        for holes in [STRINGS, LABELS, KEYS] {
            holes.iter().for_each(|hole| assert_in(hole, pair, "different"));
        }
    }
    for hole in BYTES {
        assert_in(hole, ["41 61", "41 41"], "different");
        // What would be a reference, were the string opened
        assert_in(hole, ["43 816161", "43 816141"], "different");
    }
    // In other heads alone everything is the same.
    for hole in [NAMES, STRINGS, LABELS, KEYS].concat() {
        assert_in(hole, ["61 61", "78 01 61"], "same");
        assert_in(hole, ["79 0001 61", "7b 0000000000000001 61"], "same");
        assert_in(hole, ["6161", "6162"], "different");
        assert_in(hole, ["6161", "626161"], "different");
        assert_in(hole, ["6161", "615f"], "different");
    }
}

/// Names of one letter, of two and of as many as there may be: only the two cases of one
/// letter are alike, and only there.
#[test]
fn letters_alone_are_alike() {
    const PAIRS: &[u8; 52] = b"AaBbCcDdEeFfGgHhIiJjKkLlMmNnOoPpQqRrSsTtUuVvWwXxYyZz";
    let letter = |byte| PAIRS.iter().position(|letter| *letter == byte).map(|at| at / 2);
    let places = ["81", "83 .. 20 00", "83 00 .. 00", "83 00 20 .."].map(|hole| {
        let (before, behind) = hole.split_once("..").unwrap_or((hole, ""));
        (hex(before), hex(behind))
    });
    let bytes: Vec<u8> = (0..=255).filter(|byte| is_identifier(&[b'k', *byte])).collect();
    let mut alike = 0;
    for &one in &bytes {
        for &other in &bytes {
            let is_it = one == other || letter(one).is_some() && letter(one) == letter(other);
            for (before, behind) in &places {
                let named = |string: &[u8]| {
                    [&before[..], &[0x60 | string.len() as u8], string, behind].concat()
                };
                for (first, second) in [(b'k', b'k'), (b'k', b'K')] {
                    let answer = same(&named(&[first, one]), &named(&[second, other]), &LIMITS);
                    assert_eq!(answer, Ok(is_it), "{one} {other}");
                }
                if is_identifier(&[one]) && is_identifier(&[other]) {
                    let answer = same(&named(&[one]), &named(&[other]), &LIMITS);
                    assert_eq!(answer, Ok(is_it), "{one} {other}");
                }
            }
            alike += usize::from(is_it && one != other);
        }
    }
    assert_eq!((bytes.len(), alike), (65, 52));
    let long = |letters: &str| {
        let mut ari = hex("83 f6 78 40");
        ari.extend(letters.bytes());
        ari.push(0);
        ari
    };
    let (small, capital) = ("z".repeat(64), "Z".repeat(64));
    assert_eq!(judged(&long(&small), &long(&capital)), "same");
    assert_eq!(judged(&long(&small), &long(&format!("{}Y", &capital[1..]))), "different");
    assert_eq!(judged(&long(&small), &long(&format!("y{}", &capital[1..]))), "different");
}

/// ARIs in classes: those of one are the same, those of two are different.
const CLASSES: &[&[&str]] = &[
    // A head in each of its sizes
    &["00", "1800", "190000", "1a00000000", "1b0000000000000000"],
    &["01", "1801", "190001", "1a00000001", "1b0000000000000001"],
    &["17", "1817", "190017", "1a00000017", "1b0000000000000017"],
    &["1818", "190018", "1a00000018", "1b0000000000000018"],
    &["18ff", "1900ff", "1a000000ff", "1b00000000000000ff"],
    &["190100", "1a00000100", "1b0000000000000100"],
    &["1a00010000", "1b0000000000010000"],
    &["1b0000000100000000"],
    &["1bffffffffffffffff"],
    // -1 and 0, -2 and 1 have the same argument.
    &["20", "3800", "390000", "3a00000000", "3b0000000000000000"],
    &["21", "3801", "390001", "3a00000001", "3b0000000000000001"],
    &["3b7fffffffffffffff"],
    &["1b7fffffffffffffff"],
    &["f4"],
    &["f5"],
    &["f6"],
    &["f7"],
    // A float has one size; 1 is no float, and the zeros are two.
    &["f90000"],
    &["f98000"],
    &["f93c00"],
    &["f97c00"],
    &["f97e00"],
    &["fa3f800001"],
    &["fa47c35000"],
    &["fb3ff199999999999a"],
    // Strings, of bytes and of text
    &["40", "5800", "590000", "5a00000000", "5b0000000000000000"],
    &["60", "7800", "790000", "7a00000000", "7b0000000000000000"],
    &["4161", "580161", "59000161", "5a0000000161", "5b000000000000000161"],
    &["6161", "780161", "79000161", "7a0000000161", "7b000000000000000161"],
    &["4141"],
    &["6141"],
    &["6140"],
    &["6160"],
    &["615b"],
    &["617b"],
    &["615f"],
    &["617f"],
    &["62c389"],
    &["62c3a9"],
    &["426161"],
    &["626161"],
    &["626141"],
    &["624161"],
    // Typed values, by their types
    &["82 00 f6", "9802 00 f6", "82 190000 f6", "9b0000000000000002 1b0000000000000000 f6"],
    &["82 01 f4"],
    &["82 01 f5"],
    &["82 02 01", "9802 1802 1801"],
    &["82 04 01", "990002 190004 190001"],
    &["82 04 21"],
    &["82 05 01", "9a00000002 1a00000005 1a00000001"],
    &["82 06 01", "9b0000000000000002 1b0000000000000006 1b0000000000000001"],
    &["82 07 01"],
    &["82 08 f93c00", "9802 1808 f93c00"],
    &["82 09 f93c00"],
    &["82 09 fa3f800001"],
    &["82 0a 6161", "82 0a 780161"],
    &["82 0b 4161", "82 0b 580161"],
    &["82 0c 01"],
    &["82 0d 01"],
    &["82 0f 4161"],
    // Lists and maps; the same items in other containers
    &["82 11 80", "82 11 9800", "9802 1811 9b0000000000000000"],
    &["82 12 a0", "82 12 b800", "9802 1812 bb0000000000000000"],
    &["82 11 81 00", "82 11 9801 1800"],
    &["82 11 82 00 00"],
    &["82 11 82 00 01", "82 11 82 1800 1801"],
    &["82 11 82 01 00"],
    &["82 12 a1 00 01", "82 12 b801 1800 1801", "9802 1812 ba00000001 190000 190001"],
    &["82 12 a1 01 00"],
    &["82 12 a1 20 01"],
    &["82 12 a1 00 20"],
    &["82 12 a2 00 01 01 00"],
    &["82 11 81 82 11 80"],
    &["82 11 82 82 11 81 00 00"],
    &["82 11 81 82 11 82 00 00"],
    &["82 11 82 00 82 11 81 00"],
    &["82 11 81 82 12 a0"],
    &["82 12 a1 6141 00", "82 12 a1 780141 00"],
    &["82 12 a1 6161 00", "82 12 a1 780161 00"],
    &["82 12 a2 6141 00 6161 00"],
    &["82 12 a2 6141 00 6161 01"],
    &["82 12 a2 6141 01 6161 00"],
    // References to a namespace; a number is no name, a mark no letter.
    &["81 00", "9801 1800", "9b0000000000000001 1b0000000000000000"],
    &["81 20", "81 3800"],
    &["81 6161", "81 6141", "9801 780141", "990001 79000161"],
    &["81 615f"],
    &["81 622161", "81 622141", "9801 78022141"],
    &["81 622162", "81 622142"],
    &["81 626161", "81 626141", "81 624161", "81 624141"],
    &["81 62612d", "81 62412d"],
    &["81 62612e", "81 62412e"],
    &["81 626130", "81 624130"],
    &["81 62615f", "81 62415f"],
    &["82 11 81 81 6161", "82 11 81 81 6141"],
    &["82 11 81 6161"],
    &["82 11 81 6141"],
    // References to an object; an object type by name is never one by number.
    &["83 f6 20 00", "9803 f6 3800 1800", "9b0000000000000003 f6 3b0000000000000000 190000"],
    &["83 00 20 00"],
    &["83 20 20 00"],
    &["83 f6 21 00", "83 f6 3801 00"],
    &["83 f6 38ff 00", "83 f6 3900ff 00"],
    &["83 f6 20 01"],
    &["83 f6 20 1b7fffffffffffffff"],
    &["83 f6 6161 00", "83 f6 6141 00", "9803 f6 780141 1800"],
    &["83 f6 20 6161", "83 f6 20 6141"],
    &["83 f6 6161 6161", "83 f6 6141 6161", "83 f6 6161 6141", "83 f6 6141 6141"],
    &["83 6161 20 00", "83 6141 20 00"],
    &["83 622161 20 00", "83 622141 20 00"],
    &["83 6161 6162 6163", "83 6141 6162 6163", "83 6161 6142 6163", "83 6141 6142 780143"],
    &["83 6161 6163 6162", "83 6141 6143 6142"],
    &["83 64 42756f79 64 4354524c 6178", "9803 7804 62756f79 64 6374726c 6158"],
    // With parameters
    &["84 f6 20 00 81 00", "9804 f6 20 00 9801 1800"],
    &["84 f6 20 00 82 00 00"],
    &["84 f6 20 00 a1 00 00", "84 f6 20 00 b801 00 1800"],
    &["84 f6 20 00 83 6161 6162 6163"],
    &["84 f6 20 00 83 6141 6162 6163"],
    &["84 f6 20 00 81 83 6161 6162 6163", "84 f6 20 00 81 83 6141 6142 6143"],
    &["84 f6 20 00 81 81 6161", "84 f6 20 00 81 81 6141"],
    &["84 f6 20 00 81 6161"],
    &["84 f6 20 00 81 6141"],
    &["84 f6 20 00 81 82 0e 6161", "84 f6 20 00 81 9802 180e 780161"],
    &["84 f6 20 00 81 82 0e 6141"],
    &["84 f6 20 00 81 82 0a 6161"],
    &["84 f6 20 00 82 0e 6161"],
    &["84 f6 20 00 82 0e 6141"],
    &["84 f6 20 00 a1 6161 6161"],
    &["84 f6 20 00 a1 6161 6141"],
    &["84 f6 20 00 a1 6161 81 6161", "84 f6 20 00 a1 6161 81 6141"],
    &["84 f6 20 00 a1 6141 81 6161", "84 f6 20 00 a1 6141 81 6141"],
    // Sets: the nonce, the times, the targets and reports in their order
    &["82 14 81 f6", "9802 1814 9801 f6"],
    &["82 14 81 00", "82 14 81 1b0000000000000000"],
    &["82 14 81 40", "82 14 81 5800"],
    &["82 14 81 4161", "82 14 81 580161"],
    &["82 14 81 4141"],
    &["82 14 82 f6 83 6161 6162 00", "82 14 82 f6 83 6141 6142 00"],
    &["82 14 82 00 83 6161 6162 00", "82 14 82 1800 9803 6161 6142 00"],
    &["82 14 83 f6 83 00 20 6161 83 00 20 6162", "82 14 83 f6 83 00 20 6141 83 00 20 6142"],
    &["82 14 83 f6 83 00 20 6162 83 00 20 6161", "82 14 83 f6 83 00 20 6142 83 00 20 6141"],
    &["82 15 82 f6 00", "9802 1815 9802 f6 1800"],
    &["82 15 82 f6 20"],
    &["82 15 82 00 00"],
    &["82 15 83 f6 00 82 00 83 6161 6162 6163", "82 15 83 f6 00 82 1800 83 6141 6142 6143"],
    &["82 15 83 f6 00 82 01 83 6161 6162 6163"],
    &["82 15 83 f6 01 82 00 83 6161 6162 6163"],
    &["82 15 83 f6 00 83 00 83 6161 6162 6163 6164", "82 15 83 f6 00 83 00 83 6141 6142 6143 6164"],
    &["82 15 83 f6 00 83 00 83 6161 6162 6163 6144"],
    &[
        "82 15 83 f6 00 83 00 83 6161 6162 6163 81 6164",
        "82 15 83 f6 00 83 00 83 6161 6162 6163 81 6144",
    ],
];

#[test]
fn all_of_all_classes() {
    let mut aris: Vec<(usize, &str)> = Vec::new();
    for (k, class) in CLASSES.iter().enumerate() {
        aris.extend(class.iter().map(|ari| (k, *ari)));
    }
    let mut others = 0;
    for (one, first) in &aris {
        for (two, second) in &aris {
            let answer = if one == two { "same" } else { "different" };
            assert_eq!(judged(&hex(first), &hex(second)), answer, "{first} and {second}");
            others += usize::from(one == two && first != second);
        }
    }
    assert!(others > 300, "{others}");
}

/// An input for each refusal of a single ARI, with its place.
fn refused_inputs() -> Vec<(Vec<u8>, &'static str)> {
    let items = generate::counted_message(&[0x01], 1, LIMITS.items + 2).split_off(1);
    let mut nested = hex(&"82 11 81 ".repeat(12));
    nested.extend([0x81, 0x00]);
    vec![
        (vec![0xff; LIMITS.bytes + 1], "refused 1 0"),
        (Vec::new(), "refused 2 0"),
        (hex("83 00 20"), "refused 2 3"),
        (hex("82 11 82 00 ff"), "refused 3 4"),
        (hex("82 09 fa3f800000"), "refused 4 2"),
        (items, "refused 5 4098"),
        (nested, "refused 6 36"),
        (hex("82 05 6161"), "refused 7 2"),
        (hex("82 11 82 00 6261"), "refused 9 4"),
        (hex("83 6161 20 6140"), "refused 10 4"),
        (hex("82 12 a2 6161 00 6141 00"), "refused 11 6"),
        (hex("84 00 20 00 80"), "refused 12 4"),
        (hex("81 6161 00"), "refused 13 3"),
    ]
}

/// "refusals: the first's, then the second's"; also where the two differ before that.
#[test]
fn refusals() {
    let refused = refused_inputs();
    for (first, answer) in &refused {
        for accepted in ["00", "81 6161", "81 6141", "82 05 00", "83 00 20 00", "82 14 81 f6"] {
            let accepted = hex(accepted);
            assert_eq!(judged(first, &accepted), *answer, "{}", to_hex(first));
            assert_eq!(judged(&accepted, first), *answer, "{}", to_hex(first));
        }
        for (second, _) in &refused {
            assert_eq!(judged(first, second), *answer, "{} {}", to_hex(first), to_hex(second));
        }
    }
    let mut numbers: Vec<&str> = refused.iter().map(|(_, answer)| *answer).collect();
    numbers.dedup_by_key(|answer| answer.split(' ').nth(1));
    assert_eq!(numbers.len(), 12, "{numbers:?}");
    // What two ARIs have in common does not count before a refusal of either.
    assert_eq!(judged(&hex("6161"), &hex("6161 6161")), "refused 13 2");
    assert_eq!(judged(&hex("6161 6161"), &hex("6161")), "refused 13 2");
    // Keys in the order of their bytes, though a name's letters are alike.
    assert_judged("82 12 a2 6141 00 6161 00", "82 12 a2 6141 00 6161 00", "same");
    assert_judged("82 12 a2 6141 00 6162 00", "82 12 a2 6161 00 6142 00", "refused 11 6");
}

/// Each of the two keeps to the limits by itself.
#[test]
fn limits() {
    let (one, two) = (hex("83 6161 20 00"), hex("9803 780141 20 00"));
    let answer = |limits: Limits| {
        [same(&one, &two, &limits), same(&two, &one, &limits)]
            .map(|answer| answer.map_err(|refusal| refusal.to_string()))
    };
    let exact = Limits { bytes: two.len(), items: 4, containers: 1, ..LIMITS };
    let refused = |words: &str| [Err(words.to_string()), Err(words.to_string())];
    assert_eq!(answer(exact), [Ok(true), Ok(true)]);
    assert_eq!(answer(Limits { bytes: two.len() - 1, ..exact }), refused("refused 1 0"));
    let fewer = answer(Limits { items: 3, ..exact });
    assert_eq!(fewer, ["refused 5 4", "refused 5 6"].map(|words| Err(words.to_string())));
    assert_eq!(answer(Limits { containers: 0, ..exact }), refused("refused 6 0"));

    let (mut random, mut accepted) = (Random::new(41), 0);
    for _ in 0..20 {
        let settings = generate::settings(&mut random);
        // Its last item is a text string of capitals.
        let full = generate::full_list(&mut random, settings, LIMITS.bytes);
        let mut other = full.clone();
        *other.last_mut().unwrap() ^= 0x20;
        if matches!(check_single(&full), Answer::Accepted(_)) {
            accepted += 1;
            assert_eq!(judged(&full, &full), "same");
            assert_eq!(judged(&full, &other), "different");
            assert_eq!(judged(&full, &shortened(&full)), "same");
        }
        let deep = generate::nested_single(&mut random, LIMITS.containers);
        let wide = generate::rewritten(&mut random, &deep, 0, 100);
        assert_eq!(judged(&deep, &wide), "same", "{}", to_hex(&wide));
        let items = generate::counted_message(&[0x01], 1, LIMITS.items + 1).split_off(1);
        let wide = generate::rewritten(&mut random, &items, 0, 30);
        assert_eq!(judged(&items, &wide), "same");
    }
    assert!(accepted > 5, "{accepted}");
}

/// The container of item `k`, and how many of its members are before it.
fn container(records: &[Record], k: usize) -> Option<(usize, usize)> {
    let around = records[k].around;
    let outer = (0..k).rev().find(|j| records[*j].around + 1 == around)?;
    Some((outer, records[outer + 1..k].iter().filter(|record| record.around == around).count()))
}

#[derive(Clone, Copy, Debug, PartialEq, Eq)]
enum Slot {
    Name,
    Label,
    Key,
    String,
}

/// What a text string of an accepted ARI is, by the containers around it.
fn slot(records: &[Record], k: usize) -> Slot {
    // A typed value is an array of two, but for parameters and for what is itself a typed
    // value's second member.
    fn is_typed(records: &[Record], j: usize) -> bool {
        let is_value = match container(records, j) {
            Some((outer, 3)) => records[outer].reference,
            Some((outer, 1)) => is_typed(records, outer),
            _ => false,
        };
        records[j].kind == Kind::Array(2) && !is_value
    }
    match container(records, k) {
        Some((outer, 0..=2)) if records[outer].reference => Slot::Name,
        Some((outer, before)) if matches!(records[outer].kind, Kind::Map(_)) => {
            if before % 2 == 0 {
                Slot::Key
            } else {
                Slot::String
            }
        }
        Some((outer, 1))
            if is_typed(records, outer) && records[k - 1].kind == Kind::Unsigned(14) =>
        {
            Slot::Label
        }
        _ => Slot::String,
    }
}

/// One way to judge: the shortened bytes, the letters of names in one case.
fn folded_bytes(ari: &[u8]) -> Vec<u8> {
    let mut bytes = shortened(ari);
    let records = items_single(&bytes).expect("accepted");
    for (k, record) in records.iter().enumerate() {
        match record.kind {
            Kind::Text(length) if slot(&records, k) == Slot::Name => {
                bytes[record.after - length as usize..record.after].make_ascii_lowercase();
            }
            _ => (),
        }
    }
    bytes
}

/// Another way, if there is a text: all of it in one case but for strings, which begin with a
/// quote, and for labels. A word ends before one of the signs, which no string has bare.
fn folded_text(ari: &[u8]) -> Option<String> {
    let (text, _) = text_of(ari, &LIMITS).ok()?;
    let (start, rest) = text.split_at(if text.starts_with("ari:") { 4 } else { 0 });
    let mut folded = start.to_string();
    for word in rest.split_inclusive(['(', ')', '/', ',', '=']) {
        let is_label =
            ["(/label/", ",/label/", "=/label/"].iter().any(|start| folded.ends_with(start));
        match is_label || word.starts_with("%22") {
            true => folded += word,
            false => folded += &word.to_lowercase(),
        }
    }
    Some(folded)
}

#[test]
fn the_other_ways() {
    let folded = |digits: &str| folded_text(&hex(digits)).unwrap();
    assert_eq!(folded("83 6141 6142 6143"), "ari://a/b/c");
    assert_eq!(folded("82 05 01"), "ari:/uint/1");
    assert_eq!(folded("84 f6 6141 6142 82 62 4122 82 0e 6143"), "./a/b(%22A%22%22,/label/C)");
    // A namespace and an object type that are spelled as the type of labels.
    assert_eq!(folded("83 65 4c4142454c 65 4c4142454c 6141"), "ari://label/label/a");
    assert_eq!(folded("84 f6 65 4c4142454c 6141 81 81 65 4c4142454c"), "./label/a(//label/)");
    assert_eq!(
        folded("84 f6 20 00 a2 00 82 0e 6141 6141 82 0e 6142"),
        "./-1/0(0=/label/A,%22A%22=/label/B)"
    );
    assert_eq!(folded_text(&hex("f93c00")), None);
    assert_eq!(folded_bytes(&hex("9803 780141 780142 780143")), hex("83 6161 6162 6163"));
    assert_eq!(
        folded_bytes(&hex("84 f6 20 00 83 6141 6142 6143")),
        hex("84 f6 20 00 83 6141 6142 6143")
    );
    let slots = |digits: &str| -> Vec<Slot> {
        let records = items_single(&hex(digits)).unwrap();
        let is_text = |k: &usize| matches!(records[*k].kind, Kind::Text(_));
        (0..records.len()).filter(is_text).map(|k| slot(&records, k)).collect()
    };
    for hole in NAMES {
        assert!(slots(&hole.replace("..", "65 6161616161")).contains(&Slot::Name), "{hole}");
    }
    let holes = [(STRINGS, Slot::String), (LABELS, Slot::Label), (KEYS, Slot::Key)];
    for (hole, expected) in
        holes.iter().flat_map(|(all, slot)| all.iter().map(move |hole| (hole, slot)))
    {
        assert!(slots(&hole.replace("..", "6161")).contains(expected), "{hole}");
    }
}

/// A single ARI that is accepted, most often with names and strings.
fn made(random: &mut Random) -> Vec<u8> {
    loop {
        let settings = generate::settings(random);
        let (items, floats) = (settings.items.min(60), random.chance(20));
        let ari = generate::single(random, Settings { items, floats, ..settings });
        if items_single(&ari).is_ok() {
            return ari;
        }
    }
}

/// The answer is that of both other ways; what is the same has its items in the same order
/// with the same kinds.
#[test]
fn judged_in_other_ways() {
    let mut random = Random::new(42);
    let (mut by_text, mut in_heads, mut in_letters, mut different, mut nearly) = (0, 0, 0, 0, 0);
    for _ in 0..6_000 {
        let first = made(&mut random);
        let (letters, heads) = (random.pick(&[0, 5, 30]), random.pick(&[0, 20]));
        let second = match random.below(8) {
            0 => made(&mut random),
            _ => generate::rewritten(&mut random, &first, letters, heads),
        };
        if items_single(&second).is_err() {
            continue;
        }
        let answer = same(&first, &second, &LIMITS).unwrap();
        let words = || format!("{} {}", to_hex(&first), to_hex(&second));
        assert_eq!(answer, folded_bytes(&first) == folded_bytes(&second), "{}", words());
        if let (Some(one), Some(two)) = (folded_text(&first), folded_text(&second)) {
            assert_eq!(answer, one == two, "{}", words());
            by_text += 1;
        }
        let kinds = |ari: &[u8]| -> Vec<(usize, Kind, bool)> {
            let records = items_single(ari).unwrap();
            records.iter().map(|r| (r.around, r.kind, r.reference)).collect()
        };
        let spelled_alike = shortened(&first) == shortened(&second);
        if answer {
            assert_eq!(kinds(&first), kinds(&second));
            in_heads += usize::from(first != second && spelled_alike);
            in_letters += usize::from(!spelled_alike);
        } else {
            different += 1;
            nearly += usize::from(kinds(&first) == kinds(&second));
        }
    }
    let seen = [by_text, in_heads, in_letters, different, nearly];
    assert!(seen.iter().all(|count| *count > 150), "{seen:?}");
}

/// With one letter in the other case an ARI is the same exactly if the letter is a name's.
#[test]
fn one_letter() {
    let mut random = Random::new(43);
    let (mut slots, mut refused) = ([0; 4], 0);
    for _ in 0..4_000 {
        let ari = made(&mut random);
        let records = items_single(&ari).unwrap();
        let texts: Vec<usize> =
            (0..records.len()).filter(|k| matches!(records[*k].kind, Kind::Text(_))).collect();
        for k in texts.into_iter().take(12) {
            let Kind::Text(length) = records[k].kind else { unreachable!() };
            let start = records[k].after - length as usize;
            let letters: Vec<usize> =
                (start..records[k].after).filter(|at| ari[*at].is_ascii_alphabetic()).collect();
            if letters.is_empty() {
                continue;
            }
            let mut other = ari.clone();
            other[random.pick(&letters)] ^= 0x20;
            let slot = slot(&records, k);
            let answer = same(&ari, &other, &LIMITS);
            assert_eq!(answer, same(&other, &ari, &LIMITS));
            match answer {
                Ok(answer) => {
                    assert_eq!(answer, slot == Slot::Name, "{} {}", to_hex(&ari), to_hex(&other));
                    slots[slot as usize] += 1;
                }
                // Another key may be out of order.
                Err(Refusal { test, .. }) => {
                    assert_eq!((test, slot), (Test::KeyOrder, Slot::Key));
                    refused += 1;
                }
            }
        }
    }
    assert!(slots.iter().all(|count| *count > 50) && refused > 0, "{slots:?} {refused}");
}

/// Every ARI is the same as itself, whatever the heads; the first and the second may change
/// places; what is the same as one is the same as the other.
#[test]
fn an_equivalence() {
    let mut random = Random::new(44);
    let (mut all, mut none, mut one) = (0, 0, 0);
    for _ in 0..4_000 {
        let first = made(&mut random);
        let wide = generate::rewritten(&mut random, &first, 0, 60);
        let accepted = |ari: &[u8]| items_single(ari).is_ok();
        assert_eq!(same(&first, &first, &LIMITS), Ok(true));
        assert_eq!(same(&first, &shortened(&first), &LIMITS), Ok(true));
        if accepted(&wide) {
            assert_eq!(same(&first, &wide, &LIMITS), Ok(true), "{}", to_hex(&first));
            assert_eq!(same(&wide, &first, &LIMITS), Ok(true), "{}", to_hex(&first));
        }
        let mut aris = [first, wide, Vec::new()];
        for k in [1, 2] {
            let letters = random.pick(&[5, 30]);
            aris[k] = generate::rewritten(&mut random, &aris[k - 1], letters, 10);
        }
        if !aris.iter().all(|ari| accepted(ari)) {
            continue;
        }
        let judge = |one: usize, two: usize| same(&aris[one], &aris[two], &LIMITS).unwrap();
        let pairs = [(0, 1), (1, 2), (0, 2)];
        assert!(pairs.iter().all(|(one, two)| judge(*one, *two) == judge(*two, *one)));
        match pairs.iter().filter(|(one, two)| judge(*one, *two)).count() {
            3 => all += 1,
            1 => one += 1,
            0 => none += 1,
            _ => panic!("{:?}", aris.each_ref().map(|ari| to_hex(ari))),
        }
    }
    assert!(all > 500 && one > 100 && none > 50, "{all} {one} {none}");
}

/// What is refused is refused as by its own check, and the first before the second.
#[test]
fn refused_as_each_by_itself() {
    let mut random = Random::new(45);
    let (mut by_first, mut by_second, mut by_both) = (0, 0, 0);
    for _ in 0..6_000 {
        let mut pair = [0; 2].map(|_| made(&mut random));
        if random.chance(60) {
            pair[1] = generate::rewritten(&mut random, &pair[0], 5, 10);
        }
        for ari in &mut pair {
            if random.chance(40) {
                let records = items_single(ari).unwrap_or_default();
                generate::damage(&mut random, ari, &records, &[0x81, 0x61, 0x41]);
            }
        }
        let [first, second] = pair.each_ref().map(|ari| items_single(ari).err());
        let answer = same(&pair[0], &pair[1], &LIMITS);
        assert_eq!(answer.err(), first.or(second));
        by_both += usize::from(first.is_some() && second.is_some() && first != second);
        by_first += usize::from(first.is_some() && second.is_none());
        by_second += usize::from(first.is_none() && second.is_some());
    }
    let seen = [by_first, by_second, by_both];
    assert!(seen.iter().all(|count| *count > 200), "{seen:?}");
}

/// All ARIs of a few items that matter, each beside every other.
#[test]
fn all_short_aris() {
    let items = ["00", "20", "11", "6161", "6141", "81", "82", "83", "84", "a1"].map(hex);
    let (mut starts, mut aris) = (vec![Vec::new()], Vec::new());
    for _ in 0..6 {
        let longer = |start: &Vec<u8>| items.each_ref().map(|item| [&start[..], item].concat());
        let all: Vec<Vec<u8>> = starts.iter().flat_map(longer).collect();
        starts.clear();
        for ari in all {
            match check_single(&ari) {
                Answer::Accepted(_) => aris.push(ari),
                // Another item is due.
                Answer::Refused { number: 2, .. } => starts.push(ari),
                Answer::Refused { .. } => (),
            }
        }
    }
    let folded: Vec<Vec<u8>> = aris.iter().map(|ari| folded_bytes(ari)).collect();
    let mut pairs = 0;
    for (one, first) in aris.iter().enumerate() {
        for (two, second) in aris.iter().enumerate().skip(one) {
            let answer = same(first, second, &LIMITS);
            let expected = Ok(folded[one] == folded[two]);
            assert_eq!(answer, expected, "{} {}", to_hex(first), to_hex(second));
            pairs += usize::from(one != two && answer == Ok(true));
        }
    }
    assert!(aris.len() > 500 && pairs > 400, "{} {pairs}", aris.len());
}
