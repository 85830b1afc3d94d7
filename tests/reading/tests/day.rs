//! The day file beside requests (v) and (x).

use reading::archive::{packed_added, packed_low, packed_part, unpacked};
use reading::day::*;
use reading::generate::days::{self, message_of_length};
use reading::generate::{self, Random};
use reading::names::{check_names, name_number};
use reading::vectors::hex;
use reading::*;

/// The message C, of 18 bytes, with references 5 to 18 to 65536 and 14 to 18 to -20.
const C: &str = "01821482f6841a0001000022008183332a05";

const EMPTY: [u8; 8] = [1, 0, 0, 0, 0, 0, 0, 0];

fn said<T: std::fmt::Debug>(answer: Result<T, Refusal>) -> String {
    match answer {
        Ok(answer) => format!("{answer:?}"),
        Err(refusal) => refusal.to_string(),
    }
}

fn checked(file: &[u8]) -> String {
    said(check(file, &VERSION_1))
}

/// A file's bytes: what stands before the trailer, the count and the table's start.
fn raw(front: &str, count: u16, start: u32) -> Vec<u8> {
    let trailer = [&[1, 0][..], &count.to_be_bytes(), &start.to_be_bytes()].concat();
    [hex(front), trailer].concat()
}

fn file(messages: &[&str]) -> Vec<u8> {
    let messages: Vec<Vec<u8>> = messages.iter().map(|digits| hex(digits)).collect();
    file_of(&messages, &VERSION_1)
}

/// Messages whose file has that many bytes, 4,098 for each but the last.
fn file_of_length(bytes: usize) -> Vec<u8> {
    let mut left = bytes - TRAILER;
    let mut messages = Vec::new();
    while left > 0 {
        let taken = left.min(4_098);
        messages.push(message_of_length(taken - 2));
        left -= taken;
    }
    let file = file_of(&messages, &VERSION_1);
    assert_eq!(file.len(), bytes);
    file
}

#[test]
fn the_empty_file() {
    assert_eq!(file_of::<Vec<u8>>(&[], &VERSION_1), EMPTY);
    assert_eq!(checked(&EMPTY), "0");
    assert_eq!(messages_of(&EMPTY, &VERSION_1), Ok(vec![]));
    for k in [0, 1, u64::MAX] {
        assert_eq!(said(find(&EMPTY, k, &VERSION_1)), "refused 17 0");
        assert_eq!(part(&EMPTY, k, &VERSION_1), []);
    }
    assert_eq!(found(&EMPTY, b"", b"", 0, &VERSION_1), Ok(vec![]));
    assert_eq!(search(&EMPTY, b"", b"", 0, &mut [], &VERSION_1), Ok(0));
}

/// The layout, byte by byte.
#[test]
fn small_files() {
    let one = raw("01 0000", 1, 1);
    assert_eq!(added(&EMPTY, &[1], &VERSION_1), Ok(one.clone()));
    let two = raw(&format!("01 {C} 0000 0001"), 2, 19);
    assert_eq!(added(&one, &hex(C), &VERSION_1), Ok(two.clone()));
    let three = raw(&format!("01 {C} 01821481f6 0000 0001 0013"), 3, 24);
    assert_eq!(added(&two, &hex("01821481f6"), &VERSION_1), Ok(three.clone()));
    assert_eq!(file(&["01", C, "01821481f6"]), three);
    assert_eq!([checked(&one), checked(&two), checked(&three)], ["1", "2", "3"]);
    let messages: Vec<Vec<u8>> = ["01", C, "01821481f6"].map(hex).to_vec();
    assert_eq!(messages_of(&three, &VERSION_1).unwrap(), messages);
    for (k, range) in [0..1, 1..19, 19..24].into_iter().enumerate() {
        assert_eq!(part(&three, k as u64, &VERSION_1), messages[k]);
        assert_eq!(find(&three, k as u64, &VERSION_1), Ok(range));
    }
    for k in [3, 4, 1 << 16, 1 << 32, 1 << 32 | 1, 1 << 63, u64::MAX] {
        assert_eq!(said(find(&three, k, &VERSION_1)), "refused 17 3");
        assert_eq!(part(&three, k, &VERSION_1), []);
    }
}

/// Equal messages are kept as they are, each by itself.
#[test]
fn equal_messages() {
    let file = file(&[C, C, "01", "01", C]);
    let bounds = |k| find(&file, k, &VERSION_1).unwrap();
    assert_eq!([0, 1, 2, 3, 4].map(bounds), [0..18, 18..36, 36..37, 37..38, 38..56]);
}

#[test]
fn bad_trailers() {
    let right = file(&[C, "01"]);
    let trailer = right.len() - TRAILER;
    assert_eq!(checked(&right), "2");
    // Each byte in all other ways.
    for at in trailer..right.len() {
        for byte in 0..=255 {
            let mut file = right.clone();
            file[at] = byte;
            let answer = if byte == right[at] { "2" } else { "refused 20 0" };
            assert_eq!(checked(&file), answer, "{at} {byte}");
        }
    }
    for length in 0..TRAILER {
        assert_eq!(checked(&right[right.len() - length..]), "refused 20 0");
        assert_eq!(checked(&EMPTY[..length]), "refused 20 0");
        assert_eq!(checked(&vec![1; length]), "refused 20 0");
    }
    // Cut at either end, or longer.
    for cut in 1..right.len() {
        assert_eq!(checked(&right[cut..]), "refused 20 0");
        assert_eq!(checked(&right[..right.len() - cut]), "refused 20 0");
    }
    for byte in [0, 1, 255] {
        assert_eq!(checked(&[&right[..], &[byte]].concat()), "refused 20 0");
        assert_eq!(checked(&[&[byte], &right[..]].concat()), "refused 20 0");
    }
    // No messages, and bytes that would be theirs.
    for front in ["00", "01", C, "010000"] {
        assert_eq!(checked(&raw(front, 0, hex(front).len() as u32)), "refused 20 0");
        assert_eq!(checked(&raw(front, 0, 0)), "refused 20 0");
    }
    assert_eq!(checked(&raw("", 0, 1)), "refused 20 0");
    // A start that adds up only if it is counted in 16 or 32 bits.
    assert_eq!(checked(&raw("01 0000", 1, 1)), "1");
    assert_eq!(checked(&raw("01 0000", 1, 1 + (1 << 16))), "refused 20 0");
    assert_eq!(checked(&raw("01 0000", 2, 0xffff_ffff)), "refused 20 0");
    // Count and start that still add up are no fault of the trailer's.
    assert_eq!(checked(&raw("01 01 0000 0001", 2, 2)), "2");
    assert_eq!(checked(&raw("01 01 0000 0001", 1, 4)), "refused 21 0");
    assert_eq!(checked(&raw("01 01 0000 0001", 3, 0)), "refused 21 0");
}

/// "the first entry that is a first one not 0, not above the one before or not below the
/// table's start"
#[test]
fn bad_tables() {
    let with = |entries: &str, count| checked(&raw(&format!("010101 {entries}"), count, 3));
    assert_eq!(with("0000 0001 0002", 3), "3");
    for (entries, place) in [
        // A first one that isn't 0.
        ("0001 0002 0003", 0),
        ("0001 0001 0002", 0),
        ("0003 0001 0002", 0),
        ("0100 0001 0002", 0),
        ("ffff 0001 0002", 0),
        // Not above the one before.
        ("0000 0000 0002", 1),
        ("0000 0000 0000", 1),
        ("0000 0001 0001", 2),
        ("0000 0002 0001", 2),
        ("0000 0002 0000", 2),
        ("0000 0002 0002", 2),
        // Not below the table's start.
        ("0000 0003 0002", 1),
        ("0000 0003 0004", 1),
        ("0000 0001 0003", 2),
        ("0000 0001 0004", 2),
        ("0000 0001 0102", 2),
        ("0000 0001 ffff", 2),
        ("0000 8001 0002", 1),
    ] {
        assert_eq!(with(entries, 3), format!("refused 21 {place}"), "{entries}");
    }
    // A table that starts at 0 has no message before it.
    assert_eq!(checked(&raw("0000", 1, 0)), "refused 21 0");
    assert_eq!(checked(&raw("0001", 1, 0)), "refused 21 0");
    assert_eq!(checked(&raw("0000 0001", 2, 0)), "refused 21 0");
}

/// Each byte of the table in all other ways: the entry is refused, or the one behind it,
/// or one of the two messages that it parts.
#[test]
fn damaged_tables() {
    // No byte of theirs but the first is a 1, so no message starts within another.
    let messages = ["01", "01821482f68319020020 00", "0182148119ffff 821481f6", "01"].map(hex);
    let right = file_of(&messages, &VERSION_1);
    let firsts = [0, 1, 12, 23];
    let start = 24;
    assert_eq!((checked(&right), right.len()), ("4".to_string(), start + 4 * 2 + 8));
    let mut seen = [0; 24];
    for at in start..start + 8 {
        for byte in (0..=255).filter(|byte| *byte != right[at]) {
            let mut file = right.clone();
            file[at] = byte;
            let k = (at - start) / 2;
            let entry =
                usize::from(u16::from_be_bytes([file[start + 2 * k], file[start + 2 * k + 1]]));
            let (test, place) = if k == 0 || entry <= firsts[k - 1] || entry >= start {
                (21, k)
            } else if k < 3 && firsts[k + 1] <= entry {
                (21, k + 1)
            } else if matches!(check_message(&file[firsts[k - 1]..entry]), Answer::Refused { .. }) {
                (22, k - 1)
            } else {
                (22, k)
            };
            assert_eq!(checked(&file), format!("refused {test} {place}"), "{at} {byte}");
            seen[test] += 1;
        }
    }
    assert!(seen[21] > 1_000 && seen[22] > 10, "{seen:?}");
}

#[test]
fn refused_messages() {
    let wrong =
        ["02", "0182", "01821481", "0180", "01c1", "01821481 fa00000000", "82", "01 00", "01 01"];
    for wrong in wrong {
        assert!(matches!(check_message(&hex(wrong)), Answer::Refused { .. }), "{wrong}");
        let with = |messages: &[&str]| checked(&file(messages));
        assert_eq!(with(&[wrong]), "refused 22 0");
        assert_eq!(with(&[wrong, "01"]), "refused 22 0");
        assert_eq!(with(&["01", C, wrong]), "refused 22 2");
        assert_eq!(with(&["01", wrong, C, wrong]), "refused 22 1");
        assert_eq!(with(&[C, "01", wrong, "01", "01", "01"]), "refused 22 2");
    }
    // A message that ends where the next begins may not go on there.
    assert_eq!(checked(&raw(&format!("{C} 0000 0001"), 2, 18)), "refused 22 1");
    assert_eq!(checked(&raw(&format!("{C} 0000 0002"), 2, 18)), "refused 22 0");
}

/// The limits of a message are those of each one in the file.
#[test]
fn limits_of_a_message() {
    let long = [4_096, 4_097].map(message_of_length);
    let items = [1_024, 1_025].map(|items| generate::counted_message(&[1], 1, items));
    let mut random = Random::new(31);
    let nested = [12, 13].map(|containers| generate::nested_message(&mut random, containers));
    for ([right, wrong], number) in [(long, 1), (items, 5), (nested, 6)] {
        let messages = [vec![1], right.clone(), vec![1]];
        let file = file_of(&messages, &VERSION_1);
        assert_eq!(checked(&file), "3");
        assert_eq!(checked(&file_of(&[&[1][..], &wrong], &VERSION_1)), "refused 22 1");
        assert!(added(&file, &right, &VERSION_1).is_ok());
        let refusal = added(&file, &wrong, &VERSION_1).unwrap_err();
        assert_eq!(refusal.test as u8, number);
    }
}

#[test]
fn limit_of_a_file() {
    for (bytes, answer) in [(65_534, "16"), (65_535, "16"), (65_536, "refused 20 0")] {
        assert_eq!(checked(&file_of_length(bytes)), answer);
    }
    // Of one byte each: 3 bytes with the entry.
    let tiny = file_of(&vec![[1]; 21_842], &VERSION_1);
    assert_eq!((checked(&tiny), tiny.len()), ("21842".to_string(), 65_534));
    assert_eq!(said(added(&tiny, &[1], &VERSION_1)), "refused 23 0");
    assert_eq!(checked(&file_of(&vec![[1]; 21_843], &VERSION_1)), "refused 20 0");
}

/// "given exactly if the message with its table entry would pass the limit"
#[test]
fn a_full_file() {
    for length in [1, 5, 18, 23, 300, 4_000, 4_096] {
        let message = message_of_length(length);
        for more in [-9, -2, -1, 0, 1, 2, 3] {
            let before = (65_535 - 2 - length as isize + more) as usize;
            let file = file_of_length(before);
            let new = added(&file, &message, &VERSION_1);
            if more > 0 {
                assert_eq!(said(new), "refused 23 0", "{length} {more}");
                continue;
            }
            let new = new.unwrap();
            assert_eq!(new.len() as isize, 65_535 + more);
            let mut messages = messages_of(&file, &VERSION_1).unwrap();
            messages.push(&message);
            assert_eq!(messages_of(&new, &VERSION_1), Ok(messages));
        }
    }
    let full = file_of_length(65_535);
    assert_eq!(said(added(&full, &[1], &VERSION_1)), "refused 23 0");
}

#[test]
fn order_of_refusals() {
    let long = message_of_length(4_096);
    let full = file_of_length(65_535);
    let wrong_list = b"a\n";
    // Of a file with all three faults, and then without the first, the second, the third.
    let files = [
        (raw("02 0001", 1, 2), "refused 20 0"),
        (raw("02 0001", 1, 1), "refused 21 0"),
        (raw("02 0000", 1, 1), "refused 22 0"),
        (raw("01 02 0000 0000", 2, 2), "refused 21 1"),
        (raw("02 02 0000 0002", 2, 2), "refused 21 1"),
        (raw("01 02 0000 0001", 2, 2), "refused 22 1"),
    ];
    for (file, answer) in files {
        assert_eq!(checked(&file), answer);
        for k in [0, 1, 2, u64::MAX] {
            assert_eq!(said(find(&file, k, &VERSION_1)), answer);
            assert_eq!(part(&file, k, &VERSION_1), []);
        }
        for message in [&[1][..], &[2], &long, &[]] {
            assert_eq!(said(add(&file, message, &mut [], &VERSION_1)), answer);
        }
        for list in [&b""[..], wrong_list] {
            assert_eq!(said(search(&file, list, b"", 0, &mut [], &VERSION_1)), answer);
            assert_eq!(said(search(&file, b"", list, 0, &mut [], &VERSION_1)), answer);
        }
    }
    // For adding: the message's own, then 23, then 16.
    let one = file(&["01"]);
    for (wrong, answer) in [
        ("", "refused 2 0"),
        ("02", "refused 8 0"),
        ("01c1", "refused 3 1"),
        ("01821481 fa00000000", "refused 4 4"),
        ("0182148144", "refused 9 4"),
        ("01821482f6836120 2000", "refused 10 6"),
        ("01821482f684f62000a200f600f6", "refused 11 12"),
        ("01821482f684f6200080", "refused 12 9"),
    ] {
        for file in [&EMPTY[..], &one, &full] {
            assert_eq!(said(add(file, &hex(wrong), &mut [], &VERSION_1)), answer);
        }
    }
    let too_long = message_of_length(4_097);
    assert_eq!(said(add(&full, &too_long, &mut [], &VERSION_1)), "refused 1 0");
    assert_eq!(said(add(&full, &[1], &mut [], &VERSION_1)), "refused 23 0");
    assert_eq!(said(add(&one, &[1], &mut [], &VERSION_1)), "refused 16 14");
    // For a search: 19, then 16.
    let c = file(&[C]);
    assert_eq!(said(search(&c, b"", b"", -20, &mut [], &VERSION_1)), "refused 16 1");
    assert_eq!(said(search(&c, wrong_list, b"", -20, &mut [], &VERSION_1)), "refused 19 0");
    assert_eq!(said(search(&c, b"a=1\n", wrong_list, -20, &mut [], &VERSION_1)), "refused 19 4");
    assert_eq!(said(search(&EMPTY, b"a=1\n", wrong_list, 0, &mut [], &VERSION_1)), "refused 19 4");
}

/// 16 gives the bytes of the new file, nothing is written then, and never past it.
#[test]
fn room_for_adding() {
    let old = file(&[C, "01"]);
    let new = file(&[C, "01", C]);
    for length in 0..new.len() + 3 {
        let mut room = vec![0xee; length];
        let answer = add(&old, &hex(C), &mut room, &VERSION_1);
        if length < new.len() {
            assert_eq!(said(answer), format!("refused 16 {}", new.len()));
            assert_eq!(room, vec![0xee; length]);
        } else {
            assert_eq!(answer, Ok(Added { messages: 3, bytes: new.len() }));
            assert_eq!(room, [&new[..], &vec![0xee; length - new.len()]].concat());
        }
    }
}

/// "Adding one message and reading all gives the old ones and the new one, in that order."
#[test]
fn days_built_by_adding() {
    let mut random = Random::new(32);
    let (mut count, mut full) = (0, 0);
    for day in 0..1_000 {
        let mut file = EMPTY.to_vec();
        let mut messages: Vec<Vec<u8>> = Vec::new();
        // Few of them up to the last byte.
        let most = if day % 100 == 0 { 300 } else { random.below(12) };
        while messages.len() < most {
            let message = match most {
                300 => {
                    let length = 1_000 + random.below(3_097);
                    message_of_length(length)
                }
                _ => {
                    let settings = generate::settings(&mut random);
                    let items = settings.items.min(60);
                    generate::message(&mut random, generate::Settings { items, ..settings })
                }
            };
            let mut room = vec![0xee; 65_535];
            let answer = match add(&file, &message, &mut room, &VERSION_1) {
                Ok(answer) => answer,
                Err(Refusal { test: Test::DayFull, place: 0 }) => {
                    assert!(file.len() + message.len() + 2 > 65_535);
                    full += 1;
                    break;
                }
                Err(refusal) => {
                    let own = walk_message(&message, &FIRST_LIMITS, &mut ());
                    assert_eq!(own, Err(refusal));
                    continue;
                }
            };
            messages.push(message);
            room.truncate(answer.bytes);
            file = room;
            assert_eq!(answer.messages, messages.len());
            if messages.len() % 7 == 1 {
                assert_eq!(messages_of(&file, &VERSION_1).unwrap(), messages);
            }
        }
        assert_eq!(file, file_of(&messages, &VERSION_1));
        assert_eq!(check(&file, &VERSION_1), Ok(messages.len()));
        assert_eq!(messages_of(&file, &VERSION_1).unwrap(), messages);
        for (k, message) in messages.iter().enumerate() {
            assert_eq!(part(&file, k as u64, &VERSION_1), message);
        }
        assert_eq!(part(&file, messages.len() as u64, &VERSION_1), []);
        count += messages.len();
    }
    assert!(count > 3_000 && full == 10, "{count} {full}");
}

/// What a search finds, as lines: message, first byte in the file, byte after.
fn searched(messages: &[&str], published: &str, own: &str, namespace: i64) -> Vec<[usize; 3]> {
    let file = file(messages);
    let found = found(&file, published.as_bytes(), own.as_bytes(), namespace, &VERSION_1).unwrap();
    found.iter().map(|found| [found.message, found.first, found.after]).collect()
}

const NONE: [[usize; 3]; 0] = [];

#[test]
fn searches_by_number() {
    assert_eq!(searched(&[C], "", "", 65_536), [[0, 5, 18]]);
    assert_eq!(searched(&[C], "", "", -20), [[0, 14, 18]]);
    assert_eq!(searched(&["01", C, "01", C], "", "", -20), [[1, 15, 19], [3, 34, 38]]);
    for other in [0, 20, -19, -21, 65_535, 65_537, i64::MIN, i64::MAX, 65_536 | 1 << 32] {
        assert_eq!(searched(&[C, C], "", "", other), NONE);
    }
    // A target, references in a collection within a map within parameters, a report's
    // source, and a reference in a map among its items.
    let deep = "01 82 14 82 f6 84 07 20 00 81 84 00 20 00 a1 07 82 11 82 81 07 84 07 20 07 81 07";
    assert_eq!(searched(&[deep], "", "", 7), [[0, 5, 27], [0, 19, 21], [0, 21, 27]]);
    assert_eq!(searched(&[deep], "", "", 0), [[0, 10, 27]]);
    let report = "01 82 15 83 f6 07 83 07 83 07 20 07 82 12 a1 07 81 07";
    assert_eq!(searched(&[report], "", "", 7), [[0, 8, 12], [0, 16, 18]]);
    assert_eq!(searched(&[deep, report], "", "", 7)[3..], [[1, 35, 39], [1, 43, 45]]);
    // A number elsewhere is none: a nonce, object types and ids, literals, a byte string
    // that holds the bytes of a reference.
    let others = "01 82 14 83 07 83 00 26 07 84 01 20 00 84 07 26 82 05 07 43 830720";
    assert_eq!(searched(&[others], "", "", 7), NONE);
    // A relative reference has no number.
    assert_eq!(searched(&["01 82 14 82 f6 83 f6 20 00"], "a=0\n", "!a=0\n", 0), NONE);
    // The ends of the range.
    let least = "01 82 14 83 f6 83 3b7fffffffffffffff 20 00 83 1b7fffffffffffffff 20 00";
    assert_eq!(searched(&[least], "", "", i64::MIN), [[0, 5, 17]]);
    assert_eq!(searched(&[least], "", "", i64::MAX), [[0, 17, 29]]);
}

/// By each list; the first line of a name counts, in whichever case.
#[test]
fn searches_by_name() {
    // Targets in the namespaces a, !a, A, !A, 5 and relative.
    let named = "01 82 14 87 f6 83 6161 20 00 83 622161 20 00 83 6141 20 00 83 622141 20 00 \
                 83 05 20 00 83 f6 20 00";
    let places = |entries: &[usize]| -> Vec<[usize; 3]> {
        let bounds = [[5, 10], [10, 16], [16, 21], [21, 27], [27, 31], [31, 35]];
        let entry = |message: usize, k: usize| {
            let first = 1 + 35 * message;
            [1 + message, first + bounds[k][0], first + bounds[k][1]]
        };
        (0..2).flat_map(|message| entries.iter().map(move |k| entry(message, *k))).collect()
    };
    let of = |published, own, namespace| searched(&["01", named, named], published, own, namespace);
    assert_eq!(of("", "", 5), places(&[4]));
    for (published, own) in [("a=5\n", "!a=5\n"), ("A=5\n", "!A=5\n")] {
        assert_eq!(of(published, "", 5), places(&[0, 2, 4]), "{published}");
        assert_eq!(of("", own, 5), places(&[1, 3, 4]), "{own}");
    }
    assert_eq!(of("a=5\nA=5\n", "!A=5\n!a=5\n", 5), places(&[0, 1, 2, 3, 4]));
    assert_eq!(of("a=6\nA=5\n", "!A=6\n!a=5\n", 6), places(&[0, 1, 2, 3]));
    assert_eq!(of("a=6\nA=5\n", "!A=6\n!a=5\n", 5), places(&[4]));
    assert_eq!(of("a=-6\nA=5\n", "!A=6\n!a=5\n", -6), places(&[0, 2]));
    assert_eq!(of("A=-6\na=5\n", "!A=6\n!a=5\n", 6), places(&[1, 3]));
    // A name is looked for in its own list only.
    assert_eq!(of("!a=5\n!A=5\n", "a=5\nA=5\n", 5), places(&[4]));
    // The first line counts.
    assert_eq!(of("a=6\na=5\n", "", 5), places(&[4]));
    assert_eq!(of("a=5\na=6\n", "", 5), places(&[0, 2, 4]));
    // A number stands for itself, whatever a name stands for.
    assert_eq!(of("a=6\n", "", 6), places(&[0, 2]));
    assert_eq!(of("ab=5\n_=5\n", "!ab=5\n", 5), places(&[4]));
    // Inside parameters, lists and maps; not as object types and ids, keys and strings.
    let deep = "01 82 14 82 f6 84 622161 6161 6161 a1 6161 82 11 82 81 6161 84 6161 20 00 81 6161";
    assert_eq!(searched(&[deep], "a=9\n", "", 9), [[0, 19, 22], [0, 22, 30]]);
    assert_eq!(searched(&[deep], "a=9\n", "!a=9\n", 9)[0], [0, 5, 30]);
    assert_eq!(searched(&[deep], "", "!a=9\n", 9), [[0, 5, 30]]);
}

/// "24 bytes each, big-endian"; "16 in entries", of which only whole ones count.
#[test]
fn room_for_a_search() {
    let file = file(&["01", C, C]);
    let mut bytes: Vec<u8> = Vec::new();
    for number in [1u64, 15, 19, 2, 33, 37] {
        bytes.extend(number.to_be_bytes());
    }
    for length in 0..bytes.len() + 30 {
        let mut room = vec![0xee; length];
        let answer = search(&file, b"", b"", -20, &mut room, &VERSION_1);
        if length < bytes.len() {
            assert_eq!(said(answer), "refused 16 2");
            assert_eq!(room, vec![0xee; length]);
        } else {
            assert_eq!(answer, Ok(2));
            assert_eq!(room, [&bytes[..], &vec![0xee; length - bytes.len()]].concat());
        }
    }
    // Not the references that there are, but those found; none need no room.
    assert_eq!(search(&file, b"", b"", 1, &mut [], &VERSION_1), Ok(0));
}

/// Made files: what is found is what the listing of each message has, translated.
#[test]
fn searches_beside_the_listing() {
    let mut random = Random::new(33);
    let (mut by_number, mut by_name, mut in_case, mut refused) = (0, 0, 0, 0);
    for _ in 0..300 {
        let (file, lists) = days::named_file(&mut random);
        let (published, own) = &lists;
        let namespace = days::namespace(&mut random, &file, &lists);
        let form = form_of(&file);
        let answer = found(&file, published, own, namespace, &form);
        let messages = match messages_of(&file, &form) {
            Ok(messages) => messages,
            Err(refusal) => {
                refused += 1;
                assert_eq!(answer, Err(refusal));
                continue;
            }
        };
        if let Err(refusal) = check_names(published, own) {
            assert_eq!(answer, Err(refusal));
            continue;
        }
        let mut expected = Vec::new();
        let mut start = 0;
        for (message, bytes) in messages.iter().enumerate() {
            for Entry { first, after, namespace: of } in listing(bytes).unwrap().entries {
                let is_it = match of {
                    Namespace::Number(number) => number == namespace,
                    Namespace::Relative => false,
                    Namespace::Name(place) => {
                        // The lists read once more, in another way.
                        let name = std::str::from_utf8(names::name_at(bytes, place)).unwrap();
                        let list = if name.starts_with('!') { own } else { published };
                        let list = std::str::from_utf8(list).unwrap();
                        let mut pairs = list.lines().filter_map(|line| line.split_once('='));
                        let pair = pairs.find(|(key, _)| key.to_uppercase() == name.to_uppercase());
                        in_case += usize::from(pair.is_some_and(|(key, _)| key != name));
                        pair.is_some_and(|(_, number)| number == namespace.to_string())
                    }
                };
                if is_it {
                    by_number += usize::from(matches!(of, Namespace::Number(_)));
                    by_name += usize::from(matches!(of, Namespace::Name(_)));
                    expected.push(Found { message, first: start + first, after: start + after });
                }
            }
            start += bytes.len();
        }
        for found in &expected {
            let part = find(&file, found.message as u64, &form).unwrap();
            assert!(part.start < found.first && found.after <= part.end);
        }
        assert_eq!(answer, Ok(expected));
    }
    let counts = [by_number, by_name, in_case];
    assert!(counts.iter().all(|times| *times > 100) && refused > 15, "{counts:?} {refused}");
}

#[test]
fn numbers_of_names() {
    let number = |published: &str, own: &str, name: &str| {
        name_number(published.as_bytes(), own.as_bytes(), name.as_bytes())
    };
    assert_eq!(number("", "", "a"), None);
    assert_eq!(number("a=5\n", "!a=-6\n", "a"), Some(5));
    assert_eq!(number("a=5\n", "!a=-6\n", "!a"), Some(-6));
    assert_eq!(number("!a=5\n", "a=-6\n", "a"), None);
    assert_eq!(number("!a=5\n", "a=-6\n", "!a"), None);
    for (published, own) in [("a=5\n", "!a=-6\n"), ("A=5\n", "!A=-6\n")] {
        for (name, expected) in [("a", 5), ("A", 5), ("!a", -6), ("!A", -6)] {
            assert_eq!(number(published, own, name), Some(expected), "{published} {name}");
        }
        assert_eq!(number(own, published, "a"), None);
        assert_eq!(number(own, published, "!A"), None);
    }
    for name in ["a", "A"] {
        assert_eq!(number("A=5\na=6\n", "", name), Some(5));
        assert_eq!(number("a=6\nA=5\n", "", name), Some(6));
        assert_eq!(number("A=05\na=6\n", "", name), Some(6));
        assert_eq!(number("a=05\nA=6\n", "", name), Some(6));
    }
    assert_eq!(number("a=5\na=6\n", "", "a"), Some(5));
    assert_eq!(number("a=0\n", "", "a"), Some(0));
    assert_eq!(number(&format!("a={}\n", i64::MIN), "", "a"), Some(i64::MIN));
    assert_eq!(number("", &format!("!a={}\n", i64::MAX), "!a"), Some(i64::MAX));
    // Lines that are wrongly formed match no name, and others count all the same.
    assert_eq!(number("a=05\n\nx\na=6\n", "", "a"), Some(6));
    assert_eq!(number("a=9223372036854775808\n", "", "a"), None);
    assert_eq!(number("a=5", "", "a"), None);
    for wrong in ["", "!", "a=5", "a=", "a\n", "a=5\n", " a", "="] {
        assert_eq!(number("a=5\n", "!a=5\n", wrong), None);
    }
}

/// What is made occurs: right files with few and many messages, and each refusal.
#[test]
fn what_is_made() {
    for bytes in (5..=600).chain(4_000..=4_096).chain([1, 16_384]) {
        let message = message_of_length(bytes);
        assert_eq!(message.len(), bytes);
        assert!(matches!(check_message(&message), Answer::Accepted(_)), "{bytes}");
    }
    let mut random = Random::new(34);
    let (mut empty, mut few, mut many, mut full, mut tests) = (0, 0, 0, 0, [0; 24]);
    let mut later = [0; 24];
    let (mut over, mut versions) = (0, [0; 2]);
    for _ in 0..2_500 {
        let file = days::file(&mut random);
        let form = form_of(&file);
        versions[usize::from(form.version) - 1] += usize::from(check(&file, &form).is_ok());
        match check(&file, &form) {
            Ok(0) => empty += 1,
            Ok(1..=20) => few += 1,
            Ok(_) => many += 1,
            Err(Refusal { test, place }) => {
                tests[test as usize] += 1;
                later[test as usize] += usize::from(place > 0);
            }
        }
        full += usize::from(file.len() == 65_535 && check(&file, &VERSION_1).is_ok());
        over += usize::from(file.len() == 65_536 && form == VERSION_1);
    }
    assert!(versions.iter().all(|times| *times > 400), "{versions:?}");
    assert!(empty > 20 && few > 400 && many > 40, "{empty} {few} {many}");
    assert!(full > 4 && over > 4, "{full} {over}");
    assert!(tests[20..23].iter().all(|times| *times > 100), "{tests:?}");
    assert!(later[21] > 40 && later[22] > 40, "{later:?}");

    let (mut accepted, mut tests) = (0, [0; 24]);
    let (mut just_full, mut one_past) = (0, 0);
    for _ in 0..1_500 {
        let settings = generate::settings(&mut random);
        let message = generate::message(&mut random, settings);
        let file = days::file_for(&mut random, &message);
        let bytes = file.len() + message.len() + 2;
        match added(&file, &message, &form_of(&file)) {
            Ok(new) => {
                accepted += 1;
                just_full += usize::from(new.len() == 65_535);
            }
            Err(refusal) => {
                tests[refusal.test as usize] += 1;
                one_past += usize::from(refusal.test == Test::DayFull && bytes == 65_536);
            }
        }
    }
    assert!(accepted > 400 && just_full > 4 && one_past > 4, "{just_full} {one_past}");
    assert!(tests[20..].iter().all(|times| *times > 15), "{tests:?}");

    let mut numbers = [0; 3];
    for _ in 0..400 {
        let form = days::form(&mut random);
        let messages = days::messages(&mut random, &[], &form);
        let file = file_of(&messages, &form);
        let k = days::message_number(&mut random, &file);
        numbers[match find(&file, k, &form) {
            Ok(_) => 0,
            Err(Refusal { test: Test::Number, .. }) if k == messages.len() as u64 => 1,
            Err(_) => 2,
        }] += 1;
    }
    assert!(numbers.iter().all(|times| *times > 20), "{numbers:?}");
}

/// "version 2 has 4-byte offsets and is otherwise the same"
#[test]
fn version_2() {
    let empty = hex("02 00 0000 00000000");
    assert_eq!(file_of::<Vec<u8>>(&[], &VERSION_2), empty);
    assert_eq!(said(check(&EMPTY, &VERSION_2)), "refused 20 0");
    assert_eq!(checked(&empty), "refused 20 0");
    assert_eq!((form_of(&EMPTY), form_of(&empty)), (VERSION_1, VERSION_2));
    let two = added(&added(&empty, &[1], &VERSION_2).unwrap(), &hex(C), &VERSION_2).unwrap();
    assert_eq!(two, hex(&format!("01 {C} 00000000 00000001 02 00 0002 00000013")));
    assert_eq!(form_of(&two), VERSION_2);
    assert_eq!(find(&two, 1, &VERSION_2), Ok(1..19));
    assert_eq!(said(find(&two, 2, &VERSION_2)), "refused 17 2");
    let wrong = hex(&format!("01 {C} 00000000 01000001 02 00 0002 00000013"));
    assert_eq!(said(check(&wrong, &VERSION_2)), "refused 21 1");
    let wrong = hex("01 02 00000000 00000001 02 00 0002 00000002");
    assert_eq!(said(check(&wrong, &VERSION_2)), "refused 22 1");

    let messages = vec![message_of_length(16_384); 63];
    let file = file_of(&messages, &VERSION_2);
    assert_eq!(messages_of(&file, &VERSION_2).unwrap(), messages);
    assert_eq!(find(&file, 62, &VERSION_2), Ok(62 * 16_384..63 * 16_384));
    let left = (1 << 20) - file.len() - 4;
    let full = added(&file, &message_of_length(left), &VERSION_2).unwrap();
    assert_eq!((full.len(), check(&full, &VERSION_2)), (1_048_576, Ok(64)));
    let with = |bytes| said(added(&file, &message_of_length(bytes), &VERSION_2));
    assert_eq!(with(left + 1), "refused 23 0");
    assert_eq!(with(16_385), "refused 1 0");
    let over = [messages, vec![message_of_length(left + 1)]].concat();
    assert_eq!(said(check(&file_of(&over, &VERSION_2), &VERSION_2)), "refused 20 0");
}

/// Those of the gate in version 2, those of document 01 in version 1.
#[test]
fn limits_of_version_2() {
    let mut random = Random::new(35);
    let mut of = |limits: Limits, past: usize| {
        [
            (message_of_length(limits.bytes + past), 1),
            (generate::counted_message(&[1], 1, limits.items + past), 5),
            (generate::nested_message(&mut random, limits.containers + past), 6),
        ]
    };
    let (within, first_past) = (of(LIMITS, 0), of(FIRST_LIMITS, 1));
    for (message, number) in within.into_iter().chain(first_past) {
        let file = file_of(&[&message], &VERSION_2);
        assert_eq!(check(&file, &VERSION_2), Ok(1));
        let empty = hex("02 00 0000 00000000");
        assert_eq!(added(&empty, &message, &VERSION_2), Ok(file));
        assert_eq!(checked(&file_of(&[&message], &VERSION_1)), "refused 22 0");
        let refusal = added(&EMPTY, &message, &VERSION_1).unwrap_err();
        let number = if message.len() > 4_096 { 1 } else { number };
        assert_eq!(refusal.test as u8, number);
    }
    for (message, number) in of(LIMITS, 1) {
        let file = file_of(&[&message], &VERSION_2);
        assert_eq!(said(check(&file, &VERSION_2)), "refused 22 0");
        let refusal = added(&file_of(&[[1]], &VERSION_2), &message, &VERSION_2).unwrap_err();
        assert_eq!(refusal.test as u8, number);
    }
}

/// "23 also at 65,535 messages", which only version 2 has room for.
#[test]
fn as_many_messages_as_may_be() {
    let most = file_of(&vec![[1]; 65_535], &VERSION_2);
    assert_eq!(check(&most, &VERSION_2), Ok(65_535));
    assert_eq!(find(&most, 65_534, &VERSION_2), Ok(65_534..65_535));
    assert_eq!(said(added(&most, &[1], &VERSION_2)), "refused 23 0");
    assert_eq!(said(added(&most, &[2], &VERSION_2)), "refused 8 0");
    let fewer = file_of(&vec![[1]; 65_534], &VERSION_2);
    assert_eq!(added(&fewer, &[1], &VERSION_2), Ok(most));
    // The count of one more has no place in the trailer.
    let more = file_of(&vec![[1]; 65_536], &VERSION_2);
    assert_eq!(said(check(&more, &VERSION_2)), "refused 20 0");
}

/// "a call rewrites 1 as 2 with the same messages"; 20 "for a 2 given to be rewritten"
#[test]
fn rewritten_as_version_2() {
    assert_eq!(upgraded(&EMPTY), Ok(hex("02 00 0000 00000000")));
    let two = file(&["01", C]);
    let new = hex(&format!("01 {C} 00000000 00000001 02 00 0002 00000013"));
    assert_eq!(upgraded(&two), Ok(new.clone()));
    assert_eq!(said(upgraded(&new)), "refused 20 0");
    assert_eq!(said(upgraded(&[])), "refused 20 0");
    assert_eq!(said(upgraded(&hex("03 00 0000 00000000"))), "refused 20 0");
    assert_eq!(said(upgraded(&raw("01 01 0000 0000", 2, 2))), "refused 21 1");
    assert_eq!(said(upgraded(&file(&["01", "02"]))), "refused 22 1");
    let too_big = file_of(&[message_of_length(4_097)], &VERSION_1);
    assert_eq!(said(upgraded(&too_big)), "refused 22 0");
    for length in 0..new.len() + 3 {
        let mut room = vec![0xee; length];
        let answer = upgrade(&two, &mut room);
        if length < new.len() {
            assert_eq!(said(answer), format!("refused 16 {}", two.len() + 4));
            assert_eq!(room, vec![0xee; length]);
        } else {
            assert_eq!(answer, Ok(Added { messages: 2, bytes: new.len() }));
            assert_eq!(room, [&new[..], &vec![0xee; length - new.len()]].concat());
        }
    }
    let mut random = Random::new(36);
    for _ in 0..200 {
        let messages = days::messages(&mut random, &[], &VERSION_1);
        let old = file_of(&messages, &VERSION_1);
        if old.len() > 65_535 {
            assert_eq!(said(upgraded(&old)), "refused 20 0");
            continue;
        }
        let new = upgraded(&old).unwrap();
        assert_eq!(new.len(), old.len() + 2 * messages.len());
        assert_eq!(messages_of(&new, &VERSION_2).unwrap(), messages);
    }
}

/// The answers as the archive packs them.
#[test]
fn packed_answers() {
    let file = file(&["01", C]);
    assert_eq!(packed_low(check(&file, &VERSION_1)), 2);
    assert_eq!(packed_low(check(&[], &VERSION_1)), 20 << 56);
    assert_eq!(packed_part(find(&file, 1, &VERSION_1)), 18 << 32 | 1);
    assert_eq!(packed_part(find(&file, 2, &VERSION_1)), 17 << 56 | 2);
    assert_eq!(packed_added(add(&file, &[1], &mut [0; 99], &VERSION_1)), 3 << 32 | 34);
    assert_eq!(packed_added(add(&file, &[1], &mut [0; 33], &VERSION_1)), 16 << 56 | 34);
    assert_eq!(unpacked(23 << 56), "refused 23 0");
}
