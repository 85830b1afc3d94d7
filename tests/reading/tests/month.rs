//! Month figures beside request (xiii).

use std::collections::{BTreeMap, BTreeSet};

use reading::day::{file_of, form_of, messages_of, VERSION_1, VERSION_2};
use reading::generate::days::{self, message_of_length};
use reading::generate::{put_head, Random};
use reading::month::*;
use reading::names::{check_names, name_at, name_number};
use reading::vectors::hex;
use reading::*;

/// The message C: 18 bytes, 14 items, references to 65536 and -20.
const C: &str = "01821482f6841a0001000022008183332a05";

/// 16 bytes, 13 items, references by the names a and !a.
const NAMED: &str = "01 82 14 83 f6 83 6161 20 00 83 622161 20 00";

/// 22 bytes, 21 items, references: relative, 5, the name b, 5.
const MIXED: &str = "01 82 15 83 f6 00 85 00 83 f6 20 00 81 05 81 6162 82 11 81 81 05";

fn file(messages: &[&str]) -> Vec<u8> {
    file_of(&messages.iter().map(|digits| hex(digits)).collect::<Vec<_>>(), &VERSION_2)
}

fn add_to(month: &mut Month, file: &[u8], published: &str, own: &str, bounds: &Bounds) -> String {
    match month.add(file, published.as_bytes(), own.as_bytes(), &form_of(file), bounds) {
        Ok(()) => "added".to_string(),
        Err(refusal) => refusal.to_string(),
    }
}

fn add(month: &mut Month, file: &[u8], published: &str, own: &str) -> String {
    add_to(month, file, published, own, &BOUNDS)
}

/// What is read, by lines: the five totals, then numbers and references.
fn lines(month: &Month) -> (Vec<i64>, Vec<(i64, i64)>) {
    let mut room = vec![0; 40 + 16 * 300];
    let count = month.read(&mut room).unwrap();
    let words: Vec<i64> =
        room.chunks(8).map(|word| i64::from_be_bytes(word.try_into().unwrap())).collect();
    assert!(words[5 + 2 * count..].iter().all(|word| *word == 0));
    let pairs = words[5..5 + 2 * count].chunks(2).map(|pair| (pair[0], pair[1])).collect();
    (words[..5].to_vec(), pairs)
}

/// A message with a namespace reference to each of the numbers, in parameters.
fn message_to(numbers: impl IntoIterator<Item = i64>) -> Vec<u8> {
    let mut references = Vec::new();
    let mut count = 0;
    for number in numbers {
        references.push(0x81);
        match number < 0 {
            true => put_head(&mut references, 1, !number as u64),
            false => put_head(&mut references, 0, number as u64),
        }
        count += 1;
    }
    let mut message = hex("01 82 14 82 f6 84 f6 20 00");
    put_head(&mut message, 4, count);
    [message, references].concat()
}

fn file_to(numbers: impl IntoIterator<Item = i64>) -> Vec<u8> {
    file_of(&[message_to(numbers)], &VERSION_2)
}

#[test]
fn a_month_without_messages() {
    let mut month = Month::default();
    assert_eq!(lines(&month), (vec![0; 5], vec![]));
    for version in [VERSION_1, VERSION_2] {
        let empty = file_of::<Vec<u8>>(&[], &version);
        assert_eq!(add(&mut month, &empty, "a=1\n", ""), "added");
    }
    assert_eq!(month, Month::default());
    // A message that names nothing brings no namespace.
    assert_eq!(add(&mut month, &file(&["01", "1801"]), "", ""), "added");
    assert_eq!(lines(&month), (vec![2, 3, 2, 0, 0], vec![]));
}

#[test]
fn worked_examples() {
    let mut month = Month::default();
    assert_eq!(add(&mut month, &file(&[C]), "", ""), "added");
    assert_eq!(lines(&month), (vec![1, 18, 14, 0, 0], vec![(-20, 1), (65_536, 1)]));
    // The names of NAMED are unknown, then known.
    assert_eq!(add(&mut month, &file(&[NAMED]), "", ""), "added");
    assert_eq!(lines(&month), (vec![2, 34, 27, 2, 0], vec![(-20, 1), (65_536, 1)]));
    assert_eq!(add(&mut month, &file(&[NAMED, C]), "a=65536\n", "!a=-7\n"), "added");
    let namespaces = vec![(-20, 2), (-7, 1), (65_536, 3)];
    assert_eq!(lines(&month), (vec![4, 68, 54, 2, 0], namespaces));
    assert_eq!(add(&mut month, &file(&[MIXED]), "a=1\n", "!b=5\n"), "added");
    let (totals, namespaces) = lines(&month);
    assert_eq!(totals, [5, 68 + 22, 54 + 21, 3, 1]);
    assert_eq!(namespaces, [(-20, 2), (-7, 1), (5, 2), (65_536, 3)]);
}

/// By hand, so that the bytes of messages alone count and not those of their file.
#[test]
fn bytes_and_items_are_those_of_messages() {
    for version in [VERSION_1, VERSION_2] {
        let file = file_of(&[hex("01"), hex(C), message_of_length(300), hex("1801")], &version);
        let mut month = Month::default();
        assert_eq!(add(&mut month, &file, "", ""), "added");
        assert_eq!(lines(&month).0, [4, 1 + 18 + 300 + 2, 1 + 14 + 5 + 1, 0, 0]);
    }
}

/// A name counts by the lists of its own file, and in whatever case.
#[test]
fn names_by_the_lists_of_each_file() {
    let mut month = Month::default();
    for (published, own) in [
        ("a=1\n", ""),
        ("A=2\n", "!A=2\n"),
        ("a=3\na=4\n", "a=5\n"),
        ("!a=6\n", "a=7\n!A=-9223372036854775808\n!a=8\n"),
        ("", ""),
    ] {
        assert_eq!(add(&mut month, &file(&[NAMED]), published, own), "added");
    }
    assert_eq!(lines(&month).0, [5, 80, 65, 5, 0]);
    assert_eq!(lines(&month).1, [(i64::MIN, 1), (1, 1), (2, 2), (3, 1)]);
}

#[test]
fn rising_order() {
    let numbers = [0, -1, 1, i64::MAX, i64::MIN, 255, -256, 1 << 32, -1 << 32, i64::MAX - 1];
    let mut month = Month::default();
    for number in numbers {
        assert_eq!(add(&mut month, &file_to([number, number]), "", ""), "added");
    }
    let mut sorted = numbers.to_vec();
    sorted.sort_unstable();
    assert_eq!(lines(&month).1, sorted.into_iter().map(|number| (number, 2)).collect::<Vec<_>>());
}

/// The room: exact, larger, and too short, when nothing is written.
#[test]
fn reading_out() {
    let mut month = Month::default();
    add(&mut month, &file(&[C, NAMED]), "a=-20\n", "");
    let due: Vec<u8> = [2i64, 34, 27, 1, 0, -20, 2, 65_536, 1]
        .iter()
        .flat_map(|number| number.to_be_bytes())
        .collect();
    assert_eq!(month.bytes(), due);
    for length in 0..due.len() + 20 {
        let mut room = vec![0xee; length];
        match month.read(&mut room) {
            Ok(namespaces) => {
                assert_eq!(namespaces, 2);
                assert_eq!(room[..due.len()], due);
                assert!(room[due.len()..].iter().all(|byte| *byte == 0xee));
            }
            Err(refusal) => {
                assert!(length < due.len());
                assert_eq!(refusal.to_string(), "refused 16 72");
                assert_eq!(room, vec![0xee; length]);
            }
        }
    }
}

/// The file's own, 19, 25, 26, in that order; each leaves the month as it was.
#[test]
fn order_of_refusals() {
    let two = Bounds { namespaces: 1, total: 40 };
    let good = file(&[C, NAMED]);
    let bad_table = hex("01 01 00000000 00000000 02 00 0002 00000002");
    let bad_message = hex("01 02 00000000 00000001 02 00 0002 00000002");
    let start: Month = [(Line::Namespace(7), 40), (Line::Bytes, 39)].into_iter().collect();
    for (file, lists, answer) in [
        (&good[1..], ("a", "a"), "refused 20 0"),
        (&bad_table, ("a", "a"), "refused 21 1"),
        (&bad_message, ("a", "a"), "refused 22 1"),
        (&good, ("a=1\n", "a=1\nb"), "refused 19 8"),
        (&good, ("a=7\nb", ""), "refused 19 4"),
        (&good, ("a=7\n", "!a=7\n"), "refused 25 0"),
        (&file_to([7]), ("", ""), "refused 26 0"),
        (&file_to([8]), ("", ""), "refused 25 0"),
        (&hex("01 00000000 02 00 0001 00000001"), ("", ""), "added"),
        (&hex("1801 00000000 02 00 0001 00000002"), ("", ""), "refused 26 0"),
    ] {
        let mut month = start.clone();
        assert_eq!(add_to(&mut month, file, lists.0, lists.1, &two), answer);
        assert_eq!(month == start, answer != "added");
    }
    // A file of version 1 by its own limits.
    let long = message_of_length(4_097);
    let mut month = Month::default();
    assert_eq!(add(&mut month, &file_of(&[&long], &VERSION_1), "", ""), "refused 22 0");
    assert_eq!(add(&mut month, &file_of(&[&long], &VERSION_2), "", ""), "added");
}

#[test]
fn namespaces_up_to_256() {
    let all = |count: i64| (0..count).map(|k| (k - 128) * 1_000);
    for (count, answer) in [(255, "added"), (256, "added"), (257, "refused 25 0")] {
        // In one file, and one by one.
        let mut month = Month::default();
        assert_eq!(add(&mut month, &file_to(all(count)), "", ""), answer);
        let mut by_one = Month::default();
        for (k, number) in all(count).enumerate() {
            let due = if k < 256 { "added" } else { answer };
            assert_eq!(add(&mut by_one, &file_to([number]), "", ""), due);
        }
        assert_eq!(by_one.namespaces().count(), count.min(256) as usize);
    }
    let mut month = Month::default();
    assert_eq!(add(&mut month, &file_to(all(256)), "", ""), "added");
    let full = month.clone();
    let mut attempt = |file: &[u8], published: &str, own: &str| {
        month = full.clone();
        let answer = add(&mut month, file, published, own);
        assert_eq!(month == full, answer != "added");
        answer
    };
    // What is there already, by number and by name; unknown and relative ones are none.
    assert_eq!(attempt(&file_to(all(256)), "", ""), "added");
    assert_eq!(attempt(&file_to(all(256).chain([1])), "", ""), "refused 25 0");
    assert_eq!(attempt(&file(&[NAMED]), "a=0\n", "!a=-1000\n"), "added");
    assert_eq!(attempt(&file(&[NAMED]), "", ""), "added");
    assert_eq!(attempt(&file(&[NAMED]), "a=1\n", ""), "refused 25 0");
    assert_eq!(attempt(&file(&[NAMED]), "", "!a=1\n"), "refused 25 0");
    // One place is left, and two would come.
    let mut month = Month::default();
    assert_eq!(add(&mut month, &file_to(all(255)), "", ""), "added");
    assert_eq!(add(&mut month, &file_to([1, 2]), "", ""), "refused 25 0");
    assert_eq!(add(&mut month, &file_to([1, 1]), "", ""), "added");
    assert_eq!(add(&mut month, &file_to([1, 2]), "", ""), "refused 25 0");
}

/// Each line just at its bound, and one past it.
#[test]
fn totals_at_their_bound() {
    let file = file(&[C, NAMED, MIXED]);
    let brought = brought(&file, b"a=-20\n", b"", &VERSION_2).unwrap();
    let lines = TOTALS.into_iter().chain([Line::Namespace(-20), Line::Namespace(65_536)]);
    for line in lines.chain([Line::Namespace(5)]) {
        let comes = brought.total(line);
        assert!(comes > 0);
        for (before, answer) in [
            (BOUNDS.total - comes - 1, "added"),
            (BOUNDS.total - comes, "added"),
            (BOUNDS.total - comes + 1, "refused 26 0"),
            (BOUNDS.total, "refused 26 0"),
        ] {
            let start: Month = [(line, before)].into_iter().collect();
            let mut month = start.clone();
            assert_eq!(add(&mut month, &file, "a=-20\n", ""), answer, "{line:?}");
            match answer {
                "added" => assert_eq!(month.total(line), before + comes),
                _ => assert_eq!(month, start),
            }
        }
    }
    // At the bound a line stays, if a file brings none of it.
    let mut month: Month = [(Line::Namespace(1), BOUNDS.total)].into_iter().collect();
    assert_eq!(add(&mut month, &file, "a=-20\n", ""), "added");
    assert_eq!(month.total(Line::Namespace(1)), (1 << 63) - 1);
}

/// A file with its lists, from few namespaces, so that they meet.
fn some_file(random: &mut Random) -> (Vec<u8>, Vec<u8>, Vec<u8>) {
    if random.chance(20) {
        let (file, (published, own)) = days::named_file(random);
        return (file, published, own);
    }
    let form = days::form(random);
    let messages: Vec<Vec<u8>> = (0..random.below(4))
        .map(|_| match random.below(4) {
            0 => hex(random.pick(&[C, NAMED, MIXED, "01"])),
            _ => {
                let count = 1 + random.below(4);
                message_to((0..count).map(|_| random.below(8) as i64 - 4).collect::<Vec<_>>())
            }
        })
        .collect();
    let list = |random: &mut Random, lines: &[&str]| random.pick(lines).as_bytes().to_vec();
    let mut published = list(random, &["", "a=-4\n", "A=3\n", "b=9\na=0\n", "b=0\n"]);
    let mut own = list(random, &["", "!a=-4\n", "!A=12\n", "a=0\n"]);
    match random.below(20) {
        0 => published.extend(b"a=\n"),
        1 => own.extend(b"!a"),
        _ => (),
    }
    (file_of(&messages, &form), published, own)
}

/// What a file brings, counted by its item records instead of its listing: the five totals and
/// the references by number.
fn counted(file: &[u8], published: &[u8], own: &[u8]) -> ([u128; 5], BTreeMap<i64, u128>) {
    let (mut totals, mut references) = ([0; 5], BTreeMap::new());
    for message in messages_of(file, &form_of(file)).unwrap() {
        let records = items_message(message).unwrap();
        totals[0] += 1;
        totals[1] += message.len() as u128;
        totals[2] += records.len() as u128;
        for k in (0..records.len()).filter(|k| records[*k].reference) {
            let namespace = records[k + 1];
            let number = match namespace.kind {
                Kind::Unsigned(number) => number as i64,
                Kind::Negative(number) => !(number as i64),
                Kind::Text(_) => {
                    match name_number(published, own, name_at(message, namespace.first)) {
                        Some(number) => number,
                        None => {
                            totals[3] += 1;
                            continue;
                        }
                    }
                }
                _ => {
                    totals[4] += 1;
                    continue;
                }
            };
            *references.entry(number).or_default() += 1;
        }
    }
    (totals, references)
}

/// Whether a month has these totals and references.
fn is(month: &Month, totals: &[u128; 5], references: &BTreeMap<i64, u128>) -> bool {
    TOTALS.map(|line| month.total(line)) == *totals
        && month.namespaces().eq(references.iter().map(|(number, count)| (*number, *count)))
}

/// The claims of the request on many small months: every total is the sum over the messages,
/// the lines of references add up to what is listed, 25 and 26 come exactly if they have to,
/// and a refused file changes nothing.
#[test]
fn small_months() {
    let mut seen = BTreeMap::new();
    for seed in 0..3_000 {
        let mut random = Random::new(seed);
        let bounds = Bounds {
            namespaces: random.pick(&[0, 1, 3, 5, 8, 256]),
            total: random.pick(&[0, 3, 20, 100, 1_000, BOUNDS.total]),
        };
        let mut month = Month::default();
        let (mut totals, mut references) = ([0; 5], BTreeMap::new());
        let mut listed = 0;
        for _ in 0..random.below(7) {
            let (file, published, own) = some_file(&mut random);
            let before = month.clone();
            let form = form_of(&file);
            let answer = month.add(&file, &published, &own, &form, &bounds);
            let due = match (day::check(&file, &form), check_names(&published, &own)) {
                (Err(refusal), _) | (Ok(_), Err(refusal)) => Err(refusal),
                _ => {
                    let (more, numbers) = counted(&file, &published, &own);
                    let mut sum = references.clone();
                    numbers.iter().for_each(|(n, count)| *sum.entry(*n).or_default() += count);
                    let all: [u128; 5] = std::array::from_fn(|k| totals[k] + more[k]);
                    let passes = |total: &u128| *total > bounds.total;
                    if sum.len() > bounds.namespaces {
                        Err(Refusal { test: Test::Namespaces, place: 0 })
                    } else if all.iter().any(passes) || sum.values().any(passes) {
                        Err(Refusal { test: Test::Total, place: 0 })
                    } else {
                        (totals, references) = (all, sum);
                        listed += messages_of(&file, &form)
                            .unwrap()
                            .iter()
                            .map(|message| listing(message).unwrap().entries.len() as u128)
                            .sum::<u128>();
                        Ok(())
                    }
                }
            };
            assert_eq!(answer, due, "seed {seed}");
            assert!(answer.is_ok() || month == before, "seed {seed}");
            assert!(is(&month, &totals, &references), "seed {seed}");
            let unlike = month.total(Line::Unknown) + month.total(Line::Relative);
            let by_number: u128 = month.namespaces().map(|(_, count)| count).sum();
            assert_eq!(by_number + unlike, listed, "seed {seed}");
            *seen.entry(answer.err().map(|refusal| refusal.test as u8)).or_insert(0) += 1;
        }
    }
    let numbers: BTreeSet<Option<u8>> = seen.keys().copied().collect();
    let due = [None, Some(19), Some(20), Some(21), Some(22), Some(25), Some(26)];
    assert_eq!(numbers, BTreeSet::from(due), "{seen:?}");
    assert!(seen.values().all(|times| *times > 50), "{seen:?}");
}

/// Files in another order, or their messages in one file or in one file each, come to the same.
#[test]
fn in_whatever_order_and_files() {
    let mut compared = 0;
    for seed in 0..1_500 {
        let mut random = Random::new(seed);
        let mut files: Vec<_> = (0..2 + random.below(5)).map(|_| some_file(&mut random)).collect();
        let of = |files: &[(Vec<u8>, Vec<u8>, Vec<u8>)]| {
            let mut month = Month::default();
            let mut answers = Vec::new();
            for (file, published, own) in files {
                answers.push(month.add(file, published, own, &form_of(file), &BOUNDS).is_ok());
            }
            (month, answers)
        };
        let (month, answers) = of(&files);
        let mut kept = answers.iter();
        files.retain(|_| *kept.next().unwrap());
        let mut parts = Vec::new();
        for (file, published, own) in &files {
            for message in messages_of(file, &form_of(file)).unwrap() {
                let alone = file_of(&[message], &form_of(file));
                parts.push((alone, published.clone(), own.clone()));
            }
        }
        for files in [&mut files, &mut parts] {
            for k in (1..files.len()).rev() {
                files.swap(k, random.below(k + 1));
            }
            let (again, answers) = of(files);
            assert!(answers.iter().all(|added| *added), "seed {seed}");
            assert_eq!(again, month, "seed {seed}");
            compared += usize::from(files.len() > 1);
        }
    }
    assert!(compared > 2_000);
}
