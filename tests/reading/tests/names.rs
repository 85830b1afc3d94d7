//! Names beside numbers: the lists, the line found, and release beside request (i).

use std::collections::HashSet;

use reading::generate::names::{self as made, Lists};
use reading::generate::{self, Random};
use reading::names::{check_names, find_line, lines, name_at, number_of};
use reading::vectors::hex;
use reading::*;

/// One target in each of the namespaces `a`, `!a`, 65536 and none.
const NAMED: &str = "01 82 14 85 f6 83 6161 20 00 83 622161 20 00 83 1a00010000 20 00 83 f6 20 00";

fn checked(published: &str, own: &str) -> String {
    match check_names(published.as_bytes(), own.as_bytes()) {
        Ok(()) => "passes".to_string(),
        Err(refusal) => refusal.to_string(),
    }
}

fn found<'a>(published: &'a str, own: &'a str, name: &str) -> &'a str {
    let line = find_line(published.as_bytes(), own.as_bytes(), name.as_bytes());
    std::str::from_utf8(line).unwrap()
}

fn table(rows: &[(u64, i64)]) -> Vec<u8> {
    let row = |&(subscriber, namespace)| Row { subscriber, namespace };
    table_bytes(&rows.iter().map(row).collect::<Vec<_>>())
}

fn released(message: &str, table: &[u8], published: &str, own: &str, subscriber: u64) -> String {
    let (published, own) = (published.as_bytes(), own.as_bytes());
    match names::release(&hex(message), table, published, own, subscriber, &LIMITS) {
        Ok(Release::Yes) => "yes".to_string(),
        Ok(Release::No(entry)) => format!("no {entry}"),
        Err(refusal) => refusal.to_string(),
    }
}

/// A message with one target, in the namespace of that name.
fn target(name: &[u8]) -> Vec<u8> {
    let mut message = hex("01 82 14 82 f6 83");
    generate::put_head(&mut message, 3, name.len() as u64);
    message.extend(name);
    message.extend(hex("20 00"));
    message
}

/// Lines that are well formed, with the name and the number of each.
fn right_lines() -> Vec<(String, String, i64)> {
    let mut right: Vec<(String, i64)> = [
        ("a", 0),
        ("a", -1),
        ("_", 10),
        ("Z9_-.", 100),
        ("!a", -20),
        ("!_", 65_536),
        ("a", i64::MAX),
        ("a", i64::MIN),
        ("!a", i64::MAX - 1),
        ("!a", i64::MIN + 1),
    ]
    .map(|(name, number)| (name.to_string(), number))
    .to_vec();
    right.push(("a".repeat(64), 5));
    right.push(("!".to_string() + &"a".repeat(64), 5));
    right.into_iter().map(|(name, number)| (format!("{name}={number}"), name, number)).collect()
}

/// Lines that are wrongly formed; what each would be found by, were it not.
fn wrong_lines() -> Vec<(String, String)> {
    let mut wrong: Vec<(String, String)> = Vec::new();
    for name in ["a", "!a"] {
        let mut add = |line: String| wrong.push((line, name.to_string()));
        for line in ["", "=", "=5", "==5", "!=5", " ", "\r", "5", "-5", "#", "# a"] {
            add(line.to_string());
        }
        add(name.to_string());
        add(format!("{name}:5"));
        add(format!("{name} 5"));
        for number in made::WRONG_NUMBERS {
            add(format!("{name}={number}"));
        }
        for (before, behind) in made::WRONG_AROUND {
            add(format!("{before}{name}{behind}=5"));
        }
    }
    for (sign, length) in [("", 65), ("", 66), ("!", 65), ("!", 66), ("!!", 1), ("!!", 64)] {
        let name = sign.to_string() + &"a".repeat(length);
        wrong.push((format!("{name}=5"), name));
    }
    wrong
}

/// Both ends of the numbers' range, names of every length and with the mark (R140).
#[test]
fn well_formed_lines() {
    assert_eq!(checked("", ""), "passes");
    for (line, name, number) in right_lines() {
        let list = format!("{line}\n");
        for (published, own) in [(&list[..], ""), ("", &list[..]), (&list, &list)] {
            assert_eq!(checked(published, own), "passes", "{list:?}");
        }
        let (published, own) =
            if name.starts_with('!') { ("", &list[..]) } else { (&list[..], "") };
        assert_eq!(found(published, own, &name), line);
        let message = target(name.as_bytes());
        let number_found =
            number_of(&message, Namespace::Name(6), published.as_bytes(), own.as_bytes());
        assert_eq!(number_found, Some(number));
    }
    let all: String = right_lines().iter().map(|(line, ..)| format!("{line}\n")).collect();
    assert_eq!(checked(&all, &all), "passes");
}

/// In either list, at its start, behind other lines and before them; and what is wrongly
/// formed is passed over when a name is looked for.
#[test]
fn wrongly_formed_lines() {
    let right = "b=1\n!b=2\n";
    for (line, name) in wrong_lines() {
        let wrong = format!("{line}\n");
        for (before, behind) in [("", ""), ("", right), (right, ""), (right, right)] {
            let list = format!("{before}{wrong}{behind}");
            let at = before.len();
            assert_eq!(checked(&list, ""), format!("refused 19 {at}"), "{list:?}");
            assert_eq!(checked("", &list), format!("refused 19 {at}"), "{list:?}");
            assert_eq!(checked(right, &list), format!("refused 19 {}", at + 9), "{list:?}");
            assert_eq!(checked(&list, &wrong), format!("refused 19 {at}"), "{list:?}");
            assert_eq!(found(&list, &list, &name), "", "{list:?}");
            let key = line.split('=').next().unwrap();
            assert_eq!(found(&list, &list, key), "", "{list:?}");
            assert_eq!(found(&list, &list, &line), "", "{list:?}");
            let later = format!("{list}{name}=7\n{name}=8\n");
            let expected = match name.trim_start_matches('!').len() <= 64 && !name.starts_with("!!")
            {
                true => format!("{name}=7"),
                false => String::new(),
            };
            assert_eq!(found(&later, &later, &name), expected, "{later:?}");
        }
    }
    for byte in (0..=255).filter(|byte| !b"=\n".contains(byte)) {
        let is_letter = byte.is_ascii_alphabetic() || byte == b'_';
        let goes_on = is_letter || byte.is_ascii_digit() || byte == b'-' || byte == b'.';
        let answer = |list: &[u8]| check_names(list, b"").is_ok();
        assert_eq!(answer(&[byte, b'=', b'1', b'\n']), is_letter, "{byte}");
        assert_eq!(answer(&[b'!', byte, b'=', b'1', b'\n']), is_letter, "{byte}");
        assert_eq!(answer(&[b'a', byte, b'=', b'1', b'\n']), goes_on, "{byte}");
        assert_eq!(answer(&[byte, b'a', b'=', b'1', b'\n']), is_letter || byte == b'!', "{byte}");
        assert_eq!(answer(&[b'a', b'=', byte, b'\n']), byte.is_ascii_digit(), "{byte}");
        assert_eq!(answer(&[b'a', b'=', b'1', byte, b'\n']), byte.is_ascii_digit(), "{byte}");
        assert_eq!(
            answer(&[b'a', b'=', byte, b'1', b'\n']),
            matches!(byte, b'1'..=b'9' | b'-'),
            "{byte}"
        );
    }
}

/// Bytes behind the last line feed are a wrong line, though they would be right with one.
#[test]
fn the_last_line_feed() {
    assert_eq!(checked("a=1", ""), "refused 19 0");
    assert_eq!(checked("a=1\nb=2", ""), "refused 19 4");
    assert_eq!(checked("a=1\n", "b=2"), "refused 19 4");
    assert_eq!(checked("a=1\n", "b=2\n!"), "refused 19 8");
    // The lists are not one: a line does not go on in the second.
    assert_eq!(checked("a=1", "2\n"), "refused 19 0");
    assert_eq!(checked("a=1", "\n"), "refused 19 0");
    assert_eq!(found("a=1", "", "a"), "");
    assert_eq!(found("a=1", "\n", "a"), "");
    assert_eq!(found("b=2\na=1", "!a=1", "a"), "");
    assert_eq!(found("b=2\na=1", "!a=1", "b"), "b=2");
    assert_eq!(found("b=2\na=1", "!a=1", "!a"), "");
    assert_eq!(found("a=1\na=2", "", "a"), "a=1");
}

/// The published list first, the own one's bytes counted on.
#[test]
fn places() {
    assert_eq!(checked("\n", "\n"), "refused 19 0");
    assert_eq!(checked("a=1\n\n", "\n"), "refused 19 4");
    assert_eq!(checked("a=1\n", "\n\n"), "refused 19 4");
    assert_eq!(checked("a=1\nb=2\n", "!a=1\n!!=\n+\n"), "refused 19 13");
    assert_eq!(checked("a=1\nb=-0\nc=00\n", "!a=1\n"), "refused 19 4");
    assert_eq!(checked("", "!a=1\n\n"), "refused 19 5");
    let long = "a=1\n".repeat(100_000);
    assert_eq!(checked(&long, "x"), "refused 19 400000");
    assert_eq!(checked(&long, &(long.clone() + "a=01\n")), "refused 19 800000");
    assert_eq!(checked(&long, &long), "passes");
}

/// Of two lines with one name the first is its line.
#[test]
fn repeated_names() {
    assert_eq!(found("b=1\na=1\na=2\na=1\n", "", "a"), "a=1");
    assert_eq!(found("a=2\na=1\n", "!a=9\n!a=8\n", "a"), "a=2");
    assert_eq!(found("a=2\na=1\n", "!a=9\n!a=8\n", "!a"), "!a=9");
    assert_eq!(checked("a=2\na=1\na=2\n", "!a=9\n!a=8\n"), "passes");
    assert_eq!(found("a=02\na=+1\na=3\na=4\n", "", "a"), "a=3");
    assert_eq!(found("a=1", "", "a"), "");
    assert_eq!(found("\n\na=\na\na=1\r\na=5\n", "", "a"), "a=5");
}

/// The mark in front of a name tells where it is looked for.
#[test]
fn which_list() {
    assert_eq!(found("a=1\n!a=2\n", "a=3\n!a=4\n", "a"), "a=1");
    assert_eq!(found("a=1\n!a=2\n", "a=3\n!a=4\n", "!a"), "!a=4");
    // Well formed where it stands, and never found.
    assert_eq!(checked("!a=2\n", "a=3\n"), "passes");
    assert_eq!(found("!a=2\n", "a=3\n", "a"), "");
    assert_eq!(found("!a=2\n", "a=3\n", "!a"), "");
    assert_eq!(found("!a=2\n", "", "!a"), "");
    assert_eq!(found("", "a=3\n", "a"), "");
    let rows = table(&[(7, 2), (7, 3)]);
    assert_eq!(released("01 82 14 82 f6 83 6161 20 00", &rows, "!a=2\n", "a=3\n", 7), "no 0");
    assert_eq!(released("01 82 14 82 f6 83 622161 20 00", &rows, "!a=2\n", "a=3\n", 7), "no 0");
    assert_eq!(released("01 82 14 82 f6 83 6161 20 00", &rows, "a=3\n", "!a=1\n", 7), "yes");
    assert_eq!(released("01 82 14 82 f6 83 622161 20 00", &rows, "a=1\n", "!a=2\n", 7), "yes");
}

/// The case of letters doesn't tell names apart, and the first line counts in whichever case;
/// a name that only begins like another is another.
#[test]
fn nearly_the_same_name() {
    let published = "Buoy-North=1\nbuoy-north=2\nbuoy=3\nb=4\nA9_-.z=5\n";
    for (name, line) in [
        ("Buoy-North", "Buoy-North=1"),
        ("buoy-north", "Buoy-North=1"),
        ("BUOY-NORTH", "Buoy-North=1"),
        ("bUOY-nORTH", "Buoy-North=1"),
        ("buoy", "buoy=3"),
        ("BUOY", "buoy=3"),
        ("buo", ""),
        ("Buo", ""),
        ("buoy-", ""),
        ("buoy-north.", ""),
        ("BUOY-NORTHS", ""),
        ("b", "b=4"),
        ("B", "b=4"),
        ("uoy", ""),
        ("!buoy", ""),
        ("!BUOY", ""),
        ("a9_-.Z", "A9_-.z=5"),
        ("A9_-.Z", "A9_-.z=5"),
        ("a9--.z", ""),
    ] {
        assert_eq!(found(published, "", name), line, "{name}");
        // The same in the other list.
        let own: String = published.lines().map(|line| format!("!{line}\n")).collect();
        let line = if line.is_empty() { String::new() } else { format!("!{line}") };
        let name = format!("!{name}");
        assert_eq!(found(published, &own, &name), line, "{name}");
    }
    assert_eq!(checked(published, ""), "passes");
    // The first line, not the one that is spelled alike.
    for name in ["a", "A"] {
        assert_eq!(found("A=1\na=2\n", "", name), "A=1");
        assert_eq!(found("a=2\nA=1\n", "", name), "a=2");
        assert_eq!(found("!A=1\na=2\n", "!a=3\nA=4\n!A=5\n", name), "a=2");
        assert_eq!(found("!A=1\na=2\n", "a=3\n!A=4\n!a=5\n", &format!("!{name}")), "!A=4");
        assert_eq!(found("A=01\na=2\n", "", name), "a=2");
        assert_eq!(found("A=+1\nA =2\na=3", "", name), "");
        assert_eq!(found("!a=1\n", "A=1\n", name), "");
        assert_eq!(found("!a=1\n", "A=1\n", &format!("!{name}")), "");
    }
    let long = "a".repeat(64);
    let lists = format!("{}=1\n{long}=2\n", &long[1..]);
    for name in [long.clone(), long.to_uppercase(), format!("{}A", &long[1..])] {
        assert_eq!(found(&lists, "", &name), format!("{long}=2"));
        assert_eq!(found(&lists, "", &name[1..]), format!("{}=1", &long[1..]));
        assert_eq!(found(&lists, "", &name[2..]), "");
    }
}

/// Every byte beside every byte: only A to Z and a to z are alike, each with its own letter.
/// The neighbours of letters, and what a letter's bit would make of other bytes, are not.
#[test]
fn letters_alone_are_alike() {
    const PAIRS: &[u8; 52] = b"AaBbCcDdEeFfGgHhIiJjKkLlMmNnOoPpQqRrSsTtUuVvWwXxYyZz";
    let letter = |byte| PAIRS.iter().position(|letter| *letter == byte).map(|at| at / 2);
    let mut alike = 0;
    for one in 0..=255 {
        // As a name's first letter and as its last.
        let list = [one, b'=', b'1', b'\n', b'k', one, b'=', b'2', b'\n'];
        let mine = [b'!', one, b'=', b'1', b'\n', b'!', b'k', one, b'=', b'2', b'\n'];
        let (first, last) = (is_namespace_name(&[one]), is_namespace_name(&[b'k', one]));
        for other in 0..=255 {
            let is_it = one == other || letter(one).is_some() && letter(one) == letter(other);
            let whole = |is_name: bool, line| if is_it && is_name { line } else { &b""[..] };
            for k in [b'k', b'K'] {
                let lines = [&list[..3], &list[4..8]];
                assert_eq!(find_line(&list, &mine, &[other]), whole(first, lines[0]));
                assert_eq!(find_line(&list, &mine, &[k, other]), whole(last, lines[1]));
                let lines = [&mine[..4], &mine[5..10]];
                assert_eq!(find_line(&list, &mine, &[b'!', other]), whole(first, lines[0]));
                assert_eq!(find_line(&list, &mine, &[b'!', k, other]), whole(last, lines[1]));
            }
            alike += usize::from(is_it && last && one != other);
        }
    }
    assert_eq!(alike, 52);
}

/// Any bytes may be looked for; what is no name is never found.
#[test]
fn any_name() {
    let list = "a=1\n!a=2\n=3\n\n!=4\n!!a=5\na=1=6\n";
    for name in ["", "=", "!", "!!", "!!a", "\n", "a=", "a=1", "a=1\n", "a\n", " a", "a ", "=3"] {
        assert_eq!(found(list, list, name), "", "{name:?}");
    }
    assert_eq!(find_line(b"\xff=1\n", b"!\xff=1\n", b"\xff"), b"");
    assert_eq!(find_line(b"\xff=1\n", b"!\xff=1\n", b"!\xff"), b"");
}

/// The part handed back lies in the list that held it.
#[test]
fn a_part_of_the_list() {
    let (published, own) = (b"b=1\na=-20\nc=1\n", b"!b=1\n!a=5\n!c=1\n");
    let line = find_line(published, own, b"a");
    assert_eq!(line.as_ptr_range(), published[4..9].as_ptr_range());
    let line = find_line(published, own, b"!a");
    assert_eq!(line.as_ptr_range(), own[5..9].as_ptr_range());
    // One lifetime for both lists, and another for the name.
    let line = {
        let name = "!c".to_string();
        find_line(published, own, name.as_bytes())
    };
    assert_eq!(line, b"!c=1");
}

/// All strings of up to six bytes that matter, beside the lines that are put together
/// from all names and all numbers of such bytes.
#[test]
fn all_short_lines() {
    const BYTES: &[u8] = b"a!=-01\r";
    fn longer(all: &[Vec<u8>], bytes: &[u8]) -> Vec<Vec<u8>> {
        all.iter()
            .flat_map(|start| bytes.iter().map(|byte| [start, &[*byte][..]].concat()))
            .collect()
    }
    let mut names: Vec<Vec<u8>> = Vec::new();
    let mut rest: Vec<Vec<u8>> = vec![Vec::new()];
    for _ in 0..4 {
        for rest in &rest {
            names.push([&b"a"[..], rest].concat());
            names.push([&b"!a"[..], rest].concat());
        }
        rest = longer(&rest, b"a-01");
    }
    let mut right: HashSet<Vec<u8>> = HashSet::new();
    for number in -9_999..=99_999 {
        for name in &names {
            let line = [name, format!("={number}").as_bytes()].concat();
            if line.len() > 6 || line.iter().any(|byte| !BYTES.contains(byte)) {
                continue;
            }
            right.insert(line);
        }
    }
    let (mut all, mut seen) = (vec![Vec::new()], 0);
    for _ in 0..=6 {
        for line in &all {
            let list = [line, &b"\n"[..]].concat();
            let is_right = right.contains(line);
            assert_eq!(check_names(&list, b"").is_ok(), is_right, "{list:?}");
            assert!(check_names(line, b"").is_err() || line.is_empty());
            let name = line.split(|byte| *byte == b'=').next().unwrap();
            let part = find_line(&list, &list, name);
            assert_eq!(part, if is_right { line } else { &b""[..] }, "{list:?}");
            seen += usize::from(is_right);
        }
        all = longer(&all, BYTES);
    }
    assert_eq!(seen, right.len());
    assert!(seen > 300, "{seen}");
}

/// `lines` takes a list apart, and its parts put together are the list.
#[test]
fn lists_are_their_lines() {
    fn parts(list: &[u8]) -> Vec<(usize, &[u8])> {
        lines(list).collect()
    }
    assert_eq!(parts(b""), []);
    assert_eq!(parts(b"\n"), [(0, &b"\n"[..])]);
    assert_eq!(parts(b"a=1\n\nb"), [(0, &b"a=1\n"[..]), (4, b"\n"), (5, b"b")]);
    assert_eq!(parts(b"a\r\n\n"), [(0, &b"a\r\n"[..]), (3, b"\n")]);
    let mut random = Random::new(21);
    for _ in 0..2_000 {
        let (mut list, other) = made::lists(&mut random);
        made::damage(&mut random, &mut list, &other);
        let parts = parts(&list);
        assert_eq!(parts.iter().map(|(_, line)| *line).collect::<Vec<_>>().concat(), list);
        for (k, (first, line)) in parts.iter().enumerate() {
            assert!(list[*first..].starts_with(line));
            let feeds = line.iter().filter(|byte| **byte == b'\n').count();
            assert!(line.ends_with(b"\n") && feeds == 1 || feeds == 0 && k == parts.len() - 1);
        }
    }
}

/// Its own number; the found line's number; none for a name not found or a relative one.
#[test]
fn numbers() {
    let message = hex(NAMED);
    let numbers = |published: &str, own: &str| -> Vec<Option<i64>> {
        let (published, own) = (published.as_bytes(), own.as_bytes());
        let entries = listing(&message).unwrap().entries;
        entries.iter().map(|e| number_of(&message, e.namespace, published, own)).collect()
    };
    assert_eq!(numbers("", ""), [None, None, Some(65_536), None]);
    assert_eq!(numbers("a=-3\n", "!a=4\n"), [Some(-3), Some(4), Some(65_536), None]);
    assert_eq!(numbers("a=0\na=1\n", "a=4\n"), [Some(0), None, Some(65_536), None]);
    assert_eq!(numbers("a=00\na=1\n", "!a=9223372036854775808\n")[..2], [Some(1), None]);
    assert_eq!(
        numbers(&format!("a={}\n", i64::MIN), &format!("!a={}\n", i64::MAX))[..2],
        [Some(i64::MIN), Some(i64::MAX)]
    );
    // A name with a head of two bytes.
    let long = [b'b'; 64];
    let message = target(&long);
    assert_eq!(name_at(&message, 6), long);
    let list = [&long[..], b"=12\n"].concat();
    assert_eq!(number_of(&message, Namespace::Name(6), &list, b""), Some(12));
}

#[test]
fn releases() {
    let all = table(&[(7, -3), (7, 4), (7, 65_536), (8, 5)]);
    let two = "01 82 14 83 f6 83 6161 20 00 83 622161 20 00";
    assert_eq!(released(two, &all, "a=-3\n", "!a=4\n", 7), "yes");
    assert_eq!(released(two, &all, "a=-3\n", "!a=5\n", 7), "no 1");
    assert_eq!(released(two, &all, "a=5\n", "!a=5\n", 7), "no 0");
    assert_eq!(released(two, &all, "a=5\n", "!a=5\n", 8), "yes");
    assert_eq!(released(two, &all, "a=4\n", "", 7), "no 1");
    assert_eq!(released(two, &all, "", "!a=4\n", 7), "no 0");
    assert_eq!(released(two, &all, "", "", 7), "no 0");
    assert_eq!(released(two, &all, "A=4\n", "!a=4\n", 7), "yes");
    assert_eq!(released(two, &all, "a=4\n", "!A=4\n", 7), "yes");
    assert_eq!(released(two, &all, "A=4\n", "!A=5\n", 7), "no 1");
    assert_eq!(released(two, &all, "!A=4\n", "A=4\n", 7), "no 0");
    let capitals = "01 82 14 83 f6 83 6141 20 00 83 622141 20 00";
    assert_eq!(released(capitals, &all, "a=-3\n", "!a=4\n", 7), "yes");
    assert_eq!(released(capitals, &all, "a=-3\nA=9\n", "!a=9\n!A=4\n", 7), "no 1");
    assert_eq!(released(two, &[], "a=-3\n", "!a=4\n", 7), "no 0");
    // The first line counts, whether or not a later one is granted.
    assert_eq!(released(two, &all, "a=9\na=4\n", "!a=4\n", 7), "no 0");
    assert_eq!(released(two, &all, "a=4\na=9\n", "!a=4\n", 7), "yes");
    assert_eq!(released(two, &all, "A=9\na=4\n", "!a=4\n", 7), "no 0");
    assert_eq!(released(two, &all, "A=4\na=9\n", "!a=4\n", 7), "yes");
    // A relative reference has no number, whatever the lists say.
    assert_eq!(released(NAMED, &all, "a=-3\n", "!a=4\n", 7), "no 3");
    let zero = table(&[(7, 0)]);
    assert_eq!(released("01 82 14 82 f6 83 f6 20 00", &zero, "a=0\n", "!a=0\n", 7), "no 0");
    // A number is its own, though a name stands for another.
    assert_eq!(released("01 82 14 82 f6 83 00 20 00", &zero, "a=1\n", "", 7), "yes");
    assert_eq!(released("01", &[], "a=1\n", "!a=1\n", 7), "yes");
    // In a namespace reference, inside parameters, in a map; not as object type or id.
    let within = "01 82 14 82 f6 84 00 6161 6161 a1 00 82 11 81 81 622161";
    assert_eq!(released(within, &zero, "", "!a=0\n", 7), "yes");
    assert_eq!(released(within, &zero, "a=0\n", "", 7), "no 1");
}

/// The message's refusal, then 19, then 18; a message that names nothing is held to both.
#[test]
fn order_of_refusals() {
    let all = table(&[(7, 0)]);
    for wrong in ["\n", "a=1", "a=01\n", "x\n"] {
        for (published, own, place) in [(wrong, "", 0), ("", wrong, 0), ("a=0\n", wrong, 4)] {
            let refusal = format!("refused 19 {place}");
            for message in ["01", "01 82 14 82 f6 83 00 20 00", NAMED] {
                assert_eq!(released(message, &all, published, own, 7), refusal);
                assert_eq!(released(message, &all[..15], published, own, 7), refusal);
                assert_eq!(released(message, &[], published, own, 7), refusal);
            }
            assert_eq!(released("02", &all, published, own, 7), "refused 8 0");
            assert_eq!(released("02", &all[..15], published, own, 7), "refused 8 0");
            assert_eq!(released("", &all, published, own, 7), "refused 2 0");
            assert_eq!(released("0182148100 ff", &all, published, own, 7), "refused 3 5");
        }
    }
    for message in ["01", NAMED] {
        assert_eq!(released(message, &all[..15], "a=0\n", "!a=0\n", 7), "refused 18 0");
        let ragged = [&all[..], &[0]].concat();
        assert_eq!(released(message, &ragged, "a=0\n", "!a=0\n", 7), "refused 18 1");
    }
}

#[test]
fn limits_of_the_message() {
    let message = target(b"ab");
    let rows = table(&[(7, 1)]);
    let answer = |limits: Limits| {
        names::release(&message, &rows, b"ab=1\n", b"", 7, &limits).map_err(|r| r.to_string())
    };
    let exact = Limits { bytes: message.len(), items: 9, containers: 3, ..LIMITS };
    assert_eq!(answer(exact), Ok(Release::Yes));
    let shorter = Limits { bytes: message.len() - 1, ..exact };
    assert_eq!(answer(shorter), Err("refused 1 0".to_string()));
    assert_eq!(answer(Limits { items: 8, ..exact }), Err("refused 5 10".to_string()));
    assert_eq!(answer(Limits { containers: 2, ..exact }), Err("refused 6 5".to_string()));
}

/// A message, most often accepted and with names of the lists, the lists, a table and a
/// subscriber.
fn case(random: &mut Random) -> (Vec<u8>, Lists, Vec<u8>, u64) {
    let settings = generate::settings(random);
    let few_namespaces = random.chance(50);
    let settings = generate::Settings { few_namespaces, items: settings.items.min(80), ..settings };
    let mut message = generate::message(random, settings);
    let mut lists = made::lists(random);
    if random.chance(70) {
        let known = [made::names_of(&lists.0), made::names_of(&lists.1)].concat();
        made::rename(random, &mut message, &known, 60);
    }
    if random.chance(60) {
        lists = made::lists_for(random, &message);
    }
    if random.chance(10) {
        let other = lists.1.clone();
        made::damage(random, &mut lists.0, &other);
    }
    if random.chance(5) {
        generate::damage(random, &mut message, &[], &[0x82, 0x14, 0x81, 0xf6]);
    }
    let (table, subscriber) = made::table_for(random, &message, &lists);
    (message, lists, table, subscriber)
}

/// With both lists empty it is release as it is without lists.
#[test]
fn empty_lists_change_nothing() {
    let mut random = Random::new(22);
    let mut seen = [0; 3];
    for k in 0..10_000 {
        let (message, _, mut table, mut subscriber) = case(&mut random);
        if k % 2 == 0 {
            (table, subscriber) = generate::tables::table_for(&mut random, &message);
        }
        let answer = names::release(&message, &table, b"", b"", subscriber, &LIMITS);
        assert_eq!(answer, release(&message, &table, subscriber));
        seen[match answer {
            Ok(Release::Yes) => 0,
            Ok(Release::No(_)) => 1,
            Err(_) => 2,
        }] += 1;
    }
    assert!(seen.iter().all(|count| *count > 500), "{seen:?}");
}

/// A message in which each name that is found is replaced by its number has the same
/// answer by the release of document 01, if the lists are well formed.
#[test]
fn names_are_as_good_as_their_numbers() {
    let mut random = Random::new(23);
    let (mut yes, mut no, mut later, mut in_case) = (0, 0, 0, 0);
    for _ in 0..8_000 {
        let (message, (published, own), table, subscriber) = case(&mut random);
        if check_names(&published, &own).is_err() {
            continue;
        }
        let Ok(listing) = listing(&message) else { continue };
        let mut translated = message.clone();
        let mut named = 0;
        for entry in listing.entries.iter().rev() {
            let Namespace::Name(place) = entry.namespace else { continue };
            let name = std::str::from_utf8(name_at(&message, place)).unwrap();
            // The lists read once more, in another way.
            let list = if name.starts_with('!') { &own } else { &published };
            let list = std::str::from_utf8(list).unwrap();
            let mut pairs = list.lines().filter_map(|line| line.split_once('='));
            let pair = pairs.find(|(key, _)| key.to_uppercase() == name.to_uppercase());
            let Some((key, number)) = pair else { continue };
            in_case += usize::from(key != name);
            let number: i64 = number.parse().unwrap();
            let mut put = Vec::new();
            match number < 0 {
                true => generate::put_head(&mut put, 1, !number as u64),
                false => generate::put_head(&mut put, 0, number as u64),
            }
            let head = head_size(message[place]);
            translated.splice(place..place + head + name.len(), put);
            named += 1;
        }
        if translated.len() > LIMITS.bytes {
            continue;
        }
        let answer = names::release(&message, &table, &published, &own, subscriber, &LIMITS);
        assert_eq!(answer, release(&translated, &table, subscriber));
        match answer {
            Ok(Release::Yes) => yes += usize::from(named > 0),
            Ok(Release::No(entry)) => {
                no += 1;
                later += usize::from(entry > 0 && named > 0);
            }
            Err(_) => (),
        }
    }
    let counts = [yes, no, later, in_case];
    assert!(yes > 400 && no > 400 && later > 200 && in_case > 400, "{counts:?}");
}

/// Under a table that passes its check two subscribers never get messages that come to
/// one private number, by whatever lists.
#[test]
fn private_numbers_stay_apart() {
    let mut random = Random::new(24);
    let private = |message: &[u8], (published, own): &Lists| -> Vec<i64> {
        let entries = listing(message).unwrap().entries;
        let number = |entry: &Entry| number_of(message, entry.namespace, published, own);
        entries.iter().filter_map(number).filter(|number| *number < 0).collect()
    };
    let (mut one_released, mut both) = (0, 0);
    for _ in 0..8_000 {
        let (message, lists, table, subscriber) = case(&mut random);
        let (other_message, other_lists, ..) = case(&mut random);
        let Ok(rows) = rows(&table) else { continue };
        let answer = names::release(&message, &table, &lists.0, &lists.1, subscriber, &LIMITS);
        if check_table(&rows).is_err() || answer != Ok(Release::Yes) {
            continue;
        }
        let numbers = private(&message, &lists);
        one_released += usize::from(!numbers.is_empty());
        for row in rows.iter().filter(|row| row.subscriber != subscriber) {
            for (message, (published, own)) in
                [(&message, &lists), (&message, &other_lists), (&other_message, &other_lists)]
            {
                let other = row.subscriber;
                let answer = names::release(message, &table, published, own, other, &LIMITS);
                if answer == Ok(Release::Yes) {
                    both += 1;
                    let others = private(message, &(published.clone(), own.clone()));
                    assert!(!others.iter().any(|number| numbers.contains(number)));
                }
            }
        }
    }
    assert!(one_released > 100 && both > 100, "{one_released} {both}");
}

/// What the generators are for does occur.
#[test]
fn what_is_made() {
    let mut random = Random::new(25);
    for _ in 0..5_000 {
        let name = made::any_name(&mut random);
        assert!(is_namespace_name(&name));
        let wrong = made::wrong_line(&mut random, &name);
        let refusal = Err(Refusal { test: Test::Names, place: 0 });
        assert_eq!(check_names(&wrong, b""), refusal, "{wrong:?}");
        assert!(wrong.ends_with(b"\n") && find_line(&wrong, &wrong, &name).is_empty());
    }
    let (mut right, mut in_published, mut in_own, mut later) = (0, 0, 0, 0);
    let (mut lines_found, mut none_found, mut repeated, mut passed_over) = (0, 0, 0, 0);
    // Lines found in another case, and with one behind it that is spelled as the name is.
    let (mut in_case, mut spelled_later) = (0, 0);
    for _ in 0..5_000 {
        let lists = made::lists(&mut random);
        let (published, own) = &lists;
        match check_names(published, own) {
            Ok(()) => right += 1,
            Err(Refusal { place, .. }) => {
                in_published += usize::from(place < published.len());
                in_own += usize::from(place >= published.len());
                later += usize::from(place > published.len());
            }
        }
        let name = made::sought(&mut random, &lists);
        let line = find_line(published, own, &name);
        lines_found += usize::from(!line.is_empty());
        none_found += usize::from(line.is_empty());
        let list = if name.starts_with(b"!") { own } else { published };
        let start = [&name[..], b"="].concat();
        let begins =
            |line: &&[u8]| line.to_ascii_lowercase().starts_with(&start.to_ascii_lowercase());
        let with_it: Vec<&[u8]> = lines(list).map(|(_, line)| line).filter(begins).collect();
        repeated += usize::from(!line.is_empty() && with_it.len() > 1);
        passed_over += usize::from(!line.is_empty() && !with_it[0].starts_with(line));
        let spelled = line.is_empty() || line.starts_with(&start);
        let is_spelled = |line: &&[u8]| line.starts_with(&start);
        in_case += usize::from(!spelled);
        spelled_later += usize::from(!spelled && with_it.iter().any(is_spelled));
    }
    let seen = [right, in_published, in_own, later, lines_found, none_found, repeated];
    let less = [passed_over, in_case, spelled_later];
    assert!(seen.iter().all(|count| *count > 250), "{seen:?}");
    assert!(less.iter().all(|count| *count > 20), "{less:?}");

    let (mut answers, mut named_yes, mut tests) = ([0; 2], 0, [0; 20]);
    for _ in 0..5_000 {
        let (message, (published, own), table, subscriber) = case(&mut random);
        match names::release(&message, &table, &published, &own, subscriber, &LIMITS) {
            Ok(Release::Yes) => {
                answers[0] += 1;
                let entries = listing(&message).unwrap().entries;
                let is_name = |entry: &Entry| matches!(entry.namespace, Namespace::Name(_));
                named_yes += usize::from(entries.iter().any(is_name));
            }
            Ok(Release::No(_)) => answers[1] += 1,
            Err(refusal) => tests[refusal.test as usize] += 1,
        }
    }
    assert!(answers[0] > 500 && answers[1] > 500 && named_yes > 250, "{answers:?} {named_yes}");
    assert!(tests[18] > 50 && tests[19] > 500, "{tests:?}");
}

/// Names take the place of namespaces and of nothing else.
#[test]
fn renamed_messages() {
    let mut random = Random::new(26);
    let names = [b"buoy".to_vec(), [b"!", &[b'n'; 64][..]].concat()];
    for _ in 0..2_000 {
        let settings = generate::settings(&mut random);
        let message = generate::message(&mut random, settings);
        let mut renamed = message.clone();
        made::rename(&mut random, &mut renamed, &names, 100);
        let (Ok(before), Ok(after)) = (listing(&message), listing(&renamed)) else {
            assert_eq!(renamed, message);
            continue;
        };
        assert_eq!((before.items, before.entries.len()), (after.items, after.entries.len()));
        let is_made = |entry: &Entry| match entry.namespace {
            Namespace::Name(place) => names.iter().any(|name| name_at(&renamed, place) == name),
            _ => false,
        };
        assert!(renamed.len() + 67 > LIMITS.bytes || after.entries.iter().all(is_made));
    }
    let mut message = hex("02");
    made::rename(&mut random, &mut message, &names, 100);
    assert_eq!(message, hex("02"));
}
