//! The order composer beside request (viii).

use std::collections::BTreeMap;

use reading::composer::*;
use reading::generate::orders::{self, Order};
use reading::generate::{rewritten, Random};
use reading::vectors::{hex, to_hex};
use reading::*;

/// The message's hex digits and its items, or the refusal.
fn said(nonce: Nonce, texts: impl AsRef<[u8]>) -> String {
    said_within(nonce, texts, &LIMITS)
}

fn said_within(nonce: Nonce, texts: impl AsRef<[u8]>, limits: &Limits) -> String {
    match composed(nonce, texts.as_ref(), limits) {
        Ok((message, items)) => format!("{} {items}", to_hex(&message)),
        Err(refusal) => refusal.to_string(),
    }
}

/// The refusal, or how many bytes and items there are.
fn size(nonce: Nonce, texts: impl AsRef<[u8]>) -> String {
    match composed(nonce, texts.as_ref(), &LIMITS) {
        Ok((message, items)) => format!("{} bytes, {items} items", message.len()),
        Err(refusal) => refusal.to_string(),
    }
}

#[test]
fn worked_examples() {
    // C, and the order of the AMP draft.
    let c = said(Nonce::Null, "ari://65536/-3/0(//-20/-11/5)\n");
    assert_eq!(c, "01821482f6841a0001000022008183332a05 14");
    let order = said(Nonce::Number(1234), "ari://65536/-3/18\nari://65536/-2/43\n");
    assert_eq!(order, "018214831904d2831a000100002212831a0001000021182b 13");
    assert_eq!(said(Nonce::Null, ""), "01821481f6 5");
    assert_eq!(said(Nonce::Bytes(b""), ""), "0182148140 5");
    assert_eq!(said(Nonce::Bytes(&[0, 255]), "./-2/30\n"), "018214824200ff83f621181e 9");
    let named = said(Nonce::Number(0), "ari://Buoy/CTRL/x\nari://!a/b/c(1=/LABEL/d)\n");
    let due = "0182148300 83 6442756f79 644354524c 6178 84 622161 6162 6163 a1 01 82 0e 6164";
    assert_eq!(named, format!("{} 18", to_hex(&hex(due))));
}

/// "first 7 at place 0, a nonce number out of range"; another kind is so too.
#[test]
fn nonces() {
    for (number, answer) in [
        (0, "0182148100 5"),
        (23, "0182148117 5"),
        (24, "018214811818 5"),
        (255, "01821481 18ff 5"),
        (256, "01821481 190100 5"),
        (65_536, "01821481 1a00010000 5"),
        (1 << 32, "01821481 1b0000000100000000 5"),
        ((1 << 63) - 1, "01821481 1b7fffffffffffffff 5"),
        (1 << 63, "refused 7 0"),
        (u64::MAX, "refused 7 0"),
    ] {
        let due = match answer.rsplit_once(' ') {
            Some((digits, items)) if items == "5" => format!("{} 5", digits.replace(' ', "")),
            _ => answer.to_string(),
        };
        assert_eq!(said(Nonce::Number(number), ""), due);
    }
    for length in [0, 1, 23, 24, 255, 256, 1_000] {
        let bytes = vec![0xab; length];
        let (message, items) = composed(Nonce::Bytes(&bytes), b"", &LIMITS).unwrap();
        assert_eq!(
            (items, items_message(&message).unwrap()[4].kind),
            (5, Kind::Bytes(length as u64))
        );
        assert!(message.ends_with(&bytes));
    }
    for kind in [3, 4, 1 << 32, u64::MAX] {
        let refused = Nonce::of(kind, 0, b"").unwrap_err();
        assert_eq!(refused.to_string(), "refused 7 0");
    }
    assert_eq!(Nonce::of(0, u64::MAX, b"a"), Ok(Nonce::Null));
    assert_eq!(Nonce::of(1, 7, b"a"), Ok(Nonce::Number(7)));
    assert_eq!(Nonce::of(2, u64::MAX, b"a"), Ok(Nonce::Bytes(b"a")));
    // Before what is wrong with the texts.
    assert_eq!(said(Nonce::Number(1 << 63), "x"), "refused 7 0");
}

/// "24, a text that is too long, isn't ended or isn't an object reference, with its number in
/// the list, the first such".
#[test]
fn texts_that_are_no_targets() {
    for wrong in [
        "",
        " ",
        "ari:",
        "./-1/0 ",
        " ./-1/0",
        "./-1/0\r",
        "./-1/0\0",
        "ari:./-1/0",
        "./-1/0()",
        "./-1",
        "./-1/",
        "/-1/0",
        "//a/-1/0",
        "ARI://a/-1/0",
        "ari://a/",
        "ari://!a/",
        "ari://65536/",
        "ari:0",
        "ari:null",
        "ari:h%2700%27",
        "ari:%22a%22",
        "ari:/UINT/10",
        "ari:/AC/(./-1/0)",
        "ari:/AC/(//a/-1/0)",
        "ari:/AM/(1=//a/-1/0)",
        "ari:/LABEL/a",
        "ari:/EXECSET/()",
        "ari://a/1/0",
        "ari://a/-257/0",
        "ari://a/-1/-1",
        "ari://a/-1/9223372036854775808",
        "ari://9223372036854775808/-1/0",
        "ari://null/-1/",
        "ari://a/-1/0,",
        "ari://a/-1/00",
        "ari://a/-1/0(0",
        "ari://a/-1/0(1=0,0=0)",
        "ari://a/-1/0;",
    ] {
        assert_eq!(said(Nonce::Null, format!("{wrong}\n")), "refused 24 0", "{wrong}");
        let second = format!("./-1/0\n{wrong}\n./-1/0\n");
        assert_eq!(said(Nonce::Null, second), "refused 24 1", "{wrong}");
        // The first such, whatever is wrong with a later one.
        let both = format!("./-1/0\n./-1/1\n{wrong}\n{wrong}\n./-1/0");
        assert_eq!(said(Nonce::Null, both), "refused 24 2", "{wrong}");
    }
    // Not ended.
    assert_eq!(said(Nonce::Null, "./-1/0"), "refused 24 0");
    assert_eq!(said(Nonce::Null, "./-1/0\n./-1/0"), "refused 24 1");
    assert_eq!(said(Nonce::Null, "./-1/0\n"), "01821482f683f62000 9");
    assert_eq!(said(Nonce::Null, "\n"), "refused 24 0");
    assert_eq!(said(Nonce::Null, "./-1/0\n\n"), "refused 24 1");
    assert_eq!(said(Nonce::Null, "\n./-1/0"), "refused 24 0");
    // A target that is relative, at any depth too, is one.
    assert_eq!(size(Nonce::Null, "./a/b(./c/d)\n"), "18 bytes, 14 items");
}

/// Too long by itself: the text, or what it would be. A message with it would break a limit as
/// well, but that is tested later.
#[test]
fn texts_that_are_too_long() {
    let with = |text: String| size(Nonce::Null, format!("./-1/0\n{text}\n"));
    let zeros = |count: usize| format!("./-1/0({}0)", "0,".repeat(count - 1));
    let string = |count: usize| format!("./-1/0(h%27{}%27)", "00".repeat(count));
    // Of an ARI of 4,096 items, and one more.
    assert_eq!(with(zeros(4_091)), "refused 5 0");
    assert_eq!(with(zeros(4_092)), "refused 24 1");
    // Of one of 16,384 bytes, and one more: 84 f6 20 00 81 59 and the length before the string.
    assert_eq!(with(string(16_376)), "refused 1 0");
    assert_eq!(with(string(16_377)), "refused 24 1");
    // Of 24 containers, and one more.
    let deep = |pairs: usize, last: &str| {
        format!("{}{last}{}", "./-1/0(".repeat(pairs), ")".repeat(pairs))
    };
    assert_eq!(with(deep(12, "0")), "refused 6 0");
    assert_eq!(with(deep(12, "//a/")), "refused 24 1");
    assert_eq!(with(deep(11, "//a/")), "refused 6 0");
    assert_eq!(with(deep(11, "0")), "65 bytes, 65 items");
    // No text of an accepted ARI has as many bytes as a text may.
    for length in [131_072, 131_073, 200_000] {
        assert_eq!(with("0".repeat(length)), "refused 24 1");
        assert_eq!(with(format!("./-1/{}", "a".repeat(length - 5))), "refused 24 1");
    }
    // The limit of a text is a value as the others are.
    let short = Limits { text: 7, ..LIMITS };
    assert_eq!(said_within(Nonce::Null, "./-1/10\n", &short), "01821482f683f6200a 9");
    assert_eq!(said_within(Nonce::Null, "./-1/0\n./-1/100\n", &short), "refused 24 1");
}

/// By the nonce alone, by many small targets, by one deep one; at each limit and one past it.
#[test]
fn limits() {
    // 01 82 14 81 59 and the length before the nonce.
    assert_eq!(size(Nonce::Bytes(&[0; 16_377]), ""), "16384 bytes, 5 items");
    assert_eq!(size(Nonce::Bytes(&[0; 16_378]), ""), "refused 1 0");
    assert_eq!(size(Nonce::Bytes(&[0; 100_000]), ""), "refused 1 0");
    assert_eq!(size(Nonce::Bytes(&[0; 16_373]), "./-1/0\n"), "16384 bytes, 9 items");
    assert_eq!(size(Nonce::Bytes(&[0; 16_374]), "./-1/0\n"), "refused 1 0");
    // Four items and four bytes each.
    let many = |count: usize| "./-1/0\n".repeat(count);
    assert_eq!(size(Nonce::Null, many(1_022)), "4095 bytes, 4093 items");
    assert_eq!(size(Nonce::Null, many(1_023)), "refused 5 0");
    assert_eq!(size(Nonce::Null, many(1_021) + "./-1/0(0,0)\n"), "4098 bytes, 4096 items");
    assert_eq!(size(Nonce::Null, "./-1/0(0,0,0)\n".to_string() + &many(1_021)), "refused 5 0");
    // Long ones, 69 bytes each; the inner array's head has two bytes.
    let long = format!("./-1/{}\n", "n".repeat(64));
    assert_eq!(size(Nonce::Null, long.repeat(237)), "16359 bytes, 953 items");
    assert_eq!(size(Nonce::Null, long.repeat(238)), "refused 1 0");
    assert_eq!(size(Nonce::Null, long.repeat(10_000)), "refused 1 0");
    assert_eq!(size(Nonce::Null, "./-1/0\n".repeat(70_000)), "refused 1 0");
    // 22 containers in a target, and one more.
    let deep = |last: &str| format!("{}{last}{}\n", "./-1/0(".repeat(11), ")".repeat(11));
    assert_eq!(size(Nonce::Null, deep("0")), "61 bytes, 61 items");
    assert_eq!(size(Nonce::Null, deep("//a/")), "refused 6 0");
    assert_eq!(size(Nonce::Null, deep("/AC/()")), "refused 6 0");
    assert_eq!(size(Nonce::Null, deep("./-1/0")), "refused 6 0");
    // 24, 1, 5, 6, 16 in that order.
    let nonce = Nonce::Bytes(&[0; 16_378]);
    let texts = many(1_023) + &deep("//a/");
    assert_eq!(size(nonce, texts.clone() + "x"), "refused 24 1024");
    assert_eq!(size(nonce, &texts), "refused 1 0");
    assert_eq!(size(Nonce::Null, &texts), "refused 5 0");
    assert_eq!(size(Nonce::Null, deep("//a/") + &many(10)), "refused 6 0");
    let refused = compose(Nonce::Null, deep("//a/").as_bytes(), &mut [], &LIMITS).unwrap_err();
    assert_eq!(refused.to_string(), "refused 6 0");
}

#[test]
fn room() {
    let texts = b"ari://65536/-3/0(//-20/-11/5)\n";
    let due = hex("01821482f6841a0001000022008183332a05");
    for length in 0..40 {
        let mut room = vec![0xee; length];
        match compose(Nonce::Null, texts, &mut room, &LIMITS) {
            Ok(written) => {
                assert_eq!(written, Written { items: 14, size: 18 });
                assert_eq!(room[..18], due);
                assert!(room[18..].iter().all(|byte| *byte == 0xee));
            }
            Err(refusal) => {
                assert!(length < 18);
                assert_eq!(refusal.to_string(), "refused 16 18");
                assert_eq!(room, vec![0xee; length]);
            }
        }
    }
}

/// A message of one EXECSET as its nonce's item and the texts of its targets.
fn taken_apart(message: &[u8]) -> (Vec<u8>, Vec<String>) {
    let records = items_message(message).unwrap();
    let members = records[4..].iter().filter(|record| record.around == 2);
    let bytes: Vec<&[u8]> = members.map(|record| &message[record.first..record.after]).collect();
    let text = |ari: &&[u8]| text_of(ari, &LIMITS).unwrap().0;
    (bytes[0].to_vec(), bytes[1..].iter().map(text).collect())
}

fn nonce_of(order: &Order) -> Result<Nonce<'_>, Refusal> {
    Nonce::of(order.kind, order.number, &order.nonce)
}

/// The claims of the request on many orders, within the gate's limits and within small ones:
/// the message is accepted, its targets are the texts' ARIs in order, its nonce is the one that
/// was given; 24 names the first text that is no target, and 1, 5 and 6 come exactly if the
/// message would be refused for them.
#[test]
fn orders() {
    let small = Limits { bytes: 400, items: 40, containers: 8, text: 300 };
    let short = Limits { bytes: 60, text: 200, ..LIMITS };
    let flat = Limits { containers: 7, ..LIMITS };
    let mut seen = BTreeMap::new();
    for seed in 0..4_000 {
        let mut random = Random::new(seed);
        let order = orders::order(&mut random);
        for limits in [LIMITS, small, short, flat] {
            let answer = nonce_of(&order).and_then(|nonce| composed(nonce, &order.texts, &limits));
            *seen.entry(answer.as_ref().err().map(|r| r.test as u8)).or_insert(0) += 1;
            let texts: Vec<&[u8]> = order.texts.split_inclusive(|byte| *byte == b'\n').collect();
            let is_target = |line: &&[u8]| {
                let Some((b'\n', text)) = line.split_last() else { return false };
                let mut room = vec![0; LIMITS.bytes];
                let Ok(read) = read_text(text, &mut room) else { return false };
                let fits = walk_single(&room[..read.size], &limits, &mut ()).is_ok();
                let head = room[0];
                text.len() <= limits.text && fits && (head == 0x83 || head == 0x84)
            };
            let out_of_range = order.kind > 2 || order.kind == 1 && order.number > i64::MAX as u64;
            let first_wrong = texts.iter().position(|line| !is_target(line));
            match (answer, out_of_range, first_wrong) {
                (Err(refusal), true, _) => {
                    assert_eq!(refusal, Refusal { test: Test::NotAllowed, place: 0 });
                }
                (Err(refusal), false, Some(place)) => {
                    assert_eq!(refusal, Refusal { test: Test::NoReference, place }, "seed {seed}");
                }
                (answer, false, None) => {
                    let far = Limits { bytes: 1 << 30, items: 1 << 30, containers: 99, ..limits };
                    let (message, items) =
                        composed(nonce_of(&order).unwrap(), &order.texts, &far).unwrap();
                    // One limit alone, each time.
                    let breaks = |alone: Limits| walk_message(&message, &alone, &mut ()).is_err();
                    let due = if breaks(Limits { bytes: limits.bytes, ..far }) {
                        Some(Test::TooLong)
                    } else if breaks(Limits { items: limits.items, ..far }) {
                        Some(Test::TooManyItems)
                    } else if breaks(Limits { containers: limits.containers, ..far }) {
                        Some(Test::TooManyContainers)
                    } else {
                        None
                    };
                    let refusal = answer.as_ref().err().copied();
                    assert_eq!(refusal, due.map(|test| Refusal { test, place: 0 }), "seed {seed}");
                    assert_eq!(walk_message(&message, &limits, &mut ()).is_ok(), due.is_none());
                    if due.is_none() {
                        assert_eq!(answer.unwrap(), (message.clone(), items));
                        assert_eq!(walk_message(&message, &limits, &mut ()), Ok(items));
                    }
                }
                (answer, ..) => panic!("seed {seed}: {answer:?}"),
            }
        }
    }
    let numbers: Vec<Option<u8>> = seen.keys().copied().collect();
    assert_eq!(numbers, [None, Some(1), Some(5), Some(6), Some(7), Some(24)], "{seen:?}");
    assert!(seen.values().all(|times| *times > 50), "{seen:?}");
}

/// What is composed, taken apart and composed again, is the same; also if it came in longer
/// heads.
#[test]
fn there_and_back() {
    let mut compared = 0;
    for seed in 0..3_000 {
        let mut random = Random::new(seed);
        let order = orders::order(&mut random);
        let Ok((message, items)) =
            nonce_of(&order).and_then(|nonce| composed(nonce, &order.texts, &LIMITS))
        else {
            continue;
        };
        let wide = rewritten(&mut random, &message, 0, 50);
        let mut forms = vec![message.clone()];
        if check_message(&wide) == Answer::Accepted(items) {
            forms.push(wide);
        }
        for form in forms {
            let (nonce, texts) = taken_apart(&form);
            let lines: String = texts.iter().map(|text| text.clone() + "\n").collect();
            assert_eq!(lines.as_bytes(), order.texts);
            let nonce = shortened(&nonce);
            let again = match order.kind {
                0 => Nonce::Null,
                1 => Nonce::Number(order.number),
                _ => Nonce::Bytes(&nonce[nonce.len() - order.nonce.len()..]),
            };
            assert_eq!(Ok(again), nonce_of(&order));
            assert_eq!(composed(again, lines.as_bytes(), &LIMITS), Ok((message.clone(), items)));
            compared += usize::from(texts.len() > 1);
        }
    }
    assert!(compared > 1_500, "{compared}");
}
