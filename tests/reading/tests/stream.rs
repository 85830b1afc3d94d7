//! The stream beside request (ii).

use reading::generate::{self, Random};
use reading::vectors::hex;
use reading::*;

const C: &str = "01821482f6841a0001000022008183332a05";

fn closed(answer: Result<Written, Refusal>) -> String {
    match answer {
        Ok(Written { items, size }) => format!("items {items}, entries {size}"),
        Err(refusal) => refusal.to_string(),
    }
}

/// What each feed answers, and then the close with room enough.
fn fed(fragments: &[&[u8]]) -> String {
    let (mut stream, mut message) = (Stream::default(), [0; LIMITS.bytes]);
    let mut words = String::new();
    for fragment in fragments {
        words += &match stream.feed(fragment, &mut message, &LIMITS) {
            Ok(()) => "on; ".to_string(),
            Err(refusal) => format!("{refusal}; "),
        };
    }
    words + &closed(stream.close(&mut [0; LIMITS.items / 2 * ENTRY], &LIMITS))
}

fn fed_hex(fragments: &[&str]) -> String {
    let bytes: Vec<Vec<u8>> = fragments.iter().map(|digits| hex(digits)).collect();
    fed(&bytes.iter().map(Vec::as_slice).collect::<Vec<_>>())
}

#[test]
fn small_messages() {
    assert_eq!(fed_hex(&[]), "refused 2 0");
    assert_eq!(fed_hex(&[""]), "on; refused 2 0");
    assert_eq!(fed_hex(&["01"]), "on; items 1, entries 0");
    assert_eq!(fed_hex(&["", "01", "", ""]), "on; on; on; on; items 1, entries 0");
    assert_eq!(fed_hex(&["02"]), "refused 8 0; refused 8 0");
    assert_eq!(fed_hex(&["82"]), "refused 7 0; refused 7 0");
    assert_eq!(fed_hex(&["0182"]), "on; refused 2 2");
    assert_eq!(fed_hex(&["01", "8214"]), "on; on; refused 2 3");
    assert_eq!(fed_hex(&["01821483", "1904d2"]), "on; on; refused 2 7");
    assert_eq!(fed_hex(&[C]), "on; items 14, entries 2");
    assert_eq!(fed_hex(&[&C[..14], "", &C[14..]]), "on; on; on; items 14, entries 2");
}

/// "Bytes are missing" is no refusal before the close: a head that is cut (2) and a
/// string that is not all there (9). What is wrong with either is.
#[test]
fn missing_bytes_may_come() {
    assert_eq!(fed_hex(&["0182148119"]), "on; refused 2 4");
    assert_eq!(fed_hex(&["0182148119", "04", "d2"]), "on; on; on; items 5, entries 0");
    assert_eq!(fed_hex(&["0182148119", "00", "d2"]), "on; on; on; items 5, entries 0");
    assert_eq!(fed_hex(&["01821481fa", "0000", "0000"]), "on; on; refused 4 4; refused 4 4");
    assert_eq!(fed_hex(&["0182148144"]), "on; refused 9 4");
    assert_eq!(fed_hex(&["0182148144", "000000", "00"]), "on; on; on; items 5, entries 0");
    let object = "01821482f683";
    assert_eq!(fed_hex(&[object, "6221"]), "on; on; refused 9 6");
    assert_eq!(fed_hex(&[object, "622120", "20"]), "on; refused 10 6; refused 10 6; refused 10 6");
}

/// By each test other than 2 and 9, whatever comes behind, also past the limit.
#[test]
fn a_refusal_stands() {
    let many_items = "01".to_string() + &"821481f6".repeat(1_024);
    let many_open = "01821482f6".to_string() + &"84f6200081".repeat(11);
    for (start, byte, refusal) in [
        ("01", "c1", "refused 3 1"),
        ("01821481fa000000", "00", "refused 4 4"),
        (&many_items[..2 * 4_096], "f6", "refused 5 4096"),
        (&many_open, "81", "refused 6 60"),
        ("01", "80", "refused 7 1"),
        ("", "02", "refused 8 0"),
        ("01821482f68361", "20", "refused 10 6"),
        ("01821482f684f62000a200f6", "00", "refused 11 12"),
        ("01821482f684f62000", "80", "refused 12 9"),
    ] {
        let (start, byte) = (hex(start), hex(byte));
        assert_eq!(fed(&[&start, &byte]), format!("on; {refusal}; {refusal}"));
        let all = fed(&[&start, &byte, &[], &[0x01], &[0; 16_384], &[]]);
        assert_eq!(all, "on; ".to_string() + &format!("{refusal}; ").repeat(5) + refusal);
        let whole = [&start[..], &byte, &[0; 16_384]].concat();
        assert_eq!(fed(&[&whole]), format!("{refusal}; {refusal}"));
    }
}

/// A message of exactly that many bytes: sets, and a last one whose nonce fills it.
fn of_length(bytes: usize) -> Vec<u8> {
    let mut message = hex("01 82148243aabbcc83f62000 82148159");
    let string = bytes - message.len() - 2;
    message.extend((string as u16).to_be_bytes());
    message.resize(bytes, 0x5a);
    message
}

#[test]
fn at_the_limit_and_past_it() {
    let whole = of_length(16_384);
    assert_eq!(fed(&[&whole]), "on; items 13, entries 1");
    let accepted = [&whole[..], &[0x82]].concat();
    assert_eq!(fed(&[&accepted]), "refused 1 0; refused 1 0");
    assert_eq!(fed(&[&whole, &[], &[0x82], &[]]), "on; on; refused 1 0; refused 1 0; refused 1 0");

    // By 9: the last string ends one byte past the limit.
    let long = of_length(16_385);
    assert_eq!(closing(&long[..16_384], &LIMITS).unwrap_err().to_string(), "refused 9 15");
    assert_eq!(fed(&[&long[..16_384], &long[16_384..]]), "on; refused 1 0; refused 1 0");

    // By 2: a set's head is the last byte within it.
    let cut = [&of_length(16_383)[..], &[0x82, 0x14, 0x81, 0xf6]].concat();
    assert_eq!(closing(&cut[..16_384], &LIMITS).unwrap_err().to_string(), "refused 2 16384");
    assert_eq!(fed(&[&cut]), "refused 1 0; refused 1 0");

    // By 7, by the last byte within the limit and by the first past it.
    let wrong = [&of_length(16_383)[..], &[0x83, 0x00]].concat();
    assert_eq!(fed(&[&wrong]), "refused 7 16383; refused 7 16383");
    let later = [&whole[..], &[0x83]].concat();
    assert_eq!(fed(&[&later]), "refused 1 0; refused 1 0");
}

/// "A refusal comes before the close exactly when every continuation, closing at once
/// included, gives the same one": for all ways in which some starts can go on with
/// bytes that matter, up to a limit that is a few bytes further on, and past it.
#[test]
fn before_the_close_exactly_when_every_continuation_is_refused_so() {
    const BYTES: [u8; 11] = [0x00, 0x01, 0x14, 0x18, 0x20, 0x41, 0x61, 0x81, 0x82, 0xa1, 0xf6];
    /// The refusal of all continuations, or none if they don't have one in common.
    fn of_all(bytes: &mut Vec<u8>, limits: &Limits, seen: &mut [usize; 2]) -> Option<Refusal> {
        let mut common = closing(bytes, limits).err();
        // What comes behind the first byte past the limit changes no answer.
        if bytes.len() <= limits.bytes {
            for byte in BYTES {
                bytes.push(byte);
                let other = of_all(bytes, limits, seen);
                common = common.filter(|refusal| other == Some(*refusal));
                bytes.pop();
            }
        }
        assert_eq!(standing(bytes, limits), common, "{bytes:02x?} within {limits:?}");
        seen[usize::from(common.is_some())] += 1;
        common
    }
    let mut seen = [0; 2];
    for (start, more, items, containers) in [
        ("", 0, 9, 9),
        ("", 3, 9, 9),
        ("01", 3, 2, 9),
        ("01", 3, 9, 1),
        ("01821481", 3, 9, 9),
        ("01821482f683", 3, 99, 9),
        ("01821482f684f6200081", 3, 12, 9),
        ("01821583f600830083f62000", 3, 99, 9),
        ("01821583f600830083f6200082", 3, 14, 4),
        ("01821583f600830083f620008212a2", 3, 99, 9),
    ] {
        let mut start = hex(start);
        let limits = Limits { bytes: start.len() + more, items, containers, ..LIMITS };
        of_all(&mut start, &limits, &mut seen);
    }
    assert!(seen[0] > 500 && seen[1] > 100_000, "{seen:?}");
}

/// What is fed behind a refusal is of no account: each prefix of made messages, most of them
/// past the limit; and a made message is refused early only if it is refused.
#[test]
fn every_prefix() {
    let limits = Limits { bytes: 150, items: 60, containers: 6, ..LIMITS };
    let mut random = Random::new(11);
    let mut stood = 0;
    for _ in 0..300 {
        let settings = generate::settings(&mut random);
        let mut message = generate::message(&mut random, settings);
        if random.chance(50) {
            generate::damage(&mut random, &mut message, &[], &[0x82, 0x14, 0x81, 0xf6]);
        }
        message.truncate(200);
        let mut before = None;
        for length in 0..=message.len() {
            let now = standing(&message[..length], &limits);
            assert!(before.is_none() || now == before, "{message:02x?} {length}");
            before = now;
        }
        if let Some(refusal) = before {
            stood += 1;
            assert_eq!(closing(&message, &limits), Err(refusal));
        }
    }
    assert!(stood > 50, "{stood}");
}

#[test]
fn closes() {
    let (mut stream, mut message) = (Stream::default(), [0; LIMITS.bytes]);
    let mut room = [0xee; 3 * ENTRY];
    stream.feed(&hex(C), &mut message, &LIMITS).unwrap();
    for short in [0, 1, 2 * ENTRY - 1, 0] {
        assert_eq!(closed(stream.close(&mut room[..short], &LIMITS)), "refused 16 2");
        assert_eq!(room, [0xee; 3 * ENTRY]);
    }
    // Nothing was closed, so there may even come more.
    stream.feed(&hex("82148183f62000"), &mut message, &LIMITS).unwrap_err();
    assert_eq!(closed(stream.close(&mut [], &LIMITS)), "refused 7 21");
    for (fragment, answer) in [
        (C, "items 14, entries 2"),
        ("0182", "refused 2 2"),
        ("0182148141", "refused 9 4"),
        ("01", "items 1, entries 0"),
    ] {
        stream.feed(&hex(fragment), &mut message, &LIMITS).unwrap();
        assert_eq!(closed(stream.close(&mut room, &LIMITS)), answer);
        assert_eq!(closed(stream.close(&mut room, &LIMITS)), "refused 2 0");
    }
    stream.feed(&hex("02"), &mut message, &LIMITS).unwrap_err();
    stream.open();
    stream.feed(&hex(C), &mut message, &LIMITS).unwrap();
    stream.open();
    assert_eq!(closed(stream.close(&mut room, &LIMITS)), "refused 2 0");
}

/// The message stands in its room from byte 0 on; behind it nothing is touched.
#[test]
fn the_room_of_the_message() {
    let limits = Limits { bytes: 8, ..LIMITS };
    let (mut stream, mut message) = (Stream::default(), [0xee; 10]);
    let mut feed = |digits| stream.feed(&hex(digits), &mut message, &limits).err();
    assert_eq!([feed("01"), feed(""), feed("821481"), feed("44aabb")], [None; 4]);
    let too_long = Some(Refusal { test: Test::TooLong, place: 0 });
    assert_eq!([feed("ccdd"), feed("00")], [too_long; 2]);
    assert_eq!(message, hex("0182148144aabbcceeee")[..]);
    stream.open();
    let other = stream.feed(&hex("0180aa"), &mut message, &limits).and(Ok(()));
    assert_eq!(other.unwrap_err().to_string(), "refused 7 1");
    stream.feed(&hex("bb"), &mut message, &limits).unwrap_err();
    assert_eq!(message, hex("0180aa8144aabbcceeee")[..]);
}
