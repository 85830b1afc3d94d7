//! Texts beside the paper, and the laws that hold of every text.

use reading::generate::{self, Random};
use reading::vectors::texts::{self, PAIRS};
use reading::vectors::{hex, to_hex};
use reading::*;

fn written(digits: &str) -> String {
    match text_of(&hex(digits), &LIMITS) {
        Ok((text, _)) => text,
        Err(refusal) => refusal.to_string(),
    }
}

fn read(text: &str) -> String {
    let mut room = [0; LIMITS.bytes];
    match read_text(text.as_bytes(), &mut room) {
        Ok(Written { size, .. }) => to_hex(&room[..size]),
        Err(refusal) => refusal.to_string(),
    }
}

#[test]
fn both_ways() {
    for (digits, text) in PAIRS {
        assert_eq!(written(digits), *text);
        assert_eq!(read(text), to_hex(&hex(digits)), "{text}");
    }
    for (digits, text) in texts::long_pairs() {
        assert_eq!(written(&digits), text);
        assert_eq!(read(&text), to_hex(&hex(&digits)), "{text}");
    }
}

#[test]
fn no_text() {
    for (digits, answer) in texts::NO_TEXT {
        assert_eq!(written(digits), *answer, "{digits}");
    }
    for (digits, answer) in texts::long_no_text() {
        assert_eq!(written(&digits), answer, "{digits}");
    }
}

#[test]
fn room() {
    let (ari, text) = (hex("841a0001000022008183332a05"), b"ari://65536/-3/0(//-20/-11/5)");
    for length in [0, 1, 28] {
        let mut room = vec![0xa5; length];
        assert_eq!(write_text(&ari, &mut room), Err(Refusal { test: Test::Room, place: 29 }));
        assert!(room.iter().all(|byte| *byte == 0xa5));
    }
    for length in [0, 1, 12] {
        let mut room = vec![0xa5; length];
        assert_eq!(read_text(text, &mut room), Err(Refusal { test: Test::Room, place: 13 }));
        assert!(room.iter().all(|byte| *byte == 0xa5));
    }
    for more in [0, 1, 40] {
        let mut room = vec![0xa5; 29 + more];
        assert_eq!(write_text(&ari, &mut room), Ok(Written { items: 9, size: 29 }));
        assert_eq!(room, [&text[..], &vec![0xa5; more]].concat());
        let mut room = vec![0xa5; 13 + more];
        assert_eq!(read_text(text, &mut room), Ok(Written { items: 9, size: 13 }));
        assert_eq!(room, [&ari[..], &vec![0xa5; more]].concat());
    }
}

#[test]
fn not_text() {
    for text in texts::NOT_TEXT {
        assert_eq!(read(text), "refused 15 0", "{text}");
    }
    for (text, answer) in texts::long_not_text() {
        assert_eq!(read(&text), answer, "{text}");
    }
}

/// ARIs of all sorts, most of them with a text.
fn aris(count: usize, seed: u64) -> impl Iterator<Item = Vec<u8>> {
    let mut random = Random::new(seed);
    (0..count).map(move |_| {
        let settings = generate::settings(&mut random);
        let floats = random.chance(20);
        generate::single(&mut random, generate::Settings { floats, ..settings })
    })
}

/// "binary to text and back gives" the shortened form, and "A text has at most 4 bytes, and 3 for each binary
/// byte and 16 for each item."
#[test]
fn every_text_is_read_back() {
    let (mut texts, mut longer) = (0, 0);
    for ari in aris(4_000, 5) {
        let Ok((text, items)) = text_of(&ari, &LIMITS) else { continue };
        texts += 1;
        assert_eq!(check_single(&ari), Answer::Accepted(items));
        assert!(text.len() <= 4 + 3 * ari.len() + 16 * items);
        let short = shortened(&ari);
        longer += usize::from(short != ari);
        assert_eq!(read(&text), to_hex(&short));
        assert_eq!(check_single(&short), Answer::Accepted(items));
        assert_eq!(shortened(&short), short);
    }
    assert!(texts > 2_000 && longer > 800, "{texts} {longer}");
}

/// What is read is the text of what it gives: every text one byte from a good one.
#[test]
fn one_byte_away() {
    let mut room = [0; LIMITS.bytes];
    let (mut refused, mut other) = (0, 0);
    let mut is_own_text = |text: &[u8]| match read_text(text, &mut room) {
        Ok(Written { size, items }) => {
            other += 1;
            let (own, own_items) = text_of(&room[..size], &LIMITS).unwrap();
            assert_eq!((own.as_bytes(), own_items), (text, items));
        }
        Err(Refusal { test: Test::NotText, place: 0 }) => refused += 1,
        Err(refusal) => panic!("{refusal}"),
    };
    for (_, text) in PAIRS {
        for at in 0..=text.len() {
            for byte in 0..=255 {
                let mut near = text.as_bytes().to_vec();
                near.insert(at, byte);
                is_own_text(&near);
                if at < text.len() {
                    near.remove(at + 1);
                    is_own_text(&near);
                }
            }
            is_own_text(
                &[&text.as_bytes()[..at], &text.as_bytes()[text.len().min(at + 1)..]].concat(),
            );
        }
    }
    assert!(refused > 100_000 && other > 5_000, "{refused} {other}");
}
