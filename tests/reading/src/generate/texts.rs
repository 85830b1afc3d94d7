//! Texts: those of ARIs, some past a limit, damaged ones, and random words.

use super::{full_list, nested_single, settings, single, Random, Settings};
use crate::{text_of, Limits, LIMITS};

/// The text of an ARI, most often an accepted one, sometimes one about as large as
/// may be.
pub fn text(random: &mut Random) -> Vec<u8> {
    // Past a limit it is a text all the same, only not an accepted ARI's.
    let past = Limits {
        bytes: 2 * LIMITS.bytes,
        items: 2 * LIMITS.items,
        containers: LIMITS.containers + 2,
        ..LIMITS
    };
    loop {
        let settings = Settings { floats: false, ..settings(random) };
        let ari = match random.below(40) {
            0 => {
                let containers = LIMITS.containers - 1 + random.below(3);
                nested_single(random, containers)
            }
            1 => {
                let bytes = LIMITS.bytes - 2 + random.below(5);
                full_list(random, Settings { items: LIMITS.items - 124, ..settings }, bytes)
            }
            2 => {
                let items = LIMITS.items + random.below(16);
                full_list(random, Settings { items, string: 2, ..settings }, LIMITS.bytes)
            }
            _ => single(random, settings),
        };
        if let Ok((text, _)) = text_of(&ari, &past) {
            return text.into_bytes();
        }
    }
}

/// Zeros up to a text's limit; or a text string of bytes that are all escaped, or a
/// list of zeros, up to an ARI's.
pub fn long_text(random: &mut Random) -> Vec<u8> {
    match random.below(3) {
        0 => vec![b'0'; LIMITS.text - 1 + random.below(3)],
        1 => {
            let count = LIMITS.bytes - 4 + random.below(3);
            [&b"ari:%22"[..], &b"%7F".repeat(count), b"%22"].concat()
        }
        _ => {
            let count = LIMITS.items - 4 + random.below(3);
            [&b"ari:/AC/(0"[..], &b",0".repeat(count), b")"].concat()
        }
    }
}

const WORDS: [&str; 48] = [
    "ari:", "./", "//", "/", "(", ")", ",", "=", "()", "true", "null", "undefined", "0", "-1",
    "10", "-20", "65536", "-256", "-257", "255", "256", "00", "-0", "+1", "9223372036854775807",
    "9223372036854775808", "-9223372036854775808", "18446744073709551615", "18446744073709551616",
    "%22", "%22a%22", "%22%22", "%22%C3%BC%22", "h%27", "h%2700ff%27", "/AC/(", "/AM/(", "/UINT/",
    "/LABEL/", "/BYTE/", "/CBOR/", "/NULL/null", "a", "!a", "h", "AC", "-1/0", "//a/-1/0(",
];

/// Words that occur in texts, in any order.
pub fn words(random: &mut Random) -> Vec<u8> {
    let mut text = Vec::new();
    if random.chance(80) {
        text.extend(random.pick(&["ari:", "./-1/0", "ari:/AC/(", "./-1/0("]).bytes());
    }
    for _ in 0..random.below(8) {
        text.extend(random.pick(&WORDS).bytes());
    }
    let open = |sign| text.iter().filter(|byte| **byte == sign).count();
    let missing = open(b'(').saturating_sub(open(b')'));
    if random.chance(70) {
        text.resize(text.len() + missing, b')');
    }
    text
}

/// Where some part of a text stands, chosen among all such places.
fn find(random: &mut Random, text: &[u8], part: impl Fn(&[u8]) -> bool) -> Option<usize> {
    let places: Vec<usize> = (0..text.len()).filter(|at| part(&text[*at..])).collect();
    (!places.is_empty()).then(|| random.pick(&places))
}

/// One place damaged; what comes out is a text now and then.
pub fn damage(random: &mut Random, text: &mut Vec<u8>, other: &[u8]) {
    let at = random.below(text.len() + 1);
    let is_digit = |text: &[u8]| text[0].is_ascii_digit();
    match random.below(16) {
        0 if at < text.len() => text[at] ^= 1 << random.below(8),
        1 if at < text.len() => text[at] = random.pick(b"()/,=%!-+.:~_h0129afAFz \x00\x7f\xc3"),
        2 => text.insert(at, random.pick(b"()/,=%!-+.:~_h0129afAFz ")),
        3 if at < text.len() => drop(text.remove(at)),
        4 => text.truncate(at),
        5 => {
            text.truncate(at);
            text.extend(&other[random.below(other.len() + 1)..]);
        }
        6 => drop(text.splice(at..at, random.pick(&WORDS).bytes())),
        // A letter's case: of hex digits, names of types, simple values
        7 => {
            if let Some(at) = find(random, text, |text| text[0].is_ascii_alphabetic()) {
                text[at] ^= 0x20;
            }
        }
        // A number's sign or leading zero, or another digit
        8 => {
            if let Some(at) = find(random, text, is_digit) {
                text.insert(at, random.pick(b"-+0"));
            }
        }
        9 => {
            if let Some(at) = find(random, text, is_digit) {
                text[at] = random.pick(b"0123456789");
            }
        }
        // The scheme
        10 => match text.strip_prefix(b"ari:") {
            Some(rest) if random.chance(50) => *text = rest.to_vec(),
            _ => drop(text.splice(0..0, *b"ari:")),
        },
        // An empty group
        11 => {
            if let Some(first) = find(random, text, |text| text[0] == b'(') {
                if let Some(length) = text[first..].iter().position(|byte| *byte == b')') {
                    text.drain(first + 1..first + length);
                }
            }
        }
        // An escaped byte: another, or left bare
        12 => {
            if let Some(at) = find(random, text, |text| text.starts_with(b"%")) {
                let instead = random.pick(&["%", "%4", "%41", "%2D", "%c3", "%C3", "%22", "%27"]);
                let after = text.len().min(at + 3);
                text.splice(at..after, instead.bytes());
            }
        }
        // Two members or pairs change places, or one comes twice
        13 | 14 => {
            if let Some(comma) = find(random, text, |text| text[0] == b',') {
                let is_sign = |byte: &u8| matches!(byte, b'(' | b')' | b',');
                let first = text[..comma].iter().rposition(is_sign).map_or(0, |k| k + 1);
                let rest = &text[comma + 1..];
                let after = comma + 1 + rest.iter().position(is_sign).unwrap_or(rest.len());
                let [one, two] = [first..comma, comma + 1..after].map(|r| text[r].to_vec());
                let instead = if random.chance(70) { [&two, &one] } else { [&one, &one] };
                text.splice(first..after, [&instead[0][..], b",", instead[1]].concat());
            }
        }
        _ => text.push(random.pick(b"()/,=%0 \n")),
    }
}
