//! RFC 8949's published examples, and a notation in which what different
//! decoders make of some bytes can be compared.
//!
//! The notation has the items in the order of their heads, each a letter and a
//! word: `u` and `n` with the argument, `b` and `t` with the bytes in hex (none
//! if empty), `a`, `m` and `g` (a tag) with the length or number, `s` with the
//! number of a simple value, `f` with a float's number as the bits of a double,
//! or `nan`. Chunks are joined, indefinite lengths counted.

use crate::vectors::to_hex;
use crate::{head, Kind, Record};

pub struct Example {
    /// The bytes, in hex.
    pub hex: &'static str,
    pub diagnostic: &'static str,
    /// Document 01's answer to it as a single ARI, written by hand.
    pub by_hand: &'static str,
}

/// Every example of RFC 8949, appendix A.
pub fn examples() -> Vec<Example> {
    include_str!("../../appendix_a.txt")
        .lines()
        .filter(|line| !line.starts_with('#'))
        .map(|line| {
            let parts: Vec<&str> = line.split(" | ").collect();
            let [hex, diagnostic, by_hand] = parts[..] else { panic!("three parts: {line}") };
            Example { hex, diagnostic, by_hand }
        })
        .collect()
}

/// Each head of `input` in turn at each larger width, as long as heads are in use.
pub fn widened(input: &[u8]) -> Vec<Vec<u8>> {
    let (mut found, mut at) = (Vec::new(), 0);
    while let Ok((kind, rest)) = head::read(&input[at..]) {
        let after = input.len() - rest.len();
        if let Some((major, argument)) = head::major(kind) {
            for width in [1, 2, 4, 8].into_iter().filter(|width| 1 + width > after - at) {
                let mut wide = input[..at].to_vec();
                head::put_wide_head(&mut wide, major, argument, width);
                found.push([&wide, rest].concat());
            }
        }
        at = match kind {
            Kind::Bytes(length) | Kind::Text(length) => after + length as usize,
            _ => after,
        };
    }
    found
}

fn float(value: f64) -> String {
    match value.is_nan() {
        true => "f nan".to_string(),
        false => format!("f {:016x}", value.to_bits()),
    }
}

/// RFC 8949, appendix D.
fn half(bits: u16) -> f64 {
    let (exponent, fraction) = (i32::from(bits >> 10 & 31), f64::from(bits & 0x3ff));
    let size = match exponent {
        0 => fraction * f64::powi(2.0, -24),
        31 if fraction == 0.0 => f64::INFINITY,
        31 => f64::NAN,
        _ => (fraction + 1024.0) * f64::powi(2.0, exponent - 25),
    };
    if bits >> 15 == 1 {
        -size
    } else {
        size
    }
}

fn string(letter: char, bytes: &[u8]) -> String {
    format!("{letter} {}", to_hex(bytes)).trim_end().to_string()
}

/// What the reading makes of an accepted input.
pub fn notation_of_records(input: &[u8], records: &[Record]) -> String {
    let items = records.iter().map(|record| {
        let last = |length: u64| &input[record.after - length as usize..record.after];
        match record.kind {
            Kind::Unsigned(n) => format!("u {n}"),
            Kind::Negative(n) => format!("n {n}"),
            Kind::Bytes(n) => string('b', last(n)),
            Kind::Text(n) => string('t', last(n)),
            Kind::Array(n) => format!("a {n}"),
            Kind::Map(n) => format!("m {n}"),
            Kind::False => "s 20".to_string(),
            Kind::True => "s 21".to_string(),
            Kind::Null => "s 22".to_string(),
            Kind::Undefined => "s 23".to_string(),
            Kind::Half(bits) => float(half(bits)),
            Kind::Single(bits) => float(f32::from_bits(bits).into()),
            Kind::Double(bits) => float(f64::from_bits(bits)),
        }
    });
    items.collect::<Vec<_>>().join(" ")
}

/// What the appendix says, from its diagnostic notation.
pub fn notation_of_diagnostic(text: &str) -> String {
    let mut rest = text;
    let notation = value(&mut rest);
    assert!(rest.is_empty(), "{text}: {rest} left over");
    notation
}

/// Takes `word` off the front, if it stands there.
fn take(rest: &mut &str, word: &str) -> bool {
    match rest.strip_prefix(word) {
        Some(after) => *rest = after,
        None => return false,
    }
    true
}

/// Takes values up to `end`, with `between` after every second one if given.
fn values(rest: &mut &str, between: &str, end: &str) -> Vec<String> {
    let mut values = Vec::new();
    while !take(rest, end) {
        values.push(value(rest));
        let odd = values.len() % 2 == 1;
        assert!(take(rest, if odd { between } else { ", " }) || rest.starts_with(end), "{rest}");
    }
    values
}

fn value(rest: &mut &str) -> String {
    for (word, notation) in [
        ("false", "s 20"),
        ("true", "s 21"),
        ("null", "s 22"),
        ("undefined", "s 23"),
        ("NaN", "f nan"),
        ("Infinity", "f 7ff0000000000000"),
        ("-Infinity", "f fff0000000000000"),
    ] {
        if take(rest, word) {
            return notation.to_string();
        }
    }
    if take(rest, "[_ ") || take(rest, "[") {
        let members = values(rest, ", ", "]");
        return [vec![format!("a {}", members.len())], members].concat().join(" ");
    }
    if take(rest, "{_ ") || take(rest, "{") {
        let members = values(rest, ": ", "}");
        return [vec![format!("m {}", members.len() / 2)], members].concat().join(" ");
    }
    if take(rest, "(_ ") {
        let chunks = values(rest, ", ", ")");
        return chunks[0][..2].to_string() + &chunks.iter().map(|c| &c[2..]).collect::<String>();
    }
    if take(rest, "h'") {
        let (digits, after) = rest.split_once('\'').unwrap();
        *rest = after;
        return format!("b {digits}").trim_end().to_string();
    }
    if take(rest, "\"") {
        return string('t', quoted(rest).as_bytes());
    }
    if take(rest, "simple(") {
        let (number, after) = rest.split_once(')').unwrap();
        *rest = after;
        return format!("s {number}");
    }
    let digits = rest.find(|c: char| !"0123456789+-.e".contains(c)).unwrap_or(rest.len());
    let (number, after) = rest.split_at(digits);
    *rest = after;
    if take(rest, "(") {
        let tagged = value(rest);
        assert!(take(rest, ")"));
        return format!("g {number} {tagged}");
    }
    if number.contains(['.', 'e']) {
        return float(number.parse().unwrap());
    }
    let number: i128 = number.parse().unwrap();
    let (major, tag, argument) = match number {
        0.. => ("u", 2, number),
        _ => ("n", 3, -1 - number),
    };
    match u64::try_from(argument) {
        Ok(argument) => format!("{major} {argument}"),
        // A big number is a tagged byte string.
        Err(_) => {
            let bytes = argument.to_be_bytes();
            let first = bytes.iter().position(|b| *b != 0).unwrap();
            format!("g {tag} {}", string('b', &bytes[first..]))
        }
    }
}

/// The characters up to the closing quote; \u stands for a UTF-16 unit.
fn quoted(rest: &mut &str) -> String {
    let mut units = Vec::new();
    loop {
        let character = rest.chars().next().unwrap();
        *rest = &rest[character.len_utf8()..];
        match character {
            '"' => return String::from_utf16(&units).unwrap(),
            '\\' if take(rest, "u") => {
                units.push(u16::from_str_radix(&rest[..4], 16).unwrap());
                *rest = &rest[4..];
            }
            '\\' => {
                units.push(u16::from(rest.as_bytes()[0]));
                *rest = &rest[1..];
            }
            _ => units.extend(character.encode_utf16(&mut [0; 2]).iter()),
        }
    }
}

#[cfg(test)]
mod tests {
    use super::*;
    use crate::vectors::hex;
    use crate::{check_single, items_single, shortened, Answer};

    #[test]
    fn answers_and_values() {
        let examples = examples();
        assert_eq!(examples.len(), 81);
        for example in examples {
            let input = hex(example.hex);
            assert_eq!(check_single(&input).to_string(), example.by_hand, "{}", example.hex);
            let diagnostic = notation_of_diagnostic(example.diagnostic);
            if let Ok(records) = items_single(&input) {
                assert_eq!(notation_of_records(&input, &records), diagnostic, "{}", example.hex);
            }
        }
    }

    /// A longer head is the same number or length; what is refused is refused by the same test.
    #[test]
    fn at_each_larger_width() {
        let (mut accepted, mut refused) = (0, 0);
        for example in examples() {
            let input = hex(example.hex);
            for wide in widened(&input) {
                match check_single(&wide) {
                    Answer::Accepted(_) => {
                        accepted += 1;
                        assert_eq!(check_single(&wide).to_string(), example.by_hand);
                        let records = items_single(&wide).unwrap();
                        let diagnostic = notation_of_diagnostic(example.diagnostic);
                        assert_eq!(notation_of_records(&wide, &records), diagnostic);
                        assert_eq!(shortened(&wide), input);
                    }
                    Answer::Refused { number, .. } => {
                        refused += 1;
                        let by_hand = example.by_hand.split(' ').nth(1).unwrap();
                        assert_eq!(number.to_string(), by_hand, "{}", to_hex(&wide));
                    }
                }
            }
        }
        assert!(accepted > 50 && refused > 100, "{accepted} {refused}");
    }
}
