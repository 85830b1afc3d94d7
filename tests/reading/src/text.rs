//! 'Text': a single ARI's text, and the ARI of a text.

use crate::head::{self, put_head};
use crate::{hand_over, walk_single, Kind, Limits, Refusal, Test, Visitor, Written, LIMITS};

/// The types that have a text form, with their names. Left out are the floats (8,
/// 9) and the sets (20, 21).
const NAMES: [(u64, &str); 15] = [
    (0, "NULL"),
    (1, "BOOL"),
    (2, "BYTE"),
    (4, "INT"),
    (5, "UINT"),
    (6, "VAST"),
    (7, "UVAST"),
    (10, "TEXTSTR"),
    (11, "BYTESTR"),
    (12, "TP"),
    (13, "TD"),
    (14, "LABEL"),
    (15, "CBOR"),
    (17, "AC"),
    (18, "AM"),
];
const LABEL: u64 = 14;
const AC: u64 = 17;
const AM: u64 = 18;

/// "letters, digits and - . _ ~ stand bare"
fn is_bare(byte: u8) -> bool {
    byte.is_ascii_alphanumeric() || matches!(byte, b'-' | b'.' | b'_' | b'~')
}

/// Tells the first float's head.
#[derive(Default)]
struct FirstFloat(Option<usize>);

impl Visitor for FirstFloat {
    type Mark = ();

    #[inline]
    fn leaf(&mut self, first: usize, _: usize, _: usize, kind: Kind) {
        if matches!(kind, Kind::Half(_) | Kind::Single(_) | Kind::Double(_)) {
            self.0.get_or_insert(first);
        }
    }

    #[inline]
    fn open(&mut self, _: usize, _: usize, _: Kind, _: bool) {}

    #[inline]
    fn close(&mut self, _: (), _: usize) {}
}

/// The text of a single ARI and its item count: tests 1 to 14.
pub fn text_of(ari: &[u8], limits: &Limits) -> Result<(String, usize), Refusal> {
    let mut float = FirstFloat::default();
    let items = walk_single(ari, limits, &mut float)?;
    // "outermost type 20 or 21, place 0; otherwise a float, place is the first
    // float's head"
    let outer = outermost(ari);
    let place = match outer {
        (Kind::Array(2), Some(Kind::Unsigned(20 | 21))) => Some(0),
        _ => float.0,
    };
    if let Some(place) = place {
        return Err(Refusal { test: Test::NoText, place });
    }
    let mut writer = Writer { rest: ari, out: String::new() };
    // "Outermost `ari:`, except before a relative reference."
    if !matches!(outer, (Kind::Array(3 | 4), Some(Kind::Null))) {
        writer.out += "ari:";
    }
    writer.ari();
    Ok((writer.out, items))
}

/// The first head of an accepted ARI, and the one behind it.
fn outermost(ari: &[u8]) -> (Kind, Option<Kind>) {
    let (kind, rest) = head::read(ari).expect("accepted");
    (kind, head::read(rest).ok().map(|(kind, _)| kind))
}

pub fn write_text(ari: &[u8], room: &mut [u8]) -> Result<Written, Refusal> {
    let (text, items) = text_of(ari, &LIMITS)?;
    hand_over(text.as_bytes(), Written { items, size: text.len() }, room)
}

/// The map key whose head is at a place of an accepted input, as it stands in a text.
pub fn key_text(input: &[u8], place: usize) -> String {
    let mut writer = Writer { rest: &input[place..], out: String::new() };
    let key = writer.head();
    writer.literal(key);
    writer.out
}

/// Writes the text of an ARI that has been accepted and has one.
struct Writer<'a> {
    /// The bytes not written yet.
    rest: &'a [u8],
    out: String,
}

impl<'a> Writer<'a> {
    fn head(&mut self) -> Kind {
        let (kind, rest) = head::read(self.rest).expect("accepted");
        self.rest = rest;
        kind
    }

    fn string(&mut self, length: u64) -> &'a [u8] {
        let (string, rest) = self.rest.split_at(length as usize);
        self.rest = rest;
        string
    }

    fn ari(&mut self) {
        match self.head() {
            Kind::Array(1) => self.namespace(),
            Kind::Array(2) => self.typed(),
            Kind::Array(length) => {
                self.namespace();
                self.name();
                self.out.push('/');
                self.name();
                if length == 4 {
                    self.group();
                }
            }
            literal => self.literal(literal),
        }
    }

    /// "`//ns/type/id`, relative `./type/id`, [...] namespace `//ns/`", up to the
    /// slash after ns.
    fn namespace(&mut self) {
        if self.rest[0] == 0xf6 {
            self.head();
            self.out += "./";
        } else {
            self.out += "//";
            self.name();
            self.out.push('/');
        }
    }

    /// A number, or a name: "LABEL and names bare".
    fn name(&mut self) {
        match self.head() {
            Kind::Text(length) => {
                let name = self.string(length);
                self.out.extend(name.iter().map(|byte| char::from(*byte)));
            }
            number => self.literal(number),
        }
    }

    /// "Typed: `/NAME/value`."
    fn typed(&mut self) {
        let Kind::Unsigned(number) = self.head() else { unreachable!("accepted") };
        let (_, name) = NAMES.iter().find(|named| named.0 == number).expect("has a text");
        self.out.push('/');
        self.out += name;
        self.out.push('/');
        match number {
            LABEL => self.name(),
            AC | AM => self.group(),
            _ => {
                let value = self.head();
                self.literal(value);
            }
        }
    }

    /// "parameters in parentheses", "AC `(a,b)`, AM `(k=v,k=v)`"
    fn group(&mut self) {
        let (count, is_map) = match self.head() {
            Kind::Array(count) => (count, false),
            Kind::Map(count) => (count, true),
            _ => unreachable!("accepted"),
        };
        self.out.push('(');
        for k in 0..count {
            if k > 0 {
                self.out.push(',');
            }
            if is_map {
                let key = self.head();
                self.literal(key);
                self.out.push('=');
            }
            self.ari();
        }
        self.out.push(')');
    }

    fn literal(&mut self, kind: Kind) {
        match kind {
            Kind::Unsigned(n) => self.out += &n.to_string(),
            Kind::Negative(n) => self.out += &(-1 - n as i64).to_string(),
            Kind::False => self.out += "false",
            Kind::True => self.out += "true",
            Kind::Null => self.out += "null",
            Kind::Undefined => self.out += "undefined",
            // "%22, the bytes, %22; [...] every other byte as % and two upper-case
            // hex digits"
            Kind::Text(length) => {
                self.out += "%22";
                for &byte in self.string(length) {
                    match is_bare(byte) {
                        true => self.out.push(byte.into()),
                        false => {
                            self.out.push('%');
                            self.hex(byte, b"0123456789ABCDEF");
                        }
                    }
                }
                self.out += "%22";
            }
            // "h%27, lower-case hex, %27"
            Kind::Bytes(length) => {
                self.out += "h%27";
                for &byte in self.string(length) {
                    self.hex(byte, b"0123456789abcdef");
                }
                self.out += "%27";
            }
            _ => unreachable!("has a text"),
        }
    }

    fn hex(&mut self, byte: u8, digits: &[u8; 16]) {
        self.out.push(digits[usize::from(byte >> 4)].into());
        self.out.push(digits[usize::from(byte & 15)].into());
    }
}

/// The ARI of a text and its item count: "15: text that isn't the text of an accepted
/// ARI". The parser takes no spelling but the writer's; ranges, key order, the spelling
/// of names, where LABEL may stand and the limits are left to the check.
pub fn ari_of(text: &[u8], limits: &Limits) -> Result<(Vec<u8>, usize), Refusal> {
    if text.len() > limits.text {
        return Err(Refusal { test: Test::TooLong, place: 0 });
    }
    let not_text = Refusal { test: Test::NotText, place: 0 };
    let ari = parse(text).ok_or(not_text)?;
    match walk_single(&ari, limits, &mut ()) {
        Ok(items) => Ok((ari, items)),
        Err(_) => Err(not_text),
    }
}

pub fn read_text(text: &[u8], room: &mut [u8]) -> Result<Written, Refusal> {
    let (ari, items) = ari_of(text, &LIMITS)?;
    hand_over(&ari, Written { items, size: ari.len() }, room)
}

/// The binary form that a text would have, if it is spelled as one.
fn parse(text: &[u8]) -> Option<Vec<u8>> {
    let is_relative = |text: &[u8]| text.starts_with(b"./");
    let rest = match is_relative(text) {
        true => text,
        false => text.strip_prefix(b"ari:").filter(|rest| !is_relative(rest))?,
    };
    let mut parser = Parser { rest, open: 0 };
    let mut out = Vec::new();
    parser.ari(&mut out)?;
    parser.rest.is_empty().then_some(out)
}

struct Parser<'a> {
    rest: &'a [u8],
    /// Groups open.
    open: usize,
}

impl<'a> Parser<'a> {
    fn take(&mut self, sign: &[u8]) -> Option<()> {
        self.rest = self.rest.strip_prefix(sign)?;
        Some(())
    }

    /// What stands before the next sign, or the end: a number, a name or a string.
    fn word(&mut self) -> &'a [u8] {
        let is_sign = |byte: &u8| b"()/,=".contains(byte);
        let length = self.rest.iter().position(is_sign).unwrap_or(self.rest.len());
        let (word, rest) = self.rest.split_at(length);
        self.rest = rest;
        word
    }

    fn ari(&mut self, out: &mut Vec<u8>) -> Option<()> {
        match self.rest {
            [b'.', b'/', ..] | [b'/', b'/', ..] => self.reference(out),
            [b'/', ..] => self.typed(out),
            _ => literal(self.word(), out),
        }
    }

    fn reference(&mut self, out: &mut Vec<u8>) -> Option<()> {
        let mut members = Vec::new();
        let relative = self.take(b"./").is_some();
        if relative {
            members.push(0xf6);
        } else {
            self.take(b"//")?;
            name(self.word(), &mut members)?;
            self.take(b"/")?;
        }
        let length = if !relative && matches!(self.rest, [] | [b',' | b')', ..]) {
            1
        } else {
            name(self.word(), &mut members)?;
            self.take(b"/")?;
            name(self.word(), &mut members)?;
            if self.rest.starts_with(b"(") {
                self.group(&mut members, None)?;
                4
            } else {
                3
            }
        };
        put_head(out, 4, length);
        out.extend(members);
        Some(())
    }

    fn typed(&mut self, out: &mut Vec<u8>) -> Option<()> {
        self.take(b"/")?;
        let word = self.word();
        let (number, _) = *NAMES.iter().find(|named| named.1.as_bytes() == word)?;
        self.take(b"/")?;
        put_head(out, 4, 2);
        put_head(out, 0, number);
        match number {
            LABEL => bare(self.word(), out),
            AC => self.group(out, Some(false))?,
            AM => self.group(out, Some(true))?,
            _ => literal(self.word(), out)?,
        }
        Some(())
    }

    /// A group as an array or a map; where both may stand (`is_map` is none) the
    /// sign after its first word tells.
    fn group(&mut self, out: &mut Vec<u8>, is_map: Option<bool>) -> Option<()> {
        // Each group is a container, so what nests deeper is never accepted; to
        // leave here bounds the recursion.
        if self.open == LIMITS.containers {
            return None;
        }
        self.open += 1;
        self.take(b"(")?;
        let is_map = is_map.unwrap_or_else(|| {
            let mut ahead = Parser { ..*self };
            ahead.word();
            ahead.rest.starts_with(b"=")
        });
        let mut members = Vec::new();
        let mut count = 0;
        if self.take(b")").is_none() {
            loop {
                if is_map {
                    literal(self.word(), &mut members)?;
                    self.take(b"=")?;
                }
                self.ari(&mut members)?;
                count += 1;
                if self.take(b",").is_none() {
                    break;
                }
            }
            self.take(b")")?;
        }
        self.open -= 1;
        put_head(out, if is_map { 5 } else { 4 }, count);
        out.extend(members);
        Some(())
    }
}

/// A number or a name; a name starts neither with a digit nor with a hyphen.
fn name(word: &[u8], out: &mut Vec<u8>) -> Option<()> {
    match word {
        [b'0'..=b'9' | b'-', ..] => integer(word, out)?,
        _ => bare(word, out),
    }
    Some(())
}

fn bare(word: &[u8], out: &mut Vec<u8>) {
    put_head(out, 3, word.len() as u64);
    out.extend(word);
}

/// "Integers in plain decimal: no leading zero, plus sign or -0."
fn integer(word: &[u8], out: &mut Vec<u8>) -> Option<()> {
    let negative = word.starts_with(b"-");
    let digits = &word[usize::from(negative)..];
    let plain = match digits {
        [b'0'] => !negative,
        [b'1'..=b'9', rest @ ..] => rest.iter().all(u8::is_ascii_digit),
        _ => false,
    };
    if !plain {
        return None;
    }
    let number: u64 = std::str::from_utf8(digits).ok()?.parse().ok()?;
    match negative {
        true => put_head(out, 1, number - 1),
        false => put_head(out, 0, number),
    }
    Some(())
}

fn literal(word: &[u8], out: &mut Vec<u8>) -> Option<()> {
    match word {
        b"false" => out.push(0xf4),
        b"true" => out.push(0xf5),
        b"null" => out.push(0xf6),
        b"undefined" => out.push(0xf7),
        [b'%', ..] => {
            let string = unescaped(word.strip_prefix(b"%22")?.strip_suffix(b"%22")?)?;
            put_head(out, 3, string.len() as u64);
            out.extend(string);
        }
        [b'h', ..] => {
            let digits = word.strip_prefix(b"h%27")?.strip_suffix(b"%27")?;
            if digits.len() % 2 != 0 {
                return None;
            }
            put_head(out, 2, digits.len() as u64 / 2);
            for pair in digits.chunks_exact(2) {
                out.push(hex_byte(pair, b"0123456789abcdef")?);
            }
        }
        _ => integer(word, out)?,
    }
    Some(())
}

/// The bytes of a text string: those that may stand bare must.
fn unescaped(mut text: &[u8]) -> Option<Vec<u8>> {
    let mut bytes = Vec::new();
    while let [first, rest @ ..] = text {
        if is_bare(*first) {
            bytes.push(*first);
            text = rest;
        } else {
            let escaped = text.strip_prefix(b"%")?;
            let byte = hex_byte(escaped.get(..2)?, b"0123456789ABCDEF")?;
            if is_bare(byte) {
                return None;
            }
            bytes.push(byte);
            text = &escaped[2..];
        }
    }
    Some(bytes)
}

fn hex_byte(pair: &[u8], digits: &[u8; 16]) -> Option<u8> {
    let value = |sign: u8| digits.iter().position(|digit| *digit == sign);
    Some((value(pair[0])? << 4 | value(pair[1])?) as u8)
}
