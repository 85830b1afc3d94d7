//! The fixed inputs. Beside nearly every one stands the answer that document
//! 01 gives, written by hand; a test compares these with the reading. The
//! answers in the file of fixed answers come from the reading alone.

use crate::appendix::{examples, widened};
use crate::generate::{put_head, put_wide_head};
use crate::{
    check_message, check_single, items_message, items_single, read_text, text_of, Answer, LIMITS,
};

pub mod texts;

#[derive(Clone, Copy, Debug, PartialEq, Eq)]
pub enum Call {
    Single,
    Message,
    ItemsSingle,
    ItemsMessage,
    /// The text of an ARI.
    Write,
    /// The ARI of a text.
    Read,
}

impl Call {
    pub fn word(self) -> &'static str {
        match self {
            Call::Single => "single",
            Call::Message => "message",
            Call::ItemsSingle => "items-single",
            Call::ItemsMessage => "items-message",
            Call::Write => "write",
            Call::Read => "read",
        }
    }

    /// The reading's answer, as one or more lines.
    pub fn answer(self, input: &[u8]) -> String {
        let records = match self {
            Call::Single => return check_single(input).to_string(),
            Call::Message => return check_message(input).to_string(),
            Call::ItemsSingle => items_single(input),
            Call::ItemsMessage => items_message(input),
            Call::Write => {
                return match text_of(input, &LIMITS) {
                    Ok((text, items)) => format!("text {items} {text}"),
                    Err(refusal) => refusal.to_string(),
                }
            }
            Call::Read => {
                let mut room = [0; LIMITS.bytes];
                return match read_text(input, &mut room) {
                    Ok(written) => {
                        format!("bytes {} {}", written.items, to_hex(&room[..written.size]))
                    }
                    Err(refusal) => refusal.to_string(),
                };
            }
        };
        match records {
            Err(refusal) => Answer::from(Err(refusal)).to_string(),
            Ok(records) => {
                let mut lines = String::new();
                for (k, record) in records.iter().enumerate() {
                    lines += &format!("{k} {record}\n");
                }
                lines + &Answer::Accepted(records.len()).to_string()
            }
        }
    }
}

pub enum Line {
    Group(&'static str),
    Input { call: Call, input: Vec<u8>, by_hand: Option<String> },
}

pub fn to_hex(bytes: &[u8]) -> String {
    bytes.iter().map(|b| format!("{b:02x}")).collect()
}

/// Bytes for the eye: sixteen a line, with the place of the first and what is ASCII.
pub fn dump(bytes: &[u8]) -> String {
    let line = |(k, line): (usize, &[u8])| {
        let hex: String = line.iter().map(|b| format!(" {b:02x}")).collect();
        let shown = |b: &u8| if (b' '..=b'~').contains(b) { *b as char } else { '.' };
        let text: String = line.iter().map(shown).collect();
        format!("\n    {:06}{hex:<48}  {text}", 16 * k)
    };
    bytes.chunks(16).enumerate().map(line).collect()
}

/// Reads hex digits; spaces are for the eye.
pub fn hex(digits: &str) -> Vec<u8> {
    let digits: Vec<u8> = digits.bytes().filter(|b| *b != b' ').collect();
    assert!(digits.len() % 2 == 0, "half a byte");
    digits
        .chunks(2)
        .map(|pair| u8::from_str_radix(std::str::from_utf8(pair).unwrap(), 16).unwrap())
        .collect()
}

/// Writes the two files: inputs, and the reading's answers to them.
pub fn files() -> (String, String) {
    let (mut inputs, mut answers) = (String::new(), String::new());
    for line in lines() {
        match line {
            Line::Group(name) => inputs += &format!("# {name}\n"),
            Line::Input { call, input, .. } => {
                inputs += format!("{} {}", call.word(), to_hex(&input)).trim_end();
                inputs.push('\n');
                answers += &call.answer(&input);
                answers.push('\n');
            }
        }
    }
    (inputs, answers)
}

struct Fixed(Vec<Line>);

impl Fixed {
    fn group(&mut self, name: &'static str) {
        self.0.push(Line::Group(name));
    }

    /// Adds an input; one that is there already only gains its answer by hand.
    fn put(&mut self, call: Call, input: Vec<u8>, by_hand: &str) {
        let by_hand = (!by_hand.is_empty()).then(|| by_hand.to_string());
        for line in &mut self.0 {
            match line {
                Line::Input { call: c, input: i, by_hand: known } if *c == call && *i == input => {
                    assert!(known.is_none() || by_hand.is_none() || *known == by_hand);
                    *known = known.take().or(by_hand);
                    return;
                }
                _ => (),
            }
        }
        self.0.push(Line::Input { call, input, by_hand });
    }

    /// A single ARI and the answer by hand, which may be left empty.
    fn single(&mut self, digits: &str, by_hand: &str) {
        self.put(Call::Single, hex(digits), by_hand);
    }

    fn message(&mut self, digits: &str, by_hand: &str) {
        self.put(Call::Message, hex(digits), by_hand);
    }

    fn items_single(&mut self, digits: &str, by_hand: &str) {
        self.put(Call::ItemsSingle, hex(digits), by_hand);
    }

    fn items_message(&mut self, digits: &str, by_hand: &str) {
        self.put(Call::ItemsMessage, hex(digits), by_hand);
    }
}

/// A text string as hex.
fn text(string: &str) -> String {
    let mut out = Vec::new();
    put_head(&mut out, 3, string.len() as u64);
    out.extend(string.as_bytes());
    to_hex(&out)
}

fn head(major: u8, argument: u64) -> String {
    let mut out = Vec::new();
    put_head(&mut out, major, argument);
    to_hex(&out)
}

fn wide_head(major: u8, argument: u64, width: usize) -> String {
    let mut out = Vec::new();
    put_wide_head(&mut out, major, argument, width);
    to_hex(&out)
}

/// One of each kind, as short as it gets; names are well spelled.
const KINDS: [&str; 11] =
    ["00", "20", "4101", "6161", "80", "a0", "f4", "f5", "f6", "f7", "f93c00"];

const VAST: [&str; 2] = ["1b7fffffffffffffff", "3b7fffffffffffffff"];
const NOT_VAST: [&str; 2] = ["1b8000000000000000", "3b8000000000000000"];

pub fn lines() -> Vec<Line> {
    let mut f = Fixed(Vec::new());
    documents(&mut f);
    not_well_formed(&mut f);
    length(&mut f);
    cut(&mut f);
    not_in_use(&mut f);
    longer_heads(&mut f);
    full_widths(&mut f);
    examples_widened(&mut f);
    floats(&mut f);
    item_limit(&mut f);
    depth_limit(&mut f);
    kinds(&mut f);
    ranges(&mut f);
    types(&mut f);
    array_lengths(&mut f);
    versions(&mut f);
    short_strings(&mut f);
    utf8(&mut f);
    names(&mut f);
    keys(&mut f);
    parameters(&mut f);
    after(&mut f);
    huge_lengths(&mut f);
    records(&mut f);
    targets(&mut f);
    records_of_accepted(&mut f);
    fixed_texts(&mut f);
    texts_of_accepted(&mut f);
    f.0
}

const C: &str = "01 82 14 82 f6 84 1a00010000 22 00 81 83 33 2a 05";
const ORDER: &str = "01 82 14 83 1904d2 83 1a00010000 22 12 83 1a00010000 21 182b";

fn documents(f: &mut Fixed) {
    f.group("document 01, 'Examples on each side'");
    f.single("f7", "accepted 1");
    f.single("3b7fffffffffffffff", "accepted 1");
    f.single("3b8000000000000000", "refused 7 0");
    f.single("82 02 18ff", "accepted 3");
    f.single("82 02 190100", "refused 7 2");
    f.single("82 0e 6161", "refused 7 1");
    f.single("fa3fc00000", "refused 4 0");
    f.single("84 00 20 00 80", "refused 12 4");
    f.single("82 12 a2 02 00 01 00", "refused 11 5");
    f.message("", "refused 2 0");
    f.message("01", "accepted 1");
    f.message("02", "refused 8 0");
    f.message(C, "accepted 14");
    f.message(ORDER, "accepted 13");
    f.single("82 05 0a", "accepted 3");
    f.single("83 f6 21 181e", "accepted 4");
    f.single("84 1a00010000 22 00 81 83 33 2a 05", "accepted 9");

    f.group("document 002, sections 4.2 and 5.2: literals");
    for untyped in ["f5", "6474657874", "0a", "f6", "f4", "2f", "456279746573"] {
        f.single(untyped, "accepted 1");
    }
    for untyped in ["fb3ff199999999999a", "fa49864700", "f94900"] {
        f.single(untyped, "accepted 1");
    }
    f.single(&text("hi\u{1234}"), "accepted 1");
    f.single(&text("hi\u{1d11e}"), "accepted 1");
    f.single("82 04 0a", "accepted 3");
    f.single("82 0f 410a", "accepted 3");
    f.single("82 01 f5", "accepted 3");
    f.single("82 06 0a", "accepted 3");
    f.single(&format!("82 0e {}", text("name")), "refused 7 1");
    f.single(&format!("82 0c {}", head(0, 725_943_845)), "accepted 3");
    f.single("82 0d 190e10", "accepted 3");
    f.single("82 11 83 01 02 03", "accepted 6");
    f.single("82 12 a3 01 02 02 04 03 09", "accepted 9");
    f.single("82 13 87 03 01 f5 6141 02 f4 6142", "refused 7 1");
    f.single("82 10 04", "refused 7 1");
    f.single("82 0c 82 20 05", "refused 7 2");
    f.single("84 00 20 00 81 82 0e 05", "refused 7 7");
    let (adm, do_thing, a_macro) = (text("example-adm-a"), text("dothing"), text("amacro"));
    let control = format!("83 {adm} {} {do_thing}", text("CTRL"));
    let constant = format!("83 {adm} {} {a_macro}", text("CONST"));
    let execution_set = format!("82 14 83 1904d2 {control} {constant}");
    f.single(&execution_set, "accepted 12");
    f.message(&format!("01 {execution_set}"), "accepted 13");
    let time = head(0, 725_943_845);
    let reporting_set = format!("82 15 84 1904d2 {time} 83 00 {control} f6 83 05 {constant} f6");
    f.single(&reporting_set, "accepted 19");
    f.message(&format!("01 {reporting_set}"), "accepted 20");

    f.group("document 002, sections 5.3 to 5.5: references");
    f.single("83 1829 20 00", "accepted 4");
    f.single(&format!("84 1829 21 03 82 {} 82 04 0a", text("a param")), "accepted 9");
    f.single(&format!("83 {} f6 f6", text("example-adm-a@2024-06-25")), "refused 10 1");
    f.single(&format!("83 {adm} f6 f6"), "refused 7 15");
    f.single("83 1a00010000 f6 f6", "refused 7 6");
    f.single("83 33 f6 f6", "refused 7 2");
    f.single(&format!("81 {adm}"), "accepted 2");
    f.single("81 1a00010000", "accepted 2");
    f.single(&format!("81 {}", text("!example-odm-b")), "accepted 2");
    f.single("81 33", "accepted 2");
    f.single(&format!("83 f6 {} {}", text("CTRL"), text("do_thing")), "accepted 4");
    let counter = format!("83 {} {} {}", text("!example-odm-b"), text("VAR"), text("counter"));
    f.single(&counter, "accepted 4");

    f.group("document 002, appendix A");
    f.single("820504", "accepted 3");
    f.single("820c1a000f4240", "accepted 3");
    f.single("841a000100002b018114", "accepted 6");
    f.single("820f4ba164746573748203f94480", "accepted 3");
    f.single("831a000100002303", "accepted 4");
    f.single("841a00010000220282821182831a00010000230383292a0103", "accepted 17");
    f.single("841a000100002601816474657874", "accepted 6");

    f.group("document 004, appendix A; the report as printed lacks the inner array");
    let reports =
        format!("1904d2 {time} 83 00 83 1a00010000 22 12 f6 83 05 83 1a00010000 22 06 190237");
    f.message(&format!("01 85 15 {reports}"), "refused 7 1");
    f.message(&format!("01 82 15 84 {reports}"), "accepted 20");
    f.message(&format!("{ORDER} 82 15 84 {reports}"), "accepted 32");
}

fn not_well_formed(f: &mut Fixed) {
    f.group("RFC 8949, appendix F: not well-formed");
    let examples: [(&str, &[&str]); 8] = [
        (
            "refused 2 0",
            &[
                "18", "19", "1a", "1b", "1901", "1a0102", "1b01020304050607", "38", "58", "78",
                "98", "9a01ff00", "b8", "d8", "f8", "f900", "fa0000", "fb000000",
            ],
        ),
        (
            "refused 9 0",
            &[
                "41",
                "61",
                "5affffffff00",
                "5bffffffffffffffff010203",
                "7affffffff00",
                "7b7fffffffffffffff010203",
            ],
        ),
        ("refused 2 1", &["81"]),
        ("refused 2 2", &["8200"]),
        (
            "refused 7 0",
            &["a1", "a20102", "a100", "a2000000", "a1ff", "a1ff00", "a100ff", "a20000ff"],
        ),
        (
            "refused 3 0",
            &[
                "c0", "5f4100", "7f6100", "9f", "9f0102", "bf", "bf01020102", "9f8000",
                "9f9f9f9f9fffffffff", "9f819f819f9fffffff", "1c", "1d", "1e", "3c", "3d", "3e",
                "5c", "5d", "5e", "7c", "7d", "7e", "9c", "9d", "9e", "bc", "bd", "be", "dc", "dd",
                "de", "fc", "fd", "fe", "f800", "f801", "f818", "f81f", "5f00ff", "5f21ff",
                "5f6100ff", "5f80ff", "5fa0ff", "5fc000ff", "5fe0ff", "7f4100ff", "5f5f4100ffff",
                "7f7f6100ffff", "ff", "9f81ff", "9f829f819f9fffffffff", "bf00ff", "bf000000ff",
                "1f", "3f", "df",
            ],
        ),
        ("refused 3 1", &["819f", "81ff"]),
        ("refused 3 2", &["8200ff"]),
    ];
    for (by_hand, inputs) in examples {
        inputs.iter().for_each(|input| f.single(input, by_hand));
    }
    f.single("818181818181818181", "refused 7 1");
}

/// A single byte string that makes an input of `bytes` bytes.
fn byte_string(bytes: usize) -> String {
    head(2, bytes as u64 - 3) + &"5a".repeat(bytes - 3)
}

fn length(f: &mut Fixed) {
    f.group("test 1: 16,384 bytes and one more");
    f.single(&byte_string(16_384), "accepted 1");
    f.single(&byte_string(16_385), "refused 1 0");
    let nonce = |bytes: usize| format!("01 82 14 81 {}", byte_string(bytes - 4));
    f.message(&nonce(16_384), "accepted 5");
    f.message(&nonce(16_385), "refused 1 0");
    let ascii = |bytes: usize| head(3, bytes as u64 - 3) + &"61".repeat(bytes - 3);
    f.single(&ascii(16_384), "accepted 1");
    f.message(&"ff".repeat(16_385), "refused 1 0");
    f.message(&"ff".repeat(16_384), "refused 3 0");
}

fn cut(f: &mut Fixed) {
    f.group("test 2: the input ends where a head is due");
    f.single("", "refused 2 0");
    for due in [
        "81", "82", "8202", "83", "8300", "830020", "84002000", "8400200081", "840020008200",
        "8211", "821181", "82118200", "8212", "8212a1", "8212a100", "8212a2000001",
    ] {
        f.single(due, &format!("refused 2 {}", hex(due).len()));
    }
    for due in ["8214", "821481", "821482f6", "8215", "821582", "821582f6", "821583f600"] {
        f.single(due, &format!("refused 2 {}", hex(due).len()));
        f.message(&format!("01{due}"), &format!("refused 2 {}", 1 + hex(due).len()));
    }
    for due in ["821583f60082", "821583f6008200", "821583f600830083f62000"] {
        f.message(&format!("01{due}"), &format!("refused 2 {}", 1 + hex(due).len()));
    }
    f.message("01 82", "refused 2 2");

    f.group("test 2: inside an argument, in each major type and width");
    for major in 0..8u8 {
        for (info, width) in [(24, 1), (25, 2), (26, 4), (27, 8)] {
            let initial = format!("{:02x}", major << 5 | info);
            for left in [0, width - 1] {
                if left == 0 && width == 1 || left > 0 {
                    f.single(&format!("{initial}{}", "01".repeat(left)), "refused 2 0");
                }
            }
        }
    }
    f.single("82 02 18", "refused 2 2");
    f.single("82 09 fb 00000000000000", "refused 2 2");
    f.single("83 f6 39 01", "refused 2 2");
    f.message("18", "refused 2 0");
    f.message("01 98", "refused 2 1");
    f.message("01 d8", "refused 2 1");
    f.message("01 82 14 81 f8", "refused 2 4");
}

fn not_in_use(f: &mut Fixed) {
    f.group("test 3: infos 28 to 31 in each major type");
    for major in 0..8u8 {
        for info in 28..32 {
            f.single(&format!("{:02x}", major << 5 | info), "refused 3 0");
        }
    }
    f.single("9f ff", "refused 3 0");
    f.single("5f 41 00 ff", "refused 3 0");
    f.single("82 11 9f 00 ff", "refused 3 2");
    f.single("81 1c", "refused 3 1");
    f.single("82 0f ff", "refused 3 2");
    f.message("1f", "refused 3 0");
    f.message("01 ff", "refused 3 1");
    f.message("01 82 14 9f f6 ff", "refused 3 3");
    f.group("test 3: tags");
    for tag in ["c0", "c1 00", "d7 40", "d8 18 40", "d9 0100 00", "da 00010000 00"] {
        f.single(tag, "refused 3 0");
    }
    f.single("db 0000000100000000 00", "refused 3 0");
    f.single("d8 00 00", "refused 3 0");
    f.single("82 0c c1 00", "refused 3 2");
    f.message("c1 01", "refused 3 0");
    f.message("01 d9 d9f7 82 14 81 f6", "refused 3 1");
    f.group("test 3: other simple values");
    for simple in ["e0", "f0", "f3", "f8 00", "f8 14", "f8 17", "f8 18", "f8 1f", "f8 20", "f8 ff"]
    {
        f.single(simple, "refused 3 0");
    }
    f.single("82 01 e1", "refused 3 2");
    f.single("82 00 f8 16", "refused 3 2");
    f.message("01 82 14 81 f3", "refused 3 4");
}

fn longer_heads(f: &mut Fixed) {
    f.group("longer heads: each width at its least value, one below, and at 0");
    for (width, least) in [(1, 24), (2, 1 << 8), (4, 1 << 16), (8, 1u64 << 32)] {
        for below in [0, least - 1] {
            let wide = |major| wide_head(major, below, width);
            for major in [0, 1] {
                f.single(&wide(major), "accepted 1");
            }
            for major in [2, 3] {
                f.single(&wide(major), if below == 0 { "accepted 1" } else { "refused 9 0" });
            }
            for major in [4, 5] {
                f.single(&wide(major), "refused 7 0");
            }
            f.single(&format!("82 06 {}", wide(0)), "accepted 3");
            f.single(&format!("81 {}", wide(1)), "accepted 2");
            let cut = format!("refused 2 {}", 5 + width);
            let parameters = if below == 0 { "refused 12 4" } else { &cut };
            f.single(&format!("84 00 20 00 {}", wide(4)), parameters);
        }
        f.single(&wide_head(0, least, width), "accepted 1");
        f.single(&wide_head(1, least, width), "accepted 1");
        let length = least as usize;
        if width <= 2 {
            for major in [2, 3] {
                let string = wide_head(major, least, width) + &"61".repeat(length);
                f.single(&string, "accepted 1");
            }
            let list = format!("82 11 {} {}", wide_head(4, least, width), "f6".repeat(length));
            f.single(&list, &format!("accepted {}", 3 + length));
            let pairs: String = (0..least).map(|key| head(0, key) + "00").collect();
            let map = format!("82 12 {} {pairs}", wide_head(5, least, width));
            f.single(&map, &format!("accepted {}", 3 + 2 * length));
        } else {
            for major in [2, 3] {
                f.single(&wide_head(major, least, width), "refused 9 0");
            }
            for (number, major) in [("11", 4), ("12", 5)] {
                let open = format!("82 {number} {}", wide_head(major, least, width));
                f.single(&open, &format!("refused 2 {}", 3 + width));
            }
        }
    }
    for (short, wide) in [("17", "1817"), ("18ff", "1900ff"), ("19ffff", "1a0000ffff")] {
        f.single(&format!("82 05 {short}"), "accepted 3");
        f.single(&format!("82 05 {wide}"), "accepted 3");
    }
    f.group("longer heads: in each place of a message");
    for (width, version) in
        [(1, "1801"), (2, "190001"), (4, "1a00000001"), (8, "1b0000000000000001")]
    {
        f.message(version, "accepted 1");
        f.message(&wide_head(0, 0, width), "refused 8 0");
        f.message(&wide_head(1, 1, width), "refused 7 0");
        let w = |major, argument| wide_head(major, argument, width);
        let reference = [w(4, 3), w(0, 5), w(1, 2), w(0, 7)].concat();
        let set =
            [w(4, 2), w(0, 20), w(4, 2), w(2, 1), "00".to_string(), reference.clone()].concat();
        f.message(&format!("{version} {set}"), "accepted 9");
        let report =
            [w(4, 2), w(0, 21), w(4, 3), w(0, 9), w(1, 9), w(4, 3), w(1, 4), reference, w(3, 0)];
        f.message(&format!("{version} {}", report.concat()), "accepted 13");
        f.single(&report.concat(), "accepted 12");
        f.single(&[w(4, 1), w(3, 2), "2161".to_string()].concat(), "accepted 2");
        f.single(
            &[w(4, 1), w(3, 2), "2131".to_string()].concat(),
            &format!("refused 10 {}", 1 + width),
        );
        f.single(&[w(4, 2), w(0, 2), w(0, 255)].concat(), "accepted 3");
    }
    f.message("01 98 02", "refused 2 3");
    f.message("01 82 18 14 81 f6", "accepted 5");
    f.message("01 82 18 13 81 f6", "refused 7 2");
    f.single("82 02 1a00000100", "refused 7 2");
    f.group("longer heads of tags, simple values and floats");
    f.single("d800 00", "refused 3 0");
    f.single("f814", "refused 3 0");
    f.single("f816", "refused 3 0");
    f.single("fa47c35000", "accepted 1");
    f.single("fb40f86a0000000000", "refused 4 0");
}

/// A message of `bytes` bytes, which is 11 and more, with every head in 9 bytes: the version,
/// and sets whose nonce is a byte string.
fn full_width(bytes: usize) -> String {
    let w = |major, argument| wide_head(major, argument, 8);
    let set = |length: usize| {
        [w(4, 2), w(0, 20), w(4, 1), w(2, length as u64), "5a".repeat(length)].concat()
    };
    let mut message = w(0, 1);
    let mut left = bytes - 9;
    while left >= 2 * 36 {
        message += &set(0);
        left -= 36;
    }
    message + &set(left - 36)
}

fn full_widths(f: &mut Fixed) {
    f.group("every head in 9 bytes: 16,384 bytes, and one more or fewer");
    // 454 sets of four items each, the last with a longer string.
    for (bytes, answer) in
        [(16_383, "accepted 1817"), (16_384, "accepted 1817"), (16_385, "refused 1 0")]
    {
        f.message(&full_width(bytes), answer);
    }
    // A list of nulls, 9 + 9 + 9 bytes and one each.
    for (members, answer) in
        [(997, "accepted 1000"), (4_093, "accepted 4096"), (4_094, "refused 5 4120")]
    {
        let list = [wide_head(4, 2, 8), wide_head(0, 17, 8), wide_head(4, members, 8)].concat();
        f.single(&format!("{list} {}", "f6".repeat(members as usize)), answer);
    }
    let nested = |depth: usize| {
        [wide_head(4, 2, 8), wide_head(0, 17, 8), wide_head(4, 1, 8)].concat().repeat(depth)
    };
    f.single(&format!("{} 00", nested(12)), "accepted 37");
    f.single(&format!("{} 9b0000000000000001 00", nested(12)), "refused 6 324");
}

fn examples_widened(f: &mut Fixed) {
    f.group("RFC 8949's examples: each head at each larger width");
    for example in examples() {
        // By the accepted ones' own answers; a refusal's place may move.
        let by_hand = if example.by_hand.starts_with("accepted") { example.by_hand } else { "" };
        for wide in widened(&hex(example.hex)) {
            f.single(&to_hex(&wide), by_hand);
        }
    }
}

fn floats(f: &mut Fixed) {
    f.group("halves: every number, one NaN");
    for bits in ["0000", "8000", "0001", "83ff", "0400", "3c00", "7bff", "7c00", "fc00", "7e00"] {
        f.single(&format!("f9{bits}"), "accepted 1");
    }
    for bits in ["7c01", "7dff", "7e01", "7fff", "fc01", "fe00", "ffff"] {
        f.single(&format!("f9{bits}"), "refused 4 0");
    }
    f.group("singles: zeros, infinities and NaNs; each clause at both ends of its exponents");
    for bits in [
        "00000000", "80000000", "7f800000", "ff800000", "7fc00000", "7f800001", "ffffffff",
        // e = 113 and 142: 2^13 divides m
        "38800000", "38802000", "b8802000", "47000000", "47002000", "477fe000",
        // e = 112 (2^14), 111 (2^15), 104 (2^22), 103 (2^23)
        "38000000", "38004000", "37808000", "34000000", "34400000", "33800000", "b3800000",
    ] {
        f.single(&format!("fa{bits}"), "refused 4 0");
    }
    for bits in [
        "00000001", "007fffff", "00800000", "7f7fffff", "33000000", "47800000", "c7800000",
        "38801000", "38800001", "47001000", "477ff000", "38002000", "37804000", "34200000",
        "33c00000", "33800001", "47c35000",
    ] {
        f.single(&format!("fa{bits}"), "accepted 1");
    }
    f.group("doubles: the same");
    for bits in [
        "0000000000000000", "8000000000000000", "7ff0000000000000", "fff0000000000000",
        "7ff8000000000000", "7ff0000000000001", "ffffffffffffffff",
        // e = 897 and 1150: 2^29 divides m
        "3810000000000000", "3810000020000000", "47e0000000000000", "47efffffe0000000",
        // e = 896 (2^30), 895 (2^31), 875 (2^51), 874 (2^52)
        "3800000000000000", "3800000040000000", "37f0000080000000", "36b0000000000000",
        "36b8000000000000", "36a0000000000000", "b6a0000000000000",
        // a half's number
        "3ff8000000000000",
    ] {
        f.single(&format!("fb{bits}"), "refused 4 0");
    }
    for bits in [
        "0000000000000001", "000fffffffffffff", "0010000000000000", "7fefffffffffffff",
        "3690000000000000", "47f0000000000000", "c7f0000000000000", "3810000010000000",
        "47e0000010000000", "47effffff0000000", "3800000020000000", "37f0000040000000",
        "36b4000000000000", "36a8000000000000", "36a0000000000001", "3ff199999999999a",
    ] {
        f.single(&format!("fb{bits}"), "accepted 1");
    }
    f.group("floats typed and inside");
    f.single("82 08 f93c00", "accepted 3");
    f.single("82 08 fa47c35000", "accepted 3");
    f.single("82 08 fb3ff199999999999a", "refused 7 2");
    f.single("82 08 fb3ff8000000000000", "refused 4 2");
    f.single("82 09 f97e00", "accepted 3");
    f.single("82 09 fa47c35000", "accepted 3");
    f.single("82 09 fb3ff199999999999a", "accepted 3");
    f.single("82 09 fa3fc00000", "refused 4 2");
    f.single("82 05 fa3fc00000", "refused 4 2");
    f.message("f93c00", "refused 7 0");
    f.message("01 fa3fc00000", "refused 4 1");
    f.message("01 82 15 83 f6 00 83 00 83 f6 20 00 f97c00", "accepted 13");
    f.message("01 82 15 83 f6 f90000", "refused 7 5");
}

/// A list of `count` members, each `member`.
fn list(count: usize, member: &str) -> String {
    format!("82 11 {} {}", head(4, count as u64), member.repeat(count))
}

fn item_limit(f: &mut Fixed) {
    f.group("test 5: 4,096 items and one more");
    f.single(&list(4_093, "00"), "accepted 4096");
    f.single(&list(4_094, "00"), "refused 5 4098");
    // The list's 4,094th member is item 4,097, at byte 5 + 4,093.
    let last = |end: &str| format!("82 11 {} {} {end}", head(4, 4_094), "00".repeat(4_093));
    f.single(&last(""), "refused 2 4098");
    f.single(&last("18"), "refused 2 4098");
    f.single(&last("c0"), "refused 3 4098");
    f.single(&last("1800"), "refused 5 4098");
    f.single(&last("fa00000000"), "refused 4 4098");
    f.single(&last("3bffffffffffffffff"), "refused 5 4098");
    f.single(&last("80"), "refused 5 4098");
    f.single(&last("41"), "refused 5 4098");
    f.single(&last("61ff"), "refused 5 4098");
    f.single(&(list(4_093, "00") + "00"), "refused 13 4098");
    // 12 items before the report's own members, the first of these at byte 14.
    let report = |members: usize, end: &str| {
        let open = head(4, 2 + members as u64);
        let members = "f7".repeat(members);
        format!("01 82 15 83 f6 00 {open} 00 83 f6 20 00 {members} {end}")
    };
    f.message(&report(4_084, ""), "accepted 4096");
    f.message(&report(4_085, ""), "refused 5 4098");
    f.message(&report(4_084, "00"), "refused 5 4098");
    f.message(&report(4_084, "82"), "refused 5 4098");
    f.message(&report(4_084, "9802"), "refused 5 4098");
    f.message(&report(4_084, "ff"), "refused 3 4098");
    f.message(&report(4_083, "82"), "refused 2 4098");
    // A map's key as item 4,097, which would not be greater; then its value.
    let pairs: String = (0..2_046).map(|key| head(0, key) + "00").collect();
    let map = |count, end: &str| format!("82 12 {} {pairs} {end}", head(5, count));
    let size = hex(&map(2_047, "")).len();
    f.single(&map(2_046, ""), "accepted 4095");
    f.single(&map(2_047, "1907fe 00"), &format!("refused 5 {}", size + 3));
    f.single(&map(2_047, "00 00"), &format!("refused 11 {size}"));
}

fn depth_limit(f: &mut Fixed) {
    f.group("test 6: 24 open containers and one more");
    let lists = "82 11 81".repeat(12);
    f.single(&format!("{lists} 00"), "accepted 37");
    for next in ["81 00", "80", "a0", "82 11 80", "84 00 20 00 80", "9b1000000000000000"] {
        f.single(&format!("{lists} {next}"), "refused 6 36");
    }
    f.single(&format!("{lists} 9800"), "refused 6 36");
    f.single(&format!("{lists} 9f"), "refused 3 36");
    f.single(&format!("{lists} 98"), "refused 2 36");
    f.single(&format!("{lists} 41"), "refused 9 36");
    // Containers that have ended count no more.
    let eleven = "82 11 81".repeat(11);
    f.single(&format!("{eleven} 82 11 80"), "accepted 36");
    f.single(&format!("{eleven} 82 12 a0"), "accepted 36");
    let ten = "82 11 81".repeat(10);
    f.single(&format!("{ten} 82 11 82 82 11 80 82 11 81 00"), "accepted 40");
    f.single(&format!("{ten} 82 11 82 82 11 80 82 11 81 81 00"), "refused 6 39");
    // Through parameters: each reference with its parameters opens two.
    let references = "84 00 20 00 81".repeat(12);
    f.single(&format!("{references} 00"), "accepted 61");
    f.single(&format!("{references} 81 00"), "refused 6 60");
    let maps = "84 00 20 00 a1 6161".repeat(12);
    f.single(&format!("{maps} 00"), "accepted 73");
    f.single(&format!("{maps} 81 00"), "refused 6 84");
    f.single(&format!("{eleven} 84 00 20 00 80"), "refused 12 37");
    // In a message a set opens two, a report three.
    let targets = format!("01 82 14 82 f6 {}", "84 00 20 00 81".repeat(11));
    f.message(&format!("{targets} 00"), "accepted 61");
    f.message(&format!("{targets} 81 00"), "refused 6 60");
    let report = "01 82 15 83 f6 00 83 00 83 f6 20 00";
    let inner = "82 11 81".repeat(10);
    f.message(&format!("{report} {inner} 81 00"), "accepted 44");
    f.message(&format!("{report} {inner} 81 80"), "refused 6 43");
    f.message(&format!("{report} {inner} 82 11 80"), "refused 6 44");
    f.message(&format!("{report} {inner} 83 00 20 00"), "accepted 46");
    f.message(&format!("{report} {inner} 84 00 20 00 81 00"), "refused 6 46");
    f.message(&format!("{report} {inner} 84 00 20 00 80"), "refused 6 46");
    f.group("tests 5 and 6 together: a container too many as item 4,097");
    // 24 containers open, 38 bytes; the last list is longer.
    let lists = format!("{} 82 11 {}", "82 11 81".repeat(11), head(4, 4_061));
    let filled = format!("{lists} {}", "00".repeat(4_060));
    f.single(&format!("{filled} 80"), "refused 5 4098");
    f.single(&format!("{lists} {} 80 00", "00".repeat(4_059)), "refused 6 4097");
    f.single(&format!("{filled} 9800"), "refused 5 4098");
}

fn kinds(f: &mut Fixed) {
    // Places are told by what stands before them, with those of KINDS that
    // test 7 lets pass there.
    const INTEGERS: &[&str] = &["00", "20"];
    const NAMED: &[&str] = &["00", "20", "6161"];
    const LITERALS: &[&str] = &["00", "20", "4101", "6161", "f4", "f5", "f6", "f7", "f93c00"];
    f.group("test 7: each kind in each place of a single ARI");
    let places: &[(&str, &[&str])] = &[
        ("", LITERALS),
        ("81", NAMED),
        ("82", &["00"]),
        ("8200", &["f6"]),
        ("8201", &["f4", "f5"]),
        ("8202", &["00"]),
        ("8204", INTEGERS),
        ("8205", &["00"]),
        ("8206", INTEGERS),
        ("8207", &["00"]),
        ("8208", &["f93c00"]),
        ("8209", &["f93c00"]),
        ("820a", &["6161"]),
        ("820b", &["4101"]),
        ("820c", INTEGERS),
        ("820d", INTEGERS),
        ("840020008182 0e", &["6161"]),
        ("820f", &["4101"]),
        ("8211", &["80"]),
        ("8212", &["a0"]),
        ("8214", &[]),
        ("8215", &[]),
        ("83", &["00", "20", "6161", "f6"]),
        ("8300", &["20", "6161"]),
        ("830020", &["00", "6161"]),
        ("84", &["00", "20", "6161", "f6"]),
        ("84f6", &["20", "6161"]),
        ("84f620", &["00", "6161"]),
        // 80 and a0 are 12 as parameters, tested below
        ("84002000", &["80", "a0"]),
        ("8400200081", LITERALS),
        ("84002000a1", NAMED),
        ("84002000a100", LITERALS),
        ("821181", LITERALS),
        ("8212a1", NAMED),
        ("8212a100", LITERALS),
        ("821481", &["00", "4101", "f6"]),
        ("821482f6", &[]),
        ("821582", &["00", "4101", "f6"]),
        ("821582f6", INTEGERS),
        ("821583f600", &[]),
        ("821583f60082", INTEGERS),
        ("821583f6008200", &[]),
        ("821583f600830083f62000", LITERALS),
    ];
    for (before, pass) in places {
        for kind in KINDS {
            let by_hand = match pass.contains(&kind) {
                true => String::new(),
                false => format!("refused 7 {}", hex(before).len()),
            };
            f.single(&format!("{before}{kind}"), &by_hand);
        }
    }
    f.group("test 7: each kind in each place of a message");
    let places: &[(&str, &[&str])] = &[
        // an unsigned version that is not 1 is 8
        ("", &["00"]),
        ("01", &[]),
        ("0182", &[]),
        ("018214", &[]),
        ("018215", &[]),
        ("01821481", &["00", "4101", "f6"]),
        ("01821482f6", &[]),
        ("01821482f683", &["00", "20", "6161", "f6"]),
        ("01821582", &["00", "4101", "f6"]),
        ("01821582f6", INTEGERS),
        ("01821583f600", &[]),
        ("01821583f60082", INTEGERS),
        ("01821583f6008200", &[]),
        ("01821583f600830083f62000", LITERALS),
        ("01821481f6", &[]),
    ];
    for (before, pass) in places {
        for kind in KINDS {
            let by_hand = match pass.contains(&kind) {
                true => String::new(),
                false => format!("refused 7 {}", hex(before).len()),
            };
            f.message(&format!("{before}{kind}"), &by_hand);
        }
    }
}

fn ranges(f: &mut Fixed) {
    f.group("test 7: both ends of each range, in each place; then one past each end");
    /// What stands before and after the number, and how many items both are.
    type Place<'a> = (&'a str, &'a str, usize);
    let mut range = |places: &[Place], within: &[&str], outside: &[&str]| {
        for (before, after, items) in places {
            for number in within {
                let input = format!("{before} {number} {after}");
                f.single(&input, &format!("accepted {}", items + 1));
            }
            for number in outside {
                let input = format!("{before} {number} {after}");
                f.single(&input, &format!("refused 7 {}", hex(before).len()));
            }
        }
    };
    const WHOLE: &[&str] = &["00", "1bffffffffffffffff", "20", "3b7fffffffffffffff"];
    const BELOW: &[&str] = &["3b8000000000000000", "3bffffffffffffffff"];
    // Untyped, as a member, a parameter, a map's value and key, a report's item.
    range(
        &[
            ("", "", 0),
            ("82 11 81", "", 3),
            ("84 00 20 00 81", "", 5),
            ("82 12 a1", "00", 4),
            ("82 12 a1 00", "", 4),
            ("84 00 20 00 a1", "00", 6),
            ("82 15 83 f6 00 83 00 83 f6 20 00", "", 11),
        ],
        WHOLE,
        BELOW,
    );
    range(&[("82 02", "", 2)], &["00", "18ff"], &["190100", "20", "1bffffffffffffffff"]);
    range(
        &[("82 04", "", 2)],
        &["00", "20", "1a7fffffff", "3a7fffffff"],
        &["1a80000000", "3a80000000", "1bffffffffffffffff", "3bffffffffffffffff"],
    );
    range(
        &[("82 05", "", 2)],
        &["00", "1affffffff"],
        &["1b0000000100000000", "20", "1bffffffffffffffff"],
    );
    range(&[("82 07", "", 2)], &["00", "1bffffffffffffffff"], &["20", "3b7fffffffffffffff"]);
    // VAST, TP and TD; namespaces; the times of a set and of a report.
    range(
        &[
            ("82 06", "", 2),
            ("82 0c", "", 2),
            ("82 0d", "", 2),
            ("81", "", 1),
            ("83", "20 00", 3),
            ("84", "20 00 81 00", 5),
            ("82 15 82 f6", "", 4),
            ("82 15 83 f6 00 82", "83 f6 20 00", 10),
        ],
        &VAST,
        &NOT_VAST,
    );
    // Object type and object id.
    range(
        &[("83 00", "00", 3), ("84 f6", "00 81 00", 5)],
        &["20", "38ff"],
        &["390100", "00", "3b7fffffffffffffff", "3bffffffffffffffff"],
    );
    range(
        &[("83 00 20", "", 3), ("84 f6 20", "81 00", 5)],
        &["00", "1b7fffffffffffffff"],
        &["1b8000000000000000", "20", "1bffffffffffffffff"],
    );
    // Nonces.
    range(
        &[("82 14 81", "", 3), ("82 15 82", "00", 4)],
        &["00", "1b7fffffffffffffff", "40", "42ffff", "f6"],
        &["1b8000000000000000", "1bffffffffffffffff", "20", "3b7fffffffffffffff"],
    );
}

fn types(f: &mut Fixed) {
    f.group("test 7: type numbers; 3, 16, 19 and 22 on are none, 14 is none here");
    for number in (0..=24).chain([255, 256, 65_280, 1 << 31, u64::MAX]) {
        let by_hand = match number {
            0 => "accepted 3",
            3 | 14 | 16 | 19 | 22.. => "refused 7 1",
            _ => "refused 7 2",
        };
        f.single(&format!("82 {} f6", head(0, number)), by_hand);
    }
    f.group("types 20 and 21 stand outermost only");
    for set in ["82 14 81 f6", "82 15 82 f6 00"] {
        f.single(set, if set.len() < 12 { "accepted 4" } else { "accepted 5" });
        f.single(&format!("82 11 81 {set}"), "refused 7 4");
        f.single(&format!("82 12 a1 00 {set}"), "refused 7 5");
        f.single(&format!("84 00 20 00 81 {set}"), "refused 7 6");
        f.single(&format!("84 00 20 00 a1 00 {set}"), "refused 7 7");
        f.single(&format!("82 14 82 f6 {set}"), "refused 7 4");
        f.message(&format!("01 {set}"), if set.len() < 12 { "accepted 5" } else { "accepted 6" });
        f.message(&format!("01 82 14 82 f6 {set}"), "refused 7 5");
        f.message(&format!("01 82 15 83 f6 00 83 00 83 f6 20 00 {set}"), "refused 7 13");
    }
    f.message("01 82 14 81 f6 82 15 82 f6 00 82 14 81 f6", "accepted 14");
    f.group("a message's ARIs are of type 20 or 21");
    for number in (0..=22).filter(|number| !matches!(number, 20 | 21)) {
        f.message(&format!("01 82 {} f6", head(0, number)), "refused 7 2");
    }
    f.message("01 82 11 80", "refused 7 2");
    f.message("01 81 00", "refused 7 1");
    f.message("01 83 00 20 00", "refused 7 1");
    f.message("01 f6", "refused 7 1");
    f.group("LABEL: only within an object reference's parameters, at any depth");
    let label = "82 0e 6161";
    f.single(label, "refused 7 1");
    f.single(&format!("82 11 81 {label}"), "refused 7 4");
    f.single(&format!("82 12 a1 00 {label}"), "refused 7 5");
    f.single(&format!("84 00 20 00 81 {label}"), "accepted 8");
    f.single(&format!("84 00 20 00 a1 00 {label}"), "accepted 9");
    f.single(&format!("84 00 20 00 81 82 11 81 {label}"), "accepted 11");
    f.single(&format!("84 00 20 00 81 82 12 a1 20 {label}"), "accepted 12");
    f.single(&format!("84 00 20 00 81 82 11 81 82 11 81 {label}"), "accepted 14");
    f.single(&format!("84 00 20 00 81 84 f6 20 00 a1 6161 {label}"), "accepted 14");
    f.single(&format!("82 11 82 84 00 20 00 81 {label} {label}"), "refused 7 13");
    f.single(&format!("82 11 81 84 00 20 00 81 {label}"), "accepted 11");
    f.message(&format!("01 82 14 82 f6 84 00 20 00 81 {label}"), "accepted 13");
    f.message(&format!("01 82 15 83 f6 00 82 00 84 00 20 00 81 {label}"), "accepted 16");
    f.message(&format!("01 82 15 83 f6 00 83 00 83 00 20 00 {label}"), "refused 7 13");
    f.message(&format!("01 82 15 83 f6 00 83 00 84 00 20 00 81 {label} {label}"), "refused 7 18");
    f.message(
        &format!("01 82 15 83 f6 00 83 00 83 00 20 00 84 00 20 00 81 {label}"),
        "accepted 20",
    );
}

fn array_lengths(f: &mut Fixed) {
    // Members that suit the length where an ARI or an object reference is due.
    const MEMBERS: [&str; 6] =
        ["", "00", "00 f6", "00 20 00", "00 20 00 81 00", "00 20 00 81 00 00"];
    f.group("test 7: array lengths 0 to 5 where an ARI is due");
    for before in ["", "82 11 81", "82 12 a1 00", "84 00 20 00 81", "84 00 20 00 a1 00"] {
        for (length, members) in MEMBERS.iter().enumerate() {
            let by_hand = match length {
                0 | 5 => format!("refused 7 {}", hex(before).len()),
                4 => format!("accepted {}", hex(before).len() + 6),
                _ => format!("accepted {}", hex(before).len() + 1 + length),
            };
            f.single(&format!("{before} 8{length} {members}"), &by_hand);
        }
    }
    f.group("where an object reference is due: a set's target, a report's source");
    for before in ["82 14 82 f6", "82 15 83 f6 00 82 00"] {
        for (length, members) in MEMBERS.iter().enumerate() {
            let (input, bytes) = (format!("{before} 8{length} {members}"), hex(before).len());
            let (single, message) = match length {
                3 => (format!("accepted {}", bytes + 4), format!("accepted {}", bytes + 5)),
                4 => (format!("accepted {}", bytes + 6), format!("accepted {}", bytes + 7)),
                _ => (format!("refused 7 {bytes}"), format!("refused 7 {}", bytes + 1)),
            };
            f.single(&input, &single);
            f.message(&format!("01 {input}"), &message);
        }
    }
    f.group("a report's items, a message's sets");
    for (length, members) in MEMBERS.iter().enumerate() {
        let by_hand = match length {
            0 | 5 => "refused 7 12".to_string(),
            4 => "accepted 18".to_string(),
            _ => format!("accepted {}", 13 + length),
        };
        let before = "01 82 15 83 f6 00 83 00 83 f6 20 00";
        f.message(&format!("{before} 8{length} {members}"), &by_hand);
        if length != 2 {
            f.message(&format!("01 8{length} {members}"), "refused 7 1");
        }
    }
    f.group("the set's inner arrays, a report, a list, parameters");
    for length in 0..6 {
        let targets = "83 f6 20 00".repeat(length.max(1) - 1);
        let by_hand = match length {
            0 => "refused 7 3".to_string(),
            _ => format!("accepted {}", 5 + 4 * (length - 1)),
        };
        f.message(&format!("01 82 14 8{length} f6 {targets}"), &by_hand);
        let reports = "82 00 83 f6 20 00".repeat(length.max(2) - 2);
        let by_hand = match length {
            0 | 1 => "refused 7 3".to_string(),
            _ => format!("accepted {}", 6 + 6 * (length - 2)),
        };
        f.message(&format!("01 82 15 8{length} f6 00 {reports}"), &by_hand);
        let items = "f5".repeat(length.max(2) - 2);
        let by_hand = match length {
            0 | 1 => "refused 7 6".to_string(),
            _ => format!("accepted {}", 12 + length - 2),
        };
        f.message(&format!("01 82 15 83 f6 00 8{length} 00 83 f6 20 00 {items}"), &by_hand);
        let members = "00".repeat(length);
        f.single(&format!("82 11 8{length} {members}"), &format!("accepted {}", 3 + length));
        let by_hand = match length {
            0 => "refused 12 4".to_string(),
            _ => format!("accepted {}", 5 + length),
        };
        f.single(&format!("84 00 20 00 8{length} {members}"), &by_hand);
    }
    // A report is no ARI, and a list's array is no reference.
    f.message("01 82 15 82 f6 00", "accepted 6");
    f.message("01 82 14 81 f6 00", "refused 7 5");
}

fn versions(f: &mut Fixed) {
    f.group("test 8: a version that is unsigned and not 1");
    for version in ["00", "02", "17", "1818", "190100", "1a00010000", "1bffffffffffffffff"] {
        f.message(version, "refused 8 0");
    }
    f.message("02 ff", "refused 8 0");
    f.message("1801", "accepted 1");
    f.message("1802", "refused 8 0");
    f.message("20", "refused 7 0");
    f.message("f5", "refused 7 0");
    f.message("6131", "refused 7 0");
    f.message("81 01", "refused 7 0");
    f.message("c0 01", "refused 3 0");
    f.message("01 01", "refused 7 1");
    f.single("01", "accepted 1");
    f.single("02", "accepted 1");
}

fn short_strings(f: &mut Fixed) {
    f.group("test 9: strings and the bytes left");
    for (string, by_hand) in [
        ("40", "accepted 1"),
        ("60", "accepted 1"),
        ("41", "refused 9 0"),
        ("61", "refused 9 0"),
        ("42 00", "refused 9 0"),
        ("62 ff", "refused 9 0"),
        ("5bffffffffffffffff", "refused 9 0"),
        ("7bffffffffffffffff 61", "refused 9 0"),
        ("7b1000000000000000", "refused 9 0"),
        ("82 0a 63 6161", "refused 9 2"),
        ("82 0b 5818 00", "refused 9 2"),
        ("82 0f 41", "refused 9 2"),
        ("81 61", "refused 9 1"),
        ("81 7841 6161", "refused 9 1"),
        ("83 00 62 61", "refused 9 2"),
        ("83 00 20 62 61", "refused 9 3"),
        ("84 00 20 00 81 82 0e 62 61", "refused 9 7"),
        ("82 12 a1 61", "refused 9 3"),
        ("82 14 81 43 0000", "refused 9 3"),
        ("82 11 82 42 00 00", "refused 2 6"),
    ] {
        f.single(string, by_hand);
    }
    f.group("a string too short where its kind is wrong is 7");
    f.single("82 0b 63", "refused 7 2");
    f.single("82 0a 5bffffffffffffffff", "refused 7 2");
    f.single("82 61", "refused 7 1");
    f.single("82 12 a1 41", "refused 7 3");
    f.single("84 00 20 00 41", "refused 7 4");
    f.message("41", "refused 7 0");
    f.message("01 5bffffffffffffffff", "refused 7 1");
    f.message("01 82 14 81 61", "refused 7 4");
    f.message("01 82 15 82 42 00", "refused 9 4");
}

fn utf8(f: &mut Fixed) {
    f.group("test 10: the rows of RFC 3629, both ends");
    for string in [
        "00", "7f", "c280", "c2bf", "df80", "dfbf", "e0a080", "e0bfbf", "e18080", "ecbfbf",
        "ed8080", "ed9fbf", "ee8080", "efbfbf", "f0908080", "f0bfbfbf", "f1808080", "f3bfbfbf",
        "f4808080", "f48fbfbf", "61c3bc62", "efbbbf", "f09d849e61",
    ] {
        let head = head(3, string.len() as u64 / 2);
        f.single(&format!("{head}{string}"), "accepted 1");
    }
    f.group("test 10: one past an end, later bytes wrong, missing or alone");
    for string in [
        "80", "bf", "c080", "c1bf", "c27f", "c2c0", "df7f", "dfc0", "e09fbf", "e07fbf", "e0c080",
        "e0a07f", "e0a0c0", "e17f80", "e1c080", "e1807f", "e180c0", "ec7fbf", "ecbfc0", "eda080",
        "edbfbf", "ed7f80", "ed807f", "ed80c0", "ee7f80", "eec080", "ee807f", "efbfc0", "f08fbfbf",
        "f0c08080", "f0907f80", "f090c080", "f090807f", "f09080c0", "f17f8080", "f1c08080",
        "f1807f80", "f180c080", "f180807f", "f18080c0", "f3bfbfc0", "f4908080", "f47f8080",
        "f4807f80", "f480c080", "f480807f", "f48fbfc0", "f5808080", "f8888080", "ff", "fe", "c3",
        "e0a0", "e1", "f09080", "f1", "61c3", "eda080edb080", "616280",
    ] {
        let head = head(3, string.len() as u64 / 2);
        f.single(&format!("{head}{string}"), "refused 10 0");
    }
    f.group("test 10: in each place of a text; a sequence ends with its string");
    f.single("82 0a 61ff", "refused 10 2");
    f.single("82 0a 62c3bc", "accepted 3");
    f.single("82 11 82 61c3 61bc", "refused 10 3");
    f.single("82 12 a1 61ff 00", "refused 10 3");
    f.single("84 00 20 00 81 62c328", "refused 10 5");
    f.single("84 00 20 00 a1 63eda080 00", "refused 10 5");
    f.message("01 82 15 83 f6 00 83 00 83 f6 20 00 61ff", "refused 10 12");
    // A byte string, and what type 15 holds, may be anything.
    f.single("41ff", "accepted 1");
    f.single("82 0f 43 eda080", "accepted 3");
    // Longer runs of ASCII, wrong near their ends.
    let run = |length: usize, at: usize, byte: &str| {
        let mut bytes = vec!["61"; length];
        bytes[at] = byte;
        head(3, length as u64) + &bytes.concat()
    };
    for length in [7, 8, 9, 15, 16, 17, 31, 32, 33, 64, 65] {
        for at in [0, length / 2, length - 1] {
            f.single(&run(length, at, "80"), "refused 10 0");
            f.single(&run(length, at, "c2"), "refused 10 0");
        }
        f.single(&run(length, 0, "00"), "accepted 1");
    }
}

fn names(f: &mut Fixed) {
    f.group("test 10: names and identifiers, how spelled and how long");
    let long = |length: usize| "x".repeat(length);
    let good = ["a", "_", "Z", "z9", "a-b.c_d", "__", "true", "A.", &long(63), &long(64)];
    let wrong = [
        "",
        "9",
        "9a",
        "-a",
        ".a",
        " a",
        "a ",
        "a/b",
        "a@b",
        "a:b",
        "a~",
        "a%",
        "!",
        "!!",
        "!!a",
        "!9",
        "a!",
        "[",
        "`",
        "{",
        "@",
        "\u{fc}",
        "a\u{fc}",
        "a\0",
        &long(65),
        &long(66),
        &long(256),
    ];
    let private = ["!a", "!_", "!Z9-._", &format!("!{}", long(64))];
    let wrong_private = ["! a", "!-", &format!("!{}", long(65))];
    // Namespaces, where "!" may stand before the identifier.
    for (before, after, items) in [("81", "", 1), ("83", "20 00", 3), ("84", "20 00 81 00", 5)] {
        for name in good.iter().chain(&private) {
            let input = format!("{before} {} {after}", text(name));
            f.single(&input, &format!("accepted {}", 1 + items));
        }
        for name in wrong.iter().chain(&wrong_private) {
            f.single(&format!("{before} {} {after}", text(name)), "refused 10 1");
        }
    }
    // Object types, object ids and labels, where it may not.
    let places = [("83 f6", "00", 3), ("83 f6 20", "", 3), ("84 f6 20 00 81 82 0e", "", 7)];
    for (before, after, items) in places {
        for name in good {
            let input = format!("{before} {} {after}", text(name));
            f.single(&input, &format!("accepted {}", 1 + items));
        }
        for name in wrong.iter().chain(&wrong_private).chain(&private) {
            let input = format!("{before} {} {after}", text(name));
            f.single(&input, &format!("refused 10 {}", hex(before).len()));
        }
    }
    f.single("81 61ff", "refused 10 1");
    f.single("83 f6 62c328 00", "refused 10 2");
    f.message("01 82 14 82 f6 83 6139 20 00", "refused 10 6");
    f.message("01 82 14 82 f6 83 00 60 00", "refused 10 7");
}

fn keys(f: &mut Fixed) {
    f.group("test 11: keys rise by their bytes");
    // Two keys, and whether the second may follow the first.
    let pairs: &[(&str, &str, bool)] = &[
        ("00", "01", true),
        ("01", "00", false),
        ("01", "01", false),
        ("17", "1818", true),
        ("1818", "17", false),
        ("18ff", "190100", true),
        ("1864", "20", true),  // 100 before -1
        ("20", "1864", false), // -1 before 100
        ("20", "21", true),    // -1 before -2
        ("21", "20", false),
        ("20", "20", false),
        ("3b7fffffffffffffff", "6161", true),
        ("1bffffffffffffffff", "20", true),
        ("6161", "1bffffffffffffffff", false),
        ("6161", "6162", true),
        ("6162", "6161", false),
        ("6161", "6161", false),
        ("60", "6161", true),
        ("60", "60", false),
        ("6162", "626161", true), // "b" before "aa"
        ("626161", "6162", false),
        ("626161", "626162", true),
        ("626162", "626161", false),
        ("617a", "62c3bc", true),
        ("62c3bc", "62c3bd", true),
        ("00", "6130", true),
        ("6141", "6161", true), // letters of both cases are two keys
        ("6161", "6141", false),
        // by the bytes of the shortest heads
        ("1800", "00", false),
        ("00", "1800", false),
        ("01", "1801", false),
        ("1b0000000000000001", "1801", false),
        ("1800", "01", true),
        ("1b0000000000000000", "01", true),
        ("01", "1800", false),
        ("1900ff", "190100", true),
        ("1b00000000000000ff", "190100", true),
        ("190100", "1b00000000000000ff", false),
        ("1b0000000000000005", "20", true),
        ("20", "1b0000000000000005", false),
        ("3800", "21", true),
        ("21", "3800", false),
        ("780161", "6161", false),
        ("6161", "780161", false),
        ("780161", "6162", true),
        ("6162", "780161", false),
        ("7b000000000000000162", "626161", true),
        ("626161", "7b000000000000000162", false),
    ];
    for (one, two, rises) in pairs {
        let place = 4 + hex(one).len();
        let (am, parameters) = match rises {
            true => ("accepted 7".to_string(), "accepted 9".to_string()),
            false => (format!("refused 11 {place}"), format!("refused 11 {}", place + 2)),
        };
        f.single(&format!("82 12 a2 {one} f6 {two} f6"), &am);
        f.single(&format!("84 00 20 00 a2 {one} f6 {two} f6"), &parameters);
    }
    f.single("82 12 a3 00 f6 02 f6 01 f6", "refused 11 7");
    f.single("82 12 a3 00 f6 01 f6 00 f6", "refused 11 7");
    // Each map has its own keys; a value between two keys is no key.
    f.single("82 12 a2 01 82 12 a1 05 00 02 00", "accepted 11");
    f.single("82 12 a2 01 82 12 a1 00 00 01 00", "refused 11 9");
    f.single("82 12 a2 01 09 02 00", "accepted 7");
    f.message("01 82 14 82 f6 84 00 20 00 a2 6162 f6 6161 f6", "refused 11 13");
    f.group("at a key: 7, 9, 10, then 11");
    f.single("82 12 a2 05 f6 4101 f6", "refused 7 5");
    f.single("82 12 a2 05 f6 f93c00 f6", "refused 7 5");
    f.single("82 12 a2 05 f6 80 f6", "refused 7 5");
    f.single("82 12 a2 63616161 f6 62 61", "refused 9 8");
    f.single("82 12 a2 6361ff61 f6 61ff f6", "refused 10 3");
    f.single("82 12 a2 63616161 f6 61ff f6", "refused 10 8");
    f.single("82 12 a2 05 f6 fa00000000 f6", "refused 4 5");
}

fn parameters(f: &mut Fixed) {
    f.group("test 12: empty parameters");
    for empty in ["80", "a0"] {
        f.single(&format!("84 00 20 00 {empty}"), "refused 12 4");
        f.single(&format!("84 f6 6161 6162 {empty}"), "refused 12 6");
        f.single(&format!("82 11 81 84 00 20 00 {empty}"), "refused 12 7");
        f.single(&format!("84 00 20 00 81 84 00 20 00 {empty}"), "refused 12 9");
        f.message(&format!("01 82 14 82 f6 84 00 20 00 {empty}"), "refused 12 9");
        f.message(&format!("01 82 15 83 f6 00 82 00 84 00 20 00 {empty}"), "refused 12 12");
    }
    f.single("84 00 20 00 9800", "refused 12 4");
    f.single("84 00 20 00 f6", "refused 7 4");
    f.single("82 11 80", "accepted 3");
    f.single("82 12 a0", "accepted 3");
    f.single("84 00 20 00 81 80", "refused 7 5");
    f.single("84 00 20 00 a1 00 a0", "refused 7 6");
}

fn after(f: &mut Fixed) {
    f.group("test 13: bytes after a single ARI, whatever they are");
    f.single("00 00", "refused 13 1");
    f.single("f7 ff", "refused 13 1");
    f.single("82 05 0a 00", "refused 13 3");
    f.single("81 00 18", "refused 13 2");
    f.single("60 61", "refused 13 1");
    f.single("82 14 81 f6 82 14 81 f6", "refused 13 4");
    f.single(C, "refused 13 1");
    // Whatever is wrong before them comes first.
    f.single("81 f6 00", "refused 7 1");
}

fn huge_lengths(f: &mut Fixed) {
    f.group("lengths of 2^60, 2^63 and 2^64 - 1: no 7 where any length may stand");
    for length in [1 << 60, 1 << 63, u64::MAX] {
        f.single(&head(4, length), "refused 7 0");
        f.single(&head(5, length), "refused 7 0");
        f.single(&head(2, length), "refused 9 0");
        f.single(&head(3, length), "refused 9 0");
        f.single(&format!("82 11 {}", head(4, length)), "refused 2 11");
        f.single(&format!("82 11 {} 00 00", head(4, length)), "refused 2 13");
        f.single(&format!("82 11 {} 00 ff", head(4, length)), "refused 3 12");
        f.single(&format!("82 12 {}", head(5, length)), "refused 2 11");
        f.single(&format!("82 12 {} 00 00", head(5, length)), "refused 2 13");
        f.single(&format!("82 12 {} 00 00 00", head(5, length)), "refused 11 13");
        f.single(&format!("84 00 20 00 {} 00", head(4, length)), "refused 2 14");
        f.single(&format!("84 00 20 00 {} 00", head(5, length)), "refused 2 14");
        f.message(&format!("01 {}", head(4, length)), "refused 7 1");
        f.message(&format!("01 82 14 {} f6", head(4, length)), "refused 2 13");
        f.message(&format!("01 82 15 {} f6 00", head(4, length)), "refused 2 14");
        f.message(&format!("01 82 15 83 f6 00 {} 00", head(4, length)), "refused 2 16");
        f.single(&format!("82 0b {}", head(2, length)), "refused 9 2");
        f.single(&format!("81 {}", head(3, length)), "refused 9 1");
    }
    f.single(&format!("82 11 {} {}", head(4, 1 << 60), "00".repeat(4_094)), "refused 5 4104");
}

fn records(f: &mut Fixed) {
    f.group("item records");
    f.items_message("", "refused 2 0");
    f.items_message("02", "refused 8 0");
    f.items_single("82 02 190100", "refused 7 2");
    f.items_single("00 00", "refused 13 1");
    f.items_message("01", "0 0 1 0 - unsigned 1\naccepted 1");
    f.items_message(
        C,
        "0 0 1 0 - unsigned 1\n1 1 18 0 - array 2\n2 2 3 1 - unsigned 20\n3 3 18 1 - array 2\n\
         4 4 5 2 - null\n5 5 18 2 0 reference 4\n6 6 11 3 0 unsigned 65536\n\
         7 11 12 3 0 negative -3\n8 12 13 3 0 unsigned 0\n9 13 18 3 0 array 1\n\
         10 14 18 4 0 reference 3\n11 15 16 5 0 negative -20\n12 16 17 5 0 negative -11\n\
         13 17 18 5 0 unsigned 5\naccepted 14",
    );
    f.items_message(
        ORDER,
        "0 0 1 0 - unsigned 1\n1 1 24 0 - array 2\n2 2 3 1 - unsigned 20\n3 3 24 1 - array 3\n\
         4 4 7 2 - unsigned 1234\n5 7 15 2 0 reference 3\n6 8 13 3 0 unsigned 65536\n\
         7 13 14 3 0 negative -3\n8 14 15 3 0 unsigned 18\n9 15 24 2 1 reference 3\n\
         10 16 21 3 1 unsigned 65536\n11 21 22 3 1 negative -2\n12 22 24 3 1 unsigned 43\n\
         accepted 13",
    );
    f.items_single("f7", "0 0 1 0 - undefined\naccepted 1");
    f.items_single(
        "9802 190011 9a00000001 7b000000000000000161",
        "0 0 20 0 - array 2\n1 2 5 1 - unsigned 17\n2 5 20 1 - array 1\n3 10 20 2 - text 1\naccepted 4",
    );
    f.items_single(
        "82 11 88 f4 f5 f6 f7 f97e00 fa47c35000 fb3ff199999999999a 41ff",
        "0 0 26 0 - array 2\n1 1 2 1 - unsigned 17\n2 2 26 1 - array 8\n3 3 4 2 - false\n\
         4 4 5 2 - true\n5 5 6 2 - null\n6 6 7 2 - undefined\n7 7 10 2 - half 7e00\n\
         8 10 15 2 - single 47c35000\n9 15 24 2 - double 3ff199999999999a\n10 24 26 2 - bytes 1\n\
         accepted 11",
    );
    f.items_single("3b7fffffffffffffff", "0 0 9 0 - negative -9223372036854775808\naccepted 1");
    f.items_single("1bffffffffffffffff", "0 0 9 0 - unsigned 18446744073709551615\naccepted 1");
    f.items_single(
        "82 11 80",
        "0 0 3 0 - array 2\n1 1 2 1 - unsigned 17\n2 2 3 1 - array 0\naccepted 3",
    );
    f.items_single(
        "82 12 a0",
        "0 0 3 0 - array 2\n1 1 2 1 - unsigned 18\n2 2 3 1 - map 0\naccepted 3",
    );
    f.items_single("81 6161", "0 0 3 0 - reference 1\n1 1 3 1 - text 1\naccepted 2");
    // Lists, parameters, maps and sets of length 1, 3 and 4 are no references.
    for length in [1, 3, 4] {
        f.items_single(&format!("82 11 8{length} {}", "00".repeat(length)), "");
        f.items_single(&format!("84 00 20 00 8{length} {}", "00".repeat(length)), "");
        f.items_single(&format!("82 14 8{length} f6 {}", "83 f6 20 00".repeat(length - 1)), "");
    }
    f.items_single("82 15 83 f6 00 83 00 83 f6 20 00 81 00", "");
    f.items_message("01 82 15 84 42ffff 3863 84 00 84 f6 6161 6162 a1 6163 81 20 82 11 81 81 00 82 00 f6 82 05 83 00 20 00", "");
    f.items_message("01 82 14 81 f6 82 15 82 40 20 82 14 82 00 83 622161 38ff 00", "");
    f.items_single(&format!("{} 00", "82 11 81".repeat(12)), "");
    f.items_single(&format!("{} 83 33 2a 05", "84 00 20 00 a1 6161".repeat(11)), "");
    f.items_single("841a00010000220282821182831a00010000230383292a0103", "");
    f.items_single("820f4ba164746573748203f94480", "");
    f.items_single(&list(4_093, "00"), "");
    f.items_single(&list(4_094, "00"), "refused 5 4098");
    f.items_single(&byte_string(16_384), "0 0 16384 0 - bytes 16381\naccepted 1");
    f.items_single(&byte_string(16_385), "refused 1 0");
}

/// Targets and reports are counted together, through all sets; what is in none has `-`.
fn targets(f: &mut Fixed) {
    f.group("item records: which target or report an item belongs to");
    // Orders, then reports; and the other way round.
    f.items_message(
        "01 82 14 83 f6 83 00 20 00 83 01 20 00 82 15 84 f6 00 82 05 83 02 20 00 83 06 83 03 20 00 f7",
        "0 0 1 0 - unsigned 1\n1 1 13 0 - array 2\n2 2 3 1 - unsigned 20\n3 3 13 1 - array 3\n\
         4 4 5 2 - null\n5 5 9 2 0 reference 3\n6 6 7 3 0 unsigned 0\n7 7 8 3 0 negative -1\n\
         8 8 9 3 0 unsigned 0\n9 9 13 2 1 reference 3\n10 10 11 3 1 unsigned 1\n\
         11 11 12 3 1 negative -1\n12 12 13 3 1 unsigned 0\n13 13 31 0 - array 2\n\
         14 14 15 1 - unsigned 21\n15 15 31 1 - array 4\n16 16 17 2 - null\n\
         17 17 18 2 - unsigned 0\n18 18 24 2 2 array 2\n19 19 20 3 2 unsigned 5\n\
         20 20 24 3 2 reference 3\n21 21 22 4 2 unsigned 2\n22 22 23 4 2 negative -1\n\
         23 23 24 4 2 unsigned 0\n24 24 31 2 3 array 3\n25 25 26 3 3 unsigned 6\n\
         26 26 30 3 3 reference 3\n27 27 28 4 3 unsigned 3\n28 28 29 4 3 negative -1\n\
         29 29 30 4 3 unsigned 0\n30 30 31 3 3 undefined\naccepted 31",
    );
    f.items_message(
        "01 82 15 83 4101 20 82 00 83 f6 20 00 82 14 83 05 83 6161 20 00 83 622161 20 00",
        "0 0 1 0 - unsigned 1\n1 1 13 0 - array 2\n2 2 3 1 - unsigned 21\n3 3 13 1 - array 3\n\
         4 4 6 2 - bytes 1\n5 6 7 2 - negative -1\n6 7 13 2 0 array 2\n7 8 9 3 0 unsigned 0\n\
         8 9 13 3 0 reference 3\n9 10 11 4 0 null\n10 11 12 4 0 negative -1\n\
         11 12 13 4 0 unsigned 0\n12 13 28 0 - array 2\n13 14 15 1 - unsigned 20\n\
         14 15 28 1 - array 3\n15 16 17 2 - unsigned 5\n16 17 22 2 1 reference 3\n\
         17 18 20 3 1 text 1\n18 20 21 3 1 negative -1\n19 21 22 3 1 unsigned 0\n\
         20 22 28 2 2 reference 3\n21 23 26 3 2 text 2\n22 26 27 3 2 negative -1\n\
         23 27 28 3 2 unsigned 0\naccepted 24",
    );
    // An empty set of each type between two others.
    f.items_message(
        "01 82 14 82 f6 83 00 20 00 82 14 81 f6 82 15 82 40 20 82 14 82 00 83 01 20 00",
        "0 0 1 0 - unsigned 1\n1 1 9 0 - array 2\n2 2 3 1 - unsigned 20\n3 3 9 1 - array 2\n\
         4 4 5 2 - null\n5 5 9 2 0 reference 3\n6 6 7 3 0 unsigned 0\n7 7 8 3 0 negative -1\n\
         8 8 9 3 0 unsigned 0\n9 9 13 0 - array 2\n10 10 11 1 - unsigned 20\n\
         11 11 13 1 - array 1\n12 12 13 2 - null\n13 13 18 0 - array 2\n14 14 15 1 - unsigned 21\n\
         15 15 18 1 - array 2\n16 16 17 2 - bytes 0\n17 17 18 2 - negative -1\n\
         18 18 26 0 - array 2\n19 19 20 1 - unsigned 20\n20 20 26 1 - array 2\n\
         21 21 22 2 - unsigned 0\n22 22 26 2 1 reference 3\n23 23 24 3 1 unsigned 1\n\
         24 24 25 3 1 negative -1\n25 25 26 3 1 unsigned 0\naccepted 26",
    );
    // Sets as single ARIs.
    f.items_single(
        "82 14 83 f6 83 00 20 00 84 01 20 00 81 81 02",
        "0 0 15 0 - array 2\n1 1 2 1 - unsigned 20\n2 2 15 1 - array 3\n3 3 4 2 - null\n\
         4 4 8 2 0 reference 3\n5 5 6 3 0 unsigned 0\n6 6 7 3 0 negative -1\n\
         7 7 8 3 0 unsigned 0\n8 8 15 2 1 reference 4\n9 9 10 3 1 unsigned 1\n\
         10 10 11 3 1 negative -1\n11 11 12 3 1 unsigned 0\n12 12 15 3 1 array 1\n\
         13 13 15 4 1 reference 1\n14 14 15 5 1 unsigned 2\naccepted 15",
    );
    f.items_single(
        "82 15 84 f6 05 82 00 83 00 20 00 83 00 83 01 20 00 82 05 0a",
        "0 0 20 0 - array 2\n1 1 2 1 - unsigned 21\n2 2 20 1 - array 4\n3 3 4 2 - null\n\
         4 4 5 2 - unsigned 5\n5 5 11 2 0 array 2\n6 6 7 3 0 unsigned 0\n7 7 11 3 0 reference 3\n\
         8 8 9 4 0 unsigned 0\n9 9 10 4 0 negative -1\n10 10 11 4 0 unsigned 0\n\
         11 11 20 2 1 array 3\n12 12 13 3 1 unsigned 0\n13 13 17 3 1 reference 3\n\
         14 14 15 4 1 unsigned 1\n15 15 16 4 1 negative -1\n16 16 17 4 1 unsigned 0\n\
         17 17 20 3 1 array 2\n18 18 19 4 1 unsigned 5\n19 19 20 4 1 unsigned 10\naccepted 20",
    );
    // A reference, with parameters too, is a target in a set only.
    f.items_single(
        "84 1a00010000 22 00 81 83 33 2a 05",
        "0 0 13 0 - reference 4\n1 1 6 1 - unsigned 65536\n2 6 7 1 - negative -3\n\
         3 7 8 1 - unsigned 0\n4 8 13 1 - array 1\n5 9 13 2 - reference 3\n\
         6 10 11 3 - negative -20\n7 11 12 3 - negative -11\n8 12 13 3 - unsigned 5\naccepted 9",
    );
    f.items_single(
        "82 11 82 84 00 20 00 82 81 05 f7 83 f6 20 00",
        "0 0 15 0 - array 2\n1 1 2 1 - unsigned 17\n2 2 15 1 - array 2\n3 3 11 2 - reference 4\n\
         4 4 5 3 - unsigned 0\n5 5 6 3 - negative -1\n6 6 7 3 - unsigned 0\n7 7 11 3 - array 2\n\
         8 8 10 4 - reference 1\n9 9 10 5 - unsigned 5\n10 10 11 4 - undefined\n\
         11 11 15 2 - reference 3\n12 12 13 3 - null\n13 13 14 3 - negative -1\n\
         14 14 15 3 - unsigned 0\naccepted 15",
    );
    // Lists in maps, in the parameters of a report's source, and an item after it.
    f.items_message(
        "01 82 15 84 f6 00 82 00 83 00 20 00 83 00 84 01 20 00 a1 05 82 11 82 82 12 a1 6161 81 07 f7 82 11 81 83 f6 20 00",
        "0 0 1 0 - unsigned 1\n1 1 38 0 - array 2\n2 2 3 1 - unsigned 21\n3 3 38 1 - array 4\n\
         4 4 5 2 - null\n5 5 6 2 - unsigned 0\n6 6 12 2 0 array 2\n7 7 8 3 0 unsigned 0\n\
         8 8 12 3 0 reference 3\n9 9 10 4 0 unsigned 0\n10 10 11 4 0 negative -1\n\
         11 11 12 4 0 unsigned 0\n12 12 38 2 1 array 3\n13 13 14 3 1 unsigned 0\n\
         14 14 31 3 1 reference 4\n15 15 16 4 1 unsigned 1\n16 16 17 4 1 negative -1\n\
         17 17 18 4 1 unsigned 0\n18 18 31 4 1 map 1\n19 19 20 5 1 unsigned 5\n\
         20 20 31 5 1 array 2\n21 21 22 6 1 unsigned 17\n22 22 31 6 1 array 2\n\
         23 23 30 7 1 array 2\n24 24 25 8 1 unsigned 18\n25 25 30 8 1 map 1\n26 26 28 9 1 text 1\n\
         27 28 30 9 1 reference 1\n28 29 30 10 1 unsigned 7\n29 30 31 7 1 undefined\n\
         30 31 38 3 1 array 2\n31 32 33 4 1 unsigned 17\n32 33 38 4 1 array 1\n\
         33 34 38 5 1 reference 3\n34 35 36 6 1 null\n35 36 37 6 1 negative -1\n\
         36 37 38 6 1 unsigned 0\naccepted 37",
    );
}

/// Of everything accepted above, the records too, where they are not many.
fn records_of_accepted(f: &mut Fixed) {
    f.group("item records of the accepted inputs above");
    let mut accepted = Vec::new();
    for line in &f.0 {
        let Line::Input { call, input, .. } = line else { continue };
        let (answer, items) = match call {
            Call::Single => (check_single(input), Call::ItemsSingle),
            Call::Message => (check_message(input), Call::ItemsMessage),
            _ => continue,
        };
        if matches!(answer, Answer::Accepted(..=40)) {
            accepted.push((items, input.clone()));
        }
    }
    for (call, input) in accepted {
        f.put(call, input, "");
    }
}

/// The bytes of an input that a line of the program has room for. Longer texts are compared
/// by other tests.
const LINE: usize = 33_270;

/// Both ways; the item count in an answer is that of the check.
fn fixed_texts(f: &mut Fixed) {
    f.group("ARIs and their texts, both ways");
    let short = texts::PAIRS.iter().map(|(digits, text)| (digits.to_string(), text.to_string()));
    for (digits, text) in short.chain(texts::long_pairs()) {
        let ari = hex(&digits);
        let Answer::Accepted(items) = check_single(&ari) else { panic!("{digits}") };
        let bytes = format!("bytes {items} {}", to_hex(&ari));
        f.put(Call::Write, ari, &format!("text {items} {text}"));
        if text.len() <= LINE {
            f.put(Call::Read, text.into_bytes(), &bytes);
        }
    }
    f.group("ARIs without a text");
    let short = texts::NO_TEXT.iter().map(|(digits, answer)| (digits.to_string(), *answer));
    for (digits, by_hand) in short.chain(texts::long_no_text()) {
        f.put(Call::Write, hex(&digits), by_hand);
    }
    f.group("no texts");
    for text in texts::NOT_TEXT {
        f.put(Call::Read, text.as_bytes().to_vec(), "refused 15 0");
    }
    for (text, by_hand) in texts::long_not_text().into_iter().filter(|(text, _)| text.len() <= LINE)
    {
        f.put(Call::Read, text.into_bytes(), by_hand);
    }
    for digits in ["80", "ff", "6172693a 253232 ff 253232", "6172693a 253232 c3bc 253232"] {
        f.put(Call::Read, hex(digits), "refused 15 0");
    }
}

/// Of every ARI accepted above its text too, where it is short.
fn texts_of_accepted(f: &mut Fixed) {
    f.group("texts of the accepted ARIs above");
    let mut accepted = Vec::new();
    for line in &f.0 {
        let Line::Input { call: Call::Single, input, .. } = line else { continue };
        if input.len() <= 64 && matches!(check_single(input), Answer::Accepted(_)) {
            accepted.push(input.clone());
        }
    }
    for input in accepted {
        f.put(Call::Write, input, "");
    }
}

#[cfg(test)]
mod tests {
    use super::*;

    #[test]
    fn answers_written_by_hand() {
        let mut compared = 0;
        let mut wrong = Vec::new();
        for line in lines() {
            if let Line::Input { call, input, by_hand: Some(by_hand) } = line {
                compared += 1;
                let answer = call.answer(&input);
                if answer != by_hand {
                    wrong.push(format!(
                        "{} {:.60}: by hand {by_hand:?}, the reading {answer:?}",
                        call.word(),
                        to_hex(&input)
                    ));
                }
            }
        }
        assert!(wrong.is_empty(), "{}", wrong.join("\n"));
        assert!(compared >= 1_500, "{compared}");
    }

    /// Every number at place 0, where that can be, and at a later place.
    #[test]
    fn every_refusal_occurs() {
        let mut seen = [[false; 2]; 14];
        for line in lines() {
            let Line::Input { call, input, .. } = line else { continue };
            let answer = match call {
                Call::Single => check_single(&input),
                Call::Message => check_message(&input),
                _ => continue,
            };
            if let Answer::Refused { number, place } = answer {
                seen[usize::from(number)][usize::from(place > 0)] = true;
            }
        }
        for number in 1..=13 {
            let at_0 = !matches!(number, 5 | 6 | 11 | 12 | 13);
            let later = !matches!(number, 1 | 8);
            assert_eq!(seen[number], [at_0, later], "{number}");
        }
    }
}
