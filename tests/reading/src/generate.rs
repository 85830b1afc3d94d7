//! Inputs for comparisons and times: ARIs and messages from the grammar,
//! shapes near the limits, damaged ones, and random bytes. Nothing here is
//! taken for right or wrong; that is for the readers to say.

pub mod days;
pub mod months;
pub mod names;
pub mod nests;
pub mod orders;
pub mod pairs;
pub mod strikes;
pub mod tables;
pub mod texts;

use crate::head::{self, major};
pub use crate::head::{put_head, put_wide_head, width};
use crate::{Kind, Record, LIMITS};

/// SplitMix64: small, seeded, the same on every machine.
pub struct Random(u64);

impl Random {
    pub fn new(seed: u64) -> Random {
        Random(seed)
    }

    pub fn word(&mut self) -> u64 {
        self.0 = self.0.wrapping_add(0x9e37_79b9_7f4a_7c15);
        let mut z = self.0;
        z = (z ^ z >> 30).wrapping_mul(0xbf58_476d_1ce4_e5b9);
        z = (z ^ z >> 27).wrapping_mul(0x94d0_49bb_1331_11eb);
        z ^ z >> 31
    }

    /// A number from 0 to `bound` - 1; 0 if `bound` is 0.
    pub fn below(&mut self, bound: usize) -> usize {
        ((u128::from(self.word()) * bound as u128) >> 64) as usize
    }

    /// True `percent` times in a hundred.
    pub fn chance(&mut self, percent: usize) -> bool {
        self.below(100) < percent
    }

    pub fn pick<T: Copy>(&mut self, from: &[T]) -> T {
        from[self.below(from.len())]
    }

    /// A number of up to 64 bits, all sizes alike, often at an edge.
    fn number(&mut self) -> u64 {
        let bits = self.below(65) as u32;
        let edge = 1u64.checked_shl(bits).unwrap_or(0);
        match self.below(4) {
            0 => edge,
            1 => edge.wrapping_sub(1),
            _ => self.word() & edge.wrapping_sub(1),
        }
    }
}

/// A half holds exactly the numbers of up to 11 significant bits that are
/// multiples of 2^-24 and at most 65,504.
fn fits_half(value: f64) -> bool {
    let units = value.abs() * f64::from(1 << 24);
    let whole = units as u64;
    value.abs() <= 65_504.0
        && whole as f64 == units
        && (whole == 0 || whole >> whole.trailing_zeros() < 2_048)
}

/// What inputs from the grammar tend to be like.
#[derive(Clone, Copy)]
pub struct Settings {
    /// Items to aim at, for the whole input.
    pub items: usize,
    /// Bytes to aim at, for the whole input.
    pub bytes: usize,
    /// Containers that may be open at once.
    pub containers: usize,
    /// In a hundred: how often an ARI is a container.
    pub nesting: usize,
    /// How long strings and names tend to be.
    pub string: usize,
    /// Whether numbers tend to fit one byte.
    pub small_numbers: bool,
    /// Whether there are floats; an ARI with one has no text.
    pub floats: bool,
    /// Whether namespaces are few, and all of them numbers.
    pub few_namespaces: bool,
    /// In a hundred: how often a head is longer than it has to be; at 100 every
    /// one is 9 bytes long.
    pub wide: usize,
}

/// The namespaces where they are few.
pub const NAMESPACES: [i64; 8] = [65_536, -20, 0, -1, 65_537, i64::MIN, i64::MAX, -300];

/// Writes ARIs and messages by the grammar.
struct Writer<'r> {
    random: &'r mut Random,
    settings: Settings,
    out: Vec<u8>,
    items: usize,
    open: usize,
}

impl<'r> Writer<'r> {
    fn new(random: &'r mut Random, settings: Settings) -> Writer<'r> {
        Writer { random, settings, out: Vec::new(), items: 0, open: 0 }
    }

    fn head(&mut self, major: u8, argument: u64) {
        self.items += 1;
        let width = self.width(argument);
        put_wide_head(&mut self.out, major, argument, width);
    }

    /// The bytes for an argument behind a head's first.
    fn width(&mut self, argument: u64) -> usize {
        match self.settings.wide {
            0 => width(argument),
            100 => 8,
            wide if self.random.chance(wide) => {
                let widths = [0, 1, 2, 4, 8];
                let least = widths.iter().position(|w| *w == width(argument)).unwrap();
                self.random.pick(&widths[least..])
            }
            _ => width(argument),
        }
    }

    fn simple(&mut self, initial: u8) {
        self.items += 1;
        self.out.push(initial);
    }

    fn container(&mut self, major: u8, length: usize, members: impl FnOnce(&mut Self)) {
        self.head(major, length as u64);
        self.open += 1;
        members(self);
        self.open -= 1;
    }

    /// Whether the settings leave room for more.
    fn has_room(&self) -> bool {
        self.items + 8 < self.settings.items && self.out.len() + 24 < self.settings.bytes
    }

    fn may_open(&self, containers: usize) -> bool {
        self.open + containers <= self.settings.containers
    }

    /// How many members to write, at least `least`.
    fn count(&mut self, least: usize) -> usize {
        if !self.has_room() {
            return least;
        }
        let most = match self.random.below(16) {
            0..=10 => 3,
            11..=14 => 8,
            _ => 40,
        };
        least + self.random.below(most + 1)
    }

    fn unsigned(&mut self, most: u64) {
        let number = if self.settings.small_numbers && self.random.chance(80) {
            self.random.below(40) as u64
        } else {
            self.random.number()
        };
        let number = match number <= most {
            true => number,
            false => self.random.pick(&[0, 1, most - 1, most]),
        };
        self.head(0, number);
    }

    /// An integer from -1 - `most_negative` to `most`.
    fn integer(&mut self, most: u64, most_negative: u64) {
        if self.random.chance(60) {
            self.unsigned(most);
        } else {
            let number = self.random.number();
            let number = match number <= most_negative {
                true => number,
                false => self.random.pick(&[0, 1, most_negative]),
            };
            self.head(1, number);
        }
    }

    fn vast(&mut self) {
        self.integer(i64::MAX as u64, i64::MAX as u64);
    }

    fn string_length(&mut self) -> usize {
        let most = match self.random.below(20) {
            0..=16 => self.settings.string,
            17 | 18 => 4 * self.settings.string,
            _ => 300,
        };
        let left = self.settings.bytes.saturating_sub(self.out.len());
        self.random.below(most + 1).min(left / 2)
    }

    fn bytes(&mut self) {
        let length = self.string_length();
        self.head(2, length as u64);
        for _ in 0..length {
            self.out.push(self.random.word() as u8);
        }
    }

    /// A string that takes `left` bytes with its head, or one fewer.
    fn fill(&mut self, major: u8, left: usize) {
        let full = self.settings.wide == 100;
        let length = match left {
            _ if full => left.saturating_sub(9),
            0..=24 => left.saturating_sub(1),
            25..=257 => left - 2,
            _ => left - 3,
        };
        let width = if full { 8 } else { width(length as u64) };
        self.items += 1;
        put_wide_head(&mut self.out, major, length as u64, width);
        self.out.resize(self.out.len() + length, 0x5a);
    }

    fn text(&mut self) {
        let length = self.string_length();
        let mut text = String::new();
        let ascii = self.random.chance(60);
        while text.len() < length {
            text.push(match self.random.below(8) {
                _ if ascii => self.random.pick(b"abcdef ABC.,-_~!\"%0123456789\n\0\x7f") as char,
                0 => self.random.pick(&['\u{80}', '\u{7ff}', '\u{fc}']),
                1 => self.random.pick(&['\u{800}', '\u{fff}', '\u{1000}', '\u{cfff}', '\u{d000}']),
                2 => self.random.pick(&['\u{d7ff}', '\u{e000}', '\u{ffff}', '\u{6c34}']),
                3 => self.random.pick(&['\u{10000}', '\u{3ffff}', '\u{40000}', '\u{10ffff}']),
                _ => 'n',
            });
        }
        self.head(3, text.len() as u64);
        self.out.extend(text.as_bytes());
    }

    fn name(&mut self, private: bool) {
        let length = match self.random.below(12) {
            0 => 64,
            _ => 1 + self.random.below(self.settings.string.clamp(1, 64)),
        };
        self.head(3, (length + usize::from(private)) as u64);
        if private {
            self.out.push(b'!');
        }
        self.out.push(self.random.pick(b"abcxyzABCXYZ_"));
        for _ in 1..length {
            self.out.push(self.random.pick(b"abcxyzABCXYZ_-.0189"));
        }
    }

    /// A float in its shortest size, at most `width` (2, 4 or 8) bytes.
    fn float(&mut self, width: usize) {
        let width = self.random.pick(match width {
            4 => &[2, 4],
            _ => &[2, 4, 8],
        });
        self.items += 1;
        loop {
            let bits = self.random.word();
            match width {
                2 => {
                    let half = if bits % 8 == 0 { 0x7e00 } else { bits as u16 };
                    if half & 0x7fff <= 0x7c00 || half == 0x7e00 {
                        self.out.push(0xf9);
                        return self.out.extend(half.to_be_bytes());
                    }
                }
                4 => {
                    let value = f32::from_bits(bits as u32);
                    if value.is_finite() && !fits_half(value.into()) {
                        self.out.push(0xfa);
                        return self.out.extend(value.to_bits().to_be_bytes());
                    }
                }
                _ => {
                    let value = f64::from_bits(bits);
                    if value.is_finite() && f64::from(value as f32) != value {
                        self.out.push(0xfb);
                        return self.out.extend(bits.to_be_bytes());
                    }
                }
            }
        }
    }

    fn literal(&mut self) {
        match self.random.below(20) {
            0..=8 => self.integer(u64::MAX, i64::MAX as u64),
            9..=12 => self.text(),
            13..=14 => self.bytes(),
            15 if self.settings.floats => self.float(8),
            _ => {
                let simple = self.random.pick(&[0xf4, 0xf5, 0xf6, 0xf7]);
                self.simple(simple);
            }
        }
    }

    fn ari(&mut self, in_parameters: bool) {
        if !self.has_room() || !self.may_open(1) || !self.random.chance(self.settings.nesting) {
            return self.literal();
        }
        match self.random.below(10) {
            0 => self.container(4, 1, |m| m.namespace(false)),
            1..=4 => self.container(4, 2, |m| m.typed(in_parameters)),
            _ => self.object(),
        }
    }

    fn namespace(&mut self, may_be_null: bool) {
        if self.settings.few_namespaces {
            let number = self.random.pick(&NAMESPACES);
            return match number < 0 {
                true => self.head(1, !number as u64),
                false => self.head(0, number as u64),
            };
        }
        match self.random.below(10) {
            0 if may_be_null => self.simple(0xf6),
            0 | 1 => self.name(false),
            2 => self.name(true),
            3..=5 => self.head(0, 65_536),
            6 => self.head(1, 19),
            _ => self.vast(),
        }
    }

    fn object(&mut self) {
        let parameters = self.has_room() && self.may_open(2) && self.random.chance(60);
        self.container(4, 3 + usize::from(parameters), |m| {
            m.namespace(true);
            match m.random.below(8) {
                0 => m.name(false),
                _ => {
                    let n = m.random.pick(&[0, 1, 2, 3, 5, 7, 9, 10, 11, 254, 255]);
                    m.head(1, n);
                }
            }
            match m.random.below(8) {
                0 | 1 => m.name(false),
                _ => m.unsigned(i64::MAX as u64),
            }
            if parameters {
                let count = m.count(1).max(1);
                if m.random.chance(70) {
                    m.container(4, count, |m| (0..count).for_each(|_| m.ari(true)));
                } else {
                    m.map(count, true);
                }
            }
        });
    }

    /// Keys for a map in shortest heads, at most `most` and at least one unless `most` is 0.
    fn keys(&mut self, most: usize) -> Vec<Vec<u8>> {
        let mut keys = Vec::new();
        for _ in 0..most {
            let mut key = Writer::new(self.random, Settings { wide: 0, ..self.settings });
            match key.random.below(3) {
                0 => key.text(),
                _ => key.integer(u64::MAX, i64::MAX as u64),
            }
            keys.push(key.out);
        }
        keys.sort();
        keys.dedup();
        keys
    }

    /// A map with at most `most` pairs, at least one unless `most` is 0.
    fn map(&mut self, most: usize, in_parameters: bool) {
        let keys = self.keys(most);
        self.container(5, keys.len(), |m| {
            for key in keys {
                let (kind, string) = head::read(&key).expect("a key");
                let (major, argument) = major(kind).expect("a key");
                m.head(major, argument);
                m.out.extend(string);
                m.ari(in_parameters);
            }
        });
    }

    fn typed(&mut self, in_parameters: bool) {
        const TYPES: [u64; 17] = [0, 1, 2, 4, 5, 6, 7, 8, 9, 10, 11, 12, 13, 14, 15, 17, 18];
        let mut number = self.random.pick(&TYPES);
        if number == 14 && !in_parameters
            || matches!(number, 8 | 9) && !self.settings.floats
            || number >= 17 && !self.may_open(1)
        {
            number = 6;
        }
        self.head(0, number);
        match number {
            0 => self.simple(0xf6),
            1 => {
                let simple = self.random.pick(&[0xf4, 0xf5]);
                self.simple(simple);
            }
            2 => self.unsigned(255),
            4 => self.integer((1 << 31) - 1, (1 << 31) - 1),
            5 => self.unsigned((1 << 32) - 1),
            6 | 12 | 13 => self.vast(),
            7 => self.unsigned(u64::MAX),
            8 => self.float(4),
            9 => self.float(8),
            10 => self.text(),
            11 | 15 => self.bytes(),
            14 => self.name(false),
            17 => {
                let count = self.count(0);
                self.container(4, count, |m| (0..count).for_each(|_| m.ari(in_parameters)));
            }
            _ => {
                let most = self.count(0);
                self.map(most, in_parameters);
            }
        }
    }

    fn nonce(&mut self) {
        match self.random.below(4) {
            0 => self.simple(0xf6),
            1 => self.bytes(),
            _ => self.unsigned(u64::MAX >> 1),
        }
    }

    fn set(&mut self) {
        self.container(4, 2, |m| {
            let targets = m.count(0);
            if m.random.chance(60) {
                m.head(0, 20);
                m.container(4, 1 + targets, |m| {
                    m.nonce();
                    (0..targets).for_each(|_| m.object());
                });
            } else {
                m.head(0, 21);
                m.container(4, 2 + targets, |m| {
                    m.nonce();
                    m.vast();
                    (0..targets).for_each(|_| m.report());
                });
            }
        });
    }

    fn report(&mut self) {
        let count = self.count(0);
        self.container(4, 2 + count, |m| {
            m.vast();
            m.object();
            (0..count).for_each(|_| m.ari(false));
        });
    }
}

/// Settings of all sizes within the limits, most of them small.
pub fn settings(random: &mut Random) -> Settings {
    let items = match random.below(20) {
        0..=9 => 10 + random.below(40),
        10..=16 => 20 + random.below(200),
        17 | 18 => 100 + random.below(LIMITS.items / 4),
        _ => 100 + random.below(LIMITS.items),
    };
    Settings {
        items,
        bytes: LIMITS.bytes,
        containers: random.pick(&[3, 6, LIMITS.containers, LIMITS.containers]),
        nesting: random.pick(&[10, 40, 70, 95]),
        string: random.pick(&[3, 10, 30]),
        small_numbers: random.chance(50),
        floats: true,
        few_namespaces: false,
        wide: random.pick(&[0, 0, 0, 10, 50, 100]),
    }
}

pub fn single(random: &mut Random, settings: Settings) -> Vec<u8> {
    let mut writer = Writer::new(random, settings);
    match writer.random.below(10) {
        0 => writer.literal(),
        1..=2 => writer.set(),
        3..=6 => writer.object(),
        _ => writer.ari(false),
    }
    writer.out
}

pub fn message(random: &mut Random, settings: Settings) -> Vec<u8> {
    let mut writer = Writer::new(random, settings);
    writer.head(0, 1);
    while writer.has_room() && writer.random.chance(90) {
        writer.set();
    }
    writer.out
}

/// A message of `bytes` bytes or a few fewer: sets by the grammar, then one
/// whose nonce fills what is left.
pub fn full_message(random: &mut Random, mut settings: Settings, bytes: usize) -> Vec<u8> {
    // What is open when the room runs out is still closed, which takes more in wide heads.
    settings.bytes = if settings.wide == 100 { bytes - bytes / 4 } else { bytes };
    let mut writer = Writer::new(random, settings);
    writer.head(0, 1);
    while writer.has_room() {
        writer.set();
    }
    writer.head(4, 2);
    writer.head(0, 20);
    writer.head(4, 1);
    let left = bytes.saturating_sub(writer.out.len());
    writer.fill(2, left);
    writer.out
}

/// An accepted input again, with letters in the other case in some of its text strings, and
/// with some heads of other sizes, both by chance of so many in a hundred.
pub fn rewritten(random: &mut Random, input: &[u8], letters: usize, heads: usize) -> Vec<u8> {
    let (mut out, mut rest) = (Vec::new(), input);
    while let Ok((kind, after)) = head::read(rest) {
        let head = &rest[..rest.len() - after.len()];
        match major(kind) {
            Some((major, argument)) if random.chance(heads) => {
                let least = width(argument);
                let widths = [0, 1, 2, 4, 8].into_iter().filter(|width| *width >= least);
                let width = random.pick(&widths.collect::<Vec<_>>());
                put_wide_head(&mut out, major, argument, width);
            }
            _ => out.extend(head),
        }
        let (length, other_case) = match kind {
            Kind::Bytes(length) => (length as usize, false),
            Kind::Text(length) => (length as usize, random.chance(letters)),
            _ => (0, false),
        };
        let Some((string, behind)) = after.split_at_checked(length) else { break };
        for byte in string {
            let turned = other_case && byte.is_ascii_alphabetic() && random.chance(50);
            out.push(if turned { byte ^ 0x20 } else { *byte });
        }
        rest = behind;
    }
    out.extend(rest);
    out
}

/// An accepted input again, with one letter of one text string in the other case, if there is
/// one. Labels, which are rare, come before other strings every other time.
pub fn one_letter(random: &mut Random, input: &[u8], records: &[Record]) -> Vec<u8> {
    let letters = |k: usize| match records[k].kind {
        Kind::Text(length) => {
            let string = records[k].after - length as usize..records[k].after;
            string.filter(|at| input[*at].is_ascii_alphabetic()).collect()
        }
        _ => Vec::new(),
    };
    let strings: Vec<usize> = (0..records.len()).filter(|k| !letters(*k).is_empty()).collect();
    // Behind the number of their type.
    let is_label = |k: &usize| *k > 0 && records[*k - 1].kind == Kind::Unsigned(14);
    let labels: Vec<usize> = strings.iter().copied().filter(is_label).collect();
    let mut out = input.to_vec();
    if !strings.is_empty() {
        let labels_alone = !labels.is_empty() && random.chance(50);
        let k = random.pick(if labels_alone { &labels } else { &strings });
        out[random.pick(&letters(k))] ^= 0x20;
    }
    out
}

/// A list of `bytes` bytes or a few fewer: ARIs by the grammar, then a text string
/// that fills what is left.
pub fn full_list(random: &mut Random, mut settings: Settings, bytes: usize) -> Vec<u8> {
    settings.bytes = bytes;
    let mut writer = Writer::new(random, settings);
    writer.items = 4;
    writer.open = 2;
    let mut count = 1;
    while writer.has_room() {
        writer.ari(false);
        count += 1;
    }
    let mut list = vec![0x82, 0x11];
    put_head(&mut list, 4, count);
    let left = bytes.saturating_sub(list.len() + writer.out.len());
    writer.fill(3, left);
    list.extend(writer.out);
    list
}

/// A message whose parameters, lists and maps reach `containers` open
/// containers.
pub fn nested_message(random: &mut Random, containers: usize) -> Vec<u8> {
    let mut out = vec![0x01];
    if random.chance(50) {
        out.extend([0x82, 0x14, 0x82, 0xf6]);
    } else {
        out.extend([0x82, 0x15, 0x83, 0xf6, 0x00, 0x83, 0x00, 0x83, 0xf6, 0x20, 0x00]);
    }
    let open = if out[2] == 0x14 { 2 } else { 3 };
    nest(random, &mut out, containers.saturating_sub(open), open == 2);
    out
}

/// A single ARI that reaches `containers` open containers.
pub fn nested_single(random: &mut Random, containers: usize) -> Vec<u8> {
    let mut out = Vec::new();
    nest(random, &mut out, containers, false);
    out
}

fn nest(random: &mut Random, out: &mut Vec<u8>, mut containers: usize, mut target: bool) {
    while containers >= 2 {
        match random.below(3) {
            0 if !target => out.extend([0x82, 0x11, 0x81]),
            1 if !target => out.extend([0x82, 0x12, 0xa1, 0x00]),
            2 => out.extend([0x84, 0xf6, 0x20, 0x00, 0xa1, 0x20]),
            _ => out.extend([0x84, 0x00, 0x21, 0x61, 0x61, 0x81]),
        }
        containers -= 2;
        target = false;
    }
    match containers {
        _ if target => out.extend([0x83, 0x00, 0x20, 0x00]),
        0 => out.push(random.pick(&[0x00, 0xf7, 0x40, 0x60])),
        _ => {
            let last: [&[u8]; 4] = [&[0x81, 0x00], &[0x82, 0x00, 0xf6], &[0x80], &[0xa0]];
            out.extend(random.pick(&last));
        }
    }
}

/// A message of exactly `items` items: `start`, a message of `start_items`
/// items, and one report that holds the rest (11 items at least).
pub fn counted_message(start: &[u8], start_items: usize, items: usize) -> Vec<u8> {
    let mut out = start.to_vec();
    let count = items.saturating_sub(start_items + 11);
    out.extend([0x82, 0x15, 0x83, 0xf6, 0x00]);
    put_head(&mut out, 4, 2 + count as u64);
    out.extend([0x00, 0x83, 0xf6, 0x20, 0x00]);
    out.resize(out.len() + count, 0xf7);
    out
}

/// Random bytes, or random heads with little regard to the grammar.
pub fn random_input(random: &mut Random) -> Vec<u8> {
    let length = random.below(40);
    let starts: [&[u8]; 5] = [&[], &[], &[0x01], &[0x01, 0x82, 0x14], &[0x01, 0x82, 0x15]];
    let mut out = random.pick(&starts).to_vec();
    if random.chance(40) {
        out.extend((0..length).map(|_| random.word() as u8));
        return out;
    }
    for _ in 0..length {
        match random.below(12) {
            0..=4 => put_head(&mut out, 4, random.pick(&[1, 2, 2, 3, 3, 4])),
            5 => put_head(&mut out, 5, random.pick(&[0, 1, 2])),
            6 => out.push(random.pick(&[0x11, 0x12, 0x14, 0x15, 0x0e])),
            7 => put_head(&mut out, 1, random.below(300) as u64),
            8 => out.extend([0x61, b'a' + random.below(26) as u8]),
            9 => put_head(&mut out, random.below(8) as u8, random.number()),
            _ => out.push(random.pick(&[0x00, 0x01, 0xf4, 0xf6, 0xf7, 0x40])),
        }
    }
    out
}

/// A float with few significant bits and an exponent near a boundary of the
/// float rule, or a text of bytes near the boundaries of RFC 3629's table.
pub fn boundary_literal(random: &mut Random) -> Vec<u8> {
    // In how many low bits the fraction is zero.
    let zeros = random.below(53);
    match random.below(4) {
        0 => {
            let exponent = random.pick(&[0, 1, 255, 102, 103, 112, 113, 142, 143]);
            let exponent = if random.chance(50) { exponent } else { 100 + random.below(16) };
            let fraction = random.word() as usize >> zeros.min(23) << zeros.min(23) & 0x7f_ffff;
            let sign = random.below(2) << 31;
            let bits = (sign | exponent << 23 | fraction) as u32;
            [&[0xfa][..], &bits.to_be_bytes()].concat()
        }
        1 => {
            let exponent = random.pick(&[0, 1, 2047, 873, 874, 896, 897, 1150, 1151]);
            let exponent = if random.chance(50) { exponent } else { 870 + random.below(30) };
            let fraction = random.word() >> zeros << zeros & 0xf_ffff_ffff_ffff;
            let sign = random.word() & 1 << 63;
            let bits = sign | (exponent as u64) << 52 | fraction;
            [&[0xfb][..], &bits.to_be_bytes()].concat()
        }
        _ => {
            const EDGES: &[u8] =
                b"a\x7f\x80\x8f\x90\x9f\xa0\xbf\xc1\xc2\xdf\xe0\xe1\xec\xed\xee\xef\
                \xf0\xf1\xf3\xf4\xf5";
            let length = random.below(9);
            let mut out = Vec::new();
            put_head(&mut out, 3, length as u64);
            let tails = random.chance(70);
            for k in 0..length {
                let edge = random.pick(EDGES);
                out.push(if tails && k % 4 != 0 { 0x80 | edge & 0x3f } else { edge });
            }
            out
        }
    }
}

/// One place damaged: bytes anywhere, or, where the whole was accepted and its
/// `records` are known, a head, an item or a map's keys. `other` is any other
/// input, to splice with.
pub fn damage(random: &mut Random, whole: &mut Vec<u8>, records: &[Record], other: &[u8]) {
    let at = random.below(whole.len() + 1);
    if records.is_empty() || random.chance(35) {
        match random.below(7) {
            0 if at < whole.len() => whole[at] ^= 1 << random.below(8),
            1 if at < whole.len() => whole[at] = random.word() as u8,
            2 => whole.insert(at, random.word() as u8),
            3 if at < whole.len() => drop(whole.remove(at)),
            4 => whole.truncate(at),
            5 => {
                whole.truncate(at);
                whole.extend(&other[random.below(other.len() + 1)..]);
            }
            _ => whole.extend((0..=random.below(3)).map(|_| random.word() as u8)),
        }
        return;
    }
    let record = records[random.below(records.len())];
    let item = whole[record.first..record.after].to_vec();
    // The size of the head as it stands.
    let after = head::read(&item).expect("accepted").1;
    let head_size = item.len() - after.len();
    let mut put = Vec::new();
    let head = record.first..record.first + head_size;
    match (random.below(10), major(record.kind)) {
        (0, Some((major, argument))) => {
            let wider: &[usize] = match head_size {
                1 => &[1, 2, 4, 8],
                2 => &[2, 4, 8],
                3 => &[4, 8],
                _ => &[8],
            };
            put_wide_head(&mut put, major, argument, random.pick(wider));
            whole.splice(head, put);
        }
        (1, Some((major, argument))) => {
            let near = random.pick(&[argument.wrapping_add(1), argument.wrapping_sub(1)]);
            let far = random.number();
            put_head(&mut put, major, if random.chance(70) { near } else { far });
            whole.splice(head, put);
        }
        (2, Some((major, argument))) => {
            put_head(&mut put, (major + 1 + random.below(5) as u8) % 6, argument);
            whole.splice(head, put);
        }
        (3, _) => {
            let settings = settings(random);
            let instead = single(random, Settings { items: 12, ..settings });
            whole.splice(record.first..record.after, instead);
        }
        (4, _) => {
            let around: &[&[u8]] = &[
                &[0x81],
                &[0x82, 0x11, 0x81],
                &[0x82, 0x0e],
                &[0x82, 0x14],
                &[0x84, 0xf6, 0x20, 0x00, 0x81],
                &[0x81, 0x81, 0x81, 0x81, 0x81, 0x81, 0x81, 0x81],
            ];
            let before = random.pick(around);
            whole.splice(record.first..record.first, before.iter().copied());
        }
        (5, _) => {
            let small: &[&[u8]] = &[
                &[0x80],
                &[0xa0],
                &[0xf6],
                &[0x20],
                &[0x60],
                &[0xf0],
                &[0xc1, 0x00],
                &[0xf9, 0x3c, 0x00],
                &[0xfa, 0x3f, 0x80, 0x00, 0x00],
                &[0x62, 0xc3, 0x28],
                &[0x83, 0xf6, 0x20, 0x00],
            ];
            let instead = random.pick(small);
            whole.splice(record.first..record.after, instead.iter().copied());
        }
        (6, _) => {
            whole.splice(record.after..record.after, item);
        }
        (7, _) => {
            // One of a text's last bytes.
            let has_bytes = |r: &Record| matches!(r.kind, Kind::Text(1..));
            if let Some(k) = some(random, records, has_bytes) {
                let length = records[k].after - records[k].first;
                let at = records[k].after - 1 - random.below(length.min(3) - 1);
                whole[at] = random.pick(b"\x80\xbf\xc3\xe0\xed\xf0\xf4\xff !");
            }
        }
        (8, _) => {
            // A reference's parameters, its last member, are emptied.
            let has_parameters = |r: &Record| r.reference && r.kind == Kind::Array(4);
            if let Some(k) = some(random, records, has_parameters) {
                let parameters = members(records, k)[3];
                let empty = random.pick(&[0x80, 0xa0]);
                whole.splice(parameters.first..parameters.after, [empty]);
            }
        }
        _ => {
            // Two neighbouring keys of a map change places.
            let has_keys = |r: &Record| matches!(r.kind, Kind::Map(2..));
            if let Some(k) = some(random, records, has_keys) {
                let members = members(records, k);
                let key = 2 * random.below(members.len() / 2 - 1);
                let (one, two) = (members[key], members[key + 2]);
                let first = whole[one.first..one.after].to_vec();
                let second = whole[two.first..two.after].to_vec();
                whole.splice(two.first..two.after, first);
                whole.splice(one.first..one.after, second);
            }
        }
    }
}

/// The number of some record of which `wanted` holds.
fn some(random: &mut Random, records: &[Record], wanted: fn(&Record) -> bool) -> Option<usize> {
    let found: Vec<usize> = (0..records.len()).filter(|&k| wanted(&records[k])).collect();
    (!found.is_empty()).then(|| random.pick(&found))
}

/// The members of container `k`, for a map keys and values in turn.
fn members(records: &[Record], k: usize) -> Vec<&Record> {
    let container = &records[k];
    let inside = records[k + 1..].iter().take_while(|r| r.first < container.after);
    inside.filter(|r| r.around == container.around + 1).collect()
}
