//! 'Heads': one head from the front of some bytes, tests 2 to 4, and one put to
//! the end of some.

use crate::Test;

/// What a head says: its major type with the argument, a simple value, or a
/// float with its bits.
#[derive(Clone, Copy, Debug, PartialEq, Eq)]
pub enum Kind {
    Unsigned(u64),
    /// "In a negative head the argument n means -1 - n".
    Negative(u64),
    Bytes(u64),
    Text(u64),
    Array(u64),
    Map(u64),
    False,
    True,
    Null,
    Undefined,
    Half(u16),
    Single(u32),
    Double(u64),
}

impl std::fmt::Display for Kind {
    fn fmt(&self, f: &mut std::fmt::Formatter<'_>) -> std::fmt::Result {
        match *self {
            Kind::Unsigned(n) => write!(f, "unsigned {n}"),
            Kind::Negative(n) => write!(f, "negative {}", -1 - i128::from(n)),
            Kind::Bytes(n) => write!(f, "bytes {n}"),
            Kind::Text(n) => write!(f, "text {n}"),
            Kind::Array(n) => write!(f, "array {n}"),
            Kind::Map(n) => write!(f, "map {n}"),
            Kind::False => write!(f, "false"),
            Kind::True => write!(f, "true"),
            Kind::Null => write!(f, "null"),
            Kind::Undefined => write!(f, "undefined"),
            Kind::Half(bits) => write!(f, "half {bits:04x}"),
            Kind::Single(bits) => write!(f, "single {bits:08x}"),
            Kind::Double(bits) => write!(f, "double {bits:016x}"),
        }
    }
}

/// Reads the head at the front of `bytes`: its kind, and the bytes after it.
#[inline(always)]
pub(crate) fn read(bytes: &[u8]) -> Result<(Kind, &[u8]), Test> {
    // Test 2. Infos 24 to 27 bring an argument in every major type, also where
    // the head is not in use; infos 28 to 31 bring none.
    let (&initial, rest) = bytes.split_first().ok_or(Test::EndOfInput)?;
    let info = initial & 31;
    let (value, rest) = match info {
        0..=23 => (u64::from(info), rest),
        24 => argument::<1>(rest)?,
        25 => argument::<2>(rest)?,
        26 => argument::<4>(rest)?,
        27 => argument::<8>(rest)?,
        _ => return Err(Test::NotInUse),
    };
    // Tests 3 and 4. "Accept number and length heads that are longer than needed."
    let kind = match initial >> 5 {
        6 => return Err(Test::NotInUse),
        7 => simple_or_float(info, value)?,
        0 => Kind::Unsigned(value),
        1 => Kind::Negative(value),
        2 => Kind::Bytes(value),
        3 => Kind::Text(value),
        4 => Kind::Array(value),
        _ => Kind::Map(value),
    };
    Ok((kind, rest))
}

/// The bytes of a head that is in use, by its first.
pub fn head_size(initial: u8) -> usize {
    match initial & 31 {
        info @ 24..=27 => 1 + (1 << (info - 24)),
        _ => 1,
    }
}

/// A big-endian argument of N bytes, and the bytes after it.
#[inline(always)]
fn argument<const N: usize>(bytes: &[u8]) -> Result<(u64, &[u8]), Test> {
    let (argument, rest) = bytes.split_first_chunk::<N>().ok_or(Test::EndOfInput)?;
    let mut value = [0; 8];
    value[8 - N..].copy_from_slice(argument);
    Ok((u64::from_be_bytes(value), rest))
}

/// "simple values 20 to 23, and floats f9, fa, fb"
#[inline]
fn simple_or_float(info: u8, value: u64) -> Result<Kind, Test> {
    let (kind, shortest) = match info {
        20 => (Kind::False, true),
        21 => (Kind::True, true),
        22 => (Kind::Null, true),
        23 => (Kind::Undefined, true),
        25 => (Kind::Half(value as u16), half_is_shortest(value as u16)),
        26 => (Kind::Single(value as u32), single_is_shortest(value as u32)),
        27 => (Kind::Double(value), double_is_shortest(value)),
        _ => return Err(Test::NotInUse),
    };
    if shortest {
        Ok(kind)
    } else {
        Err(Test::NotShortest)
    }
}

/// "The only NaN is f97e00."
fn half_is_shortest(bits: u16) -> bool {
    let is_nan = bits & 0x7c00 == 0x7c00 && bits & 0x03ff != 0;
    !is_nan || bits == 0x7e00
}

/// "fa (exponent e, fraction m) is too long if it is a zero or an infinity; if
/// 113 <= e <= 142 and 2^13 divides m; or if 103 <= e <= 112 and 2^(126-e)
/// divides m."
fn single_is_shortest(bits: u32) -> bool {
    let e = bits >> 23 & 0xff;
    let m = bits & 0x7f_ffff;
    match e {
        0 => m != 0,
        255 => false, // an infinity, or another NaN
        113..=142 => m % (1 << 13) != 0,
        103..=112 => m % (1 << (126 - e)) != 0,
        _ => true,
    }
}

/// "fb is too long if it is a zero or an infinity; if 897 <= e <= 1150 and 2^29
/// divides m; or if 874 <= e <= 896 and 2^(926-e) divides m."
fn double_is_shortest(bits: u64) -> bool {
    let e = bits >> 52 & 0x7ff;
    let m = bits & 0xf_ffff_ffff_ffff;
    match e {
        0 => m != 0,
        2047 => false, // an infinity, or another NaN
        897..=1150 => m % (1 << 29) != 0,
        874..=896 => m % (1 << (926 - e)) != 0,
        _ => true,
    }
}

/// The bytes that an argument needs behind the first: 0, 1, 2, 4 or 8.
pub fn width(argument: u64) -> usize {
    match argument {
        0..=23 => 0,
        24..=0xff => 1,
        0x100..=0xffff => 2,
        0x1_0000..=0xffff_ffff => 4,
        _ => 8,
    }
}

/// The major type and argument of a head, none for simple values and floats.
pub fn major(kind: Kind) -> Option<(u8, u64)> {
    match kind {
        Kind::Unsigned(n) => Some((0, n)),
        Kind::Negative(n) => Some((1, n)),
        Kind::Bytes(n) => Some((2, n)),
        Kind::Text(n) => Some((3, n)),
        Kind::Array(n) => Some((4, n)),
        Kind::Map(n) => Some((5, n)),
        _ => None,
    }
}

/// Appends the shortest head.
pub fn put_head(out: &mut Vec<u8>, major: u8, argument: u64) {
    put_wide_head(out, major, argument, width(argument));
}

/// The bytes of a number's or a length's shortest head.
#[derive(Clone, Copy)]
pub struct Shortest {
    bytes: [u8; 9],
    size: usize,
}

impl Shortest {
    pub fn iter(&self) -> std::slice::Iter<'_, u8> {
        self.bytes[..self.size].iter()
    }
}

pub fn shortest(kind: Kind) -> Shortest {
    let (major, argument) = major(kind).expect("a number or a length");
    let width = width(argument);
    let mut bytes = [0; 9];
    bytes[0] = major << 5 | info(argument, width);
    bytes[1..=width].copy_from_slice(&argument.to_be_bytes()[8 - width..]);
    Shortest { bytes, size: 1 + width }
}

/// An accepted input with every number and length in its shortest head.
pub fn shortened(input: &[u8]) -> Vec<u8> {
    let (mut out, mut rest) = (Vec::new(), input);
    while !rest.is_empty() {
        let (kind, after) = read(rest).expect("accepted");
        let head = &rest[..rest.len() - after.len()];
        match major(kind) {
            Some((major, argument)) => put_head(&mut out, major, argument),
            None => out.extend(head),
        }
        let length = match kind {
            Kind::Bytes(length) | Kind::Text(length) => length as usize,
            _ => 0,
        };
        out.extend(&after[..length]);
        rest = &after[length..];
    }
    out
}

fn info(argument: u64, width: usize) -> u8 {
    match width {
        0 => argument as u8 & 31,
        1 => 24,
        2 => 25,
        4 => 26,
        _ => 27,
    }
}

/// Appends a head whose argument has 0 (in the first byte), 1, 2, 4 or 8 bytes.
pub fn put_wide_head(out: &mut Vec<u8>, major: u8, argument: u64, width: usize) {
    out.push(major << 5 | info(argument, width));
    out.extend(&argument.to_be_bytes()[8 - width..]);
}

#[cfg(test)]
mod tests {
    use super::*;

    /// The clauses are "the shortest of its three sizes that keeps the number":
    /// every half, seen as a single and as a double, is too long there, and
    /// the neighbours of its single are not.
    #[test]
    fn floats_that_a_half_holds() {
        for half in 0..=u16::MAX {
            let e = i32::from(half >> 10 & 31);
            let m = f64::from(half & 0x3ff);
            if e == 31 {
                continue;
            }
            let size = match e {
                0 => m * f64::powi(2.0, -24),
                _ => (1.0 + m / 1024.0) * f64::powi(2.0, e - 15),
            };
            let value = if half >> 15 == 1 { -size } else { size };
            let single = (value as f32).to_bits();
            assert!(half_is_shortest(half));
            assert!(!single_is_shortest(single), "{single:08x}");
            assert!(!double_is_shortest(value.to_bits()));
            assert!(single_is_shortest(single ^ 1), "{single:08x}");
            assert!(double_is_shortest(value.to_bits() ^ 1));
        }
    }

    /// A double is too long exactly if a single holds the same number.
    #[test]
    fn doubles_that_a_single_holds() {
        let mut singles = vec![0, 1, 2, 0x7f_ffff, 0x80_0000, 0x7f7f_ffff, 0x7f80_0000];
        singles.extend((0..=254).flat_map(|e| [e << 23, e << 23 | 1, e << 23 | 0x7f_ffff]));
        singles.extend((0..23).map(|bit| 1 << bit));
        for single in singles {
            let double = f64::from(f32::from_bits(single)).to_bits();
            for near in [double, double ^ 1, double ^ 1 << 28, double ^ 1 << 29] {
                let value = f64::from_bits(near);
                let kept = f64::from(value as f32).to_bits() == near;
                assert_eq!(double_is_shortest(near), !kept && !value.is_nan(), "{near:016x}");
            }
        }
    }

    #[test]
    fn not_a_number() {
        assert!(half_is_shortest(0x7e00));
        for bits in [0x7c01, 0x7dff, 0x7e01, 0x7fff, 0xfc01, 0xfe00, 0xffff] {
            assert!(!half_is_shortest(bits), "{bits:04x}");
        }
        assert!(!single_is_shortest(0x7fc0_0000) && !single_is_shortest(0x7f80_0001));
        assert!(!double_is_shortest(0x7ff8 << 48) && !double_is_shortest(0x7ff0 << 48 | 1));
    }
}
