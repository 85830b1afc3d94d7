//! Lists of names: those that occur in a message, some of them twice or in the other
//! list, names that are nearly alike, and lines with every fault. Also messages whose
//! references go by such names, names to look for, and tables for the numbers.

use super::tables::{shuffle, table_granting};
use super::{put_head, Random, NAMESPACES};
use crate::names::{lines, name_at, number_of, Line};
use crate::{items_message, listing, Namespace, LIMITS};

/// The published list, and the subscriber's own.
pub type Lists = (Vec<u8>, Vec<u8>);

/// Some differ in case only, some begin like another one.
const IDENTIFIERS: [&str; 10] =
    ["a", "A", "ab", "a.b", "a-", "_", "Z9", "buoy", "Buoy-North", "buoy-north"];

pub fn any_name(random: &mut Random) -> Vec<u8> {
    let mut name = match random.chance(40) {
        true => b"!".to_vec(),
        false => Vec::new(),
    };
    match random.below(8) {
        0 => name.extend([random.pick(b"aA_"); 64]),
        1 => {
            name.push(random.pick(b"abcxyzABCXYZ_"));
            name.extend((0..random.below(64)).map(|_| random.pick(b"abcxyzABCXYZ_-.0189")));
        }
        _ => name.extend(random.pick(&IDENTIFIERS).bytes()),
    }
    name
}

fn any_number(random: &mut Random) -> i64 {
    match random.below(4) {
        0 => random.word() as i64 >> random.below(64),
        _ => random.pick(&NAMESPACES),
    }
}

fn line(random: &mut Random, name: &[u8]) -> Vec<u8> {
    [name, format!("={}\n", any_number(random)).as_bytes()].concat()
}

/// The numbers past the range are those at its ends, and such as end up at a namespace
/// if they are counted in 64 bits.
pub const WRONG_NUMBERS: [&str; 32] = [
    "",
    "-",
    "--5",
    "+5",
    "+0",
    "05",
    "-05",
    "00",
    "-0",
    "-00",
    "9223372036854775808",
    "-9223372036854775809",
    "18446744073709551615",
    "18446744073709551616",
    "18446744073709617152",
    "-18446744073709551617",
    "99999999999999999999999",
    " 5",
    "5 ",
    "5\t",
    "5\r",
    "=5",
    "5=",
    "5=6",
    "5x",
    "x",
    "0x5",
    "5.0",
    "5-",
    "5\0",
    "\u{661}",
    "1/",
];

/// What stands before and behind a name so that it is none, whether or not it has a "!".
pub const WRONG_AROUND: [(&str, &str); 14] = [
    ("!!", ""),
    ("9", ""),
    ("-", ""),
    (".", ""),
    (" ", ""),
    ("\t", ""),
    ("\r", ""),
    ("\u{feff}", ""),
    ("", " "),
    ("", "!"),
    ("", "/"),
    ("", "\0"),
    ("", "\r"),
    ("", "\u{fc}"),
];

/// A line that is wrongly formed, and but for its fault would match the name.
pub fn wrong_line(random: &mut Random, name: &[u8]) -> Vec<u8> {
    let number = any_number(random);
    let (name, number) = match random.below(12) {
        0 => return b"\n".to_vec(),
        1 => return [name, b"\n"].concat(),
        2 => (Vec::new(), number.to_string()),
        3 => {
            // One letter more than a name may have.
            let mut long = name.to_vec();
            long.resize(65 + usize::from(name.starts_with(b"!")), b'a');
            (long, number.to_string())
        }
        4..=6 => {
            let (before, behind) = random.pick(&WRONG_AROUND);
            ([before.as_bytes(), name, behind.as_bytes()].concat(), number.to_string())
        }
        _ => (name.to_vec(), random.pick(&WRONG_NUMBERS).to_string()),
    };
    [&name[..], b"=", number.as_bytes(), b"\n"].concat()
}

/// The same name, nearly: with or without the "!", the last byte gone, or one more; or with
/// the bit of a byte changed that is a letter's case, which is another name if the byte is no
/// letter.
fn alike(random: &mut Random, name: &[u8]) -> Vec<u8> {
    let mut other = name.to_vec();
    match (random.below(4), name) {
        (0, [b'!', rest @ ..]) => other = rest.to_vec(),
        (0, _) => other.insert(0, b'!'),
        (1, [.., _]) => drop(other.pop()),
        (2, _) => other.push(random.pick(b"a-.")),
        _ => {
            let at = random.below(other.len());
            if let Some(byte) = other.get_mut(at) {
                *byte ^= 0x20;
            }
        }
    }
    other
}

/// The same name, a few times with letters in the other case.
fn in_case(random: &mut Random, name: &[u8]) -> Vec<u8> {
    let percent = random.pick(&[0, 0, 0, 20, 100]);
    let turn = |byte: &u8| match byte.is_ascii_alphabetic() && random.chance(percent) {
        true => byte ^ 0x20,
        false => *byte,
    };
    name.iter().map(turn).collect()
}

/// Lists with a line for each of the names, in some case, and others. Two in three have no
/// line that is wrongly formed.
pub(super) fn lists_with(random: &mut Random, names: &[Vec<u8>]) -> Lists {
    // The published list, and the own one.
    let mut lists: [Vec<Vec<u8>>; 2] = Default::default();
    let wrong = match random.below(9) {
        0 => [true, false],
        1 => [false, true],
        2 => [true, true],
        _ => [false, false],
    };
    for name in names {
        let k = usize::from(name.starts_with(b"!"));
        let written = in_case(random, name);
        lists[k].push(line(random, &written));
        match random.below(8) {
            0 => lists[k].push(line(random, name)),
            1 => lists[1 - k].push(line(random, name)),
            2 => {
                let other = alike(random, name);
                let line = line(random, &other);
                // One byte more, or one less, may be no name.
                if Line::read(&line).is_some() {
                    lists[k].push(line);
                }
            }
            3 | 4 if wrong[k] => lists[k].push(wrong_line(random, name)),
            _ => (),
        }
    }
    let [published, own] = [0, 1].map(|k| {
        let list = &mut lists[k];
        let more = match random.below(40) {
            0 => 300,
            1..=15 => 0,
            _ => random.below(6),
        };
        for _ in 0..more {
            let name = any_name(random);
            list.push(line(random, &name));
        }
        if wrong[k] && random.chance(50) {
            for _ in 0..=random.below(3) {
                let name = match names.is_empty() {
                    true => any_name(random),
                    false => names[random.below(names.len())].clone(),
                };
                list.push(wrong_line(random, &name));
            }
        }
        shuffle(random, list);
        let mut list = list.concat();
        if wrong[k] && random.chance(20) {
            list.pop();
        }
        list
    });
    (published, own)
}

/// Any lists, some of them empty.
pub fn lists(random: &mut Random) -> Lists {
    let names: Vec<Vec<u8>> = (0..random.below(12)).map(|_| any_name(random)).collect();
    lists_with(random, &names)
}

/// Lists for the release of a message: most often with all the names that occur in it,
/// or with all but one.
pub fn lists_for(random: &mut Random, message: &[u8]) -> Lists {
    if random.chance(10) {
        return lists(random);
    }
    let mut names: Vec<Vec<u8>> = Vec::new();
    for entry in listing(message).unwrap_or_default().entries {
        if let Namespace::Name(place) = entry.namespace {
            let name = name_at(message, place).to_vec();
            if !names.contains(&name) {
                names.push(name);
            }
        }
    }
    if !names.is_empty() && random.chance(25) {
        names.swap_remove(random.below(names.len()));
    }
    lists_with(random, &names)
}

/// The names of the lines that are well formed.
pub fn names_of(list: &[u8]) -> Vec<Vec<u8>> {
    lines(list).filter_map(|(_, line)| Some(Line::read(line)?.name.to_vec())).collect()
}

/// Gives about `percent` in a hundred of an accepted message's references one of the
/// names, within the limit of bytes; what isn't accepted stays as it is.
pub fn rename(random: &mut Random, message: &mut Vec<u8>, names: &[Vec<u8>], percent: usize) {
    if names.is_empty() {
        return;
    }
    let records = items_message(message).unwrap_or_default();
    // The last first: so the places of those before stay right. A reference's namespace
    // is the item behind its head.
    for k in (0..records.len()).rev().filter(|k| records[*k].reference) {
        let name = &names[random.below(names.len())];
        let namespace = records[k + 1];
        if random.chance(percent) && message.len() + name.len() + 2 <= LIMITS.bytes {
            let mut put = Vec::new();
            put_head(&mut put, 3, name.len() as u64);
            put.extend(name);
            message.splice(namespace.first..namespace.after, put);
        }
    }
}

/// A table for the release of a message under lists, and a subscriber; as
/// [`super::tables::table_for`] makes it, for the numbers that names stand for.
pub fn table_for(random: &mut Random, message: &[u8], lists: &Lists) -> (Vec<u8>, u64) {
    let entries = listing(message).unwrap_or_default().entries;
    let number = |namespace| number_of(message, namespace, &lists.0, &lists.1);
    table_granting(random, entries.iter().filter_map(|entry| number(entry.namespace)))
}

/// A name to look for: of some line of either list, be it wrongly formed, or nearly such
/// a name, or any bytes.
pub fn sought(random: &mut Random, lists: &Lists) -> Vec<u8> {
    let list = if random.chance(50) { &lists.0 } else { &lists.1 };
    let lines: Vec<&[u8]> = lines(list).map(|(_, line)| line).collect();
    if lines.is_empty() || random.chance(10) {
        return match random.below(4) {
            0 => (0..random.below(70)).map(|_| random.pick(b"aA!=\n\r -01\0\xff")).collect(),
            _ => any_name(random),
        };
    }
    let line = random.pick(&lines);
    let name = line.split(|byte| *byte == b'=').next().unwrap_or_default();
    match random.below(10) {
        0..=5 => name.to_vec(),
        6..=8 => alike(random, name),
        // More than the name: with the "=", with digits, with the line feed.
        _ => line[..random.below(line.len() + 1)].to_vec(),
    }
}

/// One place of a list damaged; most often a line is wrongly formed then.
pub fn damage(random: &mut Random, list: &mut Vec<u8>, other: &[u8]) {
    let at = random.below(list.len() + 1);
    // The first byte of some line, or the end.
    let mut starts: Vec<usize> = lines(list).map(|(first, _)| first).collect();
    starts.push(list.len());
    let start = random.pick(&starts);
    match random.below(12) {
        0 if at < list.len() => list[at] ^= 1 << random.below(8),
        1 if at < list.len() => list[at] = random.pick(b"!=-+.0129azAZ_ \n\r\0\x7f\xc3"),
        2 => list.insert(at, random.pick(b"!=-+.0129azAZ_ \n\r\0\x7f\xc3")),
        3 if at < list.len() => drop(list.remove(at)),
        4 => list.truncate(at),
        5 => {
            list.truncate(at);
            list.extend(&other[random.below(other.len() + 1)..]);
        }
        6 => drop(list.pop()),
        7 => list.insert(start, b'\n'),
        8 => {
            let name = any_name(random);
            list.splice(start..start, wrong_line(random, &name));
        }
        // A line feed is gone, with a CR in its place or with nothing.
        9 if start > 0 => {
            let instead: &[u8] = random.pick(&[b"", b"\r"]);
            list.splice(start - 1..start, instead.iter().copied());
        }
        // Behind a "=": a sign, a zero, a space.
        10 => {
            let signs: Vec<usize> = (0..list.len()).filter(|k| list[*k] == b'=').collect();
            if !signs.is_empty() {
                let at = random.pick(&signs);
                list.insert(at + 1, random.pick(b"-+0 ="));
            }
        }
        _ => list.extend((0..=random.below(3)).map(|_| random.pick(b"a=1\n"))),
    }
}
