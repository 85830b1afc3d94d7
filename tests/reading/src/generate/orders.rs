//! Orders to be composed: a nonce and the texts of targets, most of them such as make a message;
//! with texts that are none, and at each of the limits.

use super::{nest, settings, single, texts, Random, Settings, Writer};
use crate::composer::{composed, Nonce};
use crate::{text_of, Limits, LIMITS};

/// What the composer is given.
#[derive(Clone, Debug, Default)]
pub struct Order {
    /// 0 null, 1 the number, 2 the byte string; what a kind has no use for is there all the same.
    pub kind: u64,
    pub number: u64,
    pub nonce: Vec<u8>,
    /// Each ended by a line feed.
    pub texts: Vec<u8>,
}

/// Past those of the gate, so that a text may be one of an ARI that is not accepted.
const PAST: Limits = Limits { bytes: 1 << 20, items: 1 << 16, containers: 40, text: usize::MAX };

fn text(ari: &[u8]) -> Option<Vec<u8>> {
    text_of(ari, &PAST).ok().map(|(text, _)| text.into_bytes())
}

/// The text of an object reference by the grammar.
pub fn target(random: &mut Random) -> Vec<u8> {
    let items = 8 + random.below(40);
    let settings = Settings { items, floats: false, ..settings(random) };
    let mut writer = Writer::new(random, settings);
    writer.object();
    text(&writer.out).expect("a text")
}

/// The text of an object reference that opens that many containers, an even number of them or,
/// if it is the deepest, one more.
fn deep_target(random: &mut Random, containers: usize) -> Vec<u8> {
    let mut ari = Vec::new();
    nest(random, &mut ari, containers, true);
    text(&ari).unwrap_or_else(|| target(random))
}

/// A text that is no object reference, or is one after all, now and then.
fn no_target(random: &mut Random) -> Vec<u8> {
    let mut text = match random.below(8) {
        0 => Vec::new(),
        1 => random.pick(&["ari://a/", "ari://!a/", "ari://-20/", "ari://65536/"]).into(),
        2 => random.pick(&["ari:0", "ari:null", "ari:/AC/()", "ari:/UINT/10", "./-1"]).into(),
        3 => texts::words(random),
        4 => {
            let settings = Settings { floats: false, ..settings(random) };
            let ari = single(random, settings);
            self::text(&ari).unwrap_or_default()
        }
        5 => vec![b'0'; LIMITS.text + random.below(2)],
        6 => match random.below(3) {
            // What is an object reference, if there were no limits.
            0 => [&b"./-1/0(0"[..], &b",0".repeat(LIMITS.items), b")"].concat(),
            1 => [&b"./-1/0(h%27"[..], &b"00".repeat(LIMITS.bytes), b"%27)"].concat(),
            _ => {
                let containers = LIMITS.containers + random.below(3);
                deep_target(random, containers)
            }
        },
        _ => {
            let mut text = target(random);
            let other = target(random);
            for _ in 0..random.pick(&[1, 1, 2]) {
                texts::damage(random, &mut text, &other);
            }
            text
        }
    };
    // A line feed would be its end.
    text.retain(|byte| *byte != b'\n');
    if random.below(12) == 0 {
        text.push(random.pick(b"\r\0 "));
    }
    text
}

fn lines(texts: &[Vec<u8>]) -> Vec<u8> {
    texts.iter().flat_map(|text| [text, &b"\n"[..]].concat()).collect()
}

fn nonce(random: &mut Random) -> Order {
    let number = random.number();
    Order {
        kind: match random.below(60) {
            0 => random.pick(&[3, 4, 255, 256, 1 << 32, 1 << 32 | 1, 1 << 63, u64::MAX]),
            _ => random.below(3) as u64,
        },
        number: if random.chance(80) { number >> 1 } else { number },
        nonce: match random.below(4) {
            0 => Vec::new(),
            1 => vec![0xf6; random.pick(&[1, 23, 24, 255, 256])],
            _ => (0..random.below(40)).map(|_| random.word() as u8).collect(),
        },
        texts: Vec::new(),
    }
}

/// Targets of so many items together, at least 8, or a few more: those of four items, and one
/// that takes the rest as parameters.
fn targets_of_items(random: &mut Random, items: usize) -> Vec<Vec<u8>> {
    let mut texts = vec![b"./-1/0".to_vec(); random.below(items / 4 - 1)];
    let left = items - 4 * texts.len();
    // A reference with parameters has five items and its parameters.
    let zeros = left.saturating_sub(5).max(1);
    texts.push([&b"./-1/0(0"[..], &b",0".repeat(zeros - 1), b")"].concat());
    let last = texts.len() - 1;
    texts.swap(random.below(last + 1), last);
    texts
}

/// An order about at the limits; the items of the message are at most five more than those of
/// its targets, its containers two more.
fn at_limit(random: &mut Random) -> Order {
    let mut order = Order { kind: random.below(3) as u64, ..nonce(random) };
    let around = |limit: usize, random: &mut Random| limit - 1 + random.below(3);
    let mut targets: Vec<Vec<u8>> = (0..random.below(4)).map(|_| target(random)).collect();
    let which = random.below(8);
    if matches!(which, 0 | 4 | 5) {
        let items = around(LIMITS.items, random) - 5;
        targets = targets_of_items(random, items);
    }
    if matches!(which, 1 | 4 | 6) {
        let containers = around(LIMITS.containers, random) - 2;
        let deep = deep_target(random, containers);
        targets.insert(random.below(targets.len() + 1), deep);
    }
    if which == 7 {
        // Many that are long.
        let name = vec![b'n'; 64];
        let count = LIMITS.bytes / 70 + random.below(4);
        targets = vec![[&b"./-1/"[..], &name].concat(); count];
    }
    order.texts = lines(&targets);
    if matches!(which, 2 | 3 | 5 | 6 | 7) {
        // The nonce takes what is left, alone or beside the others.
        if which == 2 {
            order.texts.clear();
        }
        (order.kind, order.nonce) = (2, Vec::new());
        let before = composed(Nonce::Bytes(&[]), &order.texts, &PAST);
        let before = before.map_or(0, |(message, _)| message.len());
        // Its head has three bytes then, instead of one.
        let left = (around(LIMITS.bytes, random) - 2).saturating_sub(before);
        order.nonce = vec![0x5a; left + random.pick(&[0, 0, 0, 0, 0, 7_000, 60_000])];
    }
    order
}

/// An order; most of them make a message.
pub fn order(random: &mut Random) -> Order {
    if random.chance(6) {
        return at_limit(random);
    }
    let mut order = nonce(random);
    let count = match random.below(20) {
        0 => 0,
        1 => 20 + random.below(10),
        2 => random.below(300),
        _ => 1 + random.below(5),
    };
    let mut targets: Vec<Vec<u8>> = (0..count)
        .map(|_| match random.below(4) {
            _ if count > 30 => random.pick(&["./-1/0", "ari://a/b/c", "ari://-1/-2/3"]).into(),
            0 => {
                let containers = random.below(LIMITS.containers - 1);
                deep_target(random, containers)
            }
            _ => target(random),
        })
        .collect();
    if random.chance(30) {
        for _ in 0..random.pick(&[1, 1, 2]) {
            let wrong = no_target(random);
            targets.insert(random.below(targets.len() + 1), wrong);
        }
    }
    order.texts = lines(&targets);
    match random.below(25) {
        0 => drop(order.texts.pop()),
        1 => order.texts.extend(random.pick(&["./-1/0", "x", "\n", "\n\n", "./-1/0\r"]).bytes()),
        _ => (),
    }
    order
}
