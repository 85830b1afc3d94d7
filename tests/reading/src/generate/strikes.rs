//! Messages to strike a target or report from, with its number.

use super::{Random, Settings, Writer};
use crate::{items_message, LIMITS};

/// The members of a set's inner array: few, and about as many as a head's size changes at.
const MEMBERS: [usize; 12] = [2, 3, 3, 4, 8, 23, 24, 24, 25, 255, 256, 257];

/// One such set, most often with others around it.
pub fn message(random: &mut Random) -> Vec<u8> {
    let settings = Settings {
        items: 20 + random.below(200),
        bytes: LIMITS.bytes / 2,
        containers: 8,
        nesting: random.pick(&[10, 40]),
        string: random.pick(&[3, 10]),
        small_numbers: random.chance(70),
        floats: random.chance(50),
        few_namespaces: random.chance(40),
        wide: random.pick(&[0, 0, 0, 10, 50, 100]),
    };
    let mut writer = Writer::new(random, settings);
    writer.head(0, 1);
    (0..writer.random.below(3)).for_each(|_| writer.set());
    let (members, is_report) = (writer.random.pick(&MEMBERS), writer.random.chance(40));
    writer.container(4, 2, |m| {
        m.head(0, if is_report { 21 } else { 20 });
        m.container(4, members, |m| {
            m.nonce();
            if is_report {
                m.vast();
                (2..members).for_each(|_| m.report());
            } else {
                (1..members).for_each(|_| m.object());
            }
        });
    });
    (0..writer.random.below(3)).for_each(|_| writer.set());
    writer.out
}

/// The targets and reports of a message; none if it is refused.
pub fn targets(message: &[u8]) -> usize {
    let records = items_message(message).unwrap_or_default();
    records.iter().filter_map(|record| record.target).max().map_or(0, |last| last + 1)
}

/// The number of one that the message has, most often; or their count, or a greater one.
pub fn number(random: &mut Random, message: &[u8]) -> u64 {
    let count = targets(message);
    match random.below(20) {
        0 => count as u64,
        1 => (count + 1 + random.below(3)) as u64,
        2 => random.pick(&[1 << 32, u64::MAX, 1 << 63, (1 << 32) + 1, 1 << 24, 1 << 56]),
        3 => 0,
        4 | 5 => count.saturating_sub(1) as u64,
        _ => random.below(count) as u64,
    }
}
