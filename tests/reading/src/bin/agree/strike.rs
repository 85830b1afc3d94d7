//! What occurred in the calls that take a target or report out, beyond their answers' numbers.

use reading::generate::strikes::targets;
use reading::generate::{counted_message, put_wide_head, width};
use reading::strike::{strike, Struck};
use reading::vectors::hex;
use reading::{head_size, items_message, Kind, Namespace, Record, Refusal, Test, LIMITS};

use crate::{compare, Call, Case};

/// The reading's answer, whatever the room.
pub fn answer(case: &Case) -> Result<Struck, Refusal> {
    strike(&case.input, case.number, &LIMITS)
}

#[derive(Default)]
pub struct Tally {
    targets: usize,
    reports: usize,
    /// The first of its set, the last, one between others, the only one, and one behind the
    /// first set.
    first: usize,
    last: usize,
    between: usize,
    emptied: usize,
    later: usize,
    /// The inner array's head: as long as before, shorter for the members that it has now (from
    /// two bytes to one, from three to two), and longer before than it had to be.
    kept: usize,
    two_to_one: usize,
    three_to_two: usize,
    long: usize,
    /// With references inside its own.
    nested: usize,
    /// Names behind it, and ahead of it in its own set while the head shortens.
    names: usize,
    names_ahead: usize,
    /// No such one: none at all, at the count, and at a number of more than 32 bits.
    none: usize,
    at_count: usize,
    far: usize,
    /// Written to room that just holds it, and refused for want of a byte, and of any room.
    just: usize,
    byte_short: usize,
    no_room: usize,
    /// Every target and report of messages that were struck all.
    every: usize,
}

impl Tally {
    pub fn add(&mut self, case: &Case, given: u64) {
        let need = match answer(case) {
            Ok(Struck { message, .. }) => message.len(),
            Err(Refusal { test: Test::NoTarget, place }) => {
                self.none += usize::from(place == 0);
                self.at_count += usize::from(place > 0 && case.number == place as u64);
                self.far += usize::from(case.number > u64::from(u32::MAX));
                return;
            }
            Err(_) => return,
        };
        let room = case.room.len();
        if given >> 56 == 16 {
            self.byte_short += usize::from(room + 1 == need);
            self.no_room += usize::from(room == 0);
            return;
        }
        self.just += usize::from(room == need);

        let (message, number) = (&case.input, case.number as usize);
        let records = items_message(message).expect("accepted");
        let at = records.iter().position(|r| r.target == Some(number)).expect("there");
        let part = records[at];
        *(if part.reference { &mut self.targets } else { &mut self.reports }) += 1;
        let is_inner = |r: &&Record| r.around == 1 && matches!(r.kind, Kind::Array(_));
        let inner = records[..at].iter().rev().find(is_inner).expect("its set's inner array");
        let Kind::Array(members) = inner.kind else { unreachable!() };
        let fixed = if part.reference { 1 } else { 2 };
        let behind_all = part.after == inner.after;
        let in_front = records[at - 1].target.is_none();
        self.emptied += usize::from(members == fixed + 1);
        self.first += usize::from(in_front && !behind_all);
        self.last += usize::from(behind_all && !in_front);
        self.between += usize::from(!in_front && !behind_all);
        self.later += usize::from(records[..at].iter().filter(|r| r.around == 0).count() > 2);

        let [old, new] = [head_size(message[inner.first]), 1 + width(members - 1)];
        let was_shortest = old == 1 + width(members);
        self.kept += usize::from(old == new);
        self.two_to_one += usize::from(was_shortest && [old, new] == [2, 1]);
        self.three_to_two += usize::from(was_shortest && [old, new] == [3, 2]);
        self.long += usize::from(!was_shortest);

        let entries = reading::listing(message).expect("accepted").entries;
        let inside = entries.iter().filter(|e| (part.first..part.after).contains(&e.first));
        self.nested += usize::from(inside.count() > 1);
        let named = entries.iter().filter(|e| matches!(e.namespace, Namespace::Name(_)));
        self.names += usize::from(named.clone().any(|e| e.first >= part.after));
        let ahead = |first: usize| (inner.first..part.first).contains(&first);
        self.names_ahead += usize::from(old > new && named.clone().any(|e| ahead(e.first)));
    }

    fn counts(&self) -> Vec<usize> {
        let parts = [self.targets, self.reports, self.first, self.last, self.between];
        let heads = [self.emptied, self.later, self.kept, self.two_to_one, self.three_to_two];
        let others = [self.long, self.nested, self.names, self.names_ahead, self.none];
        let rooms = [self.at_count, self.far, self.just, self.byte_short, self.no_room, self.every];
        [&parts[..], &heads, &others, &rooms].concat()
    }

    pub fn is_complete(&self) -> bool {
        self.counts().iter().all(|times| *times > 0)
    }
}

impl std::fmt::Display for Tally {
    fn fmt(&self, f: &mut std::fmt::Formatter<'_>) -> std::fmt::Result {
        write!(
            f,
            "struck: targets {}, reports {}; the first of a set {}, the last {}, between {}, the \
             only one {}, behind the first set {}; the head as long as before {}, from two bytes \
             to one {}, from three to two {}, longer than it had to be {}; with references inside \
             {}, names behind {}, ahead of it and moved {}; of none {}, at the count {}, past 32 \
             bits {}; room just enough {}, a byte short {}, none {}; all of a message's {}",
            self.targets,
            self.reports,
            self.first,
            self.last,
            self.between,
            self.emptied,
            self.later,
            self.kept,
            self.two_to_one,
            self.three_to_two,
            self.long,
            self.nested,
            self.names,
            self.names_ahead,
            self.none,
            self.at_count,
            self.far,
            self.just,
            self.byte_short,
            self.no_room,
            self.every
        )
    }
}

/// A call in room that holds the answer, and that many bytes more.
fn compare_one(input: &[u8], number: u64, past: isize, shift: usize) -> Result<(), String> {
    let mut case = Case { input: input.to_vec(), number, ..Case::default() };
    let need = answer(&case).map_or(0, |struck| struck.message.len());
    case.room = vec![0xee; need.saturating_add_signed(past)];
    compare(Call::Strike, &case, shift).map(drop)
}

/// Every target and report of a message, and one more.
pub fn compare_every(message: &[u8], tally: &mut Tally) -> Result<(), String> {
    let count = targets(message);
    for number in 0..=count {
        compare_one(message, number as u64, (number % 3) as isize, number % 48)?;
    }
    tally.every += count;
    Ok(())
}

/// Messages as long as may be, of as many items, of as many targets in one set, in heads of each
/// size; struck are the first, the last and some between, in rooms around the need.
pub fn compare_limits() -> Result<usize, String> {
    let mut messages = vec![
        counted_message(&hex("01 8214 82 f6 83 f6 20 00"), 9, LIMITS.items),
        counted_message(&hex("01 8214 82 f6 83 f6 20 00"), 9, LIMITS.items + 1),
    ];
    for bytes in [LIMITS.bytes - 1, LIMITS.bytes, LIMITS.bytes + 1] {
        let mut message = hex("01 8214 83 f6 83 f6 20 00 84 f6 20 00 81");
        let left = bytes - message.len() - 3;
        put_wide_head(&mut message, 2, left as u64, 2);
        message.resize(bytes, 0xff);
        messages.push(message);
    }
    let most = (LIMITS.items - 5) / 4;
    for targets in [22, 23, 24, 254, 255, 256, most, most + 1] {
        for wide in [0, 1, 2, 4, 8] {
            if wide < width(targets as u64 + 1) {
                continue;
            }
            let mut message = hex("01 8214");
            put_wide_head(&mut message, 4, targets as u64 + 1, wide);
            message.push(0xf6);
            (0..targets).for_each(|_| message.extend(hex("83 6161 20 00")));
            messages.push(message);
        }
    }
    let mut compared = 0;
    for message in &messages {
        let count = targets(message) as u64;
        for number in [0, 1, count / 2, count.saturating_sub(1), count, u64::MAX] {
            for past in [-1, 0, 1, 100] {
                compare_one(message, number, past, compared % 48)?;
                compared += 1;
            }
        }
    }
    Ok(compared)
}
