//! What occurred in the calls that compare two messages, beyond their answers' numbers.

use reading::compare::{self as read, Position, POSITION};
use reading::generate::pairs::{put_set, small, Part};
use reading::generate::{counted_message, days::message_of_length, Random};
use reading::vectors::hex;
use reading::{items_message, shortened, Kind, Record, Refusal, LIMITS};

use crate::{compare, Call, Case};

/// The reading's answer, whatever the room.
pub fn answer(case: &Case) -> Result<Vec<Position>, Refusal> {
    read::compare(&case.input, &case.other, &LIMITS)
}

#[derive(Default)]
pub struct Tally {
    /// Positions the same, changed, only in the first and only in the second.
    positions: [usize; 4],
    /// Messages with targets that don't differ: of equal bytes, of others, and those of them
    /// in other letters, and in other sets.
    equal: usize,
    same: usize,
    in_letters: usize,
    in_sets: usize,
    /// Changed positions: at the own head, below the own members, with other numbers on either
    /// side, behind the first set, by the case of letters alone, and those of them in a label.
    heads: usize,
    deep: usize,
    apart: usize,
    later: usize,
    by_case: usize,
    labels: usize,
    /// Targets beside reports.
    turned: usize,
    /// Refused for the second.
    second: usize,
    /// Lists written to room that just holds them, and refused for want of a byte, and of any
    /// room.
    just: usize,
    byte_short: usize,
    no_room: usize,
}

/// How many sets begin up to an item.
fn sets(records: &[Record]) -> usize {
    records.iter().skip(1).filter(|record| record.around == 0).count()
}

fn text<'a>(message: &'a [u8], record: &Record) -> Option<&'a [u8]> {
    match record.kind {
        Kind::Text(length) => Some(&message[record.after - length as usize..record.after]),
        _ => None,
    }
}

impl Tally {
    pub fn add(&mut self, case: &Case, given: u64) {
        let (first, second) = (&case.input, &case.other);
        let list = match answer(case) {
            Ok(list) => list,
            Err(_) => return self.second += usize::from(items_message(first).is_ok()),
        };
        let (room, need) = (case.room.len(), POSITION * list.len());
        match given >> 56 {
            0 => self.just += usize::from(need > 0 && room == need),
            _ => {
                self.byte_short += usize::from(room + 1 == need);
                self.no_room += usize::from(room == 0);
            }
        }
        let [ones, twos] = [first, second].map(|message| items_message(message).expect("accepted"));
        if !list.is_empty() && list.iter().all(|position| *position == Position::Same) {
            self.equal += usize::from(first == second);
            self.same += usize::from(first != second);
            let strings = |message: &[u8], records: &[Record]| -> Vec<Vec<u8>> {
                let inside = records.iter().filter(|record| record.target.is_some());
                inside.filter_map(|record| Some(text(message, record)?.to_vec())).collect()
            };
            self.in_letters += usize::from(strings(first, &ones) != strings(second, &twos));
            let split = shortened(first) != shortened(second) && sets(&ones) != sets(&twos);
            self.in_sets += usize::from(split);
        }
        for (k, position) in list.into_iter().enumerate() {
            let Position::Changed { first: one, second: two } = position else {
                let what = match position {
                    Position::OnlyFirst => 2,
                    Position::OnlySecond => 3,
                    _ => 0,
                };
                self.positions[what] += 1;
                continue;
            };
            self.positions[1] += 1;
            let head = |records: &[Record]| {
                records.iter().position(|record| record.target == Some(k)).expect("there")
            };
            let [of_first, of_second] = [head(&ones), head(&twos)];
            self.heads += usize::from(one == of_first);
            self.deep += usize::from(ones[one].around > ones[of_first].around + 1);
            self.apart += usize::from(one != two);
            self.later += usize::from(sets(&ones[..one]) > 1 && sets(&twos[..two]) > 1);
            self.turned += usize::from(ones[of_first].reference != twos[of_second].reference);
            if let (Some(a), Some(b)) = (text(first, &ones[one]), text(second, &twos[two])) {
                let by_case = a.eq_ignore_ascii_case(b);
                self.by_case += usize::from(by_case);
                let is_label = ones[one - 1].kind == Kind::Unsigned(14);
                self.labels += usize::from(by_case && is_label);
            }
        }
    }

    fn counts(&self) -> Vec<usize> {
        let alike = [self.equal, self.same, self.in_letters, self.in_sets];
        let changed = [self.heads, self.deep, self.apart, self.later, self.by_case, self.labels];
        let others = [self.turned, self.second, self.just, self.byte_short, self.no_room];
        [&self.positions[..], &alike, &changed, &others].concat()
    }

    pub fn is_complete(&self) -> bool {
        self.counts().iter().all(|times| *times > 0)
    }
}

impl std::fmt::Display for Tally {
    fn fmt(&self, f: &mut std::fmt::Formatter<'_>) -> std::fmt::Result {
        let [same, changed, first, second] = self.positions;
        write!(
            f,
            "positions: same {same}, changed {changed}, only in the first {first}, only in the \
             second {second}; messages without a difference: of equal bytes {}, of others {}, in \
             other letters {}, in other sets {}; changed at the own head {}, below the own members \
             {}, by other numbers {}, behind the first set {}, by case alone {}, in a label {}; \
             targets beside reports {}; refused for the second {}; room just enough {}, a byte \
             short {}, none {}",
            self.equal,
            self.same,
            self.in_letters,
            self.in_sets,
            self.heads,
            self.deep,
            self.apart,
            self.later,
            self.by_case,
            self.labels,
            self.turned,
            self.second,
            self.just,
            self.byte_short,
            self.no_room
        )
    }
}

/// A message of so many equal targets or reports in one set, the last of them another one.
fn many(count: usize, is_report: bool, last: &str) -> Vec<u8> {
    let part = |bytes| Part { is_report, bytes: hex(bytes) };
    let usual = if is_report { "82 00 83 f6 20 00" } else { "83 f6 20 00" };
    let mut parts = vec![part(usual); count - 1];
    parts.push(part(last));
    let mut message = vec![1];
    put_set(&mut Random::new(1), &mut message, is_report, &parts);
    message
}

/// As many targets, and reports, as there may be, one fewer and one more; and messages at the
/// limits of items and bytes; each beside each, in rooms around the need.
pub fn compare_limits() -> Result<usize, String> {
    // Four items a target and six a report, besides those of the set.
    let (targets, reports) = ((LIMITS.items - 5) / 4, (LIMITS.items - 6) / 6);
    let messages = [
        many(targets, false, "83 f6 20 00"),
        many(targets, false, "83 f6 20 01"),
        many(targets - 1, false, "9b0000000000000003 f6 20 00"),
        many(targets + 1, false, "83 f6 20 00"),
        many(reports, true, "82 00 83 f6 20 00"),
        many(reports, true, "82 00 83 f6 20 6161"),
        many(reports + 1, true, "82 00 83 f6 20 00"),
        counted_message(&[1], 1, LIMITS.items),
        counted_message(&[1], 1, LIMITS.items + 1),
        message_of_length(LIMITS.bytes),
        message_of_length(LIMITS.bytes + 1),
        vec![1],
    ];
    compare_each(&messages, &[-1, 0, 1, 23, 24])
}

/// Small messages, each beside each.
pub fn compare_small() -> Result<usize, String> {
    compare_each(&small(), &[0])
}

/// In rooms so many bytes past the need.
fn compare_each(messages: &[Vec<u8>], rooms: &[isize]) -> Result<usize, String> {
    let mut compared = 0;
    for first in messages {
        for second in messages {
            for past in rooms {
                let mut case =
                    Case { input: first.clone(), other: second.clone(), ..Case::default() };
                let need = answer(&case).map_or(0, |list| POSITION * list.len());
                case.room = vec![0xee; need.saturating_add_signed(*past)];
                compare(Call::Compare, &case, compared % 48)?;
                compared += 1;
            }
        }
    }
    Ok(compared)
}
