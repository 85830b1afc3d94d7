//! What occurred in the calls that judge two ARIs, beyond their answers' numbers.

use reading::{items_single, shortened, Kind, Record};

use crate::Case;

#[derive(Default)]
pub struct Tally {
    /// The same, and their bytes equal.
    equal: usize,
    /// The same in other bytes, and those of them in other letters too.
    same: usize,
    in_letters: usize,
    /// Different, and those of them only by the case of letters.
    different: usize,
    by_case: usize,
    /// Refused for the second.
    second: usize,
}

/// The items of an accepted ARI, with their text strings in one case.
fn in_one_case(ari: &[u8]) -> Vec<(Kind, Vec<u8>)> {
    let item = |record: &Record| {
        let string = |length: u64| ari[record.after - length as usize..record.after].to_vec();
        match record.kind {
            Kind::Bytes(length) => (record.kind, string(length)),
            Kind::Text(length) => (record.kind, string(length).to_ascii_lowercase()),
            kind => (kind, Vec::new()),
        }
    };
    items_single(ari).expect("accepted").iter().map(item).collect()
}

impl Tally {
    pub fn add(&mut self, Case { input, other, .. }: &Case, answer: u64) {
        match answer {
            1 if input == other => self.equal += 1,
            1 => {
                self.same += 1;
                self.in_letters += usize::from(shortened(input) != shortened(other));
            }
            0 => {
                self.different += 1;
                self.by_case += usize::from(in_one_case(input) == in_one_case(other));
            }
            _ => self.second += usize::from(items_single(input).is_ok()),
        }
    }

    fn counts(&self) -> [usize; 6] {
        [self.equal, self.same, self.in_letters, self.different, self.by_case, self.second]
    }

    pub fn is_complete(&self) -> bool {
        self.counts().iter().all(|times| *times > 0)
    }
}

impl std::fmt::Display for Tally {
    fn fmt(&self, f: &mut std::fmt::Formatter<'_>) -> std::fmt::Result {
        let [equal, same, in_letters, different, by_case, second] = self.counts();
        write!(
            f,
            "pairs of ARIs: the same in equal bytes {equal}, in others {same}, in other letters \
             {in_letters}; different {different}, by the case of letters alone {by_case}; refused \
             for the second {second}"
        )
    }
}
