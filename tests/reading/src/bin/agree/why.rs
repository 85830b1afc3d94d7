//! What occurred in the calls that ask why a message was held, beyond their answers' numbers.

use reading::why::{why, Reason, Why, LINK};
use reading::{archive, Refusal, LIMITS};

use crate::Case;

/// The reading's answer, whatever the room.
pub fn answer(case: &Case) -> Result<Why, Refusal> {
    let Case { input, table, lists: (published, own), number, .. } = case;
    why(input, table, published, own, *number, &LIMITS)
}

#[derive(Default)]
pub struct Tally {
    /// Released messages with references.
    released: usize,
    /// By their numbers.
    reasons: [usize; 3],
    /// Not granted, and the namespace a name with a line.
    names: usize,
    /// By their numbers: of all links, and of the last one of a chain.
    meanings: [usize; 10],
    last: [usize; 10],
    /// Chains of as many links as containers may be open, and those of them that go through
    /// a map in a list, or the other way round, within a report.
    deepest: usize,
    mixed: usize,
    /// Chains written to room that just holds them, and refused for want of a byte, and of
    /// any room.
    just: usize,
    byte_short: usize,
    no_room: usize,
}

impl Tally {
    pub fn add(&mut self, case: &Case, given: u64) {
        let entries = reading::listing(&case.input).unwrap_or_default().entries;
        let (entry, reason, chain) = match answer(case) {
            Ok(Why::Held { entry, reason, chain }) => (entry, reason, chain),
            Ok(Why::Released) => return self.released += usize::from(!entries.is_empty()),
            Err(_) => return,
        };
        let (room, need) = (case.room.len(), LINK * chain.len());
        match given >> 56 {
            archive::NO => self.just += usize::from(room == need),
            _ => {
                self.byte_short += usize::from(room + 1 == need);
                self.no_room += usize::from(room == 0);
            }
        }
        self.reasons[reason as usize] += 1;
        let by_name = matches!(entries[entry].namespace, reading::Namespace::Name(_));
        self.names += usize::from(by_name && reason == Reason::NotGranted);

        let numbers: Vec<usize> = chain.iter().map(|link| link.meaning.number() as usize).collect();
        numbers.iter().for_each(|number| self.meanings[*number] += 1);
        self.last[*numbers.last().expect("the entry itself")] += 1;
        self.deepest += usize::from(numbers.len() == LIMITS.containers);
        let has = |number| numbers.contains(&number);
        let lists = has(4) || has(9);
        self.mixed += usize::from(numbers.len() == LIMITS.containers && has(6) && has(5) && lists);
    }

    /// Nothing but a target, a parameter, a map value, a report's source or item and a
    /// collection's member can be a reference, and so the last link.
    fn counts(&self) -> Vec<usize> {
        let last = [2, 4, 5, 7, 8, 9].map(|number| self.last[number]);
        let chains = [self.names, self.deepest, self.mixed];
        let rooms = [self.just, self.byte_short, self.no_room];
        [&[self.released][..], &self.reasons, &self.meanings, &last, &chains, &rooms].concat()
    }

    pub fn is_complete(&self) -> bool {
        self.counts().iter().all(|times| *times > 0)
    }
}

impl std::fmt::Display for Tally {
    fn fmt(&self, f: &mut std::fmt::Formatter<'_>) -> std::fmt::Result {
        write!(
            f,
            "released with references {}; held by reason {:?}, not granted by a name {}; links by \
             meaning {:?}, last ones {:?}; chains of {} links {}, through lists and maps in a \
             report {}; room just enough {}, a byte short {}, none {}",
            self.released,
            self.reasons,
            self.names,
            self.meanings,
            self.last,
            LIMITS.containers,
            self.deepest,
            self.mixed,
            self.just,
            self.byte_short,
            self.no_room
        )
    }
}
