//! What occurred in the calls on day files, beyond their answers' numbers.

use reading::day::{self, file_of, form_of, FOUND, VERSION_1, VERSION_2};
use reading::generate::days::{file_with, message_of_length, messages_of_bytes};
use reading::generate::{counted_message, nested_message, Random};
use reading::names::find_line;
use reading::{Limits, FIRST_LIMITS, LIMITS};

use crate::{compare, Call, Case};

pub const CALLS: [Call; 6] =
    [Call::DayCheck, Call::DayFind, Call::DayAdd, Call::DaySearch, Call::Number, Call::DayUpgrade];

#[derive(Default)]
pub struct Tally {
    /// Accepted files without messages.
    empty: usize,
    /// Accepted files of as many bytes as a file may have, for each version.
    full: [usize; 2],
    /// Files refused for an entry or a message past the first.
    later: usize,
    /// Messages past the first that were found.
    found: usize,
    /// Files that were written as long as they may be, for each version.
    just_full: [usize; 2],
    /// Refusals to write one that would be longer by a byte.
    one_past: [usize; 2],
    /// Refusals to write one with more messages than may be.
    crowded: usize,
    /// Messages within the limits that version 1 refused, and those past its limits that
    /// were added to version 2.
    too_big: usize,
    big: usize,
    /// Messages in files that were rewritten as version 2.
    upgraded: usize,
    /// References found by their number, and by a name.
    numbers: usize,
    names: usize,
    /// Names that stand for a number, those of them whose line has letters in another case,
    /// and names that don't.
    known: usize,
    in_case: usize,
    unknown: usize,
}

impl Tally {
    pub fn add(&mut self, call: Call, case: &Case, answer: u64) {
        if !CALLS.contains(&call) {
            return;
        }
        let file = &case.input;
        let (number, low) = (answer >> 56, answer as u32 as usize);
        let form = form_of(file);
        let (limit, version) = (form.bytes, usize::from(form.version) - 1);
        match (call, number) {
            (_, 21 | 22) => self.later += usize::from(low > 0),
            (Call::DayCheck, 0) => {
                self.empty += usize::from(low == 0);
                self.full[version] += usize::from(file.len() == limit);
            }
            (Call::DayFind, 0) => self.found += usize::from(low > 0),
            (Call::DayAdd, 0) => {
                self.just_full[version] += usize::from(low == limit);
                let first = reading::walk_message(&case.other, &FIRST_LIMITS, &mut ());
                self.big += usize::from(first.is_err());
            }
            (Call::DayAdd, 1..=12) => {
                let gate = reading::walk_message(&case.other, &LIMITS, &mut ());
                self.too_big += usize::from(gate.is_ok());
            }
            (Call::DayAdd, 23) => {
                let bytes = file.len() + case.other.len() + form.offset;
                self.one_past[version] += usize::from(bytes == limit + 1);
                self.crowded += usize::from(bytes <= limit);
            }
            (Call::DayUpgrade, 0) => self.upgraded += (answer >> 32) as usize,
            (Call::DaySearch, 0) => {
                let by_number = day::found(file, b"", b"", case.number as i64, &form);
                let by_number = by_number.map_or(0, |found| found.len());
                self.numbers += by_number;
                self.names += low - by_number;
            }
            (Call::Number, 0) => {
                let (published, own) = &case.lists;
                let line = find_line(published, own, &case.other);
                self.known += low;
                self.in_case += usize::from(!line.starts_with(&case.other) && low == 1);
                self.unknown += 1 - low;
            }
            _ => (),
        }
    }

    fn counts(&self) -> [usize; 18] {
        let [full, full_2] = self.full;
        let [just_full, just_full_2] = self.just_full;
        let [one_past, one_past_2] = self.one_past;
        [
            self.empty, full, full_2, self.later, self.found, just_full, just_full_2, one_past,
            one_past_2, self.crowded, self.too_big, self.big, self.upgraded, self.numbers,
            self.names, self.known, self.in_case, self.unknown,
        ]
    }

    pub fn is_complete(&self) -> bool {
        self.counts().iter().all(|times| *times > 0)
    }
}

impl std::fmt::Display for Tally {
    fn fmt(&self, f: &mut std::fmt::Formatter<'_>) -> std::fmt::Result {
        let Tally {
            empty,
            full,
            later,
            found,
            just_full,
            one_past,
            crowded,
            too_big,
            big,
            upgraded,
            numbers,
            names,
            known,
            in_case,
            unknown,
        } = self;
        write!(
            f,
            "day files, of versions 1 and 2: empty {empty}, full {full:?}, refused past entry or \
             message 0 {later}; messages past 0 found {found}; written as long as may be \
             {just_full:?}, longer by a byte {one_past:?}, with too many messages {crowded}; \
             messages too big for version 1 {too_big}, added to version 2 {big}, rewritten \
             {upgraded}; references found by number {numbers}, by name {names}; names with \
             a number {known}, in another case {in_case}, without {unknown}"
        )
    }
}

/// Compares a call, with a room so many bytes past what the answer takes.
fn compare_one(
    call: Call,
    mut case: Case,
    past: isize,
    tally: &mut Tally,
    compared: &mut usize,
) -> Result<(), String> {
    let size = if call == Call::DaySearch { FOUND } else { 1 };
    let answer = call.reading(&case, &mut []);
    if answer >> 56 == 16 {
        let need = (answer << 8 >> 8) as usize * size;
        case.room = vec![0xee; need.saturating_add_signed(past)];
    }
    let answer = compare(call, &case, *compared % 48)?;
    tally.add(call, &case, answer);
    *compared += 1;
    Ok(())
}

/// A message at each limit, and one past it.
fn at_limits(random: &mut Random, limits: &Limits) -> Vec<Vec<u8>> {
    (0..2)
        .flat_map(|past| {
            [
                message_of_length(limits.bytes + past),
                counted_message(&[1], 1, limits.items + past),
                nested_message(random, limits.containers + past),
            ]
        })
        .collect()
}

/// Files as long as they may be, a byte shorter and a byte longer, and messages added so that
/// they become so; with as many messages as may be; with messages at either version's limits.
/// Those of version 2 are long, so these few stand for the many of other inputs.
pub fn compare_limits(random: &mut Random, tally: &mut Tally) -> Result<usize, String> {
    let mut compared = 0;
    let mut one =
        |call, case, past, tally: &mut Tally| compare_one(call, case, past, tally, &mut compared);
    let file = |input: &[u8]| Case { input: input.to_vec(), ..Case::default() };
    for form in [VERSION_1, VERSION_2] {
        for bytes in [form.bytes - 1, form.bytes, form.bytes + 1] {
            let messages = messages_of_bytes(random, bytes, &[], &form);
            let (whole, last) = (file_of(&messages, &form), messages.len() as u64 - 1);
            one(Call::DayCheck, file(&whole), 0, tally)?;
            one(Call::DayFind, Case { number: last, ..file(&whole) }, 0, tally)?;
            one(Call::DaySearch, Case { number: 1, ..file(&whole) }, 24, tally)?;
            one(Call::DayUpgrade, file(&whole), 0, tally)?;
            let damaged = file_with(random, messages, 100, &form);
            one(Call::DayCheck, file(&damaged), 0, tally)?;
            let message = message_of_length(1 + random.pick(&[0, 299, 3_999]));
            let before = bytes - message.len() - form.offset;
            let before = file_of(&messages_of_bytes(random, before, &[], &form), &form);
            for past in [-1, 0, 1] {
                one(Call::DayAdd, Case { other: message.clone(), ..file(&before) }, past, tally)?;
            }
        }
        let all = [at_limits(random, &FIRST_LIMITS), at_limits(random, &LIMITS)].concat();
        for message in all {
            let whole = file_of(&[&[1][..], &message], &form);
            one(Call::DayCheck, file(&whole), 0, tally)?;
            one(Call::DayUpgrade, file(&whole), 0, tally)?;
            let before = file_of(&[[1]], &form);
            one(Call::DayAdd, Case { other: message, ..file(&before) }, 1, tally)?;
        }
    }
    // The trailer counts in two bytes: one more would be none, and then the start is wrong.
    for count in [65_534, 65_535, 65_536] {
        let whole = file_of(&vec![[1]; count], &VERSION_2);
        one(Call::DayCheck, file(&whole), 0, tally)?;
        one(Call::DayFind, Case { number: 65_534, ..file(&whole) }, 0, tally)?;
        one(Call::DayAdd, Case { other: vec![1], ..file(&whole) }, 0, tally)?;
    }
    // As many as version 1 has room for: each grows by two bytes.
    let most = file_of(&vec![[1]; 21_842], &VERSION_1);
    for past in [-1, 0, 1] {
        one(Call::DayUpgrade, file(&most), past, tally)?;
    }
    Ok(compared)
}
