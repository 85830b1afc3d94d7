//! Months of day files, each through one state: every call is compared with the reading's, and
//! all that was lent to it. What the state's words are is the archive's own affair: they are
//! judged by what is read from them, and after a refusal they have to be as they were.

use reading::archive::{self, packed_low, packed_plain, unpacked, MONTH_WORDS};
use reading::day::{file_of, form_of, TRAILER, VERSION_1, VERSION_2};
use reading::generate::days::{message_of_length, messages_of_bytes};
use reading::generate::months::{self, Day};
use reading::generate::names::Lists;
use reading::generate::Random;
use reading::month::{Line, Month, BOUNDS, TOTALS};
use reading::vectors::to_hex;
use reading::{Refusal, Test};

use crate::lent::Lent;
use crate::stream::less_than;
use crate::tally::Column;

/// What occurred.
pub struct Tally {
    pub adds: Column,
    pub reads: Column,
    months: usize,
    /// Reads of as many namespaces as may be.
    full: usize,
    /// Files added to such a month, and files that would have brought one namespace more.
    on_full: usize,
    one_past: usize,
    /// Months that were read the same with their files in another order.
    shuffled: usize,
    /// Files added after one that was refused.
    after_refusal: usize,
    /// References under a number by a name; unknown ones; relative ones.
    lines: [u128; 3],
    /// Calls with too short a state.
    short: usize,
    /// Totals of bytes just at their bound, and files that would have passed it by one.
    at_bound: usize,
    past_bound: usize,
    /// Files refused by 25 that would have passed a bound too.
    both: usize,
    /// Any totals at their bound, and such as would have passed it.
    lines_at_bound: [usize; 2],
}

impl Tally {
    pub fn new() -> Tally {
        Tally {
            adds: Column::new("monthadd", vec![0, 19, 20, 21, 22, 25, 26]),
            reads: Column::new("monthread", vec![0, 16]),
            months: 0,
            full: 0,
            on_full: 0,
            one_past: 0,
            shuffled: 0,
            after_refusal: 0,
            lines: [0; 3],
            short: 0,
            at_bound: 0,
            past_bound: 0,
            both: 0,
            lines_at_bound: [0; 2],
        }
    }

    fn counts(&self) -> [usize; 11] {
        let [line_at_bound, line_past] = self.lines_at_bound;
        [
            self.full, self.on_full, self.one_past, self.shuffled, self.after_refusal, self.short,
            self.at_bound, self.past_bound, self.both, line_at_bound, line_past,
        ]
    }

    pub fn is_complete(&self) -> bool {
        self.counts().iter().all(|times| *times > 0) && self.lines.iter().all(|times| *times > 0)
    }
}

impl std::fmt::Display for Tally {
    fn fmt(&self, f: &mut std::fmt::Formatter<'_>) -> std::fmt::Result {
        let Tally { months, full, on_full, one_past, shuffled, after_refusal, short, .. } = self;
        let Tally { at_bound, past_bound, both, .. } = self;
        let [numbers, unknown, relative] = self.lines;
        let [line_at_bound, line_past] = self.lines_at_bound;
        write!(
            f,
            "months {months}: with 256 namespaces {full}, added to such {on_full}, with one too \
             many {one_past}; in another order {shuffled}, added after a refusal {after_refusal}; \
             references by number {numbers}, unknown {unknown}, relative {relative}; too little \
             lent {short}; bytes at their bound {at_bound}, one past it {past_bound}, with a \
             namespace too many {both}; any line {line_at_bound} and {line_past}"
        )
    }
}

/// The archive's month in lent memory, and the reading's.
#[derive(Clone)]
struct Months {
    state: Lent<u64>,
    reading: Month,
    /// The last file was refused.
    refused: bool,
}

impl Months {
    /// A state of all zeros, or one that held anything and was opened. More may be lent than is
    /// needed.
    fn new(random: &mut Random) -> Result<Months, String> {
        let more = random.pick(&[0, 0, 0, 1, 9]);
        let mut words = vec![0; MONTH_WORDS + more];
        let zeros = random.chance(50);
        if !zeros {
            words.fill_with(|| random.word());
        }
        let state = Lent::new(&words, 0);
        let mut months = Months { state, reading: Month::default(), refused: false };
        if !zeros {
            months.open()?;
        }
        Ok(months)
    }

    /// An error, if an answer or something lent is not as it has to be.
    fn judge(
        &self,
        call: impl Fn() -> String,
        [given, expected]: [u64; 2],
        before: &Lent<u64>,
        may_change: bool,
        others_are_right: bool,
    ) -> Result<(), String> {
        let (is, was) = (self.state.content(), before.content());
        let wrong = if given != expected {
            unpacked(given)
        } else if is[MONTH_WORDS..] != was[MONTH_WORDS..] || !self.state.is_whole() {
            "wrote behind the state, or around it".to_string()
        } else if !may_change && is != was {
            "changed the state".to_string()
        } else if !others_are_right {
            "left something else in what else was lent, or around it".to_string()
        } else {
            return Ok(());
        };
        Err(format!("{}\n  reading: {}\n  archive: {wrong}", call(), unpacked(expected)))
    }

    fn open(&mut self) -> Result<(), String> {
        let before = self.state.clone();
        self.reading = Month::default();
        let given = archive::month_open(self.state.content_mut());
        self.judge(|| "month open".to_string(), [given, 0], &before, true, true)
    }

    /// Whether the file was added.
    fn add(&mut self, day: &Day, shift: usize, tally: &mut Tally) -> Result<bool, String> {
        let (file, (published, own)) = day;
        let (before, reading) = (self.state.clone(), self.reading.clone());
        let form = form_of(file);
        let answer = self.reading.add(file, published, own, &form, &BOUNDS);
        let expected = packed_plain(answer);
        let contents = [file, published, own];
        let lent = [0, 1, 2].map(|k| Lent::new(contents[k], shift / (k + 1)));
        let [lent_file, first, second] = lent.each_ref().map(Lent::content);
        let given = archive::month_add(self.state.content_mut(), lent_file, first, second);
        let call = || {
            let [file, published, own] = contents.map(|content| to_hex(content));
            let month = to_hex(&reading.bytes());
            format!("month add of {file}, published {published}, own {own}, to {month}")
        };
        let is_right = lent.iter().zip(contents).all(|(lent, content)| lent.is(content));
        self.judge(call, [given, expected], &before, answer.is_ok(), is_right)?;
        tally.adds.add(expected);
        let full = reading.namespaces().count() == BOUNDS.namespaces;
        match expected >> 56 {
            0 => {
                tally.on_full += usize::from(full && file.len() > 8);
                tally.after_refusal += usize::from(self.refused);
            }
            25 => {
                let mut all: Month = reading.namespaces().map(to_line).collect();
                let brought = reading::month::brought(file, published, own, &form).expect("25");
                all.extend(brought.namespaces().map(to_line));
                tally.one_past += usize::from(all.namespaces().count() == BOUNDS.namespaces + 1);
            }
            _ => (),
        }
        self.refused = answer.is_err();
        Ok(answer.is_ok())
    }

    fn read(&self, room: &[u8], shift: usize, tally: &mut Tally) -> Result<(), String> {
        let mut due = room.to_vec();
        let expected = packed_low(self.reading.read(&mut due));
        let mut lent = Lent::new(room, shift);
        let given = archive::month_read(self.state.content(), lent.content_mut());
        let call = || {
            let [month, room] = [&self.reading.bytes(), lent.content()].map(to_hex);
            format!("month read of {month}, which left {room}")
        };
        self.judge(call, [given, expected], &self.state, false, lent.is(&due))?;
        tally.reads.add(expected);
        tally.full += usize::from(expected == BOUNDS.namespaces as u64);
        Ok(())
    }

    /// A read in some room, which suffices most often.
    fn read_some(&self, random: &mut Random, tally: &mut Tally) -> Result<(), String> {
        let need = self.reading.bytes().len();
        let length = match random.below(8) {
            0 => random.pick(&[0, 8, 39, 40]),
            1 => need - 1,
            2 => random.below(need),
            3 | 4 => need + 1 + random.below(40),
            _ => need,
        };
        let room: Vec<u8> = (0..length).map(|_| random.word() as u8).collect();
        self.read(&room, random.below(16), tally)
    }

    /// A call with too short a state, whatever else is given with it.
    fn call_short(
        &mut self,
        random: &mut Random,
        day: &Day,
        tally: &mut Tally,
    ) -> Result<(), String> {
        let (file, (published, own)) = day;
        let before = self.state.clone();
        let words = less_than(MONTH_WORDS, random);
        let place = 8 * MONTH_WORDS;
        let expected = packed_plain(Err(Refusal { test: Test::Room, place }));
        let other = vec![0x3c; random.pick(&[0, 40, 5_000])];
        let mut room = Lent::new(&other, random.below(16));
        let state = &mut self.state.content_mut()[..words];
        let kind = random.below(3);
        let given = match kind {
            0 => archive::month_open(state),
            1 => archive::month_add(state, file, published, own),
            _ => archive::month_read(state, room.content_mut()),
        };
        let call = || format!("month {} with {words} words", ["open", "add", "read"][kind]);
        self.judge(call, [given, expected], &before, false, room.is(&other))?;
        tally.short += 1;
        Ok(())
    }

    /// The only word of the state that has the total of each line; none if one of them stands in
    /// more words or in no word.
    fn places(&self, lines: impl IntoIterator<Item = Line>) -> Option<Vec<(Line, usize)>> {
        let state = &self.state.content()[..MONTH_WORDS];
        let place = |line: Line| {
            let total = self.reading.total(line);
            let mut places = (0..MONTH_WORDS).filter(|k| u128::from(state[*k]) == total);
            let (Some(place), None) = (places.next(), places.next()) else { return None };
            Some((line, place))
        };
        lines.into_iter().map(place).collect()
    }

    /// Sets totals in the state and in the reading alike.
    fn set(&mut self, places: &[(Line, usize)], total: impl Fn(Line, u128) -> u128) {
        let mut lines = all_lines(&self.reading);
        for (line, place) in places {
            let due = lines.iter_mut().find(|(of, _)| of == line).expect("a line of the month");
            due.1 = total(*line, due.1);
            self.state.content_mut()[*place] = due.1 as u64;
        }
        self.reading = lines.into_iter().collect();
    }

    fn read_whole(&self, tally: &mut Tally) -> Result<(), String> {
        self.read(&vec![0xee; self.reading.bytes().len()], 0, tally)
    }
}

fn to_line((number, count): (i64, u128)) -> (Line, u128) {
    (Line::Namespace(number), count)
}

/// All lines with their totals.
fn all_lines(month: &Month) -> Vec<(Line, u128)> {
    let totals = TOTALS.into_iter().map(|line| (line, month.total(line)));
    totals.chain(month.namespaces().map(to_line)).collect()
}

/// The files of some month one by one, with reads between, and those that were added once more
/// in another order.
pub fn compare(random: &mut Random, tally: &mut Tally) -> Result<(), String> {
    let mut months = Months::new(random)?;
    tally.months += 1;
    let mut added: Vec<Day> = Vec::new();
    for day in months::month(random) {
        if months.add(&day, random.below(48), tally)? {
            added.push(day.clone());
        }
        if random.chance(30) {
            months.read_some(random, tally)?;
        }
        if random.chance(5) {
            months.call_short(random, &day, tally)?;
        }
    }
    months.read_some(random, tally)?;
    months.read_whole(tally)?;
    let references = months.reading.namespaces().map(|(_, count)| count).sum();
    let others = [Line::Unknown, Line::Relative].map(|line| months.reading.total(line));
    for (k, count) in [references, others[0], others[1]].into_iter().enumerate() {
        tally.lines[k] += count;
    }
    if added.len() > 1 && random.chance(30) {
        let mut again = Months::new(random)?;
        for k in (1..added.len()).rev() {
            added.swap(k, random.below(k + 1));
        }
        for day in &added {
            if !again.add(day, 0, tally)? {
                return Err("a file that was added is refused in another order".to_string());
            }
        }
        assert_eq!(again.reading, months.reading);
        again.read_whole(tally)?;
        tally.shuffled += 1;
    }
    if random.chance(10) {
        months.open()?;
        months.read(&[0xee; 40], 0, tally)?;
    }
    Ok(())
}

/// A month whose totals each stand in one word of its state, and these words.
fn shown(random: &mut Random, tally: &mut Tally) -> Result<(Months, Vec<(Line, usize)>), String> {
    // Now and then two totals are equal, or one equals another word.
    for _ in 0..1_000 {
        let mut months = Months::new(random)?;
        let numbers: Vec<i64> = (0..2 + random.below(4)).map(|_| random.word() as i64).collect();
        for _ in 0..1 + random.below(3) {
            let times = |k: usize, random: &mut Random| 7 + 10 * k + random.below(10);
            let taken: Vec<i64> =
                (0..numbers.len()).flat_map(|k| vec![numbers[k]; times(k, random)]).collect();
            let day = months::day_of(random, &taken, &VERSION_2);
            months.add(&day, 0, tally)?;
        }
        let lines = all_lines(&months.reading).into_iter().filter(|(_, total)| *total > 0);
        let places = months.places(lines.map(|(line, _)| line));
        if let Some(places) = places.filter(|places| places.len() > 5) {
            return Ok((months, places));
        }
    }
    Err(NOT_SHOWN.to_string())
}

const NOT_SHOWN: &str = "no word of a month's state has its totals, so their bound is not tried";

/// A file whose messages have so many bytes together, at most 16,384.
fn day_of_bytes(bytes: u128) -> Day {
    let messages = match bytes as usize {
        bytes @ 0..=4 => vec![vec![1]; bytes],
        bytes => vec![message_of_length(bytes)],
    };
    (file_of(&messages, &VERSION_2), Default::default())
}

/// A month as if its files had been added again and again, until its bytes, which are never
/// fewer than anything else of it, are about as many as may be; and then files that reach the
/// bound, and such as would pass it by one.
fn compare_repeated(random: &mut Random, tally: &mut Tally) -> Result<(), String> {
    let (mut months, places) = shown(random, tally)?;
    let left = |months: &Months| BOUNDS.total - months.reading.total(Line::Bytes);
    let gap = random.pick(&[0, 1, 1, 2, 3, 5, 300, 16_000]);
    let times = (BOUNDS.total - gap) / months.reading.total(Line::Bytes);
    months.set(&places, |_, total| total * times);
    months.read_whole(tally)?;
    while left(&months) > gap {
        let day = day_of_bytes((left(&months) - gap).min(16_384));
        if !months.add(&day, 0, tally)? {
            return Err("refused before the bound".to_string());
        }
    }
    for (more, is_added) in [(gap + 1, false), (gap, true), (0, true), (1, false)] {
        assert_eq!(months.add(&day_of_bytes(more), 0, tally)?, is_added);
        months.read_whole(tally)?;
        *(if is_added { &mut tally.at_bound } else { &mut tally.past_bound }) += 1;
    }
    Ok(())
}

/// A month with as many namespaces as may be, as if long messages without references had been
/// added to it again and again: what would bring a namespace too many and pass the bound too is
/// refused for the namespace.
fn compare_both(random: &mut Random, tally: &mut Tally) -> Result<(), String> {
    let lines = [Line::Messages, Line::Bytes, Line::Items];
    for _ in 0..1_000 {
        let mut months = Months::new(random)?;
        let start = random.pick(&[-100_000, -10, 1_000_000, i64::MAX - 300]);
        let numbers: Vec<i64> = (start..).take(BOUNDS.namespaces + 1).collect();
        let missing = random.below(numbers.len());
        let but_one = [&numbers[..missing], &numbers[missing + 1..]].concat();
        for _ in 0..1 + random.below(2) {
            let day = months::day_of(random, &but_one, &VERSION_2);
            months.add(&day, 0, tally)?;
        }
        if months.reading.namespaces().count() < BOUNDS.namespaces {
            continue;
        }
        let Some(places) = months.places(lines) else { continue };
        // A message of 16,384 bytes has five items.
        let times = (BOUNDS.total - months.reading.total(Line::Bytes)) / 16_384;
        months.set(&places, |line, total| match line {
            Line::Bytes => total + 16_384 * times,
            Line::Items => total + 5 * times,
            _ => total + times,
        });
        months.read_whole(tally)?;
        let left = BOUNDS.total - months.reading.total(Line::Bytes);
        months.add(&day_of_bytes(left), 0, tally)?;
        for number in [numbers[missing], numbers[(missing + 1) % numbers.len()]] {
            let day = months::day_of(random, &[number], &VERSION_2);
            let before = tally.adds.times(25);
            months.add(&day, 0, tally)?;
            tally.both += tally.adds.times(25) - before;
        }
        return months.read_whole(tally);
    }
    Err(NOT_SHOWN.to_string())
}

/// Each line of a month just before its bound, whatever the others are: a file that reaches it,
/// and one that would pass it by one.
fn compare_lines(random: &mut Random, tally: &mut Tally) -> Result<(), String> {
    let (months, places) = shown(random, tally)?;
    let numbers: Vec<i64> = months.reading.namespaces().map(|(number, _)| number).collect();
    let day = months::day_of(random, &numbers, &VERSION_2);
    let (file, (published, own)) = &day;
    let Ok(brought) = reading::month::brought(file, published, own, &form_of(file)) else {
        return Ok(());
    };
    for (line, _) in &places {
        let comes = brought.total(*line);
        for past in [0, 1] {
            let mut months = months.clone();
            let before = |other, total| match other == *line {
                true => BOUNDS.total - comes + past.min(comes),
                false => total,
            };
            months.set(&places, before);
            months.read_whole(tally)?;
            let is_added = months.add(&day, 0, tally)?;
            months.read_whole(tally)?;
            if comes > 0 {
                tally.lines_at_bound[usize::from(!is_added)] += 1;
            }
        }
    }
    Ok(())
}

/// Files as long as they may be, a byte shorter and a byte longer, and one with as many messages
/// as may be.
fn compare_long(random: &mut Random, tally: &mut Tally) -> Result<(), String> {
    for form in [VERSION_1, VERSION_2] {
        let mut months = Months::new(random)?;
        for bytes in [form.bytes - 1, form.bytes, form.bytes + 1] {
            let messages = messages_of_bytes(random, bytes, &[], &form);
            months.add(&(file_of(&messages, &form), Lists::default()), 0, tally)?;
            // And without references, so that there are not too many namespaces.
            let taken = 4_000 + form.offset;
            let mut plain = vec![message_of_length(4_000); (bytes - TRAILER) / taken];
            plain.push(message_of_length((bytes - TRAILER) % taken - form.offset));
            let is_added = months.add(&(file_of(&plain, &form), Lists::default()), 0, tally)?;
            assert_eq!(is_added, bytes <= form.bytes);
            months.read_whole(tally)?;
        }
        let crowd = file_of(&vec![[1]; form.messages.min(form.bytes / 8)], &form);
        months.add(&(crowd, Lists::default()), 0, tally)?;
        months.read_whole(tally)?;
    }
    Ok(())
}

/// Months at the bound of their totals, and of files at their limits.
pub fn compare_bounds(random: &mut Random, tally: &mut Tally) -> Result<usize, String> {
    let months = 150;
    for _ in 0..months {
        compare_repeated(random, tally)?;
        compare_both(random, tally)?;
        compare_lines(random, tally)?;
    }
    compare_long(random, tally)?;
    Ok(3 * months)
}
