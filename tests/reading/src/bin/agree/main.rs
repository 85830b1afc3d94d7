//! Compares the archive's answers, and what it leaves in lent memory, with the
//! reading's: on inputs from the grammar, near the limits, damaged and random,
//! with tables that grant most of what is named, and rooms from none to enough;
//! day files of both versions, whole and damaged; messages that nest down to the reference
//! by which they are held; pairs of ARIs, most of them alike, and of messages that differ in
//! a few places; messages to strike targets from; messages that are fed in fragments; and
//! months of day files.
//!
//! `agree [--count N] [--seed S]`: N inputs in all (200,000), for each function
//! that the archive has the same number, the stream's three counted as one, and so the
//! month's; the seed is taken from the clock unless given, and printed.

mod day;
mod lent;
mod messages;
mod month;
mod same;
mod stream;
mod strike;
mod tally;
mod why;

use std::process::ExitCode;
use std::time::{Instant, SystemTime, UNIX_EPOCH};

use lent::Lent;
use reading::archive::{self, packed, packed_plain, packed_release, packed_written, unpacked};
use reading::archive::{packed_added, packed_compared, packed_low, packed_part, packed_why};
use reading::compare::POSITION;
use reading::day::{form_of, FOUND};
use reading::generate::{
    self, days, names, nests, pairs, strikes, tables, texts, Random, Settings,
};
use reading::vectors::dump;
use reading::{Entry, Namespace, Record, Written, ENTRY, LIMITS};
use tally::Column;

#[derive(Clone, Copy, Debug, PartialEq, Eq)]
enum Call {
    Single,
    Message,
    List,
    Table,
    Release,
    Write,
    Read,
    Names,
    DayCheck,
    DayFind,
    DayAdd,
    DaySearch,
    Number,
    Why,
    Same,
    DayUpgrade,
    Compare,
    Strike,
}

/// What a call is lent. Most use only a part of it.
#[derive(Default)]
struct Case {
    /// The message, the single ARI, the text or the day file.
    input: Vec<u8>,
    /// The message to be added to a day file, the name whose number is wanted, or the second
    /// of two ARIs or messages.
    other: Vec<u8>,
    table: Vec<u8>,
    /// The published list of names and the subscriber's own.
    lists: names::Lists,
    /// The subscriber, the number of a day file's message or of a target, or the namespace
    /// sought in a day file.
    number: u64,
    /// What the room for the answer holds before; where a number is lent, that of the rows
    /// compared or of a name, what it is before, as eight bytes.
    room: Vec<u8>,
}

impl Call {
    /// In the order of the archive's declarations.
    const ALL: [Call; 18] = [
        Call::Single,
        Call::Message,
        Call::List,
        Call::Table,
        Call::Release,
        Call::Write,
        Call::Read,
        Call::Names,
        Call::DayCheck,
        Call::DayFind,
        Call::DayAdd,
        Call::DaySearch,
        Call::Number,
        Call::Why,
        Call::Same,
        Call::DayUpgrade,
        Call::Compare,
        Call::Strike,
    ];

    fn function(self) -> &'static str {
        archive::FUNCTIONS[self as usize].0
    }

    /// The numbers that may be the answer's top byte.
    fn numbers(self) -> Vec<u64> {
        match self {
            Call::Single => (0..=7).chain(9..=13).collect(),
            Call::Message => (0..=12).collect(),
            Call::List => (0..=12).chain([16]).collect(),
            Call::Table => vec![0, 18],
            Call::Release => (0..=12).chain([18, 19, archive::NO]).collect(),
            Call::Write => (0..=7).chain(9..=14).chain([16]).collect(),
            Call::Read => vec![0, 1, 15, 16],
            Call::Names => vec![0, 19],
            Call::DayCheck => vec![0, 20, 21, 22],
            Call::DayFind => vec![0, 17, 20, 21, 22],
            Call::DayAdd => (0..=12).chain([16]).chain(20..=23).collect(),
            Call::DaySearch => vec![0, 16, 19, 20, 21, 22],
            Call::Number => vec![0],
            Call::Why => (0..=12).chain([16, 18, 19, archive::NO]).collect(),
            Call::Same => (0..=7).chain(9..=13).collect(),
            Call::DayUpgrade => vec![0, 16, 20, 21, 22],
            Call::Compare => (0..=12).chain([16]).collect(),
            Call::Strike => (0..=12).chain([16, 27]).collect(),
        }
    }

    fn reading(self, case: &Case, room: &mut [u8]) -> u64 {
        let Case { input, other, table, lists: (published, own), number, .. } = case;
        match self {
            Call::Single => packed(reading::check_single(input)),
            Call::Message => packed(reading::check_message(input)),
            Call::List => packed_written(reading::list(input, room)),
            Call::Table => {
                packed_plain(reading::rows(table).and_then(|rows| reading::check_table(&rows)))
            }
            Call::Release => {
                let counted =
                    reading::names::counted_release(input, table, published, own, *number, &LIMITS);
                if let Ok((_, compared)) = counted {
                    room.copy_from_slice(&compared.to_ne_bytes());
                }
                packed_release(counted.map(|(answer, _)| answer))
            }
            Call::Write => packed_written(reading::write_text(input, room)),
            Call::Read => packed_written(reading::read_text(input, room)),
            Call::Names => packed_plain(reading::names::check_names(published, own)),
            Call::DayCheck => packed_low(reading::day::check(input, &form_of(input))),
            Call::DayFind => packed_part(reading::day::find(input, *number, &form_of(input))),
            Call::DayAdd => packed_added(reading::day::add(input, other, room, &form_of(input))),
            Call::DaySearch => {
                let namespace = *number as i64;
                let search = reading::day::search;
                packed_low(search(input, published, own, namespace, room, &form_of(input)))
            }
            Call::Number => {
                let number = reading::names::name_number(published, own, other);
                if let Some(number) = number {
                    room.copy_from_slice(&number.to_ne_bytes());
                }
                packed_low(Ok(usize::from(number.is_some())))
            }
            Call::Why => {
                packed_why(why::answer(case).and_then(|answer| reading::why::write(answer, room)))
            }
            Call::Same => packed_low(reading::same(input, other, &LIMITS).map(usize::from)),
            Call::DayUpgrade => packed_added(reading::day::upgrade(input, room)),
            Call::Compare => {
                let list = messages::answer(case);
                packed_compared(list.and_then(|list| reading::compare::write(&list, room)))
            }
            Call::Strike => {
                let struck = strike::answer(case);
                packed_written(struck.and_then(|struck| reading::strike::write(&struck, room)))
            }
        }
    }

    /// What is lent to read is the input, the other one, the table and the two lists.
    fn archive(self, lent: [&[u8]; 5], number: u64, room: &mut [u8]) -> u64 {
        let [input, other, table, published, own] = lent;
        match self {
            Call::Single => archive::check_single(input),
            Call::Message => archive::check_message(input),
            Call::List => archive::list(input, room),
            Call::Table => archive::check_table(table),
            Call::Release => with_number(room, |compared| {
                archive::release(input, table, published, own, number, compared)
            }),
            Call::Write => archive::write_text(input, room),
            Call::Read => archive::read_text(input, room),
            Call::Names => archive::check_names(published, own),
            Call::DayCheck => archive::day_check(input),
            Call::DayFind => archive::day_find(input, number),
            Call::DayAdd => archive::day_add(input, other, room),
            Call::DaySearch => archive::day_search(input, published, own, number, room),
            Call::Number => {
                with_number(room, |number| archive::name_number(published, own, other, number))
            }
            Call::Why => archive::why(input, table, published, own, number, room),
            Call::Same => archive::same(input, other),
            Call::DayUpgrade => archive::day_upgrade(input, room),
            Call::Compare => archive::compare(input, other, room),
            Call::Strike => archive::strike(input, number, room),
        }
    }

    /// Whether the input is a single ARI; otherwise it is a message.
    fn takes_single(self) -> bool {
        matches!(self, Call::Single | Call::Write | Call::Same)
    }

    fn records(self, input: &[u8]) -> Vec<Record> {
        match self.takes_single() {
            true => reading::items_single(input),
            false => reading::items_message(input),
        }
        .unwrap_or_default()
    }

    fn settings(self, random: &mut Random) -> Settings {
        let settings = generate::settings(random);
        match self {
            Call::Release | Call::Why => Settings { few_namespaces: random.chance(60), ..settings },
            Call::Write => Settings { floats: random.chance(20), ..settings },
            _ => settings,
        }
    }

    /// An input as the generator makes it, most of them to be accepted.
    fn whole(self, random: &mut Random) -> Vec<u8> {
        let settings = self.settings(random);
        // One below a limit, on it, or one past it.
        let near = |limit: usize, random: &mut Random| limit - 1 + random.below(3);
        match (random.below(100), self.takes_single()) {
            (0..=9, true) => {
                let containers = near(LIMITS.containers, random);
                generate::nested_single(random, containers)
            }
            (0..=9, false) => {
                let containers = near(LIMITS.containers, random);
                generate::nested_message(random, containers)
            }
            (10..=12, false) => {
                let start = generate::message(random, settings);
                let items = self.records(&start).len();
                generate::counted_message(&start, items, near(LIMITS.items, random))
            }
            (13..=15, false) => {
                let bytes = near(LIMITS.bytes, random);
                generate::full_message(random, settings, bytes)
            }
            (10..=12, true) => {
                let items = near(LIMITS.items, random) + 1;
                generate::counted_message(&[0x01], 1, items).split_off(1)
            }
            (13, true) => {
                // Sets without a version: a single ARI, most often with bytes after.
                generate::full_message(random, settings, LIMITS.bytes).split_off(1)
            }
            (14..=15, true) => {
                let bytes = near(LIMITS.bytes, random);
                generate::full_list(random, settings, bytes)
            }
            (_, true) => generate::single(random, settings),
            (_, false) => generate::message(random, settings),
        }
    }

    /// A message or a single ARI.
    fn binary(self, random: &mut Random) -> Vec<u8> {
        match random.below(100) {
            0..=4 => return generate::random_input(random),
            5..=7 => {
                let before: &[u8] = match self.takes_single() {
                    true => &[],
                    false => &[1, 0x82, 0x15, 0x83, 0xf6, 0, 0x83, 0, 0x83, 0xf6, 0x20, 0],
                };
                return [before, &generate::boundary_literal(random)].concat();
            }
            8 => return Call::Single.whole(random),
            9 => return Call::Message.whole(random),
            _ => (),
        }
        let mut input = self.whole(random);
        let damaged = match self {
            Call::Single | Call::Message => 55,
            Call::Compare => 10,
            _ => 25,
        };
        if random.chance(damaged) {
            let other = self.whole(random);
            let records = self.records(&input);
            generate::damage(random, &mut input, &records, &other);
            for _ in 0..random.pick(&[0, 0, 0, 1, 3]) {
                generate::damage(random, &mut input, &[], &other);
            }
        }
        input
    }

    /// A second ARI: the first in other letters and heads, most often, or with one letter
    /// changed; and then a few damaged.
    fn like(self, random: &mut Random, input: &[u8]) -> Vec<u8> {
        let (letters, heads) = (random.pick(&[0, 5, 30]), random.pick(&[0, 0, 40]));
        match random.below(10) {
            0 => self.binary(random),
            1 => input.to_vec(),
            2 => {
                let mut like = generate::rewritten(random, input, letters, heads);
                let records = self.records(&like);
                generate::damage(random, &mut like, &records, input);
                like
            }
            3..=5 => {
                let like = generate::one_letter(random, input, &self.records(input));
                generate::rewritten(random, &like, 0, heads)
            }
            _ => generate::rewritten(random, input, letters, heads),
        }
    }

    /// Two messages: the second most often a few changes of the first, and then a few damaged.
    fn beside(self, random: &mut Random) -> (Vec<u8>, Vec<u8>) {
        let first = self.binary(random);
        if reading::items_message(&first).is_err() || random.chance(8) {
            let second = self.binary(random);
            return (first, second);
        }
        let mut second = match random.chance(5) {
            true => first.clone(),
            false => pairs::beside(random, &first),
        };
        if random.chance(8) {
            let records = self.records(&second);
            generate::damage(random, &mut second, &records, &first);
        }
        match random.chance(50) {
            true => (first, second),
            false => (second, first),
        }
    }

    /// A table and lists for a message, in which names of lists take the place of some
    /// namespaces; now and then there are no lists.
    fn give_names(self, random: &mut Random, case: &mut Case) {
        if random.chance(25) {
            (case.table, case.number) = tables::table_for(random, &case.input);
            return;
        }
        if random.chance(50) {
            let (published, own) = names::lists(random);
            let known = [names::names_of(&published), names::names_of(&own)].concat();
            names::rename(random, &mut case.input, &known, 60);
        }
        case.lists = names::lists_for(random, &case.input);
        damage_lists(random, &mut case.lists);
        (case.table, case.number) = names::table_for(random, &case.input, &case.lists);
    }

    /// A message that nests down to one reference, a few damaged, with its lists and table.
    fn nest(self, random: &mut Random) -> Case {
        let containers = match random.chance(50) {
            true => LIMITS.containers,
            false => 4 + random.below(LIMITS.containers - 2),
        };
        let nests::Nest { mut message, lists, table, subscriber } = nests::nest(random, containers);
        if random.chance(10) {
            let records = self.records(&message);
            generate::damage(random, &mut message, &records, &[]);
        }
        Case { input: message, lists, table, number: subscriber, ..Case::default() }
    }

    fn case(self, random: &mut Random) -> Case {
        let mut case = Case::default();
        match self {
            Call::Table => case.table = tables::table(random),
            Call::Read => case.input = text(random),
            Call::Names => case.lists = names::lists(random),
            Call::DayCheck => case.input = days::file(random),
            Call::DayFind => {
                case.input = days::file(random);
                case.number = days::message_number(random, &case.input);
            }
            Call::DayAdd => {
                case.other = self.binary(random);
                case.input = days::file_for(random, &case.other);
            }
            Call::DaySearch => {
                (case.input, case.lists) = days::named_file(random);
                damage_lists(random, &mut case.lists);
                case.number = days::namespace(random, &case.input, &case.lists) as u64;
            }
            Call::DayUpgrade => case.input = days::old_file(random),
            Call::Number => {
                case.lists = names::lists(random);
                case.other = names::sought(random, &case.lists);
            }
            Call::Why if random.chance(40) => case = self.nest(random),
            Call::Release | Call::Why => {
                case.input = self.binary(random);
                self.give_names(random, &mut case);
            }
            Call::Same => {
                case.input = self.binary(random);
                case.other = self.like(random, &case.input);
            }
            Call::Compare => (case.input, case.other) = self.beside(random),
            Call::Strike => {
                case.input = match random.chance(55) {
                    true => strikes::message(random),
                    false => self.binary(random),
                };
                if random.chance(10) {
                    let records = self.records(&case.input);
                    generate::damage(random, &mut case.input, &records, &[]);
                }
                case.number = strikes::number(random, &case.input);
            }
            _ => case.input = self.binary(random),
        }
        // The size of what test 16 counts.
        let size = match self {
            Call::List => ENTRY,
            Call::DaySearch => FOUND,
            Call::Compare => POSITION,
            Call::Write | Call::Read | Call::DayAdd | Call::Why | Call::DayUpgrade => 1,
            Call::Strike => 1,
            Call::Release | Call::Number => {
                case.room = random.word().to_ne_bytes().to_vec();
                return case;
            }
            _ => return case,
        };
        let answer = self.reading(&case, &mut []);
        let need = match answer >> 56 {
            16 => (answer << 8 >> 8) as usize * size,
            _ => 0,
        };
        let length = match random.below(10) {
            0 => 0,
            1 => random.below(need + 1),
            2 => need.saturating_sub(1),
            3..=5 => need,
            6..=8 => need + 1 + random.below(2 * ENTRY),
            _ => need + random.below(2_000),
        };
        case.room = (0..length.div_ceil(8)).flat_map(|_| random.word().to_ne_bytes()).collect();
        case.room.truncate(length);
        case
    }
}

/// Lends a call a number, which stands in the room before and after.
fn with_number(room: &mut [u8], call: impl FnOnce(&mut u64) -> u64) -> u64 {
    let before: [u8; 8] = (&*room).try_into().expect("eight bytes");
    let mut number = u64::from_ne_bytes(before);
    let answer = call(&mut number);
    room.copy_from_slice(&number.to_ne_bytes());
    answer
}

/// Damages one of the lists, now and then.
fn damage_lists(random: &mut Random, (published, own): &mut names::Lists) {
    if random.chance(8) {
        match random.chance(50) {
            true => names::damage(random, published, own),
            false => names::damage(random, own, published),
        }
    }
}

fn text(random: &mut Random) -> Vec<u8> {
    let mut text = match random.below(40) {
        0..=7 => return texts::words(random),
        8 => return texts::long_text(random),
        _ => texts::text(random),
    };
    if random.chance(60) {
        let other = texts::text(random);
        for _ in 0..random.pick(&[1, 1, 1, 2, 4]) {
            texts::damage(random, &mut text, &other);
        }
    }
    text
}

/// Both answers, if they differ or lent memory isn't as it has to be: what is lent to
/// read unchanged, the room as the reading leaves its own.
fn compare(call: Call, case: &Case, shift: usize) -> Result<u64, String> {
    let Case { input, other, table, lists: (published, own), number, room } = case;
    let mut expected_room = room.clone();
    let expected = call.reading(case, &mut expected_room);
    let answered = matches!(expected >> 56, 0 | archive::NO);
    assert!(answered || expected_room == *room, "the reading wrote on a refusal");

    let contents = [input, other, table, published, own];
    let lent = [0, 1, 2, 3, 4].map(|k| Lent::new(contents[k], shift / (k + 1)));
    let mut lent_room = Lent::new(room, shift / 3);
    let given = call.archive(lent.each_ref().map(Lent::content), *number, lent_room.content_mut());
    let wrong = if given != expected {
        unpacked(given)
    } else if !lent.iter().zip(contents).all(|(lent, content)| lent.is(content)) {
        "wrote to what it was lent to read, or around it".to_string()
    } else if !lent_room.is(&expected_room) {
        format!("left in the room, or around it:{}", dump(lent_room.block()))
    } else {
        return Ok(expected);
    };
    let mut words = match call {
        Call::Release | Call::Why => format!("{call:?}, subscriber {number}"),
        Call::DayFind => format!("{call:?}, message {number}"),
        Call::Strike => format!("{call:?}, target {number}"),
        Call::DaySearch => format!("{call:?}, namespace {}", *number as i64),
        _ => format!("{call:?}"),
    };
    words += &format!(", room of {} bytes", room.len());
    for (name, content) in ["input", "other", "table", "published", "own"]
        .into_iter()
        .zip(contents)
        .filter(|(_, content)| !content.is_empty())
    {
        words += &format!("\n  {name}, {} bytes:{}", content.len(), dump(content));
    }
    Err(format!("{words}\n  reading: {}\n  archive: {wrong}", unpacked(expected)))
}

/// The text that a case had written, as a case of reading it back.
fn read_back(case: &Case, answer: u64) -> Case {
    let mut text = case.room.clone();
    let written = reading::write_text(&case.input, &mut text);
    assert_eq!(packed_written(written), answer);
    text.truncate(answer as u32 as usize);
    let short = reading::shortened(&case.input);
    let mut room = vec![0; short.len()];
    let read = reading::read_text(&text, &mut room);
    assert_eq!((read.map(|Written { size, .. }| size), &room), (Ok(room.len()), &short));
    Case { input: text, room: vec![0xee; short.len()], ..Case::default() }
}

/// What occurred.
struct Tally {
    /// Of each call that is compared.
    answers: Vec<(Call, Column)>,
    /// Refusals of a binary input at byte 16 or later.
    deep: usize,
    entries: usize,
    /// Answers of yes to messages with references, and with names among them.
    yes: usize,
    named_yes: usize,
    /// Answers of no at another entry than the first.
    later_no: usize,
    read_back: usize,
    days: day::Tally,
    whys: why::Tally,
    pairs: same::Tally,
    messages: messages::Tally,
    struck: strike::Tally,
}

impl Tally {
    fn new(calls: &[Call]) -> Tally {
        let column = |call: &Call| (*call, Column::new(&format!("{call:?}"), call.numbers()));
        let answers = calls.iter().map(column).collect();
        Tally {
            answers,
            deep: 0,
            entries: 0,
            yes: 0,
            named_yes: 0,
            later_no: 0,
            read_back: 0,
            days: day::Tally::default(),
            whys: why::Tally::default(),
            pairs: same::Tally::default(),
            messages: messages::Tally::default(),
            struck: strike::Tally::default(),
        }
    }

    fn add(&mut self, call: Call, case: &Case, answer: u64) {
        self.days.add(call, case, answer);
        match call {
            Call::Why => self.whys.add(case, answer),
            Call::Same => self.pairs.add(case, answer),
            Call::Compare => self.messages.add(case, answer),
            Call::Strike => self.struck.add(case, answer),
            _ => (),
        }
        for (_, column) in self.answers.iter_mut().filter(|(of, _)| *of == call) {
            column.add(answer);
        }
        let (number, low) = (answer >> 56, answer << 8 >> 8);
        match number {
            0 if call == Call::List => self.entries += low as u32 as usize,
            0 if call == Call::Release => {
                let entries = reading::listing(&case.input).unwrap().entries;
                let is_name = |entry: &Entry| matches!(entry.namespace, Namespace::Name(_));
                self.yes += usize::from(!entries.is_empty());
                self.named_yes += usize::from(entries.iter().any(is_name));
            }
            1..=14 => self.deep += usize::from(low >= 16),
            archive::NO => self.later_no += usize::from(low as u32 > 0),
            _ => (),
        }
    }
}

/// A call with an input that is made for it; a text that was written is read back too, and
/// of some messages every target is struck.
fn compare_call(
    call: Call,
    calls: &[Call],
    random: &mut Random,
    shift: usize,
    tally: &mut Tally,
) -> Result<(), String> {
    let case = call.case(random);
    let answer = compare(call, &case, shift)?;
    tally.add(call, &case, answer);
    if call == Call::Write && answer >> 56 == 0 && calls.contains(&Call::Read) {
        compare(Call::Read, &read_back(&case, answer), shift)?;
        tally.read_back += 1;
    }
    // Of some messages every target
    if call == Call::Strike && answer >> 56 == 0 && case.input.len() < 600 && random.chance(50) {
        strike::compare_every(&case.input, &mut tally.struck)?;
    }
    Ok(())
}

/// Text strings of every length up to 80, and each with one byte that is no ASCII at each
/// of its places: the text check takes bytes in runs.
fn compare_strings() -> Result<usize, String> {
    let mut compared = 0;
    for length in 0..=80 {
        let plain: Vec<u8> = (0..length).map(|k| b'a' + (k % 26) as u8).collect();
        let damaged = (0..length).flat_map(|at| {
            [0x80, 0xbf, 0xc3, 0xe2, 0xf0, 0xff].map(|byte| {
                let mut string = plain.clone();
                string[at] = byte;
                string
            })
        });
        for string in damaged.chain([plain.clone()]) {
            let mut input = Vec::new();
            generate::put_head(&mut input, 3, length as u64);
            input.extend(string);
            compare(Call::Single, &Case { input, ..Case::default() }, length % 48)?;
            compared += 1;
        }
    }
    Ok(compared)
}

fn option(name: &str) -> Option<u64> {
    let mut arguments = std::env::args().skip_while(|a| a != name);
    arguments.next()?;
    let value = arguments.next().and_then(|v| v.parse().ok());
    Some(value.unwrap_or_else(|| panic!("{name} wants a number")))
}

fn main() -> ExitCode {
    let count = option("--count").unwrap_or(200_000);
    let now = SystemTime::now().duration_since(UNIX_EPOCH).unwrap();
    let seed = option("--seed").unwrap_or(now.as_nanos() as u64);
    let (calls, missing): (Vec<Call>, Vec<Call>) =
        Call::ALL.into_iter().partition(|call| archive::has(call.function()));
    let mut missing: Vec<&str> = missing.into_iter().map(Call::function).collect();
    let with_stream = archive::has_stream();
    if !with_stream {
        missing.push("the stream");
    }
    let with_month = archive::has_month();
    if !with_month {
        missing.push("the month");
    }
    if calls.is_empty() && !with_stream && !with_month {
        println!("agree: built without the archive, nothing compared");
        return ExitCode::FAILURE;
    }
    if !missing.is_empty() {
        println!("agree: skipped, not in the archive: {}", missing.join(", "));
    }
    println!("agree: seed {seed}, {count} inputs");

    let start = Instant::now();
    let (mut tally, mut streams) = (Tally::new(&calls), stream::Tally::new());
    let mut months = month::Tally::new();
    for k in 0..count {
        // Each input has a seed of its own, so that one can be made again alone.
        let mut random = Random::new(seed.wrapping_add(k << 32 | k));
        let kinds = calls.len() + usize::from(with_stream) + usize::from(with_month);
        let kind = k as usize % kinds;
        let outcome = match calls.get(kind) {
            Some(&call) => compare_call(call, &calls, &mut random, k as usize % 48, &mut tally),
            None if with_month && kind + 1 == kinds => month::compare(&mut random, &mut months),
            None => stream::compare(&mut random, &mut streams),
        };
        if let Err(words) = outcome {
            println!("DISAGREE at input {k} of seed {seed}: {words}");
            return ExitCode::FAILURE;
        }
    }
    if calls.contains(&Call::Single) {
        match compare_strings() {
            Ok(compared) => println!("strings of 0 to 80 bytes, whole and damaged: {compared}"),
            Err(words) => {
                println!("DISAGREE at the strings: {words}");
                return ExitCode::FAILURE;
            }
        }
    }
    if day::CALLS.iter().all(|call| calls.contains(call)) {
        match day::compare_limits(&mut Random::new(seed), &mut tally.days) {
            Ok(compared) => println!("day files at the limits of either version: {compared}"),
            Err(words) => {
                println!("DISAGREE at the day files of seed {seed}: {words}");
                return ExitCode::FAILURE;
            }
        }
    }
    if calls.contains(&Call::Compare) {
        match messages::compare_limits().and_then(|at| Ok((at, messages::compare_small()?))) {
            Ok((at, small)) => {
                println!("pairs of messages at the limits: {at}, small ones {small}")
            }
            Err(words) => {
                println!("DISAGREE at the pairs of messages: {words}");
                return ExitCode::FAILURE;
            }
        }
    }
    if calls.contains(&Call::Strike) {
        match strike::compare_limits() {
            Ok(compared) => println!("targets struck at the limits: {compared}"),
            Err(words) => {
                println!("DISAGREE at the targets struck: {words}");
                return ExitCode::FAILURE;
            }
        }
    }
    if with_stream {
        let messages = count.div_ceil(500).min(400) as usize;
        if let Err(words) = stream::compare_prefixes(&mut Random::new(seed), messages, &mut streams)
        {
            println!("DISAGREE at the prefixes of seed {seed}: {words}");
            return ExitCode::FAILURE;
        }
    }

    if with_month {
        match month::compare_bounds(&mut Random::new(seed), &mut months) {
            Ok(compared) => println!("months at the bound of their totals: {compared}"),
            Err(words) => {
                println!("DISAGREE at the months of seed {seed}: {words}");
                return ExitCode::FAILURE;
            }
        }
    }

    let mut columns: Vec<&Column> = tally.answers.iter().map(|(_, column)| column).collect();
    if with_stream {
        columns.extend([&streams.feeds, &streams.closes]);
    }
    if with_month {
        columns.extend([&months.adds, &months.reads]);
    }
    let with_days = day::CALLS.iter().all(|call| calls.contains(call));
    let (with_why, with_same) = (calls.contains(&Call::Why), calls.contains(&Call::Same));
    let with_compare = calls.contains(&Call::Compare);
    let with_strike = calls.contains(&Call::Strike);
    let complete = tally::print(&columns)
        && (!with_stream || streams.is_complete())
        && (!with_month || months.is_complete())
        && (!with_days || tally.days.is_complete())
        && (!with_why || tally.whys.is_complete())
        && (!with_same || tally.pairs.is_complete())
        && (!with_compare || tally.messages.is_complete())
        && (!with_strike || tally.struck.is_complete());
    println!(
        "refused at byte 16 or later {}, entries listed {}, yes with references {}, with names \
         {}, no past entry 0 {}, texts read back {}",
        tally.deep, tally.entries, tally.yes, tally.named_yes, tally.later_no, tally.read_back
    );
    if with_days {
        println!("{}", tally.days);
    }
    if with_why {
        println!("{}", tally.whys);
    }
    if with_same {
        println!("{}", tally.pairs);
    }
    if with_compare {
        println!("{}", tally.messages);
    }
    if with_strike {
        println!("{}", tally.struck);
    }
    if with_stream {
        println!("{streams}");
    }
    if with_month {
        println!("{months}");
    }
    if !complete && count >= 100_000 {
        println!("agree: an answer never occurred");
        return ExitCode::FAILURE;
    }
    println!("agree: all equal, {:.1} s", start.elapsed().as_secs_f64());
    ExitCode::SUCCESS
}
