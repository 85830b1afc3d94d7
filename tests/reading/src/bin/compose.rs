//! Compares the composer's archive with the reading: its answers, and what it leaves in lent
//! memory, on orders of all kinds, with rooms from none to enough. What it composes is taken
//! apart and composed again.
//!
//! `compose [--count N] [--seed S]`: N orders (200,000); the seed is taken from the clock unless
//! given, and printed.

#[allow(dead_code)]
#[path = "agree/lent.rs"]
mod lent;
#[allow(dead_code)]
#[path = "agree/tally.rs"]
mod tally;

use std::process::ExitCode;
use std::time::{Instant, SystemTime, UNIX_EPOCH};

use lent::Lent;
use reading::archive::{composer, packed_written, unpacked};
use reading::composer::{compose, composed, sizes, Nonce};
use reading::generate::orders::{self, Order};
use reading::generate::Random;
use reading::vectors::{dump, to_hex};
use reading::{items_message, text_of, Kind, Limits, Record, LIMITS};
use tally::Column;

fn reading(order: &Order, room: &mut [u8]) -> u64 {
    let nonce = Nonce::of(order.kind, order.number, &order.nonce);
    packed_written(nonce.and_then(|nonce| compose(nonce, &order.texts, room, &LIMITS)))
}

/// Both answers, if they differ or lent memory isn't as it has to be.
fn compare(order: &Order, room: &[u8], shift: usize) -> Result<u64, String> {
    let mut due = room.to_vec();
    let expected = reading(order, &mut due);
    assert!(expected >> 56 == 0 || due == room, "the reading wrote on a refusal");

    let Order { kind, number, nonce, texts } = order;
    let [lent_nonce, lent_texts] =
        [(nonce, shift), (texts, shift / 2)].map(|(content, shift)| Lent::new(content, shift));
    let mut lent_room = Lent::new(room, shift / 3);
    let given = composer::compose(
        *kind,
        *number,
        lent_nonce.content(),
        lent_texts.content(),
        lent_room.content_mut(),
    );
    let wrong = if given != expected {
        unpacked(given)
    } else if !lent_nonce.is(nonce) || !lent_texts.is(texts) {
        "wrote to what it was lent to read, or around it".to_string()
    } else if !lent_room.is(&due) {
        format!("left in the room, or around it:{}", dump(lent_room.block()))
    } else {
        return Ok(expected);
    };
    Err(format!(
        "nonce {kind} {number}, room of {} bytes\n  its string:{}\n  texts:{}\n  reading: {}\n  \
         archive: {wrong}",
        room.len(),
        dump(nonce),
        dump(texts),
        unpacked(expected)
    ))
}

/// Past all limits, to see how far a message is past them.
const FAR: Limits =
    Limits { bytes: usize::MAX, items: usize::MAX, containers: usize::MAX, ..LIMITS };

/// What occurred.
struct Tally {
    answers: Column,
    /// Accepted, by the nonce's kind.
    kinds: [usize; 3],
    targets: usize,
    /// Messages at the limit of bytes, of items and of containers, and such as are past one of
    /// them by one.
    at_limit: [usize; 3],
    one_past: [usize; 3],
    /// Messages too long by the nonce alone.
    by_nonce: usize,
    /// Messages that are past more than one limit.
    both: usize,
    /// No target: past text 0, not ended, too long, a namespace reference.
    no_target: [usize; 4],
    /// Taken apart and composed again.
    again: usize,
}

impl Tally {
    fn new() -> Tally {
        Tally {
            answers: Column::new("compose", vec![0, 1, 5, 6, 7, 16, 24]),
            kinds: [0; 3],
            targets: 0,
            at_limit: [0; 3],
            one_past: [0; 3],
            by_nonce: 0,
            both: 0,
            no_target: [0; 4],
            again: 0,
        }
    }

    fn add(&mut self, order: &Order, answer: u64) {
        self.answers.add(answer);
        let (number, low) = (answer >> 56, (answer << 8 >> 8) as usize);
        match number {
            0 => {
                self.kinds[order.kind as usize] += 1;
                self.targets += order.texts.iter().filter(|byte| **byte == b'\n').count();
            }
            24 => {
                let text = order.texts.split_inclusive(|byte| *byte == b'\n').nth(low);
                let text = text.expect("a text");
                let counts = [
                    low > 0,
                    !text.ends_with(b"\n"),
                    text.len() > LIMITS.text + 1,
                    text.starts_with(b"ari://") && text.ends_with(b"/\n"),
                ];
                for (count, is_so) in self.no_target.iter_mut().zip(counts) {
                    *count += usize::from(is_so);
                }
            }
            _ => (),
        }
        if matches!(number, 0 | 1 | 5 | 6) {
            let nonce = Nonce::of(order.kind, order.number, &order.nonce).expect("a nonce");
            let (message, _) = composed(nonce, &order.texts, &FAR).expect("a message");
            let sizes = sizes(&message);
            let limits = [LIMITS.bytes, LIMITS.items, LIMITS.containers];
            for k in 0..3 {
                self.at_limit[k] += usize::from(number == 0 && sizes[k] == limits[k]);
                self.one_past[k] += usize::from(sizes[k] == limits[k] + 1);
            }
            self.both += usize::from((0..3).filter(|k| sizes[*k] > limits[*k]).count() > 1);
            self.by_nonce += usize::from(number == 1 && order.texts.is_empty());
        }
    }

    fn is_complete(&self) -> bool {
        let some = [&self.kinds[..], &self.at_limit, &self.one_past, &self.no_target].concat();
        let others = [self.targets, self.by_nonce, self.both, self.again];
        some.iter().chain(&others).all(|times| *times > 0)
    }
}

impl std::fmt::Display for Tally {
    fn fmt(&self, f: &mut std::fmt::Formatter<'_>) -> std::fmt::Result {
        let Tally { kinds, targets, at_limit, one_past, by_nonce, both, again, .. } = self;
        let [later, not_ended, too_long, namespace] = self.no_target;
        write!(
            f,
            "composed with a nonce that is null, a number, bytes {kinds:?}, targets {targets}; at \
             the limit of bytes, items, containers {at_limit:?}, one past it {one_past:?}, too \
             long by the nonce alone {by_nonce}, past two limits {both}; no target past text 0 \
             {later}, not ended {not_ended}, too long {too_long}, a namespace {namespace}; \
             composed again {again}"
        )
    }
}

/// The order that a message is: its nonce as it stands, and the texts of its targets.
fn taken_apart(message: &[u8], order: &Order) -> Order {
    let records = items_message(message).expect("accepted");
    let part = |record: &Record| &message[record.first..record.after];
    let mut members = records[4..].iter().filter(|record| record.around == 2).map(part);
    let nonce = members.next().expect("a nonce");
    let mut again = Order { kind: order.kind, ..Order::default() };
    match order.kind {
        0 => assert_eq!(nonce, [0xf6]),
        1 => match records[4].kind {
            Kind::Unsigned(number) => again.number = number,
            kind => panic!("the nonce is {kind}"),
        },
        _ => again.nonce = nonce[nonce.len() - order.nonce.len()..].to_vec(),
    }
    for target in members {
        again.texts.extend(text_of(target, &LIMITS).expect("a text").0.bytes());
        again.texts.push(b'\n');
    }
    again
}

/// An order in some room; and once more from what was composed.
fn compare_one(random: &mut Random, tally: &mut Tally) -> Result<(), String> {
    let order = orders::order(random);
    let answer = reading(&order, &mut []);
    let need = if answer >> 56 == 16 { (answer << 8 >> 8) as usize } else { 0 };
    let length = match random.below(10) {
        0 => 0,
        1 => random.below(need + 1),
        2 => need.saturating_sub(1),
        3..=6 => need,
        _ => need + 1 + random.below(60),
    };
    let room: Vec<u8> = (0..length).map(|_| random.word() as u8).collect();
    let answer = compare(&order, &room, random.below(48))?;
    tally.add(&order, answer);
    if answer >> 56 != 0 {
        return Ok(());
    }
    let mut message = vec![0; need];
    let given =
        composer::compose(order.kind, order.number, &order.nonce, &order.texts, &mut message);
    if given != answer {
        return Err("answers otherwise in another room".to_string());
    }
    let again = taken_apart(&message, &order);
    let mut other = vec![0; need];
    if compare(&again, &other, 0)? != answer {
        return Err(format!("composed again otherwise: {}", to_hex(&message)));
    }
    composer::compose(again.kind, again.number, &again.nonce, &again.texts, &mut other);
    if other != message {
        return Err(format!("{} composed again is {}", to_hex(&message), to_hex(&other)));
    }
    tally.again += 1;
    Ok(())
}

fn option(name: &str) -> Option<u64> {
    let mut arguments = std::env::args().skip_while(|a| a != name);
    arguments.next()?;
    let value = arguments.next().and_then(|v| v.parse().ok());
    Some(value.unwrap_or_else(|| panic!("{name} wants a number")))
}

fn main() -> ExitCode {
    if !composer::IS_THERE {
        println!("compose: built without the composer's archive, nothing compared");
        return ExitCode::FAILURE;
    }
    let count = option("--count").unwrap_or(200_000);
    let now = SystemTime::now().duration_since(UNIX_EPOCH).unwrap();
    let seed = option("--seed").unwrap_or(now.as_nanos() as u64);
    println!("compose: seed {seed}, {count} orders");
    let start = Instant::now();
    let mut tally = Tally::new();
    for k in 0..count {
        // Each order has a seed of its own, so that one can be made again alone.
        let mut random = Random::new(seed.wrapping_add(k << 32 | k));
        if let Err(words) = compare_one(&mut random, &mut tally) {
            println!("DISAGREE at order {k} of seed {seed}: {words}");
            return ExitCode::FAILURE;
        }
    }
    let complete = tally::print(&[&tally.answers]) && tally.is_complete();
    println!("{tally}");
    if !complete && count >= 100_000 {
        println!("compose: an answer never occurred");
        return ExitCode::FAILURE;
    }
    println!("compose: all equal, {:.1} s", start.elapsed().as_secs_f64());
    ExitCode::SUCCESS
}
