//! Messages that are fed in fragments, some of them through one state: each call is
//! compared with the reading's, and all that was lent to it, to the byte.

use reading::archive::{self, packed_plain, packed_written, unpacked, STREAM_WORDS};
use reading::generate::{self, Random};
use reading::vectors::to_hex;
use reading::{Refusal, Stream, Test, ENTRY, LIMITS};

use crate::lent::Lent;
use crate::tally::Column;
use crate::Call;

/// What occurred.
pub struct Tally {
    pub feeds: Column,
    pub closes: Column,
    messages: usize,
    /// Messages past the limit, by what the bytes up to it are: accepted, refused by 2,
    /// by 9, by another test.
    past: [usize; 4],
    /// Feeds after a refusal.
    later: usize,
    /// Messages that were fed on after a close had answered 16.
    fed_on: usize,
    /// Messages dropped by open.
    dropped: usize,
    /// Calls with too short a state or room for the message.
    short: usize,
    prefixes: usize,
}

impl Tally {
    pub fn new() -> Tally {
        let early = [0, 1].into_iter().chain(3..=8).chain(10..=12);
        Tally {
            feeds: Column::new("feed", early.collect()),
            closes: Column::new("close", (0..=12).chain([16]).collect()),
            messages: 0,
            past: [0; 4],
            later: 0,
            fed_on: 0,
            dropped: 0,
            short: 0,
            prefixes: 0,
        }
    }

    pub fn is_complete(&self) -> bool {
        let others = [self.later, self.fed_on, self.dropped, self.short, self.prefixes];
        self.past.iter().chain(&others).all(|times| *times > 0)
    }

    fn add_past(&mut self, message: &[u8]) {
        if message.len() > LIMITS.bytes {
            let front = reading::listing(&message[..LIMITS.bytes]).err();
            self.past[match front.map(|refusal| refusal.test) {
                None => 0,
                Some(Test::EndOfInput) => 1,
                Some(Test::ShortString) => 2,
                Some(_) => 3,
            }] += 1;
        }
    }
}

impl std::fmt::Display for Tally {
    fn fmt(&self, f: &mut std::fmt::Formatter<'_>) -> std::fmt::Result {
        let [accepted, cut, short_string, refused] = self.past;
        write!(
            f,
            "streams: messages {}, prefixes {}; past the limit with an accepted front {accepted}, \
             one refused by 2 {cut}, by 9 {short_string}, by another {refused}; feeds after a \
             refusal {}, fed on after 16 {}, dropped {}, too little lent {}",
            self.messages, self.prefixes, self.later, self.fed_on, self.dropped, self.short
        )
    }
}

/// What a call may do to the state.
#[derive(PartialEq, Eq)]
enum State {
    MayChange,
    Stays,
}

/// A call that is lent too little.
#[derive(Clone, Copy, Debug, PartialEq, Eq)]
enum Short {
    Open,
    Feed,
    Close,
}

/// The archive's stream in lent memory, and the reading's.
struct Streams {
    state: Lent<u64>,
    message: Lent<u8>,
    reading: Stream,
    /// What the message's room has to hold.
    room: Vec<u8>,
}

impl Streams {
    /// A state of all zeros, or one that held anything and was opened. More may be lent
    /// than is needed.
    fn new(random: &mut Random) -> Result<Streams, String> {
        let more = random.pick(&[0, 0, 0, 1, 9]);
        let mut words = vec![0; STREAM_WORDS + more];
        let zeros = random.chance(50);
        if !zeros {
            words.fill_with(|| random.word());
        }
        let length = LIMITS.bytes + random.pick(&[0, 0, 0, 1, 70]);
        let mut streams = Streams {
            state: Lent::new(&words, 0),
            message: Lent::new(&some_bytes(random, length), random.below(16)),
            reading: Stream::default(),
            room: Vec::new(),
        };
        streams.room = streams.message.content().to_vec();
        if !zeros {
            streams.open()?;
        }
        Ok(streams)
    }

    /// An error, if an answer or something lent is not as it has to be.
    fn judge(
        &self,
        call: impl Fn() -> String,
        [given, expected]: [u64; 2],
        before: &Lent<u64>,
        state: State,
        other_is_right: bool,
    ) -> Result<u64, String> {
        let (is, was) = (self.state.content(), before.content());
        let wrong = if given != expected {
            unpacked(given)
        } else if is[STREAM_WORDS..] != was[STREAM_WORDS..] || !self.state.is_whole() {
            "wrote behind the state, or around it".to_string()
        } else if state == State::Stays && is != was {
            "changed the state".to_string()
        } else if !self.message.is(&self.room) {
            format!("left in the message's room, or around it, {}", to_hex(self.message.block()))
        } else if !other_is_right {
            "left something else in the fragment or in the answer's room, or around it".to_string()
        } else {
            return Ok(expected);
        };
        Err(format!("{}\n  reading: {}\n  archive: {wrong}", call(), unpacked(expected)))
    }

    fn open(&mut self) -> Result<u64, String> {
        let before = self.state.clone();
        self.reading.open();
        let given = archive::stream_open(self.state.content_mut());
        self.judge(|| "open".to_string(), [given, 0], &before, State::MayChange, true)
    }

    fn feed(&mut self, fragment: &[u8], shift: usize, tally: &mut Tally) -> Result<(), String> {
        let before = self.state.clone();
        let received = self.reading.received().len();
        let state = match self.reading.standing() {
            None => State::MayChange,
            Some(_) => State::Stays,
        };
        tally.later += usize::from(state == State::Stays);
        let expected = packed_plain(self.reading.feed(fragment, &mut self.room, &LIMITS));
        let lent = Lent::new(fragment, shift);
        let given = archive::stream_feed(
            self.state.content_mut(),
            self.message.content_mut(),
            lent.content(),
        );
        let call = || {
            let all = self.reading.received();
            format!("feed of {} behind {}", to_hex(&all[received..]), to_hex(&all[..received]))
        };
        self.judge(call, [given, expected], &before, state, lent.is(fragment))?;
        tally.feeds.add(expected);
        Ok(())
    }

    fn close(&mut self, room: &[u8], shift: usize, tally: &mut Tally) -> Result<u64, String> {
        let before = self.state.clone();
        let received = self.reading.received().to_vec();
        let mut due = room.to_vec();
        let expected = packed_written(self.reading.close(&mut due, &LIMITS));
        let state = match expected >> 56 {
            16 => State::Stays,
            _ => State::MayChange,
        };
        let mut lent = Lent::new(room, shift);
        let given = archive::stream_close(
            self.state.content_mut(),
            self.message.content_mut(),
            lent.content_mut(),
        );
        let call = || format!("close with room {} behind {}", room.len(), to_hex(&received));
        self.judge(call, [given, expected], &before, state, lent.is(&due))?;
        tally.closes.add(expected);
        Ok(expected)
    }

    /// The entries that a close would write; none where it would be refused.
    fn entries(&self) -> usize {
        reading::closing(self.reading.received(), &LIMITS).map_or(0, |l| l.entries.len())
    }

    /// Some closes with too little room for the entries.
    fn close_short(&mut self, random: &mut Random, tally: &mut Tally) -> Result<(), String> {
        let need = self.entries() * ENTRY;
        for _ in 0..if need > 0 { 1 + random.below(3) } else { 0 } {
            let length = less_than(need, random);
            let answer = self.close(&some_bytes(random, length), random.below(16), tally)?;
            assert_eq!(answer >> 56, 16);
        }
        Ok(())
    }

    /// A close with room enough.
    fn close_whole(&mut self, random: &mut Random, tally: &mut Tally) -> Result<(), String> {
        let most_more = random.pick(&[1, 1, 2, 2 * ENTRY, 2_000]);
        let more = random.below(most_more);
        let room = some_bytes(random, self.entries() * ENTRY + more);
        self.close(&room, random.below(16), tally).map(drop)
    }

    /// A call with too short a state, or else too short a room for the message, or both.
    fn call_short(&mut self, random: &mut Random, tally: &mut Tally) -> Result<(), String> {
        let before = self.state.clone();
        let call = random.pick(&[Short::Open, Short::Feed, Short::Close]);
        let (mut words, mut room) = (before.content().len(), self.room.len());
        if call == Short::Open || random.chance(60) {
            words = less_than(STREAM_WORDS, random);
        }
        if words >= STREAM_WORDS || random.chance(50) {
            room = less_than(LIMITS.bytes, random);
        }
        let needed = if words < STREAM_WORDS { 8 * STREAM_WORDS } else { LIMITS.bytes };
        let expected = packed_plain(Err(Refusal { test: Test::Room, place: needed }));
        // A fragment, or room for the entries.
        let other = match call {
            Short::Feed => random.below(20),
            _ => self.entries() * ENTRY,
        };
        let other = some_bytes(random, other);
        let mut lent = Lent::new(&other, random.below(16));
        let state = &mut self.state.content_mut()[..words];
        let message = &mut self.message.content_mut()[..room];
        let given = match call {
            Short::Open => archive::stream_open(state),
            Short::Feed => archive::stream_feed(state, message, lent.content()),
            Short::Close => archive::stream_close(state, message, lent.content_mut()),
        };
        let call = || format!("{call:?} with {words} words and {room} bytes for the message");
        self.judge(call, [given, expected], &before, State::Stays, lent.is(&other))?;
        tally.short += 1;
        Ok(())
    }

    /// Feeds a part of a message in pieces.
    fn feed_cut(
        &mut self,
        part: &[u8],
        random: &mut Random,
        tally: &mut Tally,
    ) -> Result<(), String> {
        let mut rest = part;
        for size in pieces(random, part.len()) {
            if random.below(200) == 0 {
                self.call_short(random, tally)?;
            }
            let (fragment, behind) = rest.split_at(size);
            self.feed(fragment, random.below(16), tally)?;
            rest = behind;
        }
        assert!(rest.is_empty());
        Ok(())
    }
}

/// A length that is too short, often none or all but one.
pub fn less_than(need: usize, random: &mut Random) -> usize {
    match random.below(3) {
        0 => 0,
        1 => need - 1,
        _ => random.below(need),
    }
}

fn some_bytes(random: &mut Random, length: usize) -> Vec<u8> {
    let mut bytes: Vec<u8> =
        (0..length.div_ceil(8)).flat_map(|_| random.word().to_ne_bytes()).collect();
    bytes.truncate(length);
    bytes
}

/// Sizes of fragments that make up a length: single bytes, short runs, a few pieces of
/// any size, or all of these; with empty ones among them.
fn pieces(random: &mut Random, length: usize) -> Vec<usize> {
    let large = 2 * length.div_ceil(1 + random.below(4));
    // The reading starts from the front at each piece, so most long messages have few.
    let most: &[usize] = match random.below(match length {
        0..=400 => 4,
        401..=4_096 => 12,
        _ => 60,
    }) {
        0 => &[1],
        1 => &[20],
        2 => &[1, 1, 20, large],
        _ => &[large],
    };
    let empty = random.pick(&[0, 0, 5, 30]);
    let (mut sizes, mut rest) = (Vec::new(), length);
    while rest > 0 {
        if random.chance(empty) {
            sizes.push(0);
        }
        let most = random.pick(most);
        let size = rest.min(1 + random.below(most));
        sizes.push(size);
        rest -= size;
    }
    if random.chance(empty) {
        sizes.push(0);
    }
    sizes
}

/// A message that is about as long as the limit, or longer by up to 300 bytes.
fn long_message(random: &mut Random) -> Vec<u8> {
    let bytes = match random.below(3) {
        0 => LIMITS.bytes - 2 + random.below(5),
        1 => LIMITS.bytes + random.below(300),
        _ => LIMITS.bytes - random.below(300),
    };
    let settings = generate::settings(random);
    let mut message = generate::full_message(random, settings, bytes);
    if random.chance(30) {
        let other = Call::Message.binary(random);
        generate::damage(random, &mut message, &[], &other);
    }
    if random.chance(50) {
        let sets = [0x82, 0x14, 0x81, 0xf6].into_iter().cycle();
        message.extend(sets.take(random.below(300)));
    }
    message.truncate(LIMITS.bytes + 300);
    message
}

fn message(random: &mut Random) -> Vec<u8> {
    match random.below(100) {
        0..=9 => long_message(random),
        10..=54 => Call::Message.binary(random),
        _ => Call::List.binary(random),
    }
}

/// Where some set of a message ends that is not its last: what comes before is a
/// message of its own.
fn inner_end(random: &mut Random, message: &[u8]) -> Option<usize> {
    let records = reading::items_message(message).ok()?;
    let ends: Vec<usize> = records.iter().filter(|r| r.around == 0).map(|r| r.after).collect();
    (ends.len() > 2).then(|| ends[1 + random.below(ends.len() - 2)])
}

/// Some messages through one state, each against the reading.
pub fn compare(random: &mut Random, tally: &mut Tally) -> Result<(), String> {
    let mut streams = Streams::new(random)?;
    for _ in 0..random.pick(&[1, 1, 2, 3]) {
        if random.chance(10) {
            let dropped = message(random);
            let part = random.below(dropped.len() + 1);
            streams.feed_cut(&dropped[..part], random, tally)?;
            streams.open()?;
            tally.dropped += 1;
        }
        let message = message(random);
        tally.messages += 1;
        tally.add_past(&message);
        let mut rest = &message[..];
        if let Some(end) = inner_end(random, &message).filter(|_| random.chance(30)) {
            let (part, behind) = message.split_at(end);
            streams.feed_cut(part, random, tally)?;
            tally.fed_on += usize::from(streams.entries() > 0);
            streams.close_short(random, tally)?;
            rest = behind;
        }
        streams.feed_cut(rest, random, tally)?;
        if random.chance(40) {
            streams.close_short(random, tally)?;
        }
        if random.chance(10) {
            streams.call_short(random, tally)?;
        }
        streams.close_whole(random, tally)?;
        if random.chance(5) {
            streams.close_whole(random, tally)?;
        }
    }
    Ok(())
}

/// Each prefix of some messages, fed in one piece into a fresh state and closed.
pub fn compare_prefixes(
    random: &mut Random,
    messages: usize,
    tally: &mut Tally,
) -> Result<(), String> {
    let (mut short, mut long) = (messages, messages / 40);
    while short + long > 0 {
        let message = message(random);
        let left = if message.len() <= 600 { &mut short } else { &mut long };
        if *left == 0 {
            continue;
        }
        *left -= 1;
        // Of a long one some: the reading starts from the front at each.
        let step = 1 + message.len() / 4_096 * 3;
        let last = message.len().saturating_sub(64);
        for length in (0..=message.len()).filter(|length| length % step == 0 || *length >= last) {
            let mut streams = Streams::new(random)?;
            streams.feed(&message[..length], random.below(16), tally)?;
            streams.close_whole(random, tally)?;
            tally.prefixes += 1;
        }
    }
    Ok(())
}
