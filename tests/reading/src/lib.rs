//! A plain reading of document 01, and of the change requests that have landed, written
//! from the papers alone.
//!
//! `check_single` and `check_message` answer with the item count or with the
//! first refusal (tests 1 to 13); `items_single` and `items_message` give every
//! item record as well; `listing` and `list` give a message's references. One
//! recursive-descent walk serves all of them: what it meets is told to a
//! [`Visitor`], and a check's visitor does nothing. `check_table` and `release`
//! judge by the listing and a grant table, `write_text` and `read_text` go from
//! a single ARI to its text and back, `read_table` reads the text of a grant table. A
//! [`Stream`] takes a message in fragments; [`names`] has the lists of names, and release
//! by them; [`why`] says why a message was held; [`day`] has the file of a day's messages,
//! [`month`] the figures of many; `same` says whether two single ARIs are the same;
//! [`compare`] says what differs between two messages; [`strike`] takes a target or report
//! out of one; [`composer`] makes messages from texts.
//!
//! Not part of the reading: [`archive`] calls the gate, [`generate`] makes
//! inputs for comparisons and times, [`vectors`] holds the fixed inputs,
//! [`appendix`] RFC 8949's examples, [`printed`] is what programs print.

pub mod compare;
pub mod composer;
pub mod day;
mod grants;
mod head;
mod listing;
pub mod month;
pub mod names;
mod same;
mod spelling;
mod stream;
pub mod strike;
mod table_text;
mod text;
mod walk;
pub mod why;

pub mod appendix;
pub mod archive;
pub mod generate;
pub mod printed;
pub mod vectors;

pub use grants::{check_table, release, rows, table_bytes, Release, Row, ROW};
pub use head::{head_size, shortened, Kind};
pub use listing::{list, listing, listing_within, Entry, Listing, Namespace, ENTRY};
pub use same::same;
pub use spelling::{is_identifier, is_namespace_name, is_utf8};
pub use stream::{closing, standing, Stream};
pub use table_text::{read_table, NoTable, TABLE_ROWS, TABLE_TEXT};
pub use text::{key_text, read_text, text_of, write_text};
pub use walk::{walk_message, walk_single, Visitor};

/// "at most 4,096 bytes, at most 1,024 items (one item is one head), at most
/// 12 containers (arrays and maps, empty ones counted) open at once [...]. A
/// text has at most 32,768 bytes." Request (x) has raised each.
#[derive(Clone, Copy, Debug, PartialEq, Eq)]
pub struct Limits {
    pub bytes: usize,
    pub items: usize,
    pub containers: usize,
    pub text: usize,
}

/// "Raise every binary input to 16,384 bytes, 4,096 items and 24 open containers, and the
/// text to 131,072 bytes."
pub const LIMITS: Limits = Limits { bytes: 16_384, items: 4_096, containers: 24, text: 131_072 };

/// Those of document 01, which the messages of some day files keep.
pub const FIRST_LIMITS: Limits =
    Limits { bytes: 4_096, items: 1_024, containers: 12, text: 32_768 };

/// The tests of 'Order of the tests', and those of the change requests, by number. No call
/// here is asked for an item, so 17 is of a day file's messages only.
#[derive(Clone, Copy, Debug, PartialEq, Eq)]
#[repr(u8)]
pub enum Test {
    /// "input too long"
    TooLong = 1,
    /// "the input ends where a head is due, or inside its argument"
    EndOfInput = 2,
    /// "head not in use: info 28 to 31, a tag, another simple value (f8 too)"
    NotInUse = 3,
    /// "Refusal 4 is now given for floats only": not the shortest, or another NaN
    NotShortest = 4,
    /// "this would be item 1,025"; now 4,097
    TooManyItems = 5,
    /// "this would be open container 13"; now 25
    TooManyContainers = 6,
    /// "kind, range or array length [...] not allowed here"
    NotAllowed = 7,
    /// "a message's first item is unsigned and not 1"
    Version = 8,
    /// "fewer bytes left than the string has"
    ShortString = 9,
    /// "not UTF-8, or a name or identifier wrongly spelled or of another length"
    Spelling = 10,
    /// "map key not greater than the one before"
    KeyOrder = 11,
    /// "empty parameters"
    EmptyParameters = 12,
    /// "bytes after a single ARI"
    BytesAfter = 13,
    /// "accepted, but has no text form"
    NoText = 14,
    /// "text that isn't the text of an accepted ARI"
    NotText = 15,
    /// "the answer needs more room than lent"
    Room = 16,
    /// No message of that number.
    Number = 17,
    /// "grant table"
    Table = 18,
    /// "a list line wrongly formed"
    Names = 19,
    /// "bad trailer"
    DayTrailer = 20,
    /// "bad table"
    DayTable = 21,
    /// "the first stored message refused"
    DayMessage = 22,
    /// "file full"
    DayFull = 23,
    /// "a text that is too long, isn't ended or isn't an object reference"
    NoReference = 24,
    /// "the file would bring a namespace beyond 256"
    Namespaces = 25,
    /// "a total would pass its bound"
    Total = 26,
    /// "no such target or report"
    NoTarget = 27,
}

/// "A refusal is a number with one further number, the place"; with tests 16 to 18 that
/// number is a need, a count or a row, with 21 and 22 an entry or a message, with 27 a count.
#[derive(Clone, Copy, Debug, PartialEq, Eq)]
pub struct Refusal {
    pub test: Test,
    pub place: usize,
}

impl std::fmt::Display for Refusal {
    fn fmt(&self, f: &mut std::fmt::Formatter<'_>) -> std::fmt::Result {
        write!(f, "refused {} {}", self.test as u8, self.place)
    }
}

#[derive(Clone, Copy, Debug, PartialEq, Eq)]
pub enum Answer {
    /// "The item count is a number in every acceptance".
    Accepted(usize),
    Refused {
        number: u8,
        place: usize,
    },
}

impl From<Result<usize, Refusal>> for Answer {
    #[inline]
    fn from(result: Result<usize, Refusal>) -> Answer {
        match result {
            Ok(items) => Answer::Accepted(items),
            Err(Refusal { test, place }) => Answer::Refused { number: test as u8, place },
        }
    }
}

impl std::fmt::Display for Answer {
    fn fmt(&self, f: &mut std::fmt::Formatter<'_>) -> std::fmt::Result {
        match self {
            Answer::Accepted(items) => write!(f, "accepted {items}"),
            Answer::Refused { number, place } => write!(f, "refused {number} {place}"),
        }
    }
}

/// An answer that was written to lent room.
#[derive(Clone, Copy, Debug, PartialEq, Eq)]
pub struct Written {
    /// "The item count is a number in every acceptance".
    pub items: usize,
    /// The answer's size as test 16 counts it: "in bytes, or in entries for a
    /// listing".
    pub size: usize,
}

/// Writes an answer to the front of the room, or nothing at all: "An acceptance
/// leaves room past its answer unchanged", and 16 is given with the size.
fn put(answer: &[u8], size: usize, room: &mut [u8]) -> Result<(), Refusal> {
    let Some(front) = room.get_mut(..answer.len()) else {
        return Err(Refusal { test: Test::Room, place: size });
    };
    front.copy_from_slice(answer);
    Ok(())
}

fn hand_over(answer: &[u8], written: Written, room: &mut [u8]) -> Result<Written, Refusal> {
    put(answer, written.size, room).map(|()| written)
}

/// "Asked for item k, the gate gives a record".
#[derive(Clone, Copy, Debug, PartialEq, Eq)]
pub struct Record {
    /// First byte.
    pub first: usize,
    /// Byte after its last. "A container ends where its last member ends, an
    /// empty one after its head."
    pub after: usize,
    /// "open containers around it"
    pub around: usize,
    /// The EXECSET target or RPTSET report that the item lies in or is, counted together
    /// from 0 through the whole input; none elsewhere.
    pub target: Option<usize>,
    /// "its kind, with that kind's own data"
    pub kind: Kind,
    /// "whether it is a reference": an array of length 1, 3 or 4 where the
    /// rules ask for an ARI or an object reference.
    pub reference: bool,
}

impl Record {
    /// The columns before the kind: places, containers around, the target's number or `-`.
    pub fn columns(&self) -> String {
        let target = self.target.map_or("-".to_string(), |number| number.to_string());
        format!("{} {} {} {target}", self.first, self.after, self.around)
    }

    /// The kind in words.
    pub fn words(&self) -> String {
        match self.kind {
            Kind::Array(length) if self.reference => format!("reference {length}"),
            kind => kind.to_string(),
        }
    }
}

impl std::fmt::Display for Record {
    fn fmt(&self, f: &mut std::fmt::Formatter<'_>) -> std::fmt::Result {
        write!(f, "{} {}", self.columns(), self.words())
    }
}

/// Collects the records of all items, in the order of their heads.
#[derive(Default)]
struct Records {
    records: Vec<Record>,
    /// Targets and reports met so far.
    targets: usize,
    /// The one that is being read.
    target: Option<usize>,
}

impl Visitor for Records {
    type Mark = usize;

    fn leaf(&mut self, first: usize, after: usize, around: usize, kind: Kind) {
        let target = self.target;
        self.records.push(Record { first, after, around, target, kind, reference: false });
    }

    fn open(&mut self, first: usize, around: usize, kind: Kind, reference: bool) -> usize {
        let target = self.target;
        self.records.push(Record { first, after: first, around, target, kind, reference });
        self.records.len() - 1
    }

    fn close(&mut self, opened: usize, after: usize) {
        self.records[opened].after = after;
    }

    fn target(&mut self) {
        self.target = Some(self.targets);
        self.targets += 1;
    }

    fn end_of_target(&mut self) {
        self.target = None;
    }
}

pub fn check_single(input: &[u8]) -> Answer {
    walk_single(input, &LIMITS, &mut ()).into()
}

pub fn check_message(input: &[u8]) -> Answer {
    walk_message(input, &LIMITS, &mut ()).into()
}

pub fn items_single(input: &[u8]) -> Result<Vec<Record>, Refusal> {
    let mut collected = Records::default();
    walk_single(input, &LIMITS, &mut collected).map(|_| collected.records)
}

pub fn items_message(input: &[u8]) -> Result<Vec<Record>, Refusal> {
    let mut collected = Records::default();
    walk_message(input, &LIMITS, &mut collected).map(|_| collected.records)
}
