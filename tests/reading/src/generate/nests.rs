//! Messages that nest down to one reference, with lists and a table by which most often that
//! one is held and all others are granted.

use super::names::{lists_with, Lists};
use super::tables::{fray, shuffle, SUBSCRIBERS};
use super::{Random, Settings, Writer, NAMESPACES};
use crate::{table_bytes, Row, LIMITS};

/// What the deepest reference's namespace is, or stands for if it is a name with a line;
/// none of those that are granted.
const NUMBER: i64 = 77;

/// How the deepest reference's namespace is written, and a line for the list of such names.
const SPACES: [(&[u8], &str); 8] = [
    (b"\x18\x4d", ""),
    (b"\x64buoy", "buoy=77\n"),
    (b"\x65!buoy", "!buoy=77\n"),
    (b"\x64buoy", ""),
    (b"\x64buoy", "buoys=77\n!buoy=77\n"),
    (b"\x65!buoy", ""),
    (b"\x65!buoy", "buoy=77\n"),
    (b"\xf6", ""),
];

pub struct Nest {
    pub message: Vec<u8>,
    pub lists: Lists,
    pub table: Vec<u8>,
    pub subscriber: u64,
}

/// Down to `containers` open containers, 4 at least: those around the deepest reference, the
/// reference, and sometimes a last one with its parameters.
pub fn nest(random: &mut Random, containers: usize) -> Nest {
    let (space, line) = random.pick(&SPACES);
    let mut lists = lists_with(random, &[]);
    let list = if space.contains(&b'!') { &mut lists.1 } else { &mut lists.0 };
    // The first line of a name counts.
    list.splice(0..0, line.bytes());

    let subscriber = random.pick(&SUBSCRIBERS);
    let mut rows: Vec<Row> =
        NAMESPACES.iter().map(|&namespace| Row { subscriber, namespace }).collect();
    rows.push(Row { subscriber: subscriber ^ 1, namespace: NUMBER });
    if random.chance(10) {
        rows.push(Row { subscriber, namespace: NUMBER });
    }
    shuffle(random, &mut rows);
    let mut table = table_bytes(&rows);
    fray(random, &mut table);

    let settings = Settings {
        items: 60,
        bytes: LIMITS.bytes,
        containers: 6,
        nesting: 40,
        string: random.pick(&[3, 30]),
        small_numbers: random.chance(50),
        floats: random.chance(20),
        few_namespaces: true,
        wide: random.pick(&[0, 0, 50]),
    };
    let mut down = Down { w: Writer::new(random, settings), space };
    down.message(containers);
    Nest { message: down.w.out, lists, table, subscriber }
}

/// Writes the way down to the deepest reference, with others on both sides of it.
struct Down<'r> {
    w: Writer<'r>,
    /// Its namespace.
    space: &'static [u8],
}

impl Down<'_> {
    fn container(&mut self, major: u8, length: usize, members: impl FnOnce(&mut Self)) {
        self.w.head(major, length as u64);
        self.w.open += 1;
        members(self);
        self.w.open -= 1;
    }

    /// Members of which one, `way`, leads down; `fixed` ones stand before all.
    fn members(
        &mut self,
        fixed: usize,
        before: impl FnOnce(&mut Self),
        other: fn(&mut Self),
        way: impl FnOnce(&mut Self),
    ) {
        let [ahead, behind] = [0; 2].map(|_| self.w.random.below(3));
        self.container(4, fixed + ahead + 1 + behind, |d| {
            before(d);
            (0..ahead).for_each(|_| other(d));
            way(d);
            (0..behind).for_each(|_| other(d));
        });
    }

    fn message(&mut self, containers: usize) {
        self.w.head(0, 1);
        (0..self.w.random.below(3)).for_each(|_| self.w.set());
        let is_report = self.w.random.chance(65);
        self.container(4, 2, |d| match is_report {
            true => {
                d.w.head(0, 21);
                let start = |d: &mut Self| {
                    d.w.nonce();
                    d.w.vast();
                };
                d.members(2, start, |d| d.w.report(), |d| d.report(containers - 3));
            }
            false => {
                d.w.head(0, 20);
                let left = containers - 2;
                d.members(1, |d| d.w.nonce(), |d| d.w.object(), |d| d.object(left));
            }
        });
        (0..self.w.random.below(2)).for_each(|_| self.w.set());
    }

    /// Its source, or one of its items, leads down.
    fn report(&mut self, left: usize) {
        match self.w.random.chance(40) {
            true => {
                let items = self.w.random.below(3);
                self.container(4, 2 + items, |d| {
                    d.w.vast();
                    d.object(left);
                    (0..items).for_each(|_| d.beside());
                });
            }
            false => {
                let start = |d: &mut Self| {
                    d.w.vast();
                    d.w.object();
                };
                self.members(2, start, Self::beside, |d| d.ari(left));
            }
        }
    }

    /// A literal, or a reference that is granted.
    fn beside(&mut self) {
        match self.w.random.chance(30) && self.w.open < LIMITS.containers {
            true => self.container(4, 1, |d| d.w.namespace(false)),
            false => self.w.literal(),
        }
    }

    /// An ARI that opens `left` containers.
    fn ari(&mut self, left: usize) {
        match self.w.random.below(5) {
            0 if left == 1 && self.space != b"\xf6" => self.container(4, 1, Self::put_space),
            0 | 1 if left > 2 => self.container(4, 2, |d| {
                d.w.head(0, 17);
                d.list(left - 2);
            }),
            2 | 3 if left > 2 => self.container(4, 2, |d| {
                d.w.head(0, 18);
                d.map(left - 2);
            }),
            _ => self.object(left),
        }
    }

    /// An object reference that opens `left` containers: the deepest, if that leaves none
    /// for another one.
    fn object(&mut self, left: usize) {
        self.container(4, if left > 1 { 4 } else { 3 }, |d| {
            match left > 2 {
                true => d.w.namespace(true),
                false => d.put_space(),
            }
            d.w.head(1, 0);
            d.w.head(0, 0);
            match (left, d.w.random.chance(50)) {
                (0 | 1, _) => (),
                (2, true) => d.container(4, 1, |d| d.w.literal()),
                (2, false) => d.container(5, 1, |d| {
                    d.w.head(1, 0);
                    d.w.literal();
                }),
                (_, true) => d.list(left - 2),
                (_, false) => d.map(left - 2),
            }
        });
    }

    fn put_space(&mut self) {
        self.w.items += 1;
        self.w.out.extend(self.space);
    }

    fn list(&mut self, left: usize) {
        self.members(0, |_| (), Self::beside, |d| d.ari(left));
    }

    fn map(&mut self, left: usize) {
        let most = 1 + self.w.random.below(4);
        let keys = self.w.keys(most);
        let way = self.w.random.below(keys.len());
        self.container(5, keys.len(), |d| {
            for (k, key) in keys.into_iter().enumerate() {
                d.w.items += 1;
                d.w.out.extend(key);
                match k == way {
                    true => d.ari(left),
                    false => d.beside(),
                }
            }
        });
    }
}
