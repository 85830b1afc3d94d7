//! 'What may stand as an ARI': a recursive-descent walk, one function for each
//! thing that may be due. Each takes a head with [`Reader::head`] (tests 2 to
//! 6), matches on its kind (7, 8 and 12) and reads a string's bytes (9, 10);
//! a map compares its keys (11).

use crate::head::{self, Kind};
use crate::spelling::{is_identifier, is_namespace_name, is_utf8};
use crate::{Limits, Refusal, Test};

/// Is told every item that the walk has taken, in the order of the heads.
/// After a refusal what it was told is worth nothing.
pub trait Visitor {
    /// What `open` hands to the `close` of the same container.
    type Mark;
    fn leaf(&mut self, first: usize, after: usize, around: usize, kind: Kind);
    fn open(&mut self, first: usize, around: usize, kind: Kind, reference: bool) -> Self::Mark;
    fn close(&mut self, opened: Self::Mark, after: usize);
    /// A target or a report is due: what comes up to its end belongs to it.
    #[inline(always)]
    fn target(&mut self) {}
    #[inline(always)]
    fn end_of_target(&mut self) {}
}

/// A check wants nothing but the answer.
impl Visitor for () {
    type Mark = ();
    #[inline(always)]
    fn leaf(&mut self, _: usize, _: usize, _: usize, _: Kind) {}
    #[inline(always)]
    fn open(&mut self, _: usize, _: usize, _: Kind, _: bool) {}
    #[inline(always)]
    fn close(&mut self, _: (), _: usize) {}
}

/// A single ARI in binary form; on acceptance the number of items.
pub fn walk_single<V: Visitor>(
    input: &[u8],
    limits: &Limits,
    visitor: &mut V,
) -> Result<usize, Refusal> {
    let mut reader = Reader::new(input, limits, visitor)?;
    reader.ari(Within::Nothing)?;
    if !reader.rest.is_empty() {
        return Err(refusal(Test::BytesAfter, reader.at()));
    }
    Ok(reader.items)
}

/// "A message is a run of items: the unsigned 1, then any number of ARIs, none
/// included, each of type 20 or 21."
pub fn walk_message<V: Visitor>(
    input: &[u8],
    limits: &Limits,
    visitor: &mut V,
) -> Result<usize, Refusal> {
    let mut reader = Reader::new(input, limits, visitor)?;
    reader.version()?;
    while !reader.rest.is_empty() {
        reader.set()?;
    }
    Ok(reader.items)
}

fn refusal(test: Test, place: usize) -> Refusal {
    Refusal { test, place }
}

type Read = Result<(), Refusal>;

type Key<'a> = (head::Shortest, &'a [u8]);

/// "n is at most 2^63 - 1" in a negative head; also the greatest VAST.
const MAX: u64 = i64::MAX as u64;

/// What an ARI stands in, as far as the rules ask.
#[derive(Clone, Copy, PartialEq, Eq)]
enum Within {
    /// Outermost: types 20 and 21 may stand here.
    Nothing,
    Other,
    /// "within an object reference's parameters, at any depth": LABEL may
    /// stand here.
    Parameters,
}

impl Within {
    /// For the members of a list, a map or a report.
    fn inner(self) -> Within {
        match self {
            Within::Parameters => Within::Parameters,
            Within::Nothing | Within::Other => Within::Other,
        }
    }
}

struct Head {
    first: usize,
    kind: Kind,
}

impl Head {
    #[cold]
    fn refuse(&self, test: Test) -> Read {
        Err(refusal(test, self.first))
    }
}

struct Reader<'a, V> {
    input: &'a [u8],
    /// The bytes not read yet.
    rest: &'a [u8],
    items: usize,
    /// Containers open.
    open: usize,
    limits: Limits,
    visitor: &'a mut V,
}

impl<'a, V: Visitor> Reader<'a, V> {
    fn new(input: &'a [u8], limits: &Limits, visitor: &'a mut V) -> Result<Self, Refusal> {
        if input.len() > limits.bytes {
            return Err(refusal(Test::TooLong, 0));
        }
        Ok(Reader { input, rest: input, items: 0, open: 0, limits: *limits, visitor })
    }

    /// The byte after what has been read.
    #[inline(always)]
    fn at(&self) -> usize {
        self.input.len() - self.rest.len()
    }

    /// Takes a head: tests 2 to 6. Inlined, as are the small functions for the
    /// members of a reference below, so that a kind is matched where it is made:
    /// a check of a small message takes about half the time that way.
    #[inline(always)]
    fn head(&mut self) -> Result<Head, Refusal> {
        let first = self.at();
        let (kind, rest) = head::read(self.rest).map_err(|test| refusal(test, first))?;
        if self.items >= self.limits.items {
            return Err(refusal(Test::TooManyItems, first));
        }
        if matches!(kind, Kind::Array(_) | Kind::Map(_)) && self.open >= self.limits.containers {
            return Err(refusal(Test::TooManyContainers, first));
        }
        self.items += 1;
        self.rest = rest;
        Ok(Head { first, kind })
    }

    #[inline(always)]
    fn leaf(&mut self, head: Head) -> Read {
        self.visitor.leaf(head.first, self.at(), self.open, head.kind);
        Ok(())
    }

    /// A string's bytes: test 9, and 10 if `spelling` does not hold of them.
    #[inline(always)]
    fn string(&mut self, head: Head, length: u64, spelling: impl Fn(&[u8]) -> bool) -> Read {
        if length > self.rest.len() as u64 {
            return head.refuse(Test::ShortString);
        }
        let (string, rest) = self.rest.split_at(length as usize);
        if !spelling(string) {
            return head.refuse(Test::Spelling);
        }
        self.rest = rest;
        self.leaf(head)
    }

    /// "one stays open until its last member has ended"
    #[inline(always)]
    fn container(
        &mut self,
        head: Head,
        reference: bool,
        members: impl FnOnce(&mut Self) -> Read,
    ) -> Read {
        let mark = self.visitor.open(head.first, self.open, head.kind, reference);
        self.open += 1;
        members(self)?;
        self.open -= 1;
        self.visitor.close(mark, self.at());
        Ok(())
    }

    /// "A message's first item": 8 if "unsigned and not 1".
    fn version(&mut self) -> Read {
        let head = self.head()?;
        match head.kind {
            Kind::Unsigned(1) => self.leaf(head),
            Kind::Unsigned(_) => head.refuse(Test::Version),
            _ => head.refuse(Test::NotAllowed),
        }
    }

    /// An ARI of a message, "each of type 20 or 21".
    fn set(&mut self) -> Read {
        let head = self.head()?;
        match head.kind {
            Kind::Array(2) => self.container(head, false, |r| {
                let head = r.head()?;
                match head.kind {
                    Kind::Unsigned(number @ (20 | 21)) => {
                        r.leaf(head)?;
                        r.value(number, Within::Nothing)
                    }
                    _ => head.refuse(Test::NotAllowed),
                }
            }),
            _ => head.refuse(Test::NotAllowed),
        }
    }

    /// "An untyped literal [...]. Otherwise an array, told by its length".
    fn ari(&mut self, within: Within) -> Read {
        let head = self.head()?;
        match head.kind {
            Kind::Unsigned(_) | Kind::Negative(0..=MAX) => self.leaf(head),
            Kind::False | Kind::True | Kind::Null | Kind::Undefined => self.leaf(head),
            Kind::Half(_) | Kind::Single(_) | Kind::Double(_) => self.leaf(head),
            Kind::Bytes(length) => self.string(head, length, any),
            Kind::Text(length) => self.string(head, length, is_utf8),
            Kind::Array(1) => self.container(head, true, |r| r.namespace(false)),
            Kind::Array(2) => self.container(head, false, |r| r.typed_literal(within)),
            Kind::Array(length @ (3 | 4)) => self.object(head, length),
            _ => head.refuse(Test::NotAllowed),
        }
    }

    fn aris(&mut self, count: u64, within: Within) -> Read {
        for _ in 0..count {
            self.ari(within)?;
        }
        Ok(())
    }

    /// Where only an object reference is due.
    fn object_reference(&mut self) -> Read {
        let head = self.head()?;
        match head.kind {
            Kind::Array(length @ (3 | 4)) => self.object(head, length),
            _ => head.refuse(Test::NotAllowed),
        }
    }

    /// "object reference [ns, object type, object id]", "the same with parameters"
    #[inline(always)]
    fn object(&mut self, head: Head, length: u64) -> Read {
        self.container(head, true, |r| {
            r.namespace(true)?;
            r.object_type()?;
            r.object_id()?;
            if length == 4 {
                r.parameters()?;
            }
            Ok(())
        })
    }

    /// "ns is an integer from -2^63 to 2^63 - 1 or a name. In an object
    /// reference only, it may be null".
    #[inline(always)]
    fn namespace(&mut self, may_be_null: bool) -> Read {
        let head = self.head()?;
        match head.kind {
            Kind::Unsigned(0..=MAX) | Kind::Negative(0..=MAX) => self.leaf(head),
            Kind::Text(length) => self.string(head, length, is_namespace_name),
            Kind::Null if may_be_null => self.leaf(head),
            _ => head.refuse(Test::NotAllowed),
        }
    }

    /// "Object type: -256 to -1 or an identifier."
    #[inline(always)]
    fn object_type(&mut self) -> Read {
        let head = self.head()?;
        match head.kind {
            Kind::Negative(0..=255) => self.leaf(head),
            Kind::Text(length) => self.string(head, length, is_identifier),
            _ => head.refuse(Test::NotAllowed),
        }
    }

    /// "Object id: 0 to 2^63 - 1 or an identifier."
    #[inline(always)]
    fn object_id(&mut self) -> Read {
        let head = self.head()?;
        match head.kind {
            Kind::Unsigned(0..=MAX) => self.leaf(head),
            Kind::Text(length) => self.string(head, length, is_identifier),
            _ => head.refuse(Test::NotAllowed),
        }
    }

    /// "Parameters: a non-empty array of ARIs or a non-empty map."
    fn parameters(&mut self) -> Read {
        let head = self.head()?;
        match head.kind {
            Kind::Array(0) | Kind::Map(0) => head.refuse(Test::EmptyParameters),
            Kind::Array(count) => {
                self.container(head, false, |r| r.aris(count, Within::Parameters))
            }
            Kind::Map(count) => self.container(head, false, |r| r.pairs(count, Within::Parameters)),
            _ => head.refuse(Test::NotAllowed),
        }
    }

    /// "Map keys are integers or text strings; each key's bytes are greater, in
    /// byte order, than those of the key before [...]. Map values are ARIs." "Key
    /// order [...] judged on the shortened bytes."
    fn pairs(&mut self, count: u64, within: Within) -> Read {
        let mut before = None;
        for _ in 0..count {
            let head = self.head()?;
            let first = head.first;
            let kind = head.kind;
            let length = match kind {
                Kind::Unsigned(_) | Kind::Negative(0..=MAX) => {
                    self.leaf(head)?;
                    0
                }
                Kind::Text(length) => {
                    self.string(head, length, is_utf8)?;
                    length as usize
                }
                _ => return head.refuse(Test::NotAllowed),
            };
            let key = (head::shortest(kind), &self.input[self.at() - length..self.at()]);
            if before.is_some_and(|before| !is_below(before, key)) {
                return Err(refusal(Test::KeyOrder, first));
            }
            before = Some(key);
            self.ari(within)?;
        }
        Ok(())
    }

    /// "typed literal [type, value]": the type's own number, then its value.
    fn typed_literal(&mut self, within: Within) -> Read {
        let head = self.head()?;
        let number = match head.kind {
            // "only within an object reference's parameters, at any depth"
            Kind::Unsigned(14) if within == Within::Parameters => 14,
            // "Types 20 and 21 stand outermost only."
            Kind::Unsigned(number @ (20 | 21)) if within == Within::Nothing => number,
            Kind::Unsigned(number @ (0..=2 | 4..=13 | 15 | 17 | 18)) => number,
            _ => return head.refuse(Test::NotAllowed),
        };
        self.leaf(head)?;
        self.value(number, within)
    }

    /// The table of types: the value that goes with a type's number.
    fn value(&mut self, number: u64, within: Within) -> Read {
        let head = self.head()?;
        match (number, head.kind) {
            (0, Kind::Null) => self.leaf(head),
            (1, Kind::False | Kind::True) => self.leaf(head),
            (2, Kind::Unsigned(0..=0xff)) => self.leaf(head),
            (4, Kind::Unsigned(0..=0x7fff_ffff) | Kind::Negative(0..=0x7fff_ffff)) => {
                self.leaf(head)
            }
            (5, Kind::Unsigned(0..=0xffff_ffff)) => self.leaf(head),
            (6 | 12 | 13, Kind::Unsigned(0..=MAX) | Kind::Negative(0..=MAX)) => self.leaf(head),
            (7, Kind::Unsigned(_)) => self.leaf(head),
            (8, Kind::Half(_) | Kind::Single(_)) => self.leaf(head),
            (9, Kind::Half(_) | Kind::Single(_) | Kind::Double(_)) => self.leaf(head),
            (10, Kind::Text(length)) => self.string(head, length, is_utf8),
            (11 | 15, Kind::Bytes(length)) => self.string(head, length, any),
            (14, Kind::Text(length)) => self.string(head, length, is_identifier),
            (17, Kind::Array(count)) => {
                self.container(head, false, |r| r.aris(count, within.inner()))
            }
            (18, Kind::Map(count)) => {
                self.container(head, false, |r| r.pairs(count, within.inner()))
            }
            (20, Kind::Array(length @ 1..)) => self.container(head, false, |r| {
                r.nonce()?;
                for _ in 1..length {
                    r.target(Self::object_reference)?;
                }
                Ok(())
            }),
            (21, Kind::Array(length @ 2..)) => self.container(head, false, |r| {
                r.nonce()?;
                r.integer()?;
                for _ in 2..length {
                    r.target(Self::report)?;
                }
                Ok(())
            }),
            _ => head.refuse(Test::NotAllowed),
        }
    }

    /// "A nonce is null, an unsigned integer or a byte string"; "Integers here are as VAST".
    #[inline(always)]
    fn nonce(&mut self) -> Read {
        let head = self.head()?;
        match head.kind {
            Kind::Null | Kind::Unsigned(0..=MAX) => self.leaf(head),
            Kind::Bytes(length) => self.string(head, length, any),
            _ => head.refuse(Test::NotAllowed),
        }
    }

    /// "Integers here are as VAST."
    #[inline(always)]
    fn integer(&mut self) -> Read {
        let head = self.head()?;
        match head.kind {
            Kind::Unsigned(0..=MAX) | Kind::Negative(0..=MAX) => self.leaf(head),
            _ => head.refuse(Test::NotAllowed),
        }
    }

    /// A set's target or report; neither stands within another.
    #[inline(always)]
    fn target(&mut self, read: impl FnOnce(&mut Self) -> Read) -> Read {
        self.visitor.target();
        read(self)?;
        self.visitor.end_of_target();
        Ok(())
    }

    /// "A report is an array: integer, object reference, then ARIs."
    fn report(&mut self) -> Read {
        let head = self.head()?;
        match head.kind {
            Kind::Array(length @ 2..) => self.container(head, false, |r| {
                r.integer()?;
                r.object_reference()?;
                r.aris(length - 2, Within::Other)
            }),
            _ => head.refuse(Test::NotAllowed),
        }
    }
}

/// Byte order of two keys, each the bytes of its shortest head and of its string.
fn is_below(one: Key, other: Key) -> bool {
    fn bytes<'a>(key: &'a Key) -> impl Iterator<Item = &'a u8> {
        key.0.iter().chain(key.1)
    }
    bytes(&one).lt(bytes(&other))
}

/// A byte string may hold anything ("byte string, never opened").
fn any(_: &[u8]) -> bool {
    true
}
