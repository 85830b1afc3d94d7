//! Why a message was held (request (vii)): the entry that release names, the reason, and
//! the chain of containers from the outermost down to it. For the chain the message is made
//! a tree, and the rules are gone through along it once more, apart from the walk.

use crate::head::{self, Kind};
use crate::names::{self, name_at, name_number};
use crate::{put, Limits, Refusal, Release};

/// What a container is to the one around it. Numbers count from 0.
#[derive(Clone, Copy, Debug, PartialEq, Eq)]
pub enum Meaning {
    /// One of a message's ARIs.
    Set(usize),
    /// "typed value such as a set's inner array": an AC's array and an AM's map too.
    TypedValue,
    /// Targets and reports are counted together through the message, as in item records.
    Target(usize),
    ParameterList,
    ParameterMap,
    /// A member of a parameter list.
    Parameter(usize),
    /// "map value with its key's place in any map"
    MapValue {
        key: usize,
    },
    Report(usize),
    ReportSource,
    /// Counted without the report's time and source.
    ReportItem(usize),
    /// A member of an AC.
    CollectionMember(usize),
}

impl Meaning {
    /// The archive's number.
    pub fn number(self) -> u64 {
        match self {
            Meaning::Set(_) => 0,
            Meaning::TypedValue => 1,
            Meaning::Target(_) => 2,
            Meaning::ParameterList | Meaning::ParameterMap => 3,
            Meaning::Parameter(_) => 4,
            Meaning::MapValue { .. } => 5,
            Meaning::Report(_) => 6,
            Meaning::ReportSource => 7,
            Meaning::ReportItem(_) => 8,
            Meaning::CollectionMember(_) => 9,
        }
    }

    /// The place of the key's head.
    pub fn key(self) -> Option<usize> {
        match self {
            Meaning::MapValue { key } => Some(key),
            _ => None,
        }
    }
}

#[derive(Clone, Copy, Debug, PartialEq, Eq)]
pub struct Link {
    pub first: usize,
    pub after: usize,
    pub meaning: Meaning,
}

/// The bytes of a link.
pub const LINK: usize = 24;

impl Link {
    /// "each link 24 bytes, big-endian: first byte (4), byte after (4), meaning (8), the
    /// place of its key's head (8; all ones where it is no map value)"
    fn bytes(&self) -> [u8; LINK] {
        let key = self.meaning.key().map_or(u64::MAX, |place| place as u64);
        let mut bytes = [0; LINK];
        bytes[..4].copy_from_slice(&(self.first as u32).to_be_bytes());
        bytes[4..8].copy_from_slice(&(self.after as u32).to_be_bytes());
        bytes[8..16].copy_from_slice(&self.meaning.number().to_be_bytes());
        bytes[16..].copy_from_slice(&key.to_be_bytes());
        bytes
    }
}

/// "the reason: not granted, name unknown, or relative"
#[derive(Clone, Copy, Debug, PartialEq, Eq)]
#[repr(u8)]
pub enum Reason {
    NotGranted = 0,
    NameUnknown = 1,
    Relative = 2,
}

#[derive(Clone, Debug, PartialEq, Eq)]
pub enum Why {
    Released,
    Held {
        /// As release names it.
        entry: usize,
        reason: Reason,
        /// "each link directly holds the next and the last is the entry"
        chain: Vec<Link>,
    },
}

/// An item of an accepted message with what it holds; a map has its keys and values in turn.
pub(crate) struct Item {
    pub first: usize,
    pub after: usize,
    pub kind: Kind,
    pub members: Vec<Item>,
}

impl Item {
    fn read(message: &[u8], first: usize) -> Item {
        let (kind, rest) = head::read(&message[first..]).expect("accepted");
        let mut after = message.len() - rest.len();
        let count = match kind {
            Kind::Array(length) => length,
            Kind::Map(pairs) => 2 * pairs,
            Kind::Bytes(length) | Kind::Text(length) => {
                after += length as usize;
                0
            }
            _ => 0,
        };
        let mut members = Vec::new();
        for _ in 0..count {
            let member = Item::read(message, after);
            after = member.after;
            members.push(member);
        }
        Item { first, after, kind, members }
    }

    /// The items that it is, with all that it holds.
    pub fn count(&self) -> usize {
        1 + self.members.iter().map(Item::count).sum::<usize>()
    }
}

/// The items of a message that stand in no other: the version, then the sets.
pub(crate) fn outermost(message: &[u8]) -> Vec<Item> {
    let (mut items, mut at) = (Vec::new(), 0);
    while at < message.len() {
        let item = Item::read(message, at);
        at = item.after;
        items.push(item);
    }
    items
}

struct Reference<'t> {
    chain: Vec<Link>,
    namespace: &'t Item,
}

/// Goes down the tree and notes each reference with the links that are open there.
#[derive(Default)]
struct Descent<'t> {
    open: Vec<Link>,
    /// Targets and reports met so far.
    targets: usize,
    references: Vec<Reference<'t>>,
}

impl<'t> Descent<'t> {
    fn container(&mut self, item: &'t Item, meaning: Meaning, members: impl FnOnce(&mut Self)) {
        self.open.push(Link { first: item.first, after: item.after, meaning });
        members(self);
        self.open.pop();
    }

    fn next_target(&mut self) -> usize {
        self.targets += 1;
        self.targets - 1
    }

    fn set(&mut self, item: &'t Item, number: usize) {
        let [set_type, value] = &item.members[..] else { panic!("accepted") };
        self.container(item, Meaning::Set(number), |d| {
            d.container(value, Meaning::TypedValue, |d| match set_type.kind {
                Kind::Unsigned(20) => {
                    let [_nonce, targets @ ..] = &value.members[..] else { panic!("accepted") };
                    for target in targets {
                        let number = d.next_target();
                        d.ari(target, Meaning::Target(number));
                    }
                }
                _ => {
                    let [_nonce, _time, reports @ ..] = &value.members[..] else {
                        panic!("accepted")
                    };
                    reports.iter().for_each(|report| d.report(report));
                }
            });
        });
    }

    fn report(&mut self, item: &'t Item) {
        let [_time, source, items @ ..] = &item.members[..] else { panic!("accepted") };
        let number = self.next_target();
        self.container(item, Meaning::Report(number), |d| {
            d.ari(source, Meaning::ReportSource);
            for (k, item) in items.iter().enumerate() {
                d.ari(item, Meaning::ReportItem(k));
            }
        });
    }

    /// An ARI or an object reference; an untyped literal holds nothing.
    fn ari(&mut self, item: &'t Item, meaning: Meaning) {
        match (item.kind, &item.members[..]) {
            (Kind::Array(_), [literal_type, value]) => {
                self.container(item, meaning, |d| d.value(literal_type, value));
            }
            (Kind::Array(_), [namespace, of_object @ ..]) => self.container(item, meaning, |d| {
                d.references.push(Reference { chain: d.open.clone(), namespace });
                if let [_object_type, _id, parameters] = of_object {
                    d.parameters(parameters);
                }
            }),
            _ => (),
        }
    }

    /// Of the types that may stand within a set only AC and AM hold anything.
    fn value(&mut self, literal_type: &Item, value: &'t Item) {
        match literal_type.kind {
            Kind::Unsigned(17) => self.container(value, Meaning::TypedValue, |d| {
                for (k, member) in value.members.iter().enumerate() {
                    d.ari(member, Meaning::CollectionMember(k));
                }
            }),
            Kind::Unsigned(18) => self.container(value, Meaning::TypedValue, |d| d.pairs(value)),
            _ => (),
        }
    }

    fn parameters(&mut self, item: &'t Item) {
        match item.kind {
            Kind::Map(_) => self.container(item, Meaning::ParameterMap, |d| d.pairs(item)),
            _ => self.container(item, Meaning::ParameterList, |d| {
                for (k, parameter) in item.members.iter().enumerate() {
                    d.ari(parameter, Meaning::Parameter(k));
                }
            }),
        }
    }

    fn pairs(&mut self, map: &'t Item) {
        for pair in map.members.chunks_exact(2) {
            let (key, value) = (&pair[0], &pair[1]);
            self.ari(value, Meaning::MapValue { key: key.first });
        }
    }
}

/// The references of a tree, in the order of their heads.
fn references(outermost: &[Item]) -> Vec<Reference<'_>> {
    let mut descent = Descent::default();
    for (k, set) in outermost.iter().skip(1).enumerate() {
        descent.set(set, k);
    }
    descent.references
}

/// The chain of each reference of an accepted message, in the listing's order.
pub fn chains(message: &[u8]) -> Vec<Vec<Link>> {
    references(&outermost(message)).into_iter().map(|reference| reference.chain).collect()
}

/// "A released message gives "released" only; what release refuses is refused alike."
pub fn why(
    message: &[u8],
    table: &[u8],
    published: &[u8],
    own: &[u8],
    subscriber: u64,
    limits: &Limits,
) -> Result<Why, Refusal> {
    let entry = match names::release(message, table, published, own, subscriber, limits)? {
        Release::Yes => return Ok(Why::Released),
        Release::No(entry) => entry,
    };
    let tree = outermost(message);
    let Reference { chain, namespace } = references(&tree).swap_remove(entry);
    let reason = match namespace.kind {
        Kind::Null => Reason::Relative,
        Kind::Text(_) => match name_number(published, own, name_at(message, namespace.first)) {
            Some(_) => Reason::NotGranted,
            None => Reason::NameUnknown,
        },
        _ => Reason::NotGranted,
    };
    Ok(Why::Held { entry, reason, chain })
}

/// Writes the chain, if there is one, to room; 16 counts bytes.
pub fn write(why: Why, room: &mut [u8]) -> Result<Why, Refusal> {
    if let Why::Held { chain, .. } = &why {
        let bytes: Vec<u8> = chain.iter().flat_map(Link::bytes).collect();
        put(&bytes, bytes.len(), room)?;
    }
    Ok(why)
}
