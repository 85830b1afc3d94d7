//! 'Item records and the listing': the references of a message.

use crate::{hand_over, walk_message, Kind, Limits, Refusal, Visitor, Written, LIMITS};

/// "namespace (number, name or relative)"
#[derive(Clone, Copy, Debug, PartialEq, Eq)]
pub enum Namespace {
    Number(i64),
    /// The place of the name's head.
    Name(usize),
    Relative,
}

/// "one entry for each reference: first byte, byte after, namespace"
#[derive(Clone, Copy, Debug, PartialEq, Eq)]
pub struct Entry {
    pub first: usize,
    pub after: usize,
    pub namespace: Namespace,
}

/// The bytes of an entry.
pub const ENTRY: usize = 24;

impl Entry {
    /// "24 an entry, big-endian: first byte (4), byte after (4), kind (8: 0
    /// number, 1 name, 2 relative), namespace number or place of the name's head
    /// (two's complement, 8; 0 if relative)"
    fn bytes(&self) -> [u8; ENTRY] {
        let (kind, data) = match self.namespace {
            Namespace::Number(number) => (0u64, number),
            Namespace::Name(place) => (1, place as i64),
            Namespace::Relative => (2, 0),
        };
        let mut bytes = [0; ENTRY];
        bytes[..4].copy_from_slice(&(self.first as u32).to_be_bytes());
        bytes[4..8].copy_from_slice(&(self.after as u32).to_be_bytes());
        bytes[8..16].copy_from_slice(&kind.to_be_bytes());
        bytes[16..].copy_from_slice(&data.to_be_bytes());
        bytes
    }
}

#[derive(Clone, Debug, Default, PartialEq, Eq)]
pub struct Listing {
    pub items: usize,
    pub entries: Vec<Entry>,
}

/// Collects the entries. A reference's namespace is its first member, so the
/// next leaf after its head.
#[derive(Default)]
struct Collector {
    entries: Vec<Entry>,
    namespace_due: bool,
}

impl Visitor for Collector {
    type Mark = Option<usize>;

    #[inline]
    fn leaf(&mut self, first: usize, _: usize, _: usize, kind: Kind) {
        if !std::mem::take(&mut self.namespace_due) {
            return;
        }
        if let Some(entry) = self.entries.last_mut() {
            entry.namespace = match kind {
                Kind::Unsigned(n) => Namespace::Number(n as i64),
                Kind::Negative(n) => Namespace::Number(-1 - n as i64),
                Kind::Text(_) => Namespace::Name(first),
                _ => Namespace::Relative,
            };
        }
    }

    #[inline]
    fn open(&mut self, first: usize, _: usize, _: Kind, reference: bool) -> Option<usize> {
        reference.then(|| {
            self.namespace_due = true;
            self.entries.push(Entry { first, after: first, namespace: Namespace::Relative });
            self.entries.len() - 1
        })
    }

    #[inline]
    fn close(&mut self, opened: Option<usize>, after: usize) {
        if let Some(k) = opened {
            self.entries[k].after = after;
        }
    }
}

impl Listing {
    /// The listing as bytes. "Where room is short, 16 gives the number of references
    /// and nothing is written"; "Room counts in whole entries."
    pub fn write(&self, room: &mut [u8]) -> Result<Written, Refusal> {
        let bytes: Vec<u8> = self.entries.iter().flat_map(Entry::bytes).collect();
        hand_over(&bytes, Written { items: self.items, size: self.entries.len() }, room)
    }
}

pub fn listing(message: &[u8]) -> Result<Listing, Refusal> {
    listing_within(message, &LIMITS)
}

pub fn listing_within(message: &[u8], limits: &Limits) -> Result<Listing, Refusal> {
    let mut collector = Collector::default();
    let items = walk_message(message, limits, &mut collector)?;
    Ok(Listing { items, entries: collector.entries })
}

pub fn list(message: &[u8], room: &mut [u8]) -> Result<Written, Refusal> {
    listing(message)?.write(room)
}
