//! Compare two messages (request (xii)): the targets and reports of both, position by
//! position. Each message is made a tree, and two trees are gone down together, item beside
//! item, until one differs.

use crate::head::Kind;
use crate::why::{outermost, Item};
use crate::{put, walk_message, Limits, Refusal};

/// "one entry for each position of a target or report"
#[derive(Clone, Copy, Debug, PartialEq, Eq)]
pub enum Position {
    Same,
    /// "with the first differing item's number on each side", as item records number them.
    Changed {
        first: usize,
        second: usize,
    },
    OnlyFirst,
    OnlySecond,
}

/// The bytes of an entry.
pub const POSITION: usize = 24;

impl Position {
    /// "what (8: 0 same, 1 changed, 2 only in the first, 3 only in the second), the first
    /// differing item's number in the first (8) and in the second (8); all ones where it isn't
    /// 'changed'"
    fn bytes(&self) -> [u8; POSITION] {
        let (what, first, second) = match *self {
            Position::Same => (0u64, u64::MAX, u64::MAX),
            Position::Changed { first, second } => (1, first as u64, second as u64),
            Position::OnlyFirst => (2, u64::MAX, u64::MAX),
            Position::OnlySecond => (3, u64::MAX, u64::MAX),
        };
        let mut bytes = [0; POSITION];
        bytes[..8].copy_from_slice(&what.to_be_bytes());
        bytes[8..16].copy_from_slice(&first.to_be_bytes());
        bytes[16..].copy_from_slice(&second.to_be_bytes());
        bytes
    }
}

/// What an item is by the place where it stands, as far as sameness asks.
#[derive(Clone, Copy)]
enum Place {
    /// A namespace, an object type or an object id: letters in either case are alike.
    Name,
    /// A target, or a report's source.
    Reference,
    Report,
    Parameters,
    Ari,
    /// An AC's array.
    List,
    /// An AM's map.
    Map,
    /// Anything else that holds nothing: to the byte, but for its head.
    Exact,
}

/// An item of a message, with the message's bytes.
#[derive(Clone, Copy)]
struct Placed<'t> {
    message: &'t [u8],
    item: &'t Item,
    place: Place,
}

impl<'t> Placed<'t> {
    fn members(self) -> impl Iterator<Item = Placed<'t>> {
        let members = self.item.members.iter().enumerate();
        members.map(move |(k, item)| Placed { item, place: self.place_of_member(k), ..self })
    }

    fn place_of_member(self, k: usize) -> Place {
        match (self.place, self.item.kind, k) {
            (Place::Reference | Place::Ari, Kind::Array(1 | 3 | 4), 0..=2) => Place::Name,
            (Place::Reference | Place::Ari, Kind::Array(4), 3) => Place::Parameters,
            (Place::Ari, Kind::Array(2), 0) => Place::Exact,
            (Place::Ari, Kind::Array(2), 1) => match self.item.members[0].kind {
                Kind::Unsigned(17) => Place::List,
                Kind::Unsigned(18) => Place::Map,
                _ => Place::Exact,
            },
            (Place::Report, _, 0) => Place::Exact,
            (Place::Report, _, 1) => Place::Reference,
            (Place::Report, ..) => Place::Ari,
            (Place::List, ..) | (Place::Parameters, Kind::Array(_), _) => Place::Ari,
            // Keys and values in turn
            (Place::Map | Place::Parameters, Kind::Map(_), _) if k % 2 == 1 => Place::Ari,
            (Place::Map | Place::Parameters, Kind::Map(_), _) => Place::Exact,
            _ => panic!("accepted"),
        }
    }

    /// The bytes of a string, of any other item none.
    fn string(self) -> &'t [u8] {
        match self.item.kind {
            Kind::Bytes(length) | Kind::Text(length) => {
                &self.message[self.item.after - length as usize..self.item.after]
            }
            _ => &[],
        }
    }

    /// "if their heads, shortened, and their strings, folded where they are names, are equal"
    fn is_like(self, other: Placed) -> bool {
        let strings = match (self.place, other.place) {
            (Place::Name, Place::Name) => self.string().eq_ignore_ascii_case(other.string()),
            _ => self.string() == other.string(),
        };
        self.item.kind == other.item.kind && strings
    }

    /// Counts items up to the first that differs, and says whether there is one. Items that
    /// are alike hold as many others as each other.
    fn differs(self, other: Placed, count: &mut usize) -> bool {
        if !self.is_like(other) {
            return true;
        }
        *count += 1;
        self.members().zip(other.members()).any(|(one, two)| one.differs(two, count))
    }
}

/// A target or report, and the number of its own head's item.
type Numbered<'t> = (usize, Placed<'t>);

/// The targets and reports of all sets, in order: "nonces, set times and the split into sets
/// aren't compared".
fn parts<'t>(message: &'t [u8], tree: &'t [Item]) -> Vec<Numbered<'t>> {
    let (version, sets) = tree.split_first().expect("accepted");
    let mut number = version.count();
    let mut parts = Vec::new();
    for set in sets {
        let [set_type, value] = &set.members[..] else { panic!("accepted") };
        // A nonce, and of reports a time too, stand before them.
        let (ahead, place) = match set_type.kind {
            Kind::Unsigned(20) => (1, Place::Reference),
            _ => (2, Place::Report),
        };
        number += 1 + set_type.count() + 1;
        for (k, item) in value.members.iter().enumerate() {
            if k >= ahead {
                parts.push((number, Placed { message, item, place }));
            }
            number += item.count();
        }
    }
    parts
}

/// "Refusals: the first message's, the second's"
pub fn compare(first: &[u8], second: &[u8], limits: &Limits) -> Result<Vec<Position>, Refusal> {
    walk_message(first, limits, &mut ())?;
    walk_message(second, limits, &mut ())?;
    let trees = [outermost(first), outermost(second)];
    let (ones, twos) = (parts(first, &trees[0]), parts(second, &trees[1]));
    let position = |k: usize| match (ones.get(k), twos.get(k)) {
        (Some((first, one)), Some((second, two))) => {
            let mut alike = 0;
            match one.differs(*two, &mut alike) {
                true => Position::Changed { first: first + alike, second: second + alike },
                false => Position::Same,
            }
        }
        (Some(_), None) => Position::OnlyFirst,
        _ => Position::OnlySecond,
    };
    Ok((0..ones.len().max(twos.len())).map(position).collect())
}

/// What was written to lent room.
#[derive(Clone, Copy, Debug, PartialEq, Eq)]
pub struct Written {
    /// "entries that are not 'same'"
    pub different: usize,
    pub entries: usize,
}

/// Writes the entries to room; "then 16 in entries".
pub fn write(positions: &[Position], room: &mut [u8]) -> Result<Written, Refusal> {
    let bytes: Vec<u8> = positions.iter().flat_map(Position::bytes).collect();
    put(&bytes, positions.len(), room)?;
    let different = positions.iter().filter(|position| **position != Position::Same).count();
    Ok(Written { different, entries: positions.len() })
}
