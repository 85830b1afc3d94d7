//! Taking a target out (request (xiv)): the message is cut into pieces, one of them is left
//! out, and the others are put together again.

use crate::head::{self, put_head, Kind};
use crate::{hand_over, walk_message, Limits, Refusal, Test, Written};

/// Takes a head from the front.
fn take_head<'m>(rest: &mut &'m [u8]) -> (Kind, &'m [u8]) {
    let (kind, after) = head::read(rest).expect("accepted");
    let (head, _) = rest.split_at(rest.len() - after.len());
    *rest = after;
    (kind, head)
}

/// Takes a whole item from the front, with all that it holds.
fn take_item<'m>(rest: &mut &'m [u8]) -> &'m [u8] {
    let before = *rest;
    let mut due = 1;
    while due > 0 {
        let (kind, _) = take_head(rest);
        due -= 1;
        match kind {
            Kind::Array(length) => due += length,
            Kind::Map(pairs) => due += 2 * pairs,
            Kind::Bytes(length) | Kind::Text(length) => *rest = &rest[length as usize..],
            _ => (),
        }
    }
    &before[..before.len() - rest.len()]
}

/// A set of a message in its pieces, each as it stands.
struct Set<'m> {
    /// The set's own head, and its type.
    outer: [&'m [u8]; 2],
    /// The head of its inner array.
    head: Vec<u8>,
    /// The nonce, and a reporting set's time.
    fixed: Vec<&'m [u8]>,
    /// The targets or reports.
    parts: Vec<&'m [u8]>,
}

impl<'m> Set<'m> {
    fn take(rest: &mut &'m [u8]) -> Set<'m> {
        let (_, own) = take_head(rest);
        let (set_type, type_head) = take_head(rest);
        let (Kind::Array(length), head) = take_head(rest) else { panic!("accepted") };
        let ahead = if set_type == Kind::Unsigned(20) { 1 } else { 2 };
        let fixed = (0..ahead).map(|_| take_item(rest)).collect();
        let parts = (ahead..length).map(|_| take_item(rest)).collect();
        Set { outer: [own, type_head], head: head.to_vec(), fixed, parts }
    }

    /// "The inner array's new head is the shortest, other bytes stay".
    fn without(&mut self, number: usize) {
        self.parts.remove(number);
        self.head.clear();
        put_head(&mut self.head, 4, (self.fixed.len() + self.parts.len()) as u64);
    }

    fn bytes(&self) -> Vec<u8> {
        [self.outer.concat(), self.head.clone(), self.fixed.concat(), self.parts.concat()].concat()
    }
}

/// The shorter message.
#[derive(Clone, Debug, PartialEq, Eq)]
pub struct Struck {
    pub items: usize,
    pub message: Vec<u8>,
}

/// "Refusals: 27, no such target or report, with their count, after the message's own".
pub fn strike(message: &[u8], number: u64, limits: &Limits) -> Result<Struck, Refusal> {
    walk_message(message, limits, &mut ())?;
    let mut rest = message;
    let mut pieces = vec![take_item(&mut rest).to_vec()];
    let mut before = 0;
    while !rest.is_empty() {
        let mut set = Set::take(&mut rest);
        // Targets and reports are counted together through the message.
        let numbers = before..before + set.parts.len();
        before = numbers.end;
        let within = usize::try_from(number).ok().filter(|number| numbers.contains(number));
        if let Some(number) = within {
            set.without(number - numbers.start);
        }
        pieces.push(set.bytes());
    }
    if number >= before as u64 {
        return Err(Refusal { test: Test::NoTarget, place: before });
    }
    let message = pieces.concat();
    // "the shorter message is accepted"
    let items = walk_message(&message, limits, &mut ()).expect("accepted still");
    Ok(Struck { items, message })
}

/// Writes the shorter message to room; "before 16", which counts bytes.
pub fn write(struck: &Struck, room: &mut [u8]) -> Result<Written, Refusal> {
    let Struck { items, message } = struck;
    hand_over(message, Written { items: *items, size: message.len() }, room)
}
