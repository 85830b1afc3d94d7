//! The order composer (request (viii)): a message with one EXECSET, from a nonce and the texts of
//! its targets. The message is made first, whatever it is like, and judged when it is there.

use crate::head::put_head;
use crate::names::lines;
use crate::text::ari_of;
use crate::{hand_over, walk_message, Kind, Limits, Refusal, Test, Visitor, Written};

/// What stands as the nonce.
#[derive(Clone, Copy, Debug, PartialEq, Eq)]
pub enum Nonce<'a> {
    Null,
    Number(u64),
    Bytes(&'a [u8]),
}

impl<'a> Nonce<'a> {
    /// "kind 0 null, 1 the number, 2 the byte string; another kind is 7 at 0". What a kind has no
    /// use for is not looked at.
    pub fn of(kind: u64, number: u64, bytes: &'a [u8]) -> Result<Nonce<'a>, Refusal> {
        match kind {
            0 => Ok(Nonce::Null),
            1 => Ok(Nonce::Number(number)),
            2 => Ok(Nonce::Bytes(bytes)),
            _ => Err(Refusal { test: Test::NotAllowed, place: 0 }),
        }
    }

    fn put(&self, out: &mut Vec<u8>) {
        match self {
            Nonce::Null => out.push(0xf6),
            Nonce::Number(number) => put_head(out, 0, *number),
            Nonce::Bytes(bytes) => {
                put_head(out, 2, bytes.len() as u64);
                out.extend(*bytes);
            }
        }
    }
}

/// The ARI of a text, if it is ended, not too long and an object reference.
fn target(line: &[u8], limits: &Limits) -> Option<Vec<u8>> {
    let (ari, _) = ari_of(line.strip_suffix(b"\n")?, limits).ok()?;
    // The head of a reference is one byte long: an array of 1, 3 or 4.
    matches!(ari[0], 0x83 | 0x84).then_some(ari)
}

/// How many containers are open at once.
#[derive(Default)]
struct Deepest(usize);

impl Visitor for Deepest {
    type Mark = ();

    fn leaf(&mut self, _: usize, _: usize, _: usize, _: Kind) {}

    fn open(&mut self, _: usize, around: usize, _: Kind, _: bool) {
        self.0 = self.0.max(around + 1);
    }

    fn close(&mut self, _: (), _: usize) {}
}

/// What any message keeps.
const NO_LIMITS: Limits =
    Limits { bytes: usize::MAX, items: usize::MAX, containers: usize::MAX, text: usize::MAX };

/// The bytes, the items and the containers open at once of what is a message but for limits.
pub fn sizes(message: &[u8]) -> [usize; 3] {
    let mut deepest = Deepest::default();
    let items = walk_message(message, &NO_LIMITS, &mut deepest).expect("a message");
    [message.len(), items, deepest.0]
}

/// The message and its item count, if room is of no account: "first 7 at place 0, a nonce number
/// out of range; then 24, a text that is too long, isn't ended or isn't an object reference, with
/// its number in the list, the first such; then the limits 1, 5 and 6, in that order and with
/// place 0, exactly if the finished message would break them".
pub fn composed(nonce: Nonce, texts: &[u8], limits: &Limits) -> Result<(Vec<u8>, usize), Refusal> {
    if matches!(nonce, Nonce::Number(number) if number > i64::MAX as u64) {
        return Err(Refusal { test: Test::NotAllowed, place: 0 });
    }
    let mut targets = Vec::new();
    for (place, (_, line)) in lines(texts).enumerate() {
        let target = target(line, limits);
        targets.push(target.ok_or(Refusal { test: Test::NoReference, place })?);
    }
    let mut message = vec![0x01, 0x82, 0x14];
    put_head(&mut message, 4, 1 + targets.len() as u64);
    nonce.put(&mut message);
    message.extend(targets.concat());

    let [bytes, items, containers] = sizes(&message);
    for (test, is, most) in [
        (Test::TooLong, bytes, limits.bytes),
        (Test::TooManyItems, items, limits.items),
        (Test::TooManyContainers, containers, limits.containers),
    ] {
        if is > most {
            return Err(Refusal { test, place: 0 });
        }
    }
    Ok((message, items))
}

/// The same, written to room; 16 counts bytes.
pub fn compose(
    nonce: Nonce,
    texts: &[u8],
    room: &mut [u8],
    limits: &Limits,
) -> Result<Written, Refusal> {
    let (message, items) = composed(nonce, texts, limits)?;
    hand_over(&message, Written { items, size: message.len() }, room)
}
