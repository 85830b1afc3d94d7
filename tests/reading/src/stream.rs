//! A message as the link delivers it (R130 to R137): answers to a message that is fed
//! in fragments. They depend on all bytes received and on nothing else, so
//! those are all that a [`Stream`] keeps, and each answer is read from the front.

use crate::{listing_within, walk_message, Limits, Listing, Refusal, Test, Written};

/// R130, R131: the answer of all bytes received; of too many, that of the first ones if
/// more bytes could not mend it, and else 1. (A listing is refused by 16 where it is
/// handed over, not here.)
pub fn closing(bytes: &[u8], limits: &Limits) -> Result<Listing, Refusal> {
    judge(bytes, limits, |bytes| listing_within(bytes, limits))
}

/// R132: the refusal that no further bytes can change. 2 and 9 say that bytes are missing,
/// which may still come, and past the limit no continuation is anything but refused.
pub fn standing(bytes: &[u8], limits: &Limits) -> Option<Refusal> {
    let items = judge(bytes, limits, |bytes| walk_message(bytes, limits, &mut ()));
    items.err().filter(|refusal| !bytes_are_missing(refusal))
}

fn bytes_are_missing(refusal: &Refusal) -> bool {
    matches!(refusal.test, Test::EndOfInput | Test::ShortString)
}

/// The closing answer, with `read` as the answer to bytes within the limit.
fn judge<T>(
    bytes: &[u8],
    limits: &Limits,
    read: impl Fn(&[u8]) -> Result<T, Refusal>,
) -> Result<T, Refusal> {
    if bytes.len() <= limits.bytes {
        return read(bytes);
    }
    match read(&bytes[..limits.bytes]) {
        Err(refusal) if !bytes_are_missing(&refusal) => Err(refusal),
        _ => Err(Refusal { test: Test::TooLong, place: 0 }),
    }
}

/// A message that is being fed.
#[derive(Default)]
pub struct Stream {
    received: Vec<u8>,
    /// Of what was received, as the last feed answered it.
    standing: Option<Refusal>,
}

impl Stream {
    pub fn received(&self) -> &[u8] {
        &self.received
    }

    pub fn standing(&self) -> Option<Refusal> {
        self.standing
    }

    /// A fresh message: what was fed before is dropped.
    pub fn open(&mut self) {
        *self = Stream::default();
    }

    /// The bytes are put into the message's room behind those before them, as far as the
    /// limit lets them; once a refusal stands none are (R134).
    pub fn feed(
        &mut self,
        fragment: &[u8],
        message: &mut [u8],
        limits: &Limits,
    ) -> Result<(), Refusal> {
        if self.standing.is_none() {
            let room = &mut message[self.received.len()..limits.bytes];
            let fitting = fragment.len().min(room.len());
            room[..fitting].copy_from_slice(&fragment[..fitting]);
        }
        self.received.extend(fragment);
        self.standing = standing(&self.received, limits);
        self.standing.map_or(Ok(()), Err)
    }

    /// R137: 16 leaves all as it was, and any other answer begins anew.
    pub fn close(&mut self, room: &mut [u8], limits: &Limits) -> Result<Written, Refusal> {
        let answer = closing(&self.received, limits).and_then(|listing| listing.write(room));
        if !matches!(answer, Err(Refusal { test: Test::Room, .. })) {
            self.open();
        }
        answer
    }
}
