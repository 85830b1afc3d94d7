//! The gate's C archive, as far as it was there when this was built (see
//! build.rs). Each answer is one `u64`; [`packed`] and its kin give the numbers
//! that stand for the reading's answers.

pub mod composer;

use std::ops::Range;

use crate::day::Added;
use crate::why::Why;
use crate::{compare, Answer, Refusal, Release, Written};

/// Declares the functions that the archive has, and puts one that panics in the
/// place of each other.
macro_rules! functions {
    ($($flag:literal $name:ident($($argument:ident: $kind:ty),*);)*) => {
        mod functions {
            extern "C" {
                $(#[cfg(archive_has = $flag)] pub fn $name($($argument: $kind),*) -> u64;)*
            }
            $(
                #[cfg(not(archive_has = $flag))]
                pub unsafe fn $name($(_: $kind),*) -> u64 {
                    panic!(concat!("built without ", stringify!($name)))
                }
            )*
        }

        /// Each function's name, and whether the archive has it.
        pub const FUNCTIONS: &[(&str, bool)] =
            &[$((stringify!($name), cfg!(archive_has = $flag))),*];
    };
}

functions! {
    "check_single" surfbodkin_check_single(input: *const u8, length: usize);
    "check_message" surfbodkin_check_message(input: *const u8, length: usize);
    "list" surfbodkin_list(message: *const u8, length: usize, out: *mut u8, out_length: usize);
    "check_table" surfbodkin_check_table(table: *const u8, table_length: usize);
    "release" surfbodkin_release(
        message: *const u8, length: usize, table: *const u8, table_length: usize, published: *const u8, published_length: usize,
        own: *const u8, own_length: usize, subscriber: u64, compared: *mut u64
    );
    "write_text" surfbodkin_write_text(
        ari: *const u8, length: usize, out: *mut u8, out_length: usize
    );
    "read_text" surfbodkin_read_text(
        text: *const u8, length: usize, out: *mut u8, out_length: usize
    );
    "check_names" surfbodkin_check_names(
        published: *const u8, published_length: usize, own: *const u8, own_length: usize
    );
    "day_check" surfbodkin_day_check(file: *const u8, length: usize);
    "day_find" surfbodkin_day_find(file: *const u8, length: usize, number: u64);
    "day_add" surfbodkin_day_add(
        file: *const u8, length: usize, message: *const u8, message_length: usize,
        out: *mut u8, out_length: usize
    );
    "day_search" surfbodkin_day_search(
        file: *const u8, length: usize, published: *const u8, published_length: usize,
        own: *const u8, own_length: usize, space: u64, out: *mut u8, out_length: usize
    );
    "name_number" surfbodkin_name_number(
        published: *const u8, published_length: usize, own: *const u8, own_length: usize,
        name: *const u8, name_length: usize, number: *mut u64
    );
    "why" surfbodkin_why(
        message: *const u8, length: usize, table: *const u8, table_length: usize, published: *const u8, published_length: usize,
        own: *const u8, own_length: usize, subscriber: u64, out: *mut u8, out_length: usize
    );
    "same" surfbodkin_same(
        first: *const u8, first_length: usize, second: *const u8, second_length: usize
    );
    "day_upgrade" surfbodkin_day_upgrade(
        file: *const u8, length: usize, out: *mut u8, out_length: usize
    );
    "compare" surfbodkin_compare(
        first: *const u8, first_length: usize, second: *const u8, second_length: usize,
        out: *mut u8, out_length: usize
    );
    "strike" surfbodkin_strike(
        message: *const u8, length: usize, number: u64, out: *mut u8, out_length: usize
    );
    "stream_open" surfbodkin_stream_open(state: *mut u64, words: usize);
    "stream_feed" surfbodkin_stream_feed(
        state: *mut u64, words: usize, message: *mut u8, room: usize,
        fragment: *const u8, length: usize
    );
    "stream_close" surfbodkin_stream_close(
        state: *mut u64, words: usize, message: *mut u8, room: usize,
        out: *mut u8, out_length: usize
    );
    "month_open" surfbodkin_month_open(state: *mut u64, words: usize);
    "month_add" surfbodkin_month_add(
        state: *mut u64, words: usize, file: *const u8, length: usize,
        published: *const u8, published_length: usize, own: *const u8, own_length: usize
    );
    "month_read" surfbodkin_month_read(
        state: *const u64, words: usize, out: *mut u8, out_length: usize
    );
}

const fn number(digits: &str) -> usize {
    match usize::from_str_radix(digits, 10) {
        Ok(number) => number,
        Err(_) => panic!("no number"),
    }
}

/// The words of a stream's state, and of a month's; 0 where the header does not say.
pub const STREAM_WORDS: usize = number(env!("SURFBODKIN_STREAM_WORDS"));
pub const MONTH_WORDS: usize = number(env!("SURFBODKIN_MONTH_WORDS"));

/// Whether the archive, or the composer's, has a function; if not, its call below panics.
pub fn has(name: &str) -> bool {
    FUNCTIONS.contains(&(name, true)) || composer::IS_THERE && name == composer::FUNCTION
}

pub fn has_stream() -> bool {
    ["open", "feed", "close"].iter().all(|call| has(&format!("surfbodkin_stream_{call}")))
}

pub fn has_month() -> bool {
    ["open", "add", "read"].iter().all(|call| has(&format!("surfbodkin_month_{call}")))
}

// SAFETY, for each call: the pointers and the lengths are those of slices.

#[inline]
pub fn check_single(input: &[u8]) -> u64 {
    unsafe { functions::surfbodkin_check_single(input.as_ptr(), input.len()) }
}

#[inline]
pub fn check_message(input: &[u8]) -> u64 {
    unsafe { functions::surfbodkin_check_message(input.as_ptr(), input.len()) }
}

pub fn same(first: &[u8], second: &[u8]) -> u64 {
    unsafe {
        functions::surfbodkin_same(first.as_ptr(), first.len(), second.as_ptr(), second.len())
    }
}

/// The entries go to the room.
pub fn compare(first: &[u8], second: &[u8], room: &mut [u8]) -> u64 {
    unsafe {
        functions::surfbodkin_compare(
            first.as_ptr(),
            first.len(),
            second.as_ptr(),
            second.len(),
            room.as_mut_ptr(),
            room.len(),
        )
    }
}

/// The shorter message goes to the room.
pub fn strike(message: &[u8], number: u64, room: &mut [u8]) -> u64 {
    unsafe {
        functions::surfbodkin_strike(
            message.as_ptr(),
            message.len(),
            number,
            room.as_mut_ptr(),
            room.len(),
        )
    }
}

#[inline]
pub fn list(message: &[u8], room: &mut [u8]) -> u64 {
    unsafe {
        functions::surfbodkin_list(message.as_ptr(), message.len(), room.as_mut_ptr(), room.len())
    }
}

#[inline]
pub fn check_table(table: &[u8]) -> u64 {
    unsafe { functions::surfbodkin_check_table(table.as_ptr(), table.len()) }
}

/// The rows compared go to `compared`, if the answer is no refusal.
#[inline]
pub fn release(
    message: &[u8],
    table: &[u8],
    published: &[u8],
    own: &[u8],
    subscriber: u64,
    compared: &mut u64,
) -> u64 {
    unsafe {
        functions::surfbodkin_release(
            message.as_ptr(),
            message.len(),
            table.as_ptr(),
            table.len(),
            published.as_ptr(),
            published.len(),
            own.as_ptr(),
            own.len(),
            subscriber,
            compared,
        )
    }
}

#[inline]
pub fn write_text(ari: &[u8], room: &mut [u8]) -> u64 {
    unsafe {
        functions::surfbodkin_write_text(ari.as_ptr(), ari.len(), room.as_mut_ptr(), room.len())
    }
}

#[inline]
pub fn read_text(text: &[u8], room: &mut [u8]) -> u64 {
    unsafe {
        functions::surfbodkin_read_text(text.as_ptr(), text.len(), room.as_mut_ptr(), room.len())
    }
}

#[inline]
pub fn check_names(published: &[u8], own: &[u8]) -> u64 {
    unsafe {
        functions::surfbodkin_check_names(
            published.as_ptr(),
            published.len(),
            own.as_ptr(),
            own.len(),
        )
    }
}

#[inline]
pub fn day_check(file: &[u8]) -> u64 {
    unsafe { functions::surfbodkin_day_check(file.as_ptr(), file.len()) }
}

#[inline]
pub fn day_find(file: &[u8], number: u64) -> u64 {
    unsafe { functions::surfbodkin_day_find(file.as_ptr(), file.len(), number) }
}

#[inline]
pub fn day_add(file: &[u8], message: &[u8], room: &mut [u8]) -> u64 {
    unsafe {
        functions::surfbodkin_day_add(
            file.as_ptr(),
            file.len(),
            message.as_ptr(),
            message.len(),
            room.as_mut_ptr(),
            room.len(),
        )
    }
}

/// The namespace is given in two's complement.
#[inline]
pub fn day_search(
    file: &[u8],
    published: &[u8],
    own: &[u8],
    namespace: u64,
    room: &mut [u8],
) -> u64 {
    unsafe {
        functions::surfbodkin_day_search(
            file.as_ptr(),
            file.len(),
            published.as_ptr(),
            published.len(),
            own.as_ptr(),
            own.len(),
            namespace,
            room.as_mut_ptr(),
            room.len(),
        )
    }
}

#[inline]
pub fn day_upgrade(file: &[u8], room: &mut [u8]) -> u64 {
    unsafe {
        functions::surfbodkin_day_upgrade(file.as_ptr(), file.len(), room.as_mut_ptr(), room.len())
    }
}

/// The number goes to `number`, in two's complement, if there is one.
#[inline]
pub fn name_number(published: &[u8], own: &[u8], name: &[u8], number: &mut u64) -> u64 {
    unsafe {
        functions::surfbodkin_name_number(
            published.as_ptr(),
            published.len(),
            own.as_ptr(),
            own.len(),
            name.as_ptr(),
            name.len(),
            number,
        )
    }
}

/// The chain goes to the room, if the message is held.
#[inline]
pub fn why(
    message: &[u8],
    table: &[u8],
    published: &[u8],
    own: &[u8],
    subscriber: u64,
    room: &mut [u8],
) -> u64 {
    unsafe {
        functions::surfbodkin_why(
            message.as_ptr(),
            message.len(),
            table.as_ptr(),
            table.len(),
            published.as_ptr(),
            published.len(),
            own.as_ptr(),
            own.len(),
            subscriber,
            room.as_mut_ptr(),
            room.len(),
        )
    }
}

#[inline]
pub fn stream_open(state: &mut [u64]) -> u64 {
    unsafe { functions::surfbodkin_stream_open(state.as_mut_ptr(), state.len()) }
}

#[inline]
pub fn stream_feed(state: &mut [u64], message: &mut [u8], fragment: &[u8]) -> u64 {
    unsafe {
        functions::surfbodkin_stream_feed(
            state.as_mut_ptr(),
            state.len(),
            message.as_mut_ptr(),
            message.len(),
            fragment.as_ptr(),
            fragment.len(),
        )
    }
}

#[inline]
pub fn stream_close(state: &mut [u64], message: &mut [u8], room: &mut [u8]) -> u64 {
    unsafe {
        functions::surfbodkin_stream_close(
            state.as_mut_ptr(),
            state.len(),
            message.as_mut_ptr(),
            message.len(),
            room.as_mut_ptr(),
            room.len(),
        )
    }
}

#[inline]
pub fn month_open(state: &mut [u64]) -> u64 {
    unsafe { functions::surfbodkin_month_open(state.as_mut_ptr(), state.len()) }
}

#[inline]
pub fn month_add(state: &mut [u64], file: &[u8], published: &[u8], own: &[u8]) -> u64 {
    unsafe {
        functions::surfbodkin_month_add(
            state.as_mut_ptr(),
            state.len(),
            file.as_ptr(),
            file.len(),
            published.as_ptr(),
            published.len(),
            own.as_ptr(),
            own.len(),
        )
    }
}

#[inline]
pub fn month_read(state: &[u64], room: &mut [u8]) -> u64 {
    unsafe {
        functions::surfbodkin_month_read(state.as_ptr(), state.len(), room.as_mut_ptr(), room.len())
    }
}

/// The top byte of release's no, and of a message that is held.
pub const NO: u64 = 255;

/// The greatest place: one that would pass it is this.
const MOST: u64 = (1 << 56) - 1;

/// A check's answer as the archive gives it: the refusal's number in the top
/// byte and its place below, or 0 there and the item count from bit 32 on.
pub fn packed(answer: Answer) -> u64 {
    match answer {
        Answer::Accepted(items) => (items as u64) << 32,
        Answer::Refused { number, place } => u64::from(number) << 56 | MOST.min(place as u64),
    }
}

fn refused(refusal: Refusal) -> u64 {
    packed(Answer::from(Err(refusal)))
}

/// What was written to lent room has its size in the low half.
pub fn packed_written(answer: Result<Written, Refusal>) -> u64 {
    match answer {
        Ok(Written { items, size }) => accepted(items, size),
        Err(refusal) => refused(refusal),
    }
}

/// Two numbers: one from bit 32 on, and one in the low half.
fn accepted(count: usize, low: usize) -> u64 {
    packed(Answer::Accepted(count)) | low as u64
}

/// The messages of a day file, the entries that a search of it wrote, or the namespaces of a
/// month.
pub fn packed_low(answer: Result<usize, Refusal>) -> u64 {
    answer.map_or_else(refused, |low| accepted(0, low))
}

/// A part of a day file: its bytes, and the first of them.
pub fn packed_part(answer: Result<Range<usize>, Refusal>) -> u64 {
    answer.map_or_else(refused, |part| accepted(part.len(), part.start))
}

pub fn packed_added(answer: Result<Added, Refusal>) -> u64 {
    answer.map_or_else(refused, |Added { messages, bytes }| accepted(messages, bytes))
}

/// "count: entries that are not 'same', low: entries"
pub fn packed_compared(answer: Result<compare::Written, Refusal>) -> u64 {
    answer.map_or_else(refused, |compare::Written { different, entries }| {
        accepted(different, entries)
    })
}

/// A table's check, a feed, or a file added to a month.
pub fn packed_plain(answer: Result<(), Refusal>) -> u64 {
    answer.map_or_else(refused, |()| 0)
}

pub fn packed_release(answer: Result<Release, Refusal>) -> u64 {
    match answer {
        Ok(Release::Yes) => 0,
        Ok(Release::No(entry)) => NO << 56 | entry as u64,
        Err(refusal) => refused(refusal),
    }
}

/// "0 released; 255: bits 0 to 31 the entry, 32 to 47 the links, 48 to 55 the reason"
pub fn packed_why(answer: Result<Why, Refusal>) -> u64 {
    match answer {
        Ok(Why::Released) => 0,
        Ok(Why::Held { entry, reason, chain }) => {
            NO << 56 | (reason as u64) << 48 | accepted(chain.len(), entry)
        }
        Err(refusal) => refused(refusal),
    }
}

/// An archive's answer in words.
pub fn unpacked(answer: u64) -> String {
    match (answer >> 56, answer << 8 >> 8) {
        (0, low) => format!("accepted {} (low half {})", low >> 32, low as u32),
        (NO, low) => match (low >> 48, low >> 32 & 0xffff) {
            (0, 0) => format!("no {low}"),
            (reason, links) => format!("no {}, reason {reason}, links {links}", low as u32),
        },
        (number, place) => format!("refused {number} {place}"),
    }
}
