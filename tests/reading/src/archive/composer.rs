//! The composer's C archive, which is another than the gate's, as far as it was there when this
//! was built (see build.rs). Only its own function is global in it, so both can be linked.

#[cfg(composer)]
extern "C" {
    fn composer_compose(
        nonce_kind: u64,
        nonce_number: u64,
        nonce: *const u8,
        length: usize,
        texts: *const u8,
        texts_length: usize,
        out: *mut u8,
        out_length: usize,
    ) -> u64;
}

/// The function's name, and whether it is there; if not, its call panics.
pub const FUNCTION: &str = "composer_compose";
pub const IS_THERE: bool = cfg!(composer);

#[cfg(composer)]
#[inline]
pub fn compose(kind: u64, number: u64, nonce: &[u8], texts: &[u8], room: &mut [u8]) -> u64 {
    // SAFETY: the pointers and the lengths are those of slices.
    unsafe {
        composer_compose(
            kind,
            number,
            nonce.as_ptr(),
            nonce.len(),
            texts.as_ptr(),
            texts.len(),
            room.as_mut_ptr(),
            room.len(),
        )
    }
}

#[cfg(not(composer))]
pub fn compose(_: u64, _: u64, _: &[u8], _: &[u8], _: &mut [u8]) -> u64 {
    panic!("built without composer_compose")
}
