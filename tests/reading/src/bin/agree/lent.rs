//! Memory that is lent to the archive.

/// A copy of some bytes or words to be lent, between others that show writes outside.
#[derive(Clone)]
pub struct Lent<T> {
    block: Vec<T>,
    first: usize,
    after: usize,
}

const BEFORE: u8 = 0xa5;
const BEHIND: u8 = 0x5a;

impl<T: Copy + PartialEq + From<u8>> Lent<T> {
    const GUARD: usize = 64;

    /// The copy starts `shift` places further on than the last guard would have it,
    /// for other alignments.
    pub fn new(content: &[T], shift: usize) -> Lent<T> {
        let first = Self::GUARD + shift;
        let after = first + content.len();
        let mut block = vec![T::from(BEFORE); first];
        block.extend(content);
        block.resize(after + Self::GUARD, T::from(BEHIND));
        Lent { block, first, after }
    }

    pub fn content(&self) -> &[T] {
        &self.block[self.first..self.after]
    }

    pub fn content_mut(&mut self) -> &mut [T] {
        &mut self.block[self.first..self.after]
    }

    /// With what stands around the copy.
    pub fn block(&self) -> &[T] {
        &self.block
    }

    pub fn is(&self, content: &[T]) -> bool {
        self.content() == content && self.is_whole()
    }

    /// Whether nothing was written around the copy.
    pub fn is_whole(&self) -> bool {
        self.block[..self.first].iter().all(|guard| *guard == T::from(BEFORE))
            && self.block[self.after..].iter().all(|guard| *guard == T::from(BEHIND))
    }
}
