//! Memory that is lent to the calls, kept from one to the next.

use std::alloc::{Layout, alloc_zeroed};

/// Words and bytes, as many as were ever asked for and could be had.
#[derive(Default)]
pub struct Memory {
    words: Vec<u32>,
    bytes: Vec<u8>,
}

impl Memory {
    /// So many words, or none if they can't be had.
    pub fn words(&mut self, count: usize) -> &mut [u32] {
        grow(&mut self.words, count);
        self.words.get_mut(..count).unwrap_or_default()
    }

    /// So many words and so many bytes, none of those that can't be had.
    pub fn words_and_bytes(&mut self, words: usize, bytes: usize) -> (&mut [u32], &mut [u8]) {
        grow(&mut self.words, words);
        grow(&mut self.bytes, bytes);
        (self.words.get_mut(..words).unwrap_or_default(), self.bytes.get_mut(..bytes).unwrap_or_default())
    }
}

/// Unsigned integers: all zeros are one.
trait Zero: Copy {}
impl Zero for u8 {}
impl Zero for u32 {}

/// Makes it at least so long, if the memory can be had. Large memory comes from the system as zeros, so what is never touched costs nothing.
fn grow<T: Zero>(memory: &mut Vec<T>, count: usize) {
    if memory.len() >= count {
        return;
    }
    *memory = Vec::new();
    let Ok(layout) = Layout::array::<T>(count) else { return };
    // SAFETY: count is more than 0, so the layout has a size.
    let start = unsafe { alloc_zeroed(layout) };
    if !start.is_null() {
        // SAFETY: just allocated by the global allocator for `count` elements, which are zeros and so initialised.
        *memory = unsafe { Vec::from_raw_parts(start.cast(), count, count) };
    }
}

#[cfg(test)]
mod tests {
    use super::*;

    #[test]
    fn grows_and_refuses() {
        let mut memory = Memory::default();
        assert_eq!(memory.words(3), [0; 3]);
        memory.words(3)[1] = 7;
        assert_eq!(memory.words(2), [0, 7]);
        assert_eq!(memory.words(3), [0, 7, 0]);
        assert_eq!(memory.words(usize::MAX), []);
        assert_eq!(memory.words(0), []);
        assert_eq!(memory.words_and_bytes(1, 2), (&mut [0u32; 1][..], &mut [0u8; 2][..]));
    }
}
