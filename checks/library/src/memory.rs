//! The ring's memory twice, once for the library and once for the model,
//! begun with the same stale bytes. It is longer than any ring, so that a wrong length can be
//! lent and a write behind the ring is seen.

use model::{Random, BLOCK_BYTES};
use std::ops::Range;

/// The longest ring, and beyond it what a length that is too long by 65,536 bytes takes.
const MEMORY_BYTES: usize = (255 + 27) * BLOCK_BYTES;
/// Rings to here are compared in full each time.
const SMALL_RING: usize = 26;
/// So many random bytes are repeated: a prime, so that no two blocks of a ring are alike, and
/// at the end there is room for any start.
const STALE_BYTES: usize = 9973;
const _: () = assert!((MEMORY_BYTES / STALE_BYTES + 1) * STALE_BYTES >= MOST_START + MEMORY_BYTES);
/// The ring need not be aligned.
const MOST_START: usize = 15;
/// All of the memory is compared after so many calls that are lent a ring.
const BETWEEN_WHOLE: u64 = 24;

pub struct Memory {
    found: Vec<u8>,
    expected: Vec<u8>,
    /// Where the ring begins.
    start: usize,
    lendings: u64,
}

impl Memory {
    pub fn stale(random: &mut Random) -> Memory {
        let start = random.below(MOST_START as u64 + 1) as usize;
        let found = random.bytes(STALE_BYTES).repeat(MEMORY_BYTES / STALE_BYTES + 1);
        Memory { expected: found.clone(), found, start, lendings: 0 }
    }

    /// The longest memory that can be lent.
    pub fn longest() -> usize {
        MEMORY_BYTES
    }

    /// So many bytes for the library.
    pub fn for_library(&mut self, lent: usize) -> &mut [u8] {
        &mut self.found[self.start..][..lent]
    }

    /// The same bytes for the model.
    pub fn for_model(&mut self, lent: usize) -> &mut [u8] {
        &mut self.expected[self.start..][..lent]
    }

    /// The first byte that differs after a call that was lent a ring of so
    /// many blocks and may have written this one. Of a large ring the blocks about that
    /// one are compared, and everything once in a while.
    pub fn difference(&mut self, blocks: usize, written: usize) -> Option<usize> {
        self.lendings += 1;
        if self.lendings.is_multiple_of(BETWEEN_WHOLE) {
            return self.whole_difference();
        }
        if blocks <= SMALL_RING {
            return self.difference_in(0..self.start + (blocks + 1) * BLOCK_BYTES);
        }
        let near = self.start + written.min(blocks) * BLOCK_BYTES;
        self.difference_in(near.saturating_sub(BLOCK_BYTES)..near + 2 * BLOCK_BYTES)
    }

    pub fn whole_difference(&self) -> Option<usize> {
        self.difference_in(0..self.found.len())
    }

    fn difference_in(&self, range: Range<usize>) -> Option<usize> {
        let (found, expected) = (&self.found[range.clone()], &self.expected[range.clone()]);
        if found == expected {
            return None;
        }
        let place = found.iter().zip(expected).position(|(one, other)| one != other)?;
        Some(range.start + place)
    }

    /// A byte as model and library have it, and its place told by ring and block.
    pub fn describe(&self, place: usize) -> (String, u8, u8) {
        let name = match place.checked_sub(self.start) {
            Some(offset) => format!("byte {} of block {}", offset % BLOCK_BYTES, offset / BLOCK_BYTES),
            None => "a byte before the ring".to_string(),
        };
        (name, self.expected[place], self.found[place])
    }
}
