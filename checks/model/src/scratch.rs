//! A scratch on the disc: a run of bytes of the next sector arrives inverted.

use crate::chip::Refusal;
use ecma130::SECTOR_BYTES;
use std::ops::Range;

#[derive(Clone, Copy, Debug, PartialEq, Eq)]
pub struct Scratch {
    from: usize,
    count: usize,
}

impl Scratch {
    pub const NONE: Scratch = Scratch { from: 0, count: 0 };

    /// A run may end with the sector and not behind it. One of no bytes is none, wherever it stands.
    pub fn new(from: u16, count: u16) -> Result<Scratch, Refusal> {
        let scratch = Scratch { from: from as usize, count: count as usize };
        match scratch.range() {
            Range { end, .. } if end > SECTOR_BYTES => Err(Refusal::OutOfRange),
            range if range.is_empty() => Ok(Scratch::NONE),
            _ => Ok(scratch),
        }
    }

    pub fn is_none(self) -> bool {
        self == Scratch::NONE
    }

    /// The bytes of the sector that are inverted.
    pub fn range(self) -> Range<usize> {
        self.from..self.from + self.count
    }

    /// The sector, scrambled as it is on the disc, as it arrives.
    pub fn over(self, mut sector: Vec<u8>) -> Vec<u8> {
        sector[self.range()].iter_mut().for_each(|byte| *byte = !*byte);
        sector
    }
}

#[cfg(test)]
mod tests {
    use super::*;

    #[test]
    fn a_run_may_end_with_the_sector() {
        for (from, count) in [(0, 0), (0, 2352), (2351, 1), (2352, 0), (12, 3)] {
            assert!(Scratch::new(from, count).is_ok(), "{from} {count}");
        }
    }

    /// The last sums are above 65,535, and one of them is 2,352 when cut to sixteen bits.
    #[test]
    fn a_run_may_not_end_behind_it() {
        for (from, count) in [(0, 2353), (2352, 1), (2353, 0), (65535, 0), (0, 65535), (65535, 2353), (65535, 65535)] {
            assert_eq!(Scratch::new(from, count), Err(Refusal::OutOfRange), "{from} {count}");
        }
    }

    #[test]
    fn all_bits_of_the_run_and_no_others_are_inverted() {
        let sector: Vec<u8> = (0..SECTOR_BYTES).map(|place| place as u8).collect();
        for (from, count) in [(0, 0), (0, 1), (11, 5), (2351, 1), (0, 2352), (2352, 0)] {
            let scratch = Scratch::new(from, count).unwrap();
            let arrived = scratch.over(sector.clone());
            let inverted = |place: usize| place >= from as usize && place < (from + count) as usize;
            assert!((0..SECTOR_BYTES).all(|place| arrived[place] ^ sector[place] == 255 * inverted(place) as u8));
            assert_eq!(scratch.is_none(), arrived == sector);
        }
    }
}
