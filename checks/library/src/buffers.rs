//! What a call is lent beside the ring: a sector and room for a burst's words, once for each side.

use crate::call::Call;
use crate::difference::{same_rows, Part};
use crate::library::Lent;
use ecma130::open;
use model::Random;

/// Words behind a burst's buffer that no call may touch.
const WORDS_BEHIND: usize = 4;

struct Side {
    sector: Vec<u8>,
    words: Vec<u16>,
}

pub struct Buffers {
    model: Side,
    library: Side,
    /// Where the sector begins: it need not be aligned.
    sector_start: usize,
    count: usize,
}

impl Buffers {
    /// The sector that the call describes, and stale words.
    pub fn stale(call: &Call, random: &mut Random) -> Buffers {
        let sector_start = random.below(16) as usize;
        let mut sector = vec![0; sector_start];
        if let Call::Sector { sector: described, .. } = call {
            sector.extend(described.make(random));
        }
        let count = if let Call::Words { count, .. } = *call { count } else { 0 };
        let words: Vec<u16> = (0..count + WORDS_BEHIND).map(|_| random.between(0, 65535)).collect();
        let library = Side { sector: sector.clone(), words: words.clone() };
        Buffers { model: Side { sector, words }, library, sector_start, count }
    }

    pub fn for_model<'a>(&'a mut self, ring: &'a mut [u8]) -> Lent<'a> {
        self.model.lent(ring, self.sector_start, self.count)
    }

    pub fn for_library<'a>(&'a mut self, ring: &'a mut [u8]) -> Lent<'a> {
        self.library.lent(ring, self.sector_start, self.count)
    }

    /// The sector as it is judged. One of a wrong length stays as it is.
    pub fn opened_sector(&self) -> Vec<u8> {
        let mut sector = self.model.sector[self.sector_start..].to_vec();
        let _ = open(&mut sector);
        sector
    }

    /// The model changes no sector, and of the words only those that it hands over.
    pub fn compare(&self) -> Result<(), Part> {
        same_rows("the burst's buffer, word", &self.model.words, &self.library.words)?;
        let start = self.sector_start;
        same_rows("the lent sector, byte", &self.model.sector[start..], &self.library.sector[start..])
    }
}

impl Side {
    fn lent<'a>(&'a mut self, ring: &'a mut [u8], sector_start: usize, count: usize) -> Lent<'a> {
        Lent { ring, sector: &mut self.sector[sector_start..], words: &mut self.words[..count] }
    }
}
