//! The three kinds of sectors: mode 1, and forms 1 and 2 of mode 2 by the XA rules. Where each has its parts.

use crate::sector::{HEADER_START, MODE_PLACE, SECTOR_BYTES};
use std::ops::Range;

pub const SUBHEADER_BYTES: usize = 4;
/// The subheader's two copies.
pub const FIRST_COPY: Range<usize> = 16..20;
pub const SECOND_COPY: Range<usize> = 20..24;
/// Of the submode, the third byte of the subheader: high in form 2.
pub const FORM_BIT: u8 = 0x20;

pub(crate) const SUBMODE: usize = 2;
pub(crate) const CODE_BYTES: usize = 4;

#[derive(Clone, Copy, Debug, PartialEq, Eq, PartialOrd, Ord)]
pub enum Kind {
    Mode1 = 1,
    Form1 = 2,
    Form2 = 3,
}

impl Kind {
    pub const ALL: [Kind; 3] = [Kind::Mode1, Kind::Form1, Kind::Form2];

    /// The kind that a number names at sealing.
    pub fn of_number(number: u16) -> Option<Kind> {
        Kind::ALL.into_iter().find(|&kind| kind as u16 == number)
    }

    /// The rule by which a descrambled sector of the right length is read. A mode byte that is neither 1 nor 2 has the
    /// mode 1 rule, and of the two copies the first one tells the form, also where they differ.
    pub fn of_sector(sector: &[u8]) -> Kind {
        match (sector[MODE_PLACE], sector[FIRST_COPY.start + SUBMODE] & FORM_BIT) {
            (2, 0) => Kind::Form1,
            (2, _) => Kind::Form2,
            _ => Kind::Mode1,
        }
    }

    pub fn mode_byte(self) -> u8 {
        if self.has_subheader() {
            2
        } else {
            1
        }
    }

    pub fn has_subheader(self) -> bool {
        self != Kind::Mode1
    }

    /// Whether a sector of this kind may have this subheader.
    pub fn agrees_with(self, subheader: [u8; SUBHEADER_BYTES]) -> bool {
        let form_bit = subheader[SUBMODE] & FORM_BIT != 0;
        match self {
            Kind::Mode1 => true,
            Kind::Form1 => !form_bit,
            Kind::Form2 => form_bit,
        }
    }

    /// The bytes that sealing takes from the buffer.
    pub fn user(self) -> Range<usize> {
        match self {
            Kind::Mode1 => 16..2064,
            Kind::Form1 => 24..2072,
            Kind::Form2 => 24..2348,
        }
    }

    /// The bytes that the code is taken over. In mode 2 it leaves out sync, address and mode.
    pub fn covered(self) -> Range<usize> {
        let start = if self.has_subheader() { FIRST_COPY.start } else { 0 };
        start..self.user().end
    }

    /// Where the code stands: behind the user bytes.
    pub fn code(self) -> Range<usize> {
        self.user().end..self.user().end + CODE_BYTES
    }

    pub fn has_parity(self) -> bool {
        self != Kind::Form2
    }

    /// The bytes that count as zero in the words.
    pub(crate) fn taken_as_zero(self) -> Range<usize> {
        match self {
            Kind::Form1 => HEADER_START..FIRST_COPY.start,
            _ => SECTOR_BYTES..SECTOR_BYTES,
        }
    }
}

#[cfg(test)]
mod tests {
    use super::*;

    #[test]
    fn numbers_that_name_a_kind() {
        let named: Vec<u16> = (0..=65535).filter(|&number| Kind::of_number(number).is_some()).collect();
        assert_eq!(named, [1, 2, 3]);
        assert!(Kind::ALL.into_iter().all(|kind| Kind::of_number(kind as u16) == Some(kind)));
    }

    #[test]
    fn parts_stand_where_paper_02_has_them() {
        assert_eq!([Kind::Mode1, Kind::Form1, Kind::Form2].map(|kind| kind.user().len()), [2048, 2048, 2324]);
        assert_eq!(Kind::ALL.map(Kind::covered), [0..2064, 16..2072, 16..2348]);
        assert_eq!(Kind::ALL.map(Kind::code), [2064..2068, 2072..2076, 2348..2352]);
        assert_eq!(Kind::Form1.taken_as_zero(), 12..16);
    }

    #[test]
    fn any_submode_has_one_form() {
        for submode in 0..=255 {
            let subheader = [255, 255, submode, 255];
            let forms = [Kind::Form1, Kind::Form2].map(|kind| kind.agrees_with(subheader));
            assert_eq!(forms, [submode & 32 == 0, submode & 32 == 32]);
            assert!(Kind::Mode1.agrees_with(subheader));
        }
    }

    #[test]
    fn the_rule_is_told_by_the_mode_byte_and_the_first_copy() {
        let mut sector = vec![0xFF; SECTOR_BYTES];
        for (mode, submode) in (0..=255).flat_map(|mode| [0x00, 0xDF, 0x20, 0xFF].map(|submode| (mode, submode))) {
            (sector[15], sector[18]) = (mode, submode);
            let rule = if mode != 2 { 1 } else { 2 + (submode >> 5 & 1) as u16 };
            for second in [0x00, 0x20] {
                sector[22] = second;
                assert_eq!(Kind::of_sector(&sector) as u16, rule);
            }
        }
    }
}
