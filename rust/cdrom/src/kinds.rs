//! The kinds of sectors: mode 1 (ECMA-130), and the two forms of mode 2 on CD-ROM XA discs.

use crate::refusal::Refusal;
use crate::sectors::{SECTOR_BYTES, USER_BYTES, USER_OFFSET};
use core::ops::Range;

/// Where the user bytes of mode 2 begin, in both forms.
pub const XA_USER_OFFSET: usize = 24;
/// How many user bytes a sector of mode 2, form 1 has.
pub const FORM1_BYTES: usize = 2048;
/// How many user bytes a sector of mode 2, form 2 has.
pub const FORM2_BYTES: usize = 2324;
/// Where the subheader of mode 2 begins; it stands there twice, one behind the other.
pub const SUBHEADER_OFFSET: usize = 16;
/// How many bytes a subheader has.
pub const SUBHEADER_BYTES: usize = 4;
/// [`Subheader::submode`]: the form bit, which is set in form 2. No other bit of a subheader means anything to the
/// library.
pub const SUBMODE_FORM2: u8 = 0x20;

const MODE_OFFSET: usize = 15;
const MODE_2: u8 = 2;

/// What a sector is: mode 1, or mode 2 in one of its forms.
#[derive(Clone, Copy, Debug, PartialEq, Eq, Hash)]
#[repr(u8)]
pub enum Kind {
    /// Mode 1: 2,048 user bytes from byte 16 on, error detection code, and parity.
    Mode1 = 1,
    /// Mode 2, form 1: a subheader, 2,048 user bytes from byte 24 on, error detection code, and parity.
    Form1 = 2,
    /// Mode 2, form 2: a subheader, 2,324 user bytes from byte 24 on, and an error detection code, which may be left
    /// out.
    Form2 = 3,
}

impl Kind {
    /// The number of `include/cdrom.h`.
    pub const fn number(self) -> u16 {
        self as u16
    }

    /// The kind of a number; none but for 1, 2 and 3.
    pub const fn from_number(number: u16) -> Option<Kind> {
        Some(match number {
            1 => Kind::Mode1,
            2 => Kind::Form1,
            3 => Kind::Form2,
            _ => return None,
        })
    }

    /// The kind that [`judge`](crate::judge) and [`parity`](crate::parity) read from an opened sector: by the mode
    /// byte, and in mode 2 by the form bit of the first subheader. A sector whose mode byte is neither 1 nor 2 goes by
    /// the rule of mode 1, and is bad. These two bytes may be damaged as any others: a kind alone says nothing about
    /// the sector, so judge it too.
    ///
    /// Refusals: [`WrongLength`](Refusal::WrongLength).
    pub fn of(sector: &[u8]) -> Result<Kind, Refusal> {
        let subheader = Subheader::of(sector)?;
        Ok(if sector[MODE_OFFSET] == MODE_2 { subheader.kind() } else { Kind::Mode1 })
    }

    /// Where the user bytes are: `sector[kind.user()]`, in a sector that is to be sealed or was opened.
    ///
    /// ```
    /// use cdrom::Kind;
    ///
    /// assert_eq!(Kind::Mode1.user(), 16..2064);
    /// assert_eq!(Kind::Form1.user(), 24..2072);
    /// assert_eq!(Kind::Form2.user(), 24..2348);
    /// ```
    pub const fn user(self) -> Range<usize> {
        match self {
            Kind::Mode1 => USER_OFFSET..USER_OFFSET + USER_BYTES,
            Kind::Form1 => XA_USER_OFFSET..XA_USER_OFFSET + FORM1_BYTES,
            Kind::Form2 => XA_USER_OFFSET..XA_USER_OFFSET + FORM2_BYTES,
        }
    }
}

impl From<Kind> for u16 {
    fn from(kind: Kind) -> u16 {
        kind.number()
    }
}

/// The number is given back where it is no kind's.
impl TryFrom<u16> for Kind {
    type Error = u16;

    fn try_from(number: u16) -> Result<Kind, u16> {
        Kind::from_number(number).ok_or(number)
    }
}

/// The four bytes of mode 2 that stand twice before the user bytes, in their order. Any bytes are a subheader.
#[derive(Clone, Copy, Debug, Default, PartialEq, Eq, Hash)]
pub struct Subheader {
    /// The file that the sector is of.
    pub file: u8,
    /// The channel within the file.
    pub channel: u8,
    /// What the sector holds, by single bits; [`SUBMODE_FORM2`] is the form bit.
    pub submode: u8,
    /// How it is coded.
    pub coding: u8,
}

impl Subheader {
    /// The subheader of four bytes.
    pub const fn from_bytes(bytes: [u8; SUBHEADER_BYTES]) -> Subheader {
        let [file, channel, submode, coding] = bytes;
        Subheader { file, channel, submode, coding }
    }

    /// Its four bytes.
    pub const fn bytes(self) -> [u8; SUBHEADER_BYTES] {
        [self.file, self.channel, self.submode, self.coding]
    }

    /// The form that its form bit says: [`Kind::Form1`] or [`Kind::Form2`].
    pub const fn kind(self) -> Kind {
        if self.submode & SUBMODE_FORM2 == 0 {
            Kind::Form1
        } else {
            Kind::Form2
        }
    }

    /// The first of the two that an opened sector of mode 2 has. In mode 1 the same four bytes are user bytes.
    ///
    /// Refusals: [`WrongLength`](Refusal::WrongLength).
    pub fn of(sector: &[u8]) -> Result<Subheader, Refusal> {
        if sector.len() != SECTOR_BYTES {
            return Err(Refusal::WrongLength);
        }
        let [file, channel, submode, coding] = [0, 1, 2, 3].map(|place| sector[SUBHEADER_OFFSET + place]);
        Ok(Subheader { file, channel, submode, coding })
    }
}

#[cfg(test)]
mod tests {
    use super::*;

    const KINDS: [Kind; 3] = [Kind::Mode1, Kind::Form1, Kind::Form2];

    #[test]
    fn numbers() {
        for (kind, number) in KINDS.into_iter().zip(1..) {
            assert_eq!((kind.number(), u16::from(kind), Kind::try_from(number)), (number, number, Ok(kind)));
        }
        assert!((4..=u16::MAX).chain([0]).all(|number| Kind::try_from(number) == Err(number)));
    }

    #[test]
    fn the_kind_is_read_from_two_bytes() {
        let mut sector = [0xFF; SECTOR_BYTES];
        for (mode, submode) in (0..=255).flat_map(|mode| (0..=255).map(move |submode| (mode, submode))) {
            (sector[15], sector[18]) = (mode, submode);
            let form = if submode & 0x20 == 0 { Kind::Form1 } else { Kind::Form2 };
            assert_eq!(Kind::of(&sector), Ok(if mode == 2 { form } else { Kind::Mode1 }));
        }
    }

    #[test]
    fn the_first_subheader_is_read() {
        let mut sector = [0; SECTOR_BYTES];
        sector[15..24].copy_from_slice(&[2, 1, 2, 3, 4, 5, 6, 0x27, 8]);
        let subheader = Subheader { file: 1, channel: 2, submode: 3, coding: 4 };
        assert_eq!((Subheader::of(&sector), Kind::of(&sector)), (Ok(subheader), Ok(Kind::Form1)));
        assert_eq!(Subheader::from_bytes([1, 2, 3, 4]), subheader);
        assert_eq!(subheader.bytes(), [1, 2, 3, 4]);
        assert_eq!(Subheader::default().bytes(), [0; 4]);
    }

    #[test]
    fn another_length_is_refused() {
        for length in [0, 19, SECTOR_BYTES - 1, SECTOR_BYTES + 1] {
            let bytes = &[0; SECTOR_BYTES + 1][..length];
            assert_eq!(Kind::of(bytes), Err(Refusal::WrongLength));
            assert_eq!(Subheader::of(bytes), Err(Refusal::WrongLength));
        }
    }
}
