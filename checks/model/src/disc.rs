//! The disc: what the next sector lines carry. No call to the chip touches it, not even its reset.

use crate::chip::Refusal;
use crate::scratch::Scratch;
use ecma130::{seal_xa, Address, Kind, SECTOR_BYTES, SUBHEADER_BYTES};

#[derive(Clone, Copy, Debug, PartialEq, Eq)]
pub struct Disc {
    /// Kind and subheader stay until they are changed.
    pub kind: Kind,
    pub subheader: [u8; SUBHEADER_BYTES],
    /// What the next sector will have suffered. It goes with that sector.
    pub scratch: Scratch,
}

impl Disc {
    pub const NEW: Disc = Disc { kind: Kind::Mode1, subheader: [0; SUBHEADER_BYTES], scratch: Scratch::NONE };

    pub fn set_kind(&mut self, number: u16) -> Result<(), Refusal> {
        self.kind = Kind::of_number(number).ok_or(Refusal::OutOfRange)?;
        Ok(())
    }

    /// File number, channel number, submode and coding information. All are tested before one is taken over.
    pub fn set_subheader(&mut self, parts: [u16; SUBHEADER_BYTES]) -> Result<(), Refusal> {
        if parts.iter().any(|&part| part > 255) {
            return Err(Refusal::OutOfRange);
        }
        self.subheader = parts.map(|part| part as u8);
        Ok(())
    }

    pub fn set_scratch(&mut self, from: u16, count: u16) -> Result<(), Refusal> {
        self.scratch = Scratch::new(from, count)?;
        Ok(())
    }

    /// Whether a sector line can be answered by anything but 3, as far as the disc is asked.
    pub fn agrees(&self) -> bool {
        self.kind.agrees_with(self.subheader)
    }

    /// A sector with every user byte of its kind equal to `fill`, as it was made.
    pub fn sealed(&self, address: Address, fill: u16) -> Result<Vec<u8>, Refusal> {
        let fill = u8::try_from(fill).map_err(|_| Refusal::OutOfRange)?;
        let mut sector = vec![0; SECTOR_BYTES];
        sector[self.kind.user()].fill(fill);
        seal_xa(&mut sector, address, self.kind as u16, self.subheader).map_err(|_| Refusal::OutOfRange)?;
        Ok(sector)
    }

    /// The same as it arrives.
    pub fn arriving(&self, address: Address, fill: u16) -> Result<Vec<u8>, Refusal> {
        Ok(self.scratch.over(self.sealed(address, fill)?))
    }

    /// A sector was stored.
    pub fn has_arrived(&mut self) {
        self.scratch = Scratch::NONE;
    }
}

/// A sector of mode 1 as it was made.
pub fn sealed(address: Address, fill: u16) -> Result<Vec<u8>, Refusal> {
    Disc::NEW.sealed(address, fill)
}
