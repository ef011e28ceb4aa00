//! The chip over its ring.

use crate::raw::{self, CHIP_WORDS};
use crate::refusal::{done, result_of, Refusal};
use crate::sectors::{Address, Facts, Verdict};
use core::fmt;

/// The bytes of a ring's block.
pub const BLOCK_BYTES: usize = 2560;
/// The fewest blocks of a ring.
pub const LEAST_BLOCKS: u16 = 3;
/// The most blocks of a ring.
pub const MOST_BLOCKS: u16 = 255;

/// A chip's record as it can be kept: its words are the library's to read and write.
pub type Record = [u16; CHIP_WORDS];

/// A chip and the memory of its ring.
///
/// The chip borrows the memory for as long as it lives, so that no call can be lent another and nobody else writes
/// it meanwhile. What a method says of its refusals is in their order; [`Refusal::WrongLength`] stands first in all of
/// them, and a chip from [`Chip::open`] never gives it but for a sector of another length. After every accepted call
/// but [`look`](Chip::look) the chip may start a transfer by itself (ATTEN, TCC and TTC set); a result is taken before.
pub struct Chip<'ring> {
    record: Record,
    ring: &'ring mut [u8],
}

/// Opening and keeping.
impl<'ring> Chip<'ring> {
    /// A chip of so many blocks, all as opened. What lies in the memory does not matter, and is not changed.
    ///
    /// Refusals: [`WrongLength`](Refusal::WrongLength) for blocks that are not 3 to 255, and for memory that is not
    /// as many times [`BLOCK_BYTES`].
    pub fn open(blocks: u16, ring: &'ring mut [u8]) -> Result<Chip<'ring>, Refusal> {
        let mut record = [0; CHIP_WORDS];
        // SAFETY: the record is ours.
        done(unsafe { raw::cdrom_chip_open(&mut record, blocks) })?;
        if ring.len() != usize::from(blocks) * BLOCK_BYTES {
            return Err(Refusal::WrongLength);
        }
        Ok(Chip { record, ring })
    }

    /// A chip that was kept by [`record`](Chip::record), to go on over the same memory.
    ///
    /// The memory must hold what it held when the record was kept: a record over other bytes serves blocks that were
    /// never read. Where it may be lost, [`open`](Chip::open) anew; and also where the record was kept under
    /// [`VERSION`](crate::VERSION) 1, since its words meant something else. A record that was damaged meanwhile may be
    /// unsound: every call then answers [`WrongLength`](Refusal::WrongLength), and a look is empty. Memory of another
    /// length is refused by the calls that touch it.
    pub fn from_record(record: Record, ring: &'ring mut [u8]) -> Chip<'ring> {
        Chip { record, ring }
    }

    /// The record, to be kept with the ring's bytes.
    pub fn record(&self) -> Record {
        self.record
    }

    /// The ring's memory.
    pub fn ring(&self) -> &[u8] {
        self.ring
    }

    /// The blocks that the memory has.
    pub fn blocks(&self) -> usize {
        self.ring.len() / BLOCK_BYTES
    }
}

/// The firmware's calls.
impl Chip<'_> {
    /// Writes a register; [`registers`](crate::registers) has their numbers and bits.
    ///
    /// Refusals: [`NoRegister`](Refusal::NoRegister), [`OutOfRange`](Refusal::OutOfRange); then
    /// [`Barred`](Refusal::Barred), [`Switches`](Refusal::Switches) and [`TooFew`](Refusal::TooFew) by the register.
    pub fn write(&mut self, register: u16, value: u16) -> Result<(), Refusal> {
        // SAFETY: the record is ours, and any words in it are some record.
        done(unsafe { raw::cdrom_chip_write(&mut self.record, register, value) })
    }

    /// Reads a register. It clears nothing, and is never barred.
    ///
    /// Refusals: [`NoRegister`](Refusal::NoRegister).
    pub fn read(&mut self, register: u16) -> Result<u16, Refusal> {
        // SAFETY: as in `write`.
        number_of(unsafe { raw::cdrom_chip_read(&mut self.record, register) })
    }

    /// Sets T, and B to the same block.
    ///
    /// Refusals: [`OutOfRange`](Refusal::OutOfRange), [`Barred`](Refusal::Barred) in a transfer,
    /// [`Switches`](Refusal::Switches) with DECEN high or good blocks waiting.
    pub fn set_block(&mut self, block: u16) -> Result<(), Refusal> {
        // SAFETY: as in `write`.
        done(unsafe { raw::cdrom_chip_set_block(&mut self.record, block) })
    }

    /// Sets the part of each block that the host is given: 1 to 1,176 words, their end not above 2,352.
    ///
    /// Refusals: [`OutOfRange`](Refusal::OutOfRange), [`Barred`](Refusal::Barred) in a transfer.
    pub fn set_window(&mut self, offset: u16, words: u16) -> Result<(), Refusal> {
        // SAFETY: as in `write`.
        done(unsafe { raw::cdrom_chip_set_window(&mut self.record, offset, words) })
    }

    /// Sets the address that is expected next.
    ///
    /// Refusals: [`OutOfRange`](Refusal::OutOfRange), [`Switches`](Refusal::Switches) with DECEN high.
    pub fn set_expected(&mut self, address: Address) -> Result<(), Refusal> {
        let Address { minute, second, frame } = address;
        // SAFETY: as in `write`.
        done(unsafe { raw::cdrom_chip_set_expected(&mut self.record, minute, second, frame) })
    }

    /// A byte of the full packet, 0 to 11.
    ///
    /// Refusals: [`OutOfRange`](Refusal::OutOfRange), [`TooFew`](Refusal::TooFew) where FPKT is 0.
    pub fn packet_byte(&mut self, index: u16) -> Result<u8, Refusal> {
        // SAFETY: as in `write`.
        number_of(unsafe { raw::cdrom_chip_packet_byte(&mut self.record, index) })
    }

    /// All as opened; the ring keeps its number of blocks.
    pub fn reset(&mut self) -> Result<(), Refusal> {
        // SAFETY: as in `write`.
        done(unsafe { raw::cdrom_chip_reset(&mut self.record) })
    }

    /// The window of the oldest good block, also of one half read; empty where there is no good block, no window, or
    /// the record or the memory's length is not sound.
    pub fn look(&self) -> &[u8] {
        let mut offset = 0;
        // SAFETY: record and memory are ours and only read; `offset` is a place of its own.
        let length = unsafe { raw::cdrom_chip_look(&self.record, self.ring.as_ptr(), self.ring.len(), &mut offset) };
        &self.ring[offset..][..length]
    }
}

/// The disc's call, and what it found.
impl Chip<'_> {
    /// A sector of any kind as it comes from the disc: descrambled into block B, judged against the expected address,
    /// and counted where it is good. After a bad one the chip is held until DECEN is taken low; [`why`](Chip::why)
    /// says what failed. The chip does not keep the kind, and the window is the same for all kinds:
    /// [`Kind::of`](crate::Kind::of) the block's first [`SECTOR_BYTES`](crate::SECTOR_BYTES) tells it.
    ///
    /// Refusals: [`WrongLength`](Refusal::WrongLength) also for the sector, [`DecodingOff`](Refusal::DecodingOff),
    /// [`Held`](Refusal::Held), [`NoRoom`](Refusal::NoRoom).
    pub fn sector(&mut self, sector: &[u8]) -> Result<Verdict, Refusal> {
        // SAFETY: record and memory are ours, the sector is lent for the call, and a slice that is lent beside a
        // borrow to be changed does not overlap it.
        let answer = unsafe {
            raw::cdrom_chip_sector(
                &mut self.record,
                self.ring.as_mut_ptr(),
                self.ring.len(),
                sector.as_ptr(),
                sector.len(),
            )
        };
        result_of(answer).map(Verdict::of_result)
    }

    /// What failed of the last sector that was stored; nothing from opening or [`reset`](Chip::reset) to the first.
    /// Refused sectors, DECEN low, [`srst`](Chip::srst) and reads keep it.
    pub fn why(&self) -> Facts {
        // SAFETY: the record is ours and only read.
        Facts::of_result(unsafe { raw::cdrom_chip_why(&self.record) })
    }
}

/// The host's calls.
impl Chip<'_> {
    /// The host reads a word, its first byte low.
    ///
    /// Refusals: [`Switches`](Refusal::Switches) where no transfer runs.
    pub fn word(&mut self) -> Result<u16, Refusal> {
        // SAFETY: record and memory are ours; the memory is only read.
        number_of(unsafe { raw::cdrom_chip_word(&mut self.record, self.ring.as_ptr(), self.ring.len()) })
    }

    /// So many words one after the other, until one would be refused; gives how many stand at the front of `words`.
    /// The words behind them stay. With no words asked for it is never refused.
    ///
    /// Refusals: those of the first word.
    pub fn words(&mut self, words: &mut [u16]) -> Result<usize, Refusal> {
        let mut handed = 0;
        // SAFETY: as in `word`; `words` is lent for the call and overlaps nothing of ours, and `handed` is a place of
        // its own.
        let answer = unsafe {
            raw::cdrom_chip_words(
                &mut self.record,
                self.ring.as_ptr(),
                self.ring.len(),
                words.as_mut_ptr(),
                words.len(),
                &mut handed,
            )
        };
        done(answer).map(|()| handed)
    }

    /// The host writes a command. [`PACKET_COMMAND`](crate::registers::PACKET_COMMAND) with APKTEN begins a packet,
    /// any other sets BSY.
    ///
    /// Refusals: [`OutOfRange`](Refusal::OutOfRange) above 255; [`Barred`](Refusal::Barred) by BSY, a transfer or a
    /// reception.
    pub fn command(&mut self, code: u16) -> Result<(), Refusal> {
        // SAFETY: as in `write`.
        done(unsafe { raw::cdrom_chip_command(&mut self.record, code) })
    }

    /// The host writes a word of a packet, its first byte low; the sixth makes the packet full.
    ///
    /// Refusals: [`Switches`](Refusal::Switches) where no packet is being received.
    pub fn packet_word(&mut self, word: u16) -> Result<(), Refusal> {
        // SAFETY: as in `write`.
        done(unsafe { raw::cdrom_chip_packet_word(&mut self.record, word) })
    }

    /// The host reads the status, and the interrupt line falls.
    pub fn status(&mut self) -> Result<u16, Refusal> {
        // SAFETY: as in `write`.
        number_of(unsafe { raw::cdrom_chip_status(&mut self.record) })
    }

    /// The interrupt line to the host.
    pub fn irq(&self) -> bool {
        // SAFETY: the record is ours and only read.
        unsafe { raw::cdrom_chip_irq(&self.record) != 0 }
    }

    /// The host's abort: ends a transfer or a reception. The good blocks stay, a half-read one among them.
    pub fn srst(&mut self) -> Result<(), Refusal> {
        // SAFETY: as in `write`.
        done(unsafe { raw::cdrom_chip_srst(&mut self.record) })
    }
}

/// The ring's bytes are left out: there may be 652,800.
impl fmt::Debug for Chip<'_> {
    fn fmt(&self, f: &mut fmt::Formatter<'_>) -> fmt::Result {
        f.debug_struct("Chip").field("record", &self.record).field("blocks", &self.blocks()).finish_non_exhaustive()
    }
}

/// The answer of a call whose result is a byte or a word.
fn number_of<N: TryFrom<u32>>(answer: u32) -> Result<N, Refusal> {
    let narrowed = |result| N::try_from(result).ok().expect("a result of cdrom.h fits its call");
    result_of(answer).map(narrowed)
}

#[cfg(test)]
mod tests {
    use super::*;

    #[test]
    fn results_are_bytes_and_words() {
        assert_eq!(number_of::<u16>(0xFF_FF00), Ok(0xFFFF));
        assert_eq!(number_of::<u8>(0xFF00), Ok(0xFF));
        assert_eq!(number_of::<u8>(6), Err(Refusal::TooFew));
    }

    #[test]
    #[should_panic(expected = "fits its call")]
    fn a_byte_that_is_too_large_is_a_fault() {
        let _ = number_of::<u8>(0x1_0000);
    }

    #[test]
    fn a_chip_can_be_given_to_another_thread() {
        fn sendable<T: Send + Sync>() {}
        sendable::<Chip>();
    }
}
