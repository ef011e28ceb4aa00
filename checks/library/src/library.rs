//! The library behind a trait, so that a faulty one can be put in its place.

use crate::call::{Answer, Call};
use crate::record::Record;
use cdrom::raw;
use ecma130::Address;

/// The memory that a call is lent. What a call may only read is lent to be
/// changed too: a faulty library that is simulated may do so.
pub struct Lent<'a> {
    pub ring: &'a mut [u8],
    pub sector: &'a mut [u8],
    pub words: &'a mut [u16],
}

pub trait Library {
    fn call(&mut self, record: &mut Record, call: &Call, lent: Lent) -> Answer;

    /// The interrupt line, which has no reply number.
    fn irq(&mut self, record: &mut Record) -> u32;

    /// The facts of the last stored sector as one number; it has no reply number either.
    fn why(&mut self, record: &mut Record) -> u32;

    /// Judges an opened sector, of any length.
    fn judge(&mut self, sector: &mut [u8], expected: Address) -> Answer;

    /// Makes a sector of bytes of any length.
    fn seal(&mut self, sector: &mut [u8], address: Address) -> Answer;

    /// The same of the kind that a number names. The subheader is lent to be changed as the rest is.
    fn seal_xa(&mut self, sector: &mut [u8], address: Address, kind: u16, subheader: &mut [u8; 4]) -> Answer;

    /// Checks the parity of an opened sector, of any length.
    fn parity(&mut self, sector: &mut [u8]) -> Answer;

    /// The address after an address, of any parts.
    fn next_address(&mut self, address: Address) -> Answer;
}

/// The archive that is linked.
pub struct Linked;

/// What stands in the places of further results before a call: it must be overwritten.
const STALE: usize = 0xA5A5_A5A5;

impl Library for Linked {
    fn call(&mut self, record: &mut Record, call: &Call, lent: Lent) -> Answer {
        match *call {
            Call::Look { .. } => look(record, &lent),
            Call::Words { .. } => burst(record, lent),
            _ => reply(if call.lent().is_some() { on_ring(record, call, lent) } else { alone(record, call) }),
        }
    }

    fn irq(&mut self, record: &mut Record) -> u32 {
        // SAFETY: the record is lent for the call, which only reads it.
        unsafe { raw::cdrom_chip_irq(record) }
    }

    fn why(&mut self, record: &mut Record) -> u32 {
        // SAFETY: as in `irq`.
        unsafe { raw::cdrom_chip_why(record) }
    }

    fn judge(&mut self, sector: &mut [u8], expected: Address) -> Answer {
        let Address { minute, second, frame } = expected;
        // SAFETY: pointer and length are those of a slice that is lent for the call, which only reads it.
        reply(unsafe { raw::cdrom_judge(sector.as_ptr(), sector.len(), minute, second, frame) })
    }

    fn seal(&mut self, sector: &mut [u8], address: Address) -> Answer {
        let Address { minute, second, frame } = address;
        // SAFETY: pointer and length are those of a slice that is lent for the call.
        reply(unsafe { raw::cdrom_seal(sector.as_mut_ptr(), sector.len(), minute, second, frame) })
    }

    fn seal_xa(&mut self, sector: &mut [u8], address: Address, kind: u16, subheader: &mut [u8; 4]) -> Answer {
        let Address { minute, second, frame } = address;
        let (bytes, length) = (sector.as_mut_ptr(), sector.len());
        // SAFETY: pointer and length are those of a slice that is lent for the call, which only reads the subheader.
        reply(unsafe { raw::cdrom_seal_xa(bytes, length, minute, second, frame, kind, subheader) })
    }

    fn parity(&mut self, sector: &mut [u8]) -> Answer {
        // SAFETY: as in `judge`.
        reply(unsafe { raw::cdrom_parity(sector.as_ptr(), sector.len()) })
    }

    fn next_address(&mut self, address: Address) -> Answer {
        let Address { minute, second, frame } = address;
        // SAFETY: the call is lent nothing.
        reply(unsafe { raw::cdrom_next_address(minute, second, frame) })
    }
}

fn reply(answer: u32) -> Answer {
    Answer::Reply { number: answer & 0xFF, result: answer >> 8 }
}

/// Calls that are lent no memory.
fn alone(record: &mut Record, call: &Call) -> u32 {
    // SAFETY: the record is lent for the call and nothing else is.
    unsafe {
        match *call {
            Call::Open { blocks } => raw::cdrom_chip_open(record, blocks),
            Call::Write { reg, value } => raw::cdrom_chip_write(record, reg, value),
            Call::Read { reg } => raw::cdrom_chip_read(record, reg),
            Call::SetBlock { block } => raw::cdrom_chip_set_block(record, block),
            Call::SetWindow { offset, words } => raw::cdrom_chip_set_window(record, offset, words),
            Call::SetExpected { address: a } => raw::cdrom_chip_set_expected(record, a.minute, a.second, a.frame),
            Call::PacketByte { index } => raw::cdrom_chip_packet_byte(record, index),
            Call::Reset => raw::cdrom_chip_reset(record),
            Call::Command { code } => raw::cdrom_chip_command(record, code),
            Call::PacketWord { word } => raw::cdrom_chip_packet_word(record, word),
            Call::Status => raw::cdrom_chip_status(record),
            Call::Srst => raw::cdrom_chip_srst(record),
            Call::Sector { .. } | Call::Look { .. } | Call::Word { .. } | Call::Words { .. } => {
                unreachable!("these are lent a ring")
            }
        }
    }
}

/// Calls that are lent the ring and answer by a number and a result.
fn on_ring(record: &mut Record, call: &Call, lent: Lent) -> u32 {
    let Lent { ring, sector, .. } = lent;
    // SAFETY: pointers and lengths are those of slices that are lent for the call and do not overlap.
    unsafe {
        if let Call::Word { .. } = call {
            return raw::cdrom_chip_word(record, ring.as_ptr(), ring.len());
        }
        raw::cdrom_chip_sector(record, ring.as_mut_ptr(), ring.len(), sector.as_ptr(), sector.len())
    }
}

fn look(record: &Record, lent: &Lent) -> Answer {
    let mut offset = STALE;
    // SAFETY: as in `on_ring`; the call reads record and ring.
    let length = unsafe { raw::cdrom_chip_look(record, lent.ring.as_ptr(), lent.ring.len(), &mut offset) };
    Answer::Part { offset, length }
}

fn burst(record: &mut Record, lent: Lent) -> Answer {
    let Lent { ring, words, .. } = lent;
    let mut handed = STALE;
    // SAFETY: as in `on_ring`.
    let answer = unsafe {
        raw::cdrom_chip_words(record, ring.as_ptr(), ring.len(), words.as_mut_ptr(), words.len(), &mut handed)
    };
    Answer::Burst { number: answer & 0xFF, result: answer >> 8, handed }
}
