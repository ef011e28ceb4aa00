//! A CD-ROM drive's buffer, called from Rust: the W88113C with its ring of blocks, sectors of mode 1 (ECMA-130) and of
//! mode 2 in both forms (CD-ROM XA), and the bench over a text of calls. The calls are those of the proved library
//! `libcdrom.a` (`include/cdrom.h`); this crate declares them ([`raw`]) and wraps them, without `std`, without
//! allocation and without dependencies.
//!
//! [`Chip`] owns its record and borrows its ring's memory. A refused call gives a [`Refusal`] and has changed nothing.
//!
//! ```
//! use cdrom::registers::*;
//! use cdrom::{seal, Address, Chip, Refusal, BLOCK_BYTES, SECTOR_BYTES, USER_BYTES, USER_OFFSET};
//!
//! # fn main() -> Result<(), Refusal> {
//! // A ring of three blocks, and the switches that decoding and transfers need.
//! let mut memory = [0; 3 * BLOCK_BYTES];
//! let mut chip = Chip::open(3, &mut memory)?;
//! chip.write(BICCTL, BLIMEN)?;
//! chip.write(ACCTL, ACMEN | TCINCEN)?;
//! chip.write(ASCTRL, ADCEN)?;
//! chip.set_window(USER_OFFSET as u16, USER_BYTES as u16 / 2)?;
//! let first = Address { minute: 0, second: 2, frame: 0 };
//! chip.set_expected(first)?;
//! chip.write(CTRL0, DECEN)?;
//!
//! // A sector from the disc; here it is made by hand. It is good, and counts.
//! let mut sector = [b'A'; SECTOR_BYTES];
//! seal(&mut sector, first)?;
//! assert!(chip.sector(&sector)?.is_good());
//! assert_eq!(chip.read(TCC), Ok(1));
//!
//! // The same sector once more is read well, but another one is due. It does not count, and is given up with DECEN low.
//! assert!(!chip.sector(&sector)?.is_good());
//! assert_eq!(chip.why().to_string(), "address");
//! chip.write(CTRL0, 0)?;
//!
//! // The host's command sets BSY, the firmware starts the transfer of one block, and the host is told.
//! chip.command(0x28)?;
//! chip.write(ASTRG, ADTT)?;
//! assert!(chip.irq());
//!
//! // The host reads the block: one word, and the rest. With the last word the block is taken.
//! assert_eq!(chip.word(), Ok(0x4141));
//! let mut words = [0; 2000];
//! assert_eq!(chip.words(&mut words), Ok(1023));
//! assert_eq!(chip.read(TCC), Ok(0));
//! assert_eq!(chip.word(), Err(Refusal::Switches));
//! # Ok(())
//! # }
//! ```
//!
//! While the chip lives, the memory is the chip's. This is refused by the compiler:
//!
//! ```compile_fail
//! let mut memory = [0; 3 * cdrom::BLOCK_BYTES];
//! let mut chip = cdrom::Chip::open(3, &mut memory).unwrap();
//! memory[0] = 1;
//! chip.reset().unwrap();
//! ```
//!
//! And this is not, since the chip is not used any more when the memory is:
//!
//! ```
//! let mut memory = [0; 3 * cdrom::BLOCK_BYTES];
//! let mut chip = cdrom::Chip::open(3, &mut memory).unwrap();
//! chip.reset().unwrap();
//! memory[0] = 1;
//! ```
//!
//! A second chip over the same memory is refused too:
//!
//! ```compile_fail
//! let mut memory = [0; 3 * cdrom::BLOCK_BYTES];
//! let mut one = cdrom::Chip::open(3, &mut memory).unwrap();
//! let mut other = cdrom::Chip::open(3, &mut memory).unwrap();
//! one.reset().unwrap();
//! other.reset().unwrap();
//! ```

#![no_std]
#![warn(missing_docs, clippy::undocumented_unsafe_blocks)]

#[cfg(test)]
extern crate std;

mod bench;
mod chip;
mod kinds;
#[allow(missing_docs)]
pub mod raw;
mod refusal;
pub mod registers;
mod sectors;

pub use bench::{bench, ANSWER_ROOM, RING_BYTES};
pub use chip::{Chip, Record, BLOCK_BYTES, LEAST_BLOCKS, MOST_BLOCKS};
pub use kinds::{Kind, Subheader, SUBHEADER_BYTES, SUBHEADER_OFFSET, SUBMODE_FORM2};
pub use kinds::{FORM1_BYTES, FORM2_BYTES, XA_USER_OFFSET};
pub use refusal::Refusal;
pub use sectors::{edc, judge, next_address, open, parity, seal, seal_xa, Address, Facts, Verdict};
pub use sectors::{SECTOR_BYTES, USER_BYTES, USER_OFFSET};
pub use sectors::{WHY_ADDRESS, WHY_EDC, WHY_MODE, WHY_SYNC};

/// The version of `include/cdrom.h` that this crate declares. Since 6 there is [`next_address`]. Since 5 sectors of
/// mode 2 are taken ([`Kind`]), and [`seal_xa`] makes them. Since 4 the bytes of a start do not pass 65,534
/// ([`ADTT`](registers::ADTT)). Since 3 [`seal`] writes the parity, and [`parity`] checks it. Since 2 [`judge`] gives
/// [`Facts`] and [`Chip::why`] those of the last sector, and a [`Record`] that was kept under 1 must not be handed
/// over.
pub const VERSION: u32 = 6;
