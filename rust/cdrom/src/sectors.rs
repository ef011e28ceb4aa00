//! Sectors without a chip: made, opened, judged, and their parity checked.

use crate::kinds::{Kind, Subheader};
use crate::raw;
use crate::refusal::{done, result_of, Refusal};
use crate::registers::{HCEI, STAERR};
use core::fmt;

/// A sector as it comes from the disc.
pub const SECTOR_BYTES: usize = 2352;
/// Where the user bytes of a sector of mode 1 begin; [`Kind::user`] has those of any kind.
pub const USER_OFFSET: usize = 16;
/// How many user bytes a sector of mode 1 has.
pub const USER_BYTES: usize = 2048;

/// [`Facts::why`]: bytes 0 to 11 are not the sync bytes.
pub const WHY_SYNC: u8 = 8;
/// [`Facts::why`]: byte 15 is neither 1 nor 2, or it is 2 and the two subheaders are not equal.
pub const WHY_MODE: u8 = 4;
/// [`Facts::why`]: the error detection code is not that of the bytes it covers; four zeros in form 2 are none.
pub const WHY_EDC: u8 = 2;
/// [`Facts::why`]: bytes 12 to 14 are another address than the expected one.
pub const WHY_ADDRESS: u8 = 1;

/// A sector's place on the disc. Any numbers may be asked about; those out of range are refused.
#[derive(Clone, Copy, Debug, PartialEq, Eq, Hash)]
pub struct Address {
    /// 0 to 99.
    pub minute: u16,
    /// 0 to 59.
    pub second: u16,
    /// 0 to 74.
    pub frame: u16,
}

impl Address {
    /// As a result has it: the frame in the lowest byte, then the second, then the minute.
    fn of_result(result: u32) -> Address {
        let [frame, second, minute, none] = result.to_le_bytes();
        assert_eq!(none, 0, "a result has 24 bits");
        Address { minute: minute.into(), second: second.into(), frame: frame.into() }
    }
}

/// What failed of a sector: four tests, each made whatever the others say. Its text is for a log.
///
/// The error detection code goes by the kind that is read ([`Kind::of`]). That of [`Kind::Mode1`] covers bytes 0 to
/// 2,063, so that a damaged sync, mode or address byte fails it too: the address alone is a sector that was read well
/// and lies elsewhere. That of [`Kind::Form1`] covers bytes 16 to 2,071, and that of [`Kind::Form2`] bytes 16 to
/// 2,347: a damaged address byte is the address alone. In form 2 four zeros in place of the code say that none was
/// written, and are taken: then no user byte was checked, and the sector is good all the same.
///
/// ```
/// # fn main() -> Result<(), cdrom::Refusal> {
/// let place = cdrom::Address { minute: 0, second: 2, frame: 0 };
/// let mut sector = [b'A'; cdrom::SECTOR_BYTES];
/// cdrom::seal(&mut sector, place)?;
/// cdrom::open(&mut sector)?;
/// assert_eq!(cdrom::judge(&sector, place)?.to_string(), "good");
/// sector[3] = 0;
/// let facts = cdrom::judge(&sector, place)?;
/// assert!(facts.sync && facts.edc && !facts.mode && !facts.address);
/// assert_eq!(facts.to_string(), "sync, EDC");
/// # Ok(())
/// # }
/// ```
#[derive(Clone, Copy, Debug, PartialEq, Eq, Hash)]
pub struct Facts {
    /// The sync bytes are wrong.
    pub sync: bool,
    /// The mode is neither 1 nor 2; or it is 2, and the two subheaders are not equal.
    pub mode: bool,
    /// The error detection code is not that of the bytes it covers; four zeros in form 2 are none, and do not fail.
    pub edc: bool,
    /// The sector's address is not the expected one.
    pub address: bool,
}

impl Facts {
    /// Whether the sector counts.
    pub const fn is_good(self) -> bool {
        self.why() == 0
    }

    /// One number of them, 0 to 15: [`WHY_SYNC`], [`WHY_MODE`], [`WHY_EDC`] and [`WHY_ADDRESS`] of those that failed.
    pub const fn why(self) -> u8 {
        self.sync as u8 * WHY_SYNC
            + self.mode as u8 * WHY_MODE
            + self.edc as u8 * WHY_EDC
            + self.address as u8 * WHY_ADDRESS
    }

    /// The facts of a number; none above 15.
    pub const fn from_why(why: u8) -> Option<Facts> {
        if why > WHY_SYNC | WHY_MODE | WHY_EDC | WHY_ADDRESS {
            return None;
        }
        Some(Facts {
            sync: why & WHY_SYNC != 0,
            mode: why & WHY_MODE != 0,
            edc: why & WHY_EDC != 0,
            address: why & WHY_ADDRESS != 0,
        })
    }

    /// The two bits of register 80h that are made from them.
    pub const fn verdict(self) -> Verdict {
        Verdict { staerr: self.sync || self.mode || self.edc, hcei: self.address }
    }

    /// As a result has them.
    pub(crate) fn of_result(result: u32) -> Facts {
        let facts = u8::try_from(result).ok().and_then(Facts::from_why);
        facts.unwrap_or_else(|| panic!("{result:#x} is no why of cdrom.h"))
    }
}

/// Those that failed by their names, or `good`.
impl fmt::Display for Facts {
    fn fmt(&self, f: &mut fmt::Formatter<'_>) -> fmt::Result {
        let tests = [(self.sync, "sync"), (self.mode, "mode"), (self.edc, "EDC"), (self.address, "address")];
        let mut failed = tests.into_iter().filter(|(failed, _)| *failed).map(|(_, name)| name);
        f.write_str(failed.next().unwrap_or("good"))?;
        failed.try_for_each(|name| write!(f, ", {name}"))
    }
}

/// The two bits of register 80h; both low is a good sector.
#[derive(Clone, Copy, Debug, PartialEq, Eq, Hash)]
pub struct Verdict {
    /// Sync, mode or code is wrong.
    pub staerr: bool,
    /// The sector's address is not the expected one.
    pub hcei: bool,
}

impl Verdict {
    /// Whether the sector counts.
    pub const fn is_good(self) -> bool {
        !self.staerr && !self.hcei
    }

    /// The byte of register 80h: [`STAERR`], [`HCEI`], both or 0.
    pub const fn tarsta(self) -> u16 {
        self.staerr as u16 * STAERR + self.hcei as u16 * HCEI
    }

    /// The bits of register 80h, as a result has them.
    pub(crate) fn of_result(result: u32) -> Verdict {
        let (staerr, hcei) = (u32::from(STAERR), u32::from(HCEI));
        assert_eq!(result & !(staerr | hcei), 0, "bits that cdrom.h does not name");
        Verdict { staerr: result & staerr != 0, hcei: result & hcei != 0 }
    }
}

/// Makes the buffer a scrambled sector of mode 1 of the user bytes that are in it. All other bytes are written,
/// whatever was there: sync, address, mode, error detection code, zeros, and the P and Q parity of ECMA-130 Annex A. A
/// sealed sector that is opened and sealed again at its address is the same, byte for byte.
///
/// Refusals: [`WrongLength`](Refusal::WrongLength), [`OutOfRange`](Refusal::OutOfRange) for the address.
pub fn seal(sector: &mut [u8], address: Address) -> Result<(), Refusal> {
    let Address { minute, second, frame } = address;
    // SAFETY: the pointer and the length are those of a slice that is lent for the call.
    let answer = unsafe { raw::cdrom_seal(sector.as_mut_ptr(), sector.len(), minute, second, frame) };
    done(answer)
}

/// Makes the buffer a scrambled sector of a kind of the user bytes ([`Kind::user`]) that are in it. With
/// [`Kind::Mode1`] it is [`seal`], and the subheader does not matter. In mode 2 all other bytes are written too: sync,
/// address, mode, the subheader twice, the error detection code, and in form 1 the parity, worked out as if the header
/// were zeros. A sealed sector that is opened and sealed again with its address, kind and subheader is the same, byte
/// for byte.
///
/// Take the kind from the subheader, and its form bit cannot be another:
///
/// ```
/// use cdrom::{judge, open, parity, seal_xa, Address, Kind, Subheader, SECTOR_BYTES};
///
/// # fn main() -> Result<(), cdrom::Refusal> {
/// let place = Address { minute: 0, second: 2, frame: 0 };
/// let subheader = Subheader { submode: 0x08, ..Subheader::default() };
/// let kind = subheader.kind();
/// assert_eq!(kind, Kind::Form1);
///
/// let mut sector = [0; SECTOR_BYTES];
/// sector[kind.user()].fill(b'A');
/// seal_xa(&mut sector, place, kind, subheader)?;
///
/// // As a reader has it: the kind, the subheader and the user bytes are read from the opened sector.
/// open(&mut sector)?;
/// assert!(judge(&sector, place)?.is_good() && parity(&sector)?);
/// let read = Kind::of(&sector)?;
/// assert_eq!((read, Subheader::of(&sector)?), (kind, subheader));
/// assert_eq!(sector[read.user()], [b'A'; 2048]);
/// # Ok(())
/// # }
/// ```
///
/// Refusals: [`WrongLength`](Refusal::WrongLength); [`OutOfRange`](Refusal::OutOfRange) for the address, and for a
/// subheader of the other form.
pub fn seal_xa(sector: &mut [u8], address: Address, kind: Kind, subheader: Subheader) -> Result<(), Refusal> {
    let Address { minute, second, frame } = address;
    let (pointer, length, bytes) = (sector.as_mut_ptr(), sector.len(), subheader.bytes());
    // SAFETY: as in `seal`; the four bytes are ours, and only read.
    let answer = unsafe { raw::cdrom_seal_xa(pointer, length, minute, second, frame, kind.number(), &bytes) };
    done(answer)
}

/// Descrambles a sector of any kind.
///
/// Refusals: [`WrongLength`](Refusal::WrongLength).
pub fn open(sector: &mut [u8]) -> Result<(), Refusal> {
    // SAFETY: as in `seal`.
    let answer = unsafe { raw::cdrom_open(sector.as_mut_ptr(), sector.len()) };
    done(answer)
}

/// Judges an opened sector, of the kind that is read from it, against the address that is expected.
///
/// One wrong byte of those that are tested is told as long as the kind is read as before, in form 2 also as long as
/// bytes 2,348 to 2,351 are not zeros, neither before nor after. But the mode byte says the kind: where that of a good
/// sector of mode 1 becomes 2, its first user bytes are taken for subheaders, and it may be judged good; so may one of
/// mode 2 where it becomes 1.
///
/// ```
/// # fn main() -> Result<(), cdrom::Refusal> {
/// let place = cdrom::Address { minute: 0, second: 2, frame: 0 };
/// let mut sector = [0x20; cdrom::SECTOR_BYTES];
/// cdrom::seal(&mut sector, place)?;
/// cdrom::open(&mut sector)?;
/// sector[2348..].fill(0); // as where no parity was written; it is not judged
/// assert!(cdrom::judge(&sector, place)?.is_good());
/// sector[15] = 2; // two equal subheaders with the form bit, and no code
/// assert_eq!(cdrom::Kind::of(&sector)?, cdrom::Kind::Form2);
/// assert!(cdrom::judge(&sector, place)?.is_good());
/// # Ok(())
/// # }
/// ```
///
/// Refusals: [`WrongLength`](Refusal::WrongLength), [`OutOfRange`](Refusal::OutOfRange) for the address.
pub fn judge(sector: &[u8], expected: Address) -> Result<Facts, Refusal> {
    let Address { minute, second, frame } = expected;
    // SAFETY: as in `seal`; the call only reads.
    let answer = unsafe { raw::cdrom_judge(sector.as_ptr(), sector.len(), minute, second, frame) };
    result_of(answer).map(Facts::of_result)
}

/// Whether the parity of an opened sector holds, all 43 P words and 26 Q words in each of two byte planes (ECMA-130
/// Annex A).
///
/// It goes by the kind that is read ([`Kind::of`]). The words of [`Kind::Mode1`] cover bytes 12 to 2,351; those of
/// [`Kind::Form1`] take the header, bytes 12 to 15, as zeros, whatever it is, and cover bytes 16 to 2,351. Where all
/// hold, a change of any one covered byte is told, unless it changes the kind. [`Kind::Form2`] has no parity: it is
/// always `true`, and says nothing.
///
/// It is none of the [`Facts`]. A good sector may have wrong parity, since [`judge`] does not look at the bytes behind
/// the code, and a bad one right parity: it holds for 2,352 zeros.
///
/// ```
/// # fn main() -> Result<(), cdrom::Refusal> {
/// let place = cdrom::Address { minute: 0, second: 2, frame: 0 };
/// let mut sector = [b'A'; cdrom::SECTOR_BYTES];
/// cdrom::seal(&mut sector, place)?;
/// cdrom::open(&mut sector)?;
/// assert!(cdrom::parity(&sector)?);
/// sector[2351] ^= 1;
/// assert!(!cdrom::parity(&sector)?);
/// assert!(cdrom::judge(&sector, place)?.is_good());
/// # Ok(())
/// # }
/// ```
///
/// Refusals: [`WrongLength`](Refusal::WrongLength).
pub fn parity(sector: &[u8]) -> Result<bool, Refusal> {
    // SAFETY: as in `judge`.
    let answer = unsafe { raw::cdrom_parity(sector.as_ptr(), sector.len()) };
    result_of(answer).map(is_yes)
}

/// A result that is 1 for yes and 0 for no.
fn is_yes(result: u32) -> bool {
    assert!(result <= 1, "{result:#x} is neither yes nor no");
    result == 1
}

/// The address after an address: the next frame; the next second after frame 74, the next minute after second 59, and
/// 00:00:00 after 99:59:74.
///
/// ```
/// # fn main() -> Result<(), cdrom::Refusal> {
/// use cdrom::{next_address, Address, Refusal};
///
/// let last_of_a_second = Address { minute: 0, second: 2, frame: 74 };
/// assert_eq!(next_address(last_of_a_second)?, Address { minute: 0, second: 3, frame: 0 });
/// let none = Address { minute: 0, second: 2, frame: 75 };
/// assert_eq!(next_address(none), Err(Refusal::OutOfRange));
/// # Ok(())
/// # }
/// ```
///
/// Refusals: [`OutOfRange`](Refusal::OutOfRange) for the address.
pub fn next_address(address: Address) -> Result<Address, Refusal> {
    let Address { minute, second, frame } = address;
    // SAFETY: nothing is lent to the call.
    let answer = unsafe { raw::cdrom_next_address(minute, second, frame) };
    result_of(answer).map(Address::of_result)
}

/// The error detection code of any number of bytes.
pub fn edc(bytes: &[u8]) -> u32 {
    // SAFETY: as in `judge`.
    unsafe { raw::cdrom_edc(bytes.as_ptr(), bytes.len()) }
}

#[cfg(test)]
mod tests {
    use super::*;
    use std::string::ToString;

    const ADDRESS: Address = Address { minute: 12, second: 34, frame: 56 };
    const CODE_OFFSET: usize = 2064;
    /// Of form 1, since no bit is set.
    const NONE: Subheader = Subheader::from_bytes([0; 4]);

    /// The sixteen as a log has them, by their numbers.
    const TEXTS: [&str; 16] = [
        "good",
        "address",
        "EDC",
        "EDC, address",
        "mode",
        "mode, address",
        "mode, EDC",
        "mode, EDC, address",
        "sync",
        "sync, address",
        "sync, EDC",
        "sync, EDC, address",
        "sync, mode",
        "sync, mode, address",
        "sync, mode, EDC",
        "sync, mode, EDC, address",
    ];

    fn facts(why: u8) -> Facts {
        Facts::from_why(why).expect("0 to 15 are facts")
    }

    fn opened() -> [u8; SECTOR_BYTES] {
        let mut sector = [0x5A; SECTOR_BYTES];
        assert_eq!((seal(&mut sector, ADDRESS), open(&mut sector)), (Ok(()), Ok(())));
        sector
    }

    /// A sector that fails in these facts and no other: the code is made to fit the damaged bytes before it.
    fn spoilt(facts: Facts) -> [u8; SECTOR_BYTES] {
        let mut sector = opened();
        sector[11] ^= u8::from(facts.sync);
        sector[14] ^= u8::from(facts.address);
        sector[15] ^= u8::from(facts.mode) << 1;
        let code = edc(&sector[..CODE_OFFSET]) ^ u32::from(facts.edc);
        sector[CODE_OFFSET..][..4].copy_from_slice(&code.to_le_bytes());
        sector
    }

    #[test]
    fn a_sector_is_sealed_opened_and_judged() {
        let mut sector = [0x5A; SECTOR_BYTES];
        assert_eq!(seal(&mut sector, ADDRESS), Ok(()));
        assert_eq!(sector[..4], [0, 0xFF, 0xFF, 0xFF]);
        assert_eq!(open(&mut sector), Ok(()));
        assert_eq!(sector[12..16], [0x12, 0x34, 0x56, 1]);
        assert_eq!(sector[USER_OFFSET..][..USER_BYTES], [0x5A; USER_BYTES]);
        assert_eq!(sector[CODE_OFFSET..][..4], edc(&sector[..CODE_OFFSET]).to_le_bytes());
        assert!(judge(&sector, ADDRESS).is_ok_and(Facts::is_good));
        let other = Address { frame: 57, ..ADDRESS };
        assert_eq!(judge(&sector, other), Ok(facts(WHY_ADDRESS)));
        sector[USER_OFFSET] ^= 1;
        assert_eq!(judge(&sector, ADDRESS), Ok(facts(WHY_EDC)));
        assert_eq!(judge(&sector, other), Ok(facts(WHY_EDC | WHY_ADDRESS)));
    }

    #[test]
    fn each_fact_is_found_whatever_the_others_say() {
        for why in 0..=15 {
            assert_eq!(judge(&spoilt(facts(why)), ADDRESS), Ok(facts(why)), "{why}");
        }
    }

    #[test]
    fn a_damaged_byte_before_the_code_fails_it_too() {
        let places = [(0..=11, WHY_SYNC), (12..=14, WHY_ADDRESS), (15..=15, WHY_MODE), (16..=2067, 0)];
        for (place, why) in places.into_iter().flat_map(|(places, why)| places.map(move |place| (place, why))) {
            let mut sector = opened();
            sector[place] ^= 0x80;
            assert_eq!(judge(&sector, ADDRESS), Ok(facts(why | WHY_EDC)), "{place}");
        }
    }

    #[test]
    fn zeros_and_parity_are_not_judged() {
        let mut sector = opened();
        sector[CODE_OFFSET + 4..].fill(0xA5);
        assert_eq!(judge(&sector, ADDRESS), Ok(facts(0)));
    }

    #[test]
    fn refusals() {
        let mut sector = [0; SECTOR_BYTES + 1];
        for length in [0, SECTOR_BYTES - 1, SECTOR_BYTES + 1] {
            assert_eq!(seal(&mut sector[..length], ADDRESS), Err(Refusal::WrongLength));
            assert_eq!(seal_xa(&mut sector[..length], ADDRESS, Kind::Form1, NONE), Err(Refusal::WrongLength));
            assert_eq!(open(&mut sector[..length]), Err(Refusal::WrongLength));
            assert_eq!(judge(&sector[..length], ADDRESS), Err(Refusal::WrongLength));
            assert_eq!(parity(&sector[..length]), Err(Refusal::WrongLength));
        }
        let no_address = Address { second: 60, ..ADDRESS };
        assert_eq!(seal(&mut sector[..SECTOR_BYTES], no_address), Err(Refusal::OutOfRange));
        assert_eq!(seal_xa(&mut sector[..SECTOR_BYTES], no_address, Kind::Form1, NONE), Err(Refusal::OutOfRange));
        assert_eq!(seal_xa(&mut sector[..SECTOR_BYTES], ADDRESS, Kind::Form2, NONE), Err(Refusal::OutOfRange));
        assert_eq!(judge(&sector[..SECTOR_BYTES], no_address), Err(Refusal::OutOfRange));
        assert_eq!(sector, [0; SECTOR_BYTES + 1]);
    }

    #[test]
    fn yes_and_no() {
        assert_eq!([0, 1].map(is_yes), [false, true]);
    }

    #[test]
    #[should_panic(expected = "neither yes nor no")]
    fn another_result_than_yes_and_no_is_a_fault() {
        is_yes(2);
    }

    #[test]
    fn published_check_value() {
        assert_eq!(edc(b"123456789"), 0x6EC2_EDC4);
        assert_eq!(edc(b""), 0);
    }

    #[test]
    fn verdicts() {
        let verdict = |staerr, hcei| Verdict { staerr, hcei };
        assert_eq!(
            [0x00, 0x01, 0x40, 0x41].map(Verdict::of_result),
            [verdict(false, false), verdict(false, true), verdict(true, false), verdict(true, true),]
        );
        assert!(verdict(false, false).is_good() && !verdict(false, true).is_good() && !verdict(true, false).is_good());
        assert_eq!(
            [0x00, 0x01, 0x40, 0x41].map(|byte| Verdict::of_result(byte).tarsta()),
            [0, HCEI, STAERR, STAERR | HCEI]
        );
    }

    #[test]
    fn sixteen_numbers_are_facts() {
        for (why, text) in (0..).zip(TEXTS) {
            let facts = facts(why);
            assert_eq!((facts.why(), facts.to_string().as_str()), (why, text));
            assert_eq!(facts, Facts::of_result(why.into()));
            let verdict = Verdict { staerr: facts.sync || facts.mode || facts.edc, hcei: facts.address };
            assert_eq!(facts.verdict(), verdict);
            assert_eq!([facts.is_good(), verdict.is_good()], [why == 0; 2]);
        }
        assert!((16..=255).all(|why| Facts::from_why(why).is_none()));
        assert!(facts(WHY_SYNC).sync && facts(WHY_MODE).mode && facts(WHY_EDC).edc && facts(WHY_ADDRESS).address);
    }

    #[test]
    #[should_panic(expected = "no why of cdrom.h")]
    fn a_why_above_15_is_a_fault() {
        Facts::of_result(16);
    }

    #[test]
    #[should_panic(expected = "no why of cdrom.h")]
    fn a_why_of_more_than_a_byte_is_a_fault() {
        Facts::of_result(0x101);
    }

    #[test]
    #[should_panic(expected = "cdrom.h does not name")]
    fn another_bit_is_a_fault() {
        Verdict::of_result(0x02);
    }
}
