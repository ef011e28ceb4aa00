//! Sealing, opening and judging a sector of 2,352 bytes.

use crate::kind::{CODE_BYTES, FIRST_COPY, SECOND_COPY, SUBHEADER_BYTES};
use crate::{edc_sliced, scramble, write_parity_of, Address, Kind, Refusal, P_PARITY_START};

pub const SECTOR_BYTES: usize = 2352;
pub const SYNC: [u8; 12] = [0, 255, 255, 255, 255, 255, 255, 255, 255, 255, 255, 0];

/// Of mode 1.
pub const USER_START: usize = 16;
pub const USER_BYTES: usize = 2048;
pub const EDC_START: usize = 2064;

pub(crate) const HEADER_START: usize = 12;
pub(crate) const MODE_PLACE: usize = 15;

/// What of a sector failed when it was judged. Each is a test of its own, and
/// none hides another.
#[derive(Clone, Copy, Debug, Default, PartialEq, Eq)]
pub struct Facts {
    pub sync: bool,
    pub mode: bool,
    pub edc: bool,
    /// The header's address is not the expected one.
    pub address: bool,
}

impl Facts {
    /// The four as one number, as the bench prints it.
    pub fn why(self) -> u8 {
        (self.sync as u8) << 3 | (self.mode as u8) << 2 | (self.edc as u8) << 1 | self.address as u8
    }

    /// The two bits that register 80h shows: STAERR and HCEI.
    pub fn bits(self) -> u8 {
        let staerr = self.sync || self.mode || self.edc;
        (staerr as u8) << 6 | self.address as u8
    }

    pub fn is_good(self) -> bool {
        self == Facts::default()
    }
}

/// Writes all but the user bytes, then scrambles: a sector of mode 1.
pub fn seal(sector: &mut [u8], address: Address) -> Result<(), Refusal> {
    seal_with(edc_sliced, sector, address)
}

/// The same with one of the ways to take the code, to be timed.
pub fn seal_with(edc: impl Fn(&[u8]) -> u32, sector: &mut [u8], address: Address) -> Result<(), Refusal> {
    check_length(sector)?;
    check_address(address)?;
    write_sector(edc, sector, address, Kind::Mode1, [0; SUBHEADER_BYTES]);
    Ok(())
}

/// A sector of the kind that a number names. Mode 1 has no use for the subheader, whatever it is.
pub fn seal_xa(
    sector: &mut [u8],
    address: Address,
    kind: u16,
    subheader: [u8; SUBHEADER_BYTES],
) -> Result<(), Refusal> {
    check_length(sector)?;
    check_address(address)?;
    let kind = Kind::of_number(kind).ok_or(Refusal::UnknownKind)?;
    if !kind.agrees_with(subheader) {
        return Err(Refusal::OtherForm);
    }
    write_sector(edc_sliced, sector, address, kind, subheader);
    Ok(())
}

fn write_sector(
    edc: impl Fn(&[u8]) -> u32,
    sector: &mut [u8],
    address: Address,
    kind: Kind,
    subheader: [u8; SUBHEADER_BYTES],
) {
    sector[..HEADER_START].copy_from_slice(&SYNC);
    sector[HEADER_START..MODE_PLACE].copy_from_slice(&address.bcd());
    sector[MODE_PLACE] = kind.mode_byte();
    if kind.has_subheader() {
        sector[FIRST_COPY].copy_from_slice(&subheader);
        sector[SECOND_COPY].copy_from_slice(&subheader);
    }
    let code = edc(&sector[kind.covered()]);
    sector[kind.code()].copy_from_slice(&code.to_le_bytes());
    if kind.has_parity() {
        // Eight bytes in mode 1 and none in form 1.
        sector[kind.code().end..P_PARITY_START].fill(0);
    }
    write_parity_of(sector, kind);
    scramble(&mut sector[HEADER_START..]);
}

/// Descrambles; the sync bytes are never scrambled.
pub fn open(sector: &mut [u8]) -> Result<(), Refusal> {
    check_length(sector)?;
    scramble(&mut sector[HEADER_START..]);
    Ok(())
}

/// Judges a descrambled sector by the kind that it says it is.
pub fn judge(sector: &[u8], expected: Address) -> Result<Facts, Refusal> {
    judge_with(edc_sliced, sector, expected)
}

/// The same with one of the ways to take the code, to be timed.
pub fn judge_with(edc: impl Fn(&[u8]) -> u32, sector: &[u8], expected: Address) -> Result<Facts, Refusal> {
    check_length(sector)?;
    check_address(expected)?;
    let kind = Kind::of_sector(sector);
    let stored = &sector[kind.code()];
    // In form 2 a code of zeros says that none was written.
    let has_code = kind != Kind::Form2 || stored != [0; CODE_BYTES];
    Ok(Facts {
        sync: sector[..HEADER_START] != SYNC,
        mode: !has_valid_mode(sector),
        edc: has_code && stored != edc(&sector[kind.covered()]).to_le_bytes(),
        address: sector[HEADER_START..MODE_PLACE] != expected.bcd(),
    })
}

/// Mode 1, or mode 2 with the same subheader twice. The copies are compared in mode 2 alone.
fn has_valid_mode(sector: &[u8]) -> bool {
    match sector[MODE_PLACE] {
        1 => true,
        2 => sector[FIRST_COPY] == sector[SECOND_COPY],
        _ => false,
    }
}

pub(crate) fn check_length(sector: &[u8]) -> Result<(), Refusal> {
    if sector.len() == SECTOR_BYTES {
        Ok(())
    } else {
        Err(Refusal::WrongLength)
    }
}

fn check_address(address: Address) -> Result<(), Refusal> {
    if address.is_valid() {
        Ok(())
    } else {
        Err(Refusal::BadAddress)
    }
}

#[cfg(test)]
mod tests {
    use super::*;
    use crate::{edc_bitwise, parity_holds};

    const ZEROS_START: usize = 2068;
    const ADDRESS: Address = Address::new(12, 34, 56);

    fn opened_sector() -> Vec<u8> {
        let mut sector: Vec<u8> = (0..SECTOR_BYTES).map(|place| (place * 7) as u8).collect();
        seal(&mut sector, ADDRESS).unwrap();
        open(&mut sector).unwrap();
        sector
    }

    #[test]
    fn sealing_keeps_user_bytes_and_writes_all_others() {
        let sector = opened_sector();
        assert!((USER_START..EDC_START).all(|place| sector[place] == (place * 7) as u8));
        assert_eq!(sector[ZEROS_START..P_PARITY_START], [0; 8]);
        assert!(judge(&sector, ADDRESS).unwrap().is_good());
        assert_eq!(parity_holds(&sector), Ok(true));
    }

    #[test]
    fn sealing_does_not_depend_on_what_lay_beside_the_user_bytes() {
        let mut sealed = opened_sector();
        open(&mut sealed).unwrap();
        for stale in [0x00, 0x5A, 0xFF] {
            let mut sector = opened_sector();
            sector[..USER_START].fill(stale);
            sector[EDC_START..].fill(stale);
            seal(&mut sector, ADDRESS).unwrap();
            assert_eq!(sector, sealed);
        }
    }

    #[test]
    fn an_opened_sector_is_sealed_as_it_was() {
        let mut sector = opened_sector();
        let before = sector.clone();
        seal(&mut sector, ADDRESS).unwrap();
        open(&mut sector).unwrap();
        assert_eq!(sector, before);
    }

    #[test]
    fn sync_stays_clear_when_sealed() {
        let mut sector = vec![0x55; SECTOR_BYTES];
        seal(&mut sector, ADDRESS).unwrap();
        assert_eq!(sector[..12], SYNC);
        assert_eq!(sector[12..16], [0x12 ^ 0x01, 0x34 ^ 0x80, 0x56, 0x01 ^ 0x60]);
    }

    #[test]
    fn wrong_lengths_are_refused_before_bad_addresses() {
        let bad = Address::new(0, 60, 0);
        for length in [0, 1, 12, 2340, 2351, 2353, 2560, 4704] {
            let mut bytes = vec![3; length];
            assert_eq!(seal(&mut bytes, bad), Err(Refusal::WrongLength));
            assert_eq!(open(&mut bytes), Err(Refusal::WrongLength));
            assert_eq!(judge(&bytes, bad), Err(Refusal::WrongLength));
            assert!(bytes.iter().all(|&byte| byte == 3));
        }
    }

    #[test]
    fn bad_addresses_are_refused_and_change_nothing() {
        for bad in [Address::new(100, 0, 0), Address::new(0, 60, 0), Address::new(0, 0, 75)] {
            let mut bytes = vec![3; SECTOR_BYTES];
            assert_eq!(seal(&mut bytes, bad), Err(Refusal::BadAddress));
            assert_eq!(judge(&bytes, bad), Err(Refusal::BadAddress));
            assert!(bytes.iter().all(|&byte| byte == 3));
        }
    }

    /// The sector with its code made to fit, so that the other facts are seen without it.
    fn with_code(mut sector: Vec<u8>) -> Vec<u8> {
        let code = edc_bitwise(&sector[..EDC_START]);
        sector[EDC_START..ZEROS_START].copy_from_slice(&code.to_le_bytes());
        sector
    }

    /// A sector in which just these things fail.
    fn crafted(facts: Facts) -> Vec<u8> {
        let mut sector = opened_sector();
        sector[11] ^= facts.sync as u8;
        sector[MODE_PLACE] ^= 2 * facts.mode as u8;
        sector[14] ^= facts.address as u8;
        let mut sector = with_code(sector);
        sector[2067] ^= 0x80 * facts.edc as u8;
        sector
    }

    #[test]
    fn each_fact_has_its_weight_and_its_bit() {
        let none = Facts::default();
        let alone = [
            (none, 0, 0x00),
            (Facts { sync: true, ..none }, 8, 0x40),
            (Facts { mode: true, ..none }, 4, 0x40),
            (Facts { edc: true, ..none }, 2, 0x40),
            (Facts { address: true, ..none }, 1, 0x01),
        ];
        for (facts, why, bits) in alone {
            assert_eq!((facts.why(), facts.bits()), (why, bits));
            assert_eq!(judge(&crafted(facts), ADDRESS), Ok(facts));
        }
    }

    /// All sixteen: whatever else fails, a fact is told.
    #[test]
    fn no_fact_hides_another() {
        for why in 0..16 {
            let failed = |weight: u8| why & weight != 0;
            let facts = Facts { sync: failed(8), mode: failed(4), edc: failed(2), address: failed(1) };
            let found = judge(&crafted(facts), ADDRESS).unwrap();
            assert_eq!(found, facts);
            assert_eq!(found.why(), why);
            let staerr = if why >= 2 { 0x40 } else { 0x00 };
            assert_eq!(found.bits(), staerr | why & 1);
            assert_eq!(found.is_good(), why == 0);
        }
    }

    /// Of a good sector. The code begins at byte 0, so that it fails beside sync, address and mode.
    fn why_of_damage_at(place: usize) -> u8 {
        match place {
            0..12 => 10,
            12..15 => 3,
            15 => 6,
            16..2068 => 2,
            _ => 0,
        }
    }

    #[test]
    fn any_single_damage_is_told_by_its_place() {
        let mut sector = opened_sector();
        for place in 0..SECTOR_BYTES {
            for damage in [1, 2, 4, 8, 16, 32, 64, 128, 0xFF] {
                sector[place] ^= damage;
                assert_eq!(judge(&sector, ADDRESS).unwrap().why(), why_of_damage_at(place), "byte {place}");
                sector[place] ^= damage;
            }
        }
    }

    #[test]
    fn under_a_fitting_code_header_damage_is_seen_alone() {
        let sector = opened_sector();
        for place in 0..EDC_START {
            let mut damaged = sector.clone();
            damaged[place] ^= 0xFF;
            let found = judge(&with_code(damaged), ADDRESS).unwrap();
            assert_eq!(found.why(), why_of_damage_at(place) & !2, "byte {place}");
        }
    }

    #[test]
    fn zeros_and_parity_are_not_judged() {
        let mut sector = opened_sector();
        sector[ZEROS_START..].fill(0xA5);
        assert!(judge(&sector, ADDRESS).unwrap().is_good());
    }

    #[test]
    fn another_address_alone_is_hcei() {
        let sector = opened_sector();
        let facts = judge(&sector, ADDRESS.next()).unwrap();
        assert_eq!((facts.why(), facts.bits()), (1, 0x01));
    }

    #[test]
    fn addresses_all_over_the_disc_are_judged_good() {
        let mut address = Address::new(0, 0, 0);
        // 2,000 strides of 227 frames go once around the disc.
        for _ in 0..2000 {
            let mut sector = vec![0x11; SECTOR_BYTES];
            seal(&mut sector, address).unwrap();
            open(&mut sector).unwrap();
            assert!(judge(&sector, address).unwrap().is_good());
            for _ in 0..227 {
                address = address.next();
            }
        }
    }
}
