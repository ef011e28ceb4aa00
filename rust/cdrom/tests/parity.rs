//! The parity over the linked archive: what sealing writes, and what the check says of it.

use cdrom::{judge, open, parity, seal, Address, Refusal, SECTOR_BYTES, USER_BYTES, USER_OFFSET};

const ADDRESS: Address = Address { minute: 12, second: 34, frame: 56 };
const USER_END: usize = USER_OFFSET + USER_BYTES;
/// Where the parity's words begin, behind the sync bytes.
const FIRST_COVERED: usize = 12;
const PARITY_OFFSET: usize = 2076;

type Sector = [u8; SECTOR_BYTES];

/// User bytes that differ, among other bytes that are all equal.
fn unsealed(stale: u8) -> Sector {
    let mut sector = [stale; SECTOR_BYTES];
    for (place, byte) in sector[USER_OFFSET..USER_END].iter_mut().enumerate() {
        *byte = (place % 251) as u8;
    }
    sector
}

fn sealed(mut sector: Sector) -> Sector {
    assert_eq!(seal(&mut sector, ADDRESS), Ok(()));
    sector
}

fn opened(mut sector: Sector) -> Sector {
    assert_eq!(open(&mut sector), Ok(()));
    sector
}

#[test]
fn it_holds_for_a_sealed_sector() {
    let sector = opened(sealed(unsealed(0)));
    assert_eq!(parity(&sector), Ok(true));
    assert!(judge(&sector, ADDRESS).is_ok_and(|facts| facts.is_good()));
    assert_ne!(sector[PARITY_OFFSET..], [0; SECTOR_BYTES - PARITY_OFFSET], "it is no matter of zeros");
}

#[test]
fn one_changed_byte_is_told_unless_it_is_a_sync_byte() {
    let mut sector = opened(sealed(unsealed(0)));
    for place in 0..SECTOR_BYTES {
        for change in [0x01, 0x80, 0xFF] {
            sector[place] ^= change;
            assert_eq!(parity(&sector), Ok(place < FIRST_COVERED), "byte {place}, {change:#04x}");
            sector[place] ^= change;
        }
    }
    assert_eq!(parity(&sector), Ok(true));
}

#[test]
fn it_does_not_hold_for_a_scrambled_sector() {
    assert_eq!(parity(&sealed(unsealed(0))), Ok(false));
}

#[test]
fn it_is_not_judged() {
    let mut sector = opened(sealed(unsealed(0)));
    sector[PARITY_OFFSET..].fill(0);
    assert_eq!(parity(&sector), Ok(false));
    assert!(judge(&sector, ADDRESS).is_ok_and(|facts| facts.is_good()));
}

#[test]
fn it_holds_for_zeros() {
    let zeros = [0; SECTOR_BYTES];
    assert_eq!(parity(&zeros), Ok(true));
    assert!(judge(&zeros, ADDRESS).is_ok_and(|facts| !facts.is_good()));
}

#[test]
fn another_length_is_refused() {
    let bytes = [0; 2 * SECTOR_BYTES];
    for length in [0, 1, PARITY_OFFSET, SECTOR_BYTES - 1, SECTOR_BYTES + 1, 2 * SECTOR_BYTES] {
        assert_eq!(parity(&bytes[..length]), Err(Refusal::WrongLength), "{length}");
    }
}

#[test]
fn sealing_takes_nothing_but_the_user_bytes() {
    let sector = sealed(unsealed(0));
    for stale in [0x01, 0x5A, 0xFF] {
        assert_eq!(sealed(unsealed(stale)), sector, "{stale:#04x}");
    }
}

#[test]
fn sealing_an_opened_sector_gives_the_sealed_one() {
    let sector = sealed(unsealed(0xA5));
    assert_eq!(sealed(opened(sector)), sector);
}
