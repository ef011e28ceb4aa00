//! Sealing, opening and judging, valid and damaged, against the independent code. All of a buffer is random bytes
//! before it is sealed.

mod common;

use cdrom::{raw, Facts, Refusal};
use common::{judge, open, parity, seal, valid_address, GOOD};
use ecma130::edc_bitwise;
use ecma130::{Address, EDC_START, P_PARITY_START, Q_PARITY_START, SECTOR_BYTES, USER_BYTES, USER_START};
use model::Random;

const ZEROS_START: usize = EDC_START + 4;
/// Where a field begins: sync, address, mode, user bytes, code, zeros, P parity, Q parity; and the last byte.
const FIELD_EDGES: [usize; 9] =
    [0, 12, 15, USER_START, EDC_START, ZEROS_START, P_PARITY_START, Q_PARITY_START, SECTOR_BYTES - 1];
const ADDRESS: Address = Address::new(12, 34, 56);

fn good_sector(random: &mut Random) -> Vec<u8> {
    let mut sector = random.bytes(SECTOR_BYTES);
    seal(&mut sector, ADDRESS).unwrap();
    open(&mut sector).unwrap();
    sector
}

/// The sector with its code made to fit, so that the other tests are seen alone.
fn with_code(mut sector: Vec<u8>) -> Vec<u8> {
    let code = edc_bitwise(&sector[..EDC_START]);
    sector[EDC_START..ZEROS_START].copy_from_slice(&code.to_le_bytes());
    sector
}

/// What fails by a damaged byte, but for the code.
fn failed_in_header(place: usize) -> Facts {
    Facts { sync: place < 12, mode: place == 15, address: (12..15).contains(&place), ..GOOD }
}

#[test]
fn sealed_and_opened_gives_user_bytes_and_address_back() {
    let mut random = Random::new(1);
    for _ in 0..500 {
        let address = valid_address(&mut random);
        let mut sector = random.bytes(SECTOR_BYTES);
        let user = sector[USER_START..][..USER_BYTES].to_vec();
        seal(&mut sector, address).unwrap();
        open(&mut sector).unwrap();
        assert_eq!(sector[USER_START..][..USER_BYTES], user);
        assert_eq!(sector[12..15], address.bcd());
        assert_eq!(judge(&sector, address), Ok(GOOD));
        assert_eq!(parity(&sector), Ok(true));
        let other = valid_address(&mut random);
        assert_eq!(judge(&sector, other), Ok(Facts { address: other != address, ..GOOD }));
    }
}

#[test]
fn bytes_that_are_no_sector() {
    let mut random = Random::new(2);
    for _ in 0..500 {
        let mut sector = random.bytes(SECTOR_BYTES);
        judge(&sector, ADDRESS).unwrap();
        open(&mut sector).unwrap();
        judge(&sector, ADDRESS).unwrap();
    }
}

#[test]
fn every_single_bit() {
    let mut sector = good_sector(&mut Random::new(3));
    for bit in 0..SECTOR_BYTES * 8 {
        let place = bit / 8;
        sector[place] ^= 1 << (bit % 8);
        let expected = Facts { edc: place < ZEROS_START, ..failed_in_header(place) };
        assert_eq!(judge(&sector, ADDRESS), Ok(expected), "bit {bit}");
        sector[place] ^= 1 << (bit % 8);
    }
}

#[test]
fn bursts_at_every_field() {
    let mut random = Random::new(4);
    let sector = good_sector(&mut random);
    for edge in FIELD_EDGES {
        for _ in 0..300 {
            let mut damaged = sector.clone();
            let start = edge.saturating_sub(random.below(8) as usize);
            let end = (start + 1 + random.below(24) as usize).min(SECTOR_BYTES);
            damaged[start..end].iter_mut().for_each(|byte| *byte ^= random.below(256) as u8);
            judge(&damaged, ADDRESS).unwrap();
            open(&mut damaged).unwrap();
        }
    }
}

#[test]
fn each_test_alone_under_a_fitting_code() {
    let sector = good_sector(&mut Random::new(5));
    for bit in 0..EDC_START * 8 {
        let place = bit / 8;
        let mut damaged = sector.clone();
        damaged[place] ^= 1 << (bit % 8);
        assert_eq!(judge(&with_code(damaged), ADDRESS), Ok(failed_in_header(place)), "bit {bit}");
    }
}

/// All sixteen values, each with damage of many kinds: none hides another. The answer itself is `why` above the number.
#[test]
fn each_of_the_sixteen_is_told() {
    let mut random = Random::new(8);
    let sector = good_sector(&mut random);
    for why in (0..16).cycle().take(16 * 200) {
        let mut damaged = sector.clone();
        spoil_if(why & 8 != 0, &mut damaged[..12], &mut random);
        spoil_if(why & 4 != 0, &mut damaged[15..16], &mut random);
        spoil_if(why & 1 != 0, &mut damaged[12..15], &mut random);
        let mut damaged = with_code(damaged);
        spoil_if(why & 2 != 0, &mut damaged[EDC_START..ZEROS_START], &mut random);
        assert_eq!(judge(&damaged, ADDRESS).map(Facts::why), Ok(why));
        // SAFETY: the pointer and the length are those of the sector, which is only read.
        let answer = unsafe { raw::cdrom_judge(damaged.as_ptr(), damaged.len(), 12, 34, 56) };
        assert_eq!(answer, (why as u32) << 8);
    }
}

/// Changes one of the bytes, or all of them.
fn spoil_if(wanted: bool, bytes: &mut [u8], random: &mut Random) {
    if !wanted {
        return;
    }
    let place = random.below(bytes.len() as u64) as usize;
    match random.below(3) {
        0 => bytes.fill(0x5B),
        1 => bytes[place] = !bytes[place],
        _ => bytes[place] ^= 1 << random.below(8),
    }
}

#[test]
fn wrong_lengths_are_refused_before_bad_addresses() {
    let mut random = Random::new(6);
    let around = [2063, 2064, 2068, 2340, 2350, 2351, 2353, 2354, 2560, 4703, 4704, 4705, 65_536 + 2352];
    for length in (0..=64).chain(around) {
        let before = random.bytes(length);
        for address in [ADDRESS, Address::new(0, 60, 0)] {
            let mut sector = before.clone();
            assert_eq!(seal(&mut sector, address), Err(Refusal::WrongLength), "length {length}");
            assert_eq!(open(&mut sector), Err(Refusal::WrongLength), "length {length}");
            assert_eq!(judge(&sector, address), Err(Refusal::WrongLength), "length {length}");
            assert_eq!(parity(&sector), Err(Refusal::WrongLength), "length {length}");
            assert_eq!(sector, before, "length {length}");
        }
    }
}

/// Among them 256, which is 0 when cut to a byte, and 65,535, which is -1 when taken with a sign.
#[test]
fn every_address_edge() {
    let before = good_sector(&mut Random::new(7));
    for minute in [0, 1, 9, 10, 98, 99, 100, 255, 256, 32_768, 65_535] {
        for second in [0, 1, 9, 10, 58, 59, 60, 99, 255, 256, 32_768, 65_535] {
            for frame in [0, 1, 9, 10, 73, 74, 75, 99, 255, 256, 32_768, 65_535] {
                check_address(&before, Address::new(minute, second, frame));
            }
        }
    }
}

fn check_address(before: &[u8], address: Address) {
    let valid = address.minute <= 99 && address.second <= 59 && address.frame <= 74;
    let mut sector = before.to_vec();
    let answer = if valid { Ok(()) } else { Err(Refusal::OutOfRange) };
    assert_eq!(seal(&mut sector, address), answer);
    assert_eq!(judge(before, address), answer.map(|()| Facts { address: true, ..GOOD }));
    assert_eq!(sector == before, !valid, "{address:?}");
}
