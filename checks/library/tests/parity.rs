//! The library's parity, written and checked, against the independent code: that of mode 1, and of mode bytes that have
//! its rule. `kinds.rs` has the other kinds.

mod common;

use cdrom::raw;
use common::{judge, open, parity, seal, valid_address, GOOD};
use ecma130::{write_parity, write_q_parity, Address};
use ecma130::{EDC_START, P_PARITY_START, Q_PARITY_START, SECTOR_BYTES, USER_START};
use model::Random;

const HEADER_START: usize = 12;
const MODE_PLACE: usize = 15;
const ADDRESS: Address = Address::new(12, 34, 56);

/// Anything but 0, and in the mode byte nothing that makes it 2.
fn damage(place: usize, random: &mut Random) -> u8 {
    if place == MODE_PLACE {
        0x80
    } else {
        random.between(1, 255) as u8
    }
}

fn sealed_and_opened(random: &mut Random) -> Vec<u8> {
    let mut sector = random.bytes(SECTOR_BYTES);
    seal(&mut sector, valid_address(random)).unwrap();
    open(&mut sector).unwrap();
    sector
}

/// Sealing adds to a sector of zeros what each bit of the user bytes adds by itself, and every sector is a sum of these.
#[test]
fn each_single_user_bit_is_sealed_alike() {
    for bit in 0..(EDC_START - USER_START) * 8 {
        let mut sector = vec![0; SECTOR_BYTES];
        sector[USER_START + bit / 8] = 1 << (bit % 8);
        seal(&mut sector, ADDRESS).unwrap();
    }
}

#[test]
fn what_lay_beside_the_user_bytes_does_not_matter() {
    let mut random = Random::new(1);
    let user = random.bytes(EDC_START - USER_START);
    let mut sealed = Vec::new();
    for _ in 0..50 {
        let mut sector = random.bytes(SECTOR_BYTES);
        sector[USER_START..EDC_START].copy_from_slice(&user);
        seal(&mut sector, ADDRESS).unwrap();
        sealed.push(sector);
    }
    assert!(sealed.iter().all(|sector| *sector == sealed[0]));
}

#[test]
fn a_sector_is_sealed_again_as_it_was() {
    let mut random = Random::new(2);
    for _ in 0..50 {
        let address = valid_address(&mut random);
        let mut sector = random.bytes(SECTOR_BYTES);
        seal(&mut sector, address).unwrap();
        let first = sector.clone();
        open(&mut sector).unwrap();
        seal(&mut sector, address).unwrap();
        assert_eq!(sector, first);
    }
}

#[test]
fn every_single_bit() {
    let mut sector = sealed_and_opened(&mut Random::new(3));
    assert_eq!(parity(&sector), Ok(true));
    for bit in 0..SECTOR_BYTES * 8 {
        let place = bit / 8;
        sector[place] ^= 1 << (bit % 8);
        assert_eq!(parity(&sector), Ok(place < HEADER_START), "bit {bit}");
        sector[place] ^= 1 << (bit % 8);
    }
}

/// With Q made to fit: a wrong byte alone would be seen by its Q word too.
#[test]
fn every_p_word_fails_alone() {
    let mut random = Random::new(4);
    let sector = sealed_and_opened(&mut random);
    for place in HEADER_START..Q_PARITY_START {
        let mut damaged = sector.clone();
        damaged[place] ^= damage(place, &mut random);
        write_q_parity(&mut damaged).unwrap();
        assert_eq!(parity(&damaged), Ok(false), "byte {place}");
    }
}

#[test]
fn a_few_random_bytes() {
    let mut random = Random::new(5);
    for wrong in (0..=3).cycle().take(2000) {
        let mut sector = sealed_and_opened(&mut random);
        for _ in 0..wrong {
            sector[random.below(SECTOR_BYTES as u64) as usize] = random.below(256) as u8;
        }
        parity(&sector).unwrap();
    }
}

/// Without their parity and with it: whatever header, code and zeros are.
#[test]
fn any_bytes() {
    let mut random = Random::new(6);
    for _ in 0..500 {
        let mut sector = random.bytes(SECTOR_BYTES);
        sector[MODE_PLACE] &= !2;
        assert_eq!(parity(&sector), Ok(false));
        write_parity(&mut sector).unwrap();
        assert_eq!(parity(&sector), Ok(true));
        sector[P_PARITY_START..Q_PARITY_START].fill(0);
        assert_eq!(parity(&sector), Ok(false));
    }
}

#[test]
fn sums_of_sectors() {
    let mut random = Random::new(7);
    let mut sum = vec![0; SECTOR_BYTES];
    for _ in 0..100 {
        assert_eq!(parity(&sum), Ok(true));
        let sector = sealed_and_opened(&mut random);
        sum.iter_mut().zip(sector).for_each(|(byte, other)| *byte ^= other);
    }
}

/// Neither tells anything of the other.
#[test]
fn parity_is_not_judged_and_what_is_judged_is_not_parity() {
    let mut random = Random::new(9);
    let mut sector = random.bytes(SECTOR_BYTES);
    seal(&mut sector, ADDRESS).unwrap();
    open(&mut sector).unwrap();
    for place in P_PARITY_START..SECTOR_BYTES {
        let mut damaged = sector.clone();
        damaged[place] ^= damage(place, &mut random);
        assert_eq!((judge(&damaged, ADDRESS), parity(&damaged)), (Ok(GOOD), Ok(false)), "byte {place}");
    }
    for place in 0..P_PARITY_START {
        let mut damaged = sector.clone();
        damaged[place] ^= damage(place, &mut random);
        write_parity(&mut damaged).unwrap();
        assert_eq!((judge(&damaged, ADDRESS) == Ok(GOOD), parity(&damaged)), (place >= 2068, Ok(true)), "byte {place}");
    }
}

/// The result above the number.
#[test]
fn the_answer_itself() {
    let mut sector = sealed_and_opened(&mut Random::new(8));
    // SAFETY: the pointer and the length are those of a part of the sector, which is only read.
    let answer = |sector: &[u8]| unsafe { raw::cdrom_parity(sector.as_ptr(), sector.len()) };
    assert_eq!(answer(&sector), 1 << 8);
    assert_eq!(answer(&sector[1..]), 1);
    sector[SECTOR_BYTES - 1] ^= 1;
    assert_eq!(answer(&sector), 0);
    assert_eq!(answer(&sector[1..]), 1);
}
