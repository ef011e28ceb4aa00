//! Sectors of the three kinds through the library, against the independent code: sealed at every single bit, refused,
//! judged and checked at every single bit, and in all sixteen ways.

mod common;

use cdrom::{raw, Facts, Refusal};
use common::{judge, open, parity, seal, valid_address, GOOD};
use ecma130::{edc_bitwise, write_parity_of, write_q_parity, Address, Kind};
use ecma130::{FORM_BIT, P_PARITY_START, Q_PARITY_START, SECTOR_BYTES};
use model::Random;
use std::ops::Range;

const ADDRESS: Address = Address::new(12, 34, 56);
const MODE_PLACE: usize = 15;
const FORMS: [Kind; 2] = [Kind::Form1, Kind::Form2];

/// By the kind that a number names; the subheader is only read.
fn seal_xa(sector: &mut [u8], address: Address, kind: u16, subheader: [u8; 4]) -> Result<(), ecma130::Refusal> {
    let (mut other, lent_subheader) = (sector.to_vec(), subheader);
    let Address { minute, second, frame } = address;
    let (bytes, length) = (sector.as_mut_ptr(), sector.len());
    // SAFETY: the pointer and the length are those of the sector, and the subheader is four bytes; both are lent for the call.
    let answer = unsafe { raw::cdrom_seal_xa(bytes, length, minute, second, frame, kind, &lent_subheader) };
    let expected = ecma130::seal_xa(&mut other, address, kind, subheader);
    assert_eq!(answer, expected.map_or_else(|refusal| refusal.number() as u32, |()| 0), "{address:?}, kind {kind}");
    assert_eq!(sector, other, "{address:?}, kind {kind}");
    assert_eq!(lent_subheader, subheader);
    expected
}

/// Of the kind's form, and else of any bytes.
fn any_subheader(kind: Kind, random: &mut Random) -> [u8; 4] {
    let mut subheader = [0; 4].map(|_: u8| random.below(256) as u8);
    subheader[2] = if kind == Kind::Form2 { subheader[2] | FORM_BIT } else { subheader[2] & !FORM_BIT };
    subheader
}

fn good_sector(kind: Kind, random: &mut Random) -> Vec<u8> {
    let mut sector = random.bytes(SECTOR_BYTES);
    let subheader = any_subheader(kind, random);
    seal_xa(&mut sector, ADDRESS, kind as u16, subheader).unwrap();
    open(&mut sector).unwrap();
    sector
}

fn with_code(mut sector: Vec<u8>) -> Vec<u8> {
    let kind = Kind::of_sector(&sector);
    let code = edc_bitwise(&sector[kind.covered()]);
    sector[kind.code()].copy_from_slice(&code.to_le_bytes());
    sector
}

fn why(sector: &[u8]) -> u8 {
    judge(sector, ADDRESS).unwrap().why()
}

#[test]
fn sealed_and_opened_gives_user_bytes_address_and_subheader_back() {
    let mut random = Random::new(1);
    for kind in Kind::ALL.into_iter().cycle().take(600) {
        let (address, subheader) = (valid_address(&mut random), any_subheader(kind, &mut random));
        let mut sector = random.bytes(SECTOR_BYTES);
        let user = sector[kind.user()].to_vec();
        seal_xa(&mut sector, address, kind as u16, subheader).unwrap();
        let sealed = sector.clone();
        open(&mut sector).unwrap();
        assert_eq!(sector[kind.user()], user);
        assert_eq!(sector[12..15], address.bcd());
        assert_eq!(sector[MODE_PLACE], kind.mode_byte());
        assert!(kind == Kind::Mode1 || sector[16..24] == [subheader, subheader].concat());
        assert_eq!((judge(&sector, address), parity(&sector)), (Ok(GOOD), Ok(true)));
        seal_xa(&mut sector, address, kind as u16, subheader).unwrap();
        assert_eq!(sector, sealed);
    }
}

#[test]
fn mode_1_is_sealed_alike_by_both_calls() {
    let mut random = Random::new(2);
    for _ in 0..200 {
        let before = random.bytes(SECTOR_BYTES);
        let subheader = [0; 4].map(|_: u8| random.below(256) as u8);
        let (mut one, mut other) = (before.clone(), before);
        seal(&mut one, ADDRESS).unwrap();
        seal_xa(&mut other, ADDRESS, 1, subheader).unwrap();
        assert_eq!(one, other);
    }
}

/// Sealing adds to a sector of zeros what each bit adds by itself, and every sector is a sum of these.
#[test]
fn each_single_user_bit_is_sealed_alike() {
    for kind in FORMS {
        let subheader = [0, 0, if kind == Kind::Form2 { FORM_BIT } else { 0 }, 0];
        for bit in kind.user().start * 8..kind.user().end * 8 {
            let mut sector = vec![0; SECTOR_BYTES];
            sector[bit / 8] = 1 << (bit % 8);
            seal_xa(&mut sector, ADDRESS, kind as u16, subheader).unwrap();
        }
    }
}

/// Each bit of the four bytes alone, and all values of the submode; what disagrees is refused.
#[test]
fn each_subheader_bit_and_each_submode() {
    let stale = Random::new(3).bytes(SECTOR_BYTES);
    let bits = (0..32).map(|bit| (1u32 << bit).to_le_bytes());
    let submodes = (0..=255).map(|submode| [1, 2, submode, 4]);
    for subheader in bits.chain(submodes) {
        for kind in 1..=3 {
            let mut sector = stale.clone();
            let disagrees = kind == 2 && subheader[2] & 32 != 0 || kind == 3 && subheader[2] & 32 == 0;
            let answer = seal_xa(&mut sector, ADDRESS, kind, subheader);
            assert_eq!(answer, if disagrees { Err(ecma130::Refusal::OtherForm) } else { Ok(()) });
            assert_eq!(sector == stale, disagrees);
        }
    }
}

#[test]
fn every_number_of_a_kind() {
    let stale = Random::new(4).bytes(SECTOR_BYTES);
    let mut taken = Vec::new();
    for (kind, submode) in (0..=65535).flat_map(|kind| [(kind, 0x00), (kind, 0xFF)]) {
        let mut sector = stale.clone();
        if seal_xa(&mut sector, ADDRESS, kind, [9, 9, submode, 9]).is_ok() {
            taken.push((kind, submode));
        }
    }
    assert_eq!(taken, [(1, 0x00), (1, 0xFF), (2, 0x00), (3, 0xFF)]);
}

#[test]
fn what_lay_beside_the_user_bytes_does_not_matter() {
    let mut random = Random::new(5);
    for kind in FORMS {
        let (user, subheader) = (random.bytes(kind.user().len()), any_subheader(kind, &mut random));
        let sealed: Vec<Vec<u8>> = (0..50)
            .map(|_| {
                let mut sector = random.bytes(SECTOR_BYTES);
                sector[kind.user()].copy_from_slice(&user);
                seal_xa(&mut sector, ADDRESS, kind as u16, subheader).unwrap();
                sector
            })
            .collect();
        assert!(sealed.iter().all(|sector| *sector == sealed[0]));
    }
}

/// The lowest of the refusals, whatever else is wrong; and no byte is changed.
#[test]
fn refusals_of_sealing() {
    let mut random = Random::new(6);
    let lengths = (0..=64).chain([2063, 2072, 2340, 2351, 2352, 2353, 2560, 4704, 65_536 + 2352]);
    let addresses = [ADDRESS, Address::new(100, 0, 0), Address::new(0, 60, 0), Address::new(0, 0, 65_535)];
    for length in lengths {
        let before = random.bytes(length);
        for (address, kind) in
            addresses.into_iter().flat_map(|address| [0, 1, 2, 3, 4, 257].map(|kind| (address, kind)))
        {
            let mut sector = before.clone();
            let answer = seal_xa(&mut sector, address, kind, [1, 2, 0x20, 3]);
            let done = length == SECTOR_BYTES && address == ADDRESS && (kind == 1 || kind == 3);
            let number = answer.map_or_else(|refusal| refusal.number(), |()| 0);
            let expected = if done { 0 } else { 1 + 2 * (length == SECTOR_BYTES) as u16 };
            assert_eq!(number, expected, "{length} {address:?} {kind}");
            assert_eq!(sector == before, !done);
        }
        if length != SECTOR_BYTES {
            assert_eq!(
                (judge(&before, ADDRESS), parity(&before)),
                (Err(Refusal::WrongLength), Err(Refusal::WrongLength))
            );
        }
    }
}

/// What a changed bit of a good sector of mode 2 sets. Bytes 15 and 18 change the rule.
fn why_of_bit(kind: Kind, place: usize) -> u8 {
    match place {
        0..12 => 8,
        12..15 => 1,
        15..24 => 6,
        place if place < kind.code().end => 2,
        _ => 0,
    }
}

#[test]
fn every_single_bit_is_judged_and_checked() {
    for kind in FORMS {
        let mut sector = good_sector(kind, &mut Random::new(7));
        for bit in 0..SECTOR_BYTES * 8 {
            let (place, damage) = (bit / 8, 1 << (bit % 8));
            sector[place] ^= damage;
            assert_eq!(why(&sector), why_of_bit(kind, place), "bit {bit} of {kind:?}");
            let holds = match (kind, place, damage) {
                (_, MODE_PLACE, _) => false,
                (Kind::Form1, 18, FORM_BIT) => true,
                (Kind::Form2, 18, FORM_BIT) => false,
                _ => kind == Kind::Form2 || place < MODE_PLACE,
            };
            assert_eq!(parity(&sector), Ok(holds), "bit {bit} of {kind:?}");
            sector[place] ^= damage;
        }
    }
}

#[test]
fn each_of_the_sixteen_is_told_in_each_kind() {
    let mut random = Random::new(8);
    for (kind, why) in FORMS.into_iter().flat_map(|kind| (0..16).map(move |why| (kind, why))).cycle().take(32 * 100) {
        let mut sector = good_sector(kind, &mut random);
        spoil_if(why & 8 != 0, &mut sector[..12], &mut random);
        spoil_if(why & 4 != 0, &mut sector[20..24], &mut random);
        spoil_if(why & 1 != 0, &mut sector[12..15], &mut random);
        let mut sector = with_code(sector);
        spoil_if(why & 2 != 0, &mut sector[kind.code()], &mut random);
        assert_eq!(judge(&sector, ADDRESS).map(Facts::why), Ok(why), "{kind:?}");
    }
}

fn spoil_if(wanted: bool, bytes: &mut [u8], random: &mut Random) {
    if wanted {
        let place = random.below(bytes.len() as u64) as usize;
        bytes[place] ^= random.between(1, 255) as u8;
    }
}

/// All 256 mode bytes over sectors of each kind, as they stand and under a code and a parity of mode 1.
#[test]
fn every_mode_byte() {
    let mut random = Random::new(9);
    for kind in Kind::ALL {
        let sector = good_sector(kind, &mut random);
        for mode in 0..=255 {
            let mut other = sector.clone();
            other[MODE_PLACE] = mode;
            judge(&other, ADDRESS).unwrap();
            parity(&other).unwrap();
            let mut fitting = with_code(other);
            write_parity_of(&mut fitting, Kind::of_sector(&sector));
            judge(&fitting, ADDRESS).unwrap();
            parity(&fitting).unwrap();
            write_parity_of(&mut fitting, Kind::Mode1);
            let facts = judge(&fitting, ADDRESS).unwrap();
            if mode != 1 && mode != 2 {
                assert_eq!((facts.why(), parity(&fitting)), (4, Ok(true)), "mode {mode} over {kind:?}");
            }
        }
    }
}

/// No code was written. All four bytes must be zero, and the form be 2 by the first copy.
#[test]
fn codes_of_zeros() {
    let mut random = Random::new(10);
    for kind in Kind::ALL {
        for zeros in [0..4, 0..3, 1..4, 0..1, 3..4] {
            let mut sector = good_sector(kind, &mut random);
            let code: Range<usize> = kind.code().start + zeros.start..kind.code().start + zeros.end;
            sector[kind.user().end - 1] ^= 1;
            sector[code].fill(0);
            let none = kind == Kind::Form2 && zeros == (0..4);
            assert_eq!(why(&sector), if none { 0 } else { 2 }, "{zeros:?} of {kind:?}");
            sector[2348..].fill(0);
            sector[22] ^= FORM_BIT;
            judge(&sector, ADDRESS).unwrap();
            sector[18] ^= FORM_BIT;
            judge(&sector, ADDRESS).unwrap();
        }
    }
}

/// A byte that names the rule, with all else right by both: one damaged byte that passes.
#[test]
fn good_before_and_after_by_another_rule() {
    let mut sector = vec![0x20; SECTOR_BYTES];
    seal(&mut sector, ADDRESS).unwrap();
    open(&mut sector).unwrap();
    sector[2348..].fill(0);
    assert_eq!(why(&sector), 0);
    sector[MODE_PLACE] = 2;
    assert_eq!((why(&sector), parity(&sector)), (0, Ok(true)));
    // And a form 1 sector of zeros, whose last parity bytes are zero as they were sealed.
    let mut sector = vec![0; SECTOR_BYTES];
    seal_xa(&mut sector, ADDRESS, 2, [0, 0, 8, 0]).unwrap();
    open(&mut sector).unwrap();
    assert_eq!(sector[2348..], [0; 4]);
    for _ in 0..2 {
        sector[18] ^= FORM_BIT;
        sector[22] ^= FORM_BIT;
        assert_eq!((why(&sector), parity(&sector)), (0, Ok(true)));
    }
}

#[test]
fn every_p_word_of_form_1_fails_alone() {
    let mut random = Random::new(11);
    let sector = good_sector(Kind::Form1, &mut random);
    for place in 16..Q_PARITY_START {
        let mut damaged = sector.clone();
        damaged[place] ^= if place == 18 { 0x41 } else { random.between(1, 255) as u8 };
        let header: [u8; 4] = damaged[12..16].try_into().unwrap();
        damaged[12..16].fill(0);
        write_q_parity(&mut damaged).unwrap();
        damaged[12..16].copy_from_slice(&header);
        assert_eq!(parity(&damaged), Ok(false), "byte {place}");
    }
}

#[test]
fn form_1_is_checked_under_any_header() {
    let mut random = Random::new(12);
    let mut sector = good_sector(Kind::Form1, &mut random);
    for _ in 0..300 {
        sector[12..15].copy_from_slice(&random.bytes(3));
        assert_eq!(parity(&sector), Ok(true));
    }
    write_parity_of(&mut sector, Kind::Mode1);
    assert_eq!(parity(&sector), Ok(false));
}

#[test]
fn any_bytes_of_mode_2() {
    let mut random = Random::new(13);
    for _ in 0..1000 {
        let mut sector = random.bytes(SECTOR_BYTES);
        sector[MODE_PLACE] = 2;
        let form_2 = sector[18] & FORM_BIT != 0;
        judge(&sector, ADDRESS).unwrap();
        assert_eq!(parity(&sector), Ok(form_2));
        write_parity_of(&mut sector, Kind::Form1);
        assert_eq!(parity(&sector), Ok(true));
        sector[P_PARITY_START..].fill(0);
        judge(&sector, ADDRESS).unwrap();
        assert_eq!(parity(&sector), Ok(form_2));
        open(&mut sector).unwrap();
        judge(&sector, ADDRESS).unwrap();
    }
}
