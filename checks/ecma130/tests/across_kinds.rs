//! One damaged byte of a good sector of mode 1 or form 1, up to the end of its code, never passes while it is read by the
//! same rule. A byte that names the rule may, and in form 2 one that leaves no code: here are sectors that are good before
//! and after.

use ecma130::{edc_bitwise, judge, open, parity_holds, seal, seal_xa, Address, Kind, SECTOR_BYTES};

const ADDRESS: Address = Address::new(12, 34, 56);
const MODE_PLACE: usize = 15;

fn is_good(sector: &[u8]) -> bool {
    judge(sector, ADDRESS).unwrap().is_good()
}

fn opened(kind: u16, subheader: [u8; 4], user: &[u8]) -> Vec<u8> {
    let mut sector = user.to_vec();
    seal_xa(&mut sector, ADDRESS, kind, subheader).unwrap();
    open(&mut sector).unwrap();
    sector
}

/// 20h is the form bit, and all user bytes are alike.
#[test]
fn mode_1_without_its_last_parity_bytes_becomes_form_2_without_a_code() {
    let mut sector = vec![0x20; SECTOR_BYTES];
    seal(&mut sector, ADDRESS).unwrap();
    open(&mut sector).unwrap();
    sector[2348..].fill(0);
    assert!(is_good(&sector));
    assert_eq!(parity_holds(&sector), Ok(false));
    sector[MODE_PLACE] = 2;
    assert_eq!(Kind::of_sector(&sector), Kind::Form2);
    assert!(is_good(&sector));
    assert_eq!(parity_holds(&sector), Ok(true));
}

/// The last four bytes of a sealed sector, which are parity, as the bits of a number.
fn last_bytes(user: &[u8]) -> u32 {
    let mut sector = user.to_vec();
    seal(&mut sector, ADDRESS).unwrap();
    open(&mut sector).unwrap();
    u32::from_le_bytes(sector[2348..].try_into().unwrap())
}

/// User bytes whose sealed sector ends with zeros. What a bit adds to the last bytes does not depend on the
/// other bits, so that the bits from byte 100 on are taken in turn, each made to change a bit of its own alone.
fn ending_with_zeros(user: &[u8]) -> Vec<u8> {
    let start = last_bytes(user);
    let flipped = |user: &[u8], bit: usize| {
        let mut other = user.to_vec();
        other[100 + bit / 8] ^= 1 << (bit % 8);
        other
    };
    let mut basis: Vec<(u32, Vec<usize>)> = Vec::new();
    for bit in 0..400 {
        let row = (last_bytes(&flipped(user, bit)) ^ start, vec![bit]);
        let reduced = basis.iter().fold(row, added_if_smaller);
        if reduced.0 != 0 {
            basis.push(reduced);
            basis.sort_by_key(|(change, _)| std::cmp::Reverse(*change));
        }
    }
    let (rest, bits) = basis.iter().fold((start, Vec::new()), added_if_smaller);
    assert_eq!(rest, 0, "the last bytes can be made zero");
    bits.into_iter().fold(user.to_vec(), |user, bit| flipped(&user, bit))
}

/// Adds a row where that clears its leading bit.
fn added_if_smaller(one: (u32, Vec<usize>), other: &(u32, Vec<usize>)) -> (u32, Vec<usize>) {
    if one.0 ^ other.0 < one.0 {
        (one.0 ^ other.0, [one.1, other.1.clone()].concat())
    } else {
        one
    }
}

/// With true parity too: neither judging nor the check sees that byte 15 is wrong.
#[test]
fn a_sealed_sector_of_mode_1_becomes_form_2() {
    let user: Vec<u8> = (0..SECTOR_BYTES).map(|place| if place < 24 { 0x65 } else { (place * 11) as u8 }).collect();
    let mut sector = ending_with_zeros(&user);
    seal(&mut sector, ADDRESS).unwrap();
    open(&mut sector).unwrap();
    assert_eq!(sector[2348..], [0; 4]);
    assert!(is_good(&sector) && parity_holds(&sector).unwrap());
    sector[MODE_PLACE] = 2;
    assert_eq!(Kind::of_sector(&sector), Kind::Form2);
    assert!(is_good(&sector) && parity_holds(&sector).unwrap());
}

/// User bytes of mode 2 that are the code of mode 1 for the byte that is to come.
#[test]
fn a_sealed_sector_of_mode_2_becomes_mode_1() {
    for (kind, subheader) in [(2, [1, 2, 0x08, 4]), (3, [1, 2, 0x28, 4])] {
        let user: Vec<u8> = (0..SECTOR_BYTES).map(|place| (place * 13) as u8).collect();
        let mut as_mode_1 = opened(kind, subheader, &user);
        as_mode_1[MODE_PLACE] = 1;
        let code = edc_bitwise(&as_mode_1[..2064]);
        let mut user = user;
        user[2064..2068].copy_from_slice(&code.to_le_bytes());
        let mut sector = opened(kind, subheader, &user);
        assert!(is_good(&sector) && parity_holds(&sector).unwrap());
        sector[MODE_PLACE] = 1;
        assert_eq!(Kind::of_sector(&sector), Kind::Mode1);
        assert!(is_good(&sector));
        assert_eq!(parity_holds(&sector), Ok(false));
    }
}

/// The bit of the first copy alone: the copies were unequal before, and nothing else was wrong.
#[test]
fn the_form_bit_makes_a_sector_good() {
    let mut sector = opened(2, [1, 2, 0x08, 4], &[0x5A; SECTOR_BYTES]);
    sector[22] ^= 0x20;
    let code = edc_bitwise(&sector[16..2072]);
    sector[2072..2076].copy_from_slice(&code.to_le_bytes());
    sector[2348..].fill(0);
    assert_eq!(judge(&sector, ADDRESS).unwrap().why(), 4);
    sector[18] ^= 0x20;
    assert_eq!(Kind::of_sector(&sector), Kind::Form2);
    assert!(is_good(&sector) && parity_holds(&sector).unwrap());
}

/// And in both copies from good to good, either way.
#[test]
fn the_form_bits_of_both_copies() {
    let mut sector = opened(2, [1, 2, 0x08, 4], &[0x5A; SECTOR_BYTES]);
    sector[2348..].fill(0);
    for kind in [Kind::Form1, Kind::Form2, Kind::Form1] {
        assert_eq!(Kind::of_sector(&sector), kind);
        assert!(is_good(&sector));
        assert_eq!(parity_holds(&sector), Ok(kind == Kind::Form2));
        sector[18] ^= 0x20;
        sector[22] ^= 0x20;
    }
}

/// Of a sector of zeros with file and channel 0 the last parity bytes are zero, whatever submode and coding are: each
/// bit of them adds nothing, and they add up. Both form bits changed it is form 2 without a code.
#[test]
fn form_1_of_zeros_becomes_form_2() {
    for subheader in (0..16).map(|bit| 1u16 << bit).chain([0]).map(|bits| [0, 0, bits as u8 & !0x20, (bits >> 8) as u8])
    {
        let mut sector = opened(2, subheader, &[0; SECTOR_BYTES]);
        assert_eq!(sector[2348..], [0; 4], "{subheader:?}");
        assert!(is_good(&sector) && parity_holds(&sector).unwrap());
        sector[18] ^= 0x20;
        sector[22] ^= 0x20;
        assert_eq!(Kind::of_sector(&sector), Kind::Form2);
        assert!(is_good(&sector) && parity_holds(&sector).unwrap());
    }
}

/// The register of the code four bytes before it was this one, had they been zero.
fn four_bytes_back(register: u32) -> u32 {
    const GENERATOR: u32 = 0x8001_801B_u32.reverse_bits();
    (0..32).fold(register, |after, _| match after >> 31 {
        0 => after << 1,
        _ => (after ^ GENERATOR) << 1 | 1,
    })
}

/// The last user bytes make the code any that is wanted.
fn form_2_with_code(code: [u8; 4]) -> Vec<u8> {
    let mut user: Vec<u8> = (0..SECTOR_BYTES).map(|place| (place * 17) as u8).collect();
    let sector = opened(3, [1, 2, 0x28, 4], &user);
    let needed = edc_bitwise(&sector[16..2344]) ^ four_bytes_back(u32::from_le_bytes(code));
    user[2344..2348].copy_from_slice(&needed.to_le_bytes());
    opened(3, [1, 2, 0x28, 4], &user)
}

/// Where the other three bytes are zero, a code that loses its last one was never written.
#[test]
fn one_damaged_byte_of_form_2_leaves_no_code() {
    for (place, byte) in (2348..2352).flat_map(|place| [0x01, 0x5A, 0xFF].map(|byte| (place, byte))) {
        let mut code = [0; 4];
        code[place - 2348] = byte;
        let mut sector = form_2_with_code(code);
        assert_eq!(sector[2348..], code);
        assert!(is_good(&sector));
        sector[place] ^= 0x80;
        assert!(!is_good(&sector));
        sector[place] = 0;
        assert!(is_good(&sector) && parity_holds(&sector).unwrap());
    }
}

/// And a sector that has none is good whatever its user bytes are.
#[test]
fn user_bytes_of_form_2_without_a_code_are_not_judged() {
    let mut sector = form_2_with_code([0; 4]);
    for place in 24..2348 {
        sector[place] ^= 0xFF;
        assert!(is_good(&sector) && parity_holds(&sector).unwrap(), "byte {place}");
    }
}
