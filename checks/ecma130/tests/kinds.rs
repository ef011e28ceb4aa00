//! Sectors of the three kinds: sealed, damaged byte by byte, and crafted to fail in each way.

use ecma130::{edc_bitwise, judge, open, parity_holds, seal, seal_xa, words_hold, write_parity_of};
use ecma130::{Address, Facts, Kind, Refusal, FIRST_COPY, SECOND_COPY, SECTOR_BYTES, SYNC};

const ADDRESS: Address = Address::new(12, 34, 56);
/// One for each kind. That of mode 1 is not to matter.
const SUBHEADERS: [[u8; 4]; 3] = [[1, 2, 0x64, 3], [7, 1, 0x89, 0x80], [7, 2, 0x64, 0x01]];
const DAMAGES: [u8; 10] = [1, 2, 4, 8, 16, 32, 64, 128, 0xFF, 3];
const MODE_PLACE: usize = 15;

fn subheader(kind: Kind) -> [u8; 4] {
    SUBHEADERS[kind as usize - 1]
}

/// A buffer in which no two bytes beside one another are alike.
fn buffer() -> Vec<u8> {
    (0..SECTOR_BYTES).map(|place| (place * 7 + place / 256) as u8).collect()
}

fn sealed_and_opened(kind: Kind) -> Vec<u8> {
    let mut sector = buffer();
    seal_xa(&mut sector, ADDRESS, kind as u16, subheader(kind)).unwrap();
    open(&mut sector).unwrap();
    sector
}

fn why(sector: &[u8]) -> u8 {
    judge(sector, ADDRESS).unwrap().why()
}

/// The sector with the code made to fit that its own rule asks for.
fn with_code(mut sector: Vec<u8>) -> Vec<u8> {
    let kind = Kind::of_sector(&sector);
    let code = edc_bitwise(&sector[kind.covered()]);
    sector[kind.code()].copy_from_slice(&code.to_le_bytes());
    sector
}

#[test]
fn sealing_keeps_the_user_bytes_and_writes_all_others() {
    for kind in Kind::ALL {
        let sector = sealed_and_opened(kind);
        assert_eq!(sector[..12], SYNC);
        assert_eq!(sector[12..16], [0x12, 0x34, 0x56, kind.mode_byte()]);
        assert_eq!(sector[kind.user()], buffer()[kind.user()]);
        if kind.has_subheader() {
            assert_eq!([&sector[FIRST_COPY], &sector[SECOND_COPY]], [subheader(kind); 2]);
        }
        assert_eq!(why(&sector), 0);
        assert_eq!(parity_holds(&sector), Ok(true));
    }
}

#[test]
fn mode_1_is_sealed_alike_by_both_calls_whatever_the_subheader() {
    for subheader in [[0; 4], [255; 4], SUBHEADERS[1], SUBHEADERS[2]] {
        let (mut one, mut other) = (buffer(), buffer());
        seal(&mut one, ADDRESS).unwrap();
        seal_xa(&mut other, ADDRESS, 1, subheader).unwrap();
        assert_eq!(one, other);
    }
}

#[test]
fn what_lay_beside_the_user_bytes_does_not_matter() {
    for kind in Kind::ALL {
        let mut sealed = sealed_and_opened(kind);
        open(&mut sealed).unwrap();
        for stale in [0x00, 0x5A, 0xFF] {
            let mut sector = vec![stale; SECTOR_BYTES];
            sector[kind.user()].copy_from_slice(&buffer()[kind.user()]);
            seal_xa(&mut sector, ADDRESS, kind as u16, subheader(kind)).unwrap();
            assert_eq!(sector, sealed);
        }
    }
}

#[test]
fn an_opened_sector_is_sealed_as_it_was() {
    for kind in Kind::ALL {
        let mut sector = sealed_and_opened(kind);
        let before = sector.clone();
        seal_xa(&mut sector, ADDRESS, kind as u16, subheader(kind)).unwrap();
        open(&mut sector).unwrap();
        assert_eq!(sector, before);
    }
}

#[test]
fn refusals_of_sealing_are_the_lowest_and_change_nothing() {
    let bad = Address::new(0, 60, 0);
    let cases = [
        (2351, bad, 4, [0; 4], Refusal::WrongLength),
        (2353, ADDRESS, 3, [0; 4], Refusal::WrongLength),
        (0, ADDRESS, 1, [0; 4], Refusal::WrongLength),
        (2352, bad, 2, [0; 4], Refusal::BadAddress),
        (2352, ADDRESS, 0, [0; 4], Refusal::UnknownKind),
        (2352, ADDRESS, 4, [0; 4], Refusal::UnknownKind),
        (2352, ADDRESS, 257, [0; 4], Refusal::UnknownKind),
        (2352, ADDRESS, 65535, [255; 4], Refusal::UnknownKind),
        (2352, ADDRESS, 2, [0, 0, 0x20, 0], Refusal::OtherForm),
        (2352, ADDRESS, 3, [255, 255, 0xDF, 255], Refusal::OtherForm),
    ];
    for (length, address, kind, subheader, refusal) in cases {
        let mut bytes = vec![3; length];
        assert_eq!(seal_xa(&mut bytes, address, kind, subheader), Err(refusal));
        assert_eq!(refusal.number(), if refusal == Refusal::WrongLength { 1 } else { 3 });
        assert!(bytes.iter().all(|&byte| byte == 3));
    }
}

/// In mode 1 the mode fails by its byte, in mode 2 by a second copy that differs.
fn crafted(kind: Kind, facts: Facts) -> Vec<u8> {
    let mut sector = sealed_and_opened(kind);
    sector[11] ^= facts.sync as u8;
    sector[14] ^= facts.address as u8;
    let mode_byte = if kind.has_subheader() { 22 } else { MODE_PLACE };
    sector[mode_byte] ^= 0x20 * facts.mode as u8;
    let mut sector = with_code(sector);
    let last = kind.code().end - 1;
    sector[last] ^= 0x80 * facts.edc as u8;
    sector
}

#[test]
fn no_fact_hides_another() {
    for (kind, why) in Kind::ALL.into_iter().flat_map(|kind| (0..16).map(move |why| (kind, why))) {
        let failed = |weight: u8| why & weight != 0;
        let facts = Facts { sync: failed(8), mode: failed(4), edc: failed(2), address: failed(1) };
        let sector = crafted(kind, facts);
        assert_eq!(Kind::of_sector(&sector), kind);
        assert_eq!(judge(&sector, ADDRESS), Ok(facts), "{kind:?}");
        assert_eq!(judge(&sector, ADDRESS).unwrap().why(), why);
    }
}

/// What a damaged byte sets in a good sector. A mode byte of 1 or 2 that became the other is read by another rule, whose
/// code does not fit, and a mode byte of another value by that of mode 1.
fn why_of_damage(kind: Kind, place: usize, damage: u8) -> u8 {
    match (kind, place) {
        (Kind::Mode1, 0..12) => 10,
        (_, 0..12) => 8,
        (Kind::Mode1, 12..15) => 3,
        (_, 12..15) => 1,
        // The user bytes of mode 1 are no subheader twice.
        (Kind::Mode1, MODE_PLACE) => 6,
        (_, MODE_PLACE) if damage == 3 => 2,
        (_, MODE_PLACE) => 6,
        (Kind::Form1 | Kind::Form2, 16..24) => 6,
        (_, place) if place < kind.code().end => 2,
        _ => 0,
    }
}

#[test]
fn any_single_damage_is_told_by_its_place() {
    for kind in Kind::ALL {
        let mut sector = sealed_and_opened(kind);
        for (place, damage) in (0..SECTOR_BYTES).flat_map(|place| DAMAGES.map(|damage| (place, damage))) {
            sector[place] ^= damage;
            assert_eq!(why(&sector), why_of_damage(kind, place, damage), "{kind:?}, byte {place}, {damage:02X}");
            sector[place] ^= damage;
        }
    }
}

/// In form 1 the header does not count, but for the rule that its mode byte names. Byte 18 names the form.
fn holds_with_damage(kind: Kind, place: usize, damage: u8) -> bool {
    match (kind, place) {
        (_, 0..12) => true,
        (Kind::Form1, 12..15) => true,
        (Kind::Mode1, MODE_PLACE) if damage == 3 => buffer()[18] & 0x20 != 0,
        (Kind::Form1, 18) => damage & 0x20 != 0,
        (Kind::Form2, MODE_PLACE) => false,
        (Kind::Form2, 18) => damage & 0x20 == 0,
        (Kind::Form2, _) => true,
        _ => false,
    }
}

#[test]
fn any_single_damage_is_seen_by_the_words_that_have_it() {
    for kind in Kind::ALL {
        let mut sector = sealed_and_opened(kind);
        for (place, damage) in (0..SECTOR_BYTES).flat_map(|place| DAMAGES.map(|damage| (place, damage))) {
            sector[place] ^= damage;
            let holds = holds_with_damage(kind, place, damage);
            assert_eq!(parity_holds(&sector), Ok(holds), "{kind:?}, byte {place}, {damage:02X}");
            sector[place] ^= damage;
        }
    }
}

#[test]
fn form_1_is_checked_under_any_header() {
    let mut sector = sealed_and_opened(Kind::Form1);
    for minute in 0..=255 {
        sector[12..15].fill(minute);
        assert_eq!(parity_holds(&sector), Ok(true));
        assert_eq!(words_hold(&sector, Kind::Mode1), Ok(false));
    }
    // By the rule of mode 1 the header's own bytes count, and then form 1 does not hold.
    write_parity_of(&mut sector, Kind::Mode1);
    assert_eq!(parity_holds(&sector), Ok(false));
}

#[test]
fn form_2_holds_whatever_its_bytes_are() {
    for stale in [0x00, 0x5A, 0xFF] {
        let mut sector = vec![stale; SECTOR_BYTES];
        sector[MODE_PLACE] = 2;
        for (submode, second) in [(0x20, 0x20), (0x20, 0x00), (0xFF, 0x00)] {
            (sector[18], sector[22]) = (submode, second);
            assert_eq!(parity_holds(&sector), Ok(true));
        }
        (sector[18], sector[22]) = (0x00, 0x20);
        assert_eq!(parity_holds(&sector), words_hold(&sector, Kind::Form1));
    }
}

/// No code was written. In the other kinds a code of zeros is one like any other.
#[test]
fn a_code_of_zeros_is_accepted_in_form_2_alone() {
    for (kind, expected) in [(Kind::Mode1, 2), (Kind::Form1, 2), (Kind::Form2, 0)] {
        let mut sector = sealed_and_opened(kind);
        sector[kind.code()].fill(0);
        assert_eq!(why(&sector), expected, "{kind:?}");
        // Whatever the bytes are that it would have been taken over.
        sector[kind.user()].reverse();
        assert_eq!(why(&sector), expected, "{kind:?}");
        sector[SECOND_COPY].fill(0x11);
        assert_eq!(why(&sector), if kind == Kind::Form2 { 4 } else { why_of_copy(kind) }, "{kind:?}");
    }
}

/// Bytes 20 to 23 are user bytes in mode 1.
fn why_of_copy(kind: Kind) -> u8 {
    if kind.has_subheader() {
        6
    } else {
        2
    }
}

#[test]
fn zeros_in_three_bytes_of_a_code_are_a_code() {
    for left in 0..4 {
        for byte in 1..=255 {
            let mut sector = sealed_and_opened(Kind::Form2);
            sector[2348..].fill(0);
            sector[2348 + left] = byte;
            assert_eq!(why(&sector), 2, "byte {left} is {byte:02X}");
        }
    }
}

/// The code of zeros is zero: here it was written.
#[test]
fn form_1_of_zeros_is_good() {
    let mut sector = vec![0; SECTOR_BYTES];
    sector[..12].copy_from_slice(&SYNC);
    sector[MODE_PLACE] = 2;
    assert!(judge(&sector, Address::new(0, 0, 0)).unwrap().is_good());
    assert_eq!(parity_holds(&sector), Ok(true));
}

/// The mode fact alone: the code is judged as it stands, by the form of the first copy.
#[test]
fn unequal_subheaders() {
    for kind in [Kind::Form1, Kind::Form2] {
        for (place, damage) in (20..24).flat_map(|place| DAMAGES.map(|damage| (place, damage))) {
            let mut sector = sealed_and_opened(kind);
            sector[place] ^= damage;
            assert_eq!(why(&sector), 6);
            assert_eq!(why(&with_code(sector)), 4, "{kind:?}, byte {place}");
        }
    }
}

#[test]
fn the_first_copy_alone_tells_the_form() {
    for (kind, other) in [(Kind::Form1, Kind::Form2), (Kind::Form2, Kind::Form1)] {
        let mut sector = sealed_and_opened(kind);
        sector[22] ^= 0x20;
        assert_eq!(Kind::of_sector(&sector), kind);
        assert_eq!(why(&with_code(sector.clone())), 4);
        (sector[18], sector[22]) = (sector[22], sector[18]);
        assert_eq!(Kind::of_sector(&sector), other);
        assert_eq!(why(&with_code(sector)), 4);
    }
}

/// By the rule of mode 1, whatever stands where mode 2 has its subheader.
#[test]
fn other_mode_bytes() {
    for (mode, kind) in (0..=255).filter(|mode| ![1, 2].contains(mode)).flat_map(|mode| Kind::ALL.map(|k| (mode, k))) {
        let mut sector = sealed_and_opened(kind);
        sector[MODE_PLACE] = mode;
        assert_eq!(Kind::of_sector(&sector), Kind::Mode1);
        assert_eq!((why(&sector), parity_holds(&sector)), (6, Ok(false)), "{mode} in {kind:?}");
        let mut fitting = with_code(sector);
        write_parity_of(&mut fitting, Kind::Mode1);
        assert_eq!((why(&fitting), parity_holds(&fitting)), (4, Ok(true)), "{mode} in {kind:?}");
        // No code is none in mode 1, and the header's bytes count.
        fitting[2064..2068].fill(0);
        write_parity_of(&mut fitting, Kind::Form1);
        assert_eq!((why(&fitting), parity_holds(&fitting)), (6, Ok(false)), "{mode} in {kind:?}");
    }
}
