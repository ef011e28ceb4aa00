//! Addresses through the library, against the independent code: the one that follows each, what is refused, each byte
//! of a header against each number that is expected, and what is written into a header.

use ecma130::{judge, open, scramble, seal_xa, Address, Kind, FORM_BIT, SECTOR_BYTES};
use library::{Answer, Library, Linked};

const FIRST: Address = Address::new(0, 0, 0);
const LAST: Address = Address::new(99, 59, 74);
const ADDRESS: Address = Address::new(12, 34, 56);
const HEADER_START: usize = 12;
const SUBHEADER: [u8; 4] = [1, 2, FORM_BIT, 3];

const DONE: Answer = Answer::Reply { number: 0, result: 0 };
const OTHER_ADDRESS: Answer = Answer::Reply { number: 0, result: 1 };
const OUT_OF_RANGE: Answer = Answer::Reply { number: 3, result: 0 };

/// About the ends of the ranges; 256 is 0 when cut to a byte, and 65,535 is -1 when taken with a sign.
const EDGES: [u16; 20] = [0, 1, 9, 10, 58, 59, 60, 69, 73, 74, 75, 98, 99, 100, 255, 256, 257, 32_767, 32_768, 65_535];

/// In their order, each part counted for itself.
fn all_addresses() -> impl Iterator<Item = Address> {
    let seconds = (0..100).flat_map(|minute| (0..60).map(move |second| (minute, second)));
    seconds.flat_map(|(minute, second)| (0..75).map(move |frame| Address::new(minute, second, frame)))
}

fn followed_by(next: Address) -> Answer {
    let Address { minute, second, frame } = next;
    Answer::Reply { number: 0, result: minute as u32 * 65_536 + second as u32 * 256 + frame as u32 }
}

/// As the answer has it.
fn next_by_library(address: Address) -> Address {
    let Answer::Reply { number: 0, result } = Linked.next_address(address) else {
        panic!("{address:?} is refused");
    };
    let [frame, second, minute, 0] = result.to_le_bytes() else {
        panic!("{result:#x} has more than three parts");
    };
    Address::new(minute.into(), second.into(), frame.into())
}

/// Each step is made from where the one before it led.
#[test]
fn all_addresses_follow_one_another() {
    let mut place = FIRST;
    for counted in all_addresses() {
        assert_eq!(place, counted);
        place = next_by_library(counted);
        assert_eq!(place, counted.next(), "after {counted:?}");
    }
    assert_eq!((place, all_addresses().count()), (FIRST, 450_000));
}

fn check_next(address: Address) {
    let in_range = address.minute < 100 && address.second < 60 && address.frame < 75;
    let wanted = if in_range { followed_by(address.next()) } else { OUT_OF_RANGE };
    assert_eq!(Linked.next_address(address), wanted, "{address:?}");
}

#[test]
fn every_number_of_each_part() {
    for (number, other) in (0..=65_535).flat_map(|number| [FIRST, ADDRESS, LAST].map(|other| (number, other))) {
        check_next(Address { minute: number, ..other });
        check_next(Address { second: number, ..other });
        check_next(Address { frame: number, ..other });
    }
}

#[test]
fn every_edge_beside_every_edge() {
    let pairs = EDGES.into_iter().flat_map(|minute| EDGES.map(|second| (minute, second)));
    for address in pairs.flat_map(|(minute, second)| EDGES.map(|frame| Address::new(minute, second, frame))) {
        check_next(address);
    }
}

/// Each number of each part, by the place of the part in the header.
fn expected_numbers() -> impl Iterator<Item = (usize, u16)> {
    let ends = [100, 60, 75].into_iter().enumerate();
    ends.flat_map(|(part, end)| (0..end).map(move |number| (part, number)))
}

fn with_part(part: usize, number: u16) -> Address {
    match part {
        0 => Address { minute: number, ..ADDRESS },
        1 => Address { second: number, ..ADDRESS },
        _ => Address { frame: number, ..ADDRESS },
    }
}

/// Opened, and of form 2: its code does not cover the header, so that a header byte changes nothing but the address.
fn form_2_sector(address: Address) -> Vec<u8> {
    let mut sector = vec![0x5A; SECTOR_BYTES];
    seal_xa(&mut sector, address, Kind::Form2 as u16, SUBHEADER).expect("all of it is right");
    open(&mut sector).expect("the length is right");
    sector
}

/// Says whether the byte was taken for the expected one.
fn check_byte(sector: &mut [u8], expected: Address, place: usize, byte: u8) -> bool {
    sector[place] = byte;
    let failed = judge(sector, expected).expect("length and address are right").address;
    let wanted = if failed { OTHER_ADDRESS } else { DONE };
    assert_eq!(Linked.judge(sector, expected), wanted, "byte {byte:#04x} at {place}, {expected:?}");
    !failed
}

#[test]
fn every_header_byte_where_each_number_is_expected() {
    for (part, number) in expected_numbers() {
        let (expected, place) = (with_part(part, number), HEADER_START + part);
        let mut sector = form_2_sector(expected);
        let taken: Vec<u8> = (0..=255).filter(|&byte| check_byte(&mut sector, expected, place, byte)).collect();
        assert_eq!(taken, [expected.bcd()[part]]);
    }
}

/// 1Ah would be 20 if its digits were taken as ten times 1 and 10 more. So for each number that has such a byte.
#[test]
fn a_digit_above_nine_is_another_address() {
    for (part, number) in expected_numbers().filter(|(_, number)| number / 10 > 0 && number % 10 < 6) {
        let (expected, place) = (with_part(part, number), HEADER_START + part);
        let byte = ((number / 10 - 1) << 4 | (number % 10 + 10)) as u8;
        assert_eq!((byte >> 4) as u16 * 10 + (byte & 15) as u16, number);
        assert!(!check_byte(&mut form_2_sector(expected), expected, place, byte));
    }
    let twenty = Address::new(20, 20, 20);
    let is_taken = |place: usize| check_byte(&mut form_2_sector(twenty), twenty, place, 0x1A);
    assert!(![12, 13, 14].into_iter().any(is_taken));
}

/// Only the header is opened, by the independent code.
fn header(sector: &[u8]) -> [u8; 3] {
    let mut header = [sector[12], sector[13], sector[14]];
    scramble(&mut header);
    header
}

/// As mode 1, and as form 2, which is sealed quickest.
#[test]
fn every_address_is_sealed_in_its_digits() {
    let (mut sector, mut subheader) = (vec![0x5A; SECTOR_BYTES], SUBHEADER);
    for address in all_addresses() {
        let digits = address.bcd();
        assert_eq!((Linked.seal(&mut sector, address), header(&sector)), (DONE, digits), "{address:?}");
        let answer = Linked.seal_xa(&mut sector, address, Kind::Form2 as u16, &mut subheader);
        assert_eq!((answer, header(&sector)), (DONE, digits), "{address:?}");
    }
}
