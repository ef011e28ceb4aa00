//! The library's code against the independent one, bit by bit.

use ecma130::{edc_bitwise, edc_by_table};
use model::Random;

#[test]
fn published_check_value() {
    assert_eq!(cdrom::edc(b"123456789"), 0x6EC2_EDC4);
}

#[test]
fn every_length_to_6000() {
    let bytes = Random::new(1).bytes(6000);
    for length in 0..=bytes.len() {
        assert_eq!(cdrom::edc(&bytes[..length]), edc_bitwise(&bytes[..length]), "length {length}");
    }
}

#[test]
fn every_start_in_a_word_and_every_short_length() {
    let bytes = Random::new(2).bytes(128);
    for start in 0..32 {
        for length in 0..=64 {
            let part = &bytes[start..start + length];
            assert_eq!(cdrom::edc(part), edc_bitwise(part), "start {start}, length {length}");
        }
    }
}

/// The code of a sum is the sum of the codes, and every input of that length is a sum of these.
#[test]
fn each_single_bit_of_a_sector() {
    let mut bytes = vec![0; 2064];
    for bit in 0..bytes.len() * 8 {
        bytes[bit / 8] = 1 << (bit % 8);
        assert_eq!(cdrom::edc(&bytes), edc_by_table(&bytes), "bit {bit}");
        bytes[bit / 8] = 0;
    }
}

#[test]
fn long_inputs() {
    let bytes = Random::new(3).bytes(1 << 20);
    for length in [65_535, 65_536, 65_537, (1 << 20) - 1, 1 << 20] {
        assert_eq!(cdrom::edc(&bytes[..length]), edc_bitwise(&bytes[..length]), "length {length}");
    }
}
