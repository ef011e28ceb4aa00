//! Which codes the sectors of a bench line can have. A code of FF four times arrives as zeros where it is scratched.

use ecma130::{edc_bitwise, Address, Kind, SYNC};
use std::collections::BTreeSet;

const ONES: u32 = 0xFFFF_FFFF;

/// A code, and the bits of the subheader that make it.
type Row = (u32, u32);

/// Over the subheader twice and so many user bytes.
fn code(subheader: u32, fill: u8, user_bytes: usize) -> u32 {
    let copy = subheader.to_le_bytes();
    edc_bitwise(&[&copy[..], &copy, &vec![fill; user_bytes]].concat())
}

/// Adds a row where that clears its leading bit.
fn reduced(row: Row, other: &Row) -> Row {
    if row.0 ^ other.0 < row.0 {
        (row.0 ^ other.0, row.1 ^ other.1)
    } else {
        row
    }
}

/// Codes that add up to any that a subheader can make, and the subheaders that make none.
fn eliminated(user_bytes: usize) -> (Vec<Row>, Vec<u32>) {
    let (mut basis, mut none): (Vec<Row>, Vec<u32>) = (Vec::new(), Vec::new());
    for bit in 0..32 {
        let row = basis.iter().fold((code(1 << bit, 0, user_bytes), 1 << bit), reduced);
        if row.0 == 0 {
            none.push(row.1);
            continue;
        }
        basis.push(row);
        basis.sort_by_key(|row| std::cmp::Reverse(row.0));
    }
    (basis, none)
}

fn is_form_2(subheader: u32) -> bool {
    subheader.to_le_bytes()[2] & 0x20 != 0
}

/// Two bits are left open, neither of them the form's: four subheaders to each fill, of the right form to half of them.
#[test]
fn each_fill_has_subheaders_with_a_code_of_ones() {
    for kind in [Kind::Form1, Kind::Form2] {
        let user_bytes = kind.user().len();
        let (basis, none) = eliminated(user_bytes);
        assert_eq!((basis.len(), none.len()), (30, 2));
        assert!(none.iter().all(|&subheader| !is_form_2(subheader)));
        let subheaders = (0..=255).map(|fill| {
            let (rest, subheader) = basis.iter().fold((code(0, fill, user_bytes) ^ ONES, 0), reduced);
            assert_eq!(rest, 0, "fill {fill} in {kind:?}");
            assert_eq!(code(subheader, fill, user_bytes), ONES);
            subheader
        });
        assert_eq!(subheaders.filter(|&subheader| is_form_2(subheader)).count(), 128);
    }
}

/// By the parts of all sectors of mode 1 that a line can make: the rest of each part is zero, and they add up.
#[test]
fn no_sector_of_mode_1_has_a_code_of_ones() {
    let part = |place: usize, byte: u8| {
        let mut bytes = vec![0; 2064];
        bytes[place] = byte;
        edc_bitwise(&bytes)
    };
    let filled = |fill: u8| edc_bitwise(&[&SYNC[..], &[0, 0, 0, 1], &vec![fill; 2048]].concat());
    let fills: BTreeSet<u32> = (0..=255).map(|fill| filled(fill) ^ ONES).collect();
    let bcd = |number: u16| Address::new(number, 0, 0).bcd()[0];
    let [minutes, seconds, frames] = [(12, 100), (13, 60), (14, 75)]
        .map(|(place, end)| (0..end).map(|number| part(place, bcd(number))).collect::<Vec<u32>>());
    for (minute, second) in minutes.iter().flat_map(|minute| seconds.iter().map(move |second| (minute, second))) {
        assert!(frames.iter().all(|frame| !fills.contains(&(minute ^ second ^ frame))));
    }
}
