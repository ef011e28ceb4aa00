//! Libraries that are wrong in how they seal sectors of the three kinds. Each must be noticed.

mod slipping;

use ecma130::{edc_by_table, scramble, seal_xa, write_parity_of};
use ecma130::{Address, Kind, FIRST_COPY, FORM_BIT, SECOND_COPY, SECTOR_BYTES, SYNC};
use library::{run, Answer};
use slipping::{told_of, Seal, Slipping, CALLS, SEED};
use std::ops::Range;

const MODE_PLACE: usize = 15;
const DONE: Answer = Answer::Reply { number: 0, result: 0 };
const OUT_OF_RANGE: Answer = Answer::Reply { number: 3, result: 0 };

#[track_caller]
fn sealing_is_noticed(seal: Seal) {
    let what = told_of(Slipping { seal: Some(seal), ..Slipping::default() });
    assert!(what.starts_with("the seal") || what.starts_with("the lent subheader"), "{what}");
}

fn sealed(sector: &mut [u8], address: Address, kind: u16, subheader: [u8; 4]) -> Answer {
    match seal_xa(sector, address, kind, subheader) {
        Ok(()) => DONE,
        Err(refusal) => Answer::Reply { number: refusal.number() as u32, result: 0 },
    }
}

/// Sealed rightly, and then with a change in the opened sector of one kind. It is told what lay in the buffer.
fn changed(
    sector: &mut [u8],
    (address, kind, subheader): (Address, u16, [u8; 4]),
    of_kind: u16,
    change: impl Fn(&mut [u8], &[u8]),
) -> Answer {
    let stale = sector.to_vec();
    let answer = sealed(sector, address, kind, subheader);
    if answer == DONE && kind == of_kind {
        scramble(&mut sector[12..]);
        change(sector, &stale);
        scramble(&mut sector[12..]);
    }
    answer
}

fn write_code(sector: &mut [u8], covered: Range<usize>, code: usize) {
    let bytes = edc_by_table(&sector[covered]).to_le_bytes();
    sector[code..code + 4].copy_from_slice(&bytes);
}

#[test]
fn a_kind_is_cut_to_a_byte() {
    sealing_is_noticed(|s, a, k, h| sealed(s, a, k & 0xFF, *h));
    sealing_is_noticed(|s, a, k, h| sealed(s, a, if k == 257 { 1 } else { k }, *h));
    sealing_is_noticed(|s, a, k, h| sealed(s, a, k & 0x7FFF, *h));
}

#[test]
fn an_unknown_kind_is_one_of_them() {
    sealing_is_noticed(|s, a, k, h| sealed(s, a, if k == 0 { 1 } else { k }, *h));
    sealing_is_noticed(|s, a, k, h| sealed(s, a, if k == 4 { 1 } else { k }, *h));
    sealing_is_noticed(|s, a, k, h| sealed(s, a, k.clamp(1, 3), *h));
}

#[test]
fn a_known_kind_is_refused() {
    for seal in [
        |s: &mut [u8], a, k, h: &mut [u8; 4]| if k == 1 { OUT_OF_RANGE } else { sealed(s, a, k, *h) },
        |s: &mut [u8], a, k, h: &mut [u8; 4]| if k == 3 { OUT_OF_RANGE } else { sealed(s, a, k, *h) },
    ] {
        sealing_is_noticed(seal);
    }
}

/// The form bit as the kind wants it.
fn agreeing(kind: u16, mut subheader: [u8; 4]) -> [u8; 4] {
    match kind {
        2 => subheader[2] &= !FORM_BIT,
        3 => subheader[2] |= FORM_BIT,
        _ => {}
    }
    subheader
}

#[test]
fn a_form_bit_that_disagrees_is_put_right() {
    sealing_is_noticed(|s, a, k, h| sealed(s, a, k, agreeing(k, *h)));
}

#[test]
fn a_form_bit_decides_on_the_kind() {
    sealing_is_noticed(|s, a, k, h| {
        sealed(s, a, if (2..=3).contains(&k) { 2 + (h[2] & FORM_BIT != 0) as u16 } else { k }, *h)
    });
}

/// Bytes 18 and 22 then say another form than the sector has.
#[test]
fn a_form_bit_is_not_tested() {
    sealing_is_noticed(|s, a, k, h| {
        let asked = *h;
        changed(s, (a, k, agreeing(k, asked)), k, |s, _| {
            if k == 2 || k == 3 {
                s[FIRST_COPY].copy_from_slice(&asked);
                s[SECOND_COPY].copy_from_slice(&asked);
            }
        })
    });
}

#[test]
fn another_bit_is_the_form_bit() {
    sealing_is_noticed(|s, a, k, h| {
        let other = k == 2 && h[2] & 0x04 != 0;
        if other && s.len() == SECTOR_BYTES {
            return OUT_OF_RANGE;
        }
        sealed(s, a, k, *h)
    });
    sealing_is_noticed(|s, a, k, h| sealed(s, a, k, [h[0], h[1], h[2] & !FORM_BIT | h[3] & FORM_BIT, h[3]]));
}

#[test]
fn mode_1_asks_for_a_form_bit() {
    sealing_is_noticed(
        |s, a, k, h| if k == 1 && h[2] & FORM_BIT != 0 { sealed(s, a, 2, *h) } else { sealed(s, a, k, *h) },
    );
    sealing_is_noticed(
        |s, a, k, h| if k == 1 && h[2] & FORM_BIT == 0 { sealed(s, a, 3, *h) } else { sealed(s, a, k, *h) },
    );
}

#[test]
fn a_refusal_writes() {
    fn touching(s: &mut [u8], answer: Answer, touch: fn(&mut [u8])) -> Answer {
        if answer.number() == Some(3) {
            touch(s);
        }
        answer
    }
    sealing_is_noticed(|s, a, k, h| {
        let answer = sealed(s, a, k, *h);
        touching(s, answer, |s| s[..12].copy_from_slice(&SYNC))
    });
    sealing_is_noticed(|s, a, k, h| {
        let answer = sealed(s, a, k, *h);
        touching(s, answer, |s| s[20] ^= 1)
    });
    sealing_is_noticed(|s, a, k, h| {
        let answer = sealed(s, a, k, *h);
        touching(s, answer, |s| s[2351] ^= 1)
    });
}

#[test]
fn the_kind_is_tested_before_the_length() {
    sealing_is_noticed(|s, a, k, h| if Kind::of_number(k).is_none() { OUT_OF_RANGE } else { sealed(s, a, k, *h) });
    sealing_is_noticed(|s, a, k, h| if !a.is_valid() { OUT_OF_RANGE } else { sealed(s, a, k, *h) });
}

#[test]
fn the_address_is_not_tested_in_mode_2() {
    sealing_is_noticed(|s, a, k, h| {
        let other = if k != 1 && !a.is_valid() { Address::new(0, 0, 0) } else { a };
        sealed(s, other, k, *h)
    });
}

#[test]
fn the_lent_subheader_is_changed() {
    sealing_is_noticed(|s, a, k, h| {
        let answer = sealed(s, a, k, *h);
        h[2] &= !FORM_BIT;
        answer
    });
}

#[test]
fn the_subheader_is_written_otherwise() {
    sealing_is_noticed(|s, a, k, h| {
        changed(s, (a, k, *h), 2, |s, stale| s[SECOND_COPY].copy_from_slice(&stale[20..24]))
    });
    sealing_is_noticed(|s, a, k, h| changed(s, (a, k, *h), 3, |s, _| s[SECOND_COPY].fill(0)));
    sealing_is_noticed(|s, a, k, h| changed(s, (a, k, *h), 3, |s, _| s[FIRST_COPY].reverse()));
    sealing_is_noticed(|s, a, k, h| changed(s, (a, k, *h), 1, |s, _| s[FIRST_COPY].fill(0)));
}

#[test]
fn the_mode_byte_of_mode_2_is_another() {
    sealing_is_noticed(|s, a, k, h| changed(s, (a, k, *h), 2, |s, _| s[MODE_PLACE] = 1));
    sealing_is_noticed(|s, a, k, h| changed(s, (a, k, *h), 3, |s, _| s[MODE_PLACE] = 3));
}

#[test]
fn form_1_has_another_code() {
    sealing_is_noticed(|s, a, k, h| {
        changed(s, (a, k, *h), 2, |s, _| {
            write_code(s, 0..2072, 2072);
            write_parity_of(s, Kind::Form1);
        })
    });
    sealing_is_noticed(|s, a, k, h| {
        changed(s, (a, k, *h), 2, |s, stale| s[2072..2076].copy_from_slice(&stale[2072..2076]))
    });
}

/// As mode 1 has them, over the last user bytes.
#[test]
fn form_1_has_zeros_before_its_parity() {
    sealing_is_noticed(|s, a, k, h| {
        changed(s, (a, k, *h), 2, |s, _| {
            s[2068..2072].fill(0);
            write_code(s, 16..2072, 2072);
            write_parity_of(s, Kind::Form1);
        })
    });
}

#[test]
fn form_1_has_parity_of_its_own_header() {
    sealing_is_noticed(|s, a, k, h| changed(s, (a, k, *h), 2, |s, _| write_parity_of(s, Kind::Mode1)));
}

#[test]
fn form_1_is_left_with_a_header_of_zeros() {
    sealing_is_noticed(|s, a, k, h| changed(s, (a, k, *h), 2, |s, _| s[12..16].fill(0)));
}

#[test]
fn form_1_has_no_parity() {
    sealing_is_noticed(|s, a, k, h| changed(s, (a, k, *h), 2, |s, stale| s[2076..].copy_from_slice(&stale[2076..])));
}

#[test]
fn form_2_has_another_code() {
    sealing_is_noticed(|s, a, k, h| changed(s, (a, k, *h), 3, |s, _| s[2348..].fill(0)));
    sealing_is_noticed(|s, a, k, h| changed(s, (a, k, *h), 3, |s, _| write_code(s, 0..2348, 2348)));
    sealing_is_noticed(|s, a, k, h| changed(s, (a, k, *h), 3, |s, stale| s[2348..].copy_from_slice(&stale[2348..])));
}

#[test]
fn form_2_has_parity() {
    sealing_is_noticed(|s, a, k, h| changed(s, (a, k, *h), 3, |s, _| write_parity_of(s, Kind::Form1)));
}

/// The user bytes are looked for where mode 1 has them.
#[test]
fn user_bytes_of_mode_2_are_moved() {
    sealing_is_noticed(|s, a, k, h| {
        if k != 1 && s.len() == SECTOR_BYTES {
            s.copy_within(16..2340, 24);
        }
        sealed(s, a, k, *h)
    });
}

#[test]
fn mode_2_is_not_scrambled() {
    sealing_is_noticed(|s, a, k, h| {
        let answer = sealed(s, a, k, *h);
        if answer == DONE && k == 3 {
            scramble(&mut s[12..]);
        }
        answer
    });
}

#[test]
fn nothing_where_nothing_is_wrong() {
    let seal: Seal = |s, a, k, h| changed(s, (a, k, *h), k, |_, _| ());
    let mut library = Slipping { seal: Some(seal), ..Slipping::default() };
    run(&mut library, SEED, CALLS).expect("the model against itself");
}
