//! Libraries that are wrong in how they write or check the parity of mode 1. Each must be noticed.

use ecma130::{edc_by_table, open, scramble, words_hold, write_parity, write_q_parity};
use ecma130::{Address, Kind, EDC_START, P_PARITY_START, Q_PARITY_START, SECTOR_BYTES};
use library::record::Record;
use library::{run, Answer, Call, Lent, Library, StandIn};

/// What is made of the buffer as it was and the sector that was sealed in it and opened.
type Reseal = fn(stale: &[u8], sector: &mut [u8]);
/// Of a sector of the right length that is read by the rule of mode 1.
type Check = fn(&[u8]) -> bool;

struct Slipping {
    reseal: Option<Reseal>,
    check: Option<Check>,
}

impl Library for Slipping {
    fn call(&mut self, record: &mut Record, call: &Call, lent: Lent) -> Answer {
        StandIn.call(record, call, lent)
    }

    fn irq(&mut self, record: &mut Record) -> u32 {
        StandIn.irq(record)
    }

    fn why(&mut self, record: &mut Record) -> u32 {
        StandIn.why(record)
    }

    fn judge(&mut self, sector: &mut [u8], expected: Address) -> Answer {
        StandIn.judge(sector, expected)
    }

    fn seal(&mut self, sector: &mut [u8], address: Address) -> Answer {
        let stale = sector.to_vec();
        let answer = StandIn.seal(sector, address);
        if let (Some(reseal), true) = (self.reseal, answer.is_done()) {
            open(sector).expect("it was sealed");
            reseal(&stale, sector);
            scramble(&mut sector[12..]);
        }
        answer
    }

    fn seal_xa(&mut self, sector: &mut [u8], address: Address, kind: u16, subheader: &mut [u8; 4]) -> Answer {
        StandIn.seal_xa(sector, address, kind, subheader)
    }

    fn parity(&mut self, sector: &mut [u8]) -> Answer {
        match self.check {
            Some(check) if sector.len() == SECTOR_BYTES && Kind::of_sector(sector) == Kind::Mode1 => {
                Answer::Reply { number: 0, result: check(sector) as u32 }
            }
            _ => StandIn.parity(sector),
        }
    }

    fn next_address(&mut self, address: Address) -> Answer {
        StandIn.next_address(address)
    }
}

fn told_of(reseal: Option<Reseal>, check: Option<Check>) -> String {
    run(&mut Slipping { reseal, check }, 31, 3_000).expect_err("a slip was not noticed").part.what
}

#[track_caller]
fn sealing_is_noticed(reseal: Reseal) {
    let what = told_of(Some(reseal), None);
    assert!(what.starts_with("the sealed sector, byte "), "{what}");
}

#[track_caller]
fn checking_is_noticed(check: Check) {
    assert_eq!(told_of(None, Some(check)), "the parity check");
}

fn changed(sector: &[u8], change: impl Fn(&mut [u8])) -> Vec<u8> {
    let mut changed = sector.to_vec();
    change(&mut changed);
    changed
}

fn with_q_parity(sector: &[u8]) -> Vec<u8> {
    changed(sector, |sector| write_q_parity(sector).expect("a sector's length"))
}

fn holds(sector: &[u8], header_as_zero: bool) -> bool {
    let rule = if header_as_zero { Kind::Form1 } else { Kind::Mode1 };
    words_hold(sector, rule).expect("a sector's length")
}

#[test]
fn parity_stays_as_it_was() {
    sealing_is_noticed(|stale, sector| sector[P_PARITY_START..].copy_from_slice(&stale[P_PARITY_START..]));
}

#[test]
fn parity_is_zero() {
    sealing_is_noticed(|_, sector| sector[P_PARITY_START..].fill(0));
}

#[test]
fn q_parity_is_not_written() {
    sealing_is_noticed(|stale, sector| sector[Q_PARITY_START..].copy_from_slice(&stale[Q_PARITY_START..]));
}

#[test]
fn q_parity_is_taken_before_p_parity_is_there() {
    sealing_is_noticed(|_, sector| {
        let early = with_q_parity(&changed(sector, |sector| sector[P_PARITY_START..Q_PARITY_START].fill(0)));
        sector[Q_PARITY_START..].copy_from_slice(&early[Q_PARITY_START..]);
    });
}

#[test]
fn parity_is_that_of_form_1() {
    sealing_is_noticed(|_, sector| {
        let mut form_1 = changed(sector, |sector| sector[12..16].fill(0));
        write_parity(&mut form_1).expect("a sector's length");
        sector[P_PARITY_START..].copy_from_slice(&form_1[P_PARITY_START..]);
    });
}

/// The code and the zeros are covered too.
#[test]
fn parity_is_taken_before_code_and_zeros_are_there() {
    sealing_is_noticed(|stale, sector| {
        let mut early = changed(sector, |sector| sector[EDC_START..].copy_from_slice(&stale[EDC_START..]));
        write_parity(&mut early).expect("a sector's length");
        sector[P_PARITY_START..].copy_from_slice(&early[P_PARITY_START..]);
    });
}

#[test]
fn planes_are_exchanged() {
    sealing_is_noticed(|_, sector| sector[P_PARITY_START..].chunks_exact_mut(2).for_each(|pair| pair.swap(0, 1)));
}

#[test]
fn the_two_parity_symbols_of_a_p_word_are_exchanged() {
    sealing_is_noticed(|_, sector| sector[P_PARITY_START..Q_PARITY_START].rotate_left(86));
}

#[test]
fn parity_is_scrambled_twice() {
    sealing_is_noticed(|_, sector| {
        let scrambled = changed(sector, |sector| scramble(&mut sector[12..]));
        sector[P_PARITY_START..].copy_from_slice(&scrambled[P_PARITY_START..]);
    });
}

#[test]
fn p_words_are_not_checked() {
    checking_is_noticed(|sector| with_q_parity(sector) == sector);
}

#[test]
fn q_words_are_not_checked() {
    checking_is_noticed(|sector| holds(&with_q_parity(sector), false));
}

#[test]
fn one_plane_is_not_checked() {
    fn without(sector: &[u8], plane: usize) -> Vec<u8> {
        changed(sector, |sector| sector[12 + plane..].iter_mut().step_by(2).for_each(|byte| *byte = 0))
    }
    checking_is_noticed(|sector| holds(&without(sector, 0), false));
    checking_is_noticed(|sector| holds(&without(sector, 1), false));
}

#[test]
fn the_header_is_taken_as_zero() {
    checking_is_noticed(|sector| holds(sector, true));
}

#[test]
fn the_mode_byte_decides_on_the_header() {
    checking_is_noticed(|sector| holds(sector, sector[15] != 1));
}

#[test]
fn what_is_judged_is_asked_of_parity_too() {
    checking_is_noticed(|sector| holds(sector, false) && sector[15] == 1);
    checking_is_noticed(|sector| holds(sector, false) && sector[..12] == ecma130::SYNC);
    checking_is_noticed(|sector| {
        let code = edc_by_table(&sector[..EDC_START]).to_le_bytes();
        holds(sector, false) && sector[EDC_START..EDC_START + 4] == code
    });
}

#[test]
fn nothing_where_nothing_is_wrong() {
    let (reseal, check): (Reseal, Check) = (|_, _| (), |sector| holds(sector, false));
    run(&mut Slipping { reseal: Some(reseal), check: Some(check) }, 31, 3_000).expect("the model against itself");
}
