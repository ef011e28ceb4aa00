//! Libraries that are wrong in how they judge sectors of the three kinds or check their parity. Each must be noticed.

mod faulty;
mod slipping;

use ecma130::{edc_by_table, judge, open, parity_holds, words_hold};
use ecma130::{Address, Facts, Kind, FIRST_COPY, FORM_BIT, SECOND_COPY};
use faulty::{Faulty, Made};
use library::record::{expected, why, with_why};
use library::{run, Call};
use slipping::{told_of, Check, Judge, Slipping, CALLS, SEED};
use std::ops::Range;

const MODE_PLACE: usize = 15;

/// In the call that judges, and in what a chip keeps of the sectors that it takes.
#[track_caller]
fn judging_is_noticed(judge: Judge) {
    assert_eq!(told_of(Slipping { judge: Some(judge), ..Slipping::default() }), "the judgement");
    let mut library = Faulty::new(1, u64::MAX, |made| keep_facts(made, judge));
    let difference = run(&mut library, SEED, CALLS).expect_err("a slip was not noticed in a chip");
    assert_eq!(Some(difference.call_number), library.spoiled, "{difference}");
}

/// Leaves these facts of a sector that was taken, and says whether they are others.
fn keep_facts(made: Made, judge: Judge) -> bool {
    if !matches!(made.call, Call::Sector { .. }) || !made.answer.is_done() {
        return false;
    }
    let mut sector = made.lent.sector.to_vec();
    open(&mut sector).expect("a sector that was taken has its length");
    let (before, facts) = (why(made.record), judge(&sector, expected(made.before)).why());
    *made.record = with_why(*made.record, facts as u16);
    before != facts as u32
}

#[track_caller]
fn checking_is_noticed(check: Check) {
    assert_eq!(told_of(Slipping { check: Some(check), ..Slipping::default() }), "the parity check");
}

/// What is right of a sector.
fn right(sector: &[u8], expected: Address) -> Facts {
    judge(sector, expected).expect("length and address are right")
}

fn fails(sector: &[u8], covered: Range<usize>, code: usize) -> bool {
    sector[code..code + 4] != edc_by_table(&sector[covered]).to_le_bytes()
}

/// Whether the code fails by the rule of a kind, with zeros taken as none in form 2.
fn code_fails(sector: &[u8], kind: Kind) -> bool {
    let none = kind == Kind::Form2 && sector[kind.code()] == [0; 4];
    !none && fails(sector, kind.covered(), kind.code().start)
}

fn is_mode_2(sector: &[u8]) -> bool {
    sector[MODE_PLACE] == 2
}

/// The form by any byte that is not 0 when masked.
fn form(byte: u8) -> Kind {
    if byte & FORM_BIT == 0 {
        Kind::Form1
    } else {
        Kind::Form2
    }
}

/// With the form told by another byte.
fn code_by_form(sector: &[u8], expected: Address, byte: u8) -> Facts {
    let facts = right(sector, expected);
    Facts { edc: if is_mode_2(sector) { code_fails(sector, form(byte)) } else { facts.edc }, ..facts }
}

#[test]
fn mode_2_is_no_mode() {
    judging_is_noticed(|s, a| Facts { mode: s[MODE_PLACE] != 1, ..right(s, a) });
    judging_is_noticed(|s, a| Facts { mode: s[MODE_PLACE] != 1, edc: code_fails(s, Kind::Mode1), ..right(s, a) });
}

#[test]
fn mode_2_has_the_code_of_mode_1() {
    judging_is_noticed(|s, a| Facts { edc: code_fails(s, Kind::Mode1), ..right(s, a) });
}

#[test]
fn mode_2_is_always_accepted() {
    judging_is_noticed(
        |s, a| if is_mode_2(s) { Facts { mode: false, edc: false, ..right(s, a) } } else { right(s, a) },
    );
}

#[test]
fn subheaders_are_not_compared() {
    judging_is_noticed(|s, a| Facts { mode: right(s, a).mode && !is_mode_2(s), ..right(s, a) });
}

#[test]
fn subheaders_are_compared_in_part() {
    fn differs_in(s: &[u8], places: Range<usize>) -> bool {
        places.into_iter().any(|place| s[FIRST_COPY][place] != s[SECOND_COPY][place])
    }
    let judges: [Judge; 5] = [
        |s, a| Facts { mode: if is_mode_2(s) { differs_in(s, 0..3) } else { right(s, a).mode }, ..right(s, a) },
        |s, a| Facts { mode: if is_mode_2(s) { differs_in(s, 1..4) } else { right(s, a).mode }, ..right(s, a) },
        |s, a| Facts { mode: if is_mode_2(s) { differs_in(s, 2..3) } else { right(s, a).mode }, ..right(s, a) },
        |s, a| {
            let mode = differs_in(s, 0..2) || differs_in(s, 3..4);
            Facts { mode: if is_mode_2(s) { mode } else { right(s, a).mode }, ..right(s, a) }
        },
        |s, a| {
            let other_form = (s[18] ^ s[22]) & FORM_BIT != 0;
            Facts { mode: if is_mode_2(s) { other_form } else { right(s, a).mode }, ..right(s, a) }
        },
    ];
    judges.into_iter().for_each(|judge| judging_is_noticed(judge));
}

#[test]
fn subheaders_are_compared_in_mode_1_too() {
    judging_is_noticed(|s, a| Facts { mode: right(s, a).mode || s[FIRST_COPY] != s[SECOND_COPY], ..right(s, a) });
}

#[test]
fn unequal_subheaders_touch_the_code() {
    fn unequal(s: &[u8]) -> bool {
        is_mode_2(s) && s[FIRST_COPY] != s[SECOND_COPY]
    }
    judging_is_noticed(|s, a| Facts { edc: right(s, a).edc || unequal(s), ..right(s, a) });
    judging_is_noticed(|s, a| Facts { edc: right(s, a).edc && !unequal(s), ..right(s, a) });
    judging_is_noticed(|s, a| {
        let edc = if unequal(s) { code_fails(s, Kind::Mode1) } else { right(s, a).edc };
        Facts { edc, ..right(s, a) }
    });
}

#[test]
fn a_code_of_zeros_is_accepted_elsewhere() {
    judging_is_noticed(|s, a| Facts { edc: right(s, a).edc && s[2072..2076] != [0; 4], ..right(s, a) });
    judging_is_noticed(|s, a| Facts { edc: right(s, a).edc && s[2064..2068] != [0; 4], ..right(s, a) });
    judging_is_noticed(|s, a| Facts { edc: right(s, a).edc && s[2348..2352] != [0; 4], ..right(s, a) });
}

#[test]
fn a_code_of_zeros_is_refused_in_form_2() {
    judging_is_noticed(|s, a| {
        let form_2 = Kind::of_sector(s) == Kind::Form2;
        Facts { edc: if form_2 { fails(s, 16..2348, 2348) } else { right(s, a).edc }, ..right(s, a) }
    });
}

#[test]
fn a_code_of_few_zeros_is_none() {
    judging_is_noticed(|s, a| {
        let few = Kind::of_sector(s) == Kind::Form2 && s[2348..].iter().filter(|&&byte| byte == 0).count() >= 3;
        Facts { edc: right(s, a).edc && !few, ..right(s, a) }
    });
}

#[test]
fn form_2_is_accepted_whatever_its_code() {
    judging_is_noticed(|s, a| Facts { edc: right(s, a).edc && Kind::of_sector(s) != Kind::Form2, ..right(s, a) });
}

#[test]
fn the_form_is_read_elsewhere() {
    judging_is_noticed(|s, a| code_by_form(s, a, s[22]));
    judging_is_noticed(|s, a| code_by_form(s, a, s[18] | s[22]));
    judging_is_noticed(|s, a| code_by_form(s, a, s[18] & s[22]));
    judging_is_noticed(|s, a| code_by_form(s, a, s[17]));
    judging_is_noticed(|s, a| code_by_form(s, a, s[19]));
    judging_is_noticed(|s, a| code_by_form(s, a, s[18] << 1));
    judging_is_noticed(|s, a| code_by_form(s, a, s[18] >> 1));
    judging_is_noticed(|s, a| code_by_form(s, a, !s[18]));
}

#[test]
fn one_form_alone_is_known() {
    judging_is_noticed(|s, a| code_by_form(s, a, 0));
    judging_is_noticed(|s, a| code_by_form(s, a, FORM_BIT));
}

/// Of form 1 the code over other bytes or in another place.
fn form_1_code(s: &[u8], a: Address, covered: Range<usize>, code: usize) -> Facts {
    let form_1 = Kind::of_sector(s) == Kind::Form1;
    Facts { edc: if form_1 { fails(s, covered, code) } else { right(s, a).edc }, ..right(s, a) }
}

#[test]
fn the_code_of_form_1_is_another_one() {
    judging_is_noticed(|s, a| form_1_code(s, a, 0..2072, 2072));
    judging_is_noticed(|s, a| form_1_code(s, a, 12..2072, 2072));
    judging_is_noticed(|s, a| form_1_code(s, a, 20..2072, 2072));
    judging_is_noticed(|s, a| form_1_code(s, a, 24..2072, 2072));
    judging_is_noticed(|s, a| form_1_code(s, a, 16..2068, 2068));
    judging_is_noticed(|s, a| form_1_code(s, a, 16..2064, 2064));
}

fn form_2_code(s: &[u8], a: Address, covered: Range<usize>, code: usize) -> Facts {
    let form_2 = Kind::of_sector(s) == Kind::Form2 && s[2348..] != [0; 4];
    Facts { edc: if form_2 { fails(s, covered, code) } else { right(s, a).edc }, ..right(s, a) }
}

#[test]
fn the_code_of_form_2_is_another_one() {
    judging_is_noticed(|s, a| form_2_code(s, a, 0..2348, 2348));
    judging_is_noticed(|s, a| form_2_code(s, a, 12..2348, 2348));
    judging_is_noticed(|s, a| form_2_code(s, a, 24..2348, 2348));
    judging_is_noticed(|s, a| form_2_code(s, a, 16..2072, 2072));
}

#[test]
fn another_mode_byte_goes_by_its_form() {
    judging_is_noticed(|s, a| {
        let odd = ![1, 2].contains(&s[MODE_PLACE]);
        Facts { edc: if odd { code_fails(s, form(s[18])) } else { right(s, a).edc }, ..right(s, a) }
    });
}

#[test]
fn another_mode_byte_is_accepted() {
    judging_is_noticed(|s, a| Facts { mode: right(s, a).mode && s[MODE_PLACE] != 0, ..right(s, a) });
    judging_is_noticed(|s, a| Facts { mode: right(s, a).mode && s[MODE_PLACE] <= 2, ..right(s, a) });
    judging_is_noticed(|s, a| Facts { mode: right(s, a).mode && s[MODE_PLACE] & 0x7F != 1, ..right(s, a) });
    judging_is_noticed(|s, a| right(&with_mode(s, s[MODE_PLACE] & 0x0F), a));
    judging_is_noticed(|s, a| right(&with_mode(s, s[MODE_PLACE] & 0x7F), a));
}

/// Judged as if the mode byte were this one, which a code of mode 1 then covers.
fn with_mode(sector: &[u8], mode: u8) -> Vec<u8> {
    let mut other = sector.to_vec();
    other[MODE_PLACE] = mode;
    other
}

#[test]
fn sync_or_address_are_not_judged_in_mode_2() {
    judging_is_noticed(|s, a| Facts { sync: right(s, a).sync && !is_mode_2(s), ..right(s, a) });
    judging_is_noticed(|s, a| Facts { address: right(s, a).address && !is_mode_2(s), ..right(s, a) });
}

#[test]
fn sync_and_address_touch_the_code_of_mode_2() {
    judging_is_noticed(|s, a| Facts { edc: right(s, a).edc || right(s, a).sync, ..right(s, a) });
    judging_is_noticed(|s, a| Facts { edc: right(s, a).edc || right(s, a).address, ..right(s, a) });
}

fn holds(sector: &[u8]) -> bool {
    parity_holds(sector).expect("a sector's length")
}

fn holds_as(sector: &[u8], kind: Kind) -> bool {
    words_hold(sector, kind).expect("a sector's length")
}

#[test]
fn form_1_is_checked_with_its_own_header() {
    checking_is_noticed(|s| if is_mode_2(s) && s[18] & FORM_BIT == 0 { holds_as(s, Kind::Mode1) } else { holds(s) });
}

#[test]
fn form_1_is_checked_with_its_mode_byte() {
    checking_is_noticed(|s| {
        let mut sector = s.to_vec();
        sector[12..MODE_PLACE].fill(0);
        if Kind::of_sector(s) == Kind::Form1 {
            holds_as(&sector, Kind::Mode1)
        } else {
            holds(s)
        }
    });
}

#[test]
fn mode_1_is_checked_with_a_header_of_zeros() {
    checking_is_noticed(|s| if s[MODE_PLACE] == 1 { holds_as(s, Kind::Form1) } else { holds(s) });
}

#[test]
fn form_2_is_checked() {
    checking_is_noticed(|s| if is_mode_2(s) { holds_as(s, Kind::Form1) } else { holds(s) });
    checking_is_noticed(|s| if is_mode_2(s) { holds(s) && holds_as(s, Kind::Mode1) } else { holds(s) });
}

#[test]
fn form_2_is_refused() {
    checking_is_noticed(|s| holds(s) && Kind::of_sector(s) != Kind::Form2);
}

#[test]
fn mode_2_is_not_checked_at_all() {
    checking_is_noticed(|s| is_mode_2(s) || holds(s));
}

#[test]
fn all_is_checked_by_the_rule_of_mode_1() {
    checking_is_noticed(|s| holds_as(s, Kind::Mode1));
}

#[test]
fn the_form_is_read_elsewhere_for_parity() {
    checking_is_noticed(|s| if is_mode_2(s) { holds_as(s, form(s[22])) } else { holds(s) });
    checking_is_noticed(|s| if is_mode_2(s) { holds_as(s, form(s[18] | s[22])) } else { holds(s) });
    checking_is_noticed(|s| if is_mode_2(s) { holds_as(s, form(s[18] & s[22])) } else { holds(s) });
    checking_is_noticed(|s| if is_mode_2(s) { holds_as(s, form(s[18] << 1)) } else { holds(s) });
}

#[test]
fn unequal_subheaders_change_the_check() {
    checking_is_noticed(|s| holds(s) && !(is_mode_2(s) && s[FIRST_COPY] != s[SECOND_COPY]));
    checking_is_noticed(|s| if s[FIRST_COPY] != s[SECOND_COPY] { holds_as(s, Kind::Mode1) } else { holds(s) });
}

#[test]
fn another_mode_byte_is_checked_by_its_form() {
    checking_is_noticed(|s| if s[MODE_PLACE] != 1 { holds_as(s, form(s[18])) } else { holds(s) });
    checking_is_noticed(|s| if s[MODE_PLACE] > 2 { holds_as(s, Kind::Form1) } else { holds(s) });
    checking_is_noticed(|s| [1, 2].contains(&s[MODE_PLACE]) && holds(s));
}

#[test]
fn nothing_where_nothing_is_wrong() {
    let mut library = Slipping { judge: Some(right), check: Some(holds), ..Slipping::default() };
    run(&mut library, SEED, CALLS).expect("the model against itself");
}
