//! Libraries that are wrong in the address that follows. Each must be noticed.

mod slipping;

use ecma130::Address;
use library::{run, Answer};
use slipping::{told_of, Next, Slipping, CALLS, SEED};

const LAST: Address = Address::new(99, 59, 74);
const OUT_OF_RANGE: Answer = Answer::Reply { number: 3, result: 0 };

#[track_caller]
fn is_noticed(next: Next) {
    let what = told_of(Slipping { next: Some(next), ..Slipping::default() });
    assert!(what.starts_with("the next address of "), "{what}");
}

/// The parts need not be those of an address.
fn done(minute: u16, second: u16, frame: u16) -> Answer {
    Answer::Reply { number: 0, result: (minute as u32) << 16 | (second as u32) << 8 | frame as u32 }
}

fn right(address: Address) -> Answer {
    if !address.is_valid() {
        return OUT_OF_RANGE;
    }
    let Address { minute, second, frame } = address.next();
    done(minute, second, frame)
}

/// Right but at the valid addresses for which there is another answer.
fn right_but(address: Address, other: impl Fn(u16, u16, u16) -> Option<Answer>) -> Answer {
    let Address { minute, second, frame } = address;
    let slip = if address.is_valid() { other(minute, second, frame) } else { None };
    slip.unwrap_or(right(address))
}

/// Right but with a result that is made of the right one's parts.
fn arranged(address: Address, result: impl Fn(u16, u16, u16) -> Answer) -> Answer {
    if !address.is_valid() {
        return OUT_OF_RANGE;
    }
    let Address { minute, second, frame } = address.next();
    result(minute, second, frame)
}

#[test]
fn a_frame_carries_too_early() {
    is_noticed(|a| right_but(a, |m, s, f| (f == 69 && s < 59).then(|| done(m, s + 1, 0))));
    is_noticed(|a| right_but(a, |m, s, f| (f == 73 && s < 59).then(|| done(m, s + 1, 0))));
    is_noticed(|a| right_but(a, |m, s, f| (f == 59 && s < 59).then(|| done(m, s + 1, 0))));
}

#[test]
fn a_frame_does_not_carry() {
    is_noticed(|a| right_but(a, |m, s, f| (f == 74).then(|| done(m, s, 75))));
    is_noticed(|a| right_but(a, |m, s, f| (f == 74 && (m, s) != (99, 59)).then(|| done(m, s, 75))));
    is_noticed(|a| right_but(a, |m, s, f| (f == 74).then(|| done(m, s, 0))));
    is_noticed(|a| right_but(a, |m, s, f| (f == 74 && s < 59).then(|| done(m, s + 1, 74))));
}

#[test]
fn a_second_carries_too_early() {
    is_noticed(|a| right_but(a, |m, s, f| (s == 58 && f == 74).then(|| done(m + 1, 0, 0))));
    is_noticed(|a| right_but(a, |m, s, f| (s == 59 && f < 74 && m < 99).then(|| done(m + 1, 0, 0))));
    is_noticed(|a| right_but(a, |m, s, f| (s == 59 && f < 74).then(|| done(m, 0, f + 1))));
}

#[test]
fn a_second_does_not_carry() {
    is_noticed(|a| right_but(a, |m, s, f| (s == 59 && f == 74).then(|| done(m, 60, 0))));
    is_noticed(|a| right_but(a, |m, s, f| (s == 59 && f == 74 && m < 99).then(|| done(m, 60, 0))));
    is_noticed(|a| right_but(a, |m, s, f| (s == 59 && f == 74 && m < 99).then(|| done(m, 0, 0))));
    is_noticed(|a| right_but(a, |m, s, f| (s == 59 && f == 74 && m < 99).then(|| done(m + 1, 59, 0))));
}

#[test]
fn the_last_is_followed_by_another() {
    is_noticed(|a| if a == LAST { done(99, 59, 74) } else { right(a) });
    is_noticed(|a| if a == LAST { done(100, 0, 0) } else { right(a) });
    is_noticed(|a| if a == LAST { done(99, 0, 0) } else { right(a) });
    is_noticed(|a| if a == LAST { done(0, 0, 1) } else { right(a) });
    is_noticed(|a| if a == LAST { OUT_OF_RANGE } else { right(a) });
}

#[test]
fn another_minute_is_taken_for_the_last() {
    is_noticed(|a| right_but(a, |m, s, f| ((m, s, f) == (98, 59, 74)).then(|| done(0, 0, 0))));
    is_noticed(|a| right_but(a, |m, s, f| ((m, s, f) == (74, 59, 74)).then(|| done(0, 0, 0))));
}

/// Digits in the place of numbers: 10 is 16 then.
#[test]
fn a_step_goes_by_digits() {
    is_noticed(|a| right_but(a, |m, s, f| (f == 9).then(|| done(m, s, 16))));
    is_noticed(|a| right_but(a, |m, s, f| (f == 69).then(|| done(m, s, 76))));
    is_noticed(|a| right_but(a, |m, s, f| (f % 10 == 9).then(|| done(m, s, f - 9))));
    is_noticed(|a| arranged(a, |m, s, f| done(m / 10 * 16 + m % 10, s / 10 * 16 + s % 10, f / 10 * 16 + f % 10)));
}

#[test]
fn there_is_no_step() {
    is_noticed(|a| right_but(a, |m, s, f| Some(done(m, s, f))));
    is_noticed(|a| if a.is_valid() { done(0, 0, 0) } else { OUT_OF_RANGE });
}

#[test]
fn parts_of_the_result_are_exchanged() {
    is_noticed(|a| arranged(a, |m, s, f| done(m, f, s)));
    is_noticed(|a| arranged(a, |m, s, f| done(f, s, m)));
    is_noticed(|a| arranged(a, |m, s, f| done(s, m, f)));
}

/// Without its minute, or with parts of other weights.
#[test]
fn the_result_is_put_together_otherwise() {
    is_noticed(|a| arranged(a, |_, s, f| done(0, s, f)));
    is_noticed(|a| arranged(a, |m, s, f| done(m, s << 1, f)));
    is_noticed(|a| arranged(a, |m, s, f| done(m & 63, s, f)));
    is_noticed(|a| {
        arranged(a, |m, s, f| Answer::Reply { number: 0, result: (m as u32 * 60 + s as u32) * 75 + f as u32 })
    });
}

/// What a step by comparisons makes of any parts.
fn stepped(address: Address) -> Answer {
    let Address { minute, second, frame } = address;
    match (minute < 99, second < 59, frame < 74) {
        (_, _, true) => done(minute, second, frame + 1),
        (_, true, _) => done(minute, second + 1, 0),
        (true, _, _) => done(minute + 1, 0, 0),
        _ => done(0, 0, 0),
    }
}

#[test]
fn an_address_out_of_range_is_taken() {
    is_noticed(stepped);
    is_noticed(|a| if a.minute == 100 { stepped(a) } else { right(a) });
    is_noticed(|a| if a.second == 60 { stepped(a) } else { right(a) });
    is_noticed(|a| if a.frame == 75 { stepped(a) } else { right(a) });
    is_noticed(|a| if a.minute > 99 { stepped(a) } else { right(a) });
    is_noticed(|a| if a.second > 59 { stepped(a) } else { right(a) });
    is_noticed(|a| if a.frame > 74 { stepped(a) } else { right(a) });
}

#[test]
fn several_wrong_parts_are_taken() {
    is_noticed(|a| if a.minute > 99 && a.second > 59 { stepped(a) } else { right(a) });
    is_noticed(|a| if a.minute > 99 && a.frame > 74 { stepped(a) } else { right(a) });
    is_noticed(|a| if a.second > 59 && a.frame > 74 { stepped(a) } else { right(a) });
    is_noticed(|a| if a.minute > 99 && a.second > 59 && a.frame > 74 { stepped(a) } else { right(a) });
}

#[test]
fn a_part_is_cut_to_a_byte() {
    is_noticed(|a| right(Address { minute: a.minute & 0xFF, ..a }));
    is_noticed(|a| right(Address { second: a.second & 0xFF, ..a }));
    is_noticed(|a| right(Address { frame: a.frame & 0xFF, ..a }));
}

#[test]
fn a_part_is_taken_with_a_sign() {
    is_noticed(|a| if (a.minute as i16) < 0 { stepped(a) } else { right(a) });
    is_noticed(|a| if (a.second as i16) < 0 { stepped(a) } else { right(a) });
    is_noticed(|a| if a.frame == 65_535 { done(a.minute, a.second, 0) } else { right(a) });
}

#[test]
fn an_address_in_range_is_refused() {
    is_noticed(|a| if a.minute == 99 { OUT_OF_RANGE } else { right(a) });
    is_noticed(|a| if a.second == 59 { OUT_OF_RANGE } else { right(a) });
    is_noticed(|a| if a.frame == 74 { OUT_OF_RANGE } else { right(a) });
    is_noticed(|_| OUT_OF_RANGE);
}

#[test]
fn a_refusal_has_a_result() {
    fn refused_with(address: Address, result: u32) -> Answer {
        match right(address) {
            OUT_OF_RANGE => Answer::Reply { number: 3, result },
            answer => answer,
        }
    }
    is_noticed(|a| refused_with(a, 1));
    is_noticed(|a| refused_with(a, 1 << 23));
    is_noticed(|a| refused_with(a, stepped(a).result()));
}

#[test]
fn a_refusal_has_another_number() {
    is_noticed(|a| if a.is_valid() { right(a) } else { Answer::Reply { number: 1, result: 0 } });
    is_noticed(|a| if a.is_valid() { right(a) } else { Answer::Reply { number: 0, result: 0 } });
}

#[test]
fn nothing_where_nothing_is_wrong() {
    let next: Next = |a| if a.is_valid() { stepped(a) } else { OUT_OF_RANGE };
    let mut library = Slipping { next: Some(next), ..Slipping::default() };
    run(&mut library, SEED, CALLS).expect("the model against itself");
}
