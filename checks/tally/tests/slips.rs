//! Clerks who keep the tally with one slip, beside the model's bench: each must be noticed. A slip is
//! made in what a clerk writes down: other lines are noted in the place of the one that came.

use model::{parse, Bench, Call};
use tally::{make_script, Printed, Tally};

/// The first script of the gate. Most are noticed within some hundred lines; what a transfer bars takes thousands.
const SEED: u64 = 1;
const LINES: usize = 25_000;

/// A line with its answer and `out`, as it is noted.
#[derive(Clone)]
struct Entry {
    line: Vec<u8>,
    answer: u64,
    out: u64,
}

impl Entry {
    fn call(&self) -> Option<Call> {
        parse(&self.line)
    }

    fn accepted(&self) -> Option<Call> {
        self.call().filter(|_| self.answer == 0)
    }

    /// The value that is written to a register, where that is accepted.
    fn written(&self, register: u16) -> Option<u16> {
        match self.accepted() {
            Some(Call::Write { reg, value }) if reg == register => Some(value),
            _ => None,
        }
    }
}

fn noted(line: &str) -> Entry {
    Entry { line: line.into(), answer: 0, out: 0 }
}

fn noted_write(reg: u16, value: u64) -> Entry {
    noted(&format!("call=write reg={reg} value={value}"))
}

/// The line at which tally and bench part, if they do.
fn parting(mut slip: impl FnMut(&Tally, Entry) -> Vec<Entry>) -> Option<usize> {
    let (mut tally, mut bench) = (Tally::default(), Bench::new());
    for (place, line) in make_script(SEED, LINES).lines.into_iter().enumerate() {
        let printed = Printed::parse(bench.line(&line).as_bytes()).expect("the model prints a line");
        let entry = Entry { line, answer: printed.answer, out: printed.out };
        let entries = slip(&tally, entry);
        let impossible = entries.iter().any(|entry| tally.note(&entry.line, entry.answer, entry.out).is_err());
        if impossible || (tally.tcc(), tally.bufc()) != (printed.tcc, printed.bufc) {
            return Some(place + 1);
        }
    }
    None
}

#[track_caller]
fn is_noticed(slip: impl FnMut(&Tally, Entry) -> Vec<Entry>) {
    assert!(parting(slip).is_some(), "a slip was not noticed in {LINES} lines");
}

/// A clerk who does not write some lines down.
#[track_caller]
fn is_noticed_if_left_out(left_out: impl Fn(&Entry) -> bool) {
    is_noticed(|_, entry| if left_out(&entry) { vec![] } else { vec![entry] });
}

/// A clerk who takes some refused lines for accepted ones.
#[track_caller]
fn is_noticed_if_taken_for_accepted(taken: impl Fn(Call, u64) -> bool) {
    is_noticed(|_, entry| {
        let wrong = entry.call().is_some_and(|call| taken(call, entry.answer));
        vec![if wrong { Entry { answer: 0, ..entry } } else { entry }]
    });
}

#[test]
fn without_a_slip_they_do_not_part() {
    assert_eq!(parting(|_, entry| vec![entry]), None);
}

#[test]
fn a_half_read_block_is_counted_at_srst() {
    is_noticed(|tally, entry| {
        let half_read = entry.accepted() == Some(Call::Srst) && tally.words_read() > 0;
        let missing = if half_read { tally.window_words() - tally.words_read() } else { 0 };
        let mut entries = vec![noted("call=word"); missing as usize];
        entries.push(entry);
        entries
    });
}

#[test]
fn words_read_before_an_abort_are_kept() {
    is_noticed_if_left_out(|entry| entry.accepted() == Some(Call::Srst));
}

#[test]
fn blocks_are_withdrawn_by_n_and_not_by_the_difference() {
    is_noticed(|tally, entry| match entry.written(0x9D) {
        // Lowered to what is left without n, it is n that goes.
        Some(n) => vec![noted_write(0x9D, tally.tcc() - u64::from(n))],
        None => vec![entry],
    });
}

#[test]
fn blocks_are_withdrawn_from_what_came_in() {
    is_noticed(|tally, entry| match entry.written(0x9D) {
        Some(n) => vec![noted_write(0x9D, u64::from(n).saturating_sub(tally.counted_in() - tally.tcc()))],
        None => vec![entry],
    });
}

#[test]
fn a_skip_is_counted_with_acmen_low() {
    is_noticed(|_, entry| match entry.written(0x9E) {
        Some(_) => vec![noted_write(0x9C, 0x40), entry],
        None => vec![entry],
    });
}

#[test]
fn a_skip_of_several_is_counted_as_one() {
    is_noticed(|_, entry| match entry.written(0x9E) {
        Some(n) => vec![noted_write(0x9E, u64::from(n.min(1)))],
        None => vec![entry],
    });
}

#[test]
fn a_refused_skip_is_counted() {
    is_noticed_if_taken_for_accepted(|call, answer| matches!(call, Call::Write { reg: 0x9E, .. }) && answer == 6);
}

#[test]
fn a_skip_barred_in_a_transfer_is_counted() {
    is_noticed_if_taken_for_accepted(|call, answer| matches!(call, Call::Write { reg: 0x9E, .. }) && answer == 4);
}

#[test]
fn a_refused_lowering_is_counted() {
    is_noticed_if_taken_for_accepted(|call, answer| matches!(call, Call::Write { reg: 0x9D, .. }) && answer == 6);
}

#[test]
fn a_lowering_refused_by_decen_is_counted() {
    is_noticed_if_taken_for_accepted(|call, answer| matches!(call, Call::Write { reg: 0x9D, .. }) && answer == 5);
}

#[test]
fn a_refused_sector_is_counted_in() {
    is_noticed_if_taken_for_accepted(|call, _| matches!(call, Call::Sector { .. }));
}

#[test]
fn a_refused_word_is_counted() {
    is_noticed_if_taken_for_accepted(|call, _| call == Call::Word);
}

#[test]
fn a_refused_switch_is_taken_for_acmen() {
    is_noticed_if_taken_for_accepted(|call, _| matches!(call, Call::Write { reg: 0x9C, .. }));
}

#[test]
fn a_bad_sector_is_counted_in() {
    is_noticed(|_, entry| match entry.accepted() {
        Some(Call::Sector { .. }) => vec![Entry { out: 0, ..entry }],
        _ => vec![entry],
    });
}

#[test]
fn a_reset_does_not_begin_anew() {
    is_noticed_if_left_out(|entry| entry.accepted() == Some(Call::Reset));
}

#[test]
fn a_second_open_does_not_begin_anew() {
    let mut opened = false;
    is_noticed(|_, entry| {
        let open = matches!(entry.accepted(), Some(Call::Open { .. }));
        let again = open && opened;
        opened |= open;
        if again {
            vec![]
        } else {
            vec![entry]
        }
    });
}

#[test]
fn taken_is_counted_by_words() {
    is_noticed_if_windows_have(|_| 1);
}

#[test]
fn a_block_is_taken_one_word_too_late() {
    is_noticed_if_windows_have(|words| words + 1);
}

#[test]
fn a_block_is_taken_one_word_too_early() {
    is_noticed_if_windows_have(|words| (words - 1).max(1));
}

#[track_caller]
fn is_noticed_if_windows_have(words: impl Fn(u16) -> u16) {
    is_noticed(|_, entry| match entry.accepted() {
        Some(Call::Window { offset, words: right }) => {
            vec![noted(&Call::Window { offset, words: words(right) }.line())]
        }
        _ => vec![entry],
    });
}

#[test]
fn a_refused_window_is_taken() {
    is_noticed_if_taken_for_accepted(|call, answer| matches!(call, Call::Window { .. }) && answer == 4);
}

#[test]
fn a_held_sector_is_not_given_up_with_decen_low() {
    is_noticed_if_left_out(|entry| entry.written(0x0A) == Some(0));
}

#[test]
fn a_held_sector_is_given_up_at_srst() {
    is_noticed(|_, entry| match entry.accepted() {
        Some(Call::Srst) => vec![entry, noted_write(0x0A, 0)],
        _ => vec![entry],
    });
}
