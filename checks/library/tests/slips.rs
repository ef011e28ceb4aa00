//! Libraries that are wrong in a way of their own: the slips that paper 01 has seen on other
//! boards, those that it wants shut out, and such as the kept facts and the bytes of a start may
//! have. Each must be noticed.

mod faulty;
mod starts;

use ecma130::open;
use faulty::{Faulty, Made};
use library::record::{expected, is_running, why, with_why, B, BLOCKS, BUFC, BURST_LIMITS, PLACE, T, TCC, TTC};
use library::{run, Answer, Call};
use model::BLOCK_BYTES;

#[track_caller]
fn is_noticed(spoil: impl FnMut(Made) -> bool) {
    let mut library = Faulty::new(1, u64::MAX, spoil);
    let difference = run(&mut library, 21, 20_000).expect_err("a slip was not noticed");
    assert_eq!(Some(difference.call_number), library.spoiled, "{difference}");
}

fn is_write(made: &Made, reg: u16, value: u16) -> bool {
    *made.call == Call::Write { reg, value } && made.answer.is_done()
}

fn is_taken_sector(made: &Made) -> bool {
    matches!(made.call, Call::Sector { .. }) && made.answer.is_done()
}

#[test]
fn a_bad_sector_is_counted_in_tcc_too() {
    is_noticed(|made| {
        let bad = is_taken_sector(&made) && made.answer.result() != 0;
        made.record[TCC] += bad as u16;
        bad
    });
}

#[test]
fn b_is_not_taken_back_after_a_bad_sector() {
    is_noticed(|made| {
        let moved = is_write(&made, 0x0A, 0x00) && made.record[B] != made.before[B];
        made.record[B] = if moved { made.before[B] } else { made.record[B] };
        moved
    });
}

#[test]
fn atlim_0_is_no_blocks() {
    is_noticed(|made| {
        let started = is_write(&made, 0x17, 0x04) && made.before[TTC] > 0 && made.before[BURST_LIMITS] & 0xFF == 0;
        if started {
            *made.record = *made.before;
            *made.answer = Answer::Reply { number: 6, result: 0 };
        }
        started
    });
}

#[test]
fn the_sync_bytes_are_scrambled() {
    is_noticed(|made| {
        let taken = is_taken_sector(&made);
        if taken {
            made.lent.ring[made.before[B] as usize * BLOCK_BYTES] ^= 0x01;
        }
        taken
    });
}

#[test]
fn an_abort_takes_a_half_read_block() {
    is_noticed(|made| {
        let half_read = matches!(made.call, Call::Srst)
            && made.answer.is_done()
            && is_running(made.before)
            && made.before[PLACE] > 0;
        if half_read {
            made.record[T] = (made.record[T] + 1) % made.record[BLOCKS];
            made.record[TCC] -= 1;
        }
        half_read
    });
}

#[test]
fn everything_is_refused() {
    is_noticed(|made| {
        *made.record = *made.before;
        *made.answer = made.call.refused(1);
        true
    });
}

#[test]
fn a_call_that_is_taken_is_ignored() {
    is_noticed(|made| {
        let ignored = made.answer.is_done() && !matches!(made.call, Call::Open { .. }) && made.record != made.before;
        if ignored {
            *made.record = *made.before;
        }
        ignored
    });
}

#[test]
fn the_host_word_is_always_the_same() {
    is_noticed(|made| match (made.call, made.answer) {
        (Call::Word { .. }, Answer::Reply { number: 0, result }) if *result != 0x5555 => {
            *result = 0x5555;
            true
        }
        _ => false,
    });
}

#[test]
fn blocks_are_counted_only_at_the_end_of_a_transfer() {
    is_noticed(|made| {
        let within = is_running(made.before) && is_running(made.record) && made.record[T] != made.before[T];
        if within {
            for place in [T, TCC, BUFC, TTC] {
                made.record[place] = made.before[place];
            }
        }
        within
    });
}

/// Leaves other facts in the record, and says whether they are others.
fn leave_facts(made: Made, facts: u32) -> bool {
    let others = why(made.record) != facts;
    *made.record = with_why(*made.record, facts as u16);
    others
}

/// What the facts of the call's sector would be, had it been taken.
fn facts_of_sector(made: &Made) -> Option<u32> {
    let mut sector = made.lent.sector.to_vec();
    open(&mut sector).ok()?;
    ecma130::judge(&sector, expected(made.before)).ok().map(|facts| facts.why() as u32)
}

fn is_refused_sector(made: &Made, number: u32) -> bool {
    matches!(made.call, Call::Sector { .. }) && made.answer.number() == Some(number)
}

#[test]
fn the_facts_of_a_refused_sector_are_kept() {
    for number in [7, 8, 9] {
        is_noticed(|made| match facts_of_sector(&made) {
            Some(facts) if is_refused_sector(&made, number) => leave_facts(made, facts),
            _ => false,
        });
    }
}

#[test]
fn a_refused_sector_takes_the_facts_away() {
    for number in [1, 7, 8, 9] {
        is_noticed(|made| is_refused_sector(&made, number) && leave_facts(made, 0));
    }
}

#[test]
fn a_failed_sync_hides_the_code() {
    is_noticed(|made| {
        let facts = why(made.record);
        is_taken_sector(&made) && facts & 8 != 0 && leave_facts(made, facts & !2)
    });
}

#[test]
fn a_fact_hides_another() {
    for (seen, hidden) in [(8, 4), (4, 2), (2, 1), (8, 1), (1, 2), (1, 8)] {
        is_noticed(|made| {
            let facts = why(made.record);
            is_taken_sector(&made) && facts & seen != 0 && leave_facts(made, facts & !hidden)
        });
    }
}

#[test]
fn mode_and_code_have_each_others_weight() {
    is_noticed(|made| {
        let facts = why(made.record);
        is_taken_sector(&made) && leave_facts(made, facts & 9 | (facts & 4) >> 1 | (facts & 2) << 1)
    });
}

#[test]
fn facts_are_added_up_from_sector_to_sector() {
    is_noticed(|made| {
        let facts = why(made.record) | why(made.before);
        is_taken_sector(&made) && leave_facts(made, facts)
    });
}

#[test]
fn facts_of_bad_sectors_alone_are_kept() {
    is_noticed(|made| {
        let before = why(made.before);
        is_taken_sector(&made) && made.answer.result() == 0 && leave_facts(made, before)
    });
}

#[test]
fn facts_go_where_they_must_stay() {
    let calls: [fn(&Call) -> bool; 5] = [
        |call| *call == Call::Write { reg: 0x0A, value: 0x00 },
        |call| *call == Call::Read { reg: 0x80 },
        |call| matches!(call, Call::Srst),
        |call| matches!(call, Call::Status),
        |call| matches!(call, Call::Word { .. } | Call::Words { .. }),
    ];
    for clears in calls {
        is_noticed(|made| made.answer.is_done() && clears(made.call) && leave_facts(made, 0));
    }
}

#[test]
fn facts_stay_where_they_must_go() {
    let calls: [fn(&Call) -> bool; 2] = [|call| matches!(call, Call::Reset), |call| matches!(call, Call::Open { .. })];
    for keeps in calls {
        is_noticed(|made| {
            let before = why(made.before);
            made.answer.is_done() && keeps(made.call) && leave_facts(made, before)
        });
    }
}

/// 80h and the sector call's result are made from the facts and are not the facts.
#[test]
fn the_result_is_why() {
    is_noticed(|made| {
        let facts = why(made.record);
        let others = is_taken_sector(&made) && made.answer.result() != facts;
        if others {
            *made.answer = Answer::Reply { number: 0, result: facts };
        }
        others
    });
}
