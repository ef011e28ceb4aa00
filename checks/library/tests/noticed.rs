//! A single bit that is wrong in an answer, a record or lent memory is told, and at its call.

mod faulty;

use ecma130::Address;
use faulty::{Faulty, Made};
use library::record::Record;
use library::{run, Answer, Call, Lent, Library, StandIn};
use model::BLOCK_BYTES;

const SEED: u64 = 11;
const CALLS: u64 = 5_000;
const FROM: [u64; 3] = [1, 40, 1200];

/// Runs with the fault from each of some calls on. It must be told, and at the call that had it.
#[track_caller]
fn is_noticed_at_once(what: &str, spoil: impl Fn(Made) -> bool) {
    for from in FROM {
        let mut library = Faulty::new(from, 1, &spoil);
        let difference = run(&mut library, SEED, CALLS).err().unwrap_or_else(|| panic!("{what} was not noticed"));
        assert_eq!(Some(difference.call_number), library.spoiled, "{what}: {difference}");
    }
}

#[test]
fn a_bit_of_the_number_or_the_result() {
    for (number_bits, result_bits) in [(1, 0), (2, 0), (8, 0), (128, 0), (0, 1), (0, 128), (0, 256), (0, 1 << 23)] {
        is_noticed_at_once("a bit of an answer", |made| {
            let (number, result) = match made.answer {
                Answer::Reply { number, result } | Answer::Burst { number, result, .. } => (number, result),
                Answer::Part { .. } => return false,
            };
            *number ^= number_bits;
            *result ^= result_bits;
            true
        });
    }
}

/// The opening and the call after it: their records are known to the bit.
#[test]
fn each_bit_of_the_record() {
    for (from, bit) in (1..=2).flat_map(|from| (0..28 * 16).map(move |bit| (from, bit))) {
        let mut library = Faulty::new(from, 1, |made| {
            made.record[bit / 16] ^= 1 << (bit % 16);
            true
        });
        let difference = run(&mut library, SEED, 30).expect_err("a bit was changed");
        assert_eq!(difference.call_number, from, "bit {bit}: {difference}");
    }
}

#[test]
fn a_refusal_that_changes_the_record() {
    for word in [0, 3, 12, 13, 14, 15, 16, 19, 20, 21, 27] {
        is_noticed_at_once(&format!("word {word} after a refusal"), |made| {
            let refused = made.answer.number().is_some_and(|number| number > 0);
            made.record[word] ^= (refused as u16) << 15;
            refused
        });
    }
}

#[test]
fn a_look_that_changes_the_record() {
    is_noticed_at_once("a record after a look", |made| {
        let look = matches!(made.answer, Answer::Part { .. });
        made.record[21] ^= (look as u16) << 7;
        look
    });
}

#[test]
fn a_look_at_another_part() {
    for (offset_more, length_more) in [(1, 0), (0, 2), (BLOCK_BYTES, 0)] {
        is_noticed_at_once("another part", |made| match made.answer {
            Answer::Part { offset, length } => {
                *offset += offset_more;
                *length += length_more;
                true
            }
            _ => false,
        });
    }
}

#[test]
fn a_burst_with_another_word_or_count() {
    is_noticed_at_once("the first word of a burst", |made| flip_word(made, |_, _| 0));
    is_noticed_at_once("its last word", |made| flip_word(made, |handed, _| handed.wrapping_sub(1)));
    is_noticed_at_once("the word behind those handed over", |made| flip_word(made, |handed, _| handed));
    is_noticed_at_once("the last word that was lent", |made| flip_word(made, |_, lent| lent.wrapping_sub(1)));
    is_noticed_at_once("another count", |made| match made.answer {
        Answer::Burst { handed, .. } => {
            *handed ^= 1;
            true
        }
        _ => false,
    });
}

/// Changes the word at a place that is told by those handed over and those lent.
fn flip_word(made: Made, place: fn(usize, usize) -> usize) -> bool {
    let Answer::Burst { handed, .. } = *made.answer else {
        return false;
    };
    let lent = made.lent.words.len();
    made.lent.words.get_mut(place(handed, lent)).map(|word| *word ^= 0x0100).is_some()
}

#[test]
fn a_changed_sector() {
    for place in [0, 11, 12, 2064, 2351] {
        is_noticed_at_once("a changed sector", |made| {
            made.lent.sector.get_mut(place).map(|byte| *byte ^= 0x10).is_some()
        });
    }
}

/// In block B of any ring: the bytes of the sector, and those behind it that are never written.
#[test]
fn a_byte_of_the_block_that_is_filled() {
    for place in [0, 1, 12, 2351, 2352, 2559] {
        is_noticed_at_once("a byte of block B", |made| {
            let filled = matches!(made.call, Call::Sector { .. }) && made.answer.is_done();
            let start = made.before[2] as usize * BLOCK_BYTES;
            filled && made.lent.ring.get_mut(start + place).map(|byte| *byte ^= 1).is_some()
        });
    }
}

/// Elsewhere a byte is found by the next look at the whole memory, at the latest at the run's end; unless a sector is
/// written over it before, as none is here.
#[test]
fn any_byte_of_the_ring() {
    for place in 0..40 {
        let mut library = Faulty::new(1100, 1, |made: Made| {
            let length = made.lent.ring.len();
            made.lent.ring.get_mut(length * place / 40).map(|byte| *byte ^= 0x80).is_some()
        });
        let difference = run(&mut library, SEED, 3_000).expect_err("a byte was changed");
        assert!(Some(difference.call_number) >= library.spoiled, "{difference}");
    }
}

/// Right but in the calls that have no reply number, and in those that need no chip.
struct Partly {
    irq: fn(u32) -> u32,
    why: fn(u32) -> u32,
    judge: fn(u32) -> u32,
    parity: fn(u32) -> u32,
    next_address: fn(u32) -> u32,
    /// Judging, checking and sealing change these bytes of the sector that they are lent.
    touched_by_judge: Option<usize>,
    touched_by_parity: Option<usize>,
    touched_by_seal: Option<usize>,
    touched_by_seal_xa: Option<usize>,
    touched_subheader: Option<usize>,
}

fn as_it_is(number: u32) -> u32 {
    number
}

const RIGHT: Partly = Partly {
    irq: as_it_is,
    why: as_it_is,
    judge: as_it_is,
    parity: as_it_is,
    next_address: as_it_is,
    touched_by_judge: None,
    touched_by_parity: None,
    touched_by_seal: None,
    touched_by_seal_xa: None,
    touched_subheader: None,
};

fn touch(sector: &mut [u8], place: Option<usize>) {
    if let Some(byte) = place.and_then(|place| sector.get_mut(place)) {
        *byte ^= 1;
    }
}

fn with_result(answer: Answer, change: fn(u32) -> u32) -> Answer {
    match answer {
        Answer::Reply { number: 0, result } => Answer::Reply { number: 0, result: change(result) },
        refused => refused,
    }
}

impl Library for Partly {
    fn call(&mut self, record: &mut Record, call: &Call, lent: Lent) -> Answer {
        StandIn.call(record, call, lent)
    }

    fn irq(&mut self, record: &mut Record) -> u32 {
        (self.irq)(StandIn.irq(record))
    }

    fn why(&mut self, record: &mut Record) -> u32 {
        (self.why)(StandIn.why(record))
    }

    fn judge(&mut self, sector: &mut [u8], expected: Address) -> Answer {
        let answer = StandIn.judge(sector, expected);
        touch(sector, self.touched_by_judge);
        with_result(answer, self.judge)
    }

    fn seal(&mut self, sector: &mut [u8], address: Address) -> Answer {
        let answer = StandIn.seal(sector, address);
        touch(sector, self.touched_by_seal);
        answer
    }

    fn seal_xa(&mut self, sector: &mut [u8], address: Address, kind: u16, subheader: &mut [u8; 4]) -> Answer {
        let answer = StandIn.seal_xa(sector, address, kind, subheader);
        touch(sector, self.touched_by_seal_xa);
        touch(subheader, self.touched_subheader);
        answer
    }

    fn parity(&mut self, sector: &mut [u8]) -> Answer {
        let answer = StandIn.parity(sector);
        touch(sector, self.touched_by_parity);
        with_result(answer, self.parity)
    }

    fn next_address(&mut self, address: Address) -> Answer {
        with_result(StandIn.next_address(address), self.next_address)
    }
}

#[track_caller]
fn is_told_as(what: &str, mut library: Partly) {
    let difference = run(&mut library, SEED, CALLS).expect_err("something is wrong");
    assert!(difference.part.what.starts_with(what), "{difference}");
}

#[test]
fn a_silent_interrupt_line() {
    is_told_as("the interrupt line", Partly { irq: |_| 0, ..RIGHT });
}

/// Never a fact, one that is never told or always, another weight, and the byte of 80h.
#[test]
fn other_facts() {
    let wrong: [fn(u32) -> u32; 8] = [
        |_| 0,
        |why| why & !1,
        |why| why & !8,
        |why| why | 2,
        |why| why.reverse_bits() >> 28,
        swapped,
        |why| if why & 8 != 0 { why & !2 } else { why },
        |why| (why >= 2) as u32 * 0x40 + (why & 1),
    ];
    for change in wrong {
        is_told_as("why of the last stored sector", Partly { why: change, ..RIGHT });
        is_told_as("the judgement", Partly { judge: change, ..RIGHT });
    }
}

/// With the weights of mode and EDC exchanged.
fn swapped(why: u32) -> u32 {
    why & 9 | (why & 4) >> 1 | (why & 2) << 1
}

#[test]
fn another_answer_of_the_parity_check() {
    let wrong: [fn(u32) -> u32; 4] = [|_| 0, |_| 1, |holds| holds ^ 1, |holds| holds << 8];
    for change in wrong {
        is_told_as("the parity check", Partly { parity: change, ..RIGHT });
    }
}

/// One bit of each part, and one above them.
#[test]
fn another_next_address() {
    let wrong: [fn(u32) -> u32; 5] =
        [|next| next ^ 1, |next| next ^ 1 << 6, |next| next ^ 1 << 8, |next| next ^ 1 << 16, |next| next ^ 1 << 23];
    for change in wrong {
        is_told_as("the next address of ", Partly { next_address: change, ..RIGHT });
    }
}

#[test]
fn a_sector_that_is_only_read_is_changed() {
    for place in [0, 15, 2064, 2351] {
        is_told_as(&format!("the judged sector, byte {place}"), Partly { touched_by_judge: Some(place), ..RIGHT });
        is_told_as(&format!("the checked sector, byte {place}"), Partly { touched_by_parity: Some(place), ..RIGHT });
    }
}

#[test]
fn another_byte_of_a_sealed_sector() {
    for place in [0, 11, 12, 15, 16, 2063, 2064, 2067, 2068, 2075, 2076, 2247, 2248, 2351] {
        is_told_as(&format!("the sealed sector, byte {place}"), Partly { touched_by_seal: Some(place), ..RIGHT });
    }
}

/// Of whichever kind comes first, and of refused ones too.
#[test]
fn another_byte_of_a_sector_sealed_by_its_kind() {
    for place in [0, 11, 12, 15, 16, 18, 20, 23, 24, 2063, 2064, 2071, 2072, 2075, 2076, 2248, 2347, 2348, 2351] {
        let mut library = Partly { touched_by_seal_xa: Some(place), ..RIGHT };
        let what = run(&mut library, SEED, CALLS).expect_err("something is wrong").part.what;
        let told = what.starts_with("the sealed sector of kind ") && what.ends_with(&format!(", byte {place}"));
        assert!(told, "{what}");
    }
    for place in 0..4 {
        is_told_as(&format!("the lent subheader, byte {place}"), Partly { touched_subheader: Some(place), ..RIGHT });
    }
}

#[test]
fn nothing_where_nothing_is_wrong() {
    run(&mut StandIn, SEED, CALLS).expect("the model against itself");
    run(&mut Partly { ..RIGHT }, SEED, CALLS).expect("and with nothing changed");
}

/// What is told of a difference is enough to make it again.
#[test]
fn the_report_names_call_record_and_field() {
    let mut library = Faulty::new(1, 1, |made| {
        made.record[4] += 1;
        true
    });
    let report = run(&mut library, SEED, 10).expect_err("TCC was changed").to_string();
    let answer = "answers:   Reply { number: 0, result: 0 }";
    for part in ["call 1: Open { blocks: ", "before:   [", answer, "differs: TCC: model 0, library 1"] {
        assert!(report.contains(part), "{part:?} in:\n{report}");
    }
}
