//! Libraries that are wrong in how they bound the blocks of a start by their bytes. Each must be noticed.

use crate::faulty::{Faulty, Made};
use crate::is_noticed;
use library::record::{bytes_left, decoded, encoded, is_running, Record, BLOCKS_LEFT, BURST_LIMITS};
use library::{run, Answer, Call};
use model::{Chip, Transfer};

const START: Call = Call::Write { reg: 0x17, value: 0x04 };
const MOST_BYTES: usize = 65_534;

/// The chip as a start found it, and whether 17h asked for it.
struct Start {
    chip: Chip,
    by_firmware: bool,
}

impl Start {
    /// The start that a call made, or that 17h was refused with 6. One that comes by itself goes by what the call
    /// has left, and changes none of its own numbers but MBC, which it does not ask for.
    fn of(made: &Made) -> Option<Start> {
        let by_firmware = *made.call == START;
        let started = made.answer.is_done() && !is_running(made.before) && is_running(made.record);
        let refused = by_firmware && made.answer.number() == Some(6);
        let record = if by_firmware { made.before } else { &*made.record };
        (started || refused).then(|| Start { chip: decoded(record), by_firmware })
    }

    /// The blocks that a start would have, were it not for their bytes.
    fn asked(&self) -> usize {
        let chip = &self.chip;
        let limit = if chip.atlim == 0 { 32 } else { chip.atlim };
        if chip.ttc > 0 {
            limit.min(chip.tcc).min(chip.ttc)
        } else {
            chip.mbc + 1
        }
    }

    /// The most blocks whose bytes are so many.
    fn bound(&self, bytes: usize) -> usize {
        bytes / (2 * self.chip.window.words)
    }

    fn bounded(&self, bytes: usize) -> usize {
        self.asked().min(self.bound(bytes))
    }

    /// Bounded as it must be in this case, and else not at all.
    fn bounded_if(&self, case: bool) -> usize {
        self.bounded(if case { MOST_BYTES } else { usize::MAX })
    }
}

/// The blocks of a start. It is refused with 6 where there are not so many good ones.
type Rule = fn(&Start) -> usize;

/// A library whose starts go by the rule. What is refused stays so.
#[track_caller]
fn rule_is_noticed(rule: Rule) {
    is_noticed(|made| {
        let Some(start) = Start::of(&made).filter(|_| made.answer.is_done()) else {
            return false;
        };
        let (blocks, right) = (rule(&start), decoded(made.record));
        if blocks == right.mbc + 1 {
            return false;
        }
        if blocks > start.chip.tcc {
            return refuse(made, 6);
        }
        *made.record = encoded(&with_blocks(right, blocks));
        true
    });
}

fn refuse(made: Made, number: u32) -> bool {
    *made.record = *made.before;
    *made.answer = made.call.refused(number);
    true
}

/// The started chip with other blocks. Its count has sixteen bits, whatever it is.
fn with_blocks(mut chip: Chip, blocks: usize) -> Chip {
    chip.mbc = blocks - 1;
    chip.transfer = Some(Transfer { blocks_left: blocks, place: 0 });
    if chip.stwcen {
        let bytes = blocks * chip.window.words * 2;
        [chip.reg34, chip.reg35] = (bytes as u16).to_le_bytes();
    }
    chip
}

/// It shows at 1,024 words alone.
#[test]
fn two_bytes_more_are_allowed() {
    rule_is_noticed(|start| start.bounded(65_536));
}

/// It shows at 1,057 words alone, where 31 blocks are as long as may be.
#[test]
fn the_bytes_must_stay_below_the_most() {
    rule_is_noticed(|start| start.bounded(MOST_BYTES - 2));
}

/// As paper 01 had it.
#[test]
fn the_count_is_cut_and_not_the_blocks() {
    rule_is_noticed(Start::asked);
}

#[test]
fn a_block_is_a_sector_or_its_user_bytes_whatever_the_window() {
    rule_is_noticed(|start| start.asked().min(MOST_BYTES / 2352));
    rule_is_noticed(|start| start.asked().min(MOST_BYTES / 2048));
}

#[test]
fn only_what_is_counted_is_bounded() {
    rule_is_noticed(|start| start.bounded_if(start.chip.stwcen));
    rule_is_noticed(|start| start.bounded_if(!start.chip.stwcen));
}

#[test]
fn only_starts_by_firmware_are_bounded() {
    rule_is_noticed(|start| start.bounded_if(start.by_firmware));
}

#[test]
fn only_starts_by_themselves_are_bounded() {
    rule_is_noticed(|start| start.bounded_if(!start.by_firmware));
}

#[test]
fn only_starts_with_ttc_set_are_bounded() {
    rule_is_noticed(|start| start.bounded_if(start.chip.ttc > 0));
}

#[test]
fn only_starts_with_ttc_0_are_bounded() {
    rule_is_noticed(|start| start.bounded_if(start.chip.ttc == 0));
}

#[test]
fn good_blocks_are_too_few_for_mbc_before_it_is_lowered() {
    is_noticed(|made| match Start::of(&made) {
        Some(Start { chip, .. }) if made.answer.is_done() && chip.ttc == 0 && chip.mbc >= chip.tcc => refuse(made, 6),
        _ => false,
    });
}

#[test]
fn too_many_bytes_are_a_refusal() {
    for number in [3, 5, 6] {
        is_noticed(|made| match Start::of(&made) {
            Some(start) if made.answer.is_done() && start.by_firmware && start.asked() > start.bound(MOST_BYTES) => {
                refuse(made, number)
            }
            _ => false,
        });
    }
}

fn set_mbc(record: &mut Record, blocks: usize) {
    record[BURST_LIMITS] = record[BURST_LIMITS] & 0x00FF | (blocks as u16 - 1) << 8;
}

/// With TCC 0, and where a block is wanting.
#[test]
fn a_refused_start_lowers_mbc() {
    for without_good in [true, false] {
        is_noticed(|made| match Start::of(&made) {
            Some(start) if !made.answer.is_done() && (start.chip.tcc == 0) == without_good => {
                let blocks = start.bound(MOST_BYTES).min(start.chip.mbc + 1);
                set_mbc(made.record, blocks);
                blocks <= start.chip.mbc
            }
            _ => false,
        });
    }
}

/// The blocks that a start asks for where the byte bound cuts it.
fn asked_of_cut(made: &Made) -> Option<usize> {
    let start = Start::of(made).filter(|_| made.answer.is_done())?;
    (start.asked() > start.bound(MOST_BYTES)).then(|| start.asked())
}

#[test]
fn mbc_stays_and_the_transfer_is_bounded() {
    is_noticed(|made| match asked_of_cut(&made) {
        Some(asked) => {
            set_mbc(made.record, asked);
            true
        }
        None => false,
    });
}

#[test]
fn mbc_is_lowered_and_the_transfer_is_not_bounded() {
    is_noticed(|made| match asked_of_cut(&made) {
        Some(asked) => {
            made.record[BLOCKS_LEFT] = asked as u16;
            true
        }
        None => false,
    });
}

#[test]
fn the_count_is_that_of_the_blocks_asked_for() {
    is_noticed(|made| match (asked_of_cut(&made), decoded(made.record)) {
        (Some(asked), right) if right.stwcen => {
            let Chip { reg34, reg35, .. } = with_blocks(right, asked);
            *made.record = encoded(&Chip { reg34, reg35, ..right });
            true
        }
        _ => false,
    });
}

/// Only what was made by hand has so many blocks left.
#[test]
fn a_running_record_is_held_to_the_bound() {
    is_noticed(|made| {
        let taken = made.answer.is_done() && !matches!(made.call, Call::Open { .. });
        taken && bytes_left(made.before) > MOST_BYTES && refuse(made, 1)
    });
}

#[test]
fn nothing_where_nothing_is_wrong() {
    let mut library = Faulty::new(1, u64::MAX, |made| {
        let (Some(start), Answer::Reply { number, .. }) = (Start::of(&made), *made.answer) else {
            return false;
        };
        let enough = start.chip.tcc > 0 && start.bounded(MOST_BYTES) <= start.chip.tcc;
        assert_eq!(number, if enough { 0 } else { 6 });
        assert!(!enough || decoded(made.record).mbc + 1 == start.bounded(MOST_BYTES));
        false
    });
    run(&mut library, 21, 20_000).expect("the model against itself");
}
