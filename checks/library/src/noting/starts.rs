//! Starts: by what they came, which of their bounds cut them, and what they leave in 34h and 35h.

use super::{handed, has_ended, Done, Step};
use crate::call::Call;
use crate::happenings::{byte_count_name, Happenings, BYTE_COUNTS};
use model::Chip;

const START: Call = Call::Write { reg: 0x17, value: 0x04 };

/// The bounds of a start with TTC set, as `bounds` has them.
const CUT_BY: [&str; 4] =
    ["start cut by ATLIM", "start cut by TCC", "start cut by TTC", "start cut by the byte bound with TTC set"];
const BYTE_BOUND: usize = 3;

impl Happenings {
    pub(super) fn note_start(&mut self, step: &Done) {
        let (before, after) = (step.before, step.after);
        let ended = has_ended(step);
        if after.transfer.is_none() || before.transfer.is_some() && !ended {
            return;
        }
        let by_firmware = *step.call == START;
        let by_write = matches!(step.call, Call::Write { .. }) && !by_firmware;
        self.count_if(by_firmware, "start by firmware");
        self.count_if(by_firmware && before.ttc == 0, "start by firmware with TTC 0");
        self.count_if(by_firmware && before.ttc > 0, "start by firmware with TTC set");
        self.count_if(!by_firmware, "start by itself");
        self.count_if(ended, "start by itself at the last word");
        self.count_if(matches!(step.call, Call::Sector { .. }), "start by itself at a sector");
        self.count_if(matches!(step.call, Call::Command { .. }), "start by itself at a command");
        self.count_if(matches!(step.call, Call::PacketWord { .. }), "start by itself at the sixth packet word");
        self.count_if(by_write, "start by itself at a write");
        // A burst may have gone on into what it started; TCC and TTC are then no more those of the start.
        if has_all_blocks_left(after) {
            self.note_blocks(after);
            self.note_cut(before, after, by_firmware);
        }
    }

    fn note_blocks(&mut self, chip: &Chip) {
        let blocks = chip.mbc + 1;
        let reckoned = chip.ttc > 0;
        self.count_if(blocks > 1, "start of several blocks");
        self.count_if(reckoned && chip.atlim == 0 && blocks == 32, "start of 32 blocks with ATLIM 0");
        self.count_if(!reckoned && blocks == 32, "start of 32 blocks by MBC");
        self.count_if(blocks == 32 && chip.window.words == 1023, "start of 32 blocks of 1,023 words");
        self.count_if(chip.stwcen, "start with byte count (STWCEN)");
    }

    fn note_cut(&mut self, before: &Chip, after: &Chip, by_firmware: bool) {
        let cut_by = cut_by(before, after);
        let reckoned = after.ttc > 0;
        if let (Some(bound), true) = (cut_by, reckoned) {
            self.count(CUT_BY[bound]);
        }
        let by_bytes = cut_by == Some(BYTE_BOUND);
        self.count_if(by_bytes && after.stwcen, "start cut by the byte bound with STWCEN");
        self.count_if(by_bytes && !after.stwcen, "start cut by the byte bound without STWCEN");
        self.count_if(by_bytes && by_firmware && reckoned, "start by firmware cut by the byte bound with TTC set");
        self.count_if(by_bytes && !by_firmware, "start by itself cut by the byte bound");
        let lowered = by_bytes && !reckoned;
        self.count_if(lowered, "start with TTC 0, MBC lowered");
        self.count_if(lowered && before.mbc + 1 > before.tcc, "start with TTC 0, MBC lowered, MBC+1 above TCC");
        self.count_if(lowered && after.mbc + 1 == before.tcc, "start with TTC 0, MBC lowered, of all good blocks");
    }

    /// MBC was to be lowered before it was found too large for TCC, and stays all the same.
    pub(super) fn note_refused_start(&mut self, step: &Done) {
        let chip = step.before;
        if *step.call != START || step.answer.number() != Some(6) {
            return;
        }
        let most = chip.window.most_blocks();
        if chip.ttc > 0 || chip.mbc < most {
            return;
        }
        self.count("start refused (6), MBC+1 above the byte bound");
        self.count_if(chip.tcc == 0, "start refused (6), MBC+1 above the byte bound, TCC 0");
        self.count_if(chip.tcc + 1 == most, "start refused (6), MBC+1 above the byte bound, one block short");
    }

    /// What a start left in the two registers, while its transfer runs.
    pub(super) fn note_byte_count(&mut self, step: &Done) {
        let Call::Read { reg: reg @ (0x34 | 0x35) } = *step.call else {
            return;
        };
        let chip = step.before;
        let bytes = (chip.mbc + 1) * chip.window.words * 2;
        let kept = u16::from_le_bytes([chip.reg34, chip.reg35]) as usize;
        let is_counted = chip.transfer.is_some() && chip.stwcen && kept == bytes;
        if is_counted && BYTE_COUNTS.contains(&bytes) {
            self.count(&byte_count_name(bytes, reg));
        }
    }

    /// Of a record that was loaded: its blocks left are not held to what a start could have had.
    pub(super) fn note_long_transfer(&mut self, step: &Step, before: &Chip) {
        let Some(transfer) = before.transfer else {
            return;
        };
        let long = transfer.blocks_left > before.window.most_blocks();
        let word = handed(step.call, step.answer) > 0;
        self.count_if(long && word, "word of a loaded transfer past the byte bound");
    }
}

fn has_all_blocks_left(chip: &Chip) -> bool {
    chip.transfer.is_some_and(|transfer| transfer.blocks_left == chip.mbc + 1)
}

fn bounds(chip: &Chip) -> [usize; 4] {
    let limit = if chip.atlim == 0 { 32 } else { chip.atlim };
    [limit, chip.tcc, chip.ttc, chip.window.most_blocks()]
}

/// The bound that alone made a start as short as it is. With TTC 0 only the byte bound can, by lowering MBC.
fn cut_by(before: &Chip, after: &Chip) -> Option<usize> {
    if after.ttc > 0 {
        least(bounds(after))
    } else {
        (after.mbc < before.mbc).then_some(BYTE_BOUND)
    }
}

/// The place of the one that is less than all others.
fn least(bounds: [usize; 4]) -> Option<usize> {
    let place = (0..bounds.len()).min_by_key(|&place| bounds[place])?;
    let alone = bounds.iter().filter(|&&bound| bound == bounds[place]).count() == 1;
    alone.then_some(place)
}
