//! What happened in a call, told from the call, its answer and the chip on both sides of it.

mod addresses;
mod sectors;
mod starts;

use crate::call::{Answer, Call};
use crate::happenings::{
    answer_name, read_name, ring_name, stored_name, unsound_why_name, write_name, Happenings, WRONG_RINGS,
};
use crate::record;
use crate::state::State;
use ecma130::{Address, P_PARITY_START, Q_PARITY_START};
use model::{Chip, BLOCK_BYTES};

/// A call, its answer, and what it was made on.
pub struct Step<'a> {
    pub call: &'a Call,
    pub answer: &'a Answer,
    pub before: &'a State,
    pub after: &'a State,
}

/// An accepted call between two chips.
struct Done<'a> {
    call: &'a Call,
    answer: &'a Answer,
    before: &'a Chip,
    after: &'a Chip,
}

impl Happenings {
    pub fn note(&mut self, step: &Step) {
        if let Some(number) = step.answer.number() {
            self.count(&answer_name(step.call.name(), number));
        }
        if let Some(before) = &step.before.chip {
            self.note_refusals(step, before);
            self.note_loaded(step, before);
        }
        if step.before.chip.is_none() {
            self.count(&unsound_why_name(record::why(&step.before.record)));
            self.count_if(matches!(step.call, Call::Look { .. }), "look at an unsound record");
        }
        if let (Call::Open { blocks }, true) = (step.call, step.answer.is_done()) {
            self.note_opening(*blocks, step.before);
        }
        if let (Some(before), Some(after), true) = (&step.before.chip, &step.after.chip, step.before.reached) {
            self.note_reached(&Done { call: step.call, answer: step.answer, before, after });
        }
    }

    fn note_opening(&mut self, blocks: u16, before: &State) {
        if [3, 4, 25, 26, 254, 255].contains(&blocks) {
            self.count(&format!("ring of {blocks} blocks opened"));
        }
        self.count_if(blocks > 25, "ring above 25 blocks opened");
        let running = before.chip.is_some_and(|chip| chip.transfer.is_some());
        self.count_if(running, "opening over a chip in a transfer");
    }

    fn note_loaded(&mut self, step: &Step, before: &Chip) {
        let accepted = !step.before.reached && step.answer.is_done();
        self.count_if(accepted, "call on a loaded record accepted");
        let spoiled = accepted && step.after.chip.is_none();
        self.count_if(spoiled, "accepted call that leaves a loaded record unsound");
        if accepted {
            self.note_long_transfer(step, before);
        }
    }

    /// Of sound records: registers by number, and lengths that do not fit.
    fn note_refusals(&mut self, step: &Step, before: &Chip) {
        let number = step.answer.number().unwrap_or(0);
        match *step.call {
            Call::Write { reg, .. } if number != 2 => self.count(&write_name(reg, number)),
            Call::Read { reg } if number == 0 => self.count(&read_name(reg)),
            Call::Sector { sector, .. } => self.note_sector_length(&sector),
            _ => {}
        }
        if let Some(ring) = step.call.lent().and_then(|lent| wrong_ring(lent, before.blocks)) {
            self.count(&ring_name(step.call.name(), ring));
        }
    }

    /// Of records that came from an opening.
    fn note_reached(&mut self, step: &Done) {
        self.note_facts(step);
        self.note_refused_sector(step);
        self.note_refused_start(step);
        self.note_byte_count(step);
        self.note_look(step);
        self.note_burst(step);
        if !step.answer.is_done() || matches!(step.call, Call::Open { .. }) {
            return;
        }
        self.note_sector(step);
        self.note_write(step);
        self.note_start(step);
        self.note_transfer(step);
        self.note_packet(step);
        self.note_abort(step);
        let (before, after) = (step.before, step.after);
        self.count_if(after.t < before.t && after.tcc < before.tcc, "T goes around the ring");
        let last_block = matches!(step.call, Call::SetBlock { .. }) && after.t == after.blocks - 1;
        self.count_if(last_block, "T set to the last block");
        let cleared = matches!(step.call, Call::Status) && before.hirq && !after.hirq;
        self.count_if(cleared, "HIRQ cleared by a status read");
    }

    fn note_facts(&mut self, step: &Done) {
        let (was, is) = (step.before.facts.why(), step.after.facts.why());
        if was != 0 {
            self.note_facts_kept(step);
        }
        match (step.call, step.answer.number()) {
            (Call::Sector { .. }, Some(0)) => {
                self.count(&stored_name(is as u32));
                self.count_if(is != 0 && was & !is != 0, "why without a fact that the bad sector before had");
                self.count_if(was != 0 && is == 0, "why 0 again by a good sector");
            }
            (Call::Read { reg: 0x80 }, _) => {
                self.count_if(step.answer.result() == 0x01, "80h read as 01h");
                self.count_if(step.answer.result() == 0x40, "80h read as 40h");
                self.count_if(step.answer.result() == 0x41, "80h read as 41h");
            }
            _ => {}
        }
    }

    /// Where the facts of a bad sector stand, and stay or go.
    fn note_facts_kept(&mut self, step: &Done) {
        let what = match (step.call, step.answer.number()) {
            (Call::Sector { .. }, Some(1)) => "why kept over a sector refused (1)",
            (Call::Sector { .. }, Some(7)) => "why kept over a sector refused (7)",
            (Call::Sector { .. }, Some(8)) => "why kept over a sector refused (8)",
            (Call::Sector { .. }, Some(9)) => "why kept over a sector refused (9)",
            (Call::Write { reg: 0x0A, value: 0 }, Some(0)) => "why kept over DECEN low",
            (Call::Srst, Some(0)) => "why kept over SRST",
            (Call::Read { reg: 0x80 }, Some(0)) => "why kept over a read of 80h",
            (Call::Word { .. } | Call::Words { .. }, Some(0)) => "why kept over words",
            (Call::Open { .. }, Some(0)) => "why 0 again by an opening",
            (Call::Reset, Some(0)) => "why 0 again by a reset",
            _ => return,
        };
        self.count(what);
    }

    fn note_refused_sector(&mut self, step: &Done) {
        let chip = step.before;
        if !matches!(step.call, Call::Sector { .. }) || step.answer.number() != Some(9) {
            return;
        }
        self.count_if(!chip.blims, "sector refused at a full ring (9)");
        self.count_if(chip.blims, "sector refused at BUFLIM (9)");
        self.count_if(chip.blims && chip.bufc > chip.buflim, "sector refused with BUFC above BUFLIM (9)");
    }

    fn note_sector(&mut self, step: &Done) {
        let Call::Sector { sector, .. } = step.call else {
            return;
        };
        let (before, after) = (step.before, step.after);
        let good = step.answer.result() == 0;
        if sector.address == before.expected {
            self.note_taken(sector, after.facts);
        }
        self.count_if(before.transfer.is_some(), "sector taken in a transfer");
        self.count_if(before.reception.is_some(), "sector taken in a reception");
        self.count_if(after.blocks > 25, "sector taken by a ring above 25 blocks");
        self.count_if(after.b < before.b, "B goes around the ring");
        let full = after.tcc == after.blocks - 1;
        self.count_if(full && after.blocks == 3, "ring of 3 blocks full");
        self.count_if(full && after.blocks > 25, "ring above 25 blocks full");
        self.count_if(full && after.blocks == 255, "ring of 255 blocks full");
        self.count_if(good && after.expected == Address::new(0, 0, 0), "address past 99:59:74");
        self.count_if(good && after.expected.minute > before.expected.minute, "address past a minute");
    }

    fn note_write(&mut self, step: &Done) {
        let Call::Write { reg, value } = *step.call else {
            return;
        };
        let (chip, blocks) = (step.before, value as usize);
        match (reg, value) {
            (0x07, _) => self.count_if(chip.reception.is_some(), "07h written in a reception"),
            (0x0A, 0) => {
                self.count_if(chip.held, "restart after a bad sector");
                self.count_if(chip.transfer.is_some(), "DECEN low in a transfer");
            }
            (0x0A, _) => self.count_if(chip.held, "DECEN high on a held chip"),
            (0x17, 0x01) => self.count("completion by firmware"),
            (0x17, 0x10) => self.count("signature"),
            (0x9C, _) => self.count_if(chip.ttc > 0 && value & 0x40 == 0, "ACMEN low takes TTC along"),
            (0x9D, _) => {
                self.count_if(blocks < chip.tcc, "withdrawal of blocks");
                self.count_if(blocks == 0 && chip.tcc > 0, "withdrawal of all blocks");
            }
            (0x9E, _) => {
                self.count_if(chip.acmen && blocks > 0, "skip of blocks");
                self.count_if(chip.acmen && blocks > 0 && blocks == chip.tcc, "skip of all blocks");
                self.count_if(!chip.acmen && blocks > 0, "skip with ACMEN low");
            }
            (0x9F, _) => self.count_if(!chip.acmen && value > 0, "TTC written with ACMEN low"),
            _ => {}
        }
    }

    fn note_transfer(&mut self, step: &Done) {
        let handed = handed(step.call, step.answer);
        let (before, after) = (step.before, step.after);
        if handed == 0 {
            return;
        }
        self.count("words handed over");
        self.count_if(before.window.offset % 2 == 1, "words handed over from an odd offset");
        self.count_if(before.blocks > 25, "words handed over from a ring above 25 blocks");
        if !has_ended(step) {
            return;
        }
        self.count("transfer ended");
        self.count_if(before.mbc > 0, "transfer of several blocks ended");
        self.count_if(before.mbc == 31, "transfer of 32 blocks ended");
        self.count_if(before.ascen, "transfer ended with completion");
        let armed = before.ascen && before.autoen && !before.apkten && after.apkten;
        self.count_if(armed, "transfer ended, APKTEN set by AUTOEN");
    }

    fn note_burst(&mut self, step: &Done) {
        let (Call::Words { count, .. }, Answer::Burst { number: 0, handed, .. }) = (*step.call, *step.answer) else {
            return;
        };
        let running = step.before.transfer.is_some();
        self.count_if(count == 0 && running, "burst of 0 words in a transfer");
        self.count_if(count == 0 && !running, "burst of 0 words without a transfer");
        let (block, all) = (words_left_in_block(step.before), words_left(step.before));
        self.count_if(count == 1, "burst of 1 word");
        self.count_if(handed > 1 && handed < block, "burst within a block");
        self.count_if(handed > 0 && handed == block && block < all, "burst to a block's end");
        self.count_if(handed > block && block < all, "burst across blocks");
        self.count_if(handed > 0 && handed == all && count == all, "burst to the transfer's end");
        self.count_if(handed < count, "burst that ends early");
        self.count_if(handed > all, "burst that goes on by a start by itself");
        self.count_if(handed > 65535, "burst of more than 65,535 words");
    }

    fn note_packet(&mut self, step: &Done) {
        let (before, after) = (step.before, step.after);
        match *step.call {
            Call::Command { code } => {
                let received = after.reception.is_some();
                self.count_if(received, "packet command received");
                self.count_if(received && before.a0ien, "packet command with A0IEN");
                self.count_if(code == 0xA0 && !before.apkten, "packet command without APKTEN");
                self.count_if(code != 0xA0, "other command received");
            }
            Call::PacketWord { .. } if after.reception.is_none() => {
                self.count("packet full");
                self.count_if(before.ascen, "packet full with completion");
                self.count_if(!before.adcen, "packet full with ADCEN low");
            }
            Call::PacketByte { .. } => self.count("packet byte read"),
            _ => {}
        }
    }

    fn note_abort(&mut self, step: &Done) {
        let running = step.before.transfer;
        match step.call {
            Call::Srst => {
                self.count_if(running.is_some(), "abort of a transfer");
                self.count_if(running.is_some_and(|transfer| transfer.place > 0), "abort within a block");
                self.count_if(step.before.reception.is_some(), "abort of a reception");
            }
            Call::Reset => self.count_if(running.is_some(), "reset of a transfer"),
            _ => {}
        }
    }

    fn note_look(&mut self, step: &Done) {
        let (Call::Look { lent }, Answer::Part { length, .. }) = (*step.call, *step.answer) else {
            return;
        };
        let chip = step.before;
        let fits = lent == chip.blocks * BLOCK_BYTES;
        let half_read = chip.transfer.is_some_and(|transfer| transfer.place > 0);
        self.count_if(length > 0, "look with bytes");
        self.count_if(length > 0 && chip.blocks > 25, "look in a ring above 25 blocks");
        self.count_if(length > 0 && half_read, "look at a half-read block");
        let (start, end) = (chip.window.offset, chip.window.offset + length);
        self.count_if(start < Q_PARITY_START && end > P_PARITY_START, "look with bytes of P parity");
        self.count_if(end > Q_PARITY_START, "look with bytes of Q parity");
        self.count_if(fits && chip.tcc == 0 && chip.window.words > 0, "look with TCC 0");
        self.count_if(fits && chip.tcc > 0 && chip.window.words == 0, "look without a window");
    }
}

/// How a lent length misses the ring, where it does in a way that is counted.
fn wrong_ring(lent: usize, blocks: usize) -> Option<&'static str> {
    let fitting = blocks * BLOCK_BYTES;
    let other_blocks = lent != fitting && lent > 0 && lent.is_multiple_of(BLOCK_BYTES);
    let ways = [lent == 0, lent + 1 == fitting, lent == fitting + 1, other_blocks, lent == fitting + 65536];
    ways.iter().position(|&way| way).map(|way| WRONG_RINGS[way])
}

fn handed(call: &Call, answer: &Answer) -> usize {
    match (call, *answer) {
        (Call::Word { .. }, Answer::Reply { number: 0, .. }) => 1,
        (_, Answer::Burst { handed, .. }) => handed,
        _ => 0,
    }
}

/// Whether the words that were handed over reached the end of the transfer that ran.
fn has_ended(step: &Done) -> bool {
    let handed = handed(step.call, step.answer);
    handed > 0 && handed >= words_left(step.before)
}

fn words_left_in_block(chip: &Chip) -> usize {
    chip.transfer.map_or(0, |transfer| chip.window.words - transfer.place)
}

fn words_left(chip: &Chip) -> usize {
    chip.transfer.map_or(0, |transfer| transfer.blocks_left * chip.window.words - transfer.place)
}
