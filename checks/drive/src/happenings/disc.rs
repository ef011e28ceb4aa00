//! What happened to scratches, to the facts of sectors and to their parity. A scratch shows only in the
//! sector that suffers it, so that what it has outlasted is counted there.

use super::{Happenings, Step};
use ecma130::{Address, Facts, Kind, P_PARITY_START, Q_PARITY_START, SECTOR_BYTES};
use model::Call;
use std::collections::{BTreeMap, BTreeSet};
use std::ops::Range;

const MINUTE_PLACE: usize = 12;

/// All that is counted here.
pub const NAMES: [&str; 60] = [
    "sector stored, why 0",
    "sector stored, why 1",
    "sector stored, why 2",
    "sector stored, why 3",
    "sector stored, why 4",
    "sector stored, why 5",
    "sector stored, why 6",
    "sector stored, why 7",
    "sector stored, why 8",
    "sector stored, why 9",
    "sector stored, why 10",
    "sector stored, why 11",
    "sector stored, why 13",
    "sector stored, why 15",
    "80h read as 01h",
    "80h read as 40h",
    "80h read as 41h",
    "why without a fact that the bad sector before had",
    "why 0 again by a good sector",
    "why 0 again by a reset",
    "why 0 again by an opening",
    "why kept over a sector refused (3)",
    "why kept over a sector refused (7)",
    "why kept over a sector refused (8)",
    "why kept over a sector refused (9)",
    "why kept over DECEN low",
    "why kept over SRST",
    "why kept over a read of 80h",
    "why kept over a word",
    "why kept over a scratch",
    "why kept over a refused opening",
    "scratch before any open (5)",
    "scratch refused (3)",
    "scratch refused (3), its sum above 65,535",
    "scratch of 0 bytes refused (3)",
    "scratch accepted",
    "scratch of the whole sector",
    "scratch shown by its sector",
    "scratch in a good sector",
    "scratch that makes the minute the expected one",
    "word handed over with an inverted byte",
    "scratch gone after its sector",
    "scratch gone, taken back",
    "scratch gone by an opening",
    "scratch in place of another",
    "scratch kept over a refused scratch",
    "scratch kept over a refused opening",
    "scratch kept over a reset",
    "scratch kept over SRST",
    "scratch kept over DECEN low",
    "scratch kept over a sector refused (3)",
    "scratch kept over a sector refused (7)",
    "scratch kept over a sector refused (8)",
    "scratch kept over a sector refused (9)",
    "scratch kept over a malformed line",
    "word of P parity, not 0",
    "word of Q parity, not 0",
    "word of a zero and the first byte of P parity, not 0",
    "word of P and Q parity, not 0",
    "all parity of a block handed over",
];

#[derive(Default)]
pub struct Scratches {
    /// What the scratch that waits has outlasted.
    outlasted: BTreeSet<&'static str>,
    /// How the last scratch went; the next sector shows that it is gone.
    gone: Option<&'static str>,
    /// The kind that a sector was sealed as and its inverted bytes, by block.
    stored: BTreeMap<usize, (Kind, Range<usize>)>,
}

/// Facts.
impl Happenings {
    pub fn note_facts(&mut self, step: &Step) {
        let (Some(before), Some(after)) = (step.before, step.after) else {
            return;
        };
        let (was, is) = (before.facts.why(), after.facts.why());
        if was != 0 {
            self.note_facts_kept(step);
        }
        match step.call {
            Some(Call::Sector { .. }) if step.answer == 0 => {
                self.count(stored_name(is));
                self.count_if(is != 0 && was & !is != 0, "why without a fact that the bad sector before had");
                self.count_if(was != 0 && is == 0, "why 0 again by a good sector");
            }
            Some(Call::Read { reg: 0x80 }) => {
                self.count_if(step.out == 0x01, "80h read as 01h");
                self.count_if(step.out == 0x40, "80h read as 40h");
                self.count_if(step.out == 0x41, "80h read as 41h");
            }
            _ => {}
        }
    }

    /// Where the facts of a bad sector stand, and stay or go.
    fn note_facts_kept(&mut self, step: &Step) {
        let what = match (step.call, step.answer) {
            (Some(Call::Sector { .. }), 3) => "why kept over a sector refused (3)",
            (Some(Call::Sector { .. }), 7) => "why kept over a sector refused (7)",
            (Some(Call::Sector { .. }), 8) => "why kept over a sector refused (8)",
            (Some(Call::Sector { .. }), 9) => "why kept over a sector refused (9)",
            (Some(Call::Write { reg: 0x0A, value: 0 }), 0) => "why kept over DECEN low",
            (Some(Call::Srst), 0) => "why kept over SRST",
            (Some(Call::Read { reg: 0x80 }), 0) => "why kept over a read of 80h",
            (Some(Call::Word), 0) => "why kept over a word",
            (Some(Call::Scratch { .. }), 0) => "why kept over a scratch",
            (Some(Call::Open { .. }), 1) => "why kept over a refused opening",
            (Some(Call::Open { .. }), 0) => "why 0 again by an opening",
            (Some(Call::Reset), 0) => "why 0 again by a reset",
            _ => return,
        };
        self.count(what);
    }
}

/// Scratches.
impl Happenings {
    pub fn note_disc(&mut self, step: &Step) {
        match step.call {
            Some(Call::Scratch { from, count }) => self.note_scratch(step, from, count),
            Some(Call::Sector { address, .. }) if step.answer == 0 => self.note_arrival(step, address),
            Some(Call::Open { .. }) if step.answer == 0 => {
                self.scratches = Scratches::default();
                self.scratches.gone = (!step.disc.scratch.is_none()).then_some("scratch gone by an opening");
            }
            Some(Call::Word) if step.answer == 0 => self.note_word_of_block(step),
            _ => {}
        }
        if let (false, Some(what)) = (step.disc.scratch.is_none(), outlasted_name(step)) {
            self.scratches.outlasted.insert(what);
        }
    }

    fn note_scratch(&mut self, step: &Step, from: u16, count: u16) {
        let refused = step.answer == 3;
        let large = from as u32 + count as u32 > 65535;
        self.count_if(step.answer == 5, "scratch before any open (5)");
        self.count_if(refused, "scratch refused (3)");
        self.count_if(refused && large, "scratch refused (3), its sum above 65,535");
        self.count_if(refused && count == 0, "scratch of 0 bytes refused (3)");
        if step.answer != 0 {
            return;
        }
        let waited = !step.disc.scratch.is_none();
        self.count("scratch accepted");
        self.count_if(count == 2352, "scratch of the whole sector");
        self.scratches.outlasted.clear();
        self.scratches.gone = (waited && count == 0).then_some("scratch gone, taken back");
        if waited && count > 0 {
            self.scratches.outlasted.insert("scratch in place of another");
        }
    }

    /// A sector is stored: it has suffered the scratch that waited, or shows that there was none.
    fn note_arrival(&mut self, step: &Step, address: Address) {
        let (inverted, outlasted) = (step.disc.scratch.range(), std::mem::take(&mut self.scratches.outlasted));
        let gone = self.scratches.gone.take();
        let (Some(before), Some(after)) = (step.before, step.after) else {
            return;
        };
        if inverted.is_empty() {
            gone.iter().for_each(|what| self.count(what));
        }
        let unscratched = Facts { address: address != before.expected, ..Facts::default() };
        if after.facts != unscratched {
            self.count("scratch shown by its sector");
            outlasted.iter().for_each(|what| self.count(what));
            self.scratches.gone = Some("scratch gone after its sector");
        }
        let to_minute = inverted.end == MINUTE_PLACE + 1;
        self.count_if(to_minute && !after.facts.address, "scratch that makes the minute the expected one");
        self.count_if(after.facts.is_good() && !inverted.is_empty(), "scratch in a good sector");
        self.scratches.stored.insert(before.b, (step.disc.kind, inverted));
    }

    fn note_word_of_block(&mut self, step: &Step) {
        let Some((chip, transfer)) = step.before.and_then(|chip| Some((chip, chip.transfer?))) else {
            return;
        };
        let (window, place) = (chip.window, chip.window.offset + 2 * transfer.place);
        let Some((kind, inverted)) = self.scratches.stored.get(&chip.t).cloned() else {
            return;
        };
        let met = inverted.contains(&place) || inverted.contains(&(place + 1));
        self.count_if(met, "word handed over with an inverted byte");
        if step.out != 0 && !met && kind.has_parity() {
            self.note_parity_word(kind, place);
        }
        let whole = kind.has_parity() && window.offset <= P_PARITY_START && place + 2 == SECTOR_BYTES;
        self.count_if(whole, "all parity of a block handed over");
    }

    /// A word that is as it was sealed.
    fn note_parity_word(&mut self, kind: Kind, place: usize) {
        let first = kind == Kind::Mode1 && place + 1 == P_PARITY_START;
        self.count_if((P_PARITY_START..Q_PARITY_START - 1).contains(&place), "word of P parity, not 0");
        self.count_if(place >= Q_PARITY_START, "word of Q parity, not 0");
        self.count_if(first, "word of a zero and the first byte of P parity, not 0");
        self.count_if(place + 1 == Q_PARITY_START, "word of P and Q parity, not 0");
    }
}

fn stored_name(why: u8) -> &'static str {
    match why {
        0 => "sector stored, why 0",
        1 => "sector stored, why 1",
        2 => "sector stored, why 2",
        3 => "sector stored, why 3",
        4 => "sector stored, why 4",
        5 => "sector stored, why 5",
        6 => "sector stored, why 6",
        7 => "sector stored, why 7",
        8 => "sector stored, why 8",
        9 => "sector stored, why 9",
        10 => "sector stored, why 10",
        11 => "sector stored, why 11",
        13 => "sector stored, why 13",
        15 => "sector stored, why 15",
        _ => unreachable!("no scratch gives why {why}"),
    }
}

/// What a scratch that waits outlasts by this step, where it is counted.
fn outlasted_name(step: &Step) -> Option<&'static str> {
    Some(match (step.call, step.answer) {
        (None, _) => "scratch kept over a malformed line",
        (Some(Call::Scratch { .. }), 3) => "scratch kept over a refused scratch",
        (Some(Call::Open { .. }), 1) => "scratch kept over a refused opening",
        (Some(Call::Reset), 0) => "scratch kept over a reset",
        (Some(Call::Srst), 0) => "scratch kept over SRST",
        (Some(Call::Write { reg: 0x0A, value: 0 }), 0) => "scratch kept over DECEN low",
        (Some(Call::Sector { .. }), 3) => "scratch kept over a sector refused (3)",
        (Some(Call::Sector { .. }), 7) => "scratch kept over a sector refused (7)",
        (Some(Call::Sector { .. }), 8) => "scratch kept over a sector refused (8)",
        (Some(Call::Sector { .. }), 9) => "scratch kept over a sector refused (9)",
        _ => return None,
    })
}
