//! Scratched sectors, and rows of calls that show what a scratch outlasts and what the kept
//! facts outlast.
//!
//! A sector is sealed rightly and one run of its bytes is inverted, so that not all of the
//! sixteen values of `why` can come. In mode 1 a run that touches the sync or the mode byte touches what the
//! EDC covers, and no run within the sector is a multiple of its generator: so sync and mode never fail
//! without it. In mode 2 the EDC begins behind the mode byte: sync (8) and address (1) fail alone. In every kind
//! a run that touches both sync and mode covers the address, and an inverted second or frame is no BCD number of
//! its range, so that the address fails too: 12 and 14 never come. 4, 5 and 13 come from sectors that were
//! chosen for it (`kinds.rs`). `tests/scratch.rs` goes through all runs.

use super::{write, Writer};
use crate::call::Call;
use crate::chip::Chip;
use ecma130::Address;

/// Where a field of a sector of any kind begins: sync, address, mode, the subheader's copies with their submodes, user
/// bytes, EDC, zeros, P parity, Q parity; and the end.
const EDGES: [u16; 17] = [0, 12, 15, 16, 18, 19, 20, 22, 23, 24, 2064, 2068, 2072, 2076, 2248, 2348, 2352];

/// Before here a scratch spoils a sector of any kind.
const JUDGED: u16 = 2068;

/// Each past the end: by a byte, by far, of no bytes, and with a sum that does not fit in sixteen bits.
const REFUSED: [(u16, u16); 10] = [
    (0, 2353),
    (2340, 13),
    (2352, 1),
    (2353, 0),
    (40000, 0),
    (65535, 0),
    (1, 65535),
    (65535, 1),
    (65535, 2353),
    (65535, 65535),
];

/// A minute and the one that its BCD number becomes when it is inverted.
const INVERTED_MINUTES: [(u16, u16); 4] = [(99, 66), (66, 99), (98, 67), (78, 87)];

pub(super) const FIRST_ADDRESS: Address = Address::new(0, 2, 0);
pub(super) const DECODER_ON: Call = Call::Write { reg: 0x0A, value: 0x80 };
pub(super) const DECODER_OFF: Call = Call::Write { reg: 0x0A, value: 0x00 };
/// BLIMEN, and the stop by the ring's room.
pub(super) const BY_RING: Call = Call::Write { reg: 0x9A, value: 0x20 };

/// The run from one byte to before another.
fn run(from: u16, end: u16) -> Call {
    Call::Scratch { from, count: end - from }
}

/// Scratches.
impl Writer {
    /// Any, as often as not one that is refused.
    pub(super) fn any_scratch(&mut self) -> Call {
        if self.random.one_in(2) {
            return self.refused_scratch();
        }
        self.scratch()
    }

    fn refused_scratch(&mut self) -> Call {
        let (from, count) = self.random.pick(&REFUSED);
        Call::Scratch { from, count }
    }

    fn scratch(&mut self) -> Call {
        match self.random.below(16) {
            0..=8 => self.scratch_in_a_field(),
            9..=13 => self.scratch_between_edges(),
            14 => run(0, 2352),
            _ => run(self.random.between(0, 2352), 2352),
        }
    }

    /// In one field alone, often the whole of it.
    fn scratch_in_a_field(&mut self) -> Call {
        let field = self.random.below(EDGES.len() as u64 - 1) as usize;
        let (start, end) = (EDGES[field], EDGES[field + 1]);
        if self.random.one_in(3) {
            return run(start, end);
        }
        let from = self.random.between(start, end - 1);
        run(from, self.random.between(from + 1, end))
    }

    /// From an edge or a byte beside it to another.
    fn scratch_between_edges(&mut self) -> Call {
        let (one, other) = (self.about_an_edge(), self.about_an_edge());
        run(one.min(other), one.max(other))
    }

    fn about_an_edge(&mut self) -> u16 {
        let edge = self.random.pick(&EDGES);
        let (before, after) = (edge.saturating_sub(1), (edge + 1).min(2352));
        self.random.pick(&[before, edge, edge, after])
    }

    /// One that spoils a sector.
    fn judged_scratch(&mut self) -> Call {
        let from = self.random.between(0, 20);
        let any = self.random.between(0, JUDGED - 1);
        let from = self.random.pick(&[from, from, any, JUDGED - 1]);
        let count = self.random.pick(&[1, 1, 2, 4, 12, 16, 2352 - from]);
        Call::Scratch { from, count: count.min(2352 - from) }
    }

    /// A scratch and the sector that suffers it, often not the one that is due.
    pub(super) fn scratched_sector(&mut self, chip: &Chip) -> Call {
        let (scratch, address) = (self.scratch(), self.random.pick(&[chip.expected, chip.expected.next()]));
        let sector = self.sector_at(address);
        self.then(scratch, &[sector, Call::Read { reg: 0x80 }])
    }
}

/// Plans. Each is put behind what makes the chip take a sector.
impl Writer {
    pub(super) fn scratch_plan(&mut self, chip: &Chip) -> Call {
        self.make_ready(chip);
        match self.random.below(15) {
            0..=4 => self.scratch_outlasts(chip),
            5..=8 => self.facts_outlast(chip),
            9 => self.scratch_is_taken_back(chip),
            10 => self.scratch_is_replaced(chip),
            11 => self.opening_clears(),
            12..=13 => self.minute_becomes_the_expected_one(chip),
            _ => self.inverted_parity_is_served(chip),
        }
        self.plan.pop_front().expect("the decoder is taken off first")
    }

    /// DECEN low frees a held chip, and lets switches be written and blocks be withdrawn.
    pub(super) fn make_ready(&mut self, chip: &Chip) {
        self.plan.push_back(DECODER_OFF);
        if chip.tcc + 3 > chip.blocks {
            self.plan.push_back(write(0x9D, 0));
        }
        if !chip.blimen || chip.blims {
            self.plan.push_back(BY_RING);
        }
        if !chip.tcincen {
            self.plan.push_back(write(0x9C, 0x60));
        }
        self.plan.push_back(DECODER_ON);
    }

    pub(super) fn sector_at(&mut self, address: Address) -> Call {
        Call::Sector { address, fill: self.random.between(0, 255) }
    }

    /// A scratch, other_calls that must not touch it, and the sector.
    fn scratch_outlasts(&mut self, chip: &Chip) {
        if self.random.one_in(4) {
            // After a bad sector the chip is held.
            let bad = self.sector_at(chip.expected.next());
            self.plan.push_back(bad);
        }
        let scratch = self.judged_scratch();
        self.plan.push_back(scratch);
        self.calls_and_a_sector(chip);
    }

    /// A bad sector, other_calls that must leave its facts, and another sector, bad too now and then.
    fn facts_outlast(&mut self, chip: &Chip) {
        let (scratch, sector) = (self.judged_scratch(), self.sector_at(chip.expected));
        self.plan.extend([scratch, sector]);
        if self.random.one_in(3) {
            let scratch = self.judged_scratch();
            self.plan.push_back(scratch);
        }
        self.calls_and_a_sector(chip);
    }

    /// The sector at the end is taken, also by a chip that was held.
    fn calls_and_a_sector(&mut self, chip: &Chip) {
        let other_calls = self.other_calls(chip);
        self.plan.extend(other_calls);
        if self.random.one_in(5) {
            self.plan.push_back(Call::Reset);
            self.begin();
        } else {
            let sector = self.sector_at(chip.expected);
            self.plan.extend([DECODER_OFF, DECODER_ON, sector]);
        }
        self.plan.push_back(Call::Read { reg: 0x80 });
    }

    /// What touches neither a scratch nor, where no sector is taken, the facts.
    pub(super) fn other_calls(&mut self, chip: &Chip) -> Vec<Call> {
        let sector = self.sector_at(chip.expected);
        match self.random.below(8) {
            0 => vec![Call::Srst],
            1 => vec![sector, Call::Look],
            2 => vec![DECODER_OFF, sector, Call::Status, DECODER_ON],
            3 => vec![self.refused_scratch()],
            4 => vec![Call::Open { ring: self.random.pick(&[0, 2, 26, 65535]) }],
            5 => vec![Call::Sector { address: chip.expected, fill: 256 }],
            6 => vec![Call::Read { reg: 0x80 }, DECODER_OFF, Call::Read { reg: 0x9B }],
            // With BLIMS and BUFLIM 0 the ring is at its stop, whatever it holds.
            _ => vec![DECODER_OFF, write(0x9A, 0x30), write(0x9B, 0), DECODER_ON, sector, DECODER_OFF, BY_RING],
        }
    }

    /// Count 0 takes it back, wherever it is said to begin.
    fn scratch_is_taken_back(&mut self, chip: &Chip) {
        let (scratch, sector) = (self.judged_scratch(), self.sector_at(chip.expected));
        let from = self.random.between(0, 2352);
        self.plan.extend([scratch, Call::Scratch { from, count: 0 }, sector]);
    }

    fn scratch_is_replaced(&mut self, chip: &Chip) {
        let (first, second) = (self.judged_scratch(), self.scratch());
        let sector = self.sector_at(chip.expected);
        self.plan.extend([first, second, sector]);
    }

    fn opening_clears(&mut self) {
        let (scratch, ring) = (self.judged_scratch(), self.random.between(3, 25));
        self.plan.extend([scratch, Call::Open { ring }]);
        self.begin();
    }

    /// The first sector of a chip that is as opened.
    pub(super) fn begin(&mut self) {
        let sector = self.sector_at(FIRST_ADDRESS);
        self.plan.extend([BY_RING, write(0x9C, 0x60), DECODER_ON, sector]);
    }

    /// The address fits because it was inverted. In mode 2 no code covers it, so that the sector is good.
    fn minute_becomes_the_expected_one(&mut self, chip: &Chip) {
        let (minute, inverted) = self.random.pick(&INVERTED_MINUTES);
        let number = self.random.pick(&[1, 2, 3]);
        self.set_disc(number);
        let address = Address { minute, ..chip.expected };
        let (from, count) = self.random.pick(&[(12, 1), (12, 1), (11, 2), (0, 13)]);
        let sector = self.sector_at(Address { minute: inverted, ..address });
        self.plan.extend([DECODER_OFF, Call::Address { address }, DECODER_ON]);
        self.plan.extend([Call::Scratch { from, count }, sector, Call::Read { reg: 0x80 }]);
    }
}
