//! The next call of a run. It is chosen by looking at the model's chip, so that
//! what is asked is often possible: calls at random would hardly ever get as far as a transfer.

use crate::call::Call;
use crate::memory::Memory;
use crate::sectors::{Damage, Sector, WRONG_LENGTHS};
use ecma130::{Address, Kind};
use model::{Chip, Random, BLOCK_BYTES};
use std::collections::VecDeque;

/// The least, the largest and the bench's largest ring, each with the one beside it.
const RINGS: [u16; 6] = [3, 255, 25, 4, 254, 26];

/// What is to come next.
#[derive(Clone, Copy)]
pub enum Wish {
    Call(Call),
    /// Good sectors until so many good blocks are there, or no more are taken.
    Fill(usize),
    /// Bursts until no transfer runs.
    Drain,
    /// A look, by the ring that is then open.
    Look,
}

pub struct Chooser {
    pub(crate) random: Random,
    /// Calls that belong together and go out one after another.
    pub(crate) plan: VecDeque<Wish>,
    /// The one of `RINGS` that comes next.
    next_ring: usize,
}

pub fn write(reg: u16, value: u16) -> Call {
    Call::Write { reg, value }
}

/// The bytes of the chip's ring.
pub fn ring_bytes(chip: &Chip) -> usize {
    chip.blocks * BLOCK_BYTES
}

impl Chooser {
    pub fn new(seed: u64) -> Chooser {
        let mut random = Random::new(seed);
        let next_ring = random.below(RINGS.len() as u64) as usize;
        Chooser { random, plan: VecDeque::new(), next_ring }
    }

    /// The next call, now and then with a length that does not fit.
    pub fn next(&mut self, chip: &Chip) -> Call {
        let call = self.fitting(chip);
        // Sectors come often enough.
        let rarity = match call {
            Call::Word { .. } => 3,
            Call::Look { .. } => 4,
            Call::Words { .. } => 12,
            _ => 20,
        };
        if call.lent().is_some() && self.random.one_in(rarity) {
            return call.with_lent(self.wrong_length(chip));
        }
        call
    }

    fn fitting(&mut self, chip: &Chip) -> Call {
        // A long filling is to reach its end now and then.
        let steadiness = if matches!(self.plan.front(), Some(Wish::Fill(_))) { 300 } else { 20 };
        if self.random.one_in(steadiness) {
            return self.any_call(chip);
        }
        if let Some(call) = self.planned(chip) {
            return call;
        }
        if chip.transfer.is_some() {
            self.in_transfer(chip)
        } else if chip.reception.is_some() {
            self.in_reception(chip)
        } else {
            self.at_rest(chip)
        }
    }

    fn planned(&mut self, chip: &Chip) -> Option<Call> {
        while let Some(&wish) = self.plan.front() {
            match wish {
                Wish::Call(call) => {
                    self.plan.pop_front();
                    return Some(call);
                }
                Wish::Fill(good) if chip.tcc < good && chip.decen && !chip.held && !chip.is_at_stop() => {
                    return Some(self.good_sector(chip));
                }
                Wish::Drain if chip.transfer.is_some() => return Some(self.burst(chip)),
                Wish::Look => {
                    self.plan.pop_front();
                    return Some(self.look(chip));
                }
                Wish::Fill(_) | Wish::Drain => {
                    self.plan.pop_front();
                }
            }
        }
        None
    }

    pub(crate) fn then(&mut self, first: Call, rest: &[Call]) -> Call {
        self.follow(rest);
        first
    }

    pub(crate) fn follow(&mut self, calls: &[Call]) {
        self.plan.extend(calls.iter().map(|&call| Wish::Call(call)));
    }

    fn wrong_length(&mut self, chip: &Chip) -> usize {
        let fitting = ring_bytes(chip);
        let blocks = self.random.between(3, 255) as usize * BLOCK_BYTES;
        let shorter = fitting.saturating_sub(65536);
        // Those that are asked for by name come most often.
        if self.random.one_in(3) {
            let beside = [fitting - BLOCK_BYTES, fitting + BLOCK_BYTES];
            return self.random.pick(&[1, beside[0], beside[1], blocks, shorter, Memory::longest()]);
        }
        self.random.pick(&[0, fitting - 1, fitting + 1, fitting + 65536])
    }

    pub(crate) fn sector(&mut self, chip: &Chip) -> Call {
        match self.random.below(20) {
            0 => self.short_or_long_sector(chip),
            1 => self.sector_with_one_fault(chip),
            2..=7 => self.bad_sector(chip),
            _ => self.good_sector(chip),
        }
    }

    pub(crate) fn bad_sector(&mut self, chip: &Chip) -> Call {
        self.damaged(chip, Damage::random)
    }

    pub(crate) fn sector_with_one_fault(&mut self, chip: &Chip) -> Call {
        self.damaged(chip, Damage::single)
    }

    pub(crate) fn good_sector(&mut self, chip: &Chip) -> Call {
        self.damaged(chip, Damage::unjudged)
    }

    fn damaged(&mut self, chip: &Chip, damage: impl Fn(&mut Random) -> Damage) -> Call {
        let kind = self.random.pick(&Kind::ALL);
        let sector = Sector { damage: damage(&mut self.random), kind, ..Sector::good(chip.expected) };
        Call::Sector { lent: ring_bytes(chip), sector }
    }

    fn short_or_long_sector(&mut self, chip: &Chip) -> Call {
        let (length, kind) = (self.random.pick(&WRONG_LENGTHS), self.random.pick(&Kind::ALL));
        let sector = Sector { length, kind, ..Sector::good(chip.expected) };
        Call::Sector { lent: ring_bytes(chip), sector }
    }

    /// A burst of words, and how far it goes: within a block, to its end, on into
    /// the next, to the transfer's end or past it.
    pub(crate) fn burst(&mut self, chip: &Chip) -> Call {
        let (words, transfer) = (chip.window.words, chip.transfer.expect("a transfer runs"));
        let block = words - transfer.place;
        let all = words * transfer.blocks_left - transfer.place;
        let few = self.random.between(1, 9) as usize;
        let count = match self.random.below(24) {
            0 => 0,
            1..=3 => 1,
            4..=7 => few,
            8..=11 => block,
            12..=14 => block + few,
            15 => block + words,
            16 => all - 1,
            17..=19 => all,
            20..=22 => all + few,
            _ => 2 * all,
        };
        Call::Words { lent: ring_bytes(chip), count }
    }

    pub(crate) fn word(&mut self, chip: &Chip) -> Call {
        Call::Word { lent: ring_bytes(chip) }
    }

    pub(crate) fn look(&mut self, chip: &Chip) -> Call {
        Call::Look { lent: ring_bytes(chip) }
    }

    /// Each ring of the list in its turn, and others between them.
    pub(crate) fn opening(&mut self) -> Call {
        let blocks = match self.random.below(10) {
            0..=1 => self.random.between(3, 12),
            2..=3 => self.random.between(3, 255),
            _ => {
                self.next_ring = (self.next_ring + 1) % RINGS.len();
                RINGS[self.next_ring]
            }
        };
        Call::Open { blocks }
    }

    /// Often an end of the range, where carrying goes wrong.
    pub(crate) fn any_address(&mut self) -> Address {
        let minute = self.random.pick(&[0, 9, 10, 59, 98, 99, 99]);
        let second = self.random.pick(&[0, 2, 9, 19, 58, 59, 59]);
        let frame = self.random.pick(&[0, 9, 39, 72, 73, 74, 74]);
        Address::new(minute, second, frame)
    }
}
