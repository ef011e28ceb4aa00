//! Random scripts. The writer looks at the model's chip, so that what it
//! asks for is often possible: blind lines would hardly ever get as far as
//! a transfer.

mod blind;
mod kinds;
mod scratches;
mod steps;

use crate::bench::Bench;
use crate::call::{Call, MAX_LINE_BYTES};
use crate::chip::Chip;
use crate::disc::Disc;
use crate::random::Random;
use blind::with_leading_zeros;
use std::collections::VecDeque;

pub use kinds::{Chosen, CHOSEN, CHOSEN_AT_FIRST_ADDRESS};

const READABLE: [u16; 19] =
    [0x12, 0x18, 0x24, 0x25, 0x30, 0x31, 0x32, 0x34, 0x35, 0x37, 0x38, 0x3A, 0x3B, 0x80, 0x9A, 0x9B, 0x9C, 0x9D, 0x9F];

/// A window of all parity bytes: the offset and the words.
const WHOLE_PARITY: (u16, u16) = (2076, 138);

pub struct Writer {
    random: Random,
    /// Calls that belong together and go out one after another.
    plan: VecDeque<Call>,
}

/// So many lines of a writer beside a bench of its own, each with its newline.
pub fn random_script(seed: u64, lines: usize) -> Vec<u8> {
    let (mut writer, mut bench) = (Writer::new(seed), Bench::new());
    let mut script = Vec::new();
    for _ in 0..lines {
        let line = writer.next_line(bench.chip(), &bench.disc());
        bench.line(&line);
        script.extend(line);
        script.push(b'\n');
    }
    script
}

fn write(reg: u16, value: u16) -> Call {
    Call::Write { reg, value }
}

impl Writer {
    pub fn new(seed: u64) -> Writer {
        Writer { random: Random::new(seed), plan: VecDeque::new() }
    }

    pub fn next_line(&mut self, chip: Option<&Chip>, disc: &Disc) -> Vec<u8> {
        if self.random.one_in(40) {
            return self.malformed_line();
        }
        let line = self.next_call(chip, disc).line();
        if self.random.one_in(100) {
            return with_leading_zeros(line, MAX_LINE_BYTES);
        }
        line.into_bytes()
    }

    pub fn next_call(&mut self, chip: Option<&Chip>, disc: &Disc) -> Call {
        let Some(chip) = chip else {
            return self.first_call();
        };
        if is_whole_block(chip) && !self.random.one_in(200) {
            return Call::Word;
        }
        // A long plan is to reach its end now and then.
        let steadiness = if self.plan.len() > 12 { 200 } else { 25 };
        if self.random.one_in(steadiness) {
            return self.blind_call(chip);
        }
        if let Some(call) = self.plan.pop_front() {
            return call;
        }
        // Until then every sector line is refused.
        if !disc.agrees() && !self.random.one_in(6) {
            return self.make_agree(disc);
        }
        if chip.transfer.is_some() {
            self.call_in_transfer(chip)
        } else if chip.reception.is_some() {
            self.call_in_reception(chip)
        } else {
            self.call_at_rest(chip)
        }
    }

    /// There is no way back to before the first opening, so it is put off.
    fn first_call(&mut self) -> Call {
        match self.random.below(12) {
            0..=1 => self.opening(),
            2 => self.any_scratch(),
            3..=4 => self.any_disc_line(),
            _ => {
                let stand_in = Chip::open(3).expect("3 blocks are a ring");
                self.blind_call(&stand_in)
            }
        }
    }

    fn opening(&mut self) -> Call {
        let ring = match self.random.below(20) {
            0..=3 => self.random.pick(&[0, 1, 2, 26, 255, 256, 65535]),
            4..=11 => self.random.between(3, 6),
            _ => self.random.between(3, 25),
        };
        Call::Open { ring }
    }

    fn call_in_transfer(&mut self, chip: &Chip) -> Call {
        match self.random.below(400) {
            0..=2 => Call::Srst,
            3..=10 => Call::Look,
            11..=16 => Call::Status,
            17..=30 => self.read(),
            31..=44 => self.sector(chip),
            45..=46 => self.scratched_sector(chip),
            47..=50 => write(0x0A, 0x00),
            51..=60 => self.meddling(),
            _ => Call::Word,
        }
    }

    fn call_in_reception(&mut self, chip: &Chip) -> Call {
        match self.random.below(80) {
            0..=2 => Call::Srst,
            3..=4 => write(0x07, 0),
            5..=6 => self.read(),
            7..=8 => Call::Command { code: 0xA0 },
            9..=11 => self.meddling(),
            12..=13 => self.sector(chip),
            _ => Call::Send { word: self.random.between(0, 65535) },
        }
    }

    fn call_at_rest(&mut self, chip: &Chip) -> Call {
        match self.random.below(100) {
            0..=24 => self.fill(chip),
            25..=27 => self.scratch_plan(chip),
            28..=33 => self.kind_plan(chip),
            34..=35 => self.change_kind(),
            36..=56 => self.serve(chip),
            57..=65 => self.packet_command(chip),
            66..=72 => self.read(),
            73..=75 => Call::Look,
            76..=78 => Call::Status,
            79..=82 => Call::Packet { index: self.random.between(0, 12) },
            83..=86 => self.skip(chip),
            87..=89 => self.withdraw(chip),
            90 => self.limit(chip),
            91 => self.meddling_with_decoder(chip),
            92..=93 => self.move_on_disc(),
            94 => self.move_in_ring(chip),
            95 => self.task_file(),
            96 => self.status_bits(),
            97 => self.abort_or_sign(),
            _ => self.rare_call(),
        }
    }

    fn rare_call(&mut self) -> Call {
        match self.random.below(16) {
            0..=1 => self.reset(),
            2 => Call::Word,
            3 => self.drop_count(),
            4..=8 => self.long_start(),
            9..=10 => self.start_by_packet(),
            11 => self.start_by_command(),
            _ => {
                let opening = self.opening();
                self.survey(opening)
            }
        }
    }
}

/// A last block of this length would hardly be read to its end if other
/// calls came between its words as often as elsewhere.
fn is_whole_block(chip: &Chip) -> bool {
    chip.window.words >= WHOLE_PARITY.1 as usize && chip.transfer.is_some_and(|transfer| transfer.blocks_left == 1)
}
