//! Random scripts, made beside a model's bench as `drive` makes them, with one thing more: skips with
//! ACMEN low while blocks wait. The model's writer hardly makes them but with an empty ring, where
//! a chip that skips all the same has nothing to skip.

use model::{parse, Bench, Call, Chip, Random, Writer};
use std::collections::VecDeque;

/// How seldom such a skip is put in where it can be.
const SKIPS_WITHOUT_ACMEN: u64 = 150;

/// A script's lines, and of each what the tally cannot know.
#[derive(Default)]
pub struct Script {
    pub lines: Vec<Vec<u8>>,
    /// Whether the model's chip ends a transfer of several blocks with the line.
    pub ends_of_several: Vec<bool>,
}

pub fn make_script(seed: u64, count: usize) -> Script {
    let (mut writer, mut bench) = (SkippingWriter::new(seed), Bench::new());
    let mut script = Script::default();
    for _ in 0..count {
        let line = writer.next_line(&bench);
        let last_of_several = bench.chip().is_some_and(is_last_word_of_several);
        script.ends_of_several.push(last_of_several && parse(&line) == Some(Call::Word));
        bench.line(&line);
        script.lines.push(line);
    }
    script
}

fn is_last_word_of_several(chip: &Chip) -> bool {
    let last = |blocks_left: usize, place: usize| blocks_left == 1 && place + 1 == chip.window.words;
    chip.mbc > 0 && chip.transfer.is_some_and(|transfer| last(transfer.blocks_left, transfer.place))
}

struct SkippingWriter {
    writer: Writer,
    random: Random,
    plan: VecDeque<Call>,
}

impl SkippingWriter {
    fn new(seed: u64) -> SkippingWriter {
        // Another seed, since with the same one its chances would be the writer's.
        SkippingWriter { writer: Writer::new(seed), random: Random::new(!seed), plan: VecDeque::new() }
    }

    fn next_line(&mut self, bench: &Bench) -> Vec<u8> {
        if let Some(call) = self.plan.pop_front() {
            return call.line().into_bytes();
        }
        let at_rest = |chip: &&Chip| chip.transfer.is_none() && chip.tcc > 0 && chip.acmen;
        match bench.chip().filter(at_rest) {
            Some(chip) if self.random.one_in(SKIPS_WITHOUT_ACMEN) => self.skip_without_acmen(chip),
            _ => self.writer.next_line(bench.chip(), &bench.disc()),
        }
    }

    /// TCINCEN stays as it is: while the decoder is on it may not change.
    fn skip_without_acmen(&mut self, chip: &Chip) -> Vec<u8> {
        let switches = if chip.tcincen { 0x20 } else { 0x00 };
        let count = self.random.between(1, chip.tcc as u16 + 1);
        self.plan.extend([write(0x9E, count), write(0x9C, switches | 0x40)]);
        write(0x9C, switches).line().into_bytes()
    }
}

fn write(reg: u16, value: u16) -> Call {
    Call::Write { reg, value }
}

#[cfg(test)]
mod tests {
    use super::*;

    #[test]
    fn same_seed_same_script() {
        assert_eq!(make_script(7, 500).lines, make_script(7, 500).lines);
        assert_ne!(make_script(7, 500).lines, make_script(8, 500).lines);
    }
}
