//! The bench program: one line in, one line out.

use crate::call::{parse, Call};
use crate::chip::{Answer, Chip, Refusal, BLOCK_BYTES};
use crate::disc::Disc;

const MAX_RING: u16 = 25;
const MALFORMED: u16 = 2;

pub struct Bench {
    lines: u64,
    chip: Option<Chip>,
    memory: Vec<u8>,
    disc: Disc,
}

impl Default for Bench {
    fn default() -> Bench {
        Bench::new()
    }
}

impl Bench {
    pub fn new() -> Bench {
        Bench::over(vec![0; MAX_RING as usize * BLOCK_BYTES])
    }

    /// A bench over memory of any bytes; a ring that it is too short for can be
    /// opened, but neither filled nor served.
    pub fn over(memory: Vec<u8>) -> Bench {
        Bench { lines: 0, chip: None, memory, disc: Disc::NEW }
    }

    /// The memory as the last line left it. The open ring is its start.
    pub fn into_memory(self) -> Vec<u8> {
        self.memory
    }

    /// The chip as the last line left it, if one was ever opened.
    pub fn chip(&self) -> Option<&Chip> {
        self.chip.as_ref()
    }

    /// What the next sector line carries.
    pub fn disc(&self) -> Disc {
        self.disc
    }

    /// Takes a line without its newline and gives the printed one.
    pub fn line(&mut self, line: &[u8]) -> String {
        self.lines += 1;
        let (answer, out) = match parse(line).map(|call| self.run(call)) {
            None => (MALFORMED, 0),
            Some(Ok(out)) => (0, out),
            Some(Err(refusal)) => (refusal as u16, 0),
        };
        let (tcc, bufc, why, irq) = self.kept();
        format!("n={} answer={answer} out={out} tcc={tcc} bufc={bufc} why={why} irq={irq}", self.lines)
    }

    /// What every line shows of the chip; without one all is 0.
    fn kept(&self) -> (usize, usize, u8, u8) {
        self.chip.map_or((0, 0, 0, 0), |chip| (chip.tcc, chip.bufc, chip.facts.why(), chip.hirq as u8))
    }

    fn run(&mut self, call: Call) -> Answer {
        if let Call::Open { ring } = call {
            return self.open(ring);
        }
        let chip = self.chip.as_mut().ok_or(Refusal::Switches)?;
        let end = self.memory.len().min(chip.blocks * BLOCK_BYTES);
        let ring = &mut self.memory[..end];
        match call {
            Call::Scratch { from, count } => self.disc.set_scratch(from, count).map(|()| 0),
            Call::Kind { number } => self.disc.set_kind(number).map(|()| 0),
            Call::Subheader { file, channel, submode, coding } => {
                self.disc.set_subheader([file, channel, submode, coding]).map(|()| 0)
            }
            Call::Sector { address, fill } => {
                let result = chip.sector(ring, &self.disc.arriving(address, fill)?)?;
                self.disc.has_arrived();
                Ok(result)
            }
            other => run_on(chip, ring, other),
        }
    }

    /// A refused opening keeps the chip there was, and what the disc carries.
    fn open(&mut self, ring: u16) -> Answer {
        if ring > MAX_RING {
            return Err(Refusal::Unsound);
        }
        self.chip = Some(Chip::open(ring)?);
        self.disc = Disc::NEW;
        Ok(0)
    }
}

/// Runs any call to a chip that needs neither an opening nor a sealed sector.
pub fn run_on(chip: &mut Chip, ring: &mut [u8], call: Call) -> Answer {
    match call {
        Call::Read { reg } => chip.read(reg),
        Call::Write { reg, value } => chip.write(reg, value),
        Call::Block { number } => chip.set_block(number),
        Call::Window { offset, words } => chip.set_window(offset, words),
        Call::Address { address } => chip.set_expected(address),
        Call::Packet { index } => chip.packet_byte(index),
        Call::Reset => chip.reset(),
        Call::Look => Ok(chip.look(ring).len() as u16),
        Call::Word => chip.host_word(ring),
        Call::Command { code } => chip.host_command(code),
        Call::Send { word } => chip.packet_word(word),
        Call::Status => chip.host_status(),
        Call::Srst => chip.srst(),
        Call::Open { .. } | Call::Sector { .. } => unreachable!("taken by the callers"),
        Call::Scratch { .. } | Call::Kind { .. } | Call::Subheader { .. } => unreachable!("these are the disc's"),
    }
}
