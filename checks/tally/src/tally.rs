//! The four numbers, and what must be remembered between the lines to keep them.

use model::{parse, Call};
use std::fmt;

const DECODER: u16 = 0x0A;
const SWITCHES: u16 = 0x9C;
const GOOD_BLOCKS: u16 = 0x9D;
const SKIP: u16 = 0x9E;
const ACMEN: u16 = 0x40;

/// What has been noted since the last accepted opening or chip reset.
#[derive(Clone, Copy, Debug, Default, PartialEq, Eq)]
pub struct Tally {
    opened: bool,
    counted_in: u64,
    taken: u64,
    skipped: u64,
    withdrawn: u64,
    /// Words that the host has read of a block that is not taken yet.
    words_read: u64,
    window_words: u64,
    acmen: bool,
    held: bool,
}

/// A history that no ring has: more blocks leave it than came in.
#[derive(Clone, Copy, Debug, PartialEq, Eq)]
pub enum Impossible {
    MoreLeft { counted_in: u64, left: u64 },
    Raised { from: u64, to: u64 },
}

impl fmt::Display for Impossible {
    fn fmt(&self, f: &mut fmt::Formatter) -> fmt::Result {
        match self {
            Impossible::MoreLeft { counted_in, left } => {
                write!(f, "{left} blocks are taken, skipped or withdrawn, and {counted_in} came in")
            }
            Impossible::Raised { from, to } => write!(f, "9Dh={to} is answered 0 where {from} good blocks wait"),
        }
    }
}

impl Tally {
    /// Sectors that were counted in.
    pub fn counted_in(&self) -> u64 {
        self.counted_in
    }

    /// Blocks that the host has taken whole.
    pub fn taken(&self) -> u64 {
        self.taken
    }

    pub fn skipped(&self) -> u64 {
        self.skipped
    }

    pub fn withdrawn(&self) -> u64 {
        self.withdrawn
    }

    pub fn words_read(&self) -> u64 {
        self.words_read
    }

    pub fn window_words(&self) -> u64 {
        self.window_words
    }

    pub fn is_held(&self) -> bool {
        self.held
    }

    /// What TCC must be.
    pub fn tcc(&self) -> u64 {
        self.balance().expect("a history that is impossible is not noted")
    }

    /// What BUFC must be: a bad sector that is held fills a block and is not counted in.
    pub fn bufc(&self) -> u64 {
        self.tcc() + self.held as u64
    }

    /// The four numbers, in the order of the ask.
    pub fn numbers(&self) -> [u64; 4] {
        [self.counted_in, self.taken, self.skipped, self.withdrawn]
    }

    /// Notes a line, with the answer's number and its `out`. A malformed line is no call.
    pub fn note(&mut self, line: &[u8], answer: u64, out: u64) -> Result<(), Impossible> {
        match parse(line) {
            Some(call) => self.note_call(call, answer, out),
            None => Ok(()),
        }
    }

    /// Notes a call, however it was made, with its answer's number and its result. What is impossible is not noted.
    pub fn note_call(&mut self, call: Call, answer: u64, out: u64) -> Result<(), Impossible> {
        let mut next = *self;
        if answer == 0 {
            next.note_accepted(call, out)?;
        }
        next.balance()?;
        *self = next;
        Ok(())
    }

    /// Before an opening there is no chip whose blocks could be counted.
    fn note_accepted(&mut self, call: Call, out: u64) -> Result<(), Impossible> {
        if matches!(call, Call::Open { .. }) {
            self.begin_anew();
        }
        if self.opened {
            self.note_of_open_chip(call, out)?;
        }
        Ok(())
    }

    fn note_of_open_chip(&mut self, call: Call, out: u64) -> Result<(), Impossible> {
        match call {
            Call::Reset => self.begin_anew(),
            Call::Sector { .. } if out == 0 => self.counted_in += 1,
            Call::Sector { .. } => self.held = true,
            Call::Window { words, .. } => self.window_words = words.into(),
            Call::Word => self.note_word(),
            // The half-read block stays, and is read again from its first word.
            Call::Srst => self.words_read = 0,
            Call::Write { reg, value } => self.note_write(reg, value)?,
            _ => {}
        }
        Ok(())
    }

    fn begin_anew(&mut self) {
        *self = Tally { opened: true, ..Tally::default() };
    }

    fn note_word(&mut self) {
        self.words_read += 1;
        if self.words_read == self.window_words {
            self.taken += 1;
            self.words_read = 0;
        }
    }

    fn note_write(&mut self, reg: u16, value: u16) -> Result<(), Impossible> {
        match reg {
            DECODER if value == 0 => self.held = false,
            SWITCHES => self.acmen = value & ACMEN != 0,
            GOOD_BLOCKS => self.withdraw(value.into())?,
            SKIP if self.acmen => self.skipped += u64::from(value),
            _ => {}
        }
        Ok(())
    }

    /// Lowers the good blocks to a number: those above it are withdrawn.
    fn withdraw(&mut self, to: u64) -> Result<(), Impossible> {
        let from = self.balance()?;
        self.withdrawn += from.checked_sub(to).ok_or(Impossible::Raised { from, to })?;
        Ok(())
    }

    /// What came in and has not left.
    fn balance(&self) -> Result<u64, Impossible> {
        let (counted_in, left) = (self.counted_in, self.taken + self.skipped + self.withdrawn);
        counted_in.checked_sub(left).ok_or(Impossible::MoreLeft { counted_in, left })
    }
}

impl fmt::Display for Tally {
    fn fmt(&self, f: &mut fmt::Formatter) -> fmt::Result {
        let [counted_in, taken, skipped, withdrawn] = self.numbers();
        write!(f, "in={counted_in} taken={taken} skipped={skipped} withdrawn={withdrawn} tcc={}", self.tcc())
    }
}
