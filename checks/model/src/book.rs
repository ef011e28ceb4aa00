//! The book of demand 3: fed only calls and their replies, it says which
//! word the host must get, and what failed in the last sector. It knows nothing of blocks or registers.

use crate::call::Call;
use ecma130::{judge, open, Address, Facts};

pub struct Book {
    /// Good sectors, descrambled, oldest first.
    pub row: Vec<Vec<u8>>,
    pub expected: Address,
    /// Of the last sector accepted since the opening or a chip reset.
    pub facts: Facts,
    offset: usize,
    words: usize,
    acmen: bool,
    words_taken: usize,
}

impl Default for Book {
    fn default() -> Book {
        Book::new()
    }
}

impl Book {
    pub fn new() -> Book {
        let (expected, facts) = (Address::new(0, 2, 0), Facts::default());
        Book { row: Vec::new(), expected, facts, offset: 0, words: 0, acmen: false, words_taken: 0 }
    }

    pub fn accepted_sector(&mut self, sector: &[u8]) {
        let mut clear = sector.to_vec();
        open(&mut clear).expect("an accepted sector has its length");
        self.facts = judge(&clear, self.expected).expect("the address is valid");
        if self.facts.is_good() {
            self.row.push(clear);
            self.expected = self.expected.next();
        }
    }

    /// The word that the host must have got.
    pub fn accepted_word(&mut self) -> u16 {
        let sector = self.row.first().expect("a word without a sector in the row");
        let place = self.offset + 2 * self.words_taken;
        let word = u16::from_le_bytes([sector[place], sector[place + 1]]);
        self.words_taken += 1;
        if self.words_taken == self.words {
            self.row.remove(0);
            self.words_taken = 0;
        }
        word
    }

    pub fn accepted(&mut self, call: Call) {
        match call {
            Call::Open { .. } | Call::Reset => *self = Book::new(),
            Call::Address { address } => self.expected = address,
            Call::Window { offset, words } => {
                self.offset = offset as usize;
                self.words = words as usize;
            }
            Call::Write { reg: 0x9C, value } => self.acmen = value & 0x40 != 0,
            Call::Write { reg: 0x9D, value } => self.row.truncate(value as usize),
            Call::Write { reg: 0x9E, value } if self.acmen => {
                self.row.drain(..value as usize);
            }
            Call::Srst => self.words_taken = 0,
            _ => {}
        }
    }
}
