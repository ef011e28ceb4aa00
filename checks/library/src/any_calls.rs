//! Calls without regard to what is possible: any register, any value, any number at all.

use crate::call::Call;
use crate::steering::{ring_bytes, write, Chooser};
use ecma130::Address;
use model::Chip;

const REGISTERS: [u16; 25] = [
    0x07, 0x0A, 0x12, 0x17, 0x18, 0x24, 0x25, 0x30, 0x31, 0x32, 0x34, 0x35, 0x37, 0x38, 0x3A, 0x3B, 0x3D, 0x3E, 0x80,
    0x9A, 0x9B, 0x9C, 0x9D, 0x9E, 0x9F,
];

impl Chooser {
    pub(crate) fn any_call(&mut self, chip: &Chip) -> Call {
        match self.random.below(24) {
            0..=2 => Call::Read { reg: self.any_register() },
            3..=12 => write(self.any_register(), self.any_value()),
            13 => self.word(chip),
            14 => Call::Words { lent: ring_bytes(chip), count: self.random.below(5) as usize },
            15 => self.look(chip),
            16 => self.sector(chip),
            _ => self.any_named(),
        }
    }

    /// One of the calls that are lent no memory.
    fn any_named(&mut self) -> Call {
        match self.random.below(9) {
            0 => Call::SetBlock { block: self.any_number() },
            1 => Call::SetWindow { offset: self.any_number(), words: self.any_number() },
            2 => Call::SetExpected { address: self.any_address() },
            3 => Call::SetExpected { address: Address::new(self.any_number(), self.any_number(), self.any_number()) },
            4 => Call::PacketByte { index: self.random.pick(&[0, 5, 11, 12, 256, 65535]) },
            5 => Call::Command { code: self.any_value() },
            6 => Call::PacketWord { word: self.random.between(0, 65535) },
            7 => Call::Status,
            _ => self.random.pick(&[Call::Srst, Call::Reset, Call::Status, Call::Status]),
        }
    }

    /// Each kind of call but the opening, to be made on one and the same record. Writes are of many kinds.
    pub fn every_call(&mut self, chip: &Chip) -> [Call; 17] {
        let lent = ring_bytes(chip);
        let count = self.random.pick(&[0, 1, 2, 9, 300]);
        [
            write(self.any_register(), self.any_value()),
            write(self.any_register(), self.any_value()),
            write(self.any_register(), self.any_value()),
            Call::Read { reg: self.any_register() },
            Call::SetBlock { block: self.any_number() },
            Call::SetWindow { offset: self.any_number(), words: self.random.between(0, 3) },
            Call::SetExpected { address: self.any_address() },
            Call::PacketByte { index: self.random.between(0, 12) },
            Call::Reset,
            self.sector(chip),
            Call::Look { lent },
            Call::Word { lent },
            Call::Words { lent, count },
            Call::Command { code: self.random.pick(&[0x28, 0xA0, 0xA0, 256]) },
            Call::PacketWord { word: self.random.between(0, 65535) },
            Call::Status,
            Call::Srst,
        ]
    }

    fn any_register(&mut self) -> u16 {
        match self.random.below(10) {
            0 => self.random.between(0, 255),
            1 => self.random.pick(&[256, 256 + 0x9A, 65535]),
            _ => self.random.pick(&REGISTERS),
        }
    }

    fn any_value(&mut self) -> u16 {
        match self.random.below(4) {
            0 => self.random.between(0, 255),
            1 => self.random.pick(&[256, 257, 384, 65535]),
            2 => 1 << self.random.below(8),
            _ => self.random.pick(&[0, 1, 2, 3, 4, 16, 31, 32, 48, 64, 96, 128, 160, 255]),
        }
    }

    fn any_number(&mut self) -> u16 {
        match self.random.below(4) {
            0 => self.random.between(0, 65535),
            1 => self.random.between(0, 2400),
            2 => self.random.between(0, 260),
            _ => self.random.pick(&[0, 1, 2, 59, 60, 74, 75, 99, 100, 255, 256, 1176, 1177, 2350, 2351, 32768, 65535]),
        }
    }
}
