//! Calls without regard to what is possible, and lines that are none.

use super::{write, Writer};
use crate::call::{Call, MAX_LINE_BYTES};
use crate::chip::Chip;

const REGISTERS: [u16; 25] = [
    0x07, 0x0A, 0x12, 0x17, 0x18, 0x24, 0x25, 0x30, 0x31, 0x32, 0x34, 0x35, 0x37, 0x38, 0x3A, 0x3B, 0x3D, 0x3E, 0x80,
    0x9A, 0x9B, 0x9C, 0x9D, 0x9E, 0x9F,
];

const MALFORMED_DISC_LINES: [&[u8]; 10] = [
    b"call=scratch from=12",
    b"call=scratch count=3 from=12",
    b"call=scratch from=12 count=65536",
    b"call=scratch from=12 count=3 ",
    b"call=scratch from=12  count=3",
    b"call=kind",
    b"call=kind number=65536",
    b"call=subheader file=1 channel=2 submode=32",
    b"call=subheader file=1 submode=32 channel=2 coding=4",
    b"call=subheader file=1 channel=2 submode=32 coding=65536",
];

impl Writer {
    pub(super) fn blind_call(&mut self, chip: &Chip) -> Call {
        match self.random.below(27) {
            0..=4 => Call::Read { reg: self.any_register() },
            5..=12 => write(self.any_register(), self.any_value()),
            13 => Call::Block { number: self.random.between(0, 30) },
            14 => Call::Window {
                offset: self.random.between(0, 2400),
                words: self.random.pick(&[0, 1, 2, 9, 80, 1177, 1200]),
            },
            15 => Call::Address { address: self.any_address() },
            16 => Call::Packet { index: self.random.pick(&[0, 5, 11, 12, 65535]) },
            17 => Call::Look,
            18 => Call::Word,
            19 => Call::Command { code: self.any_value() },
            20 => Call::Send { word: self.random.between(0, 65535) },
            21 => Call::Status,
            22 => self.random.pick(&[Call::Srst, Call::Reset, Call::Look, Call::Status]),
            23..=24 => self.any_scratch(),
            25 => self.any_disc_line(),
            _ => self.sector(chip),
        }
    }

    pub(super) fn any_register(&mut self) -> u16 {
        match self.random.below(8) {
            0 => self.random.between(0, 255),
            1 => self.random.pick(&[256, 256 + 0x9A, 65535]),
            _ => self.random.pick(&REGISTERS),
        }
    }

    pub(super) fn any_value(&mut self) -> u16 {
        match self.random.below(4) {
            0 => self.random.between(0, 255),
            1 => self.random.pick(&[256, 257, 384, 65535]),
            2 => 1 << self.random.below(8),
            _ => self.random.pick(&[0, 1, 2, 3, 4, 16, 31, 32, 48, 64, 96, 128, 160, 255]),
        }
    }

    pub(super) fn malformed_line(&mut self) -> Vec<u8> {
        let good = self.opening().line();
        match self.random.below(17) {
            0 => b"".to_vec(),
            1 => b"call=sector min=0 sec=2 frame=0".to_vec(),
            2 => b"call=write value=1 reg=18".to_vec(),
            3 => b"call=open ring=65536".to_vec(),
            4 => b"call=open ring=99999999999999999999999".to_vec(),
            5 => b"call=window offset=0 words=-1".to_vec(),
            6 => b"call=read  reg=24".to_vec(),
            7 => b"call=read\treg=24".to_vec(),
            8 => self.random.pick(&[&b"call=words"[..], b"call=read reg=+36", b"call=look ", b"call=Look"]).to_vec(),
            9 => b"call=send word=".to_vec(),
            10 => format!("{good} ").into_bytes(),
            11 => format!("{good}\r").into_bytes(),
            12 => format!("{good} ring=3").into_bytes(),
            13 => with_leading_zeros(good, MAX_LINE_BYTES + 1),
            14 => with_leading_zeros(good, 300),
            15 => self.random.pick(&MALFORMED_DISC_LINES).to_vec(),
            _ => self.spoiled(good),
        }
    }

    /// One byte replaced by another that no well-formed opening has.
    pub(super) fn spoiled(&mut self, line: String) -> Vec<u8> {
        let mut bytes = line.into_bytes();
        let place = self.random.below(bytes.len() as u64) as usize;
        bytes[place] = self.random.pick(&[0x00, 0x7F, 0xFF, b'X', b'+', b'.']);
        bytes
    }
}

/// Fills a line up to `length` bytes by zeros before its last number.
pub(super) fn with_leading_zeros(line: String, length: usize) -> Vec<u8> {
    let Some(equals) = line.rfind(' ').and_then(|_| line.rfind('=')) else {
        return line.into_bytes();
    };
    let zeros = "0".repeat(length.saturating_sub(line.len()));
    format!("{}{zeros}{}", &line[..=equals], &line[equals + 1..]).into_bytes()
}
