//! A chip's record, 28 words, and the model's chip that it stands for. The
//! layout is the library's own affair; it is written out here once more, so
//! that every kept number can be compared after each call, and any record loaded.

use cdrom::raw::CHIP_WORDS;
use ecma130::{Address, Facts};
use model::{Chip, Transfer, Window};

pub type Record = [u16; CHIP_WORDS];

pub const BLOCKS: usize = 0;
pub const T: usize = 1;
pub const B: usize = 2;
pub const LAST_BLOCK: usize = 3;
pub const TCC: usize = 4;
pub const BUFC: usize = 5;
pub const TTC: usize = 6;
pub const MINUTE: usize = 7;
pub const SECOND: usize = 8;
pub const FRAME: usize = 9;
pub const BUFLIM: usize = 10;
pub const OFFSET: usize = 11;
pub const WORDS: usize = 12;
pub const BLOCKS_LEFT: usize = 13;
pub const PLACE: usize = 14;
pub const PACKET_WORDS: usize = 15;
/// ATLIM in the low byte, MBC in the high one.
pub const BURST_LIMITS: usize = 16;
/// 31h low and 32h high, then 34h low and 35h high.
const TASK_FILE: usize = 17;
/// The last command in the low byte, and the facts of the last stored sector in the four bits above it.
pub const COMMAND: usize = 19;
pub const SWITCHES: usize = 20;
pub const STATUS: usize = 21;
const PACKET: usize = 22;

/// Bits of the word `STATUS`.
pub const RUNNING: u8 = 6;
pub const HIRQ: u8 = 7;
pub const RECEIVING: u8 = 13;

/// Bits of the word `COMMAND`.
pub const ADDRESS_FAILED: u8 = 8;
pub const EDC_FAILED: u8 = 9;
pub const MODE_FAILED: u8 = 10;
pub const SYNC_FAILED: u8 = 11;

/// What stands for something.
const COMMAND_BITS: u16 = 0x0FFF;
const SWITCH_BITS: u16 = 0x3FFF;
const STATUS_BITS: u16 = 0x3FFF;

const NUMBERS: [&str; 16] = [
    "N",
    "T",
    "B",
    "last decoded block",
    "TCC",
    "BUFC",
    "TTC",
    "expected minute",
    "expected second",
    "expected frame",
    "BUFLIM",
    "window's offset",
    "window's words",
    "transfer's blocks left",
    "transfer's position",
    "packet words",
];

/// Names of the low and the high byte.
const BYTES: [[&str; 2]; 3] = [["ATLIM", "MBC"], ["31h", "32h"], ["34h", "35h"]];

/// Above the last command.
const FACT_NAMES: [&str; 8] = [
    "address failed",
    "EDC failed",
    "mode failed",
    "sync failed",
    "unused bit 12 beside the facts",
    "unused bit 13 beside the facts",
    "unused bit 14 beside the facts",
    "unused bit 15 beside the facts",
];

const SWITCH_NAMES: [&str; 16] = [
    "held",
    "DECEN",
    "BLIMEN",
    "BLIMS",
    "ATTEN",
    "ACMEN",
    "TCINCEN",
    "ADSC",
    "APKTEN",
    "ADCEN",
    "ASCEN",
    "AUTOEN",
    "STWCEN",
    "A0IEN",
    "unused bit 14 of the switches",
    "unused bit 15 of the switches",
];

const STATUS_NAMES: [&str; 16] = [
    "BSY",
    "DRDY",
    "DSC",
    "DRQ",
    "CORR",
    "CHECK",
    "transfer runs",
    "HIRQ",
    "DRDY of 3Eh",
    "CORR of 3Eh",
    "CHECK of 3Eh",
    "APKT",
    "FPKT",
    "packet is received",
    "unused bit 14 of the status",
    "unused bit 15 of the status",
];

pub fn bit(word: u16, place: u8) -> bool {
    word >> place & 1 == 1
}

pub fn is_running(record: &Record) -> bool {
    bit(record[STATUS], RUNNING)
}

pub fn is_receiving(record: &Record) -> bool {
    bit(record[STATUS], RECEIVING)
}

/// The bytes of the blocks that a transfer has left, and 0 where none runs.
pub fn bytes_left(record: &Record) -> usize {
    is_running(record) as usize * record[BLOCKS_LEFT] as usize * record[WORDS] as usize * 2
}

/// The address that the next sector must have, whatever its numbers are.
pub fn expected(record: &Record) -> Address {
    Address::new(record[MINUTE], record[SECOND], record[FRAME])
}

/// The facts as one number, whatever else the word holds.
pub fn why(record: &Record) -> u32 {
    (record[COMMAND] >> ADDRESS_FAILED & 15) as u32
}

/// The record with these facts.
pub fn with_why(mut record: Record, why: u16) -> Record {
    record[COMMAND] = record[COMMAND] & !(15 << ADDRESS_FAILED) | why << ADDRESS_FAILED;
    record
}

/// The flags from bit 0 on.
fn joined(flags: &[bool]) -> u16 {
    flags.iter().rev().fold(0, |word, &flag| word << 1 | flag as u16)
}

fn pair(low: u8, high: u8) -> u16 {
    u16::from_le_bytes([low, high])
}

/// The record that a chip is kept in, if it came from an opening: what does not run is at 0.
pub fn encoded(chip: &Chip) -> Record {
    let mut record = [0; CHIP_WORDS];
    let transfer = chip.transfer.unwrap_or(Transfer { blocks_left: 0, place: 0 });
    let numbers = [
        chip.blocks,
        chip.t,
        chip.b,
        chip.last_block,
        chip.tcc,
        chip.bufc,
        chip.ttc,
        chip.expected.minute as usize,
        chip.expected.second as usize,
        chip.expected.frame as usize,
        chip.buflim,
        chip.window.offset,
        chip.window.words,
        transfer.blocks_left,
        transfer.place,
        chip.reception.unwrap_or(0),
    ];
    for (word, number) in record.iter_mut().zip(numbers) {
        *word = u16::try_from(number).expect("a kept number is a word");
    }
    record[BURST_LIMITS] = pair(chip.atlim as u8, chip.mbc as u8);
    record[TASK_FILE] = pair(chip.reg31, chip.reg32);
    record[TASK_FILE + 1] = pair(chip.reg34, chip.reg35);
    record[COMMAND] = pair(chip.command, facts(&chip.facts) as u8);
    record[SWITCHES] = switches(chip);
    record[STATUS] = status(chip);
    for (place, bytes) in chip.packet.chunks_exact(2).enumerate() {
        record[PACKET + place] = pair(bytes[0], bytes[1]);
    }
    record
}

/// From the lowest weight on.
fn facts(facts: &Facts) -> u16 {
    joined(&[facts.address, facts.edc, facts.mode, facts.sync])
}

fn switches(chip: &Chip) -> u16 {
    joined(&[
        chip.held,
        chip.decen,
        chip.blimen,
        chip.blims,
        chip.atten,
        chip.acmen,
        chip.tcincen,
        chip.adsc,
        chip.apkten,
        chip.adcen,
        chip.ascen,
        chip.autoen,
        chip.stwcen,
        chip.a0ien,
    ])
}

fn status(chip: &Chip) -> u16 {
    joined(&[
        chip.bsy,
        chip.drdy,
        chip.dsc,
        chip.drq,
        chip.corr,
        chip.check,
        chip.transfer.is_some(),
        chip.hirq,
        chip.end_drdy,
        chip.end_corr,
        chip.end_check,
        chip.apkt,
        chip.fpkt,
        chip.reception.is_some(),
    ])
}

/// The chip that a record stands for, whatever its words are. What does not
/// run is not in it: the model has no place for that.
pub fn decoded(record: &Record) -> Chip {
    let number = |place: usize| record[place] as usize;
    let mut chip = Chip::open(3).expect("3 blocks are a ring");
    chip.blocks = number(BLOCKS);
    chip.t = number(T);
    chip.b = number(B);
    chip.last_block = number(LAST_BLOCK);
    chip.tcc = number(TCC);
    chip.bufc = number(BUFC);
    chip.ttc = number(TTC);
    chip.expected = expected(record);
    chip.buflim = number(BUFLIM);
    chip.window = Window { offset: number(OFFSET), words: number(WORDS) };
    chip.transfer = is_running(record).then(|| Transfer { blocks_left: number(BLOCKS_LEFT), place: number(PLACE) });
    chip.reception = is_receiving(record).then(|| number(PACKET_WORDS));
    let [atlim, mbc] = record[BURST_LIMITS].to_le_bytes();
    (chip.atlim, chip.mbc) = (atlim as usize, mbc as usize);
    [chip.reg31, chip.reg32] = record[TASK_FILE].to_le_bytes();
    [chip.reg34, chip.reg35] = record[TASK_FILE + 1].to_le_bytes();
    chip.command = record[COMMAND] as u8;
    chip.facts = facts_of(record[COMMAND]);
    for (bytes, word) in chip.packet.chunks_exact_mut(2).zip(&record[PACKET..]) {
        bytes.copy_from_slice(&word.to_le_bytes());
    }
    set_switches(&mut chip, record[SWITCHES]);
    set_status(&mut chip, record[STATUS]);
    chip
}

fn facts_of(word: u16) -> Facts {
    Facts {
        sync: bit(word, SYNC_FAILED),
        mode: bit(word, MODE_FAILED),
        edc: bit(word, EDC_FAILED),
        address: bit(word, ADDRESS_FAILED),
    }
}

fn set_switches(chip: &mut Chip, word: u16) {
    chip.held = bit(word, 0);
    chip.decen = bit(word, 1);
    chip.blimen = bit(word, 2);
    chip.blims = bit(word, 3);
    chip.atten = bit(word, 4);
    chip.acmen = bit(word, 5);
    chip.tcincen = bit(word, 6);
    chip.adsc = bit(word, 7);
    chip.apkten = bit(word, 8);
    chip.adcen = bit(word, 9);
    chip.ascen = bit(word, 10);
    chip.autoen = bit(word, 11);
    chip.stwcen = bit(word, 12);
    chip.a0ien = bit(word, 13);
}

fn set_status(chip: &mut Chip, word: u16) {
    chip.bsy = bit(word, 0);
    chip.drdy = bit(word, 1);
    chip.dsc = bit(word, 2);
    chip.drq = bit(word, 3);
    chip.corr = bit(word, 4);
    chip.check = bit(word, 5);
    chip.hirq = bit(word, HIRQ);
    chip.end_drdy = bit(word, 8);
    chip.end_corr = bit(word, 9);
    chip.end_check = bit(word, 10);
    chip.apkt = bit(word, 11);
    chip.fpkt = bit(word, 12);
}

/// The record without the bits that stand for nothing.
pub fn without_unused_bits(mut record: Record) -> Record {
    record[COMMAND] &= COMMAND_BITS;
    record[SWITCHES] &= SWITCH_BITS;
    record[STATUS] &= STATUS_BITS;
    record
}

/// A kept number or switch that differs: its name and both values.
pub fn first_difference(one: &Record, other: &Record) -> Option<(String, u16, u16)> {
    let place = (0..CHIP_WORDS).find(|&place| one[place] != other[place])?;
    let (name, shift, width) = part(place, one[place] ^ other[place]);
    let value = |record: &Record| record[place] >> shift & (0xFFFF >> (16 - width));
    Some((name, value(one), value(other)))
}

/// The name, lowest bit and width of what a word holds at the lowest bit that changed.
fn part(place: usize, changed: u16) -> (String, u32, u32) {
    let lowest = changed.trailing_zeros();
    let half = (lowest / 8) as usize;
    match place {
        0..BURST_LIMITS => (NUMBERS[place].to_string(), 0, 16),
        BURST_LIMITS..COMMAND => (BYTES[place - BURST_LIMITS][half].to_string(), 8 * half as u32, 8),
        COMMAND if half == 0 => ("last command".to_string(), 0, 8),
        COMMAND => (FACT_NAMES[lowest as usize - 8].to_string(), lowest, 1),
        SWITCHES => (SWITCH_NAMES[lowest as usize].to_string(), lowest, 1),
        STATUS => (STATUS_NAMES[lowest as usize].to_string(), lowest, 1),
        _ => (format!("packet byte {}", 2 * (place - PACKET) + half), 8 * half as u32, 8),
    }
}

#[cfg(test)]
mod tests {
    use super::*;
    use model::Random;

    fn any_words(random: &mut Random) -> Record {
        std::array::from_fn(|_| random.between(0, 65535))
    }

    /// Whatever the words: a record is its chip, but for unused bits and what does not run.
    #[test]
    fn a_record_is_its_chip() {
        let mut random = Random::new(1);
        for _ in 0..2000 {
            let mut record = any_words(&mut random);
            record[STATUS] |= 1 << RUNNING | 1 << RECEIVING;
            assert_eq!(encoded(&decoded(&record)), without_unused_bits(record));
            record[STATUS] &= !(1 << RUNNING | 1 << RECEIVING);
            let chip = decoded(&record);
            record[BLOCKS_LEFT..=PACKET_WORDS].fill(0);
            assert_eq!(encoded(&chip), without_unused_bits(record));
        }
    }

    #[test]
    fn every_bit_is_of_something_named() {
        let record = [0; CHIP_WORDS];
        let mut names = std::collections::BTreeSet::new();
        for place in 0..CHIP_WORDS {
            for bit in 0..16 {
                let mut other = record;
                other[place] ^= 1 << bit;
                let (name, zero, value) = first_difference(&record, &other).expect("a bit was changed");
                assert!(zero == 0 && value != 0, "{name}");
                names.insert(name);
            }
        }
        assert_eq!(names.len(), 16 + 6 + 1 + 8 + 16 + 16 + 12);
    }

    /// By the weights of `why`, and beside any command and any bits that stand for nothing.
    #[test]
    fn facts_stand_above_the_command() {
        for why in 0..16 {
            let mut record = [0; CHIP_WORDS];
            record[COMMAND] = 0xF0A0;
            let record = with_why(record, why);
            assert_eq!((super::why(&record), record[COMMAND] & 0xF0FF), (why as u32, 0xF0A0));
            let chip = decoded(&record);
            assert_eq!((chip.facts.why() as u16, chip.command), (why, 0xA0));
            assert_eq!(encoded(&chip)[COMMAND], why << 8 | 0xA0);
        }
    }

    #[test]
    fn an_opened_chip() {
        let mut wanted = [0; CHIP_WORDS];
        (wanted[BLOCKS], wanted[SECOND], wanted[TASK_FILE + 1]) = (255, 2, 0xEB14);
        assert_eq!(encoded(&Chip::open(255).expect("255 blocks are a ring")), wanted);
    }
}
