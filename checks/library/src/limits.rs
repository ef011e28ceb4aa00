//! Both sides of every limit of a record: changes of one word that make a
//! sound record unsound, and changes that go just as far as is allowed.

use crate::record::{self as at, is_receiving, is_running, Record};

pub struct Change {
    pub name: &'static str,
    word: usize,
    /// The word's new value, or nothing where the change means nothing in this record.
    value: fn(&Record) -> Option<u16>,
}

impl Change {
    /// The record with one word changed. It is no change where the word is so already.
    pub fn applied(&self, record: &Record) -> Option<Record> {
        let mut changed = *record;
        changed[self.word] = (self.value)(record)?;
        (changed != *record).then_some(changed)
    }
}

macro_rules! change {
    ($name:expr, $word:expr, $value:expr) => {
        Change { name: $name, word: $word, value: $value }
    };
}

pub const SPOILINGS: [Change; 50] = [
    change!("N 0", at::BLOCKS, |_| Some(0)),
    change!("N 1", at::BLOCKS, |_| Some(1)),
    change!("N 2", at::BLOCKS, |r| fits_in(r, 2).then_some(2)),
    change!("N 256", at::BLOCKS, |_| Some(256)),
    change!("N 65,535", at::BLOCKS, |_| Some(65535)),
    change!("T is N", at::T, |r| Some(r[at::BLOCKS])),
    change!("T is N + 256", at::T, |r| Some(r[at::BLOCKS] + 256)),
    change!("T 65,535", at::T, |_| Some(65535)),
    change!("B is N", at::B, |r| Some(r[at::BLOCKS])),
    change!("B 256", at::B, |_| Some(256)),
    change!("B 65,535", at::B, |_| Some(65535)),
    change!("last decoded block is N", at::LAST_BLOCK, |r| Some(r[at::BLOCKS])),
    change!("last decoded block 65,535", at::LAST_BLOCK, |_| Some(65535)),
    change!("TCC is N", at::TCC, |r| Some(r[at::BLOCKS])),
    change!("TCC 256", at::TCC, |_| Some(256)),
    change!("TCC 65,535", at::TCC, |_| Some(65535)),
    change!("BUFC is N", at::BUFC, |r| Some(r[at::BLOCKS])),
    change!("BUFC 256", at::BUFC, |_| Some(256)),
    change!("BUFC 65,535", at::BUFC, |_| Some(65535)),
    change!("TTC 256", at::TTC, |_| Some(256)),
    change!("TTC 65,535", at::TTC, |_| Some(65535)),
    change!("minute 100", at::MINUTE, |_| Some(100)),
    change!("minute 256", at::MINUTE, |_| Some(256)),
    change!("second 60", at::SECOND, |_| Some(60)),
    change!("second 65,535", at::SECOND, |_| Some(65535)),
    change!("frame 75", at::FRAME, |_| Some(75)),
    change!("frame 256", at::FRAME, |_| Some(256)),
    change!("BUFLIM is N-1", at::BUFLIM, |r| Some(r[at::BLOCKS] - 1)),
    change!("BUFLIM is N", at::BUFLIM, |r| Some(r[at::BLOCKS])),
    change!("BUFLIM 65,535", at::BUFLIM, |_| Some(65535)),
    change!("window ends a byte late by its offset", at::OFFSET, |r| last_offset(r).map(|last| last + 1)),
    change!("window ends a word late by its words", at::WORDS, |r| Some(most_words(r)? + 1)),
    change!("window of 1,177 words", at::WORDS, |_| Some(1177)),
    change!("window's end wraps to 0 by its words", at::WORDS, |r| (!is_running(r)).then_some(32768)),
    change!("window's end wraps by its offset", at::OFFSET, |r| (r[at::WORDS] > 0).then_some(65535)),
    change!("window taken from a transfer", at::WORDS, |r| is_running(r).then_some(0)),
    change!("window's words down to a transfer's position", at::WORDS, |r| is_running(r).then_some(r[at::PLACE])),
    change!("transfer with no blocks left", at::BLOCKS_LEFT, |r| is_running(r).then_some(0)),
    change!("transfer with more blocks left than TCC", at::BLOCKS_LEFT, |r| is_running(r).then(|| r[at::TCC] + 1)),
    change!("transfer with 65,535 blocks left", at::BLOCKS_LEFT, |r| is_running(r).then_some(65535)),
    change!("TCC below a transfer's blocks left", at::TCC, |r| is_running(r).then(|| r[at::BLOCKS_LEFT] - 1)),
    change!("transfer's position behind its window", at::PLACE, |r| is_running(r).then_some(r[at::WORDS])),
    change!("transfer's position 65,535", at::PLACE, |r| is_running(r).then_some(65535)),
    change!("ATLIM 32", at::BURST_LIMITS, |r| Some(r[at::BURST_LIMITS] & 0xFF00 | 32)),
    change!("ATLIM 255", at::BURST_LIMITS, |r| Some(r[at::BURST_LIMITS] & 0xFF00 | 255)),
    change!("MBC 32", at::BURST_LIMITS, |r| Some(r[at::BURST_LIMITS] & 0x00FF | 32 << 8)),
    change!("MBC 255", at::BURST_LIMITS, |r| Some(r[at::BURST_LIMITS] & 0x00FF | 255 << 8)),
    change!("6 packet words in a reception", at::PACKET_WORDS, |r| is_receiving(r).then_some(6)),
    change!("6 packet words outside a reception", at::PACKET_WORDS, |r| (!is_receiving(r)).then_some(6)),
    change!("65,535 packet words", at::PACKET_WORDS, |_| Some(65535)),
];

pub const NEIGHBOURS: [Change; 31] = [
    change!("N 3", at::BLOCKS, |r| fits_in(r, 3).then_some(3)),
    change!("N 255", at::BLOCKS, |_| Some(255)),
    change!("T is N-1", at::T, |r| Some(r[at::BLOCKS] - 1)),
    change!("B is N-1", at::B, |r| Some(r[at::BLOCKS] - 1)),
    change!("last decoded block is N-1", at::LAST_BLOCK, |r| Some(r[at::BLOCKS] - 1)),
    change!("TCC is N-1", at::TCC, |r| Some(r[at::BLOCKS] - 1)),
    change!("BUFC is N-1", at::BUFC, |r| Some(r[at::BLOCKS] - 1)),
    change!("BUFC 0", at::BUFC, |_| Some(0)),
    change!("TTC 255", at::TTC, |_| Some(255)),
    change!("minute 99", at::MINUTE, |_| Some(99)),
    change!("second 59", at::SECOND, |_| Some(59)),
    change!("frame 74", at::FRAME, |_| Some(74)),
    change!("BUFLIM is N-2", at::BUFLIM, |r| Some(r[at::BLOCKS] - 2)),
    change!("window ends with its sector by its offset", at::OFFSET, last_offset),
    change!("window ends with its sector by its words", at::WORDS, most_words),
    change!("no window, and any offset", at::OFFSET, |r| (r[at::WORDS] == 0).then_some(65535)),
    change!("window taken outside a transfer", at::WORDS, |r| (!is_running(r)).then_some(0)),
    change!("transfer's blocks left are TCC", at::BLOCKS_LEFT, |r| is_running(r).then_some(r[at::TCC])),
    change!("transfer's blocks left past the byte bound", at::BLOCKS_LEFT, past_bytes),
    change!("TCC is a transfer's blocks left", at::TCC, |r| is_running(r).then_some(r[at::BLOCKS_LEFT])),
    change!("transfer's position is its last word", at::PLACE, |r| is_running(r).then(|| r[at::WORDS] - 1)),
    change!("65,535 blocks left without a transfer", at::BLOCKS_LEFT, |r| (!is_running(r)).then_some(65535)),
    change!("position 65,535 without a transfer", at::PLACE, |r| (!is_running(r)).then_some(65535)),
    change!("ATLIM 31", at::BURST_LIMITS, |r| Some(r[at::BURST_LIMITS] & 0xFF00 | 31)),
    change!("MBC 31", at::BURST_LIMITS, |r| Some(r[at::BURST_LIMITS] & 0x00FF | 31 << 8)),
    change!("5 packet words in a reception", at::PACKET_WORDS, |r| is_receiving(r).then_some(5)),
    change!("5 packet words outside a reception", at::PACKET_WORDS, |r| (!is_receiving(r)).then_some(5)),
    change!("all facts", at::COMMAND, |r| Some(r[at::COMMAND] | 0x0F00)),
    change!("unused bits beside the facts", at::COMMAND, |r| Some(r[at::COMMAND] | 0xF000)),
    change!("unused bits of the switches", at::SWITCHES, |r| Some(r[at::SWITCHES] | 0xC000)),
    change!("unused bits of the status", at::STATUS, |r| Some(r[at::STATUS] | 0xC000)),
];

/// Whether so few blocks would be enough for the other kept numbers, so that
/// only N itself may be at fault.
fn fits_in(record: &Record, blocks: u16) -> bool {
    record[at::T..=at::BUFC].iter().all(|&kept| kept < blocks) && record[at::BUFLIM] + 2 <= blocks
}

/// One block more than a start of the record's window can have; the list has no limit there but TCC.
fn past_bytes(record: &Record) -> Option<u16> {
    let past = is_running(record).then(|| 65_534 / 2 / record[at::WORDS] + 1)?;
    (past <= record[at::TCC]).then_some(past)
}

/// The offset at which the record's window ends with the sector.
fn last_offset(record: &Record) -> Option<u16> {
    (record[at::WORDS] > 0).then(|| 2352 - 2 * record[at::WORDS])
}

/// The most words that a window of the record's offset can have.
fn most_words(record: &Record) -> Option<u16> {
    (record[at::WORDS] > 0).then(|| (2352 - record[at::OFFSET]) / 2)
}

#[cfg(test)]
mod tests {
    use super::*;
    use crate::record::{encoded, RECEIVING, RUNNING, STATUS};
    use crate::soundness::{faults, is_sound};
    use model::Chip;

    /// An opened chip, one in a reception, one in a transfer, and one in a transfer of many blocks.
    fn sound_records() -> [Record; 4] {
        let opened = encoded(&Chip::open(3).expect("3 blocks are a ring"));
        let mut receiving = encoded(&Chip::open(4).expect("4 blocks are a ring"));
        receiving[STATUS] |= 1 << RECEIVING;
        receiving[at::WORDS] = 4;
        let mut running = encoded(&Chip::open(9).expect("9 blocks are a ring"));
        running[STATUS] |= 1 << RUNNING;
        (running[at::TCC], running[at::BLOCKS_LEFT]) = (5, 2);
        (running[at::OFFSET], running[at::WORDS], running[at::PLACE]) = (16, 4, 1);
        let mut long = running;
        (long[at::BLOCKS], long[at::TCC], long[at::BUFC], long[at::BLOCKS_LEFT]) = (255, 254, 254, 27);
        (long[at::OFFSET], long[at::WORDS]) = (0, 1176);
        [opened, receiving, running, long]
    }

    /// But for the least N, below which nothing can lie, one thing of the list is at fault and no more.
    #[test]
    fn each_spoiling_breaks_one_test() {
        let records = sound_records();
        for change in &SPOILINGS {
            let spoiled: Vec<Record> = records.iter().filter_map(|record| change.applied(record)).collect();
            assert!(!spoiled.is_empty(), "{} can never be made", change.name);
            for record in spoiled {
                let faults = faults(&record);
                let several = ["N 0", "N 1", "window taken from a transfer"].contains(&change.name);
                assert!(faults.len() == 1 || several && !faults.is_empty(), "{}: {faults:?}", change.name);
            }
        }
    }

    #[test]
    fn each_neighbour_is_sound() {
        let records = sound_records();
        for change in &NEIGHBOURS {
            let neighbours: Vec<Record> = records.iter().filter_map(|record| change.applied(record)).collect();
            assert!(!neighbours.is_empty(), "{} can never be made", change.name);
            let unsound = neighbours.iter().find(|record| !is_sound(record));
            assert!(unsound.is_none(), "{}: {:?}", change.name, unsound.map(faults));
        }
    }
}
