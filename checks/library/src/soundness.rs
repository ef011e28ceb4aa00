//! When a record is sound: paper 01's list, asked of the words themselves and
//! written apart from the model's.

use crate::record::{self as at, is_running, Record};

type Test = fn(&Record) -> bool;

/// What the list asks, each by its name.
const TESTS: [(&str, Test); 16] = [
    ("N is 3..255", |r| (3..=255).contains(&r[at::BLOCKS])),
    ("T is below N", |r| r[at::T] < r[at::BLOCKS]),
    ("B is below N", |r| r[at::B] < r[at::BLOCKS]),
    ("the last decoded block is below N", |r| r[at::LAST_BLOCK] < r[at::BLOCKS]),
    ("TCC is below N", |r| r[at::TCC] < r[at::BLOCKS]),
    ("BUFC is below N", |r| r[at::BUFC] < r[at::BLOCKS]),
    ("BUFLIM is at most N-2", |r| r[at::BUFLIM] as u32 + 2 <= r[at::BLOCKS] as u32),
    ("TTC is at most 255", |r| r[at::TTC] <= 255),
    ("ATLIM is at most 31", |r| r[at::BURST_LIMITS] & 0xFF <= 31),
    ("MBC is at most 31", |r| r[at::BURST_LIMITS] >> 8 <= 31),
    ("the address is in range", |r| r[at::MINUTE] <= 99 && r[at::SECOND] <= 59 && r[at::FRAME] <= 74),
    ("the window is in range", |r| r[at::WORDS] == 0 || r[at::OFFSET] as u32 + 2 * r[at::WORDS] as u32 <= 2352),
    ("a transfer has blocks left", |r| !is_running(r) || r[at::BLOCKS_LEFT] > 0),
    ("a transfer has no more blocks left than TCC", |r| !is_running(r) || r[at::BLOCKS_LEFT] <= r[at::TCC]),
    ("a transfer's position is in its window", |r| !is_running(r) || r[at::PLACE] < r[at::WORDS]),
    ("packet words are at most 5", |r| r[at::PACKET_WORDS] <= 5),
];

pub fn is_sound(record: &Record) -> bool {
    TESTS.iter().all(|(_, holds)| holds(record))
}

/// What of the list does not hold.
pub fn faults(record: &Record) -> Vec<&'static str> {
    TESTS.iter().filter(|(_, holds)| !holds(record)).map(|(name, _)| *name).collect()
}
