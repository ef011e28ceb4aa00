//! What a run made happen, counted by name, so that a comparison that never
//! got as far as a transfer is not taken for a thorough one.

use crate::limits::{NEIGHBOURS, SPOILINGS};
use crate::sealing::UNKNOWN_KINDS;
use crate::{judging, parity};
use ecma130::Kind;
use std::collections::BTreeMap;

/// The reply numbers that each call can give. A look has none.
const ANSWERS: [(&str, &[u32]); 15] = [
    ("open", &[0, 1]),
    ("write", &[0, 1, 2, 3, 4, 5, 6]),
    ("read", &[0, 1, 2]),
    ("set block", &[0, 1, 3, 4, 5]),
    ("set window", &[0, 1, 3, 4]),
    ("set expected", &[0, 1, 3, 5]),
    ("packet byte", &[0, 1, 3, 6]),
    ("reset", &[0, 1]),
    ("sector", &[0, 1, 7, 8, 9]),
    ("word", &[0, 1, 5]),
    ("words", &[0, 1, 5]),
    ("command", &[0, 1, 3, 4]),
    ("packet word", &[0, 1, 5]),
    ("status", &[0, 1]),
    ("srst", &[0, 1]),
];

/// The reply numbers that a write of each register can give to a sound record.
const WRITES: [(u16, &[u32]); 18] = [
    (0x07, &[0, 3]),
    (0x0A, &[0, 3, 5]),
    (0x12, &[0, 3, 4]),
    (0x17, &[0, 3, 4, 5, 6]),
    (0x18, &[0, 3, 4]),
    (0x31, &[0, 3]),
    (0x32, &[0, 3]),
    (0x34, &[0, 3]),
    (0x35, &[0, 3]),
    (0x37, &[0, 3, 4]),
    (0x3D, &[0, 3]),
    (0x3E, &[0, 3]),
    (0x9A, &[0, 3, 5]),
    (0x9B, &[0, 3, 5]),
    (0x9C, &[0, 3, 4, 5]),
    (0x9D, &[0, 3, 4, 5, 6]),
    (0x9E, &[0, 3, 4, 6]),
    (0x9F, &[0, 3, 4]),
];

pub const READABLE: [u16; 19] =
    [0x12, 0x18, 0x24, 0x25, 0x30, 0x31, 0x32, 0x34, 0x35, 0x37, 0x38, 0x3A, 0x3B, 0x80, 0x9A, 0x9B, 0x9C, 0x9D, 0x9F];

pub const WRONG_RINGS: [&str; 5] =
    ["of 0 bytes", "a byte too short", "a byte too long", "of another number of blocks", "65,536 bytes too long"];
const LENT_A_RING: [&str; 4] = ["sector", "look", "word", "words"];

/// All else that is counted.
const NAMES: [&str; 159] = [
    "ring of 3 blocks opened",
    "ring of 4 blocks opened",
    "ring of 25 blocks opened",
    "ring of 26 blocks opened",
    "ring of 254 blocks opened",
    "ring of 255 blocks opened",
    "ring above 25 blocks opened",
    "opening over a chip in a transfer",
    "good sector",
    "good sector with other bytes for its zeros",
    "good sector with wrong parity",
    "good sector of form 1 with wrong parity",
    "good sector of form 2 without EDC",
    "bad sector of form 2 without EDC",
    "bad sector with right parity",
    "sector whose kind was changed",
    "sector whose kind was changed, mode and EDC (6)",
    "sector whose kind was changed, EDC (2)",
    "sector with STAERR and HCEI",
    "80h read as 01h",
    "80h read as 40h",
    "80h read as 41h",
    "why without a fact that the bad sector before had",
    "why 0 again by a good sector",
    "why 0 again by a reset",
    "why 0 again by an opening",
    "why kept over DECEN low",
    "why kept over SRST",
    "why kept over a read of 80h",
    "why kept over words",
    "why kept over a sector refused (1)",
    "why kept over a sector refused (7)",
    "why kept over a sector refused (8)",
    "why kept over a sector refused (9)",
    "judging refused, wrong length (1)",
    "judging refused, bad address (3)",
    "sector sealed over stale bytes",
    "sealing refused, wrong length (1)",
    "sealing refused, bad address (3)",
    "sealing by kind refused, wrong length (1)",
    "sealing by kind refused, wrong length (1), the rest wrong too",
    "sealing by kind refused, bad address (3)",
    "sealing of form 1 refused, form bit high (3)",
    "sealing of form 2 refused, form bit low (3)",
    "mode 1 sealed with the form bit high",
    "mode 1 sealed with the form bit low",
    "next address within a second",
    "next address within the last second of a minute",
    "next address from frame 9 to frame 10",
    "next address from frame 69 to frame 70",
    "next address in the next second",
    "next address in the next minute",
    "next address after the last",
    "next address refused, minute (3)",
    "next address refused, second (3)",
    "next address refused, frame (3)",
    "next address refused, several parts (3)",
    "sector of 0 bytes",
    "sector of 1 byte",
    "sector of 2,351 bytes",
    "sector of 2,353 bytes",
    "sector of 2,352 and 65,536 bytes",
    "sector taken in a transfer",
    "sector taken in a reception",
    "sector taken by a ring above 25 blocks",
    "sector refused at a full ring (9)",
    "sector refused at BUFLIM (9)",
    "sector refused with BUFC above BUFLIM (9)",
    "B goes around the ring",
    "ring of 3 blocks full",
    "ring above 25 blocks full",
    "ring of 255 blocks full",
    "address past 99:59:74",
    "address past a minute",
    "restart after a bad sector",
    "DECEN low in a transfer",
    "DECEN high on a held chip",
    "T goes around the ring",
    "T set to the last block",
    "withdrawal of blocks",
    "withdrawal of all blocks",
    "skip of blocks",
    "skip of all blocks",
    "skip with ACMEN low",
    "TTC written with ACMEN low",
    "ACMEN low takes TTC along",
    "completion by firmware",
    "signature",
    "start by firmware",
    "start by firmware with TTC 0",
    "start by firmware with TTC set",
    "start by itself",
    "start by itself at the last word",
    "start by itself at a sector",
    "start by itself at a command",
    "start by itself at the sixth packet word",
    "start by itself at a write",
    "start of several blocks",
    "start cut by ATLIM",
    "start cut by TCC",
    "start cut by TTC",
    "start cut by the byte bound with TTC set",
    "start cut by the byte bound with STWCEN",
    "start cut by the byte bound without STWCEN",
    "start by firmware cut by the byte bound with TTC set",
    "start by itself cut by the byte bound",
    "start with TTC 0, MBC lowered",
    "start with TTC 0, MBC lowered, MBC+1 above TCC",
    "start with TTC 0, MBC lowered, of all good blocks",
    "start refused (6), MBC+1 above the byte bound",
    "start refused (6), MBC+1 above the byte bound, TCC 0",
    "start refused (6), MBC+1 above the byte bound, one block short",
    "start of 32 blocks with ATLIM 0",
    "start of 32 blocks by MBC",
    "start of 32 blocks of 1,023 words",
    "start with byte count (STWCEN)",
    "words handed over",
    "words handed over from an odd offset",
    "words handed over from a ring above 25 blocks",
    "transfer ended",
    "transfer of several blocks ended",
    "transfer of 32 blocks ended",
    "transfer ended with completion",
    "transfer ended, APKTEN set by AUTOEN",
    "burst of 0 words in a transfer",
    "burst of 0 words without a transfer",
    "burst of 1 word",
    "burst within a block",
    "burst to a block's end",
    "burst across blocks",
    "burst to the transfer's end",
    "burst that ends early",
    "burst that goes on by a start by itself",
    "burst of more than 65,535 words",
    "abort of a transfer",
    "abort within a block",
    "abort of a reception",
    "reset of a transfer",
    "packet command received",
    "packet command with A0IEN",
    "packet command without APKTEN",
    "other command received",
    "07h written in a reception",
    "packet full",
    "packet full with completion",
    "packet full with ADCEN low",
    "packet byte read",
    "HIRQ cleared by a status read",
    "look with bytes",
    "look in a ring above 25 blocks",
    "look at a half-read block",
    "look with bytes of P parity",
    "look with bytes of Q parity",
    "look with TCC 0",
    "look without a window",
    "look at an unsound record",
    "call on a loaded record accepted",
    "accepted call that leaves a loaded record unsound",
    "word of a loaded transfer past the byte bound",
];

/// What 35h and 34h are to say of long starts: 31 blocks of 1,024 words, 27 of 1,176, 32 of 1,023, and the most that
/// there is, 31 of 1,057.
pub const BYTE_COUNTS: [usize; 4] = [63_488, 63_504, 65_472, 65_534];

/// Kinds of records that are not the line's.
pub const ANY_WORDS: &str = "any words";
pub const IN_RANGE: &str = "any words, all of them in range";
pub const ALL_BUT_ONE_IN_RANGE: &str = "any words, all but one of them in range";
pub const FLIPPED_SOUND: &str = "flipped bits, sound";
pub const FLIPPED_UNSOUND: &str = "flipped bits, unsound";
pub const REFUSED_OPENING: &str = "left by a refused opening";
const LOADED: [&str; 6] = [ANY_WORDS, IN_RANGE, ALL_BUT_ONE_IN_RANGE, FLIPPED_SOUND, FLIPPED_UNSOUND, REFUSED_OPENING];

#[derive(Debug)]
pub struct Happenings {
    counts: BTreeMap<String, u64>,
}

impl Default for Happenings {
    fn default() -> Happenings {
        let counts = demanded().into_iter().map(|name| (name, 0)).collect();
        Happenings { counts }
    }
}

pub fn answer_name(call: &str, number: u32) -> String {
    format!("{call} answered {number}")
}

pub fn write_name(reg: u16, number: u32) -> String {
    format!("write of {reg:02X}h answered {number}")
}

pub fn read_name(reg: u16) -> String {
    format!("read of {reg:02X}h")
}

pub fn ring_name(call: &str, ring: &str) -> String {
    format!("{call} lent a ring {ring}")
}

/// Of a read while the transfer runs.
pub fn byte_count_name(bytes: usize, reg: u16) -> String {
    format!("byte count of {},{:03} read by {reg:02X}h", bytes / 1000, bytes % 1000)
}

/// Of a sector that a chip took.
pub fn stored_name(why: u32) -> String {
    format!("sector stored, why {why}")
}

pub fn judged_name(why: u32) -> String {
    format!("sector judged, why {why}")
}

/// By the kind that it was made as.
pub fn stored_kind_name(kind: Kind, why: u32) -> String {
    format!("sector of {} stored, why {why}", kind_name(kind))
}

/// Of a kind that there is, over stale bytes.
pub fn sealed_name(kind: Kind) -> String {
    format!("sector of {} sealed by its kind", kind_name(kind))
}

pub fn unknown_kind_name(kind: u16) -> String {
    format!("sealing of kind {kind} refused (3)")
}

fn kind_name(kind: Kind) -> &'static str {
    match kind {
        Kind::Mode1 => "mode 1",
        Kind::Form1 => "form 1",
        Kind::Form2 => "form 2",
    }
}

/// Of a sector that was made to be judged.
pub fn judging_name(making: &str) -> String {
    format!("judged, a sector {making}")
}

/// Of a sector that was made for the parity check.
pub fn parity_name(making: &str) -> String {
    format!("parity checked of a sector {making}")
}

/// Of a record as it stands before a call that it is refused for.
pub fn unsound_why_name(why: u32) -> String {
    format!("record unsound, why {why}")
}

pub fn spoiling_name(name: &str) -> String {
    format!("record unsound: {name}")
}

pub fn neighbour_name(name: &str) -> String {
    format!("record sound: {name}")
}

pub fn loaded_name(name: &str) -> String {
    format!("record loaded: {name}")
}

/// The names of all that must happen.
fn demanded() -> Vec<String> {
    let mut names: Vec<String> = NAMES.iter().map(|name| name.to_string()).collect();
    for (call, numbers) in ANSWERS {
        names.extend(numbers.iter().map(|&number| answer_name(call, number)));
    }
    for (reg, numbers) in WRITES {
        names.extend(numbers.iter().map(|&number| write_name(reg, number)));
    }
    names.extend(READABLE.map(read_name));
    names.extend(BYTE_COUNTS.into_iter().flat_map(|bytes| [0x34, 0x35].map(|reg| byte_count_name(bytes, reg))));
    names.extend((0..16).flat_map(|why| [stored_name(why), judged_name(why), unsound_why_name(why)]));
    for call in LENT_A_RING {
        names.extend(WRONG_RINGS.map(|ring| ring_name(call, ring)));
    }
    for kind in Kind::ALL {
        names.extend((0..16).map(|why| stored_kind_name(kind, why)));
        names.push(sealed_name(kind));
    }
    names.extend(UNKNOWN_KINDS.map(unknown_kind_name));
    names.extend(judging::MAKINGS.iter().map(|making| judging_name(making.name)));
    names.extend(parity::MAKINGS.iter().map(|making| parity_name(making.name)));
    names.extend(SPOILINGS.iter().map(|change| spoiling_name(change.name)));
    names.extend(NEIGHBOURS.iter().map(|change| neighbour_name(change.name)));
    names.extend(LOADED.map(loaded_name));
    names
}

impl Happenings {
    pub fn count(&mut self, what: &str) {
        *self.counts.get_mut(what).unwrap_or_else(|| panic!("{what:?} is not on the list")) += 1;
    }

    pub fn count_if(&mut self, happened: bool, what: &str) {
        if happened {
            self.count(what);
        }
    }

    /// Adds what happened in another run.
    pub fn absorb(&mut self, other: &Happenings) {
        for (what, count) in &other.counts {
            *self.counts.entry(what.clone()).or_default() += count;
        }
    }

    /// What has not happened yet.
    pub fn missing(&self) -> Vec<&str> {
        self.counts.iter().filter(|(_, &count)| count == 0).map(|(what, _)| what.as_str()).collect()
    }

    pub fn report(&self) -> String {
        self.counts.iter().map(|(what, count)| format!("{count:>9}  {what}\n")).collect()
    }
}

#[cfg(test)]
mod tests {
    use super::*;

    #[test]
    fn nothing_has_happened_at_first_and_no_name_is_twice() {
        assert_eq!(Happenings::default().missing().len(), demanded().len());
    }

    #[test]
    fn counts_of_runs_are_added() {
        let (mut one, mut other) = (Happenings::default(), Happenings::default());
        one.count("good sector");
        other.count("good sector");
        other.count("signature");
        one.absorb(&other);
        assert_eq!(one.counts["good sector"], 2);
        assert_eq!(one.missing().len(), demanded().len() - 2);
    }
}
