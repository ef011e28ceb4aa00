//! Counts what a script really made happen, so that a comparison that never
//! got as far as a transfer is not taken for a thorough one.

mod disc;
mod kinds;

use disc::Scratches;
use ecma130::Address;
use kinds::Kinds;
use model::{Call, Chip, Disc, MAX_LINE_BYTES};
use std::collections::{BTreeMap, BTreeSet};

/// All that is counted, but for what `disc` and `kinds` have.
const NAMES: [&str; 66] = [
    "T goes around the ring",
    "malformed line",
    "line over 80 bytes",
    "well-formed line of 80 bytes",
    "open accepted",
    "open refused",
    "call before any open",
    "restart after a bad sector",
    "DECEN low in a transfer",
    "withdrawal of blocks",
    "withdrawal refused (6)",
    "skip of blocks",
    "skip refused (6)",
    "completion by firmware",
    "start refused (5)",
    "start refused (6)",
    "write barred (4)",
    "start by firmware",
    "start by itself",
    "start by itself at the last word",
    "start by itself at the sixth packet word",
    "start by itself at a sector",
    "start by itself at a command",
    "start of several blocks",
    "start with byte count (STWCEN)",
    "start cut by ATLIM",
    "start of 17 blocks or more with ATLIM 0",
    "start of 24 blocks with ATLIM 0",
    "start of 16 blocks by ATLIM 16",
    "12h read after a start of 17 blocks or more",
    "35h above 127 read after a start",
    "34h read after such a start",
    "ring of 25 blocks full",
    "word handed over",
    "word handed over from an odd offset",
    "transfer of 1,024 words a block or more ended",
    "transfer ended",
    "transfer of several blocks ended",
    "transfer of 17 blocks or more ended",
    "transfer ended with completion",
    "packet reception armed again by AUTOEN",
    "good sector",
    "bad sector",
    "sector taken in a transfer",
    "address past 99:59:74",
    "address refused (3)",
    "sector refused, DECEN low (7)",
    "sector refused, held (8)",
    "sector refused, ring full (9)",
    "sector refused, BUFLIM (9)",
    "packet command received",
    "packet command without APKTEN",
    "other command received",
    "packet full",
    "packet full with completion",
    "packet full with ADCEN low",
    "packet byte read",
    "abort of a transfer",
    "abort within a block",
    "abort of a reception",
    "look with bytes",
    "look without bytes",
    "look at a half-read block",
    "word handed over through a moved window",
    "block read through a second window",
    "block read through a fourth window",
];

/// A line, the call it names, its answer, the chip around it, and the disc before it.
pub struct Step<'a> {
    pub line: &'a [u8],
    pub call: Option<Call>,
    pub answer: u16,
    pub out: u16,
    pub before: Option<Chip>,
    pub after: Option<Chip>,
    pub disc: Disc,
}

pub struct Happenings {
    counts: BTreeMap<&'static str, u64>,
    answers: BTreeMap<(&'static str, u16), u64>,
    /// Offsets of the windows through which the oldest block has been read.
    windows: BTreeSet<usize>,
    scratches: Scratches,
    kinds: Kinds,
}

impl Default for Happenings {
    fn default() -> Happenings {
        Happenings {
            counts: names().map(|name| (name, 0)).collect(),
            answers: BTreeMap::new(),
            windows: BTreeSet::new(),
            scratches: Scratches::default(),
            kinds: Kinds::default(),
        }
    }
}

/// All that is counted.
fn names() -> impl Iterator<Item = &'static str> {
    let stored = kinds::STORED.into_iter().map(|(_, _, name)| name);
    NAMES.into_iter().chain(disc::NAMES).chain(kinds::NAMES).chain(stored)
}

impl Happenings {
    fn count(&mut self, what: &'static str) {
        self.count_if(true, what);
    }

    fn count_if(&mut self, happened: bool, what: &'static str) {
        *self.counts.get_mut(what).expect("a name of the list") += happened as u64;
    }

    /// What has not happened yet.
    pub fn missing(&self) -> Vec<&'static str> {
        self.counts.iter().filter(|(_, &count)| count == 0).map(|(&what, _)| what).collect()
    }

    pub fn note(&mut self, step: &Step) {
        let name = step.call.map_or("malformed", |call| call.name());
        *self.answers.entry((name, step.answer)).or_default() += 1;
        self.note_line(step);
        self.note_facts(step);
        self.note_disc(step);
        self.note_kinds(step);
        let (Some(call), Some(before), Some(after)) = (step.call, step.before, step.after) else {
            return;
        };
        if matches!(call, Call::Open { .. }) {
            self.windows.clear();
            return;
        }
        self.note_write(call, step.answer, &before);
        self.note_start(call, step.answer, &before, &after);
        self.note_look(call, step.out, &before);
        self.note_count_read(call, step.out, &before);
        self.count_if(step.answer == 3 && matches!(call, Call::Address { .. }), "address refused (3)");
        if step.answer == 0 {
            self.note_sector(call, step.out, &before, &after);
            self.note_word(call, &before);
            self.note_windows(call, &before, &after);
            self.note_packet(call, &before, &after);
            self.note_abort(call, &before);
            self.count_if(after.t < before.t && after.tcc < before.tcc, "T goes around the ring");
        }
        self.note_refused_sector(call, step.answer, &before);
    }

    fn note_line(&mut self, step: &Step) {
        let well_formed = step.call.is_some();
        let opening = matches!(step.call, Some(Call::Open { .. }));
        self.count_if(!well_formed, "malformed line");
        self.count_if(step.line.len() > MAX_LINE_BYTES, "line over 80 bytes");
        self.count_if(well_formed && step.line.len() == MAX_LINE_BYTES, "well-formed line of 80 bytes");
        self.count_if(opening && step.answer == 0, "open accepted");
        self.count_if(opening && step.answer != 0, "open refused");
        let early = well_formed && !opening && step.before.is_none();
        self.count_if(early, "call before any open");
    }

    fn note_write(&mut self, call: Call, answer: u16, before: &Chip) {
        let Call::Write { reg, value } = call else {
            return;
        };
        let done = answer == 0;
        let blocks = value as usize;
        self.count_if(done && reg == 0x0A && value == 0 && before.held, "restart after a bad sector");
        self.count_if(done && reg == 0x0A && value == 0 && before.transfer.is_some(), "DECEN low in a transfer");
        self.count_if(done && reg == 0x9D && blocks < before.tcc, "withdrawal of blocks");
        self.count_if(answer == 6 && reg == 0x9D, "withdrawal refused (6)");
        self.count_if(done && reg == 0x9E && before.acmen && blocks > 0, "skip of blocks");
        self.count_if(answer == 6 && reg == 0x9E, "skip refused (6)");
        self.count_if(done && reg == 0x17 && value == 0x01, "completion by firmware");
        self.count_if(answer == 5 && reg == 0x17, "start refused (5)");
        self.count_if(answer == 6 && reg == 0x17, "start refused (6)");
        self.count_if(answer == 4, "write barred (4)");
    }

    fn note_start(&mut self, call: Call, answer: u16, before: &Chip, after: &Chip) {
        let ended = answer == 0 && matches!(call, Call::Word) && is_last_word(before);
        if after.transfer.is_none() || before.transfer.is_some() && !ended {
            return;
        }
        let by_firmware = call == Call::Write { reg: 0x17, value: 0x04 };
        self.count_if(by_firmware, "start by firmware");
        self.count_if(!by_firmware, "start by itself");
        self.count_if(ended, "start by itself at the last word");
        self.count_if(matches!(call, Call::Send { .. }), "start by itself at the sixth packet word");
        self.count_if(matches!(call, Call::Sector { .. }), "start by itself at a sector");
        self.count_if(matches!(call, Call::Command { .. }), "start by itself at a command");
        self.count_if(after.mbc > 0, "start of several blocks");
        self.count_if(after.stwcen, "start with byte count (STWCEN)");
        let limit = if after.atlim == 0 { 32 } else { after.atlim };
        self.count_if(after.ttc > limit && after.tcc > limit, "start cut by ATLIM");
        let unlimited = after.ttc > 0 && after.atlim == 0;
        self.count_if(unlimited && after.mbc >= 16, "start of 17 blocks or more with ATLIM 0");
        self.count_if(unlimited && after.mbc == 23, "start of 24 blocks with ATLIM 0");
        self.count_if(after.ttc > 16 && after.atlim == 16 && after.mbc == 15, "start of 16 blocks by ATLIM 16");
    }

    /// What a start left in MBC and in the byte count, while its transfer runs.
    fn note_count_read(&mut self, call: Call, out: u16, before: &Chip) {
        let Call::Read { reg } = call else {
            return;
        };
        let counted = before.transfer.is_some() && before.ttc > 0 && before.stwcen;
        self.count_if(counted && reg == 0x12 && out >= 16, "12h read after a start of 17 blocks or more");
        self.count_if(counted && reg == 0x35 && out > 127, "35h above 127 read after a start");
        self.count_if(counted && reg == 0x34 && before.reg35 > 127, "34h read after such a start");
    }

    fn note_word(&mut self, call: Call, before: &Chip) {
        let word = matches!(call, Call::Word);
        let last = word && is_last_word(before);
        self.count_if(word, "word handed over");
        self.count_if(word && before.window.offset % 2 == 1, "word handed over from an odd offset");
        self.count_if(last && before.window.words >= 1024, "transfer of 1,024 words a block or more ended");
        self.count_if(last, "transfer ended");
        self.count_if(last && before.mbc > 0, "transfer of several blocks ended");
        self.count_if(last && before.mbc >= 16, "transfer of 17 blocks or more ended");
        self.count_if(last && before.ascen, "transfer ended with completion");
        self.count_if(last && before.ascen && before.autoen, "packet reception armed again by AUTOEN");
    }

    /// A look prints no bytes. They are compared by words instead: a window is
    /// moved over a block, which stays the oldest when its transfers are
    /// aborted before their last word.
    fn note_windows(&mut self, call: Call, before: &Chip, after: &Chip) {
        if matches!(call, Call::Word) {
            let moved = self.windows.insert(before.window.offset);
            let windows = self.windows.len();
            self.count_if(windows > 1, "word handed over through a moved window");
            self.count_if(moved && windows == 2, "block read through a second window");
            self.count_if(moved && windows == 4, "block read through a fourth window");
        }
        if after.t != before.t || after.tcc == 0 {
            self.windows.clear();
        }
    }

    fn note_sector(&mut self, call: Call, out: u16, before: &Chip, after: &Chip) {
        if !matches!(call, Call::Sector { .. }) {
            return;
        }
        self.count_if(out == 0, "good sector");
        self.count_if(out != 0, "bad sector");
        self.count_if(before.transfer.is_some(), "sector taken in a transfer");
        self.count_if(after.blocks == 25 && after.tcc == 24, "ring of 25 blocks full");
        self.count_if(out == 0 && after.expected == Address::new(0, 0, 0), "address past 99:59:74");
    }

    fn note_refused_sector(&mut self, call: Call, answer: u16, before: &Chip) {
        if !matches!(call, Call::Sector { .. }) {
            return;
        }
        self.count_if(answer == 7, "sector refused, DECEN low (7)");
        self.count_if(answer == 8, "sector refused, held (8)");
        self.count_if(answer == 9 && !before.blims, "sector refused, ring full (9)");
        self.count_if(answer == 9 && before.blims, "sector refused, BUFLIM (9)");
    }

    fn note_packet(&mut self, call: Call, before: &Chip, after: &Chip) {
        let command = matches!(call, Call::Command { .. });
        let full = matches!(call, Call::Send { .. }) && after.reception.is_none();
        let unarmed = call == Call::Command { code: 0xA0 } && !before.apkten;
        self.count_if(command && after.reception.is_some(), "packet command received");
        self.count_if(unarmed, "packet command without APKTEN");
        self.count_if(command && after.reception.is_none(), "other command received");
        self.count_if(full, "packet full");
        self.count_if(full && before.ascen, "packet full with completion");
        self.count_if(full && !before.adcen, "packet full with ADCEN low");
        self.count_if(matches!(call, Call::Packet { .. }), "packet byte read");
    }

    fn note_abort(&mut self, call: Call, before: &Chip) {
        if !matches!(call, Call::Srst) {
            return;
        }
        let inside = before.transfer.is_some_and(|transfer| transfer.place > 0);
        self.count_if(before.transfer.is_some(), "abort of a transfer");
        self.count_if(inside, "abort within a block");
        self.count_if(before.reception.is_some(), "abort of a reception");
    }

    fn note_look(&mut self, call: Call, out: u16, before: &Chip) {
        if !matches!(call, Call::Look) {
            return;
        }
        let half_read = before.transfer.is_some_and(|transfer| transfer.place > 0);
        self.count_if(out > 0, "look with bytes");
        self.count_if(out == 0, "look without bytes");
        self.count_if(half_read, "look at a half-read block");
    }

    pub fn report(&self) -> String {
        let mut text = String::new();
        for (what, count) in &self.counts {
            text += &format!("{count:>9}  {what}\n");
        }
        text += "answers:\n";
        for ((name, answer), count) in &self.answers {
            text += &format!("{count:>9}  {name} answered {answer}\n");
        }
        text
    }
}

fn is_last_word(chip: &Chip) -> bool {
    chip.transfer.is_some_and(|transfer| transfer.blocks_left == 1 && transfer.place + 1 == chip.window.words)
}

#[cfg(test)]
mod tests {
    use super::*;

    #[test]
    fn nothing_has_happened_at_first() {
        assert_eq!(Happenings::default().missing().len(), names().count());
    }
}
