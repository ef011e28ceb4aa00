//! What happened to kinds and subheaders. What they outlast shows only in the bytes of a sector that was made with
//! them: it is counted when the host is handed a word that another kind or subheader would have made another one.

use super::{Happenings, Step};
use ecma130::{open, Address, Facts, Kind, FIRST_COPY, FORM_BIT, P_PARITY_START, SECOND_COPY, SECTOR_BYTES};
use model::{Call, Chip, Disc};
use std::collections::{BTreeMap, BTreeSet};
use std::ops::Range;

const MODE_PLACE: usize = 15;
const SUBMODE: usize = 2;
/// Of mode 1.
const EDC: Range<usize> = 2064..2068;

/// All that is counted here, but for `STORED`.
pub const NAMES: [&str; 61] = [
    "kind before any open (5)",
    "kind accepted",
    "kind refused (3)",
    "kind refused (3), cut to a byte one that is taken",
    "subheader before any open (5)",
    "subheader accepted",
    "subheader refused (3), file number",
    "subheader refused (3), channel number",
    "subheader refused (3), submode",
    "subheader refused (3), coding information",
    "form 1 refused (3), form bit high",
    "form 2 refused (3), form bit low",
    "form bit refused (3) in the place of 7",
    "form bit refused (3) in the place of 8",
    "form bit refused (3) in the place of 9",
    "form bit refused (3) where the sector would be taken",
    "form bit refused (3) of a subheader that an opening put back",
    "mode 1 sector stored, form bit high",
    "scratched minute makes a mode 2 sector good",
    "form 2 without EDC, good",
    "form 2 without EDC, good, with inverted user bytes",
    "form 2 without EDC, subheaders unequal alone (4)",
    "form 1 with zeros for its EDC (2)",
    "another mode byte with zeros for its EDC (6)",
    "form 1 read as form 2, good",
    "form 1 read as form 2, EDC (2)",
    "form 2 read as form 1, good",
    "form 2 read as form 1, EDC (2)",
    "mode 2 with another mode byte alone (4)",
    "mode 2 with unequal subheaders and EDC (6)",
    "good blocks of all three kinds in the ring",
    "kind kept over a malformed line",
    "kind kept over a refused kind",
    "kind kept over a refused subheader",
    "kind kept over a refused opening",
    "kind kept over a reset",
    "kind kept over SRST",
    "kind kept over DECEN low",
    "kind kept over a scratch",
    "kind kept over a good sector",
    "kind kept over a bad sector",
    "kind kept over a sector refused (3)",
    "kind kept over a sector refused (7)",
    "kind kept over a sector refused (8)",
    "kind kept over a sector refused (9)",
    "kind put back by an opening",
    "subheader put back by an opening",
    "word of the mode byte, form 1",
    "word of the mode byte, form 2",
    "word of the subheader, first copy, not 0",
    "word of the subheader, second copy, not 0",
    "word of form 1, user bytes where mode 1 has its EDC",
    "word of form 1, EDC, not 0",
    "word of form 1, parity, not 0",
    "word of form 2, user bytes beyond byte 2,064, not 0",
    "word of form 2, user bytes in the place of parity, not 0",
    "word of form 2, last user byte and EDC, not 0",
    "word of form 2, EDC, not 0",
    "all parity of a mode 1 block handed over",
    "all parity of a form 1 block handed over",
    "all of a form 2 block in the place of parity handed over",
];

/// Sectors by the kind that they were sealed as, which a scratch may have changed.
pub const STORED: [(Kind, u8, &str); 27] = [
    (Kind::Mode1, 0, "mode 1 sector stored, why 0"),
    (Kind::Mode1, 1, "mode 1 sector stored, why 1"),
    (Kind::Mode1, 2, "mode 1 sector stored, why 2"),
    (Kind::Mode1, 3, "mode 1 sector stored, why 3"),
    (Kind::Mode1, 6, "mode 1 sector stored, why 6"),
    (Kind::Mode1, 7, "mode 1 sector stored, why 7"),
    (Kind::Mode1, 10, "mode 1 sector stored, why 10"),
    (Kind::Mode1, 11, "mode 1 sector stored, why 11"),
    (Kind::Mode1, 15, "mode 1 sector stored, why 15"),
    (Kind::Form1, 0, "form 1 sector stored, why 0"),
    (Kind::Form1, 1, "form 1 sector stored, why 1"),
    (Kind::Form1, 2, "form 1 sector stored, why 2"),
    (Kind::Form1, 3, "form 1 sector stored, why 3"),
    (Kind::Form1, 6, "form 1 sector stored, why 6"),
    (Kind::Form1, 7, "form 1 sector stored, why 7"),
    (Kind::Form1, 8, "form 1 sector stored, why 8"),
    (Kind::Form1, 9, "form 1 sector stored, why 9"),
    (Kind::Form1, 15, "form 1 sector stored, why 15"),
    (Kind::Form2, 0, "form 2 sector stored, why 0"),
    (Kind::Form2, 1, "form 2 sector stored, why 1"),
    (Kind::Form2, 2, "form 2 sector stored, why 2"),
    (Kind::Form2, 3, "form 2 sector stored, why 3"),
    (Kind::Form2, 6, "form 2 sector stored, why 6"),
    (Kind::Form2, 7, "form 2 sector stored, why 7"),
    (Kind::Form2, 8, "form 2 sector stored, why 8"),
    (Kind::Form2, 9, "form 2 sector stored, why 9"),
    (Kind::Form2, 15, "form 2 sector stored, why 15"),
];

#[derive(Default)]
pub struct Kinds {
    /// What kind and subheader have outlasted since one of them was set.
    outlasted: BTreeSet<&'static str>,
    /// The disc before the last opening, until the line comes that sets kind or subheader anew.
    before_opening: Option<Disc>,
    kind_is_put_back: bool,
    subheader_is_put_back: bool,
    /// Stored sectors by block.
    blocks: BTreeMap<usize, Stored>,
}

struct Stored {
    /// As it was made.
    kind: Kind,
    inverted: Range<usize>,
    /// What is shown by a word that is another one than here.
    others: Vec<(BTreeSet<&'static str>, Vec<u8>)>,
}

/// Lines.
impl Happenings {
    pub fn note_kinds(&mut self, step: &Step) {
        match step.call {
            Some(Call::Kind { number }) => self.note_kind(step, number),
            Some(Call::Subheader { file, channel, submode, coding }) => {
                self.note_subheader(step, [file, channel, submode, coding]);
            }
            Some(Call::Sector { address, fill }) if step.answer == 0 => self.note_stored(step, address, fill),
            Some(Call::Sector { address, fill }) if step.answer == 3 => self.note_other_form(step, address, fill),
            Some(Call::Word) if step.answer == 0 => self.note_word_of_kind(step),
            Some(Call::Reset) => self.kinds.blocks.clear(),
            Some(Call::Open { .. }) if step.answer == 0 => self.note_put_back(step.disc),
            _ => {}
        }
        if let (true, Some(what)) = (step.disc.kind != Kind::Mode1, outlasted_name(step)) {
            self.kinds.outlasted.insert(what);
        }
    }

    fn note_kind(&mut self, step: &Step, number: u16) {
        self.count_if(step.answer == 5, "kind before any open (5)");
        self.count_if(step.answer == 0, "kind accepted");
        self.count_if(step.answer == 3, "kind refused (3)");
        let cut = (1..=3).contains(&(number & 255));
        self.count_if(step.answer == 3 && cut, "kind refused (3), cut to a byte one that is taken");
        if step.answer == 0 {
            self.kinds.outlasted.clear();
            self.kinds.kind_is_put_back = false;
        }
    }

    fn note_subheader(&mut self, step: &Step, parts: [u16; 4]) {
        self.count_if(step.answer == 5, "subheader before any open (5)");
        self.count_if(step.answer == 0, "subheader accepted");
        let names = [
            "subheader refused (3), file number",
            "subheader refused (3), channel number",
            "subheader refused (3), submode",
            "subheader refused (3), coding information",
        ];
        for (name, part) in names.into_iter().zip(parts) {
            self.count_if(step.answer == 3 && part > 255, name);
        }
        if step.answer == 0 {
            self.kinds.outlasted.clear();
            self.kinds.subheader_is_put_back = false;
        }
    }

    fn note_put_back(&mut self, disc: Disc) {
        self.kinds = Kinds {
            before_opening: Some(disc),
            kind_is_put_back: disc.kind != Kind::Mode1,
            subheader_is_put_back: disc.subheader != [0; 4],
            ..Kinds::default()
        };
    }

    /// A sector line that nothing but the form bit speaks against.
    fn note_other_form(&mut self, step: &Step, address: Address, fill: u16) {
        let Some(chip) = step.before else {
            return;
        };
        if step.disc.agrees() || !address.is_valid() || fill > 255 {
            return;
        }
        self.count_if(step.disc.kind == Kind::Form1, "form 1 refused (3), form bit high");
        self.count_if(step.disc.kind == Kind::Form2, "form 2 refused (3), form bit low");
        self.count(match (chip.decen, chip.held, chip.is_at_stop()) {
            (false, ..) => "form bit refused (3) in the place of 7",
            (_, true, _) => "form bit refused (3) in the place of 8",
            (.., true) => "form bit refused (3) in the place of 9",
            _ => "form bit refused (3) where the sector would be taken",
        });
        let agreed = self.kinds.before_opening.is_some_and(|old| step.disc.kind.agrees_with(old.subheader));
        let put_back = self.kinds.subheader_is_put_back && agreed;
        self.count_if(put_back, "form bit refused (3) of a subheader that an opening put back");
    }
}

/// Sectors.
impl Happenings {
    fn note_stored(&mut self, step: &Step, address: Address, fill: u16) {
        let (Some(before), Some(after)) = (step.before, step.after) else {
            return;
        };
        let (disc, facts) = (step.disc, after.facts);
        let name = STORED.iter().find(|(kind, why, _)| (*kind, *why) == (disc.kind, facts.why()));
        name.iter().for_each(|(_, _, name)| self.count(name));
        let form_bit = disc.subheader[SUBMODE] & FORM_BIT != 0;
        self.count_if(disc.kind == Kind::Mode1 && form_bit, "mode 1 sector stored, form bit high");
        let minute = disc.scratch.range() == (12..13);
        self.count_if(minute && facts.is_good(), "scratched minute makes a mode 2 sector good");
        let arrived = opened(&disc, address, fill, true);
        self.note_rule(&disc, facts, &arrived);
        let stored =
            Stored { kind: disc.kind, inverted: disc.scratch.range(), others: self.others(&disc, address, fill) };
        self.kinds.blocks.insert(before.b, stored);
        let good = (0..after.tcc).filter_map(|place| self.kinds.blocks.get(&((after.t + place) % after.blocks)));
        let kinds: BTreeSet<Kind> = good.map(|stored| stored.kind).collect();
        self.count_if(facts.is_good() && kinds.len() == 3, "good blocks of all three kinds in the ring");
    }

    /// By which rule a sector of mode 2 was read.
    fn note_rule(&mut self, disc: &Disc, facts: Facts, arrived: &[u8]) {
        let (read, why) = (Kind::of_sector(arrived), facts.why() & !1);
        let without_code = read == Kind::Form2 && arrived[read.code()] == [0; 4];
        let inverted_user = disc.scratch.range().start < 2348;
        if disc.kind == Kind::Form2 && without_code {
            self.count_if(facts.is_good(), "form 2 without EDC, good");
            self.count_if(facts.is_good() && inverted_user, "form 2 without EDC, good, with inverted user bytes");
            self.count_if(why == 4, "form 2 without EDC, subheaders unequal alone (4)");
        }
        let zeros = disc.kind != Kind::Mode1 && arrived[read.code()] == [0; 4];
        self.count_if(zeros && read == Kind::Form1 && why == 2, "form 1 with zeros for its EDC (2)");
        self.count_if(zeros && read == Kind::Mode1 && why == 6, "another mode byte with zeros for its EDC (6)");
        match (disc.kind, read) {
            (Kind::Form1, Kind::Form2) => {
                self.count_if(facts.is_good(), "form 1 read as form 2, good");
                self.count_if(why == 2, "form 1 read as form 2, EDC (2)");
            }
            (Kind::Form2, Kind::Form1) => {
                self.count_if(facts.is_good(), "form 2 read as form 1, good");
                self.count_if(why == 2, "form 2 read as form 1, EDC (2)");
            }
            (Kind::Form1 | Kind::Form2, Kind::Mode1) => {
                self.count_if(facts.why() == 4, "mode 2 with another mode byte alone (4)");
            }
            _ => {}
        }
        let unequal = read != Kind::Mode1 && arrived[FIRST_COPY] != arrived[SECOND_COPY];
        self.count_if(unequal && why == 6, "mode 2 with unequal subheaders and EDC (6)");
    }

    /// The sectors that the line would have made had something not outlasted what it has, or not been put back.
    fn others(&self, disc: &Disc, address: Address, fill: u16) -> Vec<(BTreeSet<&'static str>, Vec<u8>)> {
        let mut others = Vec::new();
        if disc.kind != Kind::Mode1 {
            others.push((self.kinds.outlasted.clone(), opened(&Disc::NEW, address, fill, false)));
        }
        let Some(old) = self.kinds.before_opening else {
            return others;
        };
        if self.kinds.kind_is_put_back && old.agrees() {
            others.push((BTreeSet::from(["kind put back by an opening"]), opened(&old, address, fill, false)));
        }
        let with_old = Disc { subheader: old.subheader, ..*disc };
        if self.kinds.subheader_is_put_back && disc.kind != Kind::Mode1 && with_old.agrees() {
            others
                .push((BTreeSet::from(["subheader put back by an opening"]), opened(&with_old, address, fill, false)));
        }
        others
    }
}

/// Words.
impl Happenings {
    fn note_word_of_kind(&mut self, step: &Step) {
        let Some((chip, transfer)) = step.before.and_then(|chip| Some((chip, chip.transfer?))) else {
            return;
        };
        let place = chip.window.offset + 2 * transfer.place;
        let Some(stored) = self.kinds.blocks.get_mut(&chip.t) else {
            return;
        };
        if stored.inverted.contains(&place) || stored.inverted.contains(&(place + 1)) {
            return;
        }
        let word = step.out.to_le_bytes();
        let shown = stored.others.extract_if(.., |(_, other)| other[place..place + 2] != word);
        let names: Vec<&str> = shown.flat_map(|(names, _)| names).collect();
        let kind = stored.kind;
        names.into_iter().for_each(|name| self.count(name));
        self.note_place(kind, place, step.out);
        self.note_whole_end(kind, &chip, place);
    }

    /// A word of mode 2 that is as it was sealed.
    fn note_place(&mut self, kind: Kind, place: usize, word: u16) {
        let within = |part: Range<usize>| part.contains(&place) && part.contains(&(place + 1));
        let mode = place == MODE_PLACE || place + 1 == MODE_PLACE;
        let (first, second) = (within(FIRST_COPY), within(SECOND_COPY));
        if kind != Kind::Mode1 && word != 0 {
            self.count_if(first, "word of the subheader, first copy, not 0");
            self.count_if(second, "word of the subheader, second copy, not 0");
        }
        match kind {
            Kind::Form1 => {
                self.count_if(mode, "word of the mode byte, form 1");
                self.count_if(within(EDC), "word of form 1, user bytes where mode 1 has its EDC");
                self.count_if(word != 0 && within(kind.code()), "word of form 1, EDC, not 0");
                self.count_if(word != 0 && place >= P_PARITY_START, "word of form 1, parity, not 0");
            }
            Kind::Form2 => {
                let user = word != 0 && within(EDC.start..kind.user().end);
                let last = word != 0 && place + 1 == kind.code().start;
                self.count_if(mode, "word of the mode byte, form 2");
                self.count_if(user, "word of form 2, user bytes beyond byte 2,064, not 0");
                self.count_if(
                    user && place >= P_PARITY_START,
                    "word of form 2, user bytes in the place of parity, not 0",
                );
                self.count_if(last, "word of form 2, last user byte and EDC, not 0");
                self.count_if(word != 0 && within(kind.code()), "word of form 2, EDC, not 0");
            }
            Kind::Mode1 => {}
        }
    }

    /// The last word of what a window has from the parity on.
    fn note_whole_end(&mut self, kind: Kind, chip: &Chip, place: usize) {
        let whole = chip.window.offset <= P_PARITY_START && place + 2 == SECTOR_BYTES;
        self.count_if(whole && kind == Kind::Mode1, "all parity of a mode 1 block handed over");
        self.count_if(whole && kind == Kind::Form1, "all parity of a form 1 block handed over");
        self.count_if(whole && kind == Kind::Form2, "all of a form 2 block in the place of parity handed over");
    }
}

/// The sector that a line makes, opened, with its scratch or without.
fn opened(disc: &Disc, address: Address, fill: u16, scratched: bool) -> Vec<u8> {
    let sector = if scratched { disc.arriving(address, fill) } else { disc.sealed(address, fill) };
    let mut sector = sector.expect("the line was accepted");
    open(&mut sector).expect("a sector has its length");
    sector
}

/// What kind and subheader outlast by this step, where it is counted.
fn outlasted_name(step: &Step) -> Option<&'static str> {
    Some(match (step.call, step.answer) {
        (None, _) => "kind kept over a malformed line",
        (Some(Call::Kind { .. }), 3) => "kind kept over a refused kind",
        (Some(Call::Subheader { .. }), 3) => "kind kept over a refused subheader",
        (Some(Call::Open { .. }), 1) => "kind kept over a refused opening",
        (Some(Call::Reset), 0) => "kind kept over a reset",
        (Some(Call::Srst), 0) => "kind kept over SRST",
        (Some(Call::Write { reg: 0x0A, value: 0 }), 0) => "kind kept over DECEN low",
        (Some(Call::Scratch { .. }), 0) => "kind kept over a scratch",
        (Some(Call::Sector { .. }), 0) if step.out == 0 => "kind kept over a good sector",
        (Some(Call::Sector { .. }), 0) => "kind kept over a bad sector",
        (Some(Call::Sector { .. }), 3) => "kind kept over a sector refused (3)",
        (Some(Call::Sector { .. }), 7) => "kind kept over a sector refused (7)",
        (Some(Call::Sector { .. }), 8) => "kind kept over a sector refused (8)",
        (Some(Call::Sector { .. }), 9) => "kind kept over a sector refused (9)",
        _ => return None,
    })
}
