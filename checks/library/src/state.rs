//! A record and the chip that it stands for, and how both go on by a call.

use crate::call::{Answer, Call};
use crate::difference::{same, Part};
use crate::expectation::answered;
use crate::library::Lent;
use crate::record::{self, Record};
use crate::soundness::is_sound;
use model::Chip;

const UNSOUND: u32 = 1;

#[derive(Clone, Copy)]
pub struct State {
    pub record: Record,
    /// An unsound record stands for no chip.
    pub chip: Option<Chip>,
    /// It came from an opening by calls alone, so that even what does not run is known.
    pub reached: bool,
}

/// What a call must answer, and the chip after it.
pub struct Wanted {
    pub answer: Answer,
    pub chip: Option<Chip>,
}

impl State {
    pub fn loaded(record: Record) -> State {
        let chip = is_sound(&record).then(|| record::decoded(&record));
        State { record, chip, reached: false }
    }

    /// Runs the call on the model. With a count of 0 a burst asks nothing, whatever the record is.
    pub fn wanted(&self, call: &Call, lent: Lent) -> Wanted {
        if let Call::Open { .. } = call {
            let mut chip = Chip::open(3).expect("3 blocks are a ring");
            let answer = answered(&mut chip, call, lent);
            return Wanted { answer, chip: answer.is_done().then_some(chip) };
        }
        if let Call::Words { count: 0, .. } = call {
            return Wanted { answer: Answer::Burst { number: 0, result: 0, handed: 0 }, chip: self.chip };
        }
        let Some(mut chip) = self.chip else {
            return Wanted { answer: call.refused(UNSOUND), chip: None };
        };
        let answer = answered(&mut chip, call, lent);
        Wanted { answer, chip: Some(chip) }
    }

    /// Goes on to a record that was found to be the wanted one.
    pub fn go_on(&mut self, call: &Call, wanted: &Wanted, found: Record) {
        self.record = found;
        self.chip = wanted.chip.filter(|_| is_sound(&found));
        self.reached |= matches!(call, Call::Open { .. }) && wanted.answer.is_done();
    }

    /// Compares the record that the call has left with the one that it must leave.
    pub fn compare_left(&self, call: &Call, wanted: &Wanted, found: &Record) -> Result<(), Part> {
        match (call, &wanted.chip) {
            (Call::Open { .. }, Some(chip)) => compare_records(&record::encoded(chip), found),
            (Call::Open { .. }, None) => compare_records(&refused_opening(), found),
            (Call::Words { count: 0, .. }, _) => compare_records(&self.record, found),
            (_, Some(chip)) if wanted.answer.is_done() => self.compare_done(chip, found),
            // A refusal and a look change no bit.
            _ => compare_records(&self.record, found),
        }
    }

    /// After an accepted call: to the bit, unless the record was loaded with bits that stand for nothing.
    fn compare_done(&self, chip: &Chip, found: &Record) -> Result<(), Part> {
        let wanted = record::encoded(chip);
        if self.reached {
            return compare_records(&wanted, found);
        }
        let wanted = with_idle_numbers(wanted, &self.record, found);
        compare_records(&wanted, &record::without_unused_bits(*found))
    }
}

/// Paper 01 says N; docs/DECISIONS.md says the rest.
pub fn refused_opening() -> Record {
    let mut record = record::encoded(&Chip::open(3).expect("3 blocks are a ring"));
    record[record::BLOCKS] = 0;
    record
}

/// Numbers of what does not run are left to the program: in a record that was loaded they may
/// stay as they were, or go to 0 as in a record from an opening.
fn with_idle_numbers(mut wanted: Record, before: &Record, found: &Record) -> Record {
    let no_transfer = !record::is_running(&wanted) && !record::is_running(before);
    let no_reception = !record::is_receiving(&wanted) && !record::is_receiving(before);
    let places =
        [(record::BLOCKS_LEFT, no_transfer), (record::PLACE, no_transfer), (record::PACKET_WORDS, no_reception)];
    for (place, idle) in places {
        if idle && found[place] == before[place] {
            wanted[place] = found[place];
        }
    }
    wanted
}

pub fn compare_records(wanted: &Record, found: &Record) -> Result<(), Part> {
    match record::first_difference(wanted, found) {
        Some((name, model, library)) => same(&name, model, library),
        None => Ok(()),
    }
}
