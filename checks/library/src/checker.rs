//! Makes a call on the library and on the model, and compares all that it
//! answers and leaves.

use crate::buffers::Buffers;
use crate::call::{Answer, Call};
use crate::difference::{same, same_rows, Difference, Part};
use crate::happenings::Happenings;
use crate::library::Library;
use crate::memory::Memory;
use crate::noting::Step;
use crate::record::{self, Record};
use crate::soundness::faults;
use crate::state::{compare_records, State};
use model::Random;

pub struct Checker<'a, L: Library> {
    pub(crate) library: &'a mut L,
    pub(crate) random: Random,
    /// Chooses what the next address is asked of, and nothing else: no other call of a run goes by it.
    pub(crate) address_random: Random,
    pub happenings: Happenings,
    /// Calls made so far.
    pub calls: u64,
}

impl<'a, L: Library> Checker<'a, L> {
    pub fn new(library: &'a mut L, seed: u64) -> Checker<'a, L> {
        let (random, address_random) = (Random::new(seed), Random::new(!seed));
        Checker { library, random, address_random, happenings: Happenings::default(), calls: 0 }
    }

    /// Makes the call on both and lets the state go on by it.
    pub fn make(&mut self, state: &mut State, memory: &mut Memory, call: Call) -> Result<(), Box<Difference>> {
        self.calls += 1;
        let before = *state;
        let mut buffers = Buffers::stale(&call, &mut self.random);
        let lent = call.lent().unwrap_or(0);
        let wanted = before.wanted(&call, buffers.for_model(memory.for_model(lent)));
        let mut left = before.record;
        let found = self.library.call(&mut left, &call, buffers.for_library(memory.for_library(lent)));
        let compared = same("the answer", wanted.answer, found)
            .and_then(|()| before.compare_left(&call, &wanted, &left))
            .and_then(|()| self.compare_irq(&mut left))
            .and_then(|()| self.compare_why(&mut left))
            .and_then(|()| self.compare_beside(&call, &before.record, &buffers))
            .and_then(|()| buffers.compare())
            .and_then(|()| compare_memory(memory, &call, &before.record, &found));
        state.go_on(&call, &wanted, left);
        let step = Step { call: &call, answer: &wanted.answer, before: &before, after: state };
        compared.and_then(|()| agree_with_paper(&step)).map_err(|part| Difference {
            call_number: self.calls,
            call: format!("{call:?}"),
            record: before.record,
            answers: Some((wanted.answer, found)),
            part,
        })?;
        self.happenings.note(&step);
        Ok(())
    }

    /// The line shows the record's bit as it stands, also of an unsound record.
    fn compare_irq(&mut self, record: &mut Record) -> Result<(), Part> {
        let kept = *record;
        let found = self.library.irq(record);
        same("the interrupt line", record::bit(kept[record::STATUS], record::HIRQ) as u32, found)?;
        compare_records(&kept, record)
    }

    /// So do the facts.
    fn compare_why(&mut self, record: &mut Record) -> Result<(), Part> {
        let kept = *record;
        let found = self.library.why(record);
        same("why of the last stored sector", record::why(&kept), found)?;
        compare_records(&kept, record)
    }

    /// At the end of a run.
    pub fn compare_whole(&self, memory: &Memory, state: &State) -> Result<(), Box<Difference>> {
        let compared = differing_byte(memory, memory.whole_difference());
        compared.map_err(|part| {
            let call = "the whole memory after it".to_string();
            Box::new(Difference { call_number: self.calls, call, record: state.record, answers: None, part })
        })
    }
}

/// The bytes that a look gives, and the ring after a call that was lent one.
fn compare_memory(memory: &mut Memory, call: &Call, before: &Record, found: &Answer) -> Result<(), Part> {
    let Some(lent) = call.lent() else {
        return Ok(());
    };
    if let Answer::Part { offset, length } = *found {
        let seen = memory.for_library(lent)[offset..][..length].to_vec();
        same_rows("what is looked at, byte", &memory.for_model(lent)[offset..][..length], &seen)?;
    }
    let blocks = (before[record::BLOCKS] as usize).clamp(3, 255);
    let difference = memory.difference(blocks, before[record::B] as usize);
    differing_byte(memory, difference)
}

fn differing_byte(memory: &Memory, place: Option<usize>) -> Result<(), Part> {
    let Some(place) = place else {
        return Ok(());
    };
    let (name, model, library) = memory.describe(place);
    same(&name, model, library)
}

/// What the papers say, asked apart from the model: a record from an opening is sound and has no more than 65,534
/// bytes left to hand over, the two tests of soundness agree, and a sector is judged as it was damaged.
fn agree_with_paper(step: &Step) -> Result<(), Part> {
    if step.after.reached && step.answer.is_done() {
        same("what is unsound in a record from an opening", Vec::new(), faults(&step.after.record))?;
        let is_long = record::bytes_left(&step.after.record) > 65_534;
        same("a transfer from an opening of more than 65,534 bytes", false, is_long)?;
    }
    if let Some(chip) = &step.after.chip {
        same("soundness of a record that is sound by its words", chip.is_sound(), true)?;
    }
    match (step.call, &step.before.chip) {
        (Call::Sector { sector, .. }, Some(chip)) if step.answer.is_done() && sector.is_known(chip.expected) => {
            let (bits, why) = (sector.damage.bits(), sector.damage.why());
            same("80h by the sector's damage, given as the library's", step.answer.result(), bits)?;
            same("why by the sector's damage, given as the library's", record::why(&step.after.record), why)
        }
        _ => Ok(()),
    }
}
