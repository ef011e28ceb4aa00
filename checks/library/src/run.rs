//! A run: a line of calls from an opening, and between them calls on
//! records that were changed or made up.

use crate::call::Call;
use crate::checker::Checker;
use crate::difference::Difference;
use crate::happenings::{
    loaded_name, neighbour_name, spoiling_name, Happenings, ALL_BUT_ONE_IN_RANGE, ANY_WORDS, FLIPPED_SOUND,
    FLIPPED_UNSOUND, IN_RANGE, REFUSED_OPENING,
};
use crate::library::Library;
use crate::limits::{Change, NEIGHBOURS, SPOILINGS};
use crate::loading::{all_but_one_in_range, any_words, flipped, in_range, with_any_facts};
use crate::memory::Memory;
use crate::record::{Record, BLOCKS};
use crate::soundness::is_sound;
use crate::state::State;
use crate::steering::{ring_bytes, Chooser};
use model::{Chip, Random, BLOCK_BYTES};

/// Calls of the line between two records that are loaded, on average; transfers and receptions are
/// short, and much is asked of their numbers.
const BETWEEN_LOADS: u64 = 40;
const BETWEEN_LOADS_IF_ENGAGED: u64 = 8;
/// Calls that follow one another on a record that was loaded.
const WALK: usize = 8;
/// Numbers of blocks that cannot be opened.
const NO_RINGS: [u16; 6] = [0, 1, 2, 256, 259, 65535];

/// So many calls, all of them named by the seed. What happened, or where the two parted.
pub fn run<L: Library>(library: &mut L, seed: u64, calls: u64) -> Result<Happenings, Box<Difference>> {
    Run::new(library, seed, calls).run()
}

struct Run<'a, L: Library> {
    checker: Checker<'a, L>,
    /// Decides what is loaded.
    random: Random,
    line: Chooser,
    walker: Chooser,
    memory: Memory,
    /// For loaded records, so that the line's ring is as the line has left it.
    other_memory: Memory,
    state: State,
    limit: u64,
    /// The rarest change that can be made comes next.
    spoilings: Vec<Tally>,
    neighbours: Vec<Tally>,
}

/// How often a change was made, and how often it could be.
struct Tally {
    made: u64,
    possible: u64,
}

impl<'a, L: Library> Run<'a, L> {
    fn new(library: &'a mut L, seed: u64, limit: u64) -> Run<'a, L> {
        let mut random = Random::new(seed);
        let mut further_seed = || random.below(1 << 40);
        let checker = Checker::new(library, further_seed());
        let (line, walker) = (Chooser::new(further_seed()), Chooser::new(further_seed()));
        let (memory, other_memory) = (Memory::stale(&mut random), Memory::stale(&mut random));
        let state = State::loaded(any_words(&mut random));
        // Runs are not to begin with the same changes.
        let mut tallies = |changes: &[Change]| {
            let firsts = changes.iter().map(|_| random.below(50));
            firsts.map(|possible| Tally { made: 0, possible }).collect()
        };
        let (spoilings, neighbours) = (tallies(&SPOILINGS), tallies(&NEIGHBOURS));
        Run { checker, random, line, walker, memory, other_memory, state, limit, spoilings, neighbours }
    }

    fn run(mut self) -> Result<Happenings, Box<Difference>> {
        if self.limit > 0 {
            let opening = self.line.opening();
            self.checker.make(&mut self.state, &mut self.memory, opening)?;
        }
        while self.goes_on() {
            let chip = self.line_chip();
            let call = self.line.next(&chip);
            self.checker.make(&mut self.state, &mut self.memory, call)?;
            if self.is_time_to_load() {
                self.load()?;
            }
        }
        self.checker.compare_whole(&self.memory, &self.state)?;
        self.checker.compare_whole(&self.other_memory, &self.state)?;
        Ok(self.checker.happenings)
    }

    fn goes_on(&self) -> bool {
        self.checker.calls < self.limit
    }

    fn is_time_to_load(&mut self) -> bool {
        let chip = self.line_chip();
        let engaged = chip.transfer.is_some() || chip.reception.is_some();
        self.random.one_in(if engaged { BETWEEN_LOADS_IF_ENGAGED } else { BETWEEN_LOADS })
    }

    fn line_chip(&self) -> Chip {
        self.state.chip.expect("the line is sound after each call")
    }

    fn load(&mut self) -> Result<(), Box<Difference>> {
        let record = self.state.record;
        let (kind, words) = match self.random.below(14) {
            0..=4 => return self.spoil(),
            5..=8 => return self.go_to_a_limit(),
            9 => return self.open(),
            10 => (ANY_WORDS, any_words(&mut self.random)),
            11 => (IN_RANGE, in_range(&mut self.random)),
            12 => (ALL_BUT_ONE_IN_RANGE, all_but_one_in_range(&mut self.random)),
            _ => {
                let words = flipped(&record, &mut self.random);
                (if is_sound(&words) { FLIPPED_SOUND } else { FLIPPED_UNSOUND }, words)
            }
        };
        self.probe(&loaded_name(kind), words)
    }

    fn spoil(&mut self) -> Result<(), Box<Difference>> {
        let record = self.state.record;
        let Some((change, spoiled)) = rarest_change(&SPOILINGS, &mut self.spoilings, &record) else {
            return Ok(());
        };
        assert!(!is_sound(&spoiled), "{} leaves the record sound: {spoiled:?}", change.name);
        self.probe(&spoiling_name(change.name), spoiled)
    }

    fn go_to_a_limit(&mut self) -> Result<(), Box<Difference>> {
        let record = self.state.record;
        let Some((change, neighbour)) = rarest_change(&NEIGHBOURS, &mut self.neighbours, &record) else {
            return Ok(());
        };
        assert!(is_sound(&neighbour), "{} leaves the record unsound: {neighbour:?}", change.name);
        self.probe(&neighbour_name(change.name), neighbour)
    }

    /// Openings over words of any values. On what a refused one leaves every call is refused.
    fn open(&mut self) -> Result<(), Box<Difference>> {
        let mut state = State::loaded(any_words(&mut self.random));
        let opening = self.walker.opening();
        self.make_aside(&mut state, opening)?;
        let mut state = State::loaded(any_words(&mut self.random));
        let blocks = self.random.pick(&NO_RINGS);
        self.make_aside(&mut state, Call::Open { blocks })?;
        self.probe(&loaded_name(REFUSED_OPENING), state.record)
    }

    /// Every kind of call on the record, each time as it was; then a walk, if it is sound.
    fn probe(&mut self, name: &str, record: Record) -> Result<(), Box<Difference>> {
        let record = if self.random.one_in(2) { with_any_facts(record, &mut self.random) } else { record };
        let start = State::loaded(record);
        let chip = start.chip.unwrap_or(self.line_chip());
        for call in self.walker.every_call(&chip) {
            let fitting = if start.chip.is_some() { call } else { call.with_lent(lent_to(&record, &chip)) };
            self.make_aside(&mut start.clone(), fitting)?;
        }
        // A run that ends here may have left some of them out.
        self.checker.happenings.count_if(self.goes_on(), name);
        self.walk(start)
    }

    fn walk(&mut self, mut state: State) -> Result<(), Box<Difference>> {
        for _ in 0..WALK {
            let Some(chip) = state.chip else {
                break;
            };
            let call = self.walker.next(&chip);
            self.make_aside(&mut state, call)?;
        }
        Ok(())
    }

    /// A call beside the line, unless all calls of the run are made.
    fn make_aside(&mut self, state: &mut State, call: Call) -> Result<(), Box<Difference>> {
        if !self.goes_on() {
            return Ok(());
        }
        self.checker.make(state, &mut self.other_memory, call)
    }
}

/// Of the changes that can be made on the record the one that was made least often so far; of several the one that
/// could be made least often, such as those that need a transfer.
fn rarest_change<'c>(changes: &'c [Change], tallies: &mut [Tally], record: &Record) -> Option<(&'c Change, Record)> {
    let possible = changes.iter().zip(tallies).filter_map(|(change, tally)| {
        let changed = change.applied(record)?;
        tally.possible += 1;
        Some((change, tally, changed))
    });
    let (change, tally, changed) = possible.min_by_key(|(_, tally, _)| (tally.made, tally.possible))?;
    tally.made += 1;
    Some((change, changed))
}

/// The bytes of the record's own N, where there is so much memory; so N itself is no reason to refuse.
fn lent_to(record: &Record, chip: &Chip) -> usize {
    let own = record[BLOCKS] as usize * BLOCK_BYTES;
    if own <= Memory::longest() {
        own
    } else {
        ring_bytes(chip)
    }
}
