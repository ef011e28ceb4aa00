//! The paper tally (paper 02, ask 6) beside the linked library, whatever memory is lent: no call that is lent a ring
//! finds what an earlier one wrote, and at times there are too few bytes or too many. The tally is kept from the calls
//! and their answers alone, and TCC and BUFC of the record are held against it after each call.

mod faulty;

use ecma130::SECTOR_BYTES;
use faulty::{Faulty, Made};
use library::record::{self, Record};
use library::{Answer, Call, Chooser, Lent, Library, Linked, StandIn};
use model::{Random, BLOCK_BYTES};
use std::fmt::Debug;
use std::ops::RangeInclusive;
use tally::Tally;

const SEEDS: RangeInclusive<u64> = 1..=16;
const CALLS: u64 = 5_000;

/// The bench's largest ring, which the bench program's tally goes up to.
const BENCH_RING: u16 = 25;
/// The longest memory that is lent: twice the largest ring.
const LONGEST: usize = 2 * 255 * BLOCK_BYTES;
/// So many places at which the lent bytes may begin.
const STARTS: usize = 1 << 20;

const COUNTED_IN: &str = "sector counted in";
const LARGE_RING: &str = "sector counted in, in a ring of more than 25 blocks";
const HELD: &str = "bad sector held";
const TAKEN: &str = "block taken whole";
const WORDS: &str = "word handed over from foreign memory";
const HALF_READ: &str = "SRST within a half-read block";
const SKIPPED: &str = "skip of 1 or more with ACMEN high";
const NOT_SKIPPED: &str = "skip of 1 or more with ACMEN low while blocks wait";
const WITHDRAWN: &str = "9Dh=n withdraws blocks, another number than n";
const RESET: &str = "reset with a number above 0";
const ALL_FOUR: &str = "all four numbers above 0, first time since opening or reset";
const REFUSED_SECTOR: &str = "sector refused only for the length of the memory";
const REFUSED_WORD: &str = "word refused only for the length of the memory";
const REFUSED_BURST: &str = "burst refused only for the length of the memory";

/// All that is counted.
const NAMES: [&str; 14] = [
    COUNTED_IN,
    LARGE_RING,
    HELD,
    TAKEN,
    WORDS,
    HALF_READ,
    SKIPPED,
    NOT_SKIPPED,
    WITHDRAWN,
    RESET,
    ALL_FOUR,
    REFUSED_SECTOR,
    REFUSED_WORD,
    REFUSED_BURST,
];

#[test]
fn the_counts_are_the_tallys_whatever_memory_is_lent() {
    let mut happenings = Happenings::default();
    for seed in SEEDS {
        let mut run = Run::new(Linked, seed, happenings);
        if let Err(trouble) = run.go(CALLS) {
            panic!("seed {seed}, {trouble}");
        }
        happenings = run.happenings;
    }
    println!("{}", happenings.report());
    assert_eq!(happenings.missing(), [""; 0]);
}

/// A library may not go by what lies in the ring, nor take more memory than the ring has. The first does not show where
/// each call is lent the memory that the last one left: every block that is taken then holds a sector.
#[test]
fn a_library_that_minds_the_memory_otherwise_is_noticed() {
    is_noticed("a block that does not begin as a sector is taken and stays in the count", |made| {
        let is_handed = matches!(made.call, Call::Word { .. } | Call::Words { .. });
        let is_taken = is_handed && made.record[record::TCC] < made.before[record::TCC];
        let stays = is_taken && made.lent.ring[made.before[record::T] as usize * BLOCK_BYTES] != 0;
        made.record[record::TCC] += stays as u16;
        stays
    });
    is_noticed("memory that is too long is taken", |made| {
        let fitting = ring_bytes(made.before);
        let is_long = made.call.lent().is_some_and(|lent| lent > fitting);
        if is_long {
            let Lent { ring, sector, words } = made.lent;
            *made.answer = StandIn.call(made.record, made.call, Lent { ring: &mut ring[..fitting], sector, words });
        }
        is_long
    });
}

#[track_caller]
fn is_noticed(slip: &str, spoil: impl FnMut(Made) -> bool) {
    let mut run = Run::new(Faulty::new(1, u64::MAX, spoil), 1, Happenings::default());
    assert!(run.go(CALLS).is_err(), "not noticed: {slip}");
    assert!(run.library.spoiled.is_some(), "noticed without a slip: {slip}");
}

/// A call with its answer, the record before it, and the tally around it.
struct Step {
    call: Call,
    answer: Answer,
    record: Record,
    before: Tally,
    after: Tally,
}

struct Run<L: Library> {
    library: L,
    record: Record,
    tally: Tally,
    chooser: Chooser,
    random: Random,
    memory: Memory,
    happenings: Happenings,
}

impl<L: Library> Run<L> {
    fn new(library: L, seed: u64, happenings: Happenings) -> Run<L> {
        // Another seed, since with the same one its chances would be the chooser's.
        let (chooser, mut random) = (Chooser::new(seed), Random::new(!seed));
        let record = Record::default().map(|_| random.between(0, 65535));
        let memory = Memory::new(&mut random);
        Run { library, record, tally: Tally::default(), chooser, random, memory, happenings }
    }

    fn go(&mut self, calls: u64) -> Result<(), String> {
        for number in 1..=calls {
            let call = if number == 1 { self.opening() } else { self.next_call() };
            self.make(call).map_err(|trouble| format!("call {number}: {call:?}\n{trouble}"))?;
        }
        Ok(())
    }

    fn opening(&mut self) -> Call {
        Call::Open { blocks: self.random.between(3, 255) }
    }

    /// At times with a length that does not fit.
    fn next_call(&mut self) -> Call {
        let (call, fitting) = (self.fitting_call(), ring_bytes(&self.record));
        if call.lent().is_some() && self.random.one_in(20) {
            let wrong = [0, fitting - 1, fitting + 1, fitting - BLOCK_BYTES, 2 * fitting];
            return call.with_lent(self.random.pick(&wrong));
        }
        call
    }

    /// It is chosen by looking at the record, which the tally is not shown. The chooser's bursts leave little room for
    /// single words, and for aborts between the words of a block.
    fn fitting_call(&mut self) -> Call {
        let chip = record::decoded(&self.record);
        let place = chip.transfer.map(|transfer| transfer.place);
        match (place, self.random.below(16)) {
            (Some(1..), 0) => Call::Srst,
            (Some(_), 1..8) => Call::Word { lent: ring_bytes(&self.record) },
            _ => self.chooser.next(&chip),
        }
    }

    fn make(&mut self, call: Call) -> Result<(), String> {
        let (record, before) = (self.record, self.tally);
        let mut sector = if let Call::Sector { sector, .. } = call { sector.make(&mut self.random) } else { vec![] };
        let mut words = vec![0; if let Call::Words { count, .. } = call { count } else { 0 }];
        let ring = self.memory.lend(call.lent().unwrap_or(0), &mut self.random);
        let next_word = next_word(&record, ring);
        let lent = Lent { ring, sector: &mut sector, words: &mut words };
        let answer = self.library.call(&mut self.record, &call, lent);
        self.note(&call, &answer)?;
        self.compare_counts()?;
        let step = Step { call, answer, record, before, after: self.tally };
        if step.is_lent_another_length() {
            self.compare_refused(&step)?;
        }
        if let Some(word) = step.first_word(&words) {
            same("the first word that is handed over", next_word, Some(word))?;
        }
        self.happenings.note(&step);
        Ok(())
    }

    /// A burst is as many words as it handed over, and a look has no number.
    fn note(&mut self, call: &Call, answer: &Answer) -> Result<(), String> {
        let (times, number, result) = match *answer {
            Answer::Reply { number, result } => (1, number, result.into()),
            Answer::Burst { number, handed, .. } => (handed, number, 0),
            Answer::Part { length, .. } => (1, 0, length as u64),
        };
        let named = named(call);
        let noted = (0..times).try_for_each(|_| self.tally.note_call(named, number.into(), result));
        noted.map_err(|impossible| format!("after {}: {impossible}", self.tally))
    }

    /// As they stand in the record, and as they are read, from a copy of it: with a read a transfer may start.
    fn compare_counts(&mut self) -> Result<(), String> {
        let (tcc, bufc) = (self.tally.tcc(), self.tally.bufc());
        for (name, place, reg, count) in [("TCC", record::TCC, 0x9D, tcc), ("BUFC", record::BUFC, 0x9B, bufc)] {
            same(name, count, self.record[place].into())?;
            let nothing = Lent { ring: &mut [], sector: &mut [], words: &mut [] };
            let read = self.library.call(&mut self.record.clone(), &Call::Read { reg }, nothing);
            same(&format!("{name} as it is read"), Answer::Reply { number: 0, result: count as u32 }, read)?;
        }
        Ok(())
    }

    fn compare_refused(&self, step: &Step) -> Result<(), String> {
        same("the answer to another length", step.call.refused(1), step.answer)?;
        same("the record after another length", step.record, self.record)?;
        same("whether memory of another length stays", true, self.memory.is_untouched())
    }
}

impl Step {
    /// A burst of no words asks for none, whatever it is lent.
    fn is_lent_another_length(&self) -> bool {
        let asks_nothing = matches!(self.call, Call::Words { count: 0, .. });
        self.call.lent().is_some_and(|lent| lent != ring_bytes(&self.record)) && !asks_nothing
    }

    /// The first word that was handed over, if there is one.
    fn first_word(&self, words: &[u16]) -> Option<u16> {
        match (self.call, self.answer) {
            (Call::Word { .. }, Answer::Reply { number: 0, result }) => Some(result as u16),
            (_, Answer::Burst { handed: 1.., .. }) => Some(words[0]),
            _ => None,
        }
    }

    fn words_handed(&self) -> u64 {
        match (self.call, self.answer) {
            (Call::Word { .. }, Answer::Reply { number: 0, .. }) => 1,
            (_, Answer::Burst { handed, .. }) => handed as u64,
            _ => 0,
        }
    }
}

/// The call as the bench has it: the tally knows calls by these names.
fn named(call: &Call) -> model::Call {
    match *call {
        Call::Open { blocks } => model::Call::Open { ring: blocks },
        Call::Write { reg, value } => model::Call::Write { reg, value },
        Call::Read { reg } => model::Call::Read { reg },
        Call::SetBlock { block } => model::Call::Block { number: block },
        Call::SetWindow { offset, words } => model::Call::Window { offset, words },
        Call::SetExpected { address } => model::Call::Address { address },
        Call::PacketByte { index } => model::Call::Packet { index },
        Call::Reset => model::Call::Reset,
        // Whether it is good is told by the answer alone.
        Call::Sector { sector, .. } => model::Call::Sector { address: sector.address, fill: 0 },
        Call::Look { .. } => model::Call::Look,
        Call::Word { .. } | Call::Words { .. } => model::Call::Word,
        Call::Command { code } => model::Call::Command { code },
        Call::PacketWord { word } => model::Call::Send { word },
        Call::Status => model::Call::Status,
        Call::Srst => model::Call::Srst,
    }
}

fn ring_bytes(record: &Record) -> usize {
    record[record::BLOCKS] as usize * BLOCK_BYTES
}

/// What a running transfer hands over next of this memory.
fn next_word(record: &Record, ring: &[u8]) -> Option<u16> {
    let number = |place: usize| record[place] as usize;
    let start = number(record::T) * BLOCK_BYTES + number(record::OFFSET) + 2 * number(record::PLACE);
    ring.get(start..start + 2).map(|bytes| u16::from_le_bytes([bytes[0], bytes[1]]))
}

fn same<V: PartialEq + Debug>(what: &str, wanted: V, found: V) -> Result<(), String> {
    if wanted == found {
        return Ok(());
    }
    Err(format!("{what}: wanted {wanted:?}, found {found:?}"))
}

/// Random bytes, and the part of them that a call is lent: a copy from anywhere, so that no call finds what another
/// one wrote.
struct Memory {
    bytes: Vec<u8>,
    start: usize,
    lent: Vec<u8>,
}

impl Memory {
    fn new(random: &mut Random) -> Memory {
        Memory { bytes: random.bytes(STARTS + LONGEST), start: 0, lent: vec![] }
    }

    fn lend(&mut self, length: usize, random: &mut Random) -> &mut [u8] {
        self.start = random.below(STARTS as u64) as usize;
        self.lent.clear();
        self.lent.extend_from_slice(&self.bytes[self.start..][..length]);
        &mut self.lent
    }

    /// Whether the last call has left them as they were lent.
    fn is_untouched(&self) -> bool {
        self.lent == self.bytes[self.start..][..self.lent.len()]
    }
}

/// What the calls made happen, so that a tally of calls that never got as far as a transfer is not taken for a
/// thorough one.
#[derive(Default)]
struct Happenings {
    counts: [u64; NAMES.len()],
}

impl Happenings {
    fn missing(&self) -> Vec<&'static str> {
        NAMES.into_iter().zip(self.counts).filter(|&(_, count)| count == 0).map(|(what, _)| what).collect()
    }

    fn report(&self) -> String {
        NAMES.iter().zip(self.counts).map(|(what, count)| format!("{count:>9}  {what}\n")).collect()
    }

    fn add(&mut self, what: &str, count: u64) {
        let place = NAMES.iter().position(|&name| name == what).expect("a name of the list");
        self.counts[place] += count;
    }

    fn add_if(&mut self, what: &str, happened: bool) {
        self.add(what, happened.into());
    }

    fn note(&mut self, step: &Step) {
        let (before, after) = (&step.before, &step.after);
        let counted_in = after.counted_in() > before.counted_in();
        self.add_if(COUNTED_IN, counted_in);
        self.add_if(LARGE_RING, counted_in && step.record[record::BLOCKS] > BENCH_RING);
        self.add_if(HELD, after.is_held() && !before.is_held());
        // An opening and a reset begin at 0.
        self.add(TAKEN, after.taken().saturating_sub(before.taken()));
        self.add(WORDS, step.words_handed());
        self.add_if(ALL_FOUR, all_above_0(after) && !all_above_0(before));
        let is_begun = before.numbers().iter().any(|&number| number > 0);
        self.add_if(RESET, step.call == Call::Reset && step.answer.is_done() && is_begun);
        let is_half_read = before.words_read() > 0;
        self.add_if(HALF_READ, step.call == Call::Srst && step.answer.is_done() && is_half_read);
        self.note_write(step);
        self.note_refused(step);
    }

    fn note_write(&mut self, step: &Step) {
        let Call::Write { reg, value } = step.call else {
            return;
        };
        let skipped = step.after.skipped() > step.before.skipped();
        let withdrawn = step.after.withdrawn() - step.before.withdrawn();
        let is_skip = reg == 0x9E && value > 0 && step.answer.is_done();
        self.add_if(SKIPPED, is_skip && skipped);
        self.add_if(NOT_SKIPPED, is_skip && !skipped && step.before.tcc() > 0);
        self.add_if(WITHDRAWN, withdrawn > 0 && withdrawn != value.into());
    }

    /// Where with memory of the right length something would have been counted.
    fn note_refused(&mut self, step: &Step) {
        if !step.is_lent_another_length() {
            return;
        }
        let chip = record::decoded(&step.record);
        let is_awaited = chip.decen && !chip.held && !chip.is_at_stop();
        let is_running = chip.transfer.is_some();
        let is_whole = matches!(step.call, Call::Sector { sector, .. } if sector.length == SECTOR_BYTES);
        self.add_if(REFUSED_SECTOR, is_whole && is_awaited);
        self.add_if(REFUSED_WORD, matches!(step.call, Call::Word { .. }) && is_running);
        self.add_if(REFUSED_BURST, matches!(step.call, Call::Words { .. }) && is_running);
    }
}

fn all_above_0(tally: &Tally) -> bool {
    tally.numbers().iter().all(|&number| number > 0)
}
