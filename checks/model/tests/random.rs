//! Random calls on chips, with what must hold after each of them.

use ecma130::{edc_bitwise, scramble, Kind, SECTOR_BYTES};
use model::{run_on, Answer, Book, Call, Chip, Disc, Random, Refusal, Writer, BLOCK_BYTES};
use std::collections::BTreeMap;

struct Machine {
    chip: Chip,
    ring: Vec<u8>,
    book: Book,
}

impl Machine {
    fn open(blocks: u16) -> Machine {
        let chip = Chip::open(blocks).unwrap();
        Machine { chip, ring: vec![0; blocks as usize * BLOCK_BYTES], book: Book::new() }
    }

    /// Runs a call and checks it by the book. The sector is given apart, as
    /// it may be damaged.
    fn run(&mut self, call: Call, sector: &[u8]) -> Answer {
        let before = self.chip;
        let answer = match call {
            Call::Sector { .. } => self.chip.sector(&mut self.ring, sector),
            other => run_on(&mut self.chip, &mut self.ring, other),
        };
        match (call, answer) {
            (_, Err(_)) => assert_eq!(self.chip, before, "a refusal changed the chip: {call:?}"),
            (Call::Sector { .. }, Ok(_)) => self.book.accepted_sector(sector),
            (Call::Word, Ok(word)) => assert_eq!(word, self.book.accepted_word()),
            (Call::Look, Ok(_)) => assert_eq!(self.chip, before, "a look changed the chip"),
            (other, Ok(_)) => self.book.accepted(other),
        }
        assert_invariants(&self.chip);
        self.assert_ring_is_the_row();
        answer
    }

    fn assert_ring_is_the_row(&self) {
        assert_eq!(self.book.row.len(), self.chip.tcc);
        assert_eq!(self.book.expected, self.chip.expected);
        assert_eq!(self.book.facts, self.chip.facts);
        for (place, sector) in self.book.row.iter().enumerate() {
            let block = (self.chip.t + place) % self.chip.blocks;
            assert!(self.ring[block * BLOCK_BYTES..][..SECTOR_BYTES] == sector[..]);
        }
        for block in self.ring.chunks_exact(BLOCK_BYTES) {
            assert!(block[SECTOR_BYTES..].iter().all(|&byte| byte == 0));
        }
    }
}

fn assert_invariants(chip: &Chip) {
    assert!(chip.is_sound());
    assert_eq!(chip.b, (chip.t + chip.bufc) % chip.blocks);
    assert_eq!(chip.bufc, chip.tcc + chip.held as usize);
    assert!(!chip.held || chip.decen);
    assert!(!chip.decen || chip.blimen && chip.tcincen);
    assert!(chip.acmen || chip.ttc == 0);
    assert!(!chip.start_is_due());
    if chip.reception.is_some() {
        assert!(!chip.bsy && chip.transfer.is_none());
    }
    if let Some(transfer) = chip.transfer {
        assert!(chip.acmen && chip.adcen && chip.window.words > 0 && chip.drq && !chip.bsy);
        assert!((1..=chip.tcc.min(32)).contains(&transfer.blocks_left));
        assert!(chip.ttc == 0 || transfer.blocks_left <= chip.ttc);
        assert!(transfer.blocks_left * chip.window.words * 2 <= 65_534);
    }
}

/// The disc, and a sector now and then that no line makes.
struct Reader {
    random: Random,
    disc: Disc,
}

impl Reader {
    fn new(seed: u64) -> Reader {
        Reader { random: Random::new(seed), disc: Disc::NEW }
    }

    /// The call to a chip and the sector that it is lent. Nothing where the line is not one to a chip, or is refused before.
    fn call(&mut self, call: Call) -> Option<(Call, Vec<u8>)> {
        // A refused line changes nothing of the disc.
        let _ = match call {
            Call::Scratch { from, count } => self.disc.set_scratch(from, count),
            Call::Kind { number } => self.disc.set_kind(number),
            Call::Subheader { file, channel, submode, coding } => {
                self.disc.set_subheader([file, channel, submode, coding])
            }
            Call::Sector { address, fill } => {
                let sector = self.disc.sealed(address, fill).ok()?;
                return Some((call, self.arriving(sector)));
            }
            _ => return Some((call, Vec::new())),
        };
        None
    }

    fn arriving(&mut self, sector: Vec<u8>) -> Vec<u8> {
        match self.random.below(10) {
            0 => self.damaged(sector),
            1 => self.crafted(sector),
            _ => self.disc.scratch.over(sector),
        }
    }

    /// In a bit that counts in one kind or another.
    fn damaged(&mut self, mut sector: Vec<u8>) -> Vec<u8> {
        let place =
            self.random.pick(&[0, 11, 12, 14, 15, 16, 18, 22, 23, 24, 2063, 2064, 2067, 2071, 2075, 2347, 2351]);
        sector[place] ^= 1 << self.random.below(8);
        sector
    }

    /// Any of sync, mode and address spoiled under a code that fits, and the code itself: all sixteen can come
    /// in every kind. Of mode 2 the mode is spoiled by another second copy.
    fn crafted(&mut self, mut sector: Vec<u8>) -> Vec<u8> {
        scramble(&mut sector[12..]);
        let (kind, spoiled) = (self.disc.kind, self.random.below(16));
        let mode_place = if kind.has_subheader() { 22 } else { 15 };
        sector[5] ^= (spoiled & 1) as u8;
        sector[mode_place] ^= (spoiled & 2) as u8;
        sector[13] ^= (spoiled >> 2 & 1) as u8;
        let code = edc_bitwise(&sector[kind.covered()]) ^ (spoiled >> 3 & 1) as u32;
        sector[kind.code()].copy_from_slice(&code.to_le_bytes());
        scramble(&mut sector[12..]);
        sector
    }

    fn has_arrived(&mut self, call: Call, answer: Answer) {
        if matches!(call, Call::Sector { .. }) && answer.is_ok() {
            self.disc.has_arrived();
        }
    }
}

#[test]
fn invariants_and_the_book_hold_after_every_call() {
    let (mut reader, mut writer) = (Reader::new(1), Writer::new(2));
    let mut machine = Machine::open(3);
    let mut stored = BTreeMap::new();
    for _ in 0..200_000 {
        let call = writer.next_call(Some(&machine.chip), &reader.disc);
        if let Call::Open { ring } = call {
            if let Ok(chip) = Chip::open(ring) {
                machine = Machine::open(chip.blocks as u16);
                reader.disc = Disc::NEW;
            }
            continue;
        }
        let Some((call, sector)) = reader.call(call) else {
            continue;
        };
        let answer = machine.run(call, &sector);
        reader.has_arrived(call, answer);
        if matches!(call, Call::Sector { .. }) && answer.is_ok() {
            *stored.entry((reader.disc.kind, machine.chip.facts.why())).or_insert(0) += 1;
        }
    }
    for kind in Kind::ALL {
        let enough = (0..16).all(|why| stored.get(&(kind, why)).is_some_and(|&count| count > 5));
        assert!(enough, "by kind and why: {stored:?}");
    }
}

/// True where demand 3 stops comparing: the smaller ring lacks room, or
/// finds a number out of its range.
fn comparing_ends(call: Call, answer: Answer, smaller: &Chip) -> bool {
    match (call, answer) {
        (Call::Sector { .. }, Err(Refusal::AtStop)) => !smaller.blims,
        (Call::Block { .. }, Err(Refusal::OutOfRange)) => true,
        (Call::Write { reg: 0x9B, .. }, Err(Refusal::OutOfRange)) => true,
        _ => false,
    }
}

#[test]
fn two_rings_give_the_same_answers() {
    let (mut random, mut reader, mut writer) = (Random::new(3), Reader::new(5), Writer::new(4));
    let (mut compared, mut words, mut bad) = (0, 0, 0);
    for _ in 0..2_000 {
        let small = random.between(3, 24);
        let mut smaller = Machine::open(small);
        let mut larger = Machine::open(random.between(small, 25));
        for _ in 0..400 {
            let next = writer.next_call(Some(&smaller.chip), &reader.disc);
            let Some((call, sector)) = reader.call(next) else {
                continue;
            };
            if matches!(call, Call::Open { .. }) {
                continue;
            }
            let answer = smaller.run(call, &sector);
            if comparing_ends(call, answer, &smaller.chip) {
                break;
            }
            let other = larger.run(call, &sector);
            reader.has_arrived(call, answer);
            let block_number = matches!(call, Call::Read { reg: 0x24 | 0x3A });
            assert!(block_number || answer == other, "{call:?}: {answer:?} and {other:?}");
            assert!(smaller.chip.look(&smaller.ring) == larger.chip.look(&larger.ring));
            assert_eq!(smaller.chip.facts, larger.chip.facts, "{call:?}");
            compared += 1;
            bad += !smaller.chip.facts.is_good() as u32;
            words += (matches!(call, Call::Word) && answer.is_ok()) as u32;
        }
    }
    assert!(compared > 50_000 && words > 5_000 && bad > 5_000, "{compared} calls, {words} words, {bad} of bad facts");
}

#[test]
fn wrong_lengths_and_unsound_records_are_1() {
    let mut chip = Chip::open(3).unwrap();
    let mut ring = vec![0; 3 * BLOCK_BYTES];
    assert_eq!(chip.sector(&mut ring, &[0; SECTOR_BYTES - 1]), Err(Refusal::Unsound));
    assert_eq!(chip.sector(&mut ring[1..], &[0; SECTOR_BYTES]), Err(Refusal::Unsound));
    assert_eq!(chip.host_word(&ring[1..]), Err(Refusal::Unsound));
    chip.tcc = 3;
    assert_eq!(chip.read(0xFF), Err(Refusal::Unsound));
    assert_eq!(chip.reset(), Err(Refusal::Unsound));
    assert!(chip.look(&ring).is_empty());
}
