//! The chip's calls in the library beside the model's, on the same sector and
//! the same ring. Each time starts from the same record, which is copied first:
//! the library's is 56 bytes, the model's some hundreds.

use crate::timing::{repeat_row, row, tasks_of, time_all, Row, Timing};
use cdrom::registers::{ACCTL, ACMEN, ADCEN, ADTT, ASCTRL, ASTRG, BICCTL, BLIMEN, CTRL0, DECEN, TCINCEN};
use cdrom::{Record, SECTOR_BYTES, USER_BYTES, USER_OFFSET};
use model::BLOCK_BYTES;
use std::cell::RefCell;
use std::hint::black_box;

const CALLS: u32 = 20;
const BLOCKS: u16 = 25;
const WORDS: usize = USER_BYTES / 2;

const SECTOR: &str = "a good sector";
const ALONE: &str = "memcpy, open and judge alone";
const START: &str = "a start by the firmware";
const WORD: &str = "a host word, of 1,024";
const BURST: &str = "a burst of 1,024 words";

const LIBRARY: &str = "library";
const MODEL: &str = "model";

/// BLIMEN; ACMEN and TCINCEN; ADCEN; then DECEN.
const SWITCHES: [(u16, u16); 4] = [(BICCTL, BLIMEN), (ACCTL, ACMEN | TCINCEN), (ASCTRL, ADCEN), (CTRL0, DECEN)];
/// Any command sets BSY.
const COMMAND: u16 = 0x28;

/// Both chips before a sector, after the host's command, and with a transfer of one block started, and what they are lent.
struct Chips {
    sealed: [u8; SECTOR_BYTES],
    decoding: (Record, model::Chip),
    commanded: (Record, model::Chip),
    started: (Record, model::Chip),
    ring: RefCell<Vec<u8>>,
    words: RefCell<[u16; WORDS]>,
}

/// The last column is the model's best time over the library's: above 1 the library is the faster.
pub fn print() {
    let chips = Chips::new();
    let mut rows = rows(&chips);
    let timings = time_all(&mut rows, CALLS);
    println!("\n{:<36}{:<12}{:>8}{:>8}{:>12}", "ns", "", "best", "median", "to library");
    for (row, timing) in rows.iter().zip(&timings) {
        let library = rows.iter().position(|other| other.task == row.task && other.code == LIBRARY);
        let ratio = library.map_or(f64::NAN, |place| timing.best / timings[place].best);
        let Timing { best, median } = if row.task == WORD { timing.over(WORDS) } else { *timing };
        println!("{:<36}{:<12}{best:>8.1}{median:>8.1}{ratio:>12.2}", row.task, row.code);
    }
}

/// Makes so many calls of the library at a task, and nothing else; whether there is such a task. Of host words a call
/// is all of a block.
pub fn repeat(task: &str, calls: u32) -> bool {
    repeat_row(&mut rows(&Chips::new()), task, LIBRARY, calls)
}

/// The tasks that the library has a row for.
pub fn tasks() -> Vec<&'static str> {
    tasks_of(&rows(&Chips::new()), LIBRARY)
}

fn rows(chips: &Chips) -> Vec<Row<'_>> {
    vec![
        row(SECTOR, LIBRARY, || chips.library_sector()),
        row(SECTOR, MODEL, || chips.model_sector()),
        row(ALONE, LIBRARY, || chips.open_and_judge()),
        row(START, LIBRARY, || chips.library_start()),
        row(START, MODEL, || chips.model_start()),
        row(WORD, LIBRARY, || chips.library_words()),
        row(WORD, MODEL, || chips.model_words()),
        row(BURST, LIBRARY, || chips.library_burst()),
        row(BURST, MODEL, || chips.model_burst()),
    ]
}

impl Chips {
    fn new() -> Chips {
        let mut sealed = [0x41; SECTOR_BYTES];
        cdrom::seal(&mut sealed, cdrom::Address { minute: 0, second: 2, frame: 0 }).unwrap();
        let mut ring = vec![0; BLOCKS as usize * BLOCK_BYTES];
        let library = library_chips(&mut ring, &sealed);
        let model = model_chips(&mut ring, &sealed);
        Chips {
            sealed,
            decoding: (library[0], model[0]),
            commanded: (library[1], model[1]),
            started: (library[2], model[2]),
            ring: RefCell::new(ring),
            words: RefCell::new([0; WORDS]),
        }
    }

    fn library_sector(&self) {
        let mut ring = self.ring.borrow_mut();
        let mut chip = cdrom::Chip::from_record(black_box(self.decoding.0), &mut ring);
        assert!(chip.sector(black_box(&self.sealed)).unwrap().is_good());
        black_box(chip.record());
    }

    fn model_sector(&self) {
        let mut chip = black_box(self.decoding.1);
        assert_eq!(chip.sector(&mut self.ring.borrow_mut(), black_box(&self.sealed)), Ok(0));
        black_box(chip);
    }

    fn open_and_judge(&self) {
        let mut sector = black_box(self.sealed);
        cdrom::open(&mut sector).unwrap();
        let address = cdrom::Address { minute: 0, second: 2, frame: 0 };
        assert!(cdrom::judge(black_box(&sector), address).unwrap().is_good());
    }

    fn library_start(&self) {
        let mut ring = self.ring.borrow_mut();
        let mut chip = cdrom::Chip::from_record(black_box(self.commanded.0), &mut ring);
        chip.write(ASTRG, ADTT).unwrap();
        black_box(chip.record());
    }

    fn model_start(&self) {
        let mut chip = black_box(self.commanded.1);
        assert_eq!(chip.write(ASTRG, ADTT), Ok(0));
        black_box(chip);
    }

    fn library_words(&self) {
        let mut ring = self.ring.borrow_mut();
        let mut chip = cdrom::Chip::from_record(black_box(self.started.0), &mut ring);
        for _ in 0..WORDS {
            black_box(chip.word().unwrap());
        }
        black_box(chip.record());
    }

    fn model_words(&self) {
        let ring = self.ring.borrow();
        let mut chip = black_box(self.started.1);
        for _ in 0..WORDS {
            black_box(chip.host_word(&ring).unwrap());
        }
        black_box(chip);
    }

    fn library_burst(&self) {
        let mut ring = self.ring.borrow_mut();
        let mut chip = cdrom::Chip::from_record(black_box(self.started.0), &mut ring);
        assert_eq!(chip.words(black_box(&mut *self.words.borrow_mut())), Ok(WORDS));
        black_box(chip.record());
    }

    /// The model has no burst: it is single words into the same room.
    fn model_burst(&self) {
        let (ring, mut words) = (self.ring.borrow(), self.words.borrow_mut());
        let mut chip = black_box(self.started.1);
        for word in words.iter_mut() {
            *word = chip.host_word(&ring).unwrap();
        }
        black_box((chip, &mut *words));
    }
}

fn library_chips(ring: &mut [u8], sealed: &[u8]) -> [Record; 3] {
    let mut chip = cdrom::Chip::open(BLOCKS, ring).unwrap();
    chip.set_window(USER_OFFSET as u16, WORDS as u16).unwrap();
    SWITCHES.iter().for_each(|&(register, value)| chip.write(register, value).unwrap());
    let decoding = chip.record();
    chip.sector(sealed).unwrap();
    chip.command(COMMAND).unwrap();
    let commanded = chip.record();
    chip.write(ASTRG, ADTT).unwrap();
    [decoding, commanded, chip.record()]
}

fn model_chips(ring: &mut [u8], sealed: &[u8]) -> [model::Chip; 3] {
    let mut chip = model::Chip::open(BLOCKS).unwrap();
    chip.set_window(USER_OFFSET as u16, WORDS as u16).unwrap();
    SWITCHES.iter().for_each(|&(register, value)| assert_eq!(chip.write(register, value), Ok(0)));
    let decoding = chip;
    chip.sector(ring, sealed).unwrap();
    chip.host_command(COMMAND).unwrap();
    let commanded = chip;
    chip.write(ASTRG, ADTT).unwrap();
    [decoding, commanded, chip]
}
