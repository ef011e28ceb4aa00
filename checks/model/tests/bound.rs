//! Ask 3 of paper 02: a start has no more blocks than 65,534 bytes allow. Runs of calls from an opening.

use model::{sealed, Answer, Chip, Refusal, Transfer, Window, BLOCK_BYTES};

const RING: u16 = 64;
const BLOCKS_OF_A_START: u16 = 32;
const MOST_BYTES: usize = 65_534;
const MOST_WORDS: u16 = 1_176;

const STARTED: Answer = Ok(0);
const TOO_FEW: Answer = Err(Refusal::TooFew);

/// What a start goes by, beside the good blocks.
#[derive(Clone, Copy, Debug)]
struct Asked {
    words: u16,
    atlim: u16,
    ttc: u16,
    mbc: u16,
}

/// By MBC alone, as far as it goes.
fn by_mbc(words: u16) -> Asked {
    Asked { words, atlim: 0, ttc: 0, mbc: 31 }
}

/// By TTC, with MBC to be written over.
fn by_ttc(words: u16, atlim: u16, ttc: u16) -> Asked {
    Asked { words, atlim, ttc, mbc: 0 }
}

/// ACMEN and TCINCEN, ADCEN and STWCEN, and the decoder on.
fn decoding() -> Chip {
    let mut chip = Chip::open(RING).unwrap();
    for (reg, value) in [(0x9A, 0x20), (0x9C, 0x60), (0x18, 0x48), (0x0A, 0x80)] {
        assert_eq!(chip.write(reg, value), Ok(0));
    }
    chip
}

/// So many good sectors in the ring, each of other bytes, and a host that waits.
fn filled(good: u16) -> (Chip, Vec<u8>) {
    let (mut chip, mut ring) = (decoding(), vec![0; RING as usize * BLOCK_BYTES]);
    for fill in 0..good {
        let sector = sealed(chip.expected, fill).unwrap();
        assert_eq!(chip.sector(&mut ring, &sector), Ok(0));
    }
    assert_eq!(chip.host_command(0x28), Ok(0));
    assert_eq!(chip.read(0x9D), Ok(good));
    (chip, ring)
}

fn ask(chip: &mut Chip, asked: Asked) {
    assert_eq!(chip.set_window(0, asked.words), Ok(0));
    for (reg, value) in [(0x9C, 0x60 | asked.atlim), (0x12, asked.mbc), (0x9F, asked.ttc)] {
        assert_eq!(chip.write(reg, value), Ok(0));
    }
}

fn start(chip: &mut Chip, asked: Asked) -> Answer {
    ask(chip, asked);
    chip.write(0x17, 0x04)
}

/// The blocks of the start by MBC, and the byte count as 35h and 34h have it.
fn read_back(chip: &mut Chip) -> (u16, u16, u16) {
    let mut register = |reg| chip.read(reg).unwrap();
    (register(0x12) + 1, register(0x35), register(0x34))
}

fn blocks_left(chip: &Chip) -> usize {
    chip.transfer.expect("a transfer runs").blocks_left
}

#[track_caller]
fn is_started(mut chip: Chip, asked: Asked, left: (u16, u16, u16)) {
    assert_eq!(start(&mut chip, asked), STARTED, "{asked:?}");
    assert_eq!(blocks_left(&chip), left.0 as usize, "{asked:?}");
    assert_eq!(read_back(&mut chip), left, "{asked:?}");
}

/// The last window that lets 32 blocks pass and the first that does not, the largest, and the one whose
/// bytes come to the bound itself.
#[test]
fn mbc_is_lowered_to_the_bound() {
    let (chip, _) = filled(40);
    is_started(chip, by_mbc(1_024), (31, 0xF8, 0x00));
    is_started(chip, by_mbc(1_176), (27, 0xF8, 0x10));
    is_started(chip, by_mbc(1_023), (32, 0xFF, 0xC0));
    is_started(chip, by_mbc(1_057), (31, 0xFF, 0xFE));
    is_started(chip, by_mbc(1_058), (30, 0xF7, 0xF8));
    is_started(chip, by_mbc(1), (32, 0x00, 0x40));
}

#[test]
fn mbc_stays_where_it_is_not_above_the_bound() {
    let (chip, _) = filled(40);
    is_started(chip, Asked { mbc: 26, ..by_mbc(1_176) }, (27, 0xF8, 0x10));
    is_started(chip, Asked { mbc: 25, ..by_mbc(1_176) }, (26, 0xEE, 0xE0));
    is_started(chip, Asked { mbc: 27, ..by_mbc(1_176) }, (27, 0xF8, 0x10));
    is_started(chip, Asked { mbc: 0, ..by_mbc(1_176) }, (1, 0x09, 0x30));
}

/// Each of the four is the least one once.
#[test]
fn with_ttc_set_the_least_of_four_counts() {
    let (chip, _) = filled(40);
    is_started(chip, by_ttc(1, 0, 40), (32, 0x00, 0x40));
    is_started(chip, by_ttc(1_024, 0, 40), (31, 0xF8, 0x00));
    is_started(chip, by_ttc(1_176, 0, 40), (27, 0xF8, 0x10));
    is_started(chip, by_ttc(1_176, 31, 255), (27, 0xF8, 0x10));
    is_started(chip, by_ttc(1_176, 26, 40), (26, 0xEE, 0xE0));
    is_started(chip, by_ttc(1_176, 0, 26), (26, 0xEE, 0xE0));
    is_started(filled(26).0, by_ttc(1_176, 0, 40), (26, 0xEE, 0xE0));
}

/// ATTEN is the last that such a start waits for.
#[test]
fn starts_by_themselves_are_bounded() {
    for (words, left) in [(1, (32, 0x00, 0x40)), (1_024, (31, 0xF8, 0x00)), (1_176, (27, 0xF8, 0x10))] {
        let (mut chip, _) = filled(40);
        ask(&mut chip, by_ttc(words, 0, 40));
        assert!(chip.transfer.is_none());
        assert_eq!(chip.write(0x9C, 0xE0), Ok(0));
        assert_eq!(blocks_left(&chip), left.0 as usize);
        assert_eq!(read_back(&mut chip), left);
    }
}

#[test]
fn without_stwcen_the_bound_is_the_same() {
    let (mut chip, _) = filled(40);
    assert_eq!(chip.write(0x18, 0x40), Ok(0));
    is_started(chip, by_mbc(1_024), (31, 0xEB, 0x14));
    is_started(chip, by_mbc(1_176), (27, 0xEB, 0x14));
    is_started(chip, by_ttc(1_024, 0, 40), (31, 0xEB, 0x14));
    ask(&mut chip, by_ttc(1_176, 0, 40));
    assert_eq!(chip.write(0x9C, 0xE0), Ok(0));
    assert_eq!(read_back(&mut chip), (27, 0xEB, 0x14));
}

/// A refused start has lowered nothing.
#[test]
fn fewer_good_blocks_than_the_bound_are_too_few() {
    for (good, words) in [(0, 1_176), (1, 1_176), (26, 1_176), (30, 1_024), (31, 1_023)] {
        let (mut chip, _) = filled(good);
        ask(&mut chip, by_mbc(words));
        let before = chip;
        assert_eq!(chip.write(0x17, 0x04), TOO_FEW, "{good} of {words} words");
        assert_eq!(chip, before);
        assert_eq!(chip.read(0x12), Ok(31));
    }
}

/// MBC+1 is compared with TCC after it was lowered.
#[test]
fn as_many_good_blocks_as_the_bound_are_enough() {
    for good in [27, 28, 31, 32] {
        is_started(filled(good).0, by_mbc(1_176), (27, 0xF8, 0x10));
    }
    is_started(filled(31).0, by_mbc(1_024), (31, 0xF8, 0x00));
    is_started(filled(32).0, by_mbc(1_023), (32, 0xFF, 0xC0));
}

/// The window is one of the needs, and without one there is no bound.
#[test]
fn the_needs_come_before_the_bound() {
    let (mut chip, _) = filled(3);
    assert_eq!(chip.write(0x12, 31), Ok(0));
    assert_eq!(chip.write(0x17, 0x04), Err(Refusal::Switches));
    assert_eq!(chip.write(0x9F, 3), Ok(0));
    assert_eq!(chip.write(0x17, 0x04), Err(Refusal::Switches));
    assert_eq!(chip.read(0x12), Ok(31));
}

#[test]
fn the_bound_is_the_most_whose_bytes_do_not_pass() {
    for words in 1..=MOST_WORDS as usize {
        let most = Window { offset: 0, words }.most_blocks();
        assert!(most * words * 2 <= MOST_BYTES && (most + 1) * words * 2 > MOST_BYTES, "{words} words");
    }
}

/// Counted up block by block, for every window.
#[test]
fn every_window_has_its_start() {
    let (chip, _) = filled(40);
    for words in 1..=MOST_WORDS {
        let fitting = (1..=BLOCKS_OF_A_START).take_while(|&blocks| blocks as usize * words as usize * 2 <= MOST_BYTES);
        let blocks = fitting.last().expect("a block's bytes do not pass");
        let bytes = blocks * words * 2;
        let left = (blocks, bytes / 256, bytes % 256);
        is_started(chip, by_mbc(words), left);
        is_started(chip, by_ttc(words, 0, 255), left);
    }
}

/// What a start leaves over comes with the next one, which the last word of the first begins.
#[test]
fn the_host_is_given_all_blocks() {
    let (mut chip, ring) = filled(40);
    ask(&mut chip, by_ttc(MOST_WORDS, 0, 40));
    assert_eq!(chip.write(0x9C, 0xE0), Ok(0));
    let blocks = hand_over(&mut chip, &ring, 27 * MOST_WORDS as usize);
    assert_eq!((chip.tcc, chip.ttc, chip.t), (13, 13, 27));
    assert_eq!(read_back(&mut chip), (13, 0x77, 0x70));
    let rest = hand_over(&mut chip, &ring, 13 * MOST_WORDS as usize);
    assert_eq!((chip.tcc, chip.ttc, chip.transfer), (0, 0, None));
    let sectors = ring.chunks_exact(BLOCK_BYTES).map(|block| &block[..2 * MOST_WORDS as usize]);
    assert!([blocks, rest].concat() == sectors.take(40).collect::<Vec<_>>().concat());
}

fn hand_over(chip: &mut Chip, ring: &[u8], words: usize) -> Vec<u8> {
    (0..words).flat_map(|_| chip.host_word(ring).expect("a transfer runs").to_le_bytes()).collect()
}

/// Soundness asks for no more blocks left than TCC, and for nothing of their bytes.
#[test]
fn a_record_made_by_hand_is_not_held_to_the_bound() {
    let (mut chip, ring) = filled(40);
    assert_eq!(start(&mut chip, by_mbc(MOST_WORDS)), STARTED);
    chip.transfer = Some(Transfer { blocks_left: 40, place: 0 });
    assert!(chip.is_sound());
    hand_over(&mut chip, &ring, 40 * MOST_WORDS as usize);
    assert_eq!((chip.tcc, chip.transfer), (0, None));
}
