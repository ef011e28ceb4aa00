//! How many blocks a start has, over the linked archive: those of MBC where TTC is 0, else the least of ATLIM, TCC and
//! TTC; and never so many that their bytes pass 65,534.

use cdrom::registers::*;
use cdrom::{seal, Address, Chip, Refusal, BLOCK_BYTES, SECTOR_BYTES, USER_BYTES, USER_OFFSET};

const BLOCKS: u16 = 64;
const RING_BYTES: usize = BLOCKS as usize * BLOCK_BYTES;
const SECTORS: u16 = 40;
const USER_WORDS: u16 = USER_BYTES as u16 / 2;
const MOST_WORDS: u16 = SECTOR_BYTES as u16 / 2;
/// MBC has five bits.
const MOST_MBC: u16 = 31;
const SWITCHES: u16 = ACMEN | TCINCEN;
/// 34h and 35h as they are opened.
const SIGNATURE: u16 = 0xEB14;

/// The disc's user words are counted from its first: all of 64 sectors are different.
fn user_word(place: usize) -> u16 {
    place as u16
}

/// The sector at 00:02:frame.
fn sector(frame: u16) -> [u8; SECTOR_BYTES] {
    let mut sector = [0; SECTOR_BYTES];
    let first = usize::from(frame * USER_WORDS);
    for (place, bytes) in sector[USER_OFFSET..][..USER_BYTES].chunks_exact_mut(2).enumerate() {
        bytes.copy_from_slice(&user_word(first + place).to_le_bytes());
    }
    seal(&mut sector, Address { minute: 0, second: 2, frame }).expect("a sector and an address");
    sector
}

/// So many good blocks wait in a ring of 64, and the host has given a command: a start needs a window yet.
fn without_window(memory: &mut [u8], good: u16) -> Result<Chip<'_>, Refusal> {
    let mut chip = Chip::open(BLOCKS, memory)?;
    chip.write(BICCTL, BLIMEN)?;
    chip.write(ACCTL, SWITCHES)?;
    chip.write(ASCTRL, ADCEN | STWCEN)?;
    chip.write(CTRL0, DECEN)?;
    for frame in 0..good {
        assert!(chip.sector(&sector(frame))?.is_good());
    }
    chip.write(CTRL0, 0)?;
    chip.command(0x28)?;
    Ok(chip)
}

/// The user bytes, or a window of other words from the block's first byte on.
fn set_window(chip: &mut Chip, words: u16) -> Result<(), Refusal> {
    let offset = if words == USER_WORDS { USER_OFFSET } else { 0 };
    chip.set_window(offset as u16, words)
}

/// And a start can follow.
fn waiting(memory: &mut [u8], good: u16, words: u16) -> Result<Chip<'_>, Refusal> {
    let mut chip = without_window(memory, good)?;
    set_window(&mut chip, words)?;
    Ok(chip)
}

fn start(chip: &mut Chip, mbc: u16, ttc: u16) -> Result<(), Refusal> {
    chip.write(MBTC0, mbc)?;
    chip.write(TTC, ttc)?;
    chip.write(ASTRG, ADTT)
}

/// A transfer is aborted, and the next can be started.
fn abort(chip: &mut Chip) -> Result<(), Refusal> {
    chip.srst()?;
    chip.command(0x28)
}

/// MBC, and 35h and 34h as one number.
fn told(chip: &mut Chip) -> Result<(u16, u16), Refusal> {
    Ok((chip.read(MBTC0)?, 256 * chip.read(ATBHI)? + chip.read(ATBLO)?))
}

/// The words of so many blocks of user bytes, from a block of the disc on.
fn read_blocks(chip: &mut Chip, first: u16, blocks: u16) {
    let mut words = vec![0; usize::from(blocks * USER_WORDS)];
    assert_eq!(chip.words(&mut words), Ok(words.len()));
    let first = usize::from(first * USER_WORDS);
    let same = words.iter().enumerate().take_while(|&(place, &word)| word == user_word(first + place)).count();
    assert_eq!(same, words.len(), "so many words are the disc's");
}

/// The blocks whose bytes do not pass 65,534, counted one by one.
fn bound(words: u16) -> u16 {
    let bytes = 2 * u32::from(words);
    (1..=BLOCKS).take_while(|&blocks| u32::from(blocks) * bytes <= 65_534).count() as u16
}

/// As docs/FIRMWARE.md has them.
#[test]
fn the_bounds_by_words() {
    assert_eq!([1023, 1057, 1092, 1129, 1170].map(bound), [32, 31, 30, 29, 28]);
    assert_eq!([1024, 1058, 1093, 1130, 1171].map(bound), [31, 30, 29, 28, 27]);
    assert_eq!([1, MOST_WORDS].map(bound), [BLOCKS, 27], "counted up to a ring's blocks");
}

#[test]
fn of_32_blocks_of_user_bytes_31_are_started() -> Result<(), Refusal> {
    let mut memory = vec![0; RING_BYTES];
    let mut chip = waiting(&mut memory, SECTORS, USER_WORDS)?;
    assert_eq!(start(&mut chip, MOST_MBC, 0), Ok(()));
    assert_eq!((chip.read(MBTC0), chip.read(ATBHI), chip.read(ATBLO)), (Ok(0x1E), Ok(0xF8), Ok(0x00)));
    Ok(())
}

#[test]
fn of_32_whole_sectors_27_are_started() -> Result<(), Refusal> {
    let mut memory = vec![0; RING_BYTES];
    let mut chip = waiting(&mut memory, SECTORS, MOST_WORDS)?;
    assert_eq!(start(&mut chip, MOST_MBC, 0), Ok(()));
    assert_eq!((chip.read(MBTC0), chip.read(ATBHI), chip.read(ATBLO)), (Ok(0x1A), Ok(0xF8), Ok(0x10)));
    Ok(())
}

/// A refused start changes nothing: MBC is not lowered either.
#[test]
fn fewer_good_blocks_than_the_bound_are_refused() -> Result<(), Refusal> {
    let mut memory = vec![0; RING_BYTES];
    let mut chip = waiting(&mut memory, 26, MOST_WORDS)?;
    chip.write(MBTC0, MOST_MBC)?;
    let before = chip.record();
    assert_eq!(chip.write(ASTRG, ADTT), Err(Refusal::TooFew));
    assert_eq!((chip.record(), chip.read(MBTC0)), (before, Ok(MOST_MBC)));
    Ok(())
}

/// MBC is lowered before it is compared with TCC.
#[test]
fn as_many_good_blocks_as_the_bound_are_enough() -> Result<(), Refusal> {
    let mut memory = vec![0; RING_BYTES];
    for good in [27, 28, 31, 32] {
        let mut chip = waiting(&mut memory, good, MOST_WORDS)?;
        assert_eq!((start(&mut chip, MOST_MBC, 0), told(&mut chip)), (Ok(()), Ok((26, 63_504))), "{good}");
    }
    Ok(())
}

#[test]
fn what_a_start_needs_is_asked_for_first() -> Result<(), Refusal> {
    let mut memory = vec![0; RING_BYTES];
    let mut chip = waiting(&mut memory, 26, MOST_WORDS)?;
    chip.srst()?;
    assert_eq!(start(&mut chip, MOST_MBC, 0), Err(Refusal::Switches));
    Ok(())
}

/// Nor by itself: there is nothing that could be bound.
#[test]
fn without_a_window_nothing_starts() -> Result<(), Refusal> {
    let mut memory = vec![0; RING_BYTES];
    let mut chip = without_window(&mut memory, SECTORS)?;
    for ttc in [0, 40] {
        assert_eq!(start(&mut chip, MOST_MBC, ttc), Err(Refusal::Switches), "TTC {ttc}");
    }
    chip.write(ACCTL, ATTEN | SWITCHES)?;
    assert_eq!((chip.word(), told(&mut chip)), (Err(Refusal::Switches), Ok((MOST_MBC, SIGNATURE))));
    set_window(&mut chip, MOST_WORDS)?;
    assert_eq!(told(&mut chip), Ok((26, 63_504)), "with the window it starts by itself");
    Ok(())
}

#[test]
fn a_short_window_is_bound_by_atlim() -> Result<(), Refusal> {
    let mut memory = vec![0; RING_BYTES];
    let mut chip = waiting(&mut memory, SECTORS, 1)?;
    assert_eq!((start(&mut chip, 0, 40), told(&mut chip)), (Ok(()), Ok((31, 64))));
    Ok(())
}

/// 34h and 35h stay as they were, and the host is given 31 blocks all the same.
#[test]
fn the_bound_holds_without_stwcen() -> Result<(), Refusal> {
    let mut memory = vec![0; RING_BYTES];
    let mut chip = waiting(&mut memory, SECTORS, USER_WORDS)?;
    chip.write(ASCTRL, ADCEN)?;
    assert_eq!((start(&mut chip, MOST_MBC, 0), told(&mut chip)), (Ok(()), Ok((30, SIGNATURE))));
    read_blocks(&mut chip, 0, 31);
    assert_eq!((chip.word(), told(&mut chip)), (Err(Refusal::Switches), Ok((30, SIGNATURE))));
    Ok(())
}

#[test]
fn all_blocks_of_a_bound_start_are_read_and_then_the_rest() -> Result<(), Refusal> {
    let mut memory = vec![0; RING_BYTES];
    let mut chip = waiting(&mut memory, SECTORS, USER_WORDS)?;
    assert_eq!(start(&mut chip, MOST_MBC, 0), Ok(()));
    read_blocks(&mut chip, 0, 31);
    assert_eq!((chip.word(), chip.read(TCC), chip.status()), (Err(Refusal::Switches), Ok(9), Ok(BSY)));
    assert_eq!((start(&mut chip, 8, 0), told(&mut chip)), (Ok(()), Ok((8, 18_432))));
    read_blocks(&mut chip, 31, 9);
    assert_eq!((chip.word(), chip.read(TCC)), (Err(Refusal::Switches), Ok(0)));
    Ok(())
}

/// TTC keeps what is left, and with the last word of the first transfer the second starts.
#[test]
fn a_start_by_itself_is_bound_too() -> Result<(), Refusal> {
    let mut memory = vec![0; RING_BYTES];
    let mut chip = waiting(&mut memory, SECTORS, USER_WORDS)?;
    chip.write(ACCTL, ATTEN | SWITCHES)?;
    chip.write(TTC, 40)?;
    assert_eq!((chip.irq(), told(&mut chip)), (true, Ok((30, 63_488))));
    read_blocks(&mut chip, 0, 31);
    assert_eq!((chip.read(TCC), chip.read(TTC), told(&mut chip)), (Ok(9), Ok(9), Ok((8, 18_432))));
    read_blocks(&mut chip, 31, 9);
    assert_eq!((chip.word(), chip.read(TCC), chip.read(TTC)), (Err(Refusal::Switches), Ok(0), Ok(0)));
    Ok(())
}

/// One transfer of 32 blocks would have served the command. The first of two completes it, and the second waits for
/// the next.
#[test]
fn with_ascen_the_rest_waits_for_the_next_command() -> Result<(), Refusal> {
    let mut memory = vec![0; RING_BYTES];
    let mut chip = waiting(&mut memory, SECTORS, USER_WORDS)?;
    chip.write(ASCTRL, ADCEN | ASCEN | STWCEN)?;
    chip.write(ACCTL, ATTEN | SWITCHES)?;
    chip.write(TTC, 32)?;
    assert_eq!(told(&mut chip), Ok((30, 63_488)));
    read_blocks(&mut chip, 0, 31);
    assert_eq!((chip.word(), chip.read(TTC), chip.status()), (Err(Refusal::Switches), Ok(1), Ok(0)));
    assert_eq!((chip.command(0x28), told(&mut chip)), (Ok(()), Ok((0, 2_048))));
    read_blocks(&mut chip, 31, 1);
    assert_eq!((chip.word(), chip.read(TTC)), (Err(Refusal::Switches), Ok(0)));
    Ok(())
}

#[test]
fn every_window_has_its_bound_and_its_whole_byte_count() -> Result<(), Refusal> {
    let mut memory = vec![0; RING_BYTES];
    let mut chip = waiting(&mut memory, SECTORS, 1)?;
    for words in 1..=MOST_WORDS {
        set_window(&mut chip, words)?;
        let blocks = bound(words).min(32);
        for ttc in [0, 40] {
            assert_eq!(start(&mut chip, MOST_MBC, ttc), Ok(()), "{words} words");
            assert_eq!(told(&mut chip), Ok((blocks - 1, blocks * words * 2)), "{words} words, TTC {ttc}");
            abort(&mut chip)?;
        }
    }
    Ok(())
}

/// With TTC 0, for every MBC and every number of good blocks.
#[test]
fn mbc_is_bound_before_tcc_is_tested() -> Result<(), Refusal> {
    let mut memory = vec![0; RING_BYTES];
    let mut chip = waiting(&mut memory, SECTORS, MOST_WORDS)?;
    for (good, mbc) in (0..=SECTORS).rev().flat_map(|good| (0..=MOST_MBC).map(move |mbc| (good, mbc))) {
        chip.write(TCC, good)?;
        let blocks = (mbc + 1).min(bound(MOST_WORDS));
        let (answer, after) = if blocks <= good { (Ok(()), blocks - 1) } else { (Err(Refusal::TooFew), mbc) };
        assert_eq!((start(&mut chip, mbc, 0), chip.read(MBTC0)), (answer, Ok(after)), "MBC {mbc}, TCC {good}");
        abort(&mut chip)?;
    }
    Ok(())
}

/// With TTC set, for every ATLIM; MBC does not matter before.
#[test]
fn the_least_of_four_is_started() -> Result<(), Refusal> {
    let mut memory = vec![0; RING_BYTES];
    let mut chip = waiting(&mut memory, SECTORS, MOST_WORDS)?;
    for (atlim, ttc) in (0..=ATLIM).flat_map(|atlim| (1..=SECTORS + 1).map(move |ttc| (atlim, ttc))) {
        chip.write(ACCTL, SWITCHES | atlim)?;
        let limit = if atlim == 0 { 32 } else { atlim };
        let blocks = limit.min(ttc).min(SECTORS).min(bound(MOST_WORDS));
        assert_eq!(start(&mut chip, 31 - atlim, ttc), Ok(()));
        assert_eq!(told(&mut chip), Ok((blocks - 1, blocks * MOST_WORDS * 2)), "ATLIM {atlim}, TTC {ttc}");
        abort(&mut chip)?;
    }
    Ok(())
}

/// Under version 3 a start could have 32 blocks of user bytes. A record that was kept while they were transferred is
/// sound, and the transfer goes on to its end; docs/CALLS.md has the words.
#[test]
fn a_transfer_that_was_kept_under_version_3_goes_on() -> Result<(), Refusal> {
    const BLOCKS_LEFT: usize = 13;
    const ATLIM_AND_MBC: usize = 16;
    const BYTE_COUNT: usize = 18;
    let mut memory = vec![0; RING_BYTES];
    let mut chip = waiting(&mut memory, SECTORS, USER_WORDS)?;
    assert_eq!(start(&mut chip, MOST_MBC, 0), Ok(()));
    let (mut record, mut ring) = (chip.record(), chip.ring().to_vec());
    assert_eq!((record[BLOCKS_LEFT], record[ATLIM_AND_MBC], record[BYTE_COUNT]), (31, 30 << 8, 0xF800));
    (record[BLOCKS_LEFT], record[ATLIM_AND_MBC], record[BYTE_COUNT]) = (32, 31 << 8, 0);
    let mut chip = Chip::from_record(record, &mut ring);
    assert_eq!(told(&mut chip), Ok((31, 0)));
    read_blocks(&mut chip, 0, 32);
    assert_eq!((chip.word(), chip.read(TCC)), (Err(Refusal::Switches), Ok(8)));
    Ok(())
}
