//! The chip's methods over the linked archive: each is called, done and refused, so that a method that is wired to
//! another call, or hands over its arguments in another order, is noticed.

use cdrom::raw::CHIP_WORDS;
use cdrom::registers::*;
use cdrom::{edc, open, seal, Address, Chip, Facts, Refusal, Verdict, BLOCK_BYTES, SECTOR_BYTES, USER_OFFSET};
use cdrom::{WHY_ADDRESS, WHY_EDC, WHY_SYNC};

const BLOCKS: u16 = 4;
const RING_BYTES: usize = BLOCKS as usize * BLOCK_BYTES;
const GOOD: Verdict = Verdict { staerr: false, hcei: false };

fn address(frame: u16) -> Address {
    Address { minute: 0, second: 2, frame }
}

/// A sector at 00:02:frame with every user byte equal to `fill`.
fn sector(frame: u16, fill: u8) -> [u8; SECTOR_BYTES] {
    let mut sector = [fill; SECTOR_BYTES];
    seal(&mut sector, address(frame)).expect("a sector and an address");
    sector
}

fn facts(why: u8) -> Facts {
    Facts::from_why(why).expect("0 to 15 are facts")
}

/// A sector at 00:02:frame that fails in these facts and no other: its code is made to fit the damaged bytes before it.
/// Scrambling is its own inverse, so that opening once more scrambles it.
fn spoilt(frame: u16, facts: Facts) -> [u8; SECTOR_BYTES] {
    let mut sector = sector(frame, 0x77);
    open(&mut sector).expect("a sector");
    sector[0] ^= u8::from(facts.sync);
    sector[12] ^= u8::from(facts.address);
    sector[15] ^= u8::from(facts.mode) << 7;
    let code = edc(&sector[..2064]) ^ u32::from(facts.edc) << 31;
    sector[2064..2068].copy_from_slice(&code.to_le_bytes());
    open(&mut sector).expect("a sector");
    sector
}

/// Decoding is on; the host is given two words a block.
fn decoding(memory: &mut [u8]) -> Result<Chip<'_>, Refusal> {
    let mut chip = Chip::open(BLOCKS, memory)?;
    chip.write(BICCTL, BLIMEN)?;
    chip.write(ACCTL, ACMEN | TCINCEN)?;
    chip.write(ASCTRL, ADCEN)?;
    chip.set_window(USER_OFFSET as u16, 2)?;
    chip.write(CTRL0, DECEN)?;
    Ok(chip)
}

/// And a transfer of two blocks runs.
fn serving(memory: &mut [u8]) -> Result<Chip<'_>, Refusal> {
    let mut chip = decoding(memory)?;
    assert_eq!(chip.sector(&sector(0, 0x11)), Ok(GOOD));
    assert_eq!(chip.sector(&sector(1, 0x22)), Ok(GOOD));
    chip.command(0x28)?;
    chip.write(MBTC0, 1)?;
    chip.write(ASTRG, ADTT)?;
    Ok(chip)
}

#[test]
fn opening() {
    let mut memory = vec![0xEE; 256 * BLOCK_BYTES];
    for blocks in [0, 1, 2, 256, 65535] {
        let ring = &mut memory[..usize::from(blocks).min(256) * BLOCK_BYTES];
        assert_eq!(Chip::open(blocks, ring).err(), Some(Refusal::WrongLength), "{blocks}");
    }
    for blocks in [3, 4, 255] {
        let bytes = usize::from(blocks) * BLOCK_BYTES;
        for length in [0, bytes - 1, bytes + 1] {
            assert_eq!(Chip::open(blocks, &mut memory[..length]).err(), Some(Refusal::WrongLength), "{length}");
        }
        let mut chip = Chip::open(blocks, &mut memory[..bytes]).expect("a ring");
        assert_eq!((chip.blocks(), chip.ring().len()), (blocks.into(), bytes));
        assert_eq!((chip.read(ATBLO), chip.read(ATBHI)), (Ok(0x14), Ok(0xEB)));
    }
    assert!(memory.iter().all(|&byte| byte == 0xEE));
}

#[test]
fn registers() -> Result<(), Refusal> {
    let mut memory = [0; RING_BYTES];
    let mut chip = Chip::open(BLOCKS, &mut memory)?;
    assert_eq!(chip.write(ATERR, 0x5A), Ok(()));
    assert_eq!(chip.read(ATERR), Ok(0x5A));
    assert_eq!(chip.write(TBL, 0), Err(Refusal::NoRegister));
    assert_eq!(chip.read(SKIPC), Err(Refusal::NoRegister));
    assert_eq!(chip.write(BICCTL, 1), Err(Refusal::OutOfRange));
    assert_eq!(chip.write(CTRL0, DECEN), Err(Refusal::Switches));
    assert_eq!(chip.write(TCC, 1), Err(Refusal::TooFew));
    assert_eq!(chip.write(BUFLIM, BLOCKS - 2), Ok(()));
    assert_eq!(chip.write(BUFLIM, BLOCKS - 1), Err(Refusal::OutOfRange));
    Ok(())
}

#[test]
fn named_calls() -> Result<(), Refusal> {
    let mut memory = [0; RING_BYTES];
    let mut chip = Chip::open(BLOCKS, &mut memory)?;
    assert_eq!(chip.set_block(BLOCKS), Err(Refusal::OutOfRange));
    assert_eq!(chip.set_block(2), Ok(()));
    assert_eq!(chip.read(TBL), Ok(2));
    assert_eq!(chip.set_window(2351, 1), Err(Refusal::OutOfRange));
    assert_eq!(chip.set_window(2350, 1), Ok(()));
    assert_eq!(chip.set_expected(Address { minute: 99, second: 59, frame: 75 }), Err(Refusal::OutOfRange));
    assert_eq!(chip.set_expected(Address { minute: 99, second: 59, frame: 74 }), Ok(()));
    assert_eq!(chip.packet_byte(0), Err(Refusal::TooFew));
    assert_eq!(chip.packet_byte(12), Err(Refusal::OutOfRange));
    assert_eq!(chip.reset(), Ok(()));
    assert_eq!(chip.read(TBL), Ok(0));
    Ok(())
}

#[test]
fn sectors() -> Result<(), Refusal> {
    let mut memory = [0xEE; RING_BYTES];
    let mut chip = decoding(&mut memory)?;
    assert_eq!(chip.set_expected(address(0)), Err(Refusal::Switches));
    assert_eq!(chip.sector(&sector(0, 0x11)), Ok(GOOD));
    for length in [0, SECTOR_BYTES - 1] {
        assert_eq!(chip.sector(&sector(1, 0x22)[..length]), Err(Refusal::WrongLength));
    }
    let mut damaged = sector(1, 0x22);
    damaged[100] ^= 1;
    assert_eq!(chip.sector(&damaged), Ok(Verdict { staerr: true, hcei: false }));
    assert_eq!((chip.read(TARSTA), chip.read(TCC), chip.read(BUFC)), (Ok(STAERR), Ok(1), Ok(2)));
    assert_eq!(chip.sector(&sector(1, 0x22)), Err(Refusal::Held));
    chip.write(CTRL0, 0)?;
    assert_eq!(chip.sector(&sector(1, 0x22)), Err(Refusal::DecodingOff));
    chip.write(CTRL0, DECEN)?;
    assert_eq!(chip.sector(&sector(9, 0x22)), Ok(Verdict { staerr: false, hcei: true }));
    chip.write(CTRL0, 0)?;
    chip.set_expected(address(1))?;
    chip.write(CTRL0, DECEN)?;
    assert_eq!((chip.sector(&sector(1, 0x22)), chip.sector(&sector(2, 0x33))), (Ok(GOOD), Ok(GOOD)));
    assert_eq!(chip.sector(&sector(3, 0x44)), Err(Refusal::NoRoom));
    for (block, fill) in chip.ring().chunks(BLOCK_BYTES).zip([0x11, 0x22, 0x33]) {
        assert_eq!(block[USER_OFFSET..2064], [fill; 2048]);
        assert_eq!(block[SECTOR_BYTES..], [0xEE; BLOCK_BYTES - SECTOR_BYTES]);
    }
    Ok(())
}

#[test]
fn facts_are_told_and_register_80h_is_made_from_them() -> Result<(), Refusal> {
    let mut memory = [0; RING_BYTES];
    for why in 0..=15 {
        let (mut chip, facts) = (decoding(&mut memory)?, facts(why));
        assert_eq!(chip.sector(&spoilt(0, facts)), Ok(facts.verdict()), "{facts}");
        assert_eq!((chip.why(), chip.read(TARSTA)), (facts, Ok(facts.verdict().tarsta())));
        assert_eq!(chip.read(TCC), Ok(facts.is_good().into()), "{facts}");
    }
    Ok(())
}

#[test]
fn facts_are_those_of_the_last_sector_that_was_taken() -> Result<(), Refusal> {
    let mut memory = [0; RING_BYTES];
    let (good, bad) = (facts(0), facts(WHY_SYNC | WHY_EDC));
    let mut chip = decoding(&mut memory)?;
    assert_eq!(chip.why(), good);
    assert_eq!((chip.sector(&spoilt(0, bad)), chip.why()), (Ok(bad.verdict()), bad));
    assert_eq!((chip.sector(&sector(0, 0x11)), chip.why()), (Err(Refusal::Held), bad));
    assert_eq!((chip.sector(&[]), chip.why()), (Err(Refusal::WrongLength), bad));
    assert_eq!((chip.srst(), chip.status(), chip.why()), (Ok(()), Ok(0), bad));
    assert_eq!((chip.write(CTRL0, 0), chip.why()), (Ok(()), bad));
    assert_eq!((chip.sector(&sector(0, 0x11)), chip.why()), (Err(Refusal::DecodingOff), bad));
    assert_eq!((chip.read(TARSTA), chip.read(TARSTA), chip.why()), (Ok(STAERR), Ok(STAERR), bad));
    assert_eq!(Chip::from_record(chip.record(), &mut []).why(), bad);
    chip.write(CTRL0, DECEN)?;
    for frame in 0..BLOCKS - 1 {
        assert_eq!((chip.sector(&sector(frame, 0x11)), chip.why()), (Ok(GOOD), good));
    }
    assert_eq!((chip.sector(&spoilt(3, bad)), chip.why()), (Err(Refusal::NoRoom), good));
    Ok(())
}

#[test]
fn a_reset_forgets_the_facts() -> Result<(), Refusal> {
    let mut memory = [0; RING_BYTES];
    let mut chip = decoding(&mut memory)?;
    assert_eq!(chip.sector(&sector(5, 0x11)), Ok(Verdict { staerr: false, hcei: true }));
    assert_eq!((chip.why(), chip.why().to_string()), (facts(WHY_ADDRESS), "address".to_string()));
    assert_eq!((chip.reset(), chip.why(), chip.read(TARSTA)), (Ok(()), facts(0), Ok(0)));
    Ok(())
}

#[test]
fn words_one_by_one() -> Result<(), Refusal> {
    let mut memory = [0; RING_BYTES];
    let mut chip = serving(&mut memory)?;
    let words = [chip.word(), chip.word(), chip.word(), chip.word(), chip.word()];
    assert_eq!(words, [Ok(0x1111), Ok(0x1111), Ok(0x2222), Ok(0x2222), Err(Refusal::Switches)]);
    assert_eq!((chip.read(TCC), chip.read(TBL)), (Ok(0), Ok(2)));
    Ok(())
}

#[test]
fn words_at_once() -> Result<(), Refusal> {
    let mut memory = [0; RING_BYTES];
    let mut chip = serving(&mut memory)?;
    let mut words = [0xEEEE; 6];
    assert_eq!(chip.words(&mut words[..3]), Ok(3));
    assert_eq!(words, [0x1111, 0x1111, 0x2222, 0xEEEE, 0xEEEE, 0xEEEE]);
    assert_eq!(chip.words(&mut words[3..]), Ok(1));
    assert_eq!(words, [0x1111, 0x1111, 0x2222, 0x2222, 0xEEEE, 0xEEEE]);
    assert_eq!(chip.words(&mut words), Err(Refusal::Switches));
    assert_eq!(chip.words(&mut []), Ok(0));
    assert_eq!(words[4..], [0xEEEE; 2]);
    Ok(())
}

#[test]
fn looks_and_an_abort() -> Result<(), Refusal> {
    let mut memory = [0; RING_BYTES];
    assert_eq!(decoding(&mut memory)?.look(), []);
    let mut chip = serving(&mut memory)?;
    assert_eq!(chip.look(), [0x11; 4]);
    assert_eq!((chip.word(), chip.word(), chip.word()), (Ok(0x1111), Ok(0x1111), Ok(0x2222)));
    assert_eq!(chip.look(), [0x22; 4]);
    assert_eq!(chip.look().as_ptr(), chip.ring()[BLOCK_BYTES + USER_OFFSET..].as_ptr());
    assert_eq!(chip.write(MBTC0, 0), Err(Refusal::Barred));
    assert_eq!(chip.srst(), Ok(()));
    assert_eq!((chip.word(), chip.irq(), chip.read(TCC)), (Err(Refusal::Switches), false, Ok(1)));
    assert_eq!(chip.look(), [0x22; 4]);
    Ok(())
}

#[test]
fn a_packet_and_the_status() -> Result<(), Refusal> {
    let mut memory = [0; RING_BYTES];
    let mut chip = Chip::open(BLOCKS, &mut memory)?;
    assert_eq!(chip.command(256), Err(Refusal::OutOfRange));
    assert_eq!(chip.packet_word(0), Err(Refusal::Switches));
    chip.write(ASCTRL, APKTEN | ADCEN | A0IEN)?;
    assert_eq!((chip.irq(), chip.command(PACKET_COMMAND), chip.irq()), (false, Ok(()), true));
    assert_eq!((chip.status(), chip.irq()), (Ok(DRDY | DRQ), false));
    for word in [0x0201, 0x0403, 0x0605, 0x0807, 0x0A09, 0x0C0B] {
        assert_eq!(chip.packet_byte(0), Err(Refusal::TooFew));
        assert_eq!(chip.packet_word(word), Ok(()));
    }
    let packet: Vec<_> = (0..12).map(|index| chip.packet_byte(index)).collect();
    assert_eq!(packet, (1..=12).map(Ok).collect::<Vec<_>>());
    assert_eq!((chip.read(MISS2), chip.status()), (Ok(FPKT | APKT), Ok(BSY | DRDY)));
    assert_eq!(chip.command(PACKET_COMMAND), Err(Refusal::Barred));
    Ok(())
}

#[test]
fn a_record_is_kept_with_its_ring() -> Result<(), Refusal> {
    let mut memory = [0; RING_BYTES];
    let mut chip = serving(&mut memory)?;
    assert_eq!(chip.word(), Ok(0x1111));
    let (record, mut kept) = (chip.record(), chip.ring().to_vec());
    let mut chip = Chip::from_record(record, &mut kept);
    assert_eq!((chip.word(), chip.word()), (Ok(0x1111), Ok(0x2222)));
    let mut longer = vec![0; RING_BYTES + 1];
    let mut chip = Chip::from_record(record, &mut longer);
    assert_eq!((chip.word(), chip.look()), (Err(Refusal::WrongLength), &[][..]));
    Ok(())
}

#[test]
fn every_call_of_an_unsound_chip_is_refused() {
    let mut memory = [0xEE; RING_BYTES];
    for record in [[0; CHIP_WORDS], [0xFFFF; CHIP_WORDS]] {
        let mut chip = Chip::from_record(record, &mut memory);
        let mut words = [7; 2];
        let answers = [
            chip.write(TACK, 0),
            chip.read(TCC).map(drop),
            chip.set_block(0),
            chip.set_window(0, 1),
            chip.set_expected(address(0)),
            chip.packet_byte(0).map(drop),
            chip.reset(),
            chip.sector(&sector(0, 1)).map(drop),
            chip.word().map(drop),
            chip.words(&mut words).map(drop),
            chip.command(0),
            chip.packet_word(0),
            chip.status().map(drop),
            chip.srst(),
        ];
        assert_eq!(answers, [Err(Refusal::WrongLength); 14]);
        assert_eq!((chip.look(), words, chip.record()), (&[][..], [7; 2], record));
        let stands = if record == [0; CHIP_WORDS] { 0 } else { 15 };
        assert_eq!(chip.why(), facts(stands), "it has no reply, and reads the record as it stands");
    }
    assert_eq!(memory, [0xEE; RING_BYTES]);
}
