//! All records of the outside vectors through the library.

use cdrom::{bench, edc, judge, open, parity, raw, seal, Address, ANSWER_ROOM, RING_BYTES, SECTOR_BYTES};
use records::Record;

fn address(record: &Record) -> Address {
    let [minute, second, frame] = record.address;
    Address { minute, second, frame }
}

/// By its kind, over spoiled bytes.
fn sealed(record: &Record) -> Vec<u8> {
    let (mut sector, subheader, [minute, second, frame]) = (record.unsealed(), record.subheader(), record.address);
    let (bytes, length) = (sector.as_mut_ptr(), sector.len());
    // SAFETY: the pointer and the length are those of the sector, and the subheader is four bytes; both are lent for the call.
    let answer = unsafe { raw::cdrom_seal_xa(bytes, length, minute, second, frame, record.kind, &subheader) };
    assert_eq!(answer, 0);
    sector
}

#[test]
fn every_record_is_sealed_as_it_stands() {
    let records = records::read();
    assert_eq!([1, 2, 3].map(|kind| records.iter().filter(|record| record.kind == kind).count()), [11, 11, 11]);
    for record in records {
        assert_eq!(sealed(&record), record.scrambled);
        if record.is_mode_1() {
            let mut sector = record.unsealed();
            seal(&mut sector, address(&record)).unwrap();
            assert_eq!(sector, record.scrambled);
        }
    }
}

#[test]
fn every_record_has_its_code() {
    for record in records::read() {
        let covered = [0..2064, 16..2072, 16..2348][record.kind as usize - 1].clone();
        assert_eq!(edc(&record.clear[covered]).to_le_bytes(), record.edc[..]);
    }
}

#[test]
fn every_record_opens_and_is_good_and_its_parity_holds() {
    for record in records::read() {
        let mut sector = record.scrambled.clone();
        open(&mut sector).unwrap();
        assert_eq!(sector, record.clear);
        assert!(judge(&sector, address(&record)).unwrap().is_good());
        assert_eq!(parity(&sector), Ok(true));
    }
}

/// In form 2 it is a byte of the user or of the code.
#[test]
fn a_wrong_byte_at_the_end_is_seen() {
    for record in records::read() {
        for place in 2076..2352 {
            let mut sector = record.clear.clone();
            sector[place] ^= 1 << (place % 8);
            let has_parity = record.is_mode_1() || record.is_form_1();
            let facts = judge(&sector, address(&record)).unwrap();
            assert_eq!(
                (parity(&sector), facts.why()),
                (Ok(!has_parity), if has_parity { 0 } else { 2 }),
                "byte {place}"
            );
        }
    }
}

/// Scrambled in the sector buffer, and opened in the block.
#[test]
fn sector_lines_make_the_filled_records() {
    let records = records::read();
    let filled: Vec<(&Record, u8)> = records.iter().filter_map(|record| Some((record, record.fill()?))).collect();
    assert_eq!(filled.len(), 9);
    for (record, fill) in filled {
        let ([minute, second, frame], kind) = (record.address, record.kind);
        let [file, channel, submode, coding] = record.subheader();
        let text = format!(
            "call=open ring=3\ncall=write reg=154 value=32\ncall=write reg=156 value=96\ncall=write reg=10 value=128\n\
             call=kind number={kind}\ncall=subheader file={file} channel={channel} submode={submode} coding={coding}\n\
             call=sector min={minute} sec={second} frame={frame} fill={fill}\n"
        );
        let (mut memory, mut sector) = (vec![0xEE; RING_BYTES], vec![0xEE; SECTOR_BYTES]);
        bench(&mut memory, &mut sector, text.as_bytes(), &mut vec![0; 7 * ANSWER_ROOM]);
        assert_eq!(sector, record.scrambled);
        assert_eq!(memory[..SECTOR_BYTES], record.clear);
    }
}
