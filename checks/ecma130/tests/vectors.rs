//! All records of the outside vectors, of each kind.

use ecma130::{edc_bitwise, edc_by_table, edc_sliced, judge, open, parity_holds, scramble, seal, seal_xa, words_hold};
use ecma130::{Address, Kind, Refusal, P_PARITY_START, SECTOR_BYTES};
use records::Record;

fn address(record: &Record) -> Address {
    let [minute, second, frame] = record.address;
    Address::new(minute, second, frame)
}

fn kind(record: &Record) -> Kind {
    Kind::of_number(record.kind).expect("a kind of the vectors")
}

#[test]
fn every_record_is_sealed_opened_judged_and_checked() {
    let records = records::read();
    for kind in [1, 2, 3] {
        assert_eq!(records.iter().filter(|record| record.kind == kind).count(), 11);
    }
    for record in records {
        check_header(&record);
        check_edc(&record);
        check_seal(&record);
        check_open_and_judge(&record);
    }
}

fn check_header(record: &Record) {
    let [minute, second, frame] = record.address;
    assert!(address(record).is_valid());
    assert_eq!(address(record).bcd(), record.bcd[..]);
    assert_eq!((minute as u32 * 60 + second as u32) * 75 + frame as u32, record.absolute_frame);
    assert_eq!(Kind::of_sector(&record.clear), kind(record));
    assert_eq!((record.clear[15], kind(record).mode_byte()), (record.mode, record.mode));
    assert_eq!(record.subheaders[0], record.subheaders[1]);
    assert_eq!(record.clear[kind(record).user()], record.user);
    if kind(record).has_subheader() {
        assert_eq!(record.clear[16..24], record.subheaders.concat());
    }
}

fn check_edc(record: &Record) {
    let covered = &record.clear[kind(record).covered()];
    assert_eq!(record.clear[kind(record).code()], record.edc);
    for edc in [edc_bitwise, edc_by_table, edc_sliced] {
        assert_eq!(edc(covered).to_le_bytes(), record.edc[..]);
    }
}

/// Over spoiled bytes; by the call that knows mode 1 alone too.
fn check_seal(record: &Record) {
    let mut sector = record.unsealed();
    seal_xa(&mut sector, address(record), record.kind, record.subheader()).unwrap();
    assert_eq!(sector, record.scrambled);
    if record.is_mode_1() {
        let mut sector = record.unsealed();
        seal(&mut sector, address(record)).unwrap();
        assert_eq!(sector, record.scrambled);
    }
}

fn check_open_and_judge(record: &Record) {
    let mut sector = record.scrambled.clone();
    open(&mut sector).unwrap();
    assert_eq!(sector, record.clear);
    assert!(judge(&sector, address(record)).unwrap().is_good());
    assert_eq!(judge(&sector, address(record).next()).unwrap().why(), 1);
    assert_eq!(parity_holds(&sector), Ok(true));
    seal_xa(&mut sector, address(record), record.kind, record.subheader()).unwrap();
    assert_eq!(sector, record.scrambled);
}

#[test]
fn a_record_is_not_sealed_as_the_other_form() {
    for record in records::read().iter().filter(|record| !record.is_mode_1()) {
        let mut sector = record.unsealed();
        let other = 5 - record.kind;
        assert_eq!(seal_xa(&mut sector, address(record), other, record.subheader()), Err(Refusal::OtherForm));
        assert_eq!(sector, record.unsealed());
    }
}

#[test]
fn every_record_is_scrambled_alike() {
    for record in records::read() {
        let mut sector = record.clear.clone();
        scramble(&mut sector[12..]);
        assert_eq!(sector, record.scrambled);
    }
}

/// Form 2 has no parity: user bytes and the code stand there.
#[test]
fn words_hold_by_the_rule_of_the_record_and_not_by_the_other() {
    for record in records::read() {
        assert_eq!(words_hold(&record.clear, Kind::Mode1), Ok(record.is_mode_1()));
        assert_eq!(words_hold(&record.clear, Kind::Form1), Ok(record.is_form_1()));
        assert_eq!(words_hold(&record.clear, Kind::Form2), Ok(true));
    }
}

#[test]
fn a_wrong_byte_at_the_end_is_seen_by_parity_or_else_by_the_code() {
    for record in records::read() {
        for place in P_PARITY_START..SECTOR_BYTES {
            let mut sector = record.clear.clone();
            sector[place] ^= 1 << (place % 8);
            let (holds, why) = if kind(&record).has_parity() { (false, 0) } else { (true, 2) };
            assert_eq!(parity_holds(&sector), Ok(holds), "byte {place}");
            assert_eq!(judge(&sector, address(&record)).unwrap().why(), why, "byte {place}");
        }
    }
}
