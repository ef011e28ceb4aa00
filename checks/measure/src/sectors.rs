//! The library's calls beside the independent code, on the same sector.

use crate::timing::{repeat_row, row, tasks_of, time_all, Row, Timing};
use cdrom::{Kind, Subheader};
use ecma130::{edc_by_table, edc_sliced, EDC_START, SECTOR_BYTES};
use std::cell::RefCell;
use std::fmt::Debug;
use std::hint::black_box;

const CALLS: u32 = 200;

const OPEN: &str = "open 2,352 bytes";
const EDC: &str = "EDC of 2,064 bytes";
const OPEN_AND_JUDGE: &str = "memcpy, open and judge";
const SEAL: &str = "seal";
const SEAL_FORM1: &str = "seal form 1";
const SEAL_FORM2: &str = "seal form 2";
const JUDGE: &str = "judge";
const JUDGE_FORM1: &str = "judge form 1";
const JUDGE_FORM2: &str = "judge form 2";
const PARITY: &str = "parity check of 138 words";
const PARITY_FORM1: &str = "parity check of form 1";
const NEXT: &str = "the next address";

const LIBRARY: &str = "library";
const INDEPENDENT: &str = "independent";
const BY_TABLE: &str = "byte table";
const SLICED: &str = "sliced by eight";

/// The library's time is to be at most this part of that of the EDC by byte table, in the same run.
const AIMS: [(&str, f64); 2] = [(SEAL, 0.33), (PARITY, 0.22)];
/// The library's time is to be at most so many times that of the same task in mode 1, in the same run. Form 2 is
/// sealed without parity, which has no aim.
const AIMS_OF_FORMS: [(&str, &str, Option<f64>); 5] = [
    (SEAL_FORM1, SEAL, Some(1.1)),
    (SEAL_FORM2, SEAL, None),
    (JUDGE_FORM1, JUDGE, Some(1.1)),
    (JUDGE_FORM2, JUDGE, Some(1.2)),
    (PARITY_FORM1, PARITY, Some(1.1)),
];

const ADDRESS: ecma130::Address = ecma130::Address::new(12, 34, 56);
const LENT: cdrom::Address = cdrom::Address { minute: 12, second: 34, frame: 56 };

const DATA_OF_FORM1: Subheader = Subheader { file: 0, channel: 0, submode: 0x08, coding: 0 };
const AUDIO_OF_FORM2: Subheader = Subheader { file: 1, channel: 1, submode: 0x64, coding: 0x7F };

/// A good sector of mode 1 on the disc, the same opened, one of each form opened, and the buffer that all calls work
/// in.
struct Bytes {
    sealed: [u8; SECTOR_BYTES],
    opened: [u8; SECTOR_BYTES],
    form1: [u8; SECTOR_BYTES],
    form2: [u8; SECTOR_BYTES],
    work: RefCell<[u8; SECTOR_BYTES]>,
}

/// The last column is a row's best time over the library's at the same task: above 1 the library is the faster.
pub fn print() {
    let bytes = Bytes::new();
    let mut rows = rows(&bytes);
    let timings = time_all(&mut rows, CALLS);
    println!("{:<28}{:<20}{:>8}{:>8}{:>12}", "ns a call", "", "best", "median", "to library");
    for (row, timing) in rows.iter().zip(&timings) {
        let ratio = timing.best / best(&rows, &timings, row.task, LIBRARY);
        println!("{:<28}{:<20}{:>8.0}{:>8.0}{ratio:>12.2}", row.task, row.code, timing.best, timing.median);
    }
    println!("\n{:<48}{:>8}{:>8}", "best over that of the EDC by byte table", "is", "aim");
    for (task, aim) in AIMS {
        let ratio = best(&rows, &timings, task, LIBRARY) / best(&rows, &timings, EDC, BY_TABLE);
        println!("{task:<28}{LIBRARY:<20}{ratio:>8.2}{aim:>8.2}");
    }
    println!("\n{:<48}{:>8}{:>8}", "best over that of mode 1", "is", "aim");
    for (task, mode_1, aim) in AIMS_OF_FORMS {
        let ratio = best(&rows, &timings, task, LIBRARY) / best(&rows, &timings, mode_1, LIBRARY);
        let aim = aim.map_or("-".to_string(), |aim| format!("{aim:.2}"));
        println!("{task:<28}{LIBRARY:<20}{ratio:>8.2}{aim:>8}");
    }
}

/// Makes so many calls of the library at a task, and nothing else; whether there is such a task.
pub fn repeat(task: &str, calls: u32) -> bool {
    repeat_row(&mut rows(&Bytes::new()), task, LIBRARY, calls)
}

/// The tasks that the library has a row for.
pub fn tasks() -> Vec<&'static str> {
    tasks_of(&rows(&Bytes::new()), LIBRARY)
}

fn best(rows: &[Row], timings: &[Timing], task: &str, code: &str) -> f64 {
    let place = rows.iter().position(|row| row.task == task && row.code == code);
    timings[place.expect("each task has a row of that code")].best
}

impl Bytes {
    fn new() -> Bytes {
        let sealed = sealed(Kind::Mode1, DATA_OF_FORM1);
        Bytes {
            sealed,
            opened: opened(sealed),
            form1: opened(self::sealed(Kind::Form1, DATA_OF_FORM1)),
            form2: opened(self::sealed(Kind::Form2, AUDIO_OF_FORM2)),
            work: RefCell::new(sealed),
        }
    }

    /// The bytes are those of the sealed sector, header and user bytes; what they hold does not matter here.
    fn edc(&self, edc: impl Fn(&[u8]) -> u32) {
        black_box(edc(black_box(&self.sealed[..EDC_START])));
    }

    /// A good sector, so that no check ends early.
    fn parity<E: Debug>(&self, parity: impl Fn(&[u8]) -> Result<bool, E>) {
        assert!(parity(black_box(&self.opened)).unwrap());
    }

    fn seal(&self, kind: Kind, subheader: Subheader) {
        self.change(|sector| cdrom::seal_xa(sector, LENT, kind, subheader).unwrap());
    }

    fn change(&self, change: impl Fn(&mut [u8])) {
        change(black_box(&mut *self.work.borrow_mut()));
    }

    /// A fresh copy each time, so that a good sector is judged: opened twice, it would be scrambled again.
    fn fresh(&self, change: impl Fn(&mut [u8])) {
        let mut work = self.work.borrow_mut();
        work.copy_from_slice(black_box(&self.sealed));
        change(black_box(&mut *work));
    }
}

fn rows(bytes: &Bytes) -> Vec<Row<'_>> {
    vec![
        row(OPEN, LIBRARY, || bytes.change(|s| cdrom::open(s).unwrap())),
        row(OPEN, INDEPENDENT, || bytes.change(|s| ecma130::open(s).unwrap())),
        row(OPEN, "memcpy alone", || bytes.fresh(|_| ())),
        row(EDC, LIBRARY, || bytes.edc(cdrom::edc)),
        row(EDC, BY_TABLE, || bytes.edc(edc_by_table)),
        row(EDC, SLICED, || bytes.edc(edc_sliced)),
        row(OPEN_AND_JUDGE, LIBRARY, || bytes.fresh(open_and_judge)),
        row(OPEN_AND_JUDGE, BY_TABLE, || bytes.fresh(|s| independent(edc_by_table, s))),
        row(OPEN_AND_JUDGE, SLICED, || bytes.fresh(|s| independent(edc_sliced, s))),
        row(SEAL, LIBRARY, || bytes.change(|s| cdrom::seal(s, LENT).unwrap())),
        row(SEAL, BY_TABLE, || bytes.change(|s| ecma130::seal_with(edc_by_table, s, ADDRESS).unwrap())),
        row(SEAL, SLICED, || bytes.change(|s| ecma130::seal_with(edc_sliced, s, ADDRESS).unwrap())),
        row(PARITY, LIBRARY, || bytes.parity(cdrom::parity)),
        row(PARITY, INDEPENDENT, || bytes.parity(ecma130::parity_holds)),
        row(SEAL_FORM1, LIBRARY, || bytes.seal(Kind::Form1, DATA_OF_FORM1)),
        row(SEAL_FORM2, LIBRARY, || bytes.seal(Kind::Form2, AUDIO_OF_FORM2)),
        row(JUDGE, LIBRARY, || judge(&bytes.opened)),
        row(JUDGE_FORM1, LIBRARY, || judge(&bytes.form1)),
        row(JUDGE_FORM2, LIBRARY, || judge(&bytes.form2)),
        row(PARITY_FORM1, LIBRARY, || assert!(cdrom::parity(black_box(&bytes.form1)).unwrap())),
        row(NEXT, LIBRARY, || assert!(black_box(cdrom::next_address(black_box(LENT))).is_ok())),
        row(NEXT, INDEPENDENT, || assert!(black_box(black_box(ADDRESS).next()).is_valid())),
    ]
}

fn sealed(kind: Kind, subheader: Subheader) -> [u8; SECTOR_BYTES] {
    let mut sector = std::array::from_fn(|place| (place * 151) as u8);
    cdrom::seal_xa(&mut sector, LENT, kind, subheader).unwrap();
    sector
}

fn opened(mut sector: [u8; SECTOR_BYTES]) -> [u8; SECTOR_BYTES] {
    cdrom::open(&mut sector).unwrap();
    sector
}

fn judge(sector: &[u8]) {
    assert!(cdrom::judge(black_box(sector), LENT).unwrap().is_good());
}

fn open_and_judge(sector: &mut [u8]) {
    cdrom::open(sector).unwrap();
    judge(sector);
}

fn independent(edc: impl Fn(&[u8]) -> u32, sector: &mut [u8]) {
    ecma130::open(sector).unwrap();
    assert!(ecma130::judge_with(edc, black_box(sector), ADDRESS).unwrap().is_good());
}

#[cfg(test)]
mod tests {
    use super::*;

    /// Each row is of the kind that its name says, and form 2 has its code: without one it would be judged in no time.
    #[test]
    fn the_sectors_are_of_their_kinds() {
        let bytes = Bytes::new();
        let kinds = [&bytes.opened, &bytes.form1, &bytes.form2].map(|sector| cdrom::Kind::of(sector));
        assert_eq!(kinds, [Ok(Kind::Mode1), Ok(Kind::Form1), Ok(Kind::Form2)]);
        assert_ne!(bytes.form2[2348..], [0; 4]);
        rows(&bytes).iter_mut().for_each(|row| (row.call)());
    }

    #[test]
    fn a_task_is_repeated_alone() {
        assert!(tasks().into_iter().all(|task| repeat(task, 2)));
        assert!(!repeat("seal form 3", 1));
    }
}
