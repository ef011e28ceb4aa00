//! The bench's lines in the library beside the model's bench, on the same texts.
//! A text is run whole, from no chip at all. What lines take is the difference
//! of two texts that are alike but for them: so the setup falls out, and where
//! status reads stand in their place also reading and printing a line.

use crate::timing::{row, time_all, Timing};
use cdrom::ANSWER_ROOM;
use ecma130::SECTOR_BYTES;
use model::{Bench, BLOCK_BYTES};
use std::cell::RefCell;
use std::hint::black_box;

const CALLS: u32 = 10;
/// A ring of 25 blocks holds 24 sectors.
const SECTORS: usize = 24;
const WORDS: usize = 1024;

const TEXT: &str = "a text";
const LIBRARY: &str = "library";
const MODEL: &str = "model";

/// A ring of 25 blocks with its limit on, ACMEN, TCINCEN, ADCEN, a window of a sector's user bytes, DECEN, and BSY by a command.
const SETUP: [&str; 7] = [
    "call=open ring=25",
    "call=write reg=154 value=32",
    "call=write reg=156 value=96",
    "call=write reg=24 value=64",
    "call=window offset=16 words=1024",
    "call=write reg=10 value=128",
    "call=command code=8",
];

/// What is lent for a run.
struct Buffers {
    memory: Vec<u8>,
    sector: [u8; SECTOR_BYTES],
    out: Vec<u8>,
}

/// The last column is the model's best time over the library's at the same lines: above 1 the library is the faster.
pub fn print() {
    let texts = texts();
    let buffers = RefCell::new(Buffers::new());
    let library = texts.each_ref().map(|text| row(TEXT, LIBRARY, || buffers.borrow_mut().library(text)));
    let model = texts.each_ref().map(|text| row(TEXT, MODEL, || buffers.borrow_mut().model(text)));
    let timings = time_all(&mut library.into_iter().chain(model).collect::<Vec<_>>(), CALLS);
    let (library, model) = timings.split_at(texts.len());
    println!("\n{:<36}{:<12}{:>8}{:>8}{:>12}", "ns", "", "best", "median", "to library");
    for ((task, library), (_, model)) in figures(library).into_iter().zip(figures(model)) {
        for (code, timing) in [(LIBRARY, library), (MODEL, model)] {
            let ratio = timing.best / library.best;
            println!("{task:<36}{code:<12}{:>8.0}{:>8.0}{ratio:>12.2}", timing.best, timing.median);
        }
    }
}

/// What lines take, from the times of the texts.
fn figures(times: &[Timing]) -> [(&'static str, Timing); 4] {
    let &[filled, not_filled, started, words, statuses] = times else {
        unreachable!("a time for each text");
    };
    [
        ("status line", statuses.less(started).over(WORDS)),
        ("sector line, less a status line", filled.less(not_filled).over(SECTORS)),
        ("1,024 word lines", words.less(started)),
        ("1,024 word lines, less status lines", words.less(statuses)),
    ]
}

impl Buffers {
    fn new() -> Buffers {
        let lines = SETUP.len() + 2 + WORDS;
        Buffers { memory: vec![0; 25 * BLOCK_BYTES], sector: [0; SECTOR_BYTES], out: vec![0; lines * ANSWER_ROOM] }
    }

    fn library(&mut self, text: &str) {
        let size = cdrom::bench(&mut self.memory, &mut self.sector, black_box(text.as_bytes()), &mut self.out);
        black_box(&self.out[..size]);
    }

    /// In the same memory; the model makes room for each sector and each answer.
    fn model(&mut self, text: &str) {
        let mut bench = Bench::over(std::mem::take(&mut self.memory));
        for line in black_box(text).lines() {
            black_box(bench.line(line.as_bytes()));
        }
        self.memory = bench.into_memory();
    }
}

/// A ring filled, and status reads instead; a transfer started alone, with its words read, and with status reads instead.
fn texts() -> [String; 5] {
    let start = [sector(0), "call=write reg=23 value=4".to_string()];
    let lines = |line: &str, count| vec![line.to_string(); count];
    [
        text(&(0..SECTORS).map(sector).collect::<Vec<_>>(), &[]),
        text(&lines("call=status", SECTORS), &[]),
        text(&start, &[]),
        text(&start, &lines("call=word", WORDS)),
        text(&start, &lines("call=status", WORDS)),
    ]
}

/// The lines behind the setup.
fn text(first: &[String], rest: &[String]) -> String {
    let lines = first.iter().chain(rest).map(String::as_str);
    SETUP.into_iter().chain(lines).map(|line| format!("{line}\n")).collect()
}

/// The sector that is expected after `count` good ones.
fn sector(count: usize) -> String {
    let frames = count + 150;
    format!("call=sector min={} sec={} frame={} fill={}", frames / 4500, frames / 75 % 60, frames % 75, count % 256)
}

#[cfg(test)]
mod tests {
    use super::*;

    /// A refused line would be timed for nothing, and one that does not fit would not be run.
    #[test]
    fn every_timed_line_is_answered_0() {
        for text in texts() {
            let mut buffers = Buffers::new();
            let size = cdrom::bench(&mut buffers.memory, &mut buffers.sector, text.as_bytes(), &mut buffers.out);
            let (mut bench, answers) = (Bench::new(), String::from_utf8_lossy(&buffers.out[..size]));
            assert_eq!(answers.lines().count(), text.lines().count());
            for (line, answer) in text.lines().zip(answers.lines()) {
                assert!(answer.contains(" answer=0 "), "{line}: {answer}");
                assert_eq!(answer, bench.line(line.as_bytes()));
            }
        }
    }
}
