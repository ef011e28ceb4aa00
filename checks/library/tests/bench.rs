//! The bench of the library against the model's, a text in each call: every
//! byte of the answers, of the ring's memory and of the sector buffer.

use cdrom::{raw, ANSWER_ROOM};
use ecma130::SECTOR_BYTES;
use model::{parse, random_script, Bench, Call, Random, BLOCK_BYTES};
use std::ops::Range;

const MEMORY_BYTES: usize = 25 * BLOCK_BYTES;
/// Answers 1 and changes nothing.
const REFUSED: &[u8] = b"call=open ring=0";

/// What makes an opened ring take sectors.
const SWITCHES: &[u8] = b"call=write reg=154 value=32\ncall=write reg=156 value=96\ncall=write reg=10 value=128\n";
const OPEN: &[u8] = b"call=open ring=25\n";
/// A form 2 with the form bit high, and with it low.
const FORM_2: &[u8] = b"call=kind number=3\ncall=subheader file=1 channel=2 submode=40 coding=4\n";
const OTHER_FORM: &[u8] = b"call=kind number=3\ncall=subheader file=1 channel=2 submode=8 coding=4\n";
const SECTOR: &[u8] = b"call=sector min=0 sec=2 frame=0 fill=7\n";
const REST: &[u8] = b"call=look\ncall=word\ncall=status\ncall=read reg=157\n";

/// What is lent for a run.
#[derive(Clone, PartialEq)]
struct Lent {
    memory: Vec<u8>,
    sector: Vec<u8>,
    out: Vec<u8>,
}

impl Lent {
    /// Stale bytes of any values, and room for every answer.
    fn stale(seed: u64, text: &[u8]) -> Lent {
        let mut random = Random::new(seed);
        let lines = text.iter().filter(|&&byte| byte == b'\n').count();
        Lent {
            memory: random.bytes(MEMORY_BYTES),
            sector: random.bytes(SECTOR_BYTES),
            out: random.bytes(ANSWER_ROOM * (lines + 1)),
        }
    }

    fn run(&mut self, text: &[u8]) -> usize {
        cdrom::bench(&mut self.memory, &mut self.sector, text, &mut self.out)
    }

    /// What the model leaves, line by line: an accepted sector line leaves its
    /// sector in the buffer as it arrived, and no other line a byte.
    fn run_by_model(&mut self, text: &[u8]) -> usize {
        let mut bench = Bench::over(std::mem::take(&mut self.memory));
        let mut size = 0;
        for line in ended_lines(text) {
            if self.out.len() - size < ANSWER_ROOM {
                break;
            }
            let opened = bench.chip().is_some();
            let answer = match parse(line) {
                Some(Call::Sector { .. }) if opened && self.sector.len() != SECTOR_BYTES => bench.line(REFUSED),
                Some(Call::Sector { address, fill }) if opened => {
                    let (disc, answer) = (bench.disc(), bench.line(line));
                    if answer.contains(" answer=0 ") {
                        self.sector = disc.arriving(address, fill).expect("an accepted sector can be sealed");
                    }
                    answer
                }
                _ => bench.line(line),
            };
            let printed = answer + "\n";
            self.out[size..][..printed.len()].copy_from_slice(printed.as_bytes());
            size += printed.len();
        }
        self.memory = bench.into_memory();
        size
    }
}

fn ended_lines(text: &[u8]) -> impl Iterator<Item = &[u8]> {
    text.split_inclusive(|&byte| byte == b'\n').filter_map(|line| line.strip_suffix(b"\n"))
}

/// Runs a text on both, compares all that is left, and hands it on.
#[track_caller]
fn hold(start: &Lent, text: &[u8]) -> (Lent, usize) {
    let (mut found, mut expected) = (start.clone(), start.clone());
    let (size, model_size) = (found.run(text), expected.run_by_model(text));
    let printed = |lent: &Lent, size| String::from_utf8_lossy(&lent.out[..size]).into_owned();
    let (library, model) = (printed(&found, size), printed(&expected, model_size));
    let difference = model.lines().zip(library.lines()).find(|(model, library)| model != library);
    assert_eq!(difference, None, "model and library");
    assert_eq!(size, model_size, "bytes printed");
    assert!(found.out == expected.out, "bytes behind the answers");
    for block in 0..start.memory.len().div_ceil(BLOCK_BYTES) {
        assert!(part(&found.memory, block) == part(&expected.memory, block), "block {block}");
    }
    assert!(found == expected, "the sector buffer, or a length");
    (found, size)
}

fn part(memory: &[u8], block: usize) -> &[u8] {
    &memory[block * BLOCK_BYTES..memory.len().min((block + 1) * BLOCK_BYTES)]
}

fn answers_of(lent: &Lent, size: usize) -> Vec<String> {
    let text = String::from_utf8(lent.out[..size].to_vec()).expect("answers are ASCII");
    text.lines().map(|line| line.split(' ').nth(1).expect("a second field").to_string()).collect()
}

#[test]
fn random_scripts() {
    let mut written = 0;
    for seed in 1..=60 {
        let text = random_script(seed, 2000);
        let start = Lent::stale(seed, &text);
        let (end, _) = hold(&start, &text);
        for block in 0..25 {
            let (before, after) = (part(&start.memory, block), part(&end.memory, block));
            assert!(before[SECTOR_BYTES..] == after[SECTOR_BYTES..], "behind the sector in block {block}");
            written += (before[..SECTOR_BYTES] != after[..SECTOR_BYTES]) as usize;
        }
    }
    assert!(written > 300, "only {written} blocks were written");
}

/// So that memory and sector buffer are compared after every line, and nothing
/// is left of one call in the next.
#[test]
fn every_first_part_of_a_random_script() {
    for seed in 101..=106 {
        let text = random_script(seed, 200);
        let start = Lent::stale(seed, &text);
        let ends = (0..=text.len()).filter(|&end| end == 0 || text[end - 1] == b'\n');
        ends.for_each(|end| drop(hold(&start, &text[..end])));
    }
}

#[test]
fn stale_bytes_change_no_answer() {
    for seed in 201..=220 {
        let text = random_script(seed, 1000);
        let (mut one, mut other) = (Lent::stale(1, &text), Lent::stale(2, &text));
        let (size, other_size) = (one.run(&text), other.run(&text));
        assert!(one.out[..size] == other.out[..other_size], "seed {seed}");
    }
}

/// Cut at every byte: a line whose newline is not there is not run.
#[test]
fn a_line_without_its_newline_is_not_run() {
    let text = [OPEN, SWITCHES, SECTOR, REST].concat();
    let start = Lent::stale(3, &text);
    for end in 0..=text.len() {
        let (left, size) = hold(&start, &text[..end]);
        let newlines = text[..end].iter().filter(|&&byte| byte == b'\n').count();
        assert_eq!(answers_of(&left, size).len(), newlines);
    }
    assert!(hold(&start, SECTOR.strip_suffix(b"\n").expect("a newline")).0 == start);
}

#[test]
fn an_empty_text_changes_nothing() {
    let start = Lent::stale(4, b"");
    assert!(hold(&start, b"") == (start, 0));
}

/// Every size of output: lines are run while there is room for an answer, and no byte
/// behind the answers is changed.
#[test]
fn room_for_some_of_the_answers() {
    let text = [OPEN, SWITCHES, SECTOR, REST, OPEN, SWITCHES, FORM_2, SECTOR, &random_script(301, 20)].concat();
    let mut start = Lent::stale(5, &text);
    let all = start.out.clone();
    for room in 0..=all.len().min(10 * ANSWER_ROOM) {
        start.out = all[..room].to_vec();
        let (end, size) = hold(&start, &text);
        match room {
            0..ANSWER_ROOM => assert!(size == 0 && end == start, "{room} bytes"),
            ANSWER_ROOM => assert_eq!(answers_of(&end, size), ["answer=0"]),
            _ => assert!(size > 0 && size <= room),
        }
    }
}

#[test]
fn memory_of_any_length() {
    let text = [OPEN, SWITCHES, SECTOR, REST].concat();
    let mut start = Lent::stale(6, &text);
    let memory = Random::new(7).bytes(MEMORY_BYTES + BLOCK_BYTES);
    for length in [0, 1, 2351, 2352, 2559, 2560, 7680, MEMORY_BYTES - 1, MEMORY_BYTES, MEMORY_BYTES + 1, memory.len()] {
        start.memory = memory[..length].to_vec();
        let (end, size) = hold(&start, &text);
        let fits = length >= MEMORY_BYTES;
        assert_eq!(answers_of(&end, size)[4], if fits { "answer=0" } else { "answer=1" }, "{length} bytes");
        assert_eq!(end.memory == start.memory, !fits, "{length} bytes");
        for seed in 401..=404 {
            let text = random_script(seed, 500);
            hold(&Lent { memory: start.memory.clone(), ..Lent::stale(seed, &text) }, &text);
        }
    }
}

/// After the same lines with and without a refused one at their end, the stale
/// bytes that are left and those that were written are the same; also where a scratch waits.
#[test]
fn a_refused_sector_line_changes_no_byte() {
    let opened = b"call=open ring=3\n".to_vec();
    let decoding = [&opened, SWITCHES].concat();
    let scratched = |before: &[u8]| [before, b"call=scratch from=0 count=2352\n"].concat();
    let held = [&decoding[..], b"call=sector min=0 sec=9 frame=9 fill=8\n"].concat();
    let full = [&decoding[..], SECTOR, b"call=sector min=0 sec=2 frame=1 fill=9\n"].concat();
    let other_form = |before: &[u8]| [before, OTHER_FORM].concat();
    let cases = [
        (&other_form(&decoding), SECTOR, "answer=3"),
        (&other_form(&opened), SECTOR, "answer=3"),
        (&other_form(&held), SECTOR, "answer=3"),
        (&other_form(&full), SECTOR, "answer=3"),
        (&other_form(&scratched(&decoding)), SECTOR, "answer=3"),
        (&decoding, &b"call=sector min=0 sec=2 frame=0 fill=256\n"[..], "answer=3"),
        (&decoding, b"call=sector min=0 sec=60 frame=0 fill=5\n", "answer=3"),
        (&full, b"call=sector min=100 sec=2 frame=0 fill=5\n", "answer=3"),
        (&vec![], b"call=sector min=0 sec=2 frame=0 fill=5\n", "answer=5"),
        (&opened, b"call=sector min=0 sec=2 frame=0 fill=5\n", "answer=7"),
        (&held, b"call=sector min=0 sec=2 frame=0 fill=5\n", "answer=8"),
        (&full, b"call=sector min=0 sec=2 frame=2 fill=5\n", "answer=9"),
        (&scratched(&decoding), b"call=sector min=0 sec=2 frame=0 fill=256\n", "answer=3"),
        (&scratched(&opened), b"call=sector min=0 sec=2 frame=0 fill=5\n", "answer=7"),
        (&scratched(&held), b"call=sector min=0 sec=2 frame=0 fill=5\n", "answer=8"),
        (&scratched(&full), b"call=sector min=0 sec=2 frame=2 fill=5\n", "answer=9"),
    ];
    for (before, line, number) in cases {
        let text = [before, line].concat();
        let start = Lent::stale(12, &text);
        let (without, _) = hold(&start, before);
        let (with, size) = hold(&start, &text);
        assert_eq!(answers_of(&with, size).last().map(String::as_str), Some(number));
        assert!(with.memory == without.memory && with.sector == without.sector, "{number}");
    }
}

/// Where nothing waits for a sector, where something does, and after a sector.
#[test]
fn a_line_of_the_disc_changes_no_byte() {
    let lines: [(&[u8], &str); 12] = [
        (b"call=scratch from=0 count=2352\n", "answer=0"),
        (b"call=scratch from=2352 count=0\n", "answer=0"),
        (b"call=scratch from=65535 count=0\n", "answer=3"),
        (b"call=scratch from=1 count=65535\n", "answer=3"),
        (b"call=scratch from=0 count=65536\n", "answer=2"),
        (b"call=scratch from=0\n", "answer=2"),
        (b"call=kind number=3\n", "answer=0"),
        (b"call=kind number=257\n", "answer=3"),
        (b"call=kind number=65536\n", "answer=2"),
        (b"call=subheader file=255 channel=255 submode=255 coding=255\n", "answer=0"),
        (b"call=subheader file=255 channel=255 submode=255 coding=256\n", "answer=3"),
        (b"call=subheader file=255 channel=255 submode=255\n", "answer=2"),
    ];
    let waiting = [OPEN, SWITCHES, b"call=scratch from=9 count=9\n"].concat();
    let stored = [OPEN, SWITCHES, FORM_2, SECTOR].concat();
    for before in [OPEN, &waiting, &stored] {
        for (line, number) in lines {
            let text = [before, line].concat();
            let start = Lent::stale(13, &text);
            let (without, _) = hold(&start, before);
            let (with, size) = hold(&start, &text);
            assert_eq!(answers_of(&with, size).last().map(String::as_str), Some(number));
            assert!(with.memory == without.memory && with.sector == without.sector, "{number}");
        }
    }
}

/// Told from the library's own sector calls, for runs about every edge of a field and the whole sector.
#[test]
fn the_buffer_and_the_block_hold_the_sector_as_it_arrived() {
    let header = [0..1, 0..12, 11..13, 12..15, 15..16, 16..24, 18..19, 20..24];
    let data_and_code = [16..2064, 2063..2065, 2064..2068, 2067..2077, 2072..2076, 2347..2349];
    let parity = [2068..2352, 2076..2248, 2247..2249, 2248..2352, 2351..2352, 0..2352, 2352..2352];
    for run in header.into_iter().chain(data_and_code).chain(parity) {
        for (kind, user, submode) in [(1, 16..2064, 40), (2, 24..2072, 8), (3, 24..2348, 40)] {
            let mut sector = vec![0; SECTOR_BYTES];
            sector[user].fill(7);
            // SAFETY: the pointer and the length are those of the sector, and the subheader is four bytes.
            let answer = unsafe { raw::cdrom_seal_xa(sector.as_mut_ptr(), 2352, 0, 2, 0, kind, &[1, 2, submode, 4]) };
            assert_eq!(answer, 0);
            hold_arrival(run.clone(), kind, submode, sector);
        }
    }
}

/// The sector as it was made, and the run of its bytes that is inverted.
fn hold_arrival(run: Range<usize>, kind: u16, submode: u8, mut sector: Vec<u8>) {
    let disc = format!(
        "call=subheader file=1 channel=2 submode={submode} coding=4\ncall=kind number={kind}\n\
         call=scratch from={} count={}\n",
        run.start,
        run.len()
    );
    let text = [OPEN, SWITCHES, disc.as_bytes(), SECTOR].concat();
    let (end, _) = hold(&Lent::stale(14, &text), &text);
    sector[run.clone()].iter_mut().for_each(|byte| *byte = !*byte);
    assert!(end.sector == sector, "{run:?} of kind {kind}");
    cdrom::open(&mut sector).expect("a sector");
    assert!(end.memory[..SECTOR_BYTES] == sector, "{run:?} of kind {kind}");
}

#[test]
fn a_sector_buffer_of_another_length() {
    let text = [OPEN, SWITCHES, SECTOR, REST].concat();
    for length in [0, 1, 12, 2064, 2351, 2353, 4704] {
        let sector = Random::new(8).bytes(length);
        let start = Lent { sector: sector.clone(), ..Lent::stale(9, &text) };
        let (end, size) = hold(&start, &text);
        let done = ["answer=0"; 4];
        let rest = ["answer=1", "answer=0", "answer=5", "answer=0", "answer=0"];
        assert_eq!(answers_of(&end, size), [&done[..], &rest].concat(), "{length} bytes");
        assert!(end.memory == start.memory && end.sector == sector, "{length} bytes");
        for seed in 501..=504 {
            let text = random_script(seed, 500);
            hold(&Lent { sector: sector.clone(), ..Lent::stale(seed, &text) }, &text);
        }
    }
}

#[test]
fn any_bytes() {
    for seed in 601..=610 {
        let mut random = Random::new(seed);
        let mut text = random.bytes(20_000);
        hold(&Lent::stale(seed, &text), &text);
        text = random_script(seed, 1000);
        for _ in 0..200 {
            let place = random.below(text.len() as u64) as usize;
            let any = random.below(256) as u8;
            text[place] = random.pick(&[b'\n', b' ', b'0', any]);
        }
        hold(&Lent::stale(seed, &text), &text);
    }
    let long = [OPEN, SWITCHES, &vec![b'0'; 1 << 20], b"\n", SECTOR].concat();
    hold(&Lent::stale(10, &long), &long);
}
