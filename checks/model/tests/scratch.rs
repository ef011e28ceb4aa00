//! Scratches on the bench: how long they wait, what they make of a sector, and which values of `why` can come.

use ecma130::{edc_bitwise, open, Address, Kind, FIRST_COPY, SECOND_COPY, SECTOR_BYTES};
use model::{sealed, Bench, BLOCK_BYTES, CHOSEN, CHOSEN_AT_FIRST_ADDRESS};
use std::collections::BTreeSet;
use std::ops::Range;

/// By hand: a scratch in user bytes and parity that outlasts refusals, then one of the sync for a sector that is not due.
const LISTING: &str = "
call=scratch from=0 count=1                 | n=1 answer=5 out=0 tcc=0 bufc=0 why=0 irq=0
call=scratch from=0 count=65536             | n=2 answer=2 out=0 tcc=0 bufc=0 why=0 irq=0
call=open ring=3                            | n=3 answer=0 out=0 tcc=0 bufc=0 why=0 irq=0
call=scratch from=16 count=2336             | n=4 answer=0 out=0 tcc=0 bufc=0 why=0 irq=0
call=scratch from=16 count=2337             | n=5 answer=3 out=0 tcc=0 bufc=0 why=0 irq=0
call=scratch from=65535 count=0             | n=6 answer=3 out=0 tcc=0 bufc=0 why=0 irq=0
call=scratch from=65535 count=2353          | n=7 answer=3 out=0 tcc=0 bufc=0 why=0 irq=0
call=write reg=154 value=32                 | n=8 answer=0 out=0 tcc=0 bufc=0 why=0 irq=0
call=write reg=156 value=96                 | n=9 answer=0 out=0 tcc=0 bufc=0 why=0 irq=0
call=sector min=0 sec=2 frame=0 fill=65     | n=10 answer=7 out=0 tcc=0 bufc=0 why=0 irq=0
call=write reg=10 value=128                 | n=11 answer=0 out=0 tcc=0 bufc=0 why=0 irq=0
call=sector min=0 sec=2 frame=0 fill=65     | n=12 answer=0 out=64 tcc=0 bufc=1 why=2 irq=0
call=scratch from=0 count=12                | n=13 answer=0 out=0 tcc=0 bufc=1 why=2 irq=0
call=sector min=0 sec=2 frame=1 fill=65     | n=14 answer=8 out=0 tcc=0 bufc=1 why=2 irq=0
call=write reg=10 value=0                   | n=15 answer=0 out=0 tcc=0 bufc=0 why=2 irq=0
call=read reg=128                           | n=16 answer=0 out=64 tcc=0 bufc=0 why=2 irq=0
call=write reg=10 value=128                 | n=17 answer=0 out=0 tcc=0 bufc=0 why=2 irq=0
call=sector min=0 sec=2 frame=1 fill=65     | n=18 answer=0 out=65 tcc=0 bufc=1 why=11 irq=0
call=open ring=2                            | n=19 answer=1 out=0 tcc=0 bufc=1 why=11 irq=0
call=open ring=3                            | n=20 answer=0 out=0 tcc=0 bufc=0 why=0 irq=0
";

const OPEN: &str = "call=open ring=3";
const DECODING: [&str; 3] =
    ["call=write reg=154 value=32", "call=write reg=156 value=96", "call=write reg=10 value=128"];
const DECODER_OFF: &str = "call=write reg=10 value=0";
const DECODER_ON: &str = "call=write reg=10 value=128";
const SECTOR: &str = "call=sector min=0 sec=2 frame=0 fill=7";
const USER_SCRATCH: &str = "call=scratch from=16 count=5";
const MODE_SCRATCH: &str = "call=scratch from=15 count=1";
const PARITY_SCRATCH: &str = "call=scratch from=2068 count=284";

/// Where a field of a kind begins: sync, address, mode, the subheader's copies, user bytes, EDC, zeros, parity; and the end.
const EDGES: [usize; 14] = [0, 12, 15, 16, 18, 19, 20, 23, 24, 2064, 2072, 2076, 2348, 2352];

/// What makes sectors of each kind. None is one whose code would fit by another rule.
const KINDS: [(Kind, &str, &str); 3] = [
    (Kind::Mode1, "call=kind number=1", "call=subheader file=1 channel=2 submode=3 coding=4"),
    (Kind::Form1, "call=kind number=2", "call=subheader file=1 channel=2 submode=9 coding=4"),
    (Kind::Form2, "call=kind number=3", "call=subheader file=1 channel=2 submode=100 coding=4"),
];

/// Calls that are no opening and take no sector on a chip that decodes and is held, or has a scratch waiting.
const OTHER_CALLS: [&[&str]; 11] = [
    &[],
    &["call=srst"],
    &["call=look", "call=status", "call=read reg=128", "call=read reg=36"],
    &["call=command code=40", "call=word", "call=send word=1"],
    &[DECODER_OFF],
    &[DECODER_OFF, SECTOR],
    &["call=open ring=2", "call=open ring=26"],
    &["call=scratch from=2352 count=1", "call=scratch from=65535 count=1", "call=scratch from=0"],
    &["call=sector min=0 sec=2 frame=0 fill=256", "call=sector min=0 sec=60 frame=0 fill=7"],
    &[DECODER_OFF, "call=write reg=154 value=48", DECODER_ON, SECTOR, DECODER_OFF, "call=write reg=154 value=32"],
    &["call=nothing"],
];

fn field(printed: &str, key: &str) -> u16 {
    let value = printed.split(' ').find_map(|field| field.strip_prefix(key)?.strip_prefix('='));
    value.expect("a printed key").parse().expect("a printed number")
}

/// `why` after the lines, whatever they answer.
fn why_after(bench: &mut Bench, lines: &[&str]) -> u16 {
    lines.iter().map(|line| field(&bench.line(line.as_bytes()), "why")).last().expect("a line")
}

fn decoding() -> Bench {
    let mut bench = Bench::new();
    why_after(&mut bench, &[OPEN]);
    why_after(&mut bench, &DECODING);
    bench
}

#[test]
fn whole_listing() {
    let mut bench = Bench::new();
    for row in LISTING.trim().lines() {
        let (line, printed) = row.split_once('|').unwrap();
        assert_eq!(bench.line(line.trim().as_bytes()), printed.trim());
    }
}

#[test]
fn a_scratch_waits_for_a_sector_that_is_stored() {
    for lines in OTHER_CALLS {
        let mut bench = decoding();
        why_after(&mut bench, &[USER_SCRATCH]);
        let text = [lines, &[DECODER_OFF, DECODER_ON, SECTOR]].concat();
        assert_eq!(why_after(&mut bench, &text), 2, "{lines:?}");
        // It has gone with its sector, though that was bad.
        assert_eq!(why_after(&mut bench, &[DECODER_OFF, DECODER_ON, SECTOR]), 0, "{lines:?}");
    }
}

#[test]
fn a_chip_reset_does_not_touch_the_disc() {
    let mut bench = decoding();
    why_after(&mut bench, &[USER_SCRATCH, "call=reset"]);
    why_after(&mut bench, &DECODING);
    assert_eq!(why_after(&mut bench, &[SECTOR]), 2);
}

/// A held chip refuses the sector that a scratch waits for.
#[test]
fn a_scratch_outlasts_a_held_chip() {
    let mut bench = decoding();
    assert_eq!(why_after(&mut bench, &[MODE_SCRATCH, SECTOR, USER_SCRATCH, SECTOR, SECTOR]), 6);
    assert_eq!(why_after(&mut bench, &[DECODER_OFF, DECODER_ON, SECTOR]), 2);
}

#[test]
fn a_scratch_goes() {
    let reopened = [&[USER_SCRATCH, OPEN][..], &DECODING].concat();
    let ways: [(&[&str], u16); 6] = [
        (&[USER_SCRATCH, "call=scratch from=16 count=0"], 0),
        (&[USER_SCRATCH, "call=scratch from=2352 count=0"], 0),
        (&[USER_SCRATCH, MODE_SCRATCH], 6),
        (&[USER_SCRATCH, PARITY_SCRATCH], 0),
        (&[PARITY_SCRATCH, USER_SCRATCH], 2),
        (&reopened, 0),
    ];
    for (lines, why) in ways {
        let mut bench = decoding();
        why_after(&mut bench, lines);
        assert_eq!(why_after(&mut bench, &[SECTOR]), why, "{lines:?}");
    }
}

#[test]
fn the_facts_of_a_stored_sector_stay() {
    for lines in OTHER_CALLS {
        let mut bench = decoding();
        assert_eq!(why_after(&mut bench, &[MODE_SCRATCH, SECTOR]), 6);
        for line in lines {
            assert_eq!(why_after(&mut bench, &[line]), 6, "{line} of {lines:?}");
        }
    }
}

/// And of the sixteen only what the last sector has: nothing is added up.
#[test]
fn the_facts_of_the_last_stored_sector_are_kept() {
    let mut bench = decoding();
    assert_eq!(why_after(&mut bench, &["call=scratch from=0 count=2352", SECTOR]), 15);
    assert_eq!(why_after(&mut bench, &[DECODER_OFF, DECODER_ON, USER_SCRATCH, SECTOR]), 2);
    assert_eq!(why_after(&mut bench, &[DECODER_OFF, DECODER_ON, SECTOR]), 0);
    assert_eq!(why_after(&mut bench, &["call=sector min=0 sec=9 frame=9 fill=7"]), 1);
    assert_eq!(why_after(&mut bench, &["call=reset"]), 0);
    why_after(&mut bench, &DECODING);
    assert_eq!(why_after(&mut bench, &[MODE_SCRATCH, SECTOR]), 6);
    assert_eq!(why_after(&mut bench, &[OPEN]), 0);
}

/// Scrambling is XOR, so that what arrives inverted is inverted in the block too.
#[test]
fn the_block_holds_what_arrived() {
    for (line, inverted) in [(USER_SCRATCH, 16..21), (MODE_SCRATCH, 15..16), (PARITY_SCRATCH, 2068..2352)] {
        let mut bench = decoding();
        why_after(&mut bench, &[line, SECTOR]);
        let mut clear = sealed(Address::new(0, 2, 0), 7).unwrap();
        open(&mut clear).unwrap();
        clear[inverted].iter_mut().for_each(|byte| *byte ^= 0xFF);
        let memory = bench.into_memory();
        assert!(memory[..SECTOR_BYTES] == clear, "{line}");
        assert!(memory[SECTOR_BYTES..BLOCK_BYTES].iter().all(|&byte| byte == 0));
    }
}

fn touches(inverted: &Range<usize>, field: Range<usize>) -> bool {
    inverted.start.max(field.start) < inverted.end.min(field.end)
}

/// Whether mode and code must fail. What is read by another rule than it was sealed by has no code that fits.
fn mode_and_code(kind: Kind, inverted: &Range<usize>) -> (bool, bool) {
    let other_mode = touches(inverted, 15..16);
    if kind == Kind::Mode1 {
        return (other_mode, touches(inverted, 0..2068));
    }
    let other_copy = FIRST_COPY.zip(SECOND_COPY).any(|(one, two)| inverted.contains(&one) != inverted.contains(&two));
    let other_form = inverted.contains(&18);
    let code = touches(inverted, kind.covered().start..kind.code().end);
    (other_mode || other_copy, other_mode || other_form || code)
}

/// What must fail, told from the fields that a run touches. An empty run touches none.
fn why_of(kind: Kind, inverted: &Range<usize>, sector: Address, expected: Address) -> u16 {
    let mut header = sector.bcd();
    for (place, byte) in header.iter_mut().enumerate() {
        *byte ^= 0xFF * inverted.contains(&(12 + place)) as u8;
    }
    let (mode, edc) = mode_and_code(kind, inverted);
    8 * touches(inverted, 0..12) as u16 + 4 * mode as u16 + 2 * edc as u16 + (header != expected.bcd()) as u16
}

/// The sector that is due, one that is not, and one whose inverted minute is the expected one.
const ADDRESSES: [(Address, Address); 3] = [
    (Address::new(99, 2, 0), Address::new(99, 2, 0)),
    (Address::new(99, 2, 1), Address::new(99, 2, 0)),
    (Address::new(66, 2, 0), Address::new(99, 2, 0)),
];

fn line_of(name: &str, address: Address) -> String {
    format!("call={name} min={} sec={} frame={}", address.minute, address.second, address.frame)
}

/// Every start of a run, with ends beside it, at every edge of a field and behind it, and at the sector's end.
#[test]
fn a_run_damages_the_fields_that_it_touches() {
    let mut bench = Bench::new();
    for from in 0..=SECTOR_BYTES {
        let ends = EDGES.iter().flat_map(|&edge| [edge, edge + 1]).chain([from, from + 1, from + 2]);
        let ends: BTreeSet<usize> = ends.filter(|&end| end >= from && end <= SECTOR_BYTES).collect();
        ends.into_iter().for_each(|end| hold_run(&mut bench, from..end));
    }
}

/// In every kind at every address where the run begins with the header, and else at one address.
fn hold_run(bench: &mut Bench, inverted: Range<usize>) {
    let addresses = if inverted.start < 24 { &ADDRESSES[..] } else { &ADDRESSES[inverted.start % 3..][..1] };
    for ((kind, kind_line, subheader), &(sector, expected)) in
        KINDS.into_iter().flat_map(|kind| addresses.iter().map(move |address| (kind, address)))
    {
        let scratch = format!("call=scratch from={} count={}", inverted.start, inverted.len());
        why_after(bench, &[OPEN, kind_line, subheader, &line_of("address", expected)]);
        why_after(bench, &DECODING);
        let found = why_after(bench, &[&scratch, &format!("{} fill=7", line_of("sector", sector))]);
        assert_eq!(found, why_of(kind, &inverted, sector, expected), "{inverted:?} of {sector:?}, {kind:?}");
    }
}

/// A run of inverted bytes is seen by the code wherever it stands: leading zeros change nothing of a code that
/// starts at 0, and behind it zeros change nothing of whether it is 0. So each length is enough.
#[test]
fn no_run_is_a_multiple_of_the_generator() {
    for length in 1..=SECTOR_BYTES {
        assert_ne!(edc_bitwise(&vec![0xFF; length]), 0, "{length} bytes");
    }
}

/// An inverted second or frame is none; sixteen minutes become others.
#[test]
fn inverted_numbers_of_an_address() {
    let of_bcd = |byte: u8| (byte >> 4 <= 9 && byte & 15 <= 9).then_some((byte >> 4) as u16 * 10 + (byte & 15) as u16);
    let inverted = |number: u16| of_bcd(!Address::new(number, 0, 0).bcd()[0]);
    assert!((0..60).all(|second| inverted(second).is_none_or(|other| other >= 60)));
    assert!((0..75).all(|frame| inverted(frame).is_none_or(|other| other >= 75)));
    let minutes: Vec<u16> = (0..100).filter(|&minute| inverted(minute).is_some()).collect();
    assert_eq!(minutes, [66, 67, 68, 69, 76, 77, 78, 79, 86, 87, 88, 89, 96, 97, 98, 99]);
    assert!(minutes.iter().all(|&minute| inverted(minute).is_some_and(|other| minutes.contains(&other))));
}

/// By all runs, of sectors that were not chosen.
fn values_of(kind: Kind) -> Vec<u16> {
    let starts = 0..=SECTOR_BYTES;
    let runs = starts.flat_map(|from| (from..=SECTOR_BYTES).map(move |end| from..end));
    let all = runs.flat_map(|inverted| ADDRESSES.map(|(sector, expected)| why_of(kind, &inverted, sector, expected)));
    all.collect::<BTreeSet<_>>().into_iter().collect()
}

/// And with the chosen ones all but 12 and 14, in which sync and mode fail and the address does not: a run over both covers it.
#[test]
fn fourteen_values_of_why_can_come() {
    assert_eq!(values_of(Kind::Mode1), [0, 1, 2, 3, 6, 7, 10, 11, 15]);
    assert_eq!(values_of(Kind::Form1), [0, 1, 2, 3, 6, 7, 8, 9, 15]);
    assert_eq!(values_of(Kind::Form2), [0, 1, 2, 3, 6, 7, 8, 9, 15]);
    let chosen = CHOSEN.iter().chain(&CHOSEN_AT_FIRST_ADDRESS).flat_map(|chosen| [chosen.why, chosen.why | 1]);
    assert_eq!(chosen.collect::<BTreeSet<_>>().into_iter().collect::<Vec<_>>(), [0, 1, 2, 3, 4, 5, 6, 7, 13]);
}
