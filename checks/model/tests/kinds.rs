//! Kinds and subheaders on the bench: how long they stay, what a sector line makes of them, and what a scratch makes of that.

use ecma130::{judge, open, parity_holds, Address, Kind, SECTOR_BYTES};
use model::{Bench, Chosen, BLOCK_BYTES, CHOSEN, CHOSEN_AT_FIRST_ADDRESS};

/// By hand: a refused line of each, a form bit that disagrees before 7, 8 and 9, and the three kinds in one ring, in
/// which a damaged sync fails alone. An opening puts back what the lines have set.
const LISTING: &str = "
call=kind number=2                                     | n=1 answer=5 out=0 tcc=0 bufc=0 why=0 irq=0
call=subheader file=0 channel=0 submode=0 coding=256   | n=2 answer=5 out=0 tcc=0 bufc=0 why=0 irq=0
call=kind number=65536                                 | n=3 answer=2 out=0 tcc=0 bufc=0 why=0 irq=0
call=open ring=5                                       | n=4 answer=0 out=0 tcc=0 bufc=0 why=0 irq=0
call=kind number=0                                     | n=5 answer=3 out=0 tcc=0 bufc=0 why=0 irq=0
call=kind number=4                                     | n=6 answer=3 out=0 tcc=0 bufc=0 why=0 irq=0
call=kind number=257                                   | n=7 answer=3 out=0 tcc=0 bufc=0 why=0 irq=0
call=subheader file=1 channel=2 submode=100 coding=256 | n=8 answer=3 out=0 tcc=0 bufc=0 why=0 irq=0
call=subheader file=1 channel=2 submode=100 coding=4   | n=9 answer=0 out=0 tcc=0 bufc=0 why=0 irq=0
call=write reg=154 value=32                            | n=10 answer=0 out=0 tcc=0 bufc=0 why=0 irq=0
call=write reg=156 value=96                            | n=11 answer=0 out=0 tcc=0 bufc=0 why=0 irq=0
call=sector min=0 sec=2 frame=0 fill=9                 | n=12 answer=7 out=0 tcc=0 bufc=0 why=0 irq=0
call=kind number=2                                     | n=13 answer=0 out=0 tcc=0 bufc=0 why=0 irq=0
call=sector min=0 sec=2 frame=0 fill=9                 | n=14 answer=3 out=0 tcc=0 bufc=0 why=0 irq=0
call=write reg=10 value=128                            | n=15 answer=0 out=0 tcc=0 bufc=0 why=0 irq=0
call=sector min=0 sec=2 frame=0 fill=9                 | n=16 answer=3 out=0 tcc=0 bufc=0 why=0 irq=0
call=kind number=3                                     | n=17 answer=0 out=0 tcc=0 bufc=0 why=0 irq=0
call=sector min=0 sec=2 frame=0 fill=9                 | n=18 answer=0 out=0 tcc=1 bufc=1 why=0 irq=0
call=kind number=1                                     | n=19 answer=0 out=0 tcc=1 bufc=1 why=0 irq=0
call=sector min=0 sec=2 frame=1 fill=9                 | n=20 answer=0 out=0 tcc=2 bufc=2 why=0 irq=0
call=subheader file=1 channel=2 submode=8 coding=4     | n=21 answer=0 out=0 tcc=2 bufc=2 why=0 irq=0
call=kind number=2                                     | n=22 answer=0 out=0 tcc=2 bufc=2 why=0 irq=0
call=sector min=0 sec=2 frame=2 fill=9                 | n=23 answer=0 out=0 tcc=3 bufc=3 why=0 irq=0
call=scratch from=0 count=12                           | n=24 answer=0 out=0 tcc=3 bufc=3 why=0 irq=0
call=sector min=0 sec=2 frame=3 fill=9                 | n=25 answer=0 out=64 tcc=3 bufc=4 why=8 irq=0
call=kind number=3                                     | n=26 answer=0 out=0 tcc=3 bufc=4 why=8 irq=0
call=sector min=0 sec=2 frame=3 fill=9                 | n=27 answer=3 out=0 tcc=3 bufc=4 why=8 irq=0
call=kind number=2                                     | n=28 answer=0 out=0 tcc=3 bufc=4 why=8 irq=0
call=sector min=0 sec=2 frame=3 fill=9                 | n=29 answer=8 out=0 tcc=3 bufc=4 why=8 irq=0
call=open ring=3                                       | n=30 answer=0 out=0 tcc=0 bufc=0 why=0 irq=0
call=kind number=3                                     | n=31 answer=0 out=0 tcc=0 bufc=0 why=0 irq=0
call=sector min=0 sec=2 frame=0 fill=9                 | n=32 answer=3 out=0 tcc=0 bufc=0 why=0 irq=0
call=kind number=2                                     | n=33 answer=0 out=0 tcc=0 bufc=0 why=0 irq=0
call=sector min=0 sec=2 frame=0 fill=9                 | n=34 answer=7 out=0 tcc=0 bufc=0 why=0 irq=0
";

const OPEN: &str = "call=open ring=3";
const SWITCHES: [&str; 3] =
    ["call=write reg=154 value=32", "call=write reg=156 value=96", "call=write reg=10 value=128"];
const DECODER_OFF: &str = "call=write reg=10 value=0";
const DECODER_ON: &str = "call=write reg=10 value=128";
const WITHDRAW: &str = "call=write reg=157 value=0";
const ADDRESS: &str = "call=address min=0 sec=2 frame=0";
const SECTOR: &str = "call=sector min=0 sec=2 frame=0 fill=7";
const FORM_2: [&str; 2] = ["call=subheader file=1 channel=2 submode=40 coding=4", "call=kind number=3"];
const FIRST: Address = Address::new(0, 2, 0);

/// Calls that are no accepted opening and set neither.
const OTHER_CALLS: [&[&str]; 12] = [
    &[],
    &["call=srst"],
    &["call=reset"],
    &["call=look", "call=status", "call=read reg=128"],
    &[DECODER_OFF],
    &[SECTOR, "call=sector min=0 sec=2 frame=1 fill=7"],
    &["call=scratch from=0 count=9", SECTOR, SECTOR],
    &["call=open ring=2", "call=open ring=26"],
    &["call=kind number=0", "call=kind number=4", "call=kind number=258", "call=kind number=65535"],
    &["call=subheader file=256 channel=0 submode=0 coding=0", "call=subheader file=0 channel=256 submode=0 coding=0"],
    &["call=subheader file=0 channel=0 submode=256 coding=0", "call=subheader file=0 channel=0 submode=0 coding=65535"],
    &["call=kind", "call=kind number=1 number=1", "call=subheader file=0", "call=nothing"],
];

fn run(bench: &mut Bench, lines: &[&str]) -> Vec<String> {
    lines.iter().map(|line| bench.line(line.as_bytes())).collect()
}

/// What the sector line of a decoding chip leaves in its block, opened.
fn stored(bench: &mut Bench, sector: &str) -> Vec<u8> {
    run(bench, &SWITCHES);
    run(bench, &["call=srst", DECODER_OFF, WITHDRAW, "call=block number=0", ADDRESS, DECODER_ON]);
    assert!(bench.line(sector.as_bytes()).contains(" answer=0 "));
    std::mem::take(bench).into_memory()[..SECTOR_BYTES].to_vec()
}

#[test]
fn whole_listing() {
    let mut bench = Bench::new();
    for row in LISTING.trim().lines() {
        let (line, printed) = row.split_once('|').unwrap();
        assert_eq!(bench.line(line.trim().as_bytes()), printed.trim());
    }
}

#[test]
fn kind_and_subheader_stay() {
    for lines in OTHER_CALLS {
        let mut bench = Bench::new();
        run(&mut bench, &[OPEN, FORM_2[0], FORM_2[1]]);
        run(&mut bench, &SWITCHES);
        run(&mut bench, lines);
        let block = stored(&mut bench, SECTOR);
        assert_eq!(block[15..25], [2, 1, 2, 40, 4, 1, 2, 40, 4, 7], "{lines:?}");
        assert_eq!(block[2340..2348], [7; 8], "{lines:?}");
    }
}

#[test]
fn an_opening_puts_both_back() {
    let mut bench = Bench::new();
    run(&mut bench, &[OPEN, FORM_2[0], FORM_2[1], OPEN]);
    assert_eq!(stored(&mut bench, SECTOR)[15..25], [1, 7, 7, 7, 7, 7, 7, 7, 7, 7]);
    run(&mut bench, &[OPEN, FORM_2[0], FORM_2[1], OPEN, "call=kind number=2"]);
    assert_eq!(stored(&mut bench, SECTOR)[15..25], [2, 0, 0, 0, 0, 0, 0, 0, 0, 7]);
}

/// Each kind with each form bit, the fill at its ends, in all answers that a sector line has.
#[test]
fn a_form_bit_that_disagrees_is_answered_with_fill_and_address() {
    for (kind, submode) in (1..=3).flat_map(|kind| [0x00, 0xDF, 0x20, 0xFF].map(|submode| (kind, submode))) {
        let form_bit = submode & 0x20 != 0;
        let refused = kind == 2 && form_bit || kind == 3 && !form_bit;
        let mut bench = Bench::new();
        let set = [
            format!("call=kind number={kind}"),
            format!("call=subheader file=255 channel=255 submode={submode} coding=255"),
        ];
        run(&mut bench, &[OPEN, &set[0], &set[1]]);
        let mut answers = |lines: &[&str], number: &str| {
            let printed = run(&mut bench, lines).pop().expect("a line");
            let number = if refused { " answer=3 " } else { number };
            assert!(printed.contains(number), "kind {kind}, submode {submode}: {printed}");
        };
        answers(&[SECTOR], " answer=7 ");
        answers(&["call=sector min=0 sec=2 frame=0 fill=256"], " answer=3 ");
        answers(&["call=sector min=0 sec=60 frame=0 fill=7"], " answer=3 ");
        answers(&[&SWITCHES[..], &[SECTOR]].concat(), " answer=0 ");
        answers(&["call=sector min=0 sec=2 frame=9 fill=7"], " answer=0 ");
        answers(&[SECTOR], " answer=8 ");
        let stop = [DECODER_OFF, "call=write reg=154 value=48", DECODER_ON, SECTOR];
        answers(&stop, " answer=9 ");
    }
}

#[test]
fn fill_fills_the_user_bytes_of_the_kind() {
    for (kind, user) in [(1, 16..2064), (2, 24..2072), (3, 24..2348)] {
        let mut bench = Bench::new();
        let submode = if kind == 3 { 0x20 } else { 0 };
        let set =
            [format!("call=kind number={kind}"), format!("call=subheader file=5 channel=6 submode={submode} coding=8")];
        run(&mut bench, &[OPEN, &set[0], &set[1]]);
        let block = stored(&mut bench, SECTOR);
        assert!(block[user.clone()].iter().all(|&byte| byte == 7));
        assert_ne!(block[user.end], 7);
        assert!(judge(&block, FIRST).unwrap().is_good() && parity_holds(&block).unwrap());
    }
}

/// The lines of a chosen sector, at 00:02:00, with another address expected or not.
fn run_chosen(chosen: &Chosen, expected: &str) -> (String, Vec<u8>) {
    let Chosen { kind, subheader: [file, channel, submode, coding], fill, from, count, .. } = chosen;
    let mut bench = Bench::new();
    run(&mut bench, &[OPEN, expected]);
    run(&mut bench, &SWITCHES);
    let lines = [
        format!("call=kind number={kind}"),
        format!("call=subheader file={file} channel={channel} submode={submode} coding={coding}"),
        format!("call=scratch from={from} count={count}"),
        format!("call=sector min=0 sec=2 frame=0 fill={fill}"),
    ];
    let printed = run(&mut bench, &lines.each_ref().map(String::as_str)).pop().expect("a line");
    (printed, bench.into_memory()[..BLOCK_BYTES].to_vec())
}

/// Without the scratch each is good; with it as the list says.
#[test]
fn chosen_sectors_are_what_they_are_listed_for() {
    for chosen in CHOSEN.iter().chain(&CHOSEN_AT_FIRST_ADDRESS) {
        let (printed, block) = run_chosen(chosen, ADDRESS);
        assert!(printed.contains(&format!(" answer=0 out={}", if chosen.why == 0 { "0 " } else { "6" })), "{chosen:?}");
        assert!(printed.contains(&format!(" why={} ", chosen.why)), "{chosen:?}: {printed}");
        let (printed, _) = run_chosen(chosen, "call=address min=0 sec=2 frame=1");
        assert!(printed.contains(&format!(" why={} ", chosen.why | 1)), "{chosen:?}: {printed}");
        let (printed, sealed) = run_chosen(&Chosen { count: 0, ..*chosen }, ADDRESS);
        assert!(printed.contains(" out=0 tcc=1 bufc=1 why=0 "), "{chosen:?}: {printed}");
        let mut inverted = block;
        inverted[chosen.from as usize..][..chosen.count as usize].iter_mut().for_each(|byte| *byte = !*byte);
        assert_eq!(sealed, inverted, "{chosen:?}");
    }
}

/// What the lists have in them: by what rule they are read, what fails, and whether the code is zeros.
#[test]
fn chosen_sectors_are_of_all_sorts() {
    let sorts = CHOSEN.iter().map(|chosen| {
        let (_, block) = run_chosen(chosen, ADDRESS);
        let read = Kind::of_sector(&block[..SECTOR_BYTES]);
        (chosen.kind, read, chosen.why, block[read.code()] == [0; 4])
    });
    let sorts: std::collections::BTreeSet<_> = sorts.collect();
    let expected = [
        (2, Kind::Form1, 2, true),
        (2, Kind::Form2, 0, false),
        (2, Kind::Form2, 0, true),
        (3, Kind::Mode1, 6, true),
        (3, Kind::Form1, 0, false),
        (3, Kind::Form1, 0, true),
        (3, Kind::Form2, 0, true),
        (3, Kind::Form2, 4, true),
    ];
    assert_eq!(sorts.into_iter().collect::<Vec<_>>(), expected);
}

/// The sector buffer's bytes are scrambled, and the block's are not.
#[test]
fn the_disc_tells_what_arrives() {
    let mut bench = Bench::new();
    run(&mut bench, &[OPEN, FORM_2[0], FORM_2[1], "call=scratch from=20 count=4"]);
    let mut arriving = bench.disc().arriving(FIRST, 7).unwrap();
    open(&mut arriving).unwrap();
    assert_eq!(stored(&mut bench, SECTOR), arriving);
    assert_eq!(arriving[16..24], [1, 2, 40, 4, 254, 253, 215, 251]);
}
