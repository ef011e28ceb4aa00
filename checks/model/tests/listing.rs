//! The listing and the bench cases of paper 01, the listing with `why` as paper 02 has it.

use model::Bench;

const LISTING: &str = "
call=open ring=3                            | n=1 answer=0 out=0 tcc=0 bufc=0 why=0 irq=0
call=write reg=154 value=32                 | n=2 answer=0 out=0 tcc=0 bufc=0 why=0 irq=0
call=write reg=156 value=96                 | n=3 answer=0 out=0 tcc=0 bufc=0 why=0 irq=0
call=write reg=10 value=128                 | n=4 answer=0 out=0 tcc=0 bufc=0 why=0 irq=0
call=sector min=0 sec=2 frame=0 fill=65     | n=5 answer=0 out=0 tcc=1 bufc=1 why=0 irq=0
call=sector min=0 sec=2 frame=5 fill=66     | n=6 answer=0 out=1 tcc=1 bufc=2 why=1 irq=0
call=sector min=0 sec=2 frame=1 fill=67     | n=7 answer=8 out=0 tcc=1 bufc=2 why=1 irq=0
call=write reg=10 value=0                   | n=8 answer=0 out=0 tcc=1 bufc=1 why=1 irq=0
call=write reg=10 value=128                 | n=9 answer=0 out=0 tcc=1 bufc=1 why=1 irq=0
call=sector min=0 sec=2 frame=1 fill=67     | n=10 answer=0 out=0 tcc=2 bufc=2 why=0 irq=0
call=sector min=0 sec=2 frame=2 fill=68     | n=11 answer=9 out=0 tcc=2 bufc=2 why=0 irq=0
";

/// Answer and result of a line.
fn run(bench: &mut Bench, line: &str) -> (u16, u16) {
    let printed = bench.line(line.as_bytes());
    let field = |key: &str| -> u16 {
        let value = printed.split(' ').find_map(|field| field.strip_prefix(key));
        value.expect("a printed key").parse().expect("a printed number")
    };
    (field("answer="), field("out="))
}

fn done(bench: &mut Bench, lines: &[&str]) {
    for line in lines {
        assert_eq!(run(bench, line).0, 0, "{line}");
    }
}

fn opened() -> Bench {
    let mut bench = Bench::new();
    done(&mut bench, &["call=open ring=3"]);
    bench
}

/// Ring 3 with two good sectors, ACMEN and the decoder on.
fn two_good() -> Bench {
    let mut bench = opened();
    done(
        &mut bench,
        &[
            "call=write reg=154 value=32",
            "call=write reg=156 value=96",
            "call=write reg=10 value=128",
            "call=sector min=0 sec=2 frame=0 fill=1",
            "call=sector min=0 sec=2 frame=1 fill=2",
        ],
    );
    bench
}

#[test]
fn whole_listing() {
    let mut bench = Bench::new();
    for row in LISTING.trim().lines() {
        let (line, printed) = row.split_once('|').unwrap();
        assert_eq!(bench.line(line.trim().as_bytes()), printed.trim());
    }
}

#[test]
fn p1_ring_of_2_or_256() {
    let mut bench = Bench::new();
    assert_eq!(run(&mut bench, "call=open ring=2"), (1, 0));
    assert_eq!(run(&mut bench, "call=open ring=256"), (1, 0));
    assert!(model::Chip::open(2).is_err() && model::Chip::open(256).is_err());
    assert!(model::Chip::open(3).is_ok() && model::Chip::open(255).is_ok());
}

#[test]
fn p2_p3_limit_of_a_ring_of_3() {
    let mut bench = opened();
    assert_eq!(run(&mut bench, "call=write reg=155 value=1"), (0, 0));
    assert_eq!(run(&mut bench, "call=write reg=155 value=2"), (3, 0));
}

#[test]
fn p4_p5_p6_windows() {
    let mut bench = opened();
    assert_eq!(run(&mut bench, "call=window offset=16 words=1024"), (0, 0));
    assert_eq!(run(&mut bench, "call=window offset=2350 words=1"), (0, 0));
    assert_eq!(run(&mut bench, "call=window offset=2351 words=1"), (3, 0));
}

#[test]
fn p7_withdrawal() {
    let mut bench = two_good();
    done(&mut bench, &["call=write reg=10 value=0"]);
    assert_eq!(run(&mut bench, "call=write reg=157 value=3"), (6, 0));
    assert_eq!(run(&mut bench, "call=write reg=157 value=1"), (0, 0));
    assert_eq!(run(&mut bench, "call=read reg=157"), (0, 1));
    let chip = bench.chip().unwrap();
    assert_eq!((chip.bufc, chip.b), (1, 1));
}

#[test]
fn p8_skip() {
    let mut bench = two_good();
    assert_eq!(run(&mut bench, "call=write reg=158 value=3"), (6, 0));
    assert_eq!(run(&mut bench, "call=write reg=158 value=2"), (0, 0));
    assert_eq!(run(&mut bench, "call=read reg=157"), (0, 0));
    assert_eq!(run(&mut bench, "call=read reg=36"), (0, 2));
}

#[test]
fn p9_start_reckons_its_burst() {
    let mut bench = two_good();
    done(
        &mut bench,
        &[
            "call=write reg=24 value=72",
            "call=window offset=16 words=1024",
            "call=write reg=159 value=5",
            "call=command code=40",
            "call=write reg=23 value=4",
        ],
    );
    assert_eq!(run(&mut bench, "call=read reg=18"), (0, 1));
    assert_eq!(run(&mut bench, "call=read reg=53"), (0, 0x10));
    assert_eq!(run(&mut bench, "call=read reg=52"), (0, 0x00));
    assert_eq!(run(&mut bench, "call=word"), (0, 0x0101));
}

#[test]
fn p10_expected_address_carries() {
    let mut bench = opened();
    done(
        &mut bench,
        &[
            "call=address min=0 sec=2 frame=74",
            "call=write reg=154 value=32",
            "call=write reg=156 value=32",
            "call=write reg=10 value=128",
            "call=sector min=0 sec=2 frame=74 fill=0",
        ],
    );
    let expected = bench.chip().unwrap().expected;
    assert_eq!((expected.minute, expected.second, expected.frame), (0, 3, 0));
}

#[test]
fn before_an_open_all_else_is_5_and_malformed_is_2() {
    let mut bench = Bench::new();
    assert_eq!(bench.line(b"call=read reg=999"), "n=1 answer=5 out=0 tcc=0 bufc=0 why=0 irq=0");
    assert_eq!(bench.line(b"call=sector min=0 sec=99 frame=0 fill=999"), "n=2 answer=5 out=0 tcc=0 bufc=0 why=0 irq=0");
    assert_eq!(bench.line(b"call=read reg=65536"), "n=3 answer=2 out=0 tcc=0 bufc=0 why=0 irq=0");
    assert_eq!(bench.line(b"call=look"), "n=4 answer=5 out=0 tcc=0 bufc=0 why=0 irq=0");
}

#[test]
fn a_refused_open_keeps_the_chip() {
    let mut bench = two_good();
    for line in ["call=open ring=2", "call=open ring=26", "call=open ring=65535"] {
        assert_eq!(run(&mut bench, line), (1, 0));
        assert_eq!(bench.chip().unwrap().tcc, 2);
    }
    assert_eq!(run(&mut bench, "call=open ring=70000"), (2, 0));
    assert_eq!(run(&mut bench, "call=open ring=25"), (0, 0));
    assert_eq!(bench.chip().unwrap().tcc, 0);
}

#[test]
fn an_abort_does_not_take_a_half_read_block() {
    let mut bench = two_good();
    done(
        &mut bench,
        &[
            "call=write reg=24 value=64",
            "call=window offset=12 words=3",
            "call=command code=40",
            "call=write reg=23 value=4",
            "call=word",
            "call=srst",
        ],
    );
    assert_eq!(bench.chip().unwrap().tcc, 2);
    assert_eq!(run(&mut bench, "call=look"), (0, 6));
    done(&mut bench, &["call=command code=40", "call=write reg=23 value=4"]);
    assert_eq!(run(&mut bench, "call=word"), (0, 0x0200));
    assert_eq!(run(&mut bench, "call=word"), (0, 0x0100));
    assert_eq!(run(&mut bench, "call=word"), (0, 0x0101));
    assert_eq!(bench.chip().unwrap().tcc, 1);
}
