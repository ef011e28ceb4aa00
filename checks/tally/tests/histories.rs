//! Histories made by hand, with the numbers written out after each line.

use tally::{lines_of, Impossible, Tally};

/// A line with its answer and `out`, and after it: in, taken, skipped, withdrawn, TCC, BUFC.
type Row<'a> = (&'a str, u64, u64, [u64; 6]);

const SECTOR: &str = "call=sector min=0 sec=2 frame=0 fill=1";
const START: [Row; 3] = [
    ("call=open ring=9", 0, 0, [0; 6]),
    ("call=write reg=156 value=96", 0, 0, [0; 6]),
    ("call=window offset=16 words=3", 0, 0, [0; 6]),
];
const THREE_IN: [Row; 3] =
    [(SECTOR, 0, 0, [1, 0, 0, 0, 1, 1]), (SECTOR, 0, 0, [2, 0, 0, 0, 2, 2]), (SECTOR, 0, 0, [3, 0, 0, 0, 3, 3])];

fn all(tally: &Tally) -> [u64; 6] {
    let [counted_in, taken, skipped, withdrawn] = tally.numbers();
    [counted_in, taken, skipped, withdrawn, tally.tcc(), tally.bufc()]
}

#[track_caller]
fn hold(rows: &[Row]) -> Tally {
    let mut tally = Tally::default();
    for (place, &(line, answer, out, expected)) in rows.iter().enumerate() {
        assert_eq!(tally.note(line.as_bytes(), answer, out), Ok(()));
        assert_eq!(all(&tally), expected, "row {}: {line}", place + 1);
    }
    tally
}

/// The opening, three good sectors, and then these.
#[track_caller]
fn hold_after_three(rows: &[Row]) -> Tally {
    hold(&[&START[..], &THREE_IN, rows].concat())
}

#[test]
fn a_shift() {
    let tally = hold_after_three(&[
        ("call=word", 0, 257, [3, 0, 0, 0, 3, 3]),
        ("call=word", 0, 257, [3, 0, 0, 0, 3, 3]),
        ("call=word", 0, 257, [3, 1, 0, 0, 2, 2]),
        ("call=write reg=158 value=1", 0, 0, [3, 1, 1, 0, 1, 1]),
        (SECTOR, 0, 0, [4, 1, 1, 0, 2, 2]),
        (SECTOR, 0, 64, [4, 1, 1, 0, 2, 3]),
        ("call=write reg=10 value=0", 0, 0, [4, 1, 1, 0, 2, 2]),
        ("call=write reg=157 value=0", 0, 0, [4, 1, 1, 2, 0, 0]),
    ]);
    assert_eq!(tally.to_string(), "in=4 taken=1 skipped=1 withdrawn=2 tcc=0");
}

#[test]
fn a_half_read_block_starts_again() {
    hold_after_three(&[
        ("call=word", 0, 0, [3, 0, 0, 0, 3, 3]),
        ("call=word", 0, 0, [3, 0, 0, 0, 3, 3]),
        ("call=srst", 0, 0, [3, 0, 0, 0, 3, 3]),
        ("call=word", 5, 0, [3, 0, 0, 0, 3, 3]),
        ("call=word", 0, 0, [3, 0, 0, 0, 3, 3]),
        ("call=word", 0, 0, [3, 0, 0, 0, 3, 3]),
        ("call=word", 0, 0, [3, 1, 0, 0, 2, 2]),
        ("call=srst", 0, 0, [3, 1, 0, 0, 2, 2]),
    ]);
}

#[test]
fn a_block_has_the_words_of_the_last_accepted_window() {
    hold_after_three(&[
        ("call=window offset=16 words=2", 0, 0, [3, 0, 0, 0, 3, 3]),
        ("call=window offset=2352 words=1", 3, 0, [3, 0, 0, 0, 3, 3]),
        ("call=word", 0, 0, [3, 0, 0, 0, 3, 3]),
        ("call=window offset=16 words=1", 4, 0, [3, 0, 0, 0, 3, 3]),
        ("call=word", 0, 0, [3, 1, 0, 0, 2, 2]),
        ("call=word", 0, 0, [3, 1, 0, 0, 2, 2]),
        ("call=word", 0, 0, [3, 2, 0, 0, 1, 1]),
        ("call=window offset=16 words=1", 0, 0, [3, 2, 0, 0, 1, 1]),
        ("call=word", 0, 0, [3, 3, 0, 0, 0, 0]),
    ]);
}

#[test]
fn a_skip_needs_acmen() {
    hold_after_three(&[
        ("call=write reg=156 value=32", 0, 0, [3, 0, 0, 0, 3, 3]),
        ("call=write reg=158 value=2", 0, 0, [3, 0, 0, 0, 3, 3]),
        ("call=write reg=158 value=255", 0, 0, [3, 0, 0, 0, 3, 3]),
        ("call=write reg=156 value=256", 3, 0, [3, 0, 0, 0, 3, 3]),
        ("call=write reg=158 value=1", 0, 0, [3, 0, 0, 0, 3, 3]),
        ("call=write reg=156 value=255", 0, 0, [3, 0, 0, 0, 3, 3]),
        ("call=write reg=158 value=2", 0, 0, [3, 0, 2, 0, 1, 1]),
        ("call=write reg=158 value=0", 0, 0, [3, 0, 2, 0, 1, 1]),
        ("call=write reg=158 value=2", 6, 0, [3, 0, 2, 0, 1, 1]),
        ("call=write reg=156 value=0", 4, 0, [3, 0, 2, 0, 1, 1]),
        ("call=write reg=158 value=1", 0, 0, [3, 0, 3, 0, 0, 0]),
    ]);
}

#[test]
fn acmen_is_low_at_opening_and_reset() {
    hold(&[
        ("call=open ring=3", 0, 0, [0; 6]),
        ("call=write reg=158 value=1", 0, 0, [0; 6]),
        ("call=write reg=156 value=64", 0, 0, [0; 6]),
        ("call=reset", 0, 0, [0; 6]),
        ("call=write reg=158 value=1", 0, 0, [0; 6]),
        ("call=write reg=156 value=64", 0, 0, [0; 6]),
        ("call=open ring=3", 0, 0, [0; 6]),
        ("call=write reg=158 value=1", 0, 0, [0; 6]),
    ]);
}

#[test]
fn what_is_withdrawn_is_the_difference() {
    hold_after_three(&[
        ("call=write reg=157 value=3", 0, 0, [3, 0, 0, 0, 3, 3]),
        ("call=write reg=157 value=4", 6, 0, [3, 0, 0, 0, 3, 3]),
        ("call=write reg=157 value=1", 0, 0, [3, 0, 0, 2, 1, 1]),
        ("call=write reg=157 value=1", 0, 0, [3, 0, 0, 2, 1, 1]),
        ("call=write reg=157 value=0", 5, 0, [3, 0, 0, 2, 1, 1]),
        (SECTOR, 0, 0, [4, 0, 0, 2, 2, 2]),
        ("call=write reg=157 value=0", 0, 0, [4, 0, 0, 4, 0, 0]),
    ]);
}

#[test]
fn a_bad_sector_is_held_until_decoding_is_taken_low() {
    hold_after_three(&[
        (SECTOR, 0, 1, [3, 0, 0, 0, 3, 4]),
        (SECTOR, 8, 0, [3, 0, 0, 0, 3, 4]),
        ("call=srst", 0, 0, [3, 0, 0, 0, 3, 4]),
        ("call=write reg=158 value=2", 0, 0, [3, 0, 2, 0, 1, 2]),
        ("call=write reg=10 value=128", 0, 0, [3, 0, 2, 0, 1, 2]),
        ("call=write reg=10 value=0", 3, 0, [3, 0, 2, 0, 1, 2]),
        ("call=write reg=10 value=0", 0, 0, [3, 0, 2, 0, 1, 1]),
        (SECTOR, 0, 65, [3, 0, 2, 0, 1, 2]),
        ("call=reset", 0, 0, [0; 6]),
        (SECTOR, 0, 64, [0, 0, 0, 0, 0, 1]),
        ("call=open ring=3", 0, 0, [0; 6]),
    ]);
}

#[test]
fn reset_and_open_begin_anew() {
    hold_after_three(&[
        ("call=word", 0, 0, [3, 0, 0, 0, 3, 3]),
        ("call=reset", 5, 0, [3, 0, 0, 0, 3, 3]),
        ("call=open ring=2", 1, 0, [3, 0, 0, 0, 3, 3]),
        ("call=reset", 0, 0, [0; 6]),
        ("call=window offset=16 words=2", 0, 0, [0; 6]),
        (SECTOR, 0, 0, [1, 0, 0, 0, 1, 1]),
        ("call=word", 0, 0, [1, 0, 0, 0, 1, 1]),
        ("call=word", 0, 0, [1, 1, 0, 0, 0, 0]),
        ("call=open ring=3", 0, 0, [0; 6]),
        (SECTOR, 0, 0, [1, 0, 0, 0, 1, 1]),
    ]);
}

#[test]
fn a_refused_line_changes_nothing() {
    let lines = [SECTOR, "call=reset", "call=open ring=3", "call=srst", "call=window offset=0 words=1", "call=word"];
    let writes =
        [(10, 0), (156, 0), (157, 0), (158, 1)].map(|(reg, value)| format!("call=write reg={reg} value={value}"));
    let mut tally = hold_after_three(&[("call=word", 0, 0, [3, 0, 0, 0, 3, 3]), (SECTOR, 0, 1, [3, 0, 0, 0, 3, 4])]);
    let before = tally;
    for line in lines.into_iter().chain(writes.iter().map(String::as_str)) {
        for answer in 1..=9 {
            assert_eq!(tally.note(line.as_bytes(), answer, 0), Ok(()));
            assert_eq!(tally, before, "{line} answered {answer}");
        }
    }
}

#[test]
fn lines_that_are_no_call_change_nothing() {
    let over_long = format!("call=open ring={:0>66}", 3);
    assert_eq!(over_long.len(), 81);
    let lines: [&[u8]; 8] = [
        b"",
        b"call=reset ",
        b"call=reset\r",
        b"call=Reset",
        b"call=open  ring=3",
        b"call=write value=0 reg=157",
        b"\xFF\x00",
        over_long.as_bytes(),
    ];
    let mut tally = hold_after_three(&[]);
    let before = tally;
    for (line, answer) in lines.iter().flat_map(|line| [(line, 2), (line, 0)]) {
        assert_eq!(tally.note(line, answer, 0), Ok(()));
        assert_eq!(tally, before, "{}", String::from_utf8_lossy(line));
    }
}

#[test]
fn before_an_accepted_open_all_are_0() {
    hold(&[
        (SECTOR, 5, 0, [0; 6]),
        ("call=open ring=2", 1, 0, [0; 6]),
        // No bench answers so; there is no chip to count for.
        (SECTOR, 0, 0, [0; 6]),
        (SECTOR, 0, 1, [0; 6]),
        ("call=reset", 0, 0, [0; 6]),
        (SECTOR, 0, 0, [0; 6]),
        ("call=open ring=3", 0, 0, [0; 6]),
        (SECTOR, 0, 0, [1, 0, 0, 0, 1, 1]),
    ]);
}

#[track_caller]
fn is_impossible(rows: &[Row], line: &str, expected: Impossible) {
    let mut tally = hold_after_three(rows);
    let before = tally;
    assert_eq!(tally.note(line.as_bytes(), 0, 0), Err(expected));
    assert_eq!(tally, before);
}

#[test]
fn more_than_came_cannot_leave() {
    is_impossible(&[], "call=write reg=158 value=4", Impossible::MoreLeft { counted_in: 3, left: 4 });
    is_impossible(&[], "call=write reg=157 value=4", Impossible::Raised { from: 3, to: 4 });
    let none_left = [
        ("call=write reg=158 value=3", 0, 0, [3, 0, 3, 0, 0, 0]),
        ("call=window offset=0 words=1", 0, 0, [3, 0, 3, 0, 0, 0]),
    ];
    is_impossible(&none_left, "call=word", Impossible::MoreLeft { counted_in: 3, left: 4 });
    is_impossible(&none_left, "call=write reg=157 value=1", Impossible::Raised { from: 0, to: 1 });
}

#[test]
fn a_last_line_counts_without_its_newline_unless_it_is_empty() {
    assert!(lines_of(b"").is_empty());
    assert_eq!(lines_of(b"\n"), [b""]);
    assert_eq!(lines_of(b"a\n\nb"), [&b"a"[..], b"", b"b"]);
    assert_eq!(lines_of(b"a\n\nb\n"), [&b"a"[..], b"", b"b"]);
}
