//! The outside vectors that a sector line can make: the host reads every byte of them.

use ecma130::SECTOR_BYTES;
use model::Bench;
use records::Record;

fn out_of(bench: &mut Bench, line: &str) -> u16 {
    let printed = bench.line(line.as_bytes());
    assert!(printed.contains(" answer=0 "), "{line}: {printed}");
    let out = printed.split(' ').find_map(|field| field.strip_prefix("out="));
    out.expect("a printed result").parse().expect("a number")
}

/// The lines from an opening to the start of a transfer of the whole block.
fn lines(record: &Record, fill: u8) -> [String; 12] {
    let [minute, second, frame] = record.address;
    let place = format!("min={minute} sec={second} frame={frame}");
    let [file, channel, submode, coding] = record.subheader();
    [
        "call=open ring=3".to_string(),
        "call=write reg=154 value=32".to_string(),
        "call=write reg=156 value=96".to_string(),
        "call=write reg=24 value=64".to_string(),
        format!("call=window offset=0 words={}", SECTOR_BYTES / 2),
        format!("call=address {place}"),
        "call=write reg=10 value=128".to_string(),
        format!("call=kind number={}", record.kind),
        format!("call=subheader file={file} channel={channel} submode={submode} coding={coding}"),
        format!("call=sector {place} fill={fill}"),
        "call=command code=40".to_string(),
        "call=write reg=23 value=4".to_string(),
    ]
}

#[test]
fn the_host_reads_the_vector() {
    let records = records::read();
    let filled: Vec<(&Record, u8)> = records.iter().filter_map(|record| Some((record, record.fill()?))).collect();
    let of_kind = |kind| filled.iter().filter(|(record, _)| record.kind == kind).count();
    assert_eq!([1, 2, 3].map(of_kind), [3, 3, 3]);
    for (record, fill) in filled {
        let mut bench = Bench::new();
        lines(record, fill).iter().for_each(|line| assert_eq!(out_of(&mut bench, line), 0, "{line}"));
        let words = (0..SECTOR_BYTES / 2).map(|_| out_of(&mut bench, "call=word"));
        assert!(words.flat_map(u16::to_le_bytes).eq(record.clear.iter().copied()));
    }
}
