//! The calls, and the lines that name them.

use ecma130::Address;

pub const MAX_LINE_BYTES: usize = 80;

#[derive(Clone, Copy, Debug, PartialEq, Eq)]
pub enum Call {
    Open { ring: u16 },
    Read { reg: u16 },
    Write { reg: u16, value: u16 },
    Block { number: u16 },
    Window { offset: u16, words: u16 },
    Address { address: Address },
    Packet { index: u16 },
    Reset,
    Look,
    Word,
    Command { code: u16 },
    Send { word: u16 },
    Status,
    Srst,
    Sector { address: Address, fill: u16 },
    Scratch { from: u16, count: u16 },
    Kind { number: u16 },
    Subheader { file: u16, channel: u16, submode: u16, coding: u16 },
}

/// Every call's name with its keys, in the only order allowed.
const FORMS: [(&str, &[&str]); 18] = [
    ("open", &["ring"]),
    ("read", &["reg"]),
    ("write", &["reg", "value"]),
    ("block", &["number"]),
    ("window", &["offset", "words"]),
    ("address", &["min", "sec", "frame"]),
    ("packet", &["index"]),
    ("reset", &[]),
    ("look", &[]),
    ("word", &[]),
    ("command", &["code"]),
    ("send", &["word"]),
    ("status", &[]),
    ("srst", &[]),
    ("sector", &["min", "sec", "frame", "fill"]),
    ("scratch", &["from", "count"]),
    ("kind", &["number"]),
    ("subheader", &["file", "channel", "submode", "coding"]),
];

impl Call {
    pub fn name(&self) -> &'static str {
        self.form().0
    }

    fn form(&self) -> (&'static str, Vec<u16>) {
        match *self {
            Call::Open { ring } => ("open", vec![ring]),
            Call::Read { reg } => ("read", vec![reg]),
            Call::Write { reg, value } => ("write", vec![reg, value]),
            Call::Block { number } => ("block", vec![number]),
            Call::Window { offset, words } => ("window", vec![offset, words]),
            Call::Address { address: a } => ("address", vec![a.minute, a.second, a.frame]),
            Call::Packet { index } => ("packet", vec![index]),
            Call::Reset => ("reset", vec![]),
            Call::Look => ("look", vec![]),
            Call::Word => ("word", vec![]),
            Call::Command { code } => ("command", vec![code]),
            Call::Send { word } => ("send", vec![word]),
            Call::Status => ("status", vec![]),
            Call::Srst => ("srst", vec![]),
            Call::Sector { address: a, fill } => ("sector", vec![a.minute, a.second, a.frame, fill]),
            Call::Scratch { from, count } => ("scratch", vec![from, count]),
            Call::Kind { number } => ("kind", vec![number]),
            Call::Subheader { file, channel, submode, coding } => ("subheader", vec![file, channel, submode, coding]),
        }
    }

    pub fn line(&self) -> String {
        let (name, numbers) = self.form();
        let keys = keys_of(name).expect("every call has a form");
        let fields = keys.iter().zip(numbers).map(|(key, number)| format!(" {key}={number}"));
        format!("call={name}{}", fields.collect::<String>())
    }
}

fn keys_of(name: &str) -> Option<&'static [&'static str]> {
    FORMS.iter().find(|form| form.0 == name).map(|form| form.1)
}

/// The call that a line names, or nothing if the line is malformed.
pub fn parse(line: &[u8]) -> Option<Call> {
    if line.len() > MAX_LINE_BYTES {
        return None;
    }
    let mut fields = std::str::from_utf8(line).ok()?.split(' ');
    let name = fields.next()?.strip_prefix("call=")?;
    let mut numbers = Vec::new();
    for key in keys_of(name)? {
        numbers.push(number(fields.next()?.strip_prefix(key)?.strip_prefix('=')?)?);
    }
    // A trailing space leaves an empty field behind, and is malformed too.
    if fields.next().is_some() {
        return None;
    }
    Some(build(name, &numbers))
}

fn number(digits: &str) -> Option<u16> {
    // The standard parser would take a plus sign.
    if !digits.bytes().all(|digit| digit.is_ascii_digit()) {
        return None;
    }
    digits.parse().ok()
}

fn build(name: &str, n: &[u16]) -> Call {
    match name {
        "open" => Call::Open { ring: n[0] },
        "read" => Call::Read { reg: n[0] },
        "write" => Call::Write { reg: n[0], value: n[1] },
        "block" => Call::Block { number: n[0] },
        "window" => Call::Window { offset: n[0], words: n[1] },
        "address" => Call::Address { address: Address::new(n[0], n[1], n[2]) },
        "packet" => Call::Packet { index: n[0] },
        "reset" => Call::Reset,
        "look" => Call::Look,
        "word" => Call::Word,
        "command" => Call::Command { code: n[0] },
        "send" => Call::Send { word: n[0] },
        "status" => Call::Status,
        "srst" => Call::Srst,
        "sector" => Call::Sector { address: Address::new(n[0], n[1], n[2]), fill: n[3] },
        "scratch" => Call::Scratch { from: n[0], count: n[1] },
        "kind" => Call::Kind { number: n[0] },
        "subheader" => Call::Subheader { file: n[0], channel: n[1], submode: n[2], coding: n[3] },
        _ => unreachable!("a name without keys was refused before"),
    }
}

#[cfg(test)]
mod tests {
    use super::*;

    #[test]
    fn lines_come_back_as_their_calls() {
        let address = Address::new(1, 2, 3);
        let calls = [
            Call::Open { ring: 3 },
            Call::Read { reg: 65535 },
            Call::Write { reg: 1, value: 2 },
            Call::Block { number: 0 },
            Call::Window { offset: 16, words: 1024 },
            Call::Address { address },
            Call::Packet { index: 11 },
            Call::Reset,
            Call::Look,
            Call::Word,
            Call::Command { code: 160 },
            Call::Send { word: 513 },
            Call::Status,
            Call::Srst,
            Call::Sector { address, fill: 65 },
            Call::Scratch { from: 2352, count: 65535 },
            Call::Kind { number: 257 },
            Call::Subheader { file: 1, channel: 2, submode: 65535, coding: 4 },
        ];
        assert_eq!(calls.len(), FORMS.len());
        for call in calls {
            assert_eq!(parse(call.line().as_bytes()), Some(call));
        }
    }

    fn is_malformed(line: &[u8]) {
        assert_eq!(parse(line), None, "{}", String::from_utf8_lossy(line));
    }

    #[test]
    fn malformed_lines() {
        let lines: [&[u8]; 24] = [
            b"",
            b" ",
            b"call",
            b"call=",
            b"call=Open ring=3",
            b"call=open",
            b"call=open ring=",
            b"call=open ring=+3",
            b"call=open ring=-3",
            b"call=open ring=65536",
            b"call=open ring=70000",
            b"call=open ring=3 ",
            b" call=open ring=3",
            b"call=open  ring=3",
            b"call=open\tring=3",
            b"call=open ring=3\r",
            b"call=open ring=3 ring=3",
            b"call=open size=3",
            b"call=open ring=3a",
            b"call=open ring=0x3",
            b"call=write value=1 reg=2",
            b"call=write reg=1 reg=2",
            b"call=reset ",
            b"call=open ring=\xFF",
        ];
        lines.into_iter().for_each(is_malformed);
    }

    #[test]
    fn malformed_lines_of_the_disc() {
        let lines: [&[u8]; 17] = [
            b"call=scratch",
            b"call=scratch from=0",
            b"call=scratch count=1 from=0",
            b"call=scratch from=0 count=65536",
            b"call=scratch from=0 count=1 count=1",
            b"call=scratches from=0 count=1",
            b"call=kind",
            b"call=kind number=",
            b"call=kind number=65536",
            b"call=kind kind=1",
            b"call=kind number=1 number=1",
            b"call=subheader",
            b"call=subheader file=0 channel=0 submode=0",
            b"call=subheader file=0 submode=0 channel=0 coding=0",
            b"call=subheader file=0 channel=0 submode=0 coding=65536",
            b"call=subheader file=0 channel=0 submode=0 coding=0 coding=0",
            b"call=subheader 0 0 0 0",
        ];
        lines.into_iter().for_each(is_malformed);
    }

    #[test]
    fn eighty_bytes_pass_and_one_more_does_not() {
        let padded = |length: usize| format!("call=open ring={:0>width$}", 3, width = length - 15);
        assert_eq!(padded(80).len(), 80);
        assert_eq!(parse(padded(80).as_bytes()), Some(Call::Open { ring: 3 }));
        assert_eq!(parse(padded(81).as_bytes()), None);
    }
}
