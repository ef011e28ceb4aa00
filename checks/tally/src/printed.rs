//! The line that a bench program prints: seven numbers, in one form.

const KEYS: [&str; 7] = ["n", "answer", "out", "tcc", "bufc", "why", "irq"];

/// What the tally reads of it, and what is compared.
#[derive(Clone, Copy, Debug, PartialEq, Eq)]
pub struct Printed {
    pub n: u64,
    pub answer: u64,
    pub out: u64,
    pub tcc: u64,
    pub bufc: u64,
}

impl Printed {
    /// A line without its newline, or nothing if it is of another form.
    pub fn parse(line: &[u8]) -> Option<Printed> {
        let mut fields = std::str::from_utf8(line).ok()?.split(' ');
        let mut numbers = [0; KEYS.len()];
        for (key, number) in KEYS.iter().zip(&mut numbers) {
            *number = parse_number(fields.next()?.strip_prefix(key)?.strip_prefix('=')?)?;
        }
        let [n, answer, out, tcc, bufc, _, _] = numbers;
        fields.next().is_none().then_some(Printed { n, answer, out, tcc, bufc })
    }
}

/// A program prints a number in one way: neither a sign, which the standard parser takes, nor a zero before it.
fn parse_number(digits: &str) -> Option<u64> {
    let number: u64 = digits.parse().ok()?;
    (number.to_string() == digits).then_some(number)
}

#[cfg(test)]
mod tests {
    use super::*;

    #[test]
    fn a_line_is_read() {
        let line = b"n=12 answer=0 out=65535 tcc=24 bufc=25 why=15 irq=1";
        assert_eq!(Printed::parse(line), Some(Printed { n: 12, answer: 0, out: 65535, tcc: 24, bufc: 25 }));
    }

    #[test]
    fn another_form_is_not() {
        let lines: [&[u8]; 14] = [
            b"",
            b"n=1",
            b"n=1 answer=0 out=0 tcc=0 bufc=0 irq=0",
            b"n=1 answer=0 out=0 tcc=0 bufc=0 why=0",
            b"n=1 answer=0 out=0 tcc=0 bufc=0 why=0 irq=0 ",
            b"n=1 answer=0 out=0 tcc=0 bufc=0 why=0 irq=0 in=0",
            b" n=1 answer=0 out=0 tcc=0 bufc=0 why=0 irq=0",
            b"n=1  answer=0 out=0 tcc=0 bufc=0 why=0 irq=0",
            b"n=1 answer=0 out=0 bufc=0 tcc=0 why=0 irq=0",
            b"n=1 answer=0 out=0 tcc= bufc=0 why=0 irq=0",
            b"n=1 answer=0 out=0 tcc=+1 bufc=1 why=0 irq=0",
            b"n=1 answer=0 out=0 tcc=01 bufc=1 why=0 irq=0",
            b"n=1 answer=0 out=0 tcc=99999999999999999999 bufc=1 why=0 irq=0",
            b"n=1 answer=0 out=0 tcc=0 bufc=0 why=0 irq=0\r",
        ];
        for line in lines {
            assert_eq!(Printed::parse(line), None, "{}", String::from_utf8_lossy(line));
        }
    }
}
