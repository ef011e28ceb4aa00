//! The model as a bench program, to try the driver on.

use model::Bench;
use std::io::{BufRead, Write};

fn main() -> std::io::Result<()> {
    let mut bench = Bench::new();
    let mut output = std::io::BufWriter::new(std::io::stdout().lock());
    for line in std::io::stdin().lock().split(b'\n') {
        writeln!(output, "{}", bench.line(&line?))?;
    }
    output.flush()
}
