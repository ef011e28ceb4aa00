//! Prints a random script, to time a bench program on: `script SEED LINES`.

use std::io::{self, Write};

fn main() -> io::Result<()> {
    let numbers: Vec<u64> = std::env::args().skip(1).filter_map(|word| word.parse().ok()).collect();
    let [seed, lines] = numbers[..] else {
        return Err(io::Error::other("usage: script SEED LINES"));
    };
    io::stdout().write_all(&model::random_script(seed, lines as usize))
}
