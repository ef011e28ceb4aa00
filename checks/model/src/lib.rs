//! The buffer board of paper 01 once more, with asks 1 to 4 of paper 02, as plainly as it can be said, and
//! the bench program's line format on top of it. Written from the papers and the
//! readings of docs/DECISIONS.md, to be compared line by line with the bench program.

mod bench;
mod book;
mod call;
mod chip;
mod disc;
mod random;
mod scratch;
mod script;

pub use bench::{run_on, Bench};
pub use book::Book;
pub use call::{parse, Call, MAX_LINE_BYTES};
pub use chip::{Answer, Chip, Refusal, Transfer, Window, BLOCK_BYTES};
pub use disc::{sealed, Disc};
pub use random::Random;
pub use scratch::Scratch;
pub use script::{random_script, Chosen, Writer, CHOSEN, CHOSEN_AT_FIRST_ADDRESS};
