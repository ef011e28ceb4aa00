//! The paper tally of the shift staff (paper 02, ask 6), and a bench program's counts held against it.
//!
//! The tally is kept from the lines of a script and from `answer` and `out` of what was printed for
//! them. The counts that are printed beside, `tcc` and `bufc`, are only compared. Of the model it
//! takes the grammar of a line; the model's chip is there for making scripts, and never asked for a count.
//! Calls that come by no line, as in `library/tests/tally.rs`, are noted by `Tally::note_call`.

mod account;
mod printed;
mod random;
mod tally;

pub use account::{keep, lines_of, Step, Trouble};
pub use printed::Printed;
pub use random::{make_script, Script};
pub use tally::{Impossible, Tally};
