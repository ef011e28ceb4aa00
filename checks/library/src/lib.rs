//! The proved library held against the model, call by call: the linked
//! archive and `model` are given the same random calls, and all that a call answers and leaves
//! is compared after it.

mod addresses;
mod any_calls;
mod beside;
mod buffers;
mod call;
mod checker;
mod difference;
mod expectation;
mod happenings;
mod judging;
mod library;
mod limits;
mod loading;
mod long_starts;
mod memory;
mod noting;
mod parity;
pub mod record;
mod run;
mod sealing;
mod sectors;
mod sequences;
mod soundness;
mod stand_in;
mod state;
mod steering;

pub use call::{Answer, Call};
pub use difference::Difference;
pub use happenings::Happenings;
pub use library::{Lent, Library, Linked};
pub use run::run;
pub use stand_in::StandIn;
pub use steering::Chooser;
