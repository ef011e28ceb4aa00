//! That nothing divides where a controller without a divide instruction goes: in the step to the next address, and in
//! the comparison of the expected address with a sector's.
//!
//! It is looked at from two sides, since each shows what the other does not. A compiler makes a multiplication of a
//! division by a constant, so that the archive has none where the source has one; another compiler may call a routine
//! for it. And the archive has code that is in no source here: the kit's, and what the compiler made.

mod archive;
mod block;
mod body;
mod brackets;
mod crates;
mod disassembly;
mod items;
mod listing;
mod plain;
mod program;
mod reach;
mod reader;
mod rules;
mod symbols;
mod tokens;
mod tree;

pub use archive::{check_archive, Archive};
pub use listing::list;
pub use rules::{check_sources, Finding, Sources};
pub use tree::Tree;
