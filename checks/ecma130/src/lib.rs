//! Sectors of ECMA-130, mode 1 and mode 2 in the two forms of CD-ROM XA, written from the papers' account of the standard
//! and held against published check values and outside vectors.
//!
//! Nothing here is shared with the code that it is compared against.

mod address;
mod edc;
mod kind;
mod parity;
mod scramble;
mod sector;

pub use address::Address;
pub use edc::{edc_bitwise, edc_by_table, edc_sliced};
pub use kind::{Kind, FIRST_COPY, FORM_BIT, SECOND_COPY, SUBHEADER_BYTES};
pub use parity::{parity_holds, words_hold, write_parity, write_parity_of, write_q_parity};
pub use parity::{P_PARITY_START, Q_PARITY_START};
pub use scramble::{scramble, sequence, SEQUENCE_BYTES};
pub use sector::{
    judge, judge_with, open, seal, seal_with, seal_xa, Facts, EDC_START, SECTOR_BYTES, SYNC, USER_BYTES, USER_START,
};

/// Why a call was refused; a refused call has changed nothing.
#[derive(Clone, Copy, Debug, PartialEq, Eq)]
pub enum Refusal {
    WrongLength,
    BadAddress,
    /// Of sealing: no kind has this number.
    UnknownKind,
    /// Of sealing: the subheader's form bit is that of the other form.
    OtherForm,
}

impl Refusal {
    /// The paper's reply number.
    pub fn number(self) -> u16 {
        match self {
            Refusal::WrongLength => 1,
            Refusal::BadAddress | Refusal::UnknownKind | Refusal::OtherForm => 3,
        }
    }
}
