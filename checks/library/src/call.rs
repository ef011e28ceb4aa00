//! The calls of a chip as `include/cdrom.h` has them, with what is lent, and
//! their answers.

use crate::sectors::Sector;
use ecma130::Address;

/// `lent` is how many bytes of memory are lent as the ring.
#[derive(Clone, Copy, Debug, PartialEq, Eq)]
pub enum Call {
    Open { blocks: u16 },
    Write { reg: u16, value: u16 },
    Read { reg: u16 },
    SetBlock { block: u16 },
    SetWindow { offset: u16, words: u16 },
    SetExpected { address: Address },
    PacketByte { index: u16 },
    Reset,
    Sector { lent: usize, sector: Sector },
    Look { lent: usize },
    Word { lent: usize },
    Words { lent: usize, count: usize },
    Command { code: u16 },
    PacketWord { word: u16 },
    Status,
    Srst,
}

impl Call {
    pub fn name(&self) -> &'static str {
        match self {
            Call::Open { .. } => "open",
            Call::Write { .. } => "write",
            Call::Read { .. } => "read",
            Call::SetBlock { .. } => "set block",
            Call::SetWindow { .. } => "set window",
            Call::SetExpected { .. } => "set expected",
            Call::PacketByte { .. } => "packet byte",
            Call::Reset => "reset",
            Call::Sector { .. } => "sector",
            Call::Look { .. } => "look",
            Call::Word { .. } => "word",
            Call::Words { .. } => "words",
            Call::Command { .. } => "command",
            Call::PacketWord { .. } => "packet word",
            Call::Status => "status",
            Call::Srst => "srst",
        }
    }

    /// The bytes that are lent as the ring, where the call is lent one.
    pub fn lent(&self) -> Option<usize> {
        match *self {
            Call::Sector { lent, .. } | Call::Look { lent } | Call::Word { lent } | Call::Words { lent, .. } => {
                Some(lent)
            }
            _ => None,
        }
    }

    /// The same call with another length of the ring.
    pub fn with_lent(self, lent: usize) -> Call {
        match self {
            Call::Sector { sector, .. } => Call::Sector { lent, sector },
            Call::Look { .. } => Call::Look { lent },
            Call::Word { .. } => Call::Word { lent },
            Call::Words { count, .. } => Call::Words { lent, count },
            other => other,
        }
    }

    /// What the call answers where it is refused.
    pub fn refused(&self, number: u32) -> Answer {
        match self {
            Call::Look { .. } => Answer::Part { offset: 0, length: 0 },
            Call::Words { .. } => Answer::Burst { number, result: 0, handed: 0 },
            _ => Answer::Reply { number, result: 0 },
        }
    }
}

#[derive(Clone, Copy, Debug, PartialEq, Eq)]
pub enum Answer {
    Reply {
        number: u32,
        result: u32,
    },
    /// Of a look: where the part of the ring begins, and its bytes.
    Part {
        offset: usize,
        length: usize,
    },
    /// Of a burst: how many words were handed over.
    Burst {
        number: u32,
        result: u32,
        handed: usize,
    },
}

impl Answer {
    /// The reply number; a look has none.
    pub fn number(&self) -> Option<u32> {
        match *self {
            Answer::Reply { number, .. } | Answer::Burst { number, .. } => Some(number),
            Answer::Part { .. } => None,
        }
    }

    pub fn result(&self) -> u32 {
        match *self {
            Answer::Reply { result, .. } | Answer::Burst { result, .. } => result,
            Answer::Part { .. } => 0,
        }
    }

    pub fn is_done(&self) -> bool {
        self.number() == Some(0)
    }
}
