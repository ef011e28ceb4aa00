//! A library that is right but in the calls that need no chip.

use ecma130::{Address, Facts, SECTOR_BYTES};
use library::record::Record;
use library::{run, Answer, Call, Lent, Library, StandIn};

pub const SEED: u64 = 51;
pub const CALLS: u64 = 20_000;

/// Of an opened sector of the right length.
pub type Judge = fn(&[u8], Address) -> Facts;
pub type Check = fn(&[u8]) -> bool;
/// Of a buffer of any length.
pub type Seal = fn(&mut [u8], Address, u16, &mut [u8; 4]) -> Answer;
/// Of any address.
pub type Next = fn(Address) -> Answer;

#[derive(Default)]
pub struct Slipping {
    pub judge: Option<Judge>,
    pub check: Option<Check>,
    pub seal: Option<Seal>,
    pub next: Option<Next>,
}

impl Library for Slipping {
    fn call(&mut self, record: &mut Record, call: &Call, lent: Lent) -> Answer {
        StandIn.call(record, call, lent)
    }

    fn irq(&mut self, record: &mut Record) -> u32 {
        StandIn.irq(record)
    }

    fn why(&mut self, record: &mut Record) -> u32 {
        StandIn.why(record)
    }

    fn judge(&mut self, sector: &mut [u8], expected: Address) -> Answer {
        match (self.judge, StandIn.judge(sector, expected)) {
            (Some(judge), Answer::Reply { number: 0, .. }) => {
                Answer::Reply { number: 0, result: judge(sector, expected).why() as u32 }
            }
            (_, answer) => answer,
        }
    }

    fn seal(&mut self, sector: &mut [u8], address: Address) -> Answer {
        StandIn.seal(sector, address)
    }

    fn seal_xa(&mut self, sector: &mut [u8], address: Address, kind: u16, subheader: &mut [u8; 4]) -> Answer {
        match self.seal {
            Some(seal) => seal(sector, address, kind, subheader),
            None => StandIn.seal_xa(sector, address, kind, subheader),
        }
    }

    fn parity(&mut self, sector: &mut [u8]) -> Answer {
        match self.check {
            Some(check) if sector.len() == SECTOR_BYTES => Answer::Reply { number: 0, result: check(sector) as u32 },
            _ => StandIn.parity(sector),
        }
    }

    fn next_address(&mut self, address: Address) -> Answer {
        match self.next {
            Some(next) => next(address),
            None => StandIn.next_address(address),
        }
    }
}

/// What differs first.
pub fn told_of(mut library: Slipping) -> String {
    run(&mut library, SEED, CALLS).expect_err("a slip was not noticed").part.what
}
