//! The model in the library's place: the comparison can be tried by it, whatever the archive does.

use crate::call::{Answer, Call};
use crate::expectation::{followed, judged, parity_checked, sealed, sealed_xa};
use crate::library::{Lent, Library};
use crate::record::{self, Record};
use crate::state::{refused_opening, State};
use ecma130::Address;

pub struct StandIn;

impl Library for StandIn {
    fn call(&mut self, record: &mut Record, call: &Call, lent: Lent) -> Answer {
        let wanted = State::loaded(*record).wanted(call, lent);
        match (call, &wanted.chip) {
            (Call::Open { .. }, None) => *record = refused_opening(),
            (Call::Words { count: 0, .. }, _) => {}
            (_, Some(chip)) if wanted.answer.is_done() => *record = record::encoded(chip),
            _ => {}
        }
        wanted.answer
    }

    fn irq(&mut self, record: &mut Record) -> u32 {
        record::bit(record[record::STATUS], record::HIRQ) as u32
    }

    fn why(&mut self, record: &mut Record) -> u32 {
        record::why(record)
    }

    fn judge(&mut self, sector: &mut [u8], expected: Address) -> Answer {
        judged(sector, expected)
    }

    fn seal(&mut self, sector: &mut [u8], address: Address) -> Answer {
        sealed(sector, address)
    }

    fn seal_xa(&mut self, sector: &mut [u8], address: Address, kind: u16, subheader: &mut [u8; 4]) -> Answer {
        sealed_xa(sector, address, kind, *subheader)
    }

    fn parity(&mut self, sector: &mut [u8]) -> Answer {
        parity_checked(sector)
    }

    fn next_address(&mut self, address: Address) -> Answer {
        followed(address)
    }
}
