//! A library that is right with a fault put into what it answers or leaves.

use ecma130::Address;
use library::record::Record;
use library::{Answer, Call, Lent, Library, StandIn};

/// What a call was made on, and what it answered and left.
pub struct Made<'a> {
    pub call: &'a Call,
    pub before: &'a Record,
    pub record: &'a mut Record,
    pub answer: &'a mut Answer,
    pub lent: Lent<'a>,
}

/// Spoils a call, and says whether it could.
pub type Spoil<'f> = dyn FnMut(Made) -> bool + 'f;

/// From a call on, the first `times` that can be spoiled are.
pub struct Faulty<'f> {
    spoil: Box<Spoil<'f>>,
    from: u64,
    times: u64,
    calls: u64,
    /// The first call that was spoiled.
    pub spoiled: Option<u64>,
}

impl<'f> Faulty<'f> {
    pub fn new(from: u64, times: u64, spoil: impl FnMut(Made) -> bool + 'f) -> Faulty<'f> {
        Faulty { spoil: Box::new(spoil), from, times, calls: 0, spoiled: None }
    }
}

impl Library for Faulty<'_> {
    fn call(&mut self, record: &mut Record, call: &Call, lent: Lent) -> Answer {
        self.calls += 1;
        let before = *record;
        let Lent { ring, sector, words } = lent;
        let lent = Lent { ring: &mut *ring, sector: &mut *sector, words: &mut *words };
        let mut answer = StandIn.call(record, call, lent);
        if self.calls < self.from || self.times == 0 {
            return answer;
        }
        let lent = Lent { ring, sector, words };
        if (self.spoil)(Made { call, before: &before, record, answer: &mut answer, lent }) {
            self.times -= 1;
            self.spoiled.get_or_insert(self.calls);
        }
        answer
    }

    fn irq(&mut self, record: &mut Record) -> u32 {
        StandIn.irq(record)
    }

    fn why(&mut self, record: &mut Record) -> u32 {
        StandIn.why(record)
    }

    fn judge(&mut self, sector: &mut [u8], expected: Address) -> Answer {
        StandIn.judge(sector, expected)
    }

    fn seal(&mut self, sector: &mut [u8], address: Address) -> Answer {
        StandIn.seal(sector, address)
    }

    fn seal_xa(&mut self, sector: &mut [u8], address: Address, kind: u16, subheader: &mut [u8; 4]) -> Answer {
        StandIn.seal_xa(sector, address, kind, subheader)
    }

    fn parity(&mut self, sector: &mut [u8]) -> Answer {
        StandIn.parity(sector)
    }

    fn next_address(&mut self, address: Address) -> Answer {
        StandIn.next_address(address)
    }
}
