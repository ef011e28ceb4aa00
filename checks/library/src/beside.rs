//! The calls that need no chip. They are made at each sector that a chip is given, whether or not the chip takes it:
//! on that sector, on buffers of its length, on sectors that were made for them, and on addresses.

use crate::buffers::Buffers;
use crate::call::{Answer, Call};
use crate::checker::Checker;
use crate::difference::{same, same_rows, Part};
use crate::expectation::{followed, judged, parity_checked, sealed, sealed_xa};
use crate::happenings::{judging_name, parity_name};
use crate::library::Library;
use crate::record::{self, Record};
use crate::sealing::Sealing;
use crate::{addresses, judging, parity};
use ecma130::{open, Address};

const DONE: Answer = Answer::Reply { number: 0, result: 0 };
const YES: Answer = Answer::Reply { number: 0, result: 1 };

impl<L: Library> Checker<'_, L> {
    pub fn compare_beside(&mut self, call: &Call, record: &Record, buffers: &Buffers) -> Result<(), Part> {
        let Call::Sector { sector, .. } = call else {
            return Ok(());
        };
        let (opened, address) = (buffers.opened_sector(), record::expected(record));
        let answer = self.compare_judging(&opened, address)?;
        self.happenings.note_judged(&answer);
        self.compare_parity(&opened)?;
        self.compare_sealing(sector.length, address)?;
        let sealing = Sealing::random(sector.length, address, &mut self.random);
        self.compare_sealing_xa(&sealing)?;
        self.compare_made_for_parity()?;
        self.compare_made_for_judging()?;
        self.compare_next_address(address)?;
        let chosen = addresses::any(&mut self.address_random);
        self.compare_next_address(chosen)
    }

    fn compare_made_for_parity(&mut self) -> Result<(), Part> {
        let making = self.random.pick(&parity::MAKINGS);
        let made = making.make(&mut self.random);
        let found = self.compare_parity(&made)?;
        same("the parity check by how the sector was made, given as the model's", making.answer, found)?;
        self.happenings.count(&parity_name(making.name));
        Ok(())
    }

    fn compare_made_for_judging(&mut self) -> Result<(), Part> {
        let making = self.random.pick(&judging::MAKINGS);
        let random = &mut self.random;
        let address = Address::new(random.between(0, 99), random.between(0, 59), random.between(0, 74));
        let made = making.make(address, random);
        let found = self.compare_judging(&made, address)?;
        let wanted = Answer::Reply { number: 0, result: making.why };
        same("the judgement by how the sector was made, given as the model's", wanted, found)?;
        self.compare_parity(&made)?;
        self.happenings.count(&judging_name(making.name));
        Ok(())
    }

    fn compare_judging(&mut self, opened: &[u8], expected: Address) -> Result<Answer, Part> {
        let mut lent = opened.to_vec();
        let found = self.library.judge(&mut lent, expected);
        same("the judgement", judged(opened, expected), found)?;
        same_rows("the judged sector, byte", opened, &lent)?;
        Ok(found)
    }

    fn compare_parity(&mut self, opened: &[u8]) -> Result<Answer, Part> {
        let mut lent = opened.to_vec();
        let found = self.library.parity(&mut lent);
        same("the parity check", parity_checked(opened), found)?;
        same_rows("the checked sector, byte", opened, &lent)?;
        Ok(found)
    }

    fn compare_next_address(&mut self, address: Address) -> Result<(), Part> {
        let Address { minute, second, frame } = address;
        let (wanted, found) = (followed(address), self.library.next_address(address));
        same(&format!("the next address of {minute:02}:{second:02}:{frame:02}"), wanted, found)?;
        self.happenings.note_next_address(address, &wanted);
        Ok(())
    }

    /// Over stale bytes, so that all but the user bytes must be written.
    fn compare_sealing(&mut self, length: usize, address: Address) -> Result<(), Part> {
        let mut expected = self.random.bytes(length);
        let mut lent = expected.clone();
        let (wanted, found) = (sealed(&mut expected, address), self.library.seal(&mut lent, address));
        same("the sealing", wanted, found)?;
        same_rows("the sealed sector, byte", &expected, &lent)?;
        self.happenings.note_sealed(&wanted);
        Ok(())
    }

    /// The same of a kind; what is done is then opened, judged, checked and sealed again.
    fn compare_sealing_xa(&mut self, sealing: &Sealing) -> Result<(), Part> {
        let Sealing { length, address, kind, subheader } = *sealing;
        let mut expected = self.random.bytes(length);
        let mut lent = expected.clone();
        let mut lent_subheader = subheader;
        let wanted = sealed_xa(&mut expected, address, kind, subheader);
        let found = self.library.seal_xa(&mut lent, address, kind, &mut lent_subheader);
        same(&format!("the sealing of kind {kind}"), wanted, found)?;
        same_rows(&format!("the sealed sector of kind {kind}, byte"), &expected, &lent)?;
        same_rows("the lent subheader, byte", &subheader, &lent_subheader)?;
        self.happenings.note_sealed_xa(&wanted, sealing);
        if found.is_done() {
            self.compare_round_trip(sealing, lent)?;
        }
        Ok(())
    }

    fn compare_round_trip(&mut self, sealing: &Sealing, mut sector: Vec<u8>) -> Result<(), Part> {
        let Sealing { address, kind, mut subheader, .. } = *sealing;
        let before = sector.clone();
        open(&mut sector).expect("it was sealed");
        same("the judgement of a sealed sector, given as the model's", DONE, self.compare_judging(&sector, address)?)?;
        same("the parity check of a sealed sector, given as the model's", YES, self.compare_parity(&sector)?)?;
        let found = self.library.seal_xa(&mut sector, address, kind, &mut subheader);
        same("the sealing of an opened sector, given as the model's", DONE, found)?;
        same_rows("the sector that was sealed again, byte", &before, &sector)
    }
}
