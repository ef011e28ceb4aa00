//! What the next address was asked of.

use crate::call::Answer;
use crate::happenings::Happenings;
use ecma130::Address;

impl Happenings {
    pub fn note_next_address(&mut self, address: Address, answer: &Answer) {
        if answer.is_done() {
            self.note_step(address);
        } else {
            self.note_no_address(address);
        }
    }

    /// By the parts that change.
    fn note_step(&mut self, address: Address) {
        let Address { minute, second, frame } = address;
        let what = match (minute, second, frame) {
            (99, 59, 74) => "next address after the last",
            (_, 59, 74) => "next address in the next minute",
            (_, _, 74) => "next address in the next second",
            _ => "next address within a second",
        };
        self.count(what);
        self.count_if(second == 59 && frame != 74, "next address within the last second of a minute");
        self.count_if(frame == 9, "next address from frame 9 to frame 10");
        self.count_if(frame == 69, "next address from frame 69 to frame 70");
    }

    /// By the parts that are wrong, each alone.
    fn note_no_address(&mut self, address: Address) {
        let Address { minute, second, frame } = address;
        let what = match (minute > 99, second > 59, frame > 74) {
            (true, false, false) => "next address refused, minute (3)",
            (false, true, false) => "next address refused, second (3)",
            (false, false, true) => "next address refused, frame (3)",
            _ => "next address refused, several parts (3)",
        };
        self.count(what);
    }
}
