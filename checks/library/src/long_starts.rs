//! Starts of many blocks, whose numbers lie about what bounds them.

use crate::call::Call;
use crate::steering::{ring_bytes, write, Chooser, Wish};
use model::{Chip, Window};

/// Windows on both sides of where a start may have a block less, those whose counts are looked for more often; and
/// small ones.
const WINDOWS: [u16; 26] = [
    1, 1, 2, 3, 1023, 1023, 1023, 1023, 1024, 1024, 1024, 1024, 1057, 1057, 1057, 1058, 1092, 1093, 1129, 1130, 1170,
    1171, 1176, 1176, 1176, 1176,
];

/// Rings that are large enough, none by much.
const RINGS: [u16; 3] = [33, 41, 64];
const LEAST_RING: usize = 33;

/// What a start goes by.
struct Asked {
    words: u16,
    good: u16,
    /// 9Ch, with ATTEN and ATLIM.
    switches: u16,
    /// 18h, with STWCEN.
    host_switches: u16,
    mbc: u16,
    ttc: u16,
}

impl Chooser {
    /// A ring filled once and several starts over its blocks, each from an abort on. A smaller ring is most often left
    /// as it is, and else comes back when they are done: small rings have their time too.
    pub(crate) fn long_starts(&mut self, chip: &Chip) -> Call {
        if chip.blocks >= LEAST_RING {
            self.plan_starts();
            self.plan_full_ring(chip);
            return Call::Srst;
        }
        if !self.random.one_in(3) {
            return self.serve(chip);
        }
        // First while the new ring has no good block.
        let none = Asked { good: 0, ..self.asked_by_mbc() };
        self.plan_start(&none);
        self.plan_starts();
        self.follow(&[Call::Open { blocks: chip.blocks as u16 }]);
        Call::Open { blocks: self.random.pick(&RINGS) }
    }

    fn plan_starts(&mut self) {
        for _ in 0..self.random.between(2, 4) {
            let asked = if self.random.one_in(3) { self.asked_by_mbc() } else { self.asked_by_ttc() };
            self.plan_start(&asked);
        }
        if !self.random.one_in(4) {
            self.plan.push_back(Wish::Drain);
        }
    }

    /// It takes many sectors, so only the largest is filled.
    fn plan_full_ring(&mut self, chip: &Chip) {
        if chip.blocks == 255 && self.random.one_in(3) {
            let full = Asked { good: 254, ..self.asked_by_ttc() };
            self.plan_start(&full);
        }
    }

    /// MBC, and good blocks, about the most blocks that the window allows, and MBC beyond them.
    fn asked_by_mbc(&mut self) -> Asked {
        let (words, most) = self.window_and_bound();
        let good = self.random.pick(&[most - 1, most - 1, most, most, 31, 33]);
        let mbc = self.random.pick(&[most - 2, most - 1, 31, 31, 31, 31]);
        Asked { words, good, switches: 0x60, host_switches: self.counting(), mbc, ttc: 0 }
    }

    /// Any of the four bounds may be the least.
    fn asked_by_ttc(&mut self) -> Asked {
        let (words, most) = self.window_and_bound();
        let good = self.random.pick(&[most - 1, most + 1, 32, 33]);
        let atlim = self.random.pick(&[0, 0, 0, 0, most - 1, most.min(31), 31]);
        let switches = self.random.pick(&[0x60, 0x60, 0xE0]) | atlim;
        let ttc = self.random.pick(&[most - 1, most, most + 1, 40, 255]);
        Asked { words, good, switches, host_switches: self.counting(), mbc: 0, ttc }
    }

    /// A window, and the most blocks that a start can have by it.
    fn window_and_bound(&mut self) -> (u16, u16) {
        let words = self.random.pick(&WINDOWS);
        let most = Window { offset: 0, words: words as usize }.most_blocks();
        (words, most.min(32) as u16)
    }

    /// ADCEN, with STWCEN or without.
    fn counting(&mut self) -> u16 {
        self.random.pick(&[0x40, 0x48, 0x48])
    }

    /// A write of 9Dh lowers TCC if it is above what is wanted, and changes nothing if it is not: then the ring is
    /// filled.
    fn plan_start(&mut self, asked: &Asked) {
        let offset = self.random.between(0, 2352 - 2 * asked.words);
        let window = Call::SetWindow { offset, words: asked.words };
        self.follow(&[Call::Srst, write(0x0A, 0x00), write(0x9D, asked.good), write(0x9A, 0x20)]);
        self.follow(&[write(0x9C, asked.switches), window, write(0x18, asked.host_switches), write(0x0A, 0x80)]);
        self.plan.push_back(Wish::Fill(asked.good as usize));
        let command = Call::Command { code: 0x28 };
        let (mbc, ttc) = (write(0x12, asked.mbc), write(0x9F, asked.ttc));
        let order = self.random.pick(&[[command, mbc, ttc], [mbc, ttc, command]]);
        self.follow(&order);
        self.follow(&[write(0x17, 0x04), Call::Read { reg: 0x12 }, Call::Read { reg: 0x35 }, Call::Read { reg: 0x34 }]);
    }

    /// Transfers that start by themselves one after another, read by one burst of more
    /// words than sixteen bits count.
    pub(crate) fn long_burst(&mut self, chip: &Chip) -> Call {
        let good = (chip.blocks - 1).min(self.random.pick(&[57, 60, 254]));
        let first = self.prepare(good, 0xE0, 1176);
        let count = self.random.pick(&[65536, 65537, 70_000, 255 * 1176]);
        let burst = Call::Words { lent: ring_bytes(chip), count };
        self.follow(&[Call::Command { code: 0x28 }, write(0x9F, 255), burst]);
        first
    }
}
