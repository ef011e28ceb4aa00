//! Steps and rows of calls towards something that can happen.

use crate::call::Call;
use crate::happenings::READABLE;
use crate::steering::{ring_bytes, write, Chooser, Wish};
use ecma130::Address;
use model::Chip;

/// Each just past the end of one range.
const WRONG_ADDRESSES: [Address; 4] =
    [Address::new(100, 0, 0), Address::new(0, 60, 0), Address::new(0, 0, 75), Address::new(256, 256, 256)];

const LAST_BUT_ONE: Address = Address::new(99, 59, 73);
const LAST_BUT_ONE_OF_A_MINUTE: Address = Address::new(9, 59, 73);

/// Parts of a sector whose words tell blocks apart.
const TELLING_OFFSETS: [u16; 11] = [0, 10, 11, 12, 14, 2062, 2064, 2066, 2075, 2247, 2344];

/// By what the chip is doing.
impl Chooser {
    pub(crate) fn in_transfer(&mut self, chip: &Chip) -> Call {
        match self.random.below(60) {
            0..=1 => Call::Srst,
            2..=4 => self.look(chip),
            5 => self.random.pick(&[Call::Status, Call::Status, Call::Reset]),
            6..=9 => self.read(),
            10..=17 => self.sector(chip),
            18 => self.then(write(0x0A, 0x00), &[write(0x0A, 0x80)]),
            19..=23 => self.meddling(chip),
            24..=31 => self.word(chip),
            _ => self.burst(chip),
        }
    }

    pub(crate) fn in_reception(&mut self, chip: &Chip) -> Call {
        match self.random.below(60) {
            0..=1 => Call::Srst,
            2..=3 => write(0x07, 0),
            4..=5 => self.read(),
            6 => Call::Command { code: 0xA0 },
            7..=9 => self.meddling(chip),
            10..=12 => self.sector(chip),
            13 => self.look(chip),
            _ => Call::PacketWord { word: self.random.between(0, 65535) },
        }
    }

    pub(crate) fn at_rest(&mut self, chip: &Chip) -> Call {
        match self.random.below(100) {
            0..=21 => self.fill(chip),
            22..=24 => self.keep_facts(chip),
            25..=48 => self.serve(chip),
            49 => self.bad_sectors(chip),
            50..=57 => self.packet_command(chip),
            58 => self.start_by_packet(),
            59..=63 => self.read(),
            64..=66 => self.look(chip),
            67 => self.words_without_transfer(chip),
            68..=69 => Call::Status,
            70..=72 => Call::PacketByte { index: self.random.between(0, 12) },
            73..=76 => self.skip(chip),
            77..=79 => self.withdraw(chip),
            80..=81 => self.limit(chip),
            82..=84 => self.meddling_with_decoder(chip),
            85..=86 => self.move_on_disc(chip),
            87..=88 => self.move_in_ring(chip),
            89 => self.task_file(),
            90..=91 => self.status_bits(),
            92 => self.completion(),
            93 => self.abort_or_sign(),
            94..=95 => self.drop_count(chip),
            96..=98 => self.long_starts(chip),
            _ if chip.blocks > 60 && self.random.one_in(2) => self.long_burst(chip),
            _ => self.begin_again(),
        }
    }
}

/// Filling the ring.
impl Chooser {
    fn fill(&mut self, chip: &Chip) -> Call {
        if chip.held && self.random.one_in(8) {
            return write(0x0A, 0x80);
        }
        if chip.held && !self.random.one_in(4) {
            let read = self.random.pick(&[0x80, 0x3A, 0x9B]);
            return self.then(write(0x0A, 0x00), &[Call::Read { reg: read }, write(0x0A, 0x80)]);
        }
        if !chip.decen && !self.random.one_in(10) {
            return self.start_decoder(chip);
        }
        if chip.decen && chip.is_at_stop() && !self.random.one_in(4) {
            return self.make_room(chip);
        }
        if self.random.one_in(8) {
            let good = self.random.pick(&[3, 5, 12, chip.blocks - 1]);
            self.plan.push_back(Wish::Fill(good));
        }
        self.sector(chip)
    }

    /// A bad sector, and what must leave its facts or take them away.
    fn keep_facts(&mut self, chip: &Chip) -> Call {
        let (bad, other, good) = (self.bad_sector(chip), self.sector_with_one_fault(chip), self.good_sector(chip));
        let (off, on) = (write(0x0A, 0x00), write(0x0A, 0x80));
        if chip.tcc + 3 > chip.blocks {
            self.follow(&[write(0x9D, 0)]);
        }
        self.follow(&[write(0x9A, 0x20), write(0x9C, 0x60), on, bad]);
        match self.random.below(6) {
            0 => self.follow(&[off, good, on, other]),
            1 => self.follow(&[off, write(0x9A, 0x30), write(0x9B, 0), on, good, off, write(0x9A, 0x20), on, good]),
            2 => self.follow(&[good, Call::Srst, Call::Read { reg: 0x80 }, off, on, other]),
            3 => self.follow(&[Call::Read { reg: 0x80 }, off, on, other, Call::Read { reg: 0x80 }]),
            4 => self.follow(&[Call::Reset]),
            _ => {
                let opening = self.opening();
                self.follow(&[opening]);
            }
        }
        off
    }

    /// A row of them, of any kinds.
    fn bad_sectors(&mut self, chip: &Chip) -> Call {
        let (off, on) = (write(0x0A, 0x00), write(0x0A, 0x80));
        if chip.tcc + 3 > chip.blocks {
            self.follow(&[write(0x9D, 0)]);
        }
        self.follow(&[write(0x9A, 0x20), write(0x9C, 0x60), on]);
        for _ in 0..6 {
            let bad = self.bad_sector(chip);
            self.follow(&[bad, off, on]);
        }
        off
    }

    /// At its stop a ring goes on when blocks are taken or the limit moves.
    fn make_room(&mut self, chip: &Chip) -> Call {
        if chip.blims && self.random.one_in(2) {
            return self.limit(chip);
        }
        if chip.acmen && self.random.one_in(4) {
            return self.skip(chip);
        }
        if chip.tcc > 0 {
            return self.serve(chip);
        }
        self.limit(chip)
    }

    fn start_decoder(&mut self, chip: &Chip) -> Call {
        if !chip.blimen {
            return write(0x9A, self.random.pick(&[0x20, 0x20, 0x20, 0x20, 0x20, 0x30]));
        }
        if !chip.tcincen {
            return self.block_switches(0x60);
        }
        write(0x0A, 0x80)
    }

    /// A write of 9Ch with these bits, ATTEN and ATLIM left to chance.
    fn block_switches(&mut self, bits: u16) -> Call {
        let atten = self.random.pick(&[0x00, 0x80]);
        let atlim = self.random.pick(&[0, 0, 1, 2, 3, 5, 31]);
        write(0x9C, bits | atten | atlim)
    }

    fn skip(&mut self, chip: &Chip) -> Call {
        let good = chip.tcc as u16;
        let count = self.random.between(0, good + 1);
        write(0x9E, self.random.pick(&[1, 2, good, good + 1, count]).min(256))
    }

    fn withdraw(&mut self, chip: &Chip) -> Call {
        let count = self.random.between(0, chip.tcc as u16 + 1);
        if chip.decen {
            return self.then(write(0x0A, 0x00), &[write(0x9D, count), write(0x0A, 0x80)]);
        }
        write(0x9D, count)
    }

    /// Also one block more than the limit can be, and a limit below what is there.
    fn limit(&mut self, chip: &Chip) -> Call {
        let select = self.random.pick(&[0x20, 0x20, 0x30]);
        let most = chip.blocks as u16 - 2;
        let any = self.random.between(0, most);
        let near = (chip.tcc as u16 + self.random.between(0, 3)).min(most);
        let limit = self.random.pick(&[any, near, near, most, most + 1, 0]);
        let sector = self.sector(chip);
        let rest = [write(0x9A, select), write(0x9B, limit), write(0x0A, 0x80), sector];
        self.then(write(0x0A, 0x00), &rest)
    }

    /// What a decoder that is on refuses, with values that are otherwise
    /// right or are even the present ones; and what changes the switches that it needs.
    fn meddling_with_decoder(&mut self, chip: &Chip) -> Call {
        match self.random.below(9) {
            0 => write(0x9A, 0x20),
            1 => write(0x9A, 0x30),
            2 => write(0x9B, 1),
            3 => write(0x9C, 0x40),
            4 => write(0x9D, chip.tcc as u16),
            5 => Call::SetBlock { block: chip.t as u16 },
            6 => write(0x0A, 0x80),
            7 => self.then(write(0x0A, 0x00), &[write(0x9A, 0x00), write(0x0A, 0x80)]),
            _ => Call::SetExpected { address: chip.expected },
        }
    }

    /// Often to the end of the disc or of a minute, and on over it.
    fn move_on_disc(&mut self, chip: &Chip) -> Call {
        let any = self.any_address();
        let wrong = self.random.pick(&WRONG_ADDRESSES);
        let address = self.random.pick(&[any, any, LAST_BUT_ONE, LAST_BUT_ONE_OF_A_MINUTE, wrong]);
        let first = self.then(write(0x0A, 0x00), &[Call::SetExpected { address }, write(0x0A, 0x80)]);
        self.plan.push_back(Wish::Fill(chip.tcc + 3));
        first
    }

    fn move_in_ring(&mut self, chip: &Chip) -> Call {
        let blocks = chip.blocks as u16;
        let any = self.random.between(0, blocks);
        let block = self.random.pick(&[any, blocks - 1, blocks - 2, blocks]);
        // With good blocks left the move is refused, which is tried too.
        let left = self.random.pick(&[0, 0, chip.tcc as u16]);
        let rest = [write(0x9D, left), Call::SetBlock { block }, write(0x0A, 0x80)];
        self.then(write(0x0A, 0x00), &rest)
    }
}

/// Serving the host.
impl Chooser {
    pub(crate) fn serve(&mut self, chip: &Chip) -> Call {
        if chip.window.words == 0 || self.random.one_in(8) {
            return self.window();
        }
        if !chip.acmen {
            return self.block_switches(if chip.tcincen { 0x60 } else { 0x40 });
        }
        if !chip.adcen || self.random.one_in(6) {
            return self.host_switches();
        }
        if !chip.bsy && !self.random.one_in(10) {
            return Call::Command { code: self.random.pick(&[0x08, 0x90, 0x28, 0xA0]) };
        }
        if chip.tcc == 0 && !self.random.one_in(8) {
            return self.fill(chip);
        }
        self.give_blocks(chip)
    }

    fn give_blocks(&mut self, chip: &Chip) -> Call {
        let good = chip.tcc as u16;
        match self.random.below(6) {
            0 => self.block_switches(if chip.tcincen { 0x60 } else { 0x40 }),
            1 => write(0x9F, self.random.between(0, good + 2).min(255)),
            2 => write(0x9F, self.random.pick(&[1, 3, 40, 255])),
            3..=4 => self.burst_by_mbc(good),
            _ => write(0x17, 0x04),
        }
    }

    /// With TTC 0 the firmware's own MBC counts; one too many is tried too.
    fn burst_by_mbc(&mut self, good: u16) -> Call {
        let mbc = self.random.between(0, good.min(31));
        self.then(write(0x9F, 0), &[write(0x12, mbc), write(0x17, 0x04)])
    }

    fn window(&mut self) -> Call {
        let words = match self.random.below(20) {
            0..=1 => self.random.pick(&[0, 1024, 1176, 1177]),
            2 => self.random.between(1, 1176),
            3..=6 => self.random.between(5, 40),
            _ => self.random.between(1, 4),
        };
        let last = 2352u16.saturating_sub(2 * words);
        let offset = match self.random.below(10) {
            0 => last,
            1 => last + 1,
            2..=4 => self.random.between(0, last),
            _ => self.random.pick(&TELLING_OFFSETS),
        };
        Call::SetWindow { offset, words }
    }

    fn host_switches(&mut self) -> Call {
        let others = self.random.pick(&[0x00, 0x08, 0x09, 0x20, 0x30, 0x39, 0x80, 0xA0, 0xB8, 0xB9]);
        write(0x18, 0x40 | others)
    }

    /// The switches, the window and so many good blocks, from an abort on.
    pub(crate) fn prepare(&mut self, good: usize, switches: u16, words: u16) -> Call {
        let window = Call::SetWindow { offset: 0, words };
        self.follow(&[write(0x0A, 0x00), write(0x9A, 0x20), write(0x9C, switches), window]);
        self.follow(&[write(0x18, 0x48), write(0x0A, 0x80)]);
        self.plan.push_back(Wish::Fill(good));
        Call::Srst
    }
}

/// Packets, status and the rest.
impl Chooser {
    fn packet_command(&mut self, chip: &Chip) -> Call {
        if chip.bsy {
            return self.completion();
        }
        if chip.drq && self.random.one_in(3) {
            return self.status_bits();
        }
        if self.random.one_in(6) {
            return write(0x3D, self.random.pick(&[0x00, 0x10, 0x10]));
        }
        if !chip.apkten {
            let others = self.random.pick(&[0x00, 0x01, 0x20, 0x40, 0x49, 0x60, 0x71, 0x78]);
            return self.then(write(0x18, 0x80 | others), &[Call::Command { code: 0xA0 }]);
        }
        Call::Command { code: 0xA0 }
    }

    /// A packet with good blocks there and blocks asked for: its end may start their transfer.
    fn start_by_packet(&mut self) -> Call {
        let switches = self.random.pick(&[0xC0, 0xC8, 0xD9, 0xE0]);
        let first = self.prepare(2, 0xE0, 3);
        self.follow(&[write(0x18, switches), write(0x9F, 3), Call::Command { code: 0xA0 }]);
        first
    }

    fn completion(&mut self) -> Call {
        let end_status = self.random.pick(&[0x00, 0x40, 0x41, 0x45, 0x04, 0x01]);
        self.then(write(0x3E, end_status), &[write(0x17, 0x01)])
    }

    fn task_file(&mut self) -> Call {
        let reg = self.random.pick(&[0x31, 0x32, 0x34, 0x35]);
        let value = self.random.between(0, 255);
        self.then(write(reg, value), &[Call::Read { reg }])
    }

    /// Status bits that a later abort or signature must keep or clear.
    fn status_bits(&mut self) -> Call {
        let bits = self.random.pick(&[0x00, 0x10, 0x50, 0x55, 0x95, 0xD5, 0x45, 0x02]);
        let next = self.random.pick(&[Call::Srst, write(0x17, 0x10), Call::Status]);
        self.then(write(0x37, bits), &[next, Call::Read { reg: 0x38 }])
    }

    fn abort_or_sign(&mut self) -> Call {
        self.random.pick(&[Call::Srst, write(0x17, 0x10)])
    }

    /// Taking ACMEN low must take TTC along, and then 9Eh and 9Fh do nothing.
    fn drop_count(&mut self, chip: &Chip) -> Call {
        let kept = if chip.tcincen { 0x20 } else { 0x00 };
        let value = self.random.between(1, 255);
        let rest =
            [write(0x9F, 7), write(0x9C, kept), write(0x9E, value), write(0x9F, value), write(0x9C, kept | 0x40)];
        self.then(write(0x9C, kept | 0x40), &rest)
    }

    /// Another chip over the same memory, or the same one as opened.
    fn begin_again(&mut self) -> Call {
        let first = if self.random.one_in(3) { Call::Reset } else { self.opening() };
        if self.random.one_in(2) {
            self.fill_without_window();
        }
        first
    }

    /// Good blocks, and no part of them to be looked at.
    fn fill_without_window(&mut self) {
        self.follow(&[write(0x9A, 0x20), write(0x9C, 0x60), write(0x0A, 0x80)]);
        self.plan.extend([Wish::Fill(2), Wish::Look]);
    }

    fn words_without_transfer(&mut self, chip: &Chip) -> Call {
        Call::Words { lent: ring_bytes(chip), count: self.random.below(3) as usize }
    }

    fn read(&mut self) -> Call {
        Call::Read { reg: self.random.pick(&READABLE) }
    }

    /// What a transfer or a reception bars, with values that are otherwise right.
    fn meddling(&mut self, chip: &Chip) -> Call {
        let good = chip.tcc as u16;
        let writes = [
            write(0x12, 1),
            write(0x17, 0x01),
            write(0x17, 0x04),
            write(0x17, 0x10),
            write(0x18, 0x40),
            write(0x37, 0x50),
            write(0x9C, 0x60),
            write(0x9D, good),
            write(0x9E, good.min(1)),
            write(0x9F, 2),
            Call::SetBlock { block: 0 },
            Call::SetWindow { offset: 16, words: 2 },
            Call::Command { code: 0x28 },
            Call::PacketWord { word: 1 },
        ];
        if self.random.one_in(8) {
            let opening = self.opening();
            return self.random.pick(&[Call::Reset, opening]);
        }
        self.random.pick(&writes)
    }
}
