//! Steps towards what can happen.

use super::{write, Writer, READABLE, WHOLE_PARITY};
use crate::call::Call;
use crate::chip::Chip;
use ecma130::Address;

/// Each just past the end of one range.
const WRONG_ADDRESSES: [Address; 3] = [Address::new(100, 0, 0), Address::new(0, 60, 0), Address::new(0, 0, 75)];

const LAST_ADDRESS: Address = Address::new(99, 59, 74);

/// Parts of a sector whose words tell blocks and kinds apart.
const TELLING_OFFSETS: [u16; 20] =
    [0, 10, 11, 12, 14, 14, 16, 18, 20, 22, 2062, 2064, 2066, 2070, 2073, 2075, 2247, 2344, 2346, 2347];

impl Writer {
    pub(super) fn then(&mut self, first: Call, rest: &[Call]) -> Call {
        self.plan.extend(rest);
        first
    }

    pub(super) fn fill(&mut self, chip: &Chip) -> Call {
        if chip.held && !self.random.one_in(4) {
            let read = self.random.pick(&[0x80, 0x3A, 0x9B]);
            return self.then(write(0x0A, 0x00), &[Call::Read { reg: read }, write(0x0A, 0x80)]);
        }
        if !chip.decen && !self.random.one_in(10) {
            return self.start_decoder(chip);
        }
        if chip.decen && chip.is_at_stop() && !self.random.one_in(5) {
            return self.make_room(chip);
        }
        if self.random.one_in(10) {
            return self.scratched_sector(chip);
        }
        self.sector(chip)
    }

    /// At its stop a ring goes on when blocks are taken or the limit moves.
    pub(super) fn make_room(&mut self, chip: &Chip) -> Call {
        if chip.blims && self.random.one_in(2) {
            return self.limit(chip);
        }
        if chip.acmen && self.random.one_in(4) {
            return self.skip(chip);
        }
        if chip.tcc > 0 {
            return self.serve(chip);
        }
        self.limit(chip)
    }

    pub(super) fn start_decoder(&mut self, chip: &Chip) -> Call {
        if !chip.blimen {
            return write(0x9A, self.random.pick(&[0x20, 0x20, 0x20, 0x20, 0x20, 0x30]));
        }
        if !chip.tcincen {
            return self.block_switches(0x60);
        }
        write(0x0A, 0x80)
    }

    /// A write of 9Ch with these bits, ATTEN and ATLIM left to chance.
    pub(super) fn block_switches(&mut self, bits: u16) -> Call {
        let atten = self.random.pick(&[0x00, 0x80]);
        let atlim = self.random.pick(&[0, 0, 1, 2, 3, 5, 31]);
        write(0x9C, bits | atten | atlim)
    }

    pub(super) fn sector(&mut self, chip: &Chip) -> Call {
        let address = match self.random.below(40) {
            0..=3 => chip.expected.next(),
            4 => self.any_address(),
            5 => self.random.pick(&WRONG_ADDRESSES),
            _ => chip.expected,
        };
        let fill = if self.random.one_in(60) { 256 } else { self.random.between(0, 255) };
        Call::Sector { address, fill }
    }

    pub(super) fn serve(&mut self, chip: &Chip) -> Call {
        // Long windows are left soon: each of them costs hundreds of lines.
        let change = if chip.window.words > 50 { 3 } else { 12 };
        if chip.window.words == 0 || self.random.one_in(change) {
            return self.window();
        }
        if !chip.acmen {
            return self.block_switches(if chip.tcincen { 0x60 } else { 0x40 });
        }
        if !chip.adcen || self.random.one_in(6) {
            return self.host_switches();
        }
        if !chip.bsy && !self.random.one_in(10) {
            return Call::Command { code: self.random.pick(&[0x08, 0x90, 0x28, 0xA0]) };
        }
        if chip.tcc == 0 && !self.random.one_in(8) {
            return self.fill(chip);
        }
        if chip.tcc > 0 && chip.tcincen && self.random.one_in(4) {
            return self.show_oldest_block();
        }
        self.give_blocks(chip)
    }

    pub(super) fn give_blocks(&mut self, chip: &Chip) -> Call {
        let good = chip.tcc as u16;
        match self.random.below(6) {
            0 => self.block_switches(if chip.tcincen { 0x60 } else { 0x40 }),
            1 => write(0x9F, self.random.between(0, good + 2)),
            2 => write(0x9F, self.random.between(1, 40)),
            3..=4 => self.burst_by_mbc(good),
            _ => write(0x17, 0x04),
        }
    }

    /// With TTC 0 the firmware's own MBC counts; one too many is tried too.
    pub(super) fn burst_by_mbc(&mut self, good: u16) -> Call {
        let mbc = self.random.between(0, good);
        self.then(write(0x9F, 0), &[write(0x12, mbc), write(0x17, 0x04)])
    }

    pub(super) fn window(&mut self) -> Call {
        let words = match self.random.below(40) {
            0 => self.random.pick(&[0, 1024, 1176, 1177]),
            1..=8 => self.random.between(5, 40),
            _ => self.random.between(1, 4),
        };
        let last = 2352u16.saturating_sub(2 * words);
        let offset = match self.random.below(10) {
            0 => last,
            1 => last + 1,
            2..=4 => self.random.between(0, last),
            _ => self.random.pick(&TELLING_OFFSETS),
        };
        Call::Window { offset, words }
    }

    pub(super) fn host_switches(&mut self) -> Call {
        let others = self.random.pick(&[0x00, 0x08, 0x09, 0x20, 0x30, 0x39, 0x80, 0xA0, 0xB8, 0xB9]);
        write(0x18, 0x40 | others)
    }

    pub(super) fn packet_command(&mut self, chip: &Chip) -> Call {
        if chip.bsy {
            return self.completion();
        }
        if chip.drq && self.random.one_in(3) {
            return self.status_bits();
        }
        if self.random.one_in(6) {
            return write(0x3D, self.random.pick(&[0x00, 0x10, 0x10]));
        }
        if !chip.apkten {
            let others = self.random.pick(&[0x00, 0x01, 0x20, 0x40, 0x49, 0x60, 0x71, 0x78]);
            return self.then(write(0x18, 0x80 | others), &[Call::Command { code: 0xA0 }]);
        }
        Call::Command { code: 0xA0 }
    }

    pub(super) fn completion(&mut self) -> Call {
        let end_status = self.random.pick(&[0x00, 0x40, 0x41, 0x45, 0x04, 0x01]);
        self.then(write(0x3E, end_status), &[write(0x17, 0x01)])
    }

    /// A reset with every register read after it.
    pub(super) fn reset(&mut self) -> Call {
        let value = self.random.between(1, 255);
        self.plan.extend([write(0x32, value), write(0x34, value), Call::Reset]);
        self.plan.extend(READABLE.map(|reg| Call::Read { reg }));
        write(0x31, value)
    }

    pub(super) fn abort_or_sign(&mut self) -> Call {
        let call = self.random.pick(&[Call::Srst, write(0x17, 0x10)]);
        self.survey(call)
    }

    pub(super) fn task_file(&mut self) -> Call {
        let reg = self.random.pick(&[0x31, 0x32, 0x34, 0x35]);
        let value = self.random.between(0, 255);
        self.then(write(reg, value), &[Call::Read { reg }])
    }

    /// A ring filled with 17 blocks or more, a start of as many, and what it
    /// leaves in MBC and the byte count. ATLIM cuts nothing but where it is 16.
    pub(super) fn long_start(&mut self) -> Call {
        let ring = self.random.pick(&[25, 25, 25, 22, 18]);
        let good = if self.random.one_in(5) { self.random.between(17, ring - 1) } else { ring - 1 };
        let switches = self.random.pick(&[0x60, 0x60, 0xE0]) | self.random.pick(&[0, 0, 0, 16, 16, 31]);
        let words = self.random.pick(&[1, 2, 1024, 1100, 1176]);
        let window = Call::Window { offset: 0, words };
        self.plan.extend([write(0x9A, 0x20), write(0x9C, switches), window, write(0x18, 0x48), write(0x0A, 0x80)]);
        let mut address = Address::new(0, 2, 0);
        for _ in 0..good {
            let fill = self.random.between(0, 255);
            self.plan.push_back(Call::Sector { address, fill });
            address = address.next();
        }
        let blocks = self.random.pick(&[17, good, good, 255, 255]);
        self.plan.extend([Call::Command { code: 0x28 }, write(0x9F, blocks), write(0x17, 0x04)]);
        self.plan.extend([0x12, 0x35, 0x34].map(|reg| Call::Read { reg }));
        if words > 2 {
            self.plan.push_back(Call::Srst);
        }
        Call::Open { ring }
    }

    /// A packet with a good block there and blocks asked for: its end starts their transfer.
    pub(super) fn start_by_packet(&mut self) -> Call {
        let switches = self.random.pick(&[0xC0, 0xC8, 0xD1]);
        self.ask_for_blocks(switches);
        self.plan.push_back(Call::Command { code: 0xA0 });
        self.plan.extend([0x28, 0, 0x96, 0, 1, 0].map(|word| Call::Send { word }));
        Call::Reset
    }

    /// The same with a command, whose BSY is all that the start waits for.
    pub(super) fn start_by_command(&mut self) -> Call {
        self.ask_for_blocks(0x48);
        self.plan.extend([Call::Command { code: 0x28 }, Call::Read { reg: 0x34 }]);
        Call::Reset
    }

    /// From a reset on: one good block, and starts by themselves.
    fn ask_for_blocks(&mut self, switches: u16) {
        let (count, fill) = (self.random.between(1, 3), self.random.between(0, 255));
        self.plan.extend([write(0x9A, 0x20), write(0x9C, 0xE0), Call::Window { offset: 12, words: 3 }]);
        self.plan.extend([write(0x0A, 0x80), Call::Sector { address: Address::new(0, 2, 0), fill }]);
        self.plan.extend([write(0x18, switches), write(0x9F, count)]);
    }

    /// Taking ACMEN low must take TTC along.
    pub(super) fn drop_count(&mut self) -> Call {
        let rest = [write(0x9F, 7), write(0x9C, 0x20), Call::Read { reg: 0x9F }, write(0x9C, 0x60)];
        self.then(write(0x9C, 0x60), &rest)
    }

    /// Status bits that a later abort or signature must keep or clear.
    pub(super) fn status_bits(&mut self) -> Call {
        let bits = self.random.pick(&[0x00, 0x10, 0x50, 0x55, 0x95, 0xD5, 0x45, 0x02]);
        let next = self.random.pick(&[Call::Srst, write(0x17, 0x10), Call::Status]);
        let status = Call::Read { reg: 0x38 };
        self.then(write(0x37, bits), &[status, next, status])
    }

    /// What a running transfer or a reception bars, or some of it.
    pub(super) fn meddling(&mut self) -> Call {
        let value = self.random.pick(&[0, 1, 4, 16, 64, 96]);
        match self.random.below(11) {
            0 => Call::Window { offset: 16, words: 2 },
            1 => Call::Block { number: 0 },
            2 => Call::Command { code: 0x28 },
            _ => write(self.random.pick(&[0x12, 0x17, 0x18, 0x37, 0x9C, 0x9D, 0x9E, 0x9F]), value),
        }
    }

    pub(super) fn show_oldest_block(&mut self) -> Call {
        self.plan.extend([write(0x9C, 0x60), write(0x18, 0x40), write(0x12, 0)]);
        if self.random.one_in(8) {
            self.serve_whole_block();
        } else {
            self.sweep();
        }
        Call::Srst
    }

    /// All of it, its user bytes, or its parity; of form 2 the user bytes that stand there.
    pub(super) fn serve_whole_block(&mut self) {
        let (offset, words) = self.random.pick(&[(0, 1176), (16, 1024), (24, 1162), WHOLE_PARITY, WHOLE_PARITY]);
        let command = Call::Command { code: 0x28 };
        self.plan.extend([Call::Window { offset, words }, command, write(0x17, 0x04)]);
    }

    /// Moves a small window over the oldest block. Each transfer is aborted
    /// before its last word, so the block stays and its bytes can be seen at
    /// many places.
    pub(super) fn sweep(&mut self) {
        for _ in 0..self.random.between(1, 8) {
            let near = self.random.pick(&TELLING_OFFSETS);
            let far = self.random.between(0, 2348);
            let offset = self.random.pick(&[near, near, far]);
            let window = Call::Window { offset, words: 2 };
            let command = Call::Command { code: 0x28 };
            self.plan.extend([window, command, write(0x17, 0x04), Call::Word, Call::Srst]);
        }
    }

    pub(super) fn skip(&mut self, chip: &Chip) -> Call {
        write(0x9E, self.random.between(0, chip.tcc as u16 + 1).min(3))
    }

    pub(super) fn withdraw(&mut self, chip: &Chip) -> Call {
        let count = self.random.between(0, chip.tcc as u16 + 1);
        if chip.decen {
            return self.then(write(0x0A, 0x00), &[write(0x9D, count), write(0x0A, 0x80)]);
        }
        write(0x9D, count)
    }

    pub(super) fn limit(&mut self, chip: &Chip) -> Call {
        let select = self.random.pick(&[0x20, 0x30]);
        let limit = self.random.between(1, chip.blocks as u16 - 1);
        let rest = [write(0x9A, select), write(0x9B, limit), write(0x0A, 0x80)];
        self.then(write(0x0A, 0x00), &rest)
    }

    /// What a decoder that is on refuses, with values that are otherwise
    /// right or are even the present ones.
    pub(super) fn meddling_with_decoder(&mut self, chip: &Chip) -> Call {
        match self.random.below(6) {
            0 => write(0x9A, 0x20),
            1 => write(0x9A, 0x30),
            2 => write(0x9B, 1),
            3 => write(0x9C, 0x40),
            4 => write(0x9D, chip.tcc as u16),
            _ => Call::Address { address: chip.expected },
        }
    }

    /// Often to the disc's last address.
    pub(super) fn move_on_disc(&mut self) -> Call {
        let (wrong, any) = (self.random.pick(&WRONG_ADDRESSES), self.any_address());
        let address = self.random.pick(&[wrong, any, any, any, LAST_ADDRESS]);
        self.then(write(0x0A, 0x00), &[Call::Address { address }, write(0x0A, 0x80)])
    }

    pub(super) fn move_in_ring(&mut self, chip: &Chip) -> Call {
        let number = self.random.between(0, chip.blocks as u16);
        // With good blocks left the move is refused, which is tried too.
        let left = self.random.pick(&[0, 0, chip.tcc as u16]);
        let rest = [write(0x9D, left), Call::Block { number }, write(0x0A, 0x80)];
        self.then(write(0x0A, 0x00), &rest)
    }

    /// Often an end of the range, where carrying goes wrong.
    pub(super) fn any_address(&mut self) -> Address {
        let minute = self.random.pick(&[0, 9, 10, 59, 98, 99, 99]);
        let second = self.random.pick(&[0, 2, 9, 19, 58, 59, 59]);
        let frame = self.random.pick(&[0, 9, 39, 72, 73, 74, 74]);
        Address::new(minute, second, frame)
    }

    pub(super) fn read(&mut self) -> Call {
        Call::Read { reg: self.random.pick(&READABLE) }
    }

    /// A call that changes much, and looks at what it has left.
    pub(super) fn survey(&mut self, first: Call) -> Call {
        for _ in 0..self.random.below(5) {
            let read = self.read();
            self.plan.push_back(read);
        }
        first
    }
}
